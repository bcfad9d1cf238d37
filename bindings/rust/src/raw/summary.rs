//! The C calls of summaries that travel.

use super::{Says, Short, SixValues, says};
use crate::Refusal;

/// The bytes of a summary that travels: `livevec_summary` has them and nothing else.
pub(crate) type SummaryBytes = [u8; 184];

#[repr(C)]
pub(crate) struct Summarised {
    said: Short,
    pub(crate) summary: SummaryBytes,
}

#[repr(C)]
pub(crate) struct Opened {
    said: u32,
    pub(crate) edit: u32,
    pub(crate) count: u64,
    pub(crate) values: SixValues,
    pub(crate) table: [[u8; 4]; 8],
    pub(crate) at_edit: bool,
}

says!(Summarised, Opened);

unsafe extern "C" {
    fn livevec_summary_empty() -> Summarised;
    fn livevec_summary_empty_with_table(table: *const [[u8; 4]; 8]) -> Summarised;
    fn livevec_summary_extend(summary: *const SummaryBytes, values: *const i64, length: usize) -> Summarised;
    fn livevec_summary_join(left: *const SummaryBytes, right: *const SummaryBytes) -> Summarised;
    fn livevec_summary_values(summary: *const SummaryBytes) -> Opened;
}

// Summaries are plain bytes. C reads what it is given during the call alone, and keeps nothing of it.

pub(crate) fn summary_of_nothing() -> SummaryBytes {
    // SAFETY: the call takes nothing.
    unsafe { livevec_summary_empty() }.summary
}

pub(crate) fn summary_of_nothing_with_table(table: &[[u8; 4]; 8]) -> Result<SummaryBytes, Refusal> {
    // SAFETY: see above; the table has 32 bytes as in C.
    Ok(unsafe { livevec_summary_empty_with_table(table) }.answered()?.summary)
}

pub(crate) fn extended(summary: &SummaryBytes, values: &[i64]) -> Result<SummaryBytes, Refusal> {
    // SAFETY: see above; so many elements are read from a slice that has them.
    Ok(unsafe { livevec_summary_extend(summary, values.as_ptr(), values.len()) }.answered()?.summary)
}

pub(crate) fn joined(left: &SummaryBytes, right: &SummaryBytes) -> Result<SummaryBytes, Refusal> {
    // SAFETY: see above.
    Ok(unsafe { livevec_summary_join(left, right) }.answered()?.summary)
}

/// What the bytes of a summary say, where they are sound.
pub(crate) fn opened(summary: &SummaryBytes) -> Result<Opened, Refusal> {
    // SAFETY: see above.
    unsafe { livevec_summary_values(summary) }.answered()
}
