//! The C calls of a series by one kind. What C asks of who calls is kept as `raw.rs` says.

use std::ffi::c_void;

use super::{Series, Slot};
use crate::raw::answers::SeriesReduced;
use crate::raw::{ALL_SIX, Ends, Many, Says, Scanned, SixValues, Summed, calls, cells, roomy};
use crate::{Column, Refusal, RefusedAt};

unsafe extern "C" {
    fn livevec_series_write_many(slot: *mut Slot, indices: *const u64, values: *const i64, length: usize) -> Many<u64>;
    fn livevec_series_value_many(slot: *mut Slot, kind: u32, ranges: *const Ends<u64>, answers: *mut SixValues, length: usize)
    -> Many<u64>;
    fn livevec_series_scan(
        slot: *mut Slot,
        kind: u32,
        inclusive: bool,
        lo: u64,
        at: u64,
        hi: u64,
        column: *mut c_void,
        length: usize,
    ) -> Scanned<u64>;
}

calls! { Series:
    prepare(kind: u32) -> u32 = livevec_series_prepare;
    value(kind: u32, lo: u64, hi: u64) -> SeriesReduced = livevec_series_value;
    exact_sum(lo: u64, hi: u64) -> Summed<u64> = livevec_series_exact_sum;
}

impl Series {
    /// Fills the front of a column with the running values of a range by a kind.
    pub(crate) fn scan_into<K: Column>(
        &self,
        inclusive: bool,
        lo: u64,
        at: u64,
        hi: u64,
        column: &mut [K::Cell],
    ) -> Result<Scanned<u64>, Refusal> {
        let length = column.len();
        // SAFETY: as for each call of `calls.rs`; at most so many cells are written as the column has.
        unsafe { livevec_series_scan(self.at(), K::KIND as u32, inclusive, lo, at, hi, cells::<K>(column), length) }.answered()
    }

    /// The same by all six kinds.
    pub(crate) fn scan_six(&self, inclusive: bool, lo: u64, at: u64, hi: u64, buffer: &mut [SixValues]) -> Result<Scanned<u64>, Refusal> {
        // SAFETY: as for each call of `calls.rs`; at most so many values are written as the buffer has.
        unsafe { livevec_series_scan(self.at(), ALL_SIX, inclusive, lo, at, hi, buffer.as_mut_ptr().cast(), buffer.len()) }.answered()
    }

    /// Writes so many values under as many indices.
    pub(crate) fn write_many(&self, indices: &[u64], values: &[i64]) -> Result<u64, RefusedAt> {
        debug_assert_eq!(indices.len(), values.len());
        // SAFETY: as for each call of `calls.rs`; so many indices and values are read from slices that have them.
        unsafe { livevec_series_write_many(self.at(), indices.as_ptr(), values.as_ptr(), indices.len()) }.all()
    }

    /// The values of each range by a kind.
    pub(crate) fn value_many(&self, kind: u32, ranges: &[Ends<u64>]) -> Result<Vec<SixValues>, RefusedAt> {
        let length = ranges.len();
        let mut values = roomy::<SixValues>(length).map_err(RefusedAt::of_all)?;
        // SAFETY: as for each call of `calls.rs`; so many ranges are read from a slice that has them, and the buffer has room for as many answers.
        unsafe { livevec_series_value_many(self.at(), kind, ranges.as_ptr(), values.as_mut_ptr(), length) }.all()?;
        // SAFETY: C has written an answer for each range, since it refused none, and the buffer has room for them.
        unsafe { values.set_len(length) };
        Ok(values)
    }
}
