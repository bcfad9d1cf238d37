//! The C calls that ask a vector: reductions, where something stands, and its summary.

use super::summary::Summarised;
use super::{Ends, Found, Many, Reduced, SixValues, Slot, Summed, Vector, Wanted, calls, roomy};
use crate::RefusedAt;

unsafe extern "C" {
    fn livevec_value_many(slot: *mut Slot, kind: u32, ranges: *const Ends<u32>, answers: *mut SixValues, length: usize) -> Many<u32>;
}

calls! { Vector:
    reduce(lo: u32, hi: u32) -> Reduced = livevec_reduce;
    ask(lo: u32, hi: u32) -> Reduced = livevec_ask;
    value(kind: u32, lo: u32, hi: u32) -> Reduced = livevec_value;
    exact_sum(lo: u32, hi: u32) -> Summed<u32> = livevec_exact_sum;
    find(wanted: Wanted, lo: u32, hi: u32, x: i64) -> Found<u32> = livevec_find;
    summary(lo: u32, hi: u32) -> Summarised = livevec_summary_of;
}

impl Vector {
    /// The values of each range by a kind.
    pub(crate) fn value_many(&self, kind: u32, ranges: &[Ends<u32>]) -> Result<Vec<SixValues>, RefusedAt> {
        let length = ranges.len();
        let mut values = roomy::<SixValues>(length).map_err(RefusedAt::of_all)?;
        // SAFETY: as for each call of `calls.rs`; so many ranges are read from a slice that has them, and the buffer has room for as many answers.
        unsafe { livevec_value_many(self.at(), kind, ranges.as_ptr(), values.as_mut_ptr(), length) }.all()?;
        // SAFETY: C has written an answer for each range, since it refused none, and the buffer has room for them.
        unsafe { values.set_len(length) };
        Ok(values)
    }
}
