//! The C calls that lend elements of a series. What C asks of who calls is kept as `raw.rs` says.

use std::slice;

use super::{Series, Slot};
use crate::Refusal;
use crate::raw::answers::Long;
use crate::raw::{calls, says};

#[repr(C)]
pub(crate) struct View {
    said: Long,
    edit: u64,
    elements: *const i64,
    length: u64,
}

says!(View);

calls! { Series:
    view(lo: u64, hi: u64) -> View = livevec_series_lend;
}

unsafe extern "C" {
    fn livevec_series_give_back(slot: *mut Slot) -> u32;
}

/// Elements that are lent until the drop. No call is at the slot meanwhile, since the series is borrowed.
pub(crate) struct Lent<'a> {
    series: &'a mut Series,
    elements: *const i64,
    length: usize,
    pub(crate) edit: u64,
}

impl Series {
    pub(crate) fn lend(&mut self, lo: u64, hi: u64) -> Result<Lent<'_>, Refusal> {
        let View { edit, elements, length, .. } = self.view(lo, hi)?;
        Ok(Lent { series: self, elements, length: length as usize, edit })
    }
}

impl Lent<'_> {
    pub(crate) fn elements(&self) -> &[i64] {
        if self.length == 0 {
            return &[];
        }
        // SAFETY: so many elements lie there, and nobody writes them until they are given back, which is at the drop.
        unsafe { slice::from_raw_parts(self.elements, self.length) }
    }
}

impl Drop for Lent<'_> {
    fn drop(&mut self) {
        // SAFETY: the slot lies in its box, and the elements aren't read again.
        unsafe { livevec_series_give_back(self.series.at()) };
    }
}
