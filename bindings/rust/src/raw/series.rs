//! The C calls of a series, and a handle over them. What C asks of who calls is kept as `raw.rs` says.

mod kinds;
mod lent;
mod samples;
mod saved;

use super::answers::{SeriesPushedMany, SeriesReduced};
use super::{Boxed, EditKind, Edited, Element, Found, Slot, Sort, Wanted, array_calls, buffer_calls, calls, counts, livevec_free_slot};
use crate::Refusal;
pub(crate) use lent::Lent;
pub(crate) use saved::Loading;

/// A series of C. Its slot is full from `new` to the drop.
pub(crate) struct Series {
    pub(super) slot: Boxed,
}

// SAFETY: as of a vector: between calls a slot may go to another thread.
unsafe impl Send for Series {}
// SAFETY: as of a vector: reads may be made by several threads.
unsafe impl Sync for Series {}

unsafe extern "C" {
    fn livevec_series_new(slot: *mut Slot) -> u32;
}

impl Series {
    pub(crate) fn new() -> Result<Series, Refusal> {
        // SAFETY: the slot is as `filled` says.
        let (slot, _) = Slot::filled(|slot| unsafe { livevec_series_new(slot) })?;
        Ok(Series { slot })
    }

    pub(super) fn at(&self) -> *mut Slot {
        self.slot.get()
    }
}

calls! { Series:
    edit(kind: EditKind, index: u64, second: u64, value: i64) -> Edited<u64> = livevec_series_make_edit;
    get(index: u64) -> Element<u64> = livevec_series_get;
    reduce(lo: u64, hi: u64) -> SeriesReduced = livevec_series_reduce;
    ask(lo: u64, hi: u64) -> SeriesReduced = livevec_series_ask;
    find(wanted: Wanted, lo: u64, hi: u64, x: i64) -> Found<u64> = livevec_series_find;
}
array_calls! { Series:
    /// Where one is refused none is pushed.
    push_many(values: i64) -> SeriesPushedMany = livevec_series_push_many;
}
buffer_calls! { Series, u64:
    /// The elements of a range.
    read(lo: u64, hi: u64; i64) = livevec_series_read;
}
counts! { Series, u64:
    first = livevec_series_first;
    size = livevec_series_size;
    edits = livevec_series_edits;
}
impl Drop for Series {
    fn drop(&mut self) {
        // SAFETY: the slot is full, and is not used again.
        unsafe { livevec_free_slot(self.at(), Sort::Series) };
    }
}
