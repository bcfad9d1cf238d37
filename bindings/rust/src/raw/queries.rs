//! The C calls of standing queries, and a handle over them.

use std::cell::UnsafeCell;

use super::answers::SeriesReduced;
use super::series::Series;
use super::{Boxed, Number, Reduced, Says, Short, SixValues, Slot, Sort, Vector, livevec_free_slot, roomy, says};
use crate::{Kind, Refusal};

/// How many bytes the name of a standing query has at most, and how many queries a set has.
pub(crate) const NAME_BYTES: usize = 16;
pub(crate) const MOST_QUERIES: usize = 64;

/// What a query is told: `livevec_note`.
#[repr(C)]
#[derive(Clone, Copy)]
pub(crate) struct Note {
    pub(crate) name: [u8; NAME_BYTES + 1],
    kind: u32,
    pub(crate) edit: u32,
    pub(crate) values: SixValues,
}

impl Note {
    pub(crate) fn kind(&self) -> Kind {
        Kind::ALL[self.kind as usize]
    }
}

/// How many notes there are, by a vector or by a series. Each note has the last edit.
#[repr(C)]
struct Noted<N: Number> {
    said: Short,
    _edit: N,
    count: u32,
}

says!(Noted<N>);

/// What a query asks: `livevec_query`.
#[repr(C)]
#[derive(Clone, Copy, Debug)]
pub(crate) struct Query {
    pub(crate) kind: u32,
    pub(crate) span: u32,
    pub(crate) bound: u32,
    pub(crate) lo: u64,
    pub(crate) hi: u64,
    pub(crate) x: i64,
}

/// What is asked: a vector, or a series, or samples, whose slot is one of a series.
#[allow(missing_debug_implementations)]
pub struct Target<'a> {
    slot: &'a UnsafeCell<Slot>,
    is_vector: bool,
}

impl Target<'_> {
    pub(crate) fn of_vector(vector: &Vector) -> Target<'_> {
        Target { slot: &vector.slot, is_vector: true }
    }

    pub(crate) fn of_series(series: &Series) -> Target<'_> {
        Target { slot: &series.slot, is_vector: false }
    }
}

unsafe extern "C" {
    fn livevec_queries_new(slot: *mut Slot) -> u32;
    fn livevec_watch_query(slot: *mut Slot, name: *const u8, name_length: usize, query: *const Query) -> u32;
    fn livevec_unwatch(slot: *mut Slot, name: *const u8, name_length: usize) -> u32;
    fn livevec_answer(slot: *mut Slot, vector: *mut Slot, name: *const u8, name_length: usize) -> Reduced;
    fn livevec_notes(slot: *mut Slot, vector: *mut Slot, notes: *mut Note, room: usize) -> Noted<u32>;
    fn livevec_series_answer(slot: *mut Slot, series: *mut Slot, name: *const u8, name_length: usize) -> SeriesReduced;
    fn livevec_series_notes(slot: *mut Slot, series: *mut Slot, notes: *mut Note, room: usize) -> Noted<u64>;
}

/// A set of standing queries of C. Its slot is full from `new` to the drop.
pub(crate) struct Queries {
    slot: Boxed,
}

// SAFETY: between calls a slot may go to another thread, says the header; the memory behind it is from malloc. It is not `Sync`, by its cell.
unsafe impl Send for Queries {}

impl Queries {
    pub(crate) fn new() -> Result<Queries, Refusal> {
        // SAFETY: the slot is as `filled` says.
        let (slot, _) = Slot::filled(|slot| unsafe { livevec_queries_new(slot) })?;
        Ok(Queries { slot })
    }

    // For each call below: the slots are full, since `self` and what is asked were made. No other call is at the set, which is not `Sync`, and only reads
    // are at what is asked, as this is one there. So many bytes of a name are read from a slice that has them.

    pub(crate) fn watch(&mut self, name: &[u8], query: &Query) -> Result<(), Refusal> {
        // SAFETY: see above.
        unsafe { livevec_watch_query(self.slot.get(), name.as_ptr(), name.len(), query) }.answered().map(drop)
    }

    pub(crate) fn unwatch(&mut self, name: &[u8]) -> Result<(), Refusal> {
        // SAFETY: see above.
        unsafe { livevec_unwatch(self.slot.get(), name.as_ptr(), name.len()) }.answered().map(drop)
    }

    /// The last edit, and the values.
    pub(crate) fn answer(&self, of: Target<'_>, name: &[u8]) -> Result<(u64, SixValues), Refusal> {
        let (set, at, bytes, length) = (self.slot.get(), of.slot.get(), name.as_ptr(), name.len());
        if of.is_vector {
            // SAFETY: see above.
            let did = unsafe { livevec_answer(set, at, bytes, length) }.answered()?;
            return Ok((did.edit.into(), did.values));
        }
        // SAFETY: see above.
        let did = unsafe { livevec_series_answer(set, at, bytes, length) }.answered()?;
        Ok((did.edit, did.values))
    }

    /// The notes that there are, all of them.
    pub(crate) fn notes(&mut self, of: Target<'_>) -> Result<Vec<Note>, Refusal> {
        let mut notes = roomy::<Note>(MOST_QUERIES)?;
        let (set, at, places) = (self.slot.get(), of.slot.get(), notes.as_mut_ptr());
        let count = if of.is_vector {
            // SAFETY: see above; at most so many notes are written as the buffer has room for.
            unsafe { livevec_notes(set, at, places, MOST_QUERIES) }.answered()?.count
        } else {
            // SAFETY: the same.
            unsafe { livevec_series_notes(set, at, places, MOST_QUERIES) }.answered()?.count
        };
        let count = count as usize;
        assert!(count <= MOST_QUERIES);
        // SAFETY: C has written so many notes, and the buffer has room for them.
        unsafe { notes.set_len(count) };
        Ok(notes)
    }
}

impl Drop for Queries {
    fn drop(&mut self) {
        // SAFETY: the slot is full, and nothing calls it any more.
        unsafe { livevec_free_slot(self.slot.get(), Sort::Queries) };
    }
}
