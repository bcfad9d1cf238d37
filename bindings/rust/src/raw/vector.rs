//! The C calls at a vector that edit it and read its elements, and the handle over it.

use super::{
    Boxed, EditKind, Edited, Element, Many, PushedMany, Short, Slot, Sort, array_calls, buffer_calls, calls, counts, livevec_free_slot,
};
use crate::indices::narrow;
use crate::{Edit, Refusal, RefusedAt};

unsafe extern "C" {
    fn livevec_new(slot: *mut Slot, buckets: u32, edits: u32) -> u32;
    fn livevec_new_of(slot: *mut Slot, kind: u32, buckets: u32, edits: u32) -> u32;
    fn livevec_new_with_table(slot: *mut Slot, buckets: u32, edits: u32, table: *const [[u8; 4]; 8]) -> u32;
    fn livevec_write_many(slot: *mut Slot, indices: *const u32, values: *const i64, length: usize) -> Many<u32>;
}

/// A vector of C. Its slot is full from `new` to the drop.
pub(crate) struct Vector {
    pub(super) slot: Boxed,
}

// SAFETY: between calls a slot may go to another thread, says the header; the memory behind it is from malloc. A `Vector` that is sent is
// owned, so no call of it is under way.
unsafe impl Send for Vector {}
// SAFETY: reads of one slot may be made by several threads, says the header: one waits until the other ends, also where it keeps what it computes. All
// that `&self` of the type over this does are reads; and C itself refuses an edit beside another call.
unsafe impl Sync for Vector {}

impl Vector {
    pub(crate) fn new(buckets: u32, edits: u32) -> Result<Vector, Refusal> {
        // SAFETY: the slot is as `filled` says.
        let (slot, _) = Slot::filled(|slot| unsafe { livevec_new(slot, buckets, edits) })?;
        Ok(Vector { slot })
    }

    pub(crate) fn of_kind(kind: u32, buckets: u32, edits: u32) -> Result<Vector, Refusal> {
        // SAFETY: the slot is as `filled` says.
        let (slot, _) = Slot::filled(|slot| unsafe { livevec_new_of(slot, kind, buckets, edits) })?;
        Ok(Vector { slot })
    }

    pub(crate) fn with_table(buckets: u32, edits: u32, table: &[[u8; 4]; 8]) -> Result<Vector, Refusal> {
        // SAFETY: the slot is as `filled` says; the table is read during the call, 32 bytes as in C.
        let (slot, _) = Slot::filled(|slot| unsafe { livevec_new_with_table(slot, buckets, edits, table) })?;
        Ok(Vector { slot })
    }

    pub(super) fn at(&self) -> *mut Slot {
        self.slot.get()
    }

    /// Makes an edit.
    pub(crate) fn edit(&self, edit: Edit) -> Result<Edited<u32>, Refusal> {
        let (kind, index, second, value) = parts(edit);
        self.make(kind, index, second, value)
    }

    /// Why an edit would be refused, out of memory apart.
    pub(crate) fn verdict(&self, edit: Edit) -> Result<(), Refusal> {
        let (kind, index, second, value) = parts(edit);
        self.judge(kind, index, second, value).map(drop)
    }

    /// The last edit, where all were written; as many values as indices are given.
    pub(crate) fn write_many(&self, indices: &[u32], values: &[i64]) -> Result<u32, RefusedAt> {
        assert_eq!(indices.len(), values.len());
        // SAFETY: as for each call of `calls.rs`; so many indices and elements are read from slices that have them.
        unsafe { livevec_write_many(self.at(), indices.as_ptr(), values.as_ptr(), indices.len()) }.all()
    }
}

/// An edit as C takes it: what it is, its indices, and its element; 0 where it has none.
fn parts(edit: Edit) -> (EditKind, u32, u32, i64) {
    match edit {
        Edit::Push(value) => (EditKind::Push, 0, 0, value),
        Edit::Pop => (EditKind::Pop, 0, 0, 0),
        Edit::Write { index, value } => (EditKind::Write, narrow(index), 0, value),
        Edit::Reserve(elements) => (EditKind::Reserve, narrow(elements), 0, 0),
        Edit::Swap { first, second } => (EditKind::Swap, narrow(first), narrow(second), 0),
        Edit::Truncate(elements) => (EditKind::Truncate, narrow(elements), 0, 0),
    }
}

calls! { Vector:
    make(kind: EditKind, index: u32, second: u32, value: i64) -> Edited<u32> = livevec_make_edit;
    judge(kind: EditKind, index: u32, second: u32, value: i64) -> Short = livevec_judge_edit;
    get(index: u32) -> Element<u32> = livevec_get;
}
array_calls! { Vector:
    /// Where one is refused none is pushed.
    push_many(values: i64) -> PushedMany = livevec_push_many;
    /// The same of the elements of what was saved.
    push_saved(bytes: u8) -> PushedMany = livevec_push_saved;
}
buffer_calls! { Vector, u32:
    /// The elements of a range.
    read(lo: u32, hi: u32; i64) = livevec_read;
    /// The saved bytes from a place on.
    save(from: u64; u8) = livevec_save;
}
counts! { Vector, u32:
    saved_length = livevec_saved_length;
    size = livevec_size;
    capacity = livevec_capacity;
    edits = livevec_edits;
}

impl Drop for Vector {
    fn drop(&mut self) {
        // SAFETY: the slot is full, and nothing calls it any more.
        unsafe { livevec_free_slot(self.at(), Sort::Vector) };
    }
}
