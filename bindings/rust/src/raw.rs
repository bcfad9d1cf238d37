//! The C calls of `include/livevec.h`, and handles over them. All of the crate's `unsafe` is in this file, and in
//! those of the folder `raw`.
//!
//! What C asks of who calls, and how it is kept here:
//! - A slot starts as zeros: [`Slot::empty`].
//! - A slot is never copied or moved: it lies in a box of its own, which lives as long as the handle, and no one is given the slot itself.
//! - A call that edits has its slot for itself, and calls that read may be at one slot together: one waits until the other ends. A handle of a vector or
//!   a series is `Sync`, since the types over these make edits by `&mut self` alone. A handle of a set of queries, an outcome, a board or a seat is not
//!   `Sync`, so that its `&self` calls stay on one thread. None of the C calls calls back. A job's slot is used by calls that own or borrow the job alone.
//!
//! What only a handle that is borrowed alone may do is kept by the types over these: here each call takes `&self`.

mod answers;
pub(crate) mod blocks;
mod board;
mod calls;
mod jobs;
mod queries;
mod questions;
mod scans;
pub(crate) mod series;
mod summary;
pub(crate) mod transcripts;
mod vector;

use std::alloc::{Layout, alloc};
use std::cell::UnsafeCell;
use std::ffi::{CStr, c_char, c_void};
use std::ptr;

use answers::{Count, Element, Many, Number, PushedMany, Short, Summed, says};
pub(crate) use answers::{Edited, Ends, Found, Reduced, Says, Scanned, SeriesReduced, SixValues};
pub(crate) use board::{Board, Seat};
use calls::{ALL_SIX, array_calls, buffer_calls, calls, cells, counts};
pub(crate) use calls::{EditKind, Wanted};
pub(crate) use jobs::{Job, Outcome};
pub use queries::Target;
pub(crate) use queries::{MOST_QUERIES, NAME_BYTES, Note, Queries, Query};
pub(crate) use summary::{Opened, SummaryBytes, extended, joined, opened, summary_of_nothing, summary_of_nothing_with_table};
pub(crate) use vector::Vector;

use crate::Refusal;

/// A slot of C: `livevec_vector`, `livevec_queries`, `livevec_job`, `livevec_outcome`, `livevec_board` and `livevec_seat` are alike.
#[repr(C)]
struct Slot {
    full: bool,
    at: *mut c_void,
    busy: u8,
}

/// A slot in a box of its own.
type Boxed = Box<UnsafeCell<Slot>>;

impl Slot {
    /// All zeros.
    fn empty() -> UnsafeCell<Slot> {
        UnsafeCell::new(Slot { full: false, at: ptr::null_mut(), busy: 0 })
    }

    /// One that a call of C fills: it is given a slot that is empty, and lies in its box until it is dropped.
    fn filled<S: Says>(call: impl FnOnce(*mut Slot) -> S) -> Result<(Boxed, S), Refusal> {
        let slot = boxed(Slot::empty())?;
        let told = call(slot.get()).answered()?;
        Ok((slot, told))
    }
}

unsafe extern "C" {
    fn livevec_free_slot(slot: *mut Slot, sort: Sort) -> u32;
    fn livevec_version() -> *const c_char;
}

/// The version that the library says it has.
pub(crate) fn version() -> &'static str {
    // SAFETY: the answer is never null, and a text of C that lasts as long as the program
    let text = unsafe { CStr::from_ptr(livevec_version()) };
    text.to_str().unwrap_or_default()
}

/// What a slot holds that is freed: a `livevec_sort` of C.
#[repr(u32)]
enum Sort {
    Vector = 0,
    Job = 1,
    Outcome = 2,
    Batch = 3,
    Board = 4,
    Seat = 5,
    Series = 6,
    Queries = 7,
}

/// A value in a box of its own; refused with `NoMemory` where there is none, for `Box::new` would end the process.
fn boxed<T>(value: T) -> Result<Box<T>, Refusal> {
    const { assert!(size_of::<T>() > 0) };
    // SAFETY: the layout is that of T, whose size is above 0.
    let at = unsafe { alloc(Layout::new::<T>()) }.cast::<T>();
    if at.is_null() {
        return Err(Refusal::NoMemory);
    }
    // SAFETY: `at` is fresh memory of T's layout from the global allocator, which is what a box owns; it is written before it is owned.
    unsafe {
        at.write(value);
        Ok(Box::from_raw(at))
    }
}

/// A buffer with room for so many values; refused with `NoMemory` where there is none.
pub(crate) fn roomy<T>(length: usize) -> Result<Vec<T>, Refusal> {
    let mut buffer = Vec::new();
    buffer.try_reserve_exact(length).map_err(|_| Refusal::NoMemory)?;
    Ok(buffer)
}
