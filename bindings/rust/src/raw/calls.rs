//! How calls of C are declared, and made at the slot of a handle: by a row for each. A handle has `at`, which leads to its slot.
//!
//! For each of these calls the slot is full, since its handle was made. No other call is at it but reads beside a read, as `raw.rs` says. What is passed
//! besides is plain, or so much of an array as there is.

use std::ffi::c_void;

use crate::{Column, Kind};

/// Calls that are given plain numbers: each answers all that C answers, unless it refuses.
macro_rules! calls {
    ($of:ident: $($(#[$doc:meta])* $name:ident($($given:ident: $type:ty),*) -> $answer:ty = $call:ident;)*) => {
        unsafe extern "C" {
            $(fn $call(slot: *mut crate::raw::Slot $(, $given: $type)*) -> $answer;)*
        }

        impl $of {
            $(
                $(#[$doc])*
                pub(crate) fn $name(&self $(, $given: $type)*) -> Result<$answer, crate::Refusal> {
                    // SAFETY: see the head of this file.
                    crate::raw::Says::answered(unsafe { $call(self.at() $(, $given)*) })
                }
            )*
        }
    };
}
pub(super) use calls;

/// Counts, which a slot that is full has.
macro_rules! counts {
    ($of:ident, $number:ty: $($name:ident = $call:ident;)*) => {
        unsafe extern "C" {
            $(fn $call(slot: *mut crate::raw::Slot) -> crate::raw::Count<$number>;)*
        }

        impl $of {
            $(
                pub(crate) fn $name(&self) -> $number {
                    // SAFETY: see the head of this file.
                    unsafe { $call(self.at()) }.value
                }
            )*
        }
    };
}
pub(super) use counts;

/// Calls that read an array of the caller's.
macro_rules! array_calls {
    ($of:ident: $($(#[$doc:meta])* $name:ident($array:ident: $element:ty) -> $answer:ty = $call:ident;)*) => {
        unsafe extern "C" {
            $(fn $call(slot: *mut crate::raw::Slot, $array: *const $element, length: usize) -> $answer;)*
        }

        impl $of {
            $(
                $(#[$doc])*
                pub(crate) fn $name(&self, $array: &[$element]) -> Result<$answer, crate::Refusal> {
                    // SAFETY: see the head of this file.
                    crate::raw::Says::answered(unsafe { $call(self.at(), $array.as_ptr(), $array.len()) })
                }
            )*
        }
    };
}
pub(super) use array_calls;

/// Calls that fill the front of a buffer, and tell how much of it.
macro_rules! buffer_calls {
    ($of:ident, $number:ty: $($(#[$doc:meta])* $name:ident($($given:ident: $type:ty),*; $element:ty) = $call:ident;)*) => {
        unsafe extern "C" {
            $(fn $call(slot: *mut crate::raw::Slot, $($given: $type,)* buffer: *mut $element, length: usize) -> crate::raw::Scanned<$number>;)*
        }

        impl $of {
            $(
                $(#[$doc])*
                pub(crate) fn $name(&self, $($given: $type,)* buffer: &mut [$element]) -> Result<crate::raw::Scanned<$number>, crate::Refusal> {
                    // SAFETY: see the head of this file.
                    crate::raw::Says::answered(unsafe { $call(self.at(), $($given,)* buffer.as_mut_ptr(), buffer.len()) })
                }
            )*
        }
    };
}
pub(super) use buffer_calls;

/// What an edit is: a `livevec_edit_kind` of C.
#[repr(u32)]
#[derive(Clone, Copy)]
pub(crate) enum EditKind {
    Push = 1,
    Pop = 2,
    Write = 3,
    Reserve = 4,
    Swap = 5,
    Truncate = 6,
    Expire = 7,
}

/// What a search looks for: a `livevec_wanted` of C.
#[repr(u32)]
#[derive(Clone, Copy)]
pub(crate) enum Wanted {
    Least = 0,
    Greatest = 1,
    Best = 2,
    Reaches = 3,
    ReachesBack = 4,
    FirstAtLeast = 5,
    FirstAtMost = 6,
    LastAtLeast = 7,
    LastAtMost = 8,
}

/// In place of a kind's number, where a scan is by all six: `LIVEVEC_ALL_SIX`.
pub(super) const ALL_SIX: u32 = 6;

/// The cells of a column as C takes them. They are plain numbers of the size of C's, and are laid out like them: a total is one number of 128 bits whose
/// low half comes first.
pub(super) fn cells<K: Column>(column: &mut [K::Cell]) -> *mut c_void {
    assert_eq!(size_of::<K::Cell>(), if K::KIND == Kind::Best { 16 } else { 8 });
    column.as_mut_ptr().cast()
}
