//! What the C calls answer, laid out as C has it. Those of a vector and of a series differ in the width of their numbers, and in what they say of a
//! refusal.

use crate::{Refusal, RefusedAt};

/// What says whether it refuses.
pub(crate) trait Says: Sized {
    /// Why, if it refuses.
    fn refusal(&self) -> Option<Refusal>;

    /// All of it, unless it refuses.
    fn answered(self) -> Result<Self, Refusal> {
        self.refusal().map_or(Ok(self), Err)
    }
}

impl Says for u32 {
    fn refusal(&self) -> Option<Refusal> {
        (*self != 0).then(|| Refusal::of(*self, 0))
    }
}

/// A refusal of a vector, with its detail: an answer begins with it.
#[repr(C)]
pub(crate) struct Short {
    pub(super) number: u32,
    pub(super) detail: u32,
}

impl Says for Short {
    fn refusal(&self) -> Option<Refusal> {
        (self.number != 0).then(|| Refusal::of(self.number, self.detail))
    }
}

/// A refusal of a series, with the indices that are kept.
#[repr(C)]
pub(crate) struct Long {
    pub(super) number: u32,
    first: u64,
    size: u64,
}

impl Says for Long {
    fn refusal(&self) -> Option<Refusal> {
        match self.number {
            3 => Some(Refusal::NotKept { first: self.first as usize, size: self.size as usize }),
            number => number.refusal(),
        }
    }
}

/// The numbers of a vector, or of a series.
pub(crate) trait Number {
    /// How its answers begin.
    type Said: Says;
}

impl Number for u32 {
    type Said = Short;
}

impl Number for u64 {
    type Said = Long;
}

#[repr(C)]
pub(crate) struct Edited<N: Number> {
    pub(super) said: N::Said,
    pub(crate) edit: N,
    pub(crate) place: N,
    pub(crate) value: i64,
}

#[repr(C)]
pub(crate) struct Many<N: Number> {
    pub(super) said: N::Said,
    edit: N,
    pub(super) done: usize,
    pub(super) place: usize,
}

impl<N: Number> Many<N> {
    /// The number of the last edit, where none was refused.
    pub(super) fn all(self) -> Result<N, RefusedAt> {
        match self.said.refusal() {
            None => Ok(self.edit),
            Some(refusal) => Err(RefusedAt { place: self.place, done: self.done, refusal }),
        }
    }
}

/// What many pushes answer: all are made, or none.
#[repr(C)]
pub(crate) struct PushedMany {
    said: Short,
    _edit: u32,
    _pushed: u32,
}

#[repr(C)]
pub(crate) struct SeriesPushedMany {
    said: u32,
    pub(crate) edit: u64,
    _pushed: u64,
}

#[repr(C)]
pub(crate) struct Count<N: Number> {
    said: u32,
    pub(crate) value: N,
}

#[repr(C)]
pub(crate) struct Element<N: Number> {
    said: N::Said,
    pub(crate) value: i64,
}

#[repr(C)]
#[derive(Clone, Copy)]
pub(crate) struct SixValues {
    pub(crate) sum: u64,
    pub(crate) least: i64,
    pub(crate) greatest: i64,
    pub(crate) best_low: u64,
    pub(crate) best_high: i64,
    pub(crate) affine_a: u32,
    pub(crate) affine_b: u32,
    pub(crate) automaton: [u8; 8],
    pub(crate) any: bool,
}

/// What a reduction of a vector answers; that of a series reads by trees, and counts nothing.
#[repr(C)]
pub(crate) struct Reduced {
    said: Short,
    pub(crate) edit: u32,
    pub(crate) cells: u32,
    pub(crate) summaries: u32,
    pub(crate) values: SixValues,
}

#[repr(C)]
pub(crate) struct SeriesReduced {
    said: Long,
    pub(crate) edit: u64,
    pub(crate) values: SixValues,
}

#[repr(C)]
pub(crate) struct Scanned<N: Number> {
    said: N::Said,
    pub(crate) edit: N,
    pub(crate) length: N,
}

/// A range of indices: `livevec_range`, `livevec_series_range`.
#[repr(C)]
#[derive(Clone, Copy)]
pub(crate) struct Ends<N> {
    pub(crate) lo: N,
    pub(crate) hi: N,
}

/// Where something stands in a range: `livevec_found`, `livevec_series_found`. The last edit is asked for by itself.
#[repr(C)]
pub(crate) struct Found<N: Number> {
    said: N::Said,
    _edit: N,
    pub(crate) lo: N,
    pub(crate) hi: N,
    pub(crate) value: i64,
    pub(crate) sum_low: u64,
    pub(crate) sum_high: i64,
    pub(crate) found: bool,
}

/// A number of 128 bits: `livevec_total`.
#[repr(C)]
pub(crate) struct Total {
    low: u64,
    high: i64,
}

impl Total {
    pub(crate) fn exact(&self) -> i128 {
        crate::places::total(self.high, self.low)
    }
}

/// An exact sum. The last edit is asked for by itself.
#[repr(C)]
pub(crate) struct Summed<N: Number> {
    said: N::Said,
    _edit: N,
    pub(crate) sum: Total,
}

/// Of answers that begin with what they say of a refusal.
macro_rules! says {
    ($($answer:ident $(<$number:ident>)?),*) => {
        $(
            impl$(<$number: crate::raw::Number>)? crate::raw::Says for $answer$(<$number>)? {
                fn refusal(&self) -> Option<crate::Refusal> {
                    self.said.refusal()
                }
            }
        )*
    };
}
pub(super) use says;

says!(Edited<N>, Count<N>, Element<N>, Scanned<N>, Found<N>, Summed<N>, PushedMany, SeriesPushedMany, Reduced, SeriesReduced);
