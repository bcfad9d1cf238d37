//! What edits and questions take and tell.

use std::fmt;

use crate::raw::SixValues;
use crate::{Indices, Refusal};

/// The values of a list of elements by each of the six kinds.
///
/// ```
/// # fn main() -> Result<(), livevec::Refusal> {
/// let mut vector = livevec::Vector::new()?;
/// vector.extend_from_slice(&[513, 768])?;
/// let values = vector.ask(..)?.values;
/// assert_eq!((values.sum, values.least, values.greatest), (1281, Some(513), Some(768)));
/// assert_eq!(values.best, Some(1281));
/// assert_eq!(values.affine, (6, 3));
/// assert_eq!(values.automaton, [2, 6, 2, 6, 2, 6, 2, 6]);
/// # Ok(())
/// # }
/// ```
#[derive(Clone, Copy, Debug, PartialEq, Eq, Hash)]
pub struct Values {
    /// The sum, which wraps where it does not fit an `i64`.
    pub sum: i64,
    /// The least element; none of an empty list.
    pub least: Option<i64>,
    /// The greatest element; none of an empty list.
    pub greatest: Option<i64>,
    /// The greatest total of one or more neighbours, exact; none of an empty list.
    pub best: Option<i128>,
    /// The map `y -> a * y + b` modulo 2^32 that the maps `y -> floor(x / 256) * y + x mod 256` make in order.
    pub affine: (u32, u32),
    /// The state that the elements lead to from each of the states 0 to 7.
    pub automaton: [u8; 8],
}

impl Values {
    pub(crate) fn of_raw(raw: SixValues) -> Values {
        let some = |value| raw.any.then_some(value);
        Values {
            sum: raw.sum.cast_signed(),
            least: some(raw.least),
            greatest: some(raw.greatest),
            best: raw.any.then_some(i128::from(raw.best_high) << 64 | i128::from(raw.best_low)),
            affine: (raw.affine_a, raw.affine_b),
            automaton: raw.automaton,
        }
    }
}

/// The answer of a reduction.
#[derive(Clone, Copy, Debug, PartialEq, Eq, Hash)]
pub struct Reduced {
    /// The edit after which the range was read: the last one that was accepted.
    pub edit: u32,
    /// How many elements were read for it.
    pub cells: u32,
    /// How many summaries were read for it.
    pub summaries: u32,
    /// The values of the range.
    pub values: Values,
}

impl Reduced {
    pub(crate) fn of(raw: crate::raw::Reduced) -> Reduced {
        Reduced { edit: raw.edit, cells: raw.cells, summaries: raw.summaries, values: Values::of_raw(raw.values) }
    }
}

/// An accepted push.
#[derive(Clone, Copy, Debug, PartialEq, Eq, Hash)]
pub struct Pushed {
    /// The number of this edit.
    pub edit: u32,
    /// Where the element stands.
    pub index: usize,
}

/// An accepted pop.
#[derive(Clone, Copy, Debug, PartialEq, Eq, Hash)]
pub struct Popped {
    /// The number of this edit.
    pub edit: u32,
    /// The element that stood at the end.
    pub value: i64,
}

/// An accepted overwrite.
#[derive(Clone, Copy, Debug, PartialEq, Eq, Hash)]
pub struct Written {
    /// The number of this edit.
    pub edit: u32,
    /// The element that stood there before.
    pub before: i64,
}

/// An accepted reserve.
#[derive(Clone, Copy, Debug, PartialEq, Eq, Hash)]
pub struct Reserved {
    /// The number of this edit.
    pub edit: u32,
    /// The capacity after it.
    pub capacity: usize,
}

/// An accepted swap.
#[derive(Clone, Copy, Debug, PartialEq, Eq, Hash)]
pub struct Swapped {
    /// The number of this edit.
    pub edit: u32,
    /// The element that stands at the first index now.
    pub first: i64,
}

/// An accepted truncate.
#[derive(Clone, Copy, Debug, PartialEq, Eq, Hash)]
pub struct Truncated {
    /// The number of this edit.
    pub edit: u32,
    /// How many elements were dropped.
    pub dropped: usize,
}

/// An edit of a vector, as [`Vector::verdict`](crate::Vector::verdict) is asked about it.
#[derive(Clone, Copy, Debug, PartialEq, Eq, Hash)]
pub enum Edit {
    /// An element at the end.
    Push(i64),
    /// The last element is dropped.
    Pop,
    /// An element is overwritten.
    Write {
        /// Where.
        index: usize,
        /// By what.
        value: i64,
    },
    /// Room for so many elements in all.
    Reserve(usize),
    /// Two elements change places.
    Swap {
        /// Where one of them stands.
        first: usize,
        /// Where the other stands.
        second: usize,
    },
    /// So many elements are kept, the first ones.
    Truncate(usize),
}

/// Many pushes, many writes, or many questions, of which one was refused. By `?` it becomes its [`Refusal`], so that a function has one error type.
#[derive(Clone, Copy, Debug, PartialEq, Eq, Hash)]
pub struct RefusedAt {
    /// Which one was refused, counted from 0; 0 where all were refused alike.
    pub place: usize,
    /// How many pushes or writes were made: none, but of [`Samples::push_many`](crate::Samples::push_many), which goes up to the one that was refused.
    pub done: usize,
    /// Why it was refused.
    pub refusal: Refusal,
}

/// As it was called of pushes.
#[deprecated(note = "it is `RefusedAt` now, whose `done` is what `pushed` was")]
pub type Stopped = RefusedAt;

impl RefusedAt {
    /// Where all were refused alike.
    pub(crate) fn of_all(refusal: Refusal) -> RefusedAt {
        RefusedAt { place: 0, done: 0, refusal }
    }
}

impl fmt::Display for RefusedAt {
    fn fmt(&self, f: &mut fmt::Formatter<'_>) -> fmt::Result {
        write!(f, "at place {}: {}", self.place, self.refusal)
    }
}

impl std::error::Error for RefusedAt {
    fn source(&self) -> Option<&(dyn std::error::Error + 'static)> {
        Some(&self.refusal)
    }
}

impl From<RefusedAt> for Refusal {
    fn from(refused: RefusedAt) -> Refusal {
        refused.refusal
    }
}

/// A node: level `l`, from 1 to 6, and number `m` has the `8^l` indices from `m * 8^l`.
#[derive(Clone, Copy, Debug, PartialEq, Eq, Hash)]
pub struct Node {
    /// From 1 to 6.
    pub level: u32,
    /// From 0 on.
    pub number: u32,
}

/// What became of an outcome that was delivered. None of the three changes an answer.
#[derive(Clone, Copy, Debug, PartialEq, Eq, Hash)]
pub enum Accepted {
    /// It is kept for its node now.
    Installed,
    /// What it says is kept already.
    Held,
    /// Its node was touched since by the edit `now`, or is no longer whole.
    Stale {
        /// The edit that touched the node last.
        now: u32,
    },
}

/// The start and the end of a range of indices, where `size` is the end of one that is open. What C can't be given it is given as a range that
/// it refuses alike.
pub(crate) fn ends(range: impl Indices, size: impl FnOnce() -> usize) -> (u32, u32) {
    let (lo, hi) = range.ends();
    let lo = lo.unwrap_or(0);
    let hi = hi.unwrap_or_else(|| size() as i128);
    match (u32::try_from(lo), u32::try_from(hi)) {
        (Ok(lo), Ok(hi)) => (lo, hi),
        _ if lo > hi => (1, 0),
        _ => (0, u32::MAX),
    }
}
