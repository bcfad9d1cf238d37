//! The series: a vector that goes on. [`Series`] is the type; beside it stand what its edits and questions tell.

use std::fmt;

#[allow(deprecated)]
pub use crate::Stopped;
pub use crate::series_edits::{Dropped, Popped, Pushed, Swapped, Written};
pub use crate::series_kinds::Filled;
pub use crate::series_lent::Lent;
pub use crate::series_scans::Running;

/// The elements of a range of a [`Series`], which can't be edited meanwhile.
pub type Elements<'a> = Through<&'a Series>;

/// The elements of a [`Series`] that is used up by it.
pub type IntoElements = Through<Series>;

use crate::elements::Through;
use crate::indices::wide;
use crate::raw::EditKind;
use crate::{AsIndex, Indices, Kind, Refusal, RefusedAt, Value, Values, raw};

/// A vector of `i64` that goes on: its elements and edits are bounded by memory alone, and elements at its front may expire.
///
/// Indices count from the first element that was ever pushed. An element keeps its index for as long as it is kept: kept are those from
/// [`first`](Series::first) up to [`size`](Series::size). After an expiry there is memory for at most twice the elements that are kept,
/// and 64. What isn't kept is refused with [`Refusal::NotKept`], which tells what is.
///
/// For each kind that was asked for there is a tree, which each edit renews: so a value takes O(log n) joins. The first question by a kind
/// makes its tree.
///
/// Indices are [`AsIndex`], ranges [`Indices`]; where an end isn't told it is that of what is kept.
///
/// ```
/// use livevec::{Refusal, Series};
///
/// # fn main() -> Result<(), Refusal> {
/// let mut readings = Series::new()?;
/// readings.extend_from_slice(&[20, 22, 19, 25])?;
/// assert_eq!(readings.sum(..)?, 86);
/// assert_eq!(readings.expire(2)?.dropped, 2);
/// assert_eq!(readings.get(2)?, 19);
/// assert_eq!(readings.get(1), Err(Refusal::NotKept { first: 2, size: 4 }));
/// assert_eq!(readings.greatest(..)?, Some(25));
/// assert_eq!((readings.len(), readings.size(), readings.edits()), (2, 4, 5));
/// # Ok(())
/// # }
/// ```
///
/// It may be sent to another thread, and read by several through `&`, as a [`Vector`](crate::Vector) may.
pub struct Series {
    pub(crate) raw: raw::series::Series,
}

/// The answer of a reduction.
#[derive(Clone, Copy, Debug, PartialEq, Eq, Hash)]
pub struct Reduced {
    /// The last edit that was accepted, after which the range was read.
    pub edit: u64,
    /// The values of the range.
    pub values: Values,
}

/// An answer by one kind.
#[derive(Clone, Copy, Debug, PartialEq, Eq, Hash)]
pub struct Answered {
    /// After which edit it is so: the last one that was accepted.
    pub edit: u64,
    /// The answer.
    pub value: Value,
}

impl Series {
    /// A series without elements. O(1). Refused with `NoMemory` alone.
    pub fn new() -> Result<Series, Refusal> {
        Ok(Series { raw: raw::series::Series::new()? })
    }

    /// Puts an element at the end. O(1) amortised, and as much again for each tree. Refused with `Worn`, `Full`, `NoMemory`, in this order.
    pub fn push(&mut self, value: i64) -> Result<Pushed, Refusal> {
        self.raw.edit(EditKind::Push, 0, 0, value).map(|did| Pushed { edit: did.edit, index: did.place as usize })
    }

    /// Pushes each element in order, by one call: all are pushed, or none. Linear. Tells the number of the last edit.
    ///
    /// Refused as the first push that is refused would be, with `Worn` or `Full`, then with `NoMemory`. Nothing has changed then.
    pub fn extend_from_slice(&mut self, values: &[i64]) -> Result<u64, RefusedAt> {
        self.raw.push_many(values).map(|did| did.edit).map_err(RefusedAt::of_all)
    }

    /// Drops the last element. O(log n). Refused with `Worn`, `Empty`, in this order.
    pub fn pop(&mut self) -> Result<Popped, Refusal> {
        self.raw.edit(EditKind::Pop, 0, 0, 0).map(|did| Popped { edit: did.edit, value: did.value })
    }

    /// Overwrites an element. O(log n) for each tree. Refused with `Worn`, `NotKept`, in this order.
    pub fn write(&mut self, index: impl AsIndex, value: i64) -> Result<Written, Refusal> {
        self.raw.edit(EditKind::Write, wide(index), 0, value).map(|did| Written { edit: did.edit, before: did.value })
    }

    /// Exchanges the elements under two indices, which may be one. O(log n) for each tree. Refused with `Worn`, `NotKept`, in this order.
    pub fn swap(&mut self, first: impl AsIndex, second: impl AsIndex) -> Result<Swapped, Refusal> {
        self.raw.edit(EditKind::Swap, wide(first), wide(second), 0).map(|did| Swapped { edit: did.edit, first: did.value })
    }

    /// Drops the elements from an index on, which is [`size`](Series::size) then. O(log n). Refused with `Worn`, `NotKept`, in this order.
    pub fn truncate(&mut self, size: impl AsIndex) -> Result<Dropped, Refusal> {
        self.raw.edit(EditKind::Truncate, wide(size), 0, 0).map(|did| Dropped { edit: did.edit, dropped: did.place as usize })
    }

    /// Drops the elements before an index, which is [`first`](Series::first) then. The others keep their indices. O(1) amortised. It gives memory back,
    /// and is never refused for memory. Refused with `Worn`, `NotKept`, in this order.
    pub fn expire(&mut self, index: impl AsIndex) -> Result<Dropped, Refusal> {
        self.raw.edit(EditKind::Expire, wide(index), 0, 0).map(|did| Dropped { edit: did.edit, dropped: did.place as usize })
    }

    /// The element under an index. O(1). Refused with `NotKept` alone.
    pub fn get(&self, index: impl AsIndex) -> Result<i64, Refusal> {
        self.raw.get(wide(index)).map(|found| found.value)
    }

    /// The index of the first element that is kept; where none is, that of the next that is pushed. O(1).
    pub fn first(&self) -> usize {
        self.raw.first() as usize
    }

    /// The index behind the last element. O(1).
    pub fn size(&self) -> usize {
        self.raw.size() as usize
    }

    /// How many elements are kept. O(1).
    pub fn len(&self) -> usize {
        self.size() - self.first()
    }

    /// Whether no element is kept.
    pub fn is_empty(&self) -> bool {
        self.len() == 0
    }

    /// The number of the last edit, which is how many were accepted. O(1).
    pub fn edits(&self) -> u64 {
        self.raw.edits()
    }

    /// All six values of a range, by the trees that there are: linear in the range by each kind that has none, and each time. It takes no memory and
    /// makes no tree, so it is for a reader that is to leave everything as it is; else [`value`](Series::value) and [`ask`](Series::ask) are the
    /// calls. Refused with `BadRange`, `NotKept`, in this order.
    pub fn reduce(&self, range: impl Indices) -> Result<Reduced, Refusal> {
        let (lo, hi) = self.ends(range);
        self.raw.reduce(lo, hi).map(Reduced::of)
    }

    /// The same, making the tree of each kind first, where there is none, in O(n): then it is O(log n), and each edit renews six trees. Where one
    /// value is wanted, [`value`](Series::value) makes one. Refused with `BadRange`, `NotKept`, `NoMemory`, in this order.
    pub fn ask(&self, range: impl Indices) -> Result<Reduced, Refusal> {
        let (lo, hi) = self.ends(range);
        self.raw.ask(lo, hi).map(Reduced::of)
    }

    /// The sum, which wraps where it does not fit an `i64`. It and the next three are by one kind: each costs what
    /// [`value`](Series::value) does, and is refused as it is.
    pub fn sum(&self, range: impl Indices) -> Result<i64, Refusal> {
        Ok(self.by_kind(Kind::Sum, range)?.sum)
    }

    /// The least element; none of an empty range.
    pub fn least(&self, range: impl Indices) -> Result<Option<i64>, Refusal> {
        Ok(self.by_kind(Kind::Least, range)?.least)
    }

    /// The greatest element; none of an empty range.
    pub fn greatest(&self, range: impl Indices) -> Result<Option<i64>, Refusal> {
        Ok(self.by_kind(Kind::Greatest, range)?.greatest)
    }

    /// The greatest total of one or more neighbours, which is exact; none of an empty range.
    pub fn best(&self, range: impl Indices) -> Result<Option<i128>, Refusal> {
        Ok(self.by_kind(Kind::Best, range)?.best)
    }

    /// Puts the elements of a range into a buffer, from its start on, as many as it takes; the rest of the buffer stays. Tells how many they
    /// are: the next piece starts behind them. Linear in the piece. Refused with `BadRange`, `NotKept`, in this order, and the buffer is as it was.
    ///
    /// ```
    /// # fn main() -> Result<(), livevec::Refusal> {
    /// let mut readings = livevec::Series::new()?;
    /// readings.extend_from_slice(&[20, 22, 19, 25, 24])?;
    /// let (mut lo, mut piece, mut all) = (readings.first(), [0; 2], Vec::<i64>::new());
    /// while lo < readings.size() {
    ///     let many = readings.read_into(lo.., &mut piece)?;
    ///     all.extend(&piece[..many]);
    ///     lo += many;
    /// }
    /// assert_eq!(all, [20, 22, 19, 25, 24]);
    /// # Ok(())
    /// # }
    /// ```
    pub fn read_into(&self, range: impl Indices, buffer: &mut [i64]) -> Result<usize, Refusal> {
        let (lo, hi) = self.ends(range);
        self.raw.read(lo, hi, buffer).map(|did| did.length as usize)
    }

    /// A copy of the elements of a range. Linear. Refused as [`read_into`](Series::read_into), then with `NoMemory`.
    pub fn to_vec(&self, range: impl Indices) -> Result<Vec<i64>, Refusal> {
        let (lo, hi) = self.ends(range);
        self.raw.read(lo, hi, &mut [])?;
        let length = (hi - lo) as usize;
        let mut elements = raw::roomy(length)?;
        elements.resize(length, 0);
        self.raw.read(lo, hi, &mut elements)?;
        Ok(elements)
    }

    /// The values of the elements from the range's start up to each of them, that one included. It is computed a piece at a time, as it is
    /// taken, one step for each, and the series can't be edited meanwhile. Of more than one piece the tree of each kind is made first. Refused with `BadRange`,
    /// `NotKept`, `NoMemory`, in this order.
    ///
    /// ```
    /// # fn main() -> Result<(), livevec::Refusal> {
    /// let mut readings = livevec::Series::new()?;
    /// readings.extend_from_slice(&[20, 22, 19])?;
    /// assert_eq!(readings.scan_inclusive(..)?.map(|values| values.sum).collect::<Vec<_>>(), [20, 42, 61]);
    /// assert_eq!(readings.scan_exclusive(1..)?.map(|values| values.sum).collect::<Vec<_>>(), [0, 22]);
    /// # Ok(())
    /// # }
    /// ```
    pub fn scan_inclusive(&self, range: impl Indices) -> Result<Running<'_>, Refusal> {
        self.running(true, range)
    }

    /// The same, that one excluded.
    pub fn scan_exclusive(&self, range: impl Indices) -> Result<Running<'_>, Refusal> {
        self.running(false, range)
    }

    fn running(&self, inclusive: bool, range: impl Indices) -> Result<Running<'_>, Refusal> {
        let (lo, hi) = self.ends(range);
        self.raw.scan_six(inclusive, lo, lo, hi, &mut [])?;
        Running::new(self, inclusive, lo, hi)
    }

    /// What a range starts and ends with. What C can't be given it is given as a range that it refuses alike.
    pub(crate) fn ends(&self, range: impl Indices) -> (u64, u64) {
        let (lo, hi) = range.ends();
        let lo = lo.unwrap_or_else(|| i128::from(self.raw.first()));
        let hi = hi.unwrap_or_else(|| i128::from(self.raw.size()));
        match (u64::try_from(lo), u64::try_from(hi)) {
            (Ok(lo), Ok(hi)) => (lo, hi),
            _ if lo > hi => (1, 0),
            _ => (u64::MAX, u64::MAX),
        }
    }
}

impl fmt::Debug for Series {
    fn fmt(&self, f: &mut fmt::Formatter<'_>) -> fmt::Result {
        f.debug_struct("Series")
            .field("first", &self.first())
            .field("size", &self.size())
            .field("edits", &self.edits())
            .finish_non_exhaustive()
    }
}

impl Reduced {
    fn of(raw: raw::SeriesReduced) -> Reduced {
        Reduced { edit: raw.edit, values: Values::of_raw(raw.values) }
    }
}
