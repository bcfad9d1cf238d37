//! Indices and ranges of indices, as calls take them.

use std::borrow::Cow;
use std::ops::{Bound, Range, RangeBounds, RangeFrom, RangeFull, RangeInclusive, RangeTo, RangeToInclusive};

use crate::Refusal;
use crate::raw::roomy;

/// An index, or a count of elements: a `usize`, a `u64`, a `u32`, or an `i32`.
///
/// `i32` is there for numbers that are written out, whose type nothing else tells. What no vector or series has, as a negative index, is refused as
/// any that is past the end. It can't be implemented elsewhere.
///
/// ```
/// use livevec::{Refusal, Series, Vector};
///
/// # fn main() -> Result<(), Refusal> {
/// let (mut prices, mut readings) = (Vector::try_from([300, 120])?, Series::try_from([300, 120])?);
/// let (place, number): (usize, u64) = (1, 0);
/// assert_eq!((prices.get(place)?, prices.get(number)?, prices.get(1_u32)?, prices.get(0)?), (120, 300, 120, 300));
/// assert_eq!((prices.write(place, 7)?.before, readings.write(place, 7)?.before), (120, 120));
/// assert_eq!(prices.get(usize::MAX), Err(Refusal::OutOfRange { size: 2 }));
/// assert_eq!(readings.get(-1), Err(Refusal::NotKept { first: 0, size: 2 }));
/// # Ok(())
/// # }
/// ```
pub trait AsIndex: Copy + sealed::Sealed {
    /// The number itself.
    #[doc(hidden)]
    fn exact(self) -> i128;

    /// Many of them as they are, where C takes them so: of a vector, and of a series.
    #[doc(hidden)]
    fn as_narrow(_: &[Self]) -> Option<&[u32]> {
        None
    }
    #[doc(hidden)]
    fn as_wide(_: &[Self]) -> Option<&[u64]> {
        None
    }
}

/// Many indices as C takes them: as they are, or as a copy. Refused with `NoMemory`.
pub(crate) fn many<'a, I: AsIndex, N: Clone>(
    indices: &'a [I],
    as_they_are: Option<&'a [N]>,
    each: impl Fn(I) -> N,
) -> Result<Cow<'a, [N]>, Refusal> {
    if let Some(indices) = as_they_are {
        return Ok(Cow::Borrowed(indices));
    }
    let mut copy = roomy(indices.len())?;
    copy.extend(indices.iter().map(|&index| each(index)));
    Ok(Cow::Owned(copy))
}

/// An index as C takes that of a vector; what C can't be given is given as one that it refuses.
pub(crate) fn narrow(index: impl AsIndex) -> u32 {
    u32::try_from(index.exact()).unwrap_or(u32::MAX)
}

/// An index as a `usize`; what no list has is one that is past the end of each.
pub(crate) fn exact(index: impl AsIndex) -> usize {
    usize::try_from(index.exact()).unwrap_or(usize::MAX)
}

/// An index as C takes that of a series; what C can't be given is given as one that it refuses.
pub(crate) fn wide(index: impl AsIndex) -> u64 {
    u64::try_from(index.exact()).unwrap_or(u64::MAX)
}

/// A range of indices: `..`, `3..`, `..8`, `2..8`, `2..=7`, `..=7` and pairs of [`Bound`]s, of any [`AsIndex`].
///
/// A range that no vector or series has, as one with a negative index, is refused as any that goes past the end. An end that is left out is that
/// of what there is: of a series what is kept.
///
/// ```
/// use livevec::{Refusal, Vector};
///
/// # fn main() -> Result<(), Refusal> {
/// let prices = Vector::try_from([300, 120, 500, 80])?;
/// let window: usize = 3;
/// assert_eq!(prices.sum(1..window)?, 620);
/// assert_eq!(prices.sum(..window as u32)?, 920);
/// assert_eq!(prices.sum(2..)?, 580);
/// assert_eq!(prices.sum(-1..2), Err(Refusal::OutOfRange { size: 4 }));
/// assert_eq!(prices.sum(usize::MAX..7), Err(Refusal::BadRange));
/// # Ok(())
/// # }
/// ```
///
/// It can't be implemented elsewhere. A range of another type that is a `RangeBounds` is handed in as
/// `(range.start_bound().cloned(), range.end_bound().cloned())`.
pub trait Indices: sealed::Sealed {
    /// The start and the end, excluded, where they are told.
    #[doc(hidden)]
    fn ends(self) -> (Option<i128>, Option<i128>);
}

mod sealed {
    pub trait Sealed {}
}

macro_rules! are_numbers {
    ($($number:ident $([$as_they_are:ident])?)*) => {
        $(
            impl sealed::Sealed for $number {}
            impl AsIndex for $number {
                fn exact(self) -> i128 {
                    const { assert!(<$number>::BITS <= 64) };
                    self as i128
                }

                $(fn $as_they_are(indices: &[$number]) -> Option<&[$number]> {
                    Some(indices)
                })?
            }
        )*
    };
}

are_numbers!(u32 [as_narrow] u64 [as_wide] usize i32);

fn ends_of<N: AsIndex>(range: &impl RangeBounds<N>) -> (Option<i128>, Option<i128>) {
    let lo = match range.start_bound() {
        Bound::Included(lo) => Some(lo.exact()),
        Bound::Excluded(before) => Some(before.exact() + 1),
        Bound::Unbounded => None,
    };
    let hi = match range.end_bound() {
        Bound::Included(last) => Some(last.exact() + 1),
        Bound::Excluded(hi) => Some(hi.exact()),
        Bound::Unbounded => None,
    };
    (lo, hi)
}

macro_rules! are_indices {
    ($($range:ident)*: $($number:ty)*) => {
        are_indices!(@ each [$($number)*] $($range)*);
    };
    (@ each $numbers:tt $($range:ident)*) => {
        $(are_indices!(@ of $range $numbers);)*
    };
    (@ of $range:ident [$($number:ty)*]) => {
        $(
            impl sealed::Sealed for $range<$number> {}
            impl Indices for $range<$number> {
                fn ends(self) -> (Option<i128>, Option<i128>) {
                    ends_of::<$number>(&self)
                }
            }
            impl sealed::Sealed for $range<&$number> {}
            impl Indices for $range<&$number> {
                fn ends(self) -> (Option<i128>, Option<i128>) {
                    ends_of::<$number>(&self)
                }
            }
        )*
    };
}

/// The type that pairs of bounds have.
type Bounds<N> = (Bound<N>, Bound<N>);

are_indices!(Range RangeFrom RangeTo RangeInclusive RangeToInclusive Bounds: u32 u64 usize i32);

impl sealed::Sealed for RangeFull {}
impl Indices for RangeFull {
    fn ends(self) -> (Option<i128>, Option<i128>) {
        (None, None)
    }
}
