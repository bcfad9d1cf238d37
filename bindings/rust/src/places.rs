//! Where in a range something is: of a vector, and by the same calls of a series.

use crate::values::ends;
use crate::{Indices, Vector};

/// An element, and its index.
#[derive(Debug, Clone, Copy, PartialEq, Eq, Hash)]
pub struct Placed {
    /// The index.
    pub index: usize,
    /// The element.
    pub value: i64,
}

/// One or more neighbours that add up to the most.
#[derive(Debug, Clone, PartialEq, Eq, Hash)]
pub struct BestRun {
    /// Their indices.
    pub range: std::ops::Range<usize>,
    /// What they add up to, which is exact.
    pub sum: i128,
}

/// The searches of one of the two, whose indices C has as `$number`. `$ends` makes a range's ends as C takes them.
macro_rules! is_searched {
    ($of:ident, $number:ty, $refused:literal, |$it:ident, $range:ident| $ends:expr) => {
        /// Searches. Each costs what `value` does, by the kind that it names.
        impl $of {
            /// The first of the least elements, and its index; none of an empty range. It asks the kind of the least.
            #[doc = $refused]
            ///
            /// ```
            /// # fn main() -> Result<(), livevec::Refusal> {
            #[doc = concat!("let prices = livevec::", stringify!($of), "::try_from([300, 120, 500, 120])?;")]
            /// let least = prices.where_least(..)?.unwrap();
            /// assert_eq!((least.index, least.value), (1, 120));
            /// # Ok(())
            /// # }
            /// ```
            pub fn where_least(&self, range: impl Indices) -> Result<Option<crate::Placed>, crate::Refusal> {
                self.placed(crate::raw::Wanted::Least, range)
            }

            /// The first of the greatest elements, and its index; none of an empty range. It asks the kind of the greatest. Refused as `where_least`.
            pub fn where_greatest(&self, range: impl Indices) -> Result<Option<crate::Placed>, crate::Refusal> {
                self.placed(crate::raw::Wanted::Greatest, range)
            }

            /// The indices of the best run: of several the one that ends first, and of those the shortest. There is none of an empty range. It asks the kind
            /// of best runs. Refused as `where_least`.
            pub fn where_best(&self, range: impl Indices) -> Result<Option<crate::BestRun>, crate::Refusal> {
                let told = self.found(crate::raw::Wanted::Best, range, 0)?;
                Ok(told.map(|found| crate::BestRun {
                    range: found.lo as usize..found.hi as usize,
                    sum: crate::places::total(found.sum_high, found.sum_low),
                }))
            }

            /// The least end up to which the elements of a range, from its start on, add up to `sum` or more; none if they do at no end. Elements may be
            /// negative, and no sum wraps. It asks the kind of best runs. Refused as `where_least`.
            ///
            /// ```
            /// # fn main() -> Result<(), livevec::Refusal> {
            #[doc = concat!("let filled = livevec::", stringify!($of), "::try_from([30, 10, 50, 20])?;")]
            /// assert_eq!((filled.where_reaches(.., 41)?, filled.where_reaches_back(.., 41)?), (Some(3), Some(2)));
            /// # Ok(())
            /// # }
            /// ```
            pub fn where_reaches(&self, range: impl Indices, sum: i64) -> Result<Option<usize>, crate::Refusal> {
                Ok(self.found(crate::raw::Wanted::Reaches, range, sum)?.map(|found| found.hi as usize))
            }

            /// The greatest start from which on the elements of a range, up to its end, do; none if they do from no start. Else as `where_reaches`.
            pub fn where_reaches_back(&self, range: impl Indices, sum: i64) -> Result<Option<usize>, crate::Refusal> {
                self.index_of(crate::raw::Wanted::ReachesBack, range, sum)
            }

            /// The index of the first element of a range that is at least `bound`; none if no element is. It asks the kind of the greatest. Refused as
            /// `where_least`.
            ///
            /// ```
            /// # fn main() -> Result<(), livevec::Refusal> {
            #[doc = concat!("let prices = livevec::", stringify!($of), "::try_from([300, 120, 500, 120])?;")]
            /// assert_eq!((prices.where_first_at_least(1.., 200)?, prices.where_last_at_most(.., 200)?), (Some(2), Some(3)));
            /// # Ok(())
            /// # }
            /// ```
            pub fn where_first_at_least(&self, range: impl Indices, bound: i64) -> Result<Option<usize>, crate::Refusal> {
                self.index_of(crate::raw::Wanted::FirstAtLeast, range, bound)
            }

            /// The same of the first element that is at most `bound`. It asks the kind of the least.
            pub fn where_first_at_most(&self, range: impl Indices, bound: i64) -> Result<Option<usize>, crate::Refusal> {
                self.index_of(crate::raw::Wanted::FirstAtMost, range, bound)
            }

            /// The same of the last element that is at least `bound`.
            pub fn where_last_at_least(&self, range: impl Indices, bound: i64) -> Result<Option<usize>, crate::Refusal> {
                self.index_of(crate::raw::Wanted::LastAtLeast, range, bound)
            }

            /// The same of the last element that is at most `bound`. It asks the kind of the least.
            pub fn where_last_at_most(&self, range: impl Indices, bound: i64) -> Result<Option<usize>, crate::Refusal> {
                self.index_of(crate::raw::Wanted::LastAtMost, range, bound)
            }

            fn found(
                &self,
                wanted: crate::raw::Wanted,
                $range: impl Indices,
                x: i64,
            ) -> Result<Option<crate::raw::Found<$number>>, crate::Refusal> {
                let $it = self;
                let (lo, hi) = $ends;
                let told = self.raw.find(wanted, lo, hi, x)?;
                Ok(told.found.then_some(told))
            }

            fn placed(&self, wanted: crate::raw::Wanted, range: impl Indices) -> Result<Option<crate::Placed>, crate::Refusal> {
                Ok(self.found(wanted, range, 0)?.map(|found| crate::Placed { index: found.lo as usize, value: found.value }))
            }

            fn index_of(&self, wanted: crate::raw::Wanted, range: impl Indices, x: i64) -> Result<Option<usize>, crate::Refusal> {
                Ok(self.found(wanted, range, x)?.map(|found| found.lo as usize))
            }
        }
    };
}
pub(crate) use is_searched;

is_searched!(Vector, u32, "Refused as `value` is.", |vector, range| ends(range, || vector.len()));

/// The sum of a run, of its two halves.
pub(crate) fn total(high: i64, low: u64) -> i128 {
    (i128::from(high) << 64) + i128::from(low)
}
