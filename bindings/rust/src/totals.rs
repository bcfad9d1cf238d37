//! Exact sums.

use crate::{Indices, Refusal, Series, Vector};

impl Vector {
    /// The sum of a range, which is exact: it never wraps, as [`sum`](Vector::sum) may.
    ///
    /// It is told by the sum modulo 2^64, the least and the greatest, so it costs three times what [`value`](Vector::value) does. Only if elements
    /// are so far apart that these leave it open (of n elements by more than 2^64 / n), the range is added up in pieces for which they don't: that is
    /// a sum more for each piece, and linear in the range at most. Of a vector of one kind it is linear. Refused with `BadRange`, `OutOfRange`, in
    /// this order.
    ///
    /// ```
    /// # fn main() -> Result<(), livevec::Refusal> {
    /// let large = livevec::Vector::try_from([i64::MAX, i64::MAX - 7, i64::MAX])?;
    /// assert_eq!(large.total(..)?, 3 * i128::from(i64::MAX) - 7);
    /// # Ok(())
    /// # }
    /// ```
    pub fn total(&self, range: impl Indices) -> Result<i128, Refusal> {
        let (lo, hi) = crate::values::ends(range, || self.len());
        self.raw.exact_sum(lo, hi).map(|told| told.sum.exact())
    }
}

impl Series {
    /// The sum of a range, which is exact: it never wraps, as [`sum`](Series::sum) may.
    ///
    /// It is told as [`Vector::total`] says, by the trees of the sum, the least and the greatest, which it makes first, if there are none: so it costs
    /// three times what [`value`](Series::value) does. Refused as `value` is.
    pub fn total(&self, range: impl Indices) -> Result<i128, Refusal> {
        let (lo, hi) = self.ends(range);
        self.raw.exact_sum(lo, hi).map(|told| told.sum.exact())
    }
}
