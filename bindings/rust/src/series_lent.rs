//! Elements of a series where they lie.

use std::fmt;
use std::ops::Deref;

use crate::{Indices, Refusal, Series, raw};

/// Elements of a [`Series`], or values of [`Samples`](crate::Samples), where they lie: a slice that is lent, until this is dropped.
pub struct Lent<'a> {
    raw: raw::series::Lent<'a>,
}

impl Series {
    /// The elements of a range without a copy. O(1), and takes no memory. The series can't be called until they are dropped; where they are
    /// forgotten instead ([`std::mem::forget`]) it stays lent for good, and its memory is never given back. Refused with `BadRange`,
    /// `NotKept`, in this order.
    ///
    /// ```
    /// # fn main() -> Result<(), livevec::Refusal> {
    /// let mut readings = livevec::Series::new()?;
    /// readings.extend_from_slice(&[20, 22, 19, 25, 24])?;
    /// assert_eq!(readings.lend(1..4)?.iter().max(), Some(&25));
    /// assert_eq!(readings.push(23)?.index, 5);
    /// # Ok(())
    /// # }
    /// ```
    ///
    /// ```compile_fail
    /// let mut readings = livevec::Series::new().unwrap();
    /// let lent = readings.lend(..).unwrap();
    /// readings.push(1);
    /// drop(lent);
    /// ```
    pub fn lend(&mut self, range: impl Indices) -> Result<Lent<'_>, Refusal> {
        let (lo, hi) = self.ends(range);
        Ok(Lent { raw: self.raw.lend(lo, hi)? })
    }
}

impl Lent<'_> {
    /// After which edit the elements are those of the range.
    pub fn edit(&self) -> u64 {
        self.raw.edit
    }
}

impl Deref for Lent<'_> {
    type Target = [i64];

    fn deref(&self) -> &[i64] {
        self.raw.elements()
    }
}

impl fmt::Debug for Lent<'_> {
    fn fmt(&self, f: &mut fmt::Formatter<'_>) -> fmt::Result {
        f.debug_list().entries(self.iter()).finish()
    }
}
