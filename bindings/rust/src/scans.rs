//! Scans: the values of each beginning of a range.

use std::fmt;
use std::iter::FusedIterator;

use crate::values::ends;
use crate::{Indices, Refusal, Values, Vector, raw};

impl Vector {
    /// The values of each beginning of a range, the element itself included. Linear in the range. Refused with `BadRange`, `OutOfRange`, `NoMemory`, in this order.
    ///
    /// ```
    /// # fn main() -> Result<(), livevec::Refusal> {
    /// let mut vector = livevec::Vector::new()?;
    /// vector.extend_from_slice(&[3, -5, 4])?;
    /// let sums: Vec<i64> = vector.scan_inclusive(..)?.iter().map(|values| values.sum).collect();
    /// assert_eq!(sums, [3, -2, 2]);
    /// let before: Vec<i64> = vector.scan_exclusive(..)?.iter().map(|values| values.sum).collect();
    /// assert_eq!(before, [0, 3, -2]);
    /// # Ok(())
    /// # }
    /// ```
    pub fn scan_inclusive(&self, range: impl Indices) -> Result<Scan, Refusal> {
        let (lo, hi) = ends(range, || self.len());
        self.raw.scan(lo, hi, true).map(|(edit, values)| Scan { edit, values })
    }

    /// The values of each beginning of a range, the element itself excluded. Linear in the range. Refused as [`scan_inclusive`](Vector::scan_inclusive) is.
    pub fn scan_exclusive(&self, range: impl Indices) -> Result<Scan, Refusal> {
        let (lo, hi) = ends(range, || self.len());
        self.raw.scan(lo, hi, false).map(|(edit, values)| Scan { edit, values })
    }
}

/// The values of each beginning of a range, in order.
#[derive(Clone)]
pub struct Scan {
    pub(crate) edit: u32,
    values: Vec<raw::SixValues>,
}

impl Scan {
    /// The edit after which the range was read.
    pub fn edit(&self) -> u32 {
        self.edit
    }

    /// How many beginnings there are: one for each element of the range.
    pub fn len(&self) -> usize {
        self.values.len()
    }

    /// Whether the range was empty.
    pub fn is_empty(&self) -> bool {
        self.values.is_empty()
    }

    /// The values of the beginning of this number, from 0.
    pub fn get(&self, number: usize) -> Option<Values> {
        self.values.get(number).copied().map(Values::of_raw)
    }

    /// The values in order.
    pub fn iter(&self) -> Beginnings<'_> {
        Beginnings { values: self.values.iter() }
    }
}

impl fmt::Debug for Scan {
    fn fmt(&self, f: &mut fmt::Formatter<'_>) -> fmt::Result {
        f.debug_struct("Scan").field("edit", &self.edit).field("len", &self.len()).finish_non_exhaustive()
    }
}

impl<'a> IntoIterator for &'a Scan {
    type Item = Values;
    type IntoIter = Beginnings<'a>;

    fn into_iter(self) -> Beginnings<'a> {
        self.iter()
    }
}

/// The iterator of a [`Scan`].
#[derive(Clone)]
pub struct Beginnings<'a> {
    values: std::slice::Iter<'a, raw::SixValues>,
}

impl fmt::Debug for Beginnings<'_> {
    fn fmt(&self, f: &mut fmt::Formatter<'_>) -> fmt::Result {
        f.debug_struct("Beginnings").field("len", &self.len()).finish_non_exhaustive()
    }
}

impl Iterator for Beginnings<'_> {
    type Item = Values;

    fn next(&mut self) -> Option<Values> {
        self.values.next().copied().map(Values::of_raw)
    }

    fn size_hint(&self) -> (usize, Option<usize>) {
        self.values.size_hint()
    }
}

impl DoubleEndedIterator for Beginnings<'_> {
    fn next_back(&mut self) -> Option<Values> {
        self.values.next_back().copied().map(Values::of_raw)
    }
}

impl ExactSizeIterator for Beginnings<'_> {}
impl FusedIterator for Beginnings<'_> {}
