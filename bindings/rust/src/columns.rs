//! Columns: the running values of a range by one kind, written into a slice of the caller's.

use crate::values::ends;
use crate::{Indices, Kind, Refusal, Vector};

/// A kind whose running values are written into a column: one of the types of [`by`]. It can't be implemented elsewhere.
pub trait Column: sealed::Sealed {
    /// What stands in the column for each element. Of no elements the least, the greatest and the best are 0.
    type Cell: Copy + Default;

    #[doc(hidden)]
    const KIND: Kind;
}

mod sealed {
    pub trait Sealed {}
}

/// The six kinds as types, by which columns are asked for.
pub mod by {
    use super::{Column, Kind, sealed};

    macro_rules! kind {
        ($name:ident, $cell:ty, $says:literal) => {
            #[doc = $says]
            #[derive(Clone, Copy, Debug)]
            pub enum $name {}

            impl sealed::Sealed for $name {}

            impl Column for $name {
                type Cell = $cell;

                const KIND: Kind = Kind::$name;
            }
        };
    }

    kind!(Sum, i64, "The sums, which wrap where they do not fit an `i64`.");
    kind!(Least, i64, "The least elements.");
    kind!(Greatest, i64, "The greatest elements.");
    kind!(Best, i128, "The greatest totals of one or more neighbours.");
    kind!(Affine, [u32; 2], "The maps `y -> a * y + b` modulo 2^32, each as `[a, b]`.");
    kind!(Automaton, [u8; 8], "The states that the elements lead to from each of the eight.");
}

/// What a scan into a column came to: the cells of the range at the column's front, which are those after this edit.
#[derive(Debug, PartialEq, Eq)]
pub struct Filled<'a, Cell> {
    /// The number of the last edit.
    pub edit: u32,
    /// A cell for each element of the range.
    pub cells: &'a mut [Cell],
}

impl Vector {
    /// Writes the running values of a range by one kind into the front of a column: each of the elements from the range's start up to an
    /// element, that one included. Goes over the elements once, and keeps nothing. What the column has behind stays.
    /// Refused with `BadRange`, `OutOfRange`, `ShortBuffer`, in this order; the column is then as it was.
    ///
    /// ```
    /// use livevec::{Refusal, Vector, by};
    ///
    /// # fn main() -> Result<(), Refusal> {
    /// let vector = Vector::try_from([3, -5, 4])?;
    /// let mut sums = [0; 4];
    /// let filled = vector.scan_inclusive_into::<by::Sum>(.., &mut sums)?;
    /// assert_eq!((filled.edit, &*filled.cells), (3, &[3, -2, 2][..]));
    /// let mut least = [7; 3];
    /// vector.scan_exclusive_into::<by::Least>(.., &mut least)?;
    /// assert_eq!(least, [0, 3, -5]);
    /// assert_eq!(vector.scan_inclusive_into::<by::Best>(.., &mut [0; 2]).unwrap_err(), Refusal::ShortBuffer { wanted: 3 });
    /// # Ok(())
    /// # }
    /// ```
    pub fn scan_inclusive_into<'a, K: Column>(
        &self,
        range: impl Indices,
        column: &'a mut [K::Cell],
    ) -> Result<Filled<'a, K::Cell>, Refusal> {
        self.fill::<K>(range, column, true)
    }

    /// The same, each without the element itself. Refused as [`scan_inclusive_into`](Vector::scan_inclusive_into) is.
    pub fn scan_exclusive_into<'a, K: Column>(
        &self,
        range: impl Indices,
        column: &'a mut [K::Cell],
    ) -> Result<Filled<'a, K::Cell>, Refusal> {
        self.fill::<K>(range, column, false)
    }

    fn fill<'a, K: Column>(&self, range: impl Indices, column: &'a mut [K::Cell], inclusive: bool) -> Result<Filled<'a, K::Cell>, Refusal> {
        let (lo, hi) = ends(range, || self.len());
        let did = self.raw.scan_into::<K>(inclusive, lo, hi, column)?;
        Ok(Filled { edit: did.edit, cells: &mut column[..did.length as usize] })
    }
}
