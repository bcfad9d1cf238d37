//! What a series has as `std`'s `Vec` has it, where it can: made of elements, gone through, cloned, compared.

use crate::elements::Through;
use crate::indices::Indices;
use crate::like_vec::is_like_vec;
use crate::series::{Dropped, Elements, IntoElements};
use crate::{Refusal, RefusedAt, Series, raw};

/// Made of elements, and into them again.
impl Series {
    /// A series with what an iterator gives, under the indices from 0. Linear. Refused with `NoMemory` alone, and never panics; `collect` does
    /// where this is refused.
    ///
    /// ```
    /// use livevec::{Refusal, Series};
    ///
    /// # fn main() -> Result<(), Refusal> {
    /// let squares = Series::try_from_iter((1..=4).map(|x| x * x))?;
    /// assert_eq!(squares, [1, 4, 9, 16]);
    /// assert_eq!(squares.iter().rev().collect::<Series>(), [16, 9, 4, 1]);
    /// # Ok(())
    /// # }
    /// ```
    pub fn try_from_iter(values: impl IntoIterator<Item = i64>) -> Result<Series, Refusal> {
        let mut made = Series::new()?;
        made.try_extend(values)?;
        Ok(made)
    }

    /// Pushes what an iterator gives, all of it or nothing, as [`extend_from_slice`](Series::extend_from_slice) does. It is gone through first,
    /// into memory: linear. Tells the number of the last edit.
    pub fn try_extend(&mut self, values: impl IntoIterator<Item = i64>) -> Result<u64, RefusedAt> {
        let values = values.into_iter();
        let mut gathered = raw::roomy(values.size_hint().0).map_err(RefusedAt::of_all)?;
        for value in values {
            if gathered.len() == gathered.capacity() {
                gathered.try_reserve(gathered.len().max(64)).map_err(|_| RefusedAt::of_all(Refusal::NoMemory))?;
            }
            gathered.push(value);
        }
        self.extend_from_slice(&gathered)
    }

    /// A series of its own with the same elements under the same indices, whose next edit has the number that this one's next has. Linear; its trees
    /// are made anew by its first questions. Refused with `NoMemory` alone.
    ///
    /// ```
    /// use livevec::{Refusal, Series};
    ///
    /// # fn main() -> Result<(), Refusal> {
    /// let mut readings = Series::try_from([20, 22, 19, 25])?;
    /// readings.expire(2)?;
    /// let mut clone = readings.try_clone()?;
    /// assert_eq!((clone == readings, clone.first(), clone.push(7)?.edit), (true, 2, 6));
    /// assert_eq!((clone.len(), readings.len()), (3, 2));
    /// # Ok(())
    /// # }
    /// ```
    pub fn try_clone(&self) -> Result<Series, Refusal> {
        Series::load(&self.save()?)
    }

    /// Drops all elements, by one edit. What is pushed next has the index that [`first`](Series::first) was before. O(log n). Refused with `Worn`
    /// alone.
    pub fn clear(&mut self) -> Result<Dropped, Refusal> {
        self.truncate(self.first())
    }

    /// The last element, if one is kept. O(1).
    pub fn last(&self) -> Option<i64> {
        self.get(self.size().checked_sub(1)?).ok()
    }

    /// The elements that are kept, from the first on; O(1) for each. While the iterator lives the series can't be edited.
    ///
    /// ```
    /// # fn main() -> Result<(), livevec::Refusal> {
    /// let mut readings = livevec::Series::try_from([20, 22, 19])?;
    /// readings.expire(1)?;
    /// assert_eq!(readings.iter().rev().collect::<Vec<_>>(), [19, 22]);
    /// assert_eq!(readings.elements(2..)?.sum::<i64>(), 19);
    /// # Ok(())
    /// # }
    /// ```
    pub fn iter(&self) -> Elements<'_> {
        Through::new(self, self.first(), self.size())
    }

    /// The elements of a range, O(1) for each. Refused with `BadRange`, `NotKept`, in this order.
    pub fn elements(&self, range: impl Indices) -> Result<Elements<'_>, Refusal> {
        let (lo, hi) = self.ends(range);
        self.raw.read(lo, hi, &mut [])?;
        Ok(Through::new(self, lo as usize, hi as usize))
    }
}

is_like_vec!(Series, "By elements: their indices, and edits, may differ. Linear.");

impl IntoIterator for Series {
    type Item = i64;
    type IntoIter = IntoElements;

    fn into_iter(self) -> IntoElements {
        let (first, size) = (self.first(), self.size());
        Through::new(self, first, size)
    }
}
