//! Many edits of a vector by one call.

use crate::indices::{many, narrow};
use crate::{AsIndex, Refusal, RefusedAt, Vector};

impl Vector {
    /// Pushes each element in order, by one call: all are pushed, or none. Linear. Tells the number of the last edit.
    ///
    /// Refused as the first push that is refused would be, with `Worn` or `Full`, then with `NoMemory`. Nothing has changed then, and
    /// [`RefusedAt::place`] tells which element had no room, or no edit.
    ///
    /// ```
    /// use livevec::{Limits, Refusal, Vector};
    ///
    /// # fn main() -> Result<(), Refusal> {
    /// let mut small = Vector::with_limits(Limits::new(1, 100)?)?;
    /// assert_eq!(small.extend_from_slice(&[1, 2, 3]).unwrap(), 3);
    /// let refused = small.extend_from_slice(&[4; 10]).unwrap_err();
    /// assert_eq!((refused.place, refused.done, refused.refusal), (5, 0, Refusal::Full));
    /// assert_eq!(small.len(), 3);
    /// # Ok(())
    /// # }
    /// ```
    pub fn extend_from_slice(&mut self, values: &[i64]) -> Result<u32, RefusedAt> {
        match self.raw.push_many(values) {
            Ok(_) => Ok(self.edits()),
            Err(refusal) => Err(RefusedAt { place: self.first_refused(refusal), done: 0, refusal }),
        }
    }

    /// Which of many pushes is the first that is refused.
    fn first_refused(&self, refusal: Refusal) -> usize {
        match refusal {
            Refusal::Full => self.room(),
            Refusal::Worn => (self.limits.edits() - self.edits()) as usize,
            _ => 0,
        }
    }

    /// Pushes what an iterator gives, all of it or nothing, as [`extend_from_slice`](Vector::extend_from_slice) does. It is gone through first,
    /// until it ends or has given more than there is room for. Linear.
    pub fn try_extend(&mut self, values: impl IntoIterator<Item = i64>) -> Result<u32, RefusedAt> {
        let no_memory = RefusedAt::of_all(Refusal::NoMemory);
        let mut gathered = Vec::new();
        for value in values.into_iter().take(self.room() + 1) {
            if gathered.len() == gathered.capacity() {
                gathered.try_reserve(gathered.len().max(64)).map_err(|_| no_memory)?;
            }
            gathered.push(value);
        }
        self.extend_from_slice(&gathered)
    }

    /// How many more elements the limits allow: the buckets of a vector have 8, 16, 32 and so on.
    fn room(&self) -> usize {
        8 * ((1 << self.limits.buckets()) - 1) - self.len()
    }

    /// Writes each value at the index of the same place, in order, by one call. An index may come twice: the later value stays. Linear in how
    /// many they are. Tells the number of the last edit.
    ///
    /// All writes are made, or none: all indices are looked at before the first write, and whether so many edits are left, and room for them
    /// is made. So [`RefusedAt::done`] is 0. Refused with `ShortBuffer` unless there are as many values as indices, then with what the first
    /// write that is refused is refused with: `Worn`, `OutOfRange`; then `NoMemory`.
    ///
    /// ```
    /// use livevec::{Refusal, RefusedAt, Vector};
    ///
    /// # fn main() -> Result<(), Refusal> {
    /// let mut prices = Vector::try_from([300, 120, 500, 80])?;
    /// assert_eq!(prices.write_many(&[3, 0, 3], &[90, 310, 95]), Ok(7));
    /// let refused = prices.write_many(&[0, 4], &[1, 2]).unwrap_err();
    /// assert_eq!(refused, RefusedAt { place: 1, done: 0, refusal: Refusal::OutOfRange { size: 4 } });
    /// assert_eq!(prices.to_vec()?, [310, 120, 500, 95]);
    /// # Ok(())
    /// # }
    /// ```
    pub fn write_many<I: AsIndex>(&mut self, indices: &[I], values: &[i64]) -> Result<u32, RefusedAt> {
        if indices.len() != values.len() {
            return Err(RefusedAt::of_all(Refusal::ShortBuffer { wanted: indices.len() }));
        }
        let indices = many(indices, I::as_narrow(indices), narrow).map_err(RefusedAt::of_all)?;
        self.raw.write_many(&indices, values)
    }
}
