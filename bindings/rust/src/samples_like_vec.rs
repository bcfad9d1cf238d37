//! What samples have as `std`'s `Vec` has it, where they can: made of samples, gone through, cloned, compared.

use std::fmt;
use std::iter::FusedIterator;

use crate::elements::Through;
use crate::indices::Indices;
use crate::{Refusal, RefusedAt, Sample, Samples, raw, series};

// So many times are read by one call.
const AT_ONCE: usize = 128;

/// The samples of a range of [`Samples`], which can't be edited meanwhile. It reads 128 by two calls, and takes no memory.
pub struct Timed<'a> {
    samples: &'a Samples,
    values: series::Elements<'a>,
    // the times of those that are still to be given: of `read` from `given` on up to `filled`, then those of lo..hi
    lo: usize,
    hi: usize,
    read: [i64; AT_ONCE],
    given: usize,
    filled: usize,
}

impl Iterator for Timed<'_> {
    type Item = Sample;

    fn next(&mut self) -> Option<Sample> {
        if self.given == self.filled && self.lo < self.hi {
            let upto = self.hi.min(self.lo + AT_ONCE);
            self.filled = self.samples.times_into(self.lo..upto, &mut self.read).expect("the range is kept");
            (self.given, self.lo) = (0, upto);
        }
        let value = self.values.next()?;
        self.given += 1;
        Some(Sample { time: self.read[self.given - 1], value })
    }

    fn size_hint(&self) -> (usize, Option<usize>) {
        self.values.size_hint()
    }
}

impl DoubleEndedIterator for Timed<'_> {
    fn next_back(&mut self) -> Option<Sample> {
        let value = self.values.next_back()?;
        if self.lo == self.hi {
            self.filled -= 1;
            return Some(Sample { time: self.read[self.filled], value });
        }
        self.hi -= 1;
        let mut time = [0];
        self.samples.times_into(self.hi..=self.hi, &mut time).expect("the range is kept");
        Some(Sample { time: time[0], value })
    }
}

impl ExactSizeIterator for Timed<'_> {}
impl FusedIterator for Timed<'_> {}

impl fmt::Debug for Timed<'_> {
    fn fmt(&self, f: &mut fmt::Formatter<'_>) -> fmt::Result {
        f.debug_struct("Timed").field("len", &self.len()).finish_non_exhaustive()
    }
}

/// A time, then a value.
impl From<(i64, i64)> for Sample {
    fn from((time, value): (i64, i64)) -> Sample {
        Sample { time, value }
    }
}

/// Made of samples, and into them again.
impl Samples {
    /// What an iterator gives: [`Sample`]s, or pairs of a time and a value. Linear. Refused with `Earlier`, `NoMemory`, where nothing is left. It
    /// never panics; `collect` does where this is refused.
    ///
    /// ```
    /// use livevec::{Refusal, Sample, Samples};
    ///
    /// # fn main() -> Result<(), Refusal> {
    /// let mut load = Samples::try_from_iter([(0, 7), (90, 4)])?;
    /// load.extend([(91, 9)]);
    /// assert_eq!(load.iter().last(), Some(Sample { time: 91, value: 9 }));
    /// assert_eq!(load, load.iter().collect::<Samples>());
    /// assert_eq!(Samples::try_from_iter([(1, 7), (0, 4)]).unwrap_err(), Refusal::Earlier { newest: 1 });
    /// # Ok(())
    /// # }
    /// ```
    pub fn try_from_iter<S: Into<Sample>>(samples: impl IntoIterator<Item = S>) -> Result<Samples, Refusal> {
        let mut made = Samples::new()?;
        made.try_extend(samples)?;
        Ok(made)
    }

    /// Pushes what an iterator gives, as [`push_many`](Samples::push_many) does, up to the first that is refused. It is gone through first, into
    /// memory: linear. Tells the number of the last edit.
    pub fn try_extend<S: Into<Sample>>(&mut self, samples: impl IntoIterator<Item = S>) -> Result<u64, RefusedAt> {
        let samples = samples.into_iter();
        let mut times = raw::roomy(samples.size_hint().0).map_err(RefusedAt::of_all)?;
        let mut values = raw::roomy(samples.size_hint().0).map_err(RefusedAt::of_all)?;
        for sample in samples {
            let Sample { time, value } = sample.into();
            for (column, number) in [(&mut times, time), (&mut values, value)] {
                if column.len() == column.capacity() {
                    column.try_reserve(column.len().max(64)).map_err(|_| RefusedAt::of_all(Refusal::NoMemory))?;
                }
                column.push(number);
            }
        }
        self.push_many(&times, &values)
    }

    /// Samples of their own, the same ones under the same indices, whose next edit has the number that these ones' next has. Linear; trees are made
    /// anew by the first questions. Refused with `NoMemory` alone.
    pub fn try_clone(&self) -> Result<Samples, Refusal> {
        Samples::load(&self.save()?)
    }

    /// A copy of the samples of a range of indices. Linear. Refused with `BadRange`, `NotKept`, `NoMemory`, in this order.
    pub fn to_vec(&self, range: impl Indices) -> Result<Vec<Sample>, Refusal> {
        let samples = self.samples(range)?;
        let mut copy = raw::roomy(samples.len())?;
        copy.extend(samples);
        Ok(copy)
    }

    /// The samples that are kept, from the first on; O(1) for each. While the iterator lives they can't be edited.
    pub fn iter(&self) -> Timed<'_> {
        self.through(self.values().first(), self.values().size())
    }

    /// The samples of a range of indices, O(1) for each. Refused with `BadRange`, `NotKept`, in this order.
    ///
    /// ```
    /// # fn main() -> Result<(), livevec::Refusal> {
    /// let load = livevec::Samples::try_from_iter([(0, 7), (90, 4), (91, 9)])?;
    /// let late = load.samples(load.between(90..100)?)?;
    /// assert_eq!(late.map(|sample| sample.time).collect::<Vec<_>>(), [90, 91]);
    /// # Ok(())
    /// # }
    /// ```
    pub fn samples(&self, range: impl Indices) -> Result<Timed<'_>, Refusal> {
        let (lo, hi) = self.values().ends(range);
        self.values().raw.read(lo, hi, &mut [])?;
        Ok(self.through(lo as usize, hi as usize))
    }

    fn through(&self, lo: usize, hi: usize) -> Timed<'_> {
        let values = Through::new(self.values(), lo, hi);
        Timed { samples: self, values, lo, hi, read: [0; AT_ONCE], given: 0, filled: 0 }
    }
}

/// Panics where a sample is refused. [`try_extend`](Samples::try_extend) never panics.
impl<S: Into<Sample>> Extend<S> for Samples {
    fn extend<I: IntoIterator<Item = S>>(&mut self, samples: I) {
        if let Err(refused) = self.try_extend(samples) {
            panic!("{refused}");
        }
    }
}

/// Panics where a sample is refused. [`try_from_iter`](Samples::try_from_iter) never panics.
impl<S: Into<Sample>> FromIterator<S> for Samples {
    fn from_iter<I: IntoIterator<Item = S>>(samples: I) -> Samples {
        Samples::try_from_iter(samples).unwrap_or_else(|refusal| panic!("{refusal}"))
    }
}

impl<'a> IntoIterator for &'a Samples {
    type Item = Sample;
    type IntoIter = Timed<'a>;

    fn into_iter(self) -> Timed<'a> {
        self.iter()
    }
}

/// By times and values: their indices, and edits, may differ. Linear.
impl PartialEq for Samples {
    fn eq(&self, other: &Samples) -> bool {
        self.values().len() == other.values().len() && self.iter().eq(other)
    }
}

impl Eq for Samples {}
