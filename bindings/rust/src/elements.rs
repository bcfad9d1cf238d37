//! Iterators over the elements of a vector, or of a series.

use std::fmt;
use std::iter::FusedIterator;

use crate::{Series, Vector};

/// The elements of a range of a [`Vector`], which can't be edited meanwhile.
pub type Elements<'a> = Through<&'a Vector>;

/// The elements of a [`Vector`] that is used up by it.
pub type IntoElements = Through<Vector>;

// So many elements are read by one call.
const AT_ONCE: usize = 128;

/// The iterator over a vector's elements, or a series', which has it or borrows it: [`Elements`], [`IntoElements`], and those of
/// [`series`](crate::series). It reads 128 elements by one call, and takes no memory.
pub struct Through<V> {
    of: V,
    // what is still to be given: those of `read` from `given` on up to `filled`, then lo..hi
    lo: usize,
    hi: usize,
    read: [i64; AT_ONCE],
    given: usize,
    filled: usize,
}

mod source {
    /// What has elements in a range of indices.
    pub trait Source {
        /// Puts those of a range into a buffer, and tells how many they are.
        fn fill(&self, lo: usize, hi: usize, room: &mut [i64]) -> usize;
    }
}

use source::Source;

impl Source for Vector {
    fn fill(&self, lo: usize, hi: usize, room: &mut [i64]) -> usize {
        self.raw.read(lo as u32, hi as u32, room).expect("the range lies within the vector").length as usize
    }
}

impl Source for Series {
    fn fill(&self, lo: usize, hi: usize, room: &mut [i64]) -> usize {
        self.raw.read(lo as u64, hi as u64, room).expect("the range is kept").length as usize
    }
}

impl<V: Source> Source for &V {
    fn fill(&self, lo: usize, hi: usize, room: &mut [i64]) -> usize {
        (**self).fill(lo, hi, room)
    }
}

impl<V: Source> Through<V> {
    // The range lies within what it is of.
    pub(crate) fn new(of: V, lo: usize, hi: usize) -> Through<V> {
        Through { of, lo, hi, read: [0; AT_ONCE], given: 0, filled: 0 }
    }

    fn fill(&mut self) {
        let upto = self.hi.min(self.lo + AT_ONCE);
        self.given = 0;
        self.filled = self.of.fill(self.lo, upto, &mut self.read);
        self.lo = upto;
    }
}

impl<V: Source> Iterator for Through<V> {
    type Item = i64;

    fn next(&mut self) -> Option<i64> {
        if self.given == self.filled {
            if self.lo == self.hi {
                return None;
            }
            self.fill();
        }
        let value = self.read[self.given];
        self.given += 1;
        Some(value)
    }

    fn size_hint(&self) -> (usize, Option<usize>) {
        let left = self.filled - self.given + (self.hi - self.lo);
        (left, Some(left))
    }
}

impl<V: Source> DoubleEndedIterator for Through<V> {
    fn next_back(&mut self) -> Option<i64> {
        if self.lo < self.hi {
            self.hi -= 1;
            let mut one = [0];
            self.of.fill(self.hi, self.hi + 1, &mut one);
            return Some(one[0]);
        }
        if self.given == self.filled {
            return None;
        }
        self.filled -= 1;
        Some(self.read[self.filled])
    }
}

impl<V: Source> ExactSizeIterator for Through<V> {}
impl<V: Source> FusedIterator for Through<V> {}

impl<V: Source> fmt::Debug for Through<V> {
    fn fmt(&self, f: &mut fmt::Formatter<'_>) -> fmt::Result {
        f.debug_struct("Elements").field("len", &self.len()).finish_non_exhaustive()
    }
}

impl IntoIterator for Vector {
    type Item = i64;
    type IntoIter = IntoElements;

    fn into_iter(self) -> IntoElements {
        let size = self.len();
        Through::new(self, 0, size)
    }
}
