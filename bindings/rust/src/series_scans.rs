//! The iterator of a series' scans.

use std::fmt;
use std::iter::FusedIterator;

use crate::raw::SixValues;
use crate::{Refusal, Series, Values};

// So many running values are computed by one call.
const AT_ONCE: usize = 256;

const NONE: SixValues =
    SixValues { sum: 0, least: 0, greatest: 0, best_low: 0, best_high: 0, affine_a: 0, affine_b: 0, automaton: [0; 8], any: false };

/// The running values of a range of a [`Series`], which can't be edited meanwhile.
pub struct Running<'a> {
    series: &'a Series,
    inclusive: bool,
    lo: u64,
    // what is still to be given: that of `room` from `given` on up to `filled`, then those that end at `at` and behind it
    at: u64,
    hi: u64,
    room: [SixValues; AT_ONCE],
    given: usize,
    filled: usize,
}

impl<'a> Running<'a> {
    pub(crate) fn new(series: &'a Series, inclusive: bool, lo: u64, hi: u64) -> Result<Running<'a>, Refusal> {
        // by trees it costs little to tell what lies before a piece
        if hi - lo > AT_ONCE as u64 {
            series.raw.ask(lo, lo)?;
        }
        Ok(Running { series, inclusive, lo, at: lo, hi, room: [NONE; AT_ONCE], given: 0, filled: 0 })
    }

    fn fill(&mut self) {
        let did = self.series.raw.scan_six(self.inclusive, self.lo, self.at, self.hi, &mut self.room);
        self.filled = did.expect("the range is kept").length as usize;
        self.given = 0;
        self.at += self.filled as u64;
    }
}

impl Iterator for Running<'_> {
    type Item = Values;

    fn next(&mut self) -> Option<Values> {
        if self.given == self.filled {
            if self.at == self.hi {
                return None;
            }
            self.fill();
        }
        let values = self.room[self.given];
        self.given += 1;
        Some(Values::of_raw(values))
    }

    fn size_hint(&self) -> (usize, Option<usize>) {
        let left = self.filled - self.given + (self.hi - self.at) as usize;
        (left, Some(left))
    }
}

impl ExactSizeIterator for Running<'_> {}
impl FusedIterator for Running<'_> {}

impl fmt::Debug for Running<'_> {
    fn fmt(&self, f: &mut fmt::Formatter<'_>) -> fmt::Result {
        f.debug_struct("Running").field("len", &self.len()).finish_non_exhaustive()
    }
}
