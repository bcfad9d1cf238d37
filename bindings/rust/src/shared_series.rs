//! A series and samples that threads share.

use std::ops::Range;

use crate::series::{Answered, Dropped, Filled, Popped, Pushed, Reduced, Swapped, Written};
use crate::shared::{Sharing, forwarded, questions, sealed};
use crate::{AsIndex, BestRun, Column, Indices, Kind, Placed, Refusal, RefusedAt, Sample, Samples, Series, Shared, Value, Values, raw};

impl sealed::Sealed for Series {}
impl Sharing for Series {
    type Answered = Answered;

    fn number(&self) -> u64 {
        self.edits()
    }

    fn target(&self) -> raw::Target<'_> {
        raw::Target::of_series(&self.raw)
    }

    fn answered(edit: u64, value: Value) -> Answered {
        Answered { edit, value }
    }

    fn copied(&self) -> Result<Series, Refusal> {
        self.try_clone()
    }
}

impl sealed::Sealed for Samples {}
impl Sharing for Samples {
    type Answered = Answered;

    fn number(&self) -> u64 {
        self.values().edits()
    }

    fn target(&self) -> raw::Target<'_> {
        raw::Target::of_series(&self.values().raw)
    }

    fn answered(edit: u64, value: Value) -> Answered {
        Answered { edit, value }
    }

    fn copied(&self) -> Result<Samples, Refusal> {
        self.try_clone()
    }
}

/// The scans of a series, and of the values of samples.
macro_rules! scans {
    (|$it:ident| $asked:expr) => {
        /// As [`Series::scan_inclusive`], all of it after one edit, in memory. Linear.
        pub fn scan_inclusive(&self, range: impl Indices) -> Result<Vec<Values>, Refusal> {
            self.lock.read(|$it, _| Ok($asked.scan_inclusive(range)?.collect()))?
        }

        /// The same, each without the element itself.
        pub fn scan_exclusive(&self, range: impl Indices) -> Result<Vec<Values>, Refusal> {
            self.lock.read(|$it, _| Ok($asked.scan_exclusive(range)?.collect()))?
        }

        /// As [`Series::scan_inclusive_into`], after one edit.
        pub fn scan_inclusive_into<'a, K: Column>(
            &self,
            range: impl Indices,
            at: impl AsIndex,
            column: &'a mut [K::Cell],
        ) -> Result<Filled<'a, K::Cell>, Refusal> {
            self.lock.read(|$it, base| {
                let did = $asked.scan_inclusive_into::<K>(range, at, column)?;
                Ok(Filled { edit: did.edit + base, ..did })
            })?
        }

        /// As [`Series::scan_exclusive_into`], after one edit.
        pub fn scan_exclusive_into<'a, K: Column>(
            &self,
            range: impl Indices,
            at: impl AsIndex,
            column: &'a mut [K::Cell],
        ) -> Result<Filled<'a, K::Cell>, Refusal> {
            self.lock.read(|$it, base| {
                let did = $asked.scan_exclusive_into::<K>(range, at, column)?;
                Ok(Filled { edit: did.edit + base, ..did })
            })?
        }
    };
}

impl Shared<Series> {
    forwarded! {
        /// As [`Series::push`].
        edit push(value: i64) -> Pushed;
        /// As [`Series::pop`].
        edit pop() -> Popped;
        /// As [`Series::write`].
        edit write(index: impl AsIndex, value: i64) -> Written;
        /// As [`Series::swap`].
        edit swap(first: impl AsIndex, second: impl AsIndex) -> Swapped;
        /// As [`Series::truncate`].
        edit truncate(size: impl AsIndex) -> Dropped;
        /// As [`Series::expire`].
        edit expire(index: impl AsIndex) -> Dropped;
        /// As [`Series::get`].
        read get(index: impl AsIndex) -> i64;
        /// The index of the first element that is kept.
        count first() -> usize;
        /// The index behind the last element.
        count size() -> usize;
        /// How many elements are kept.
        count len() -> usize;
        /// Whether none is kept.
        count is_empty() -> bool;
        /// As [`Series::value`].
        read value(kind: Kind, range: impl Indices) -> Value;
        /// As [`Series::clear`].
        edit clear() -> Dropped;
        /// As [`Series::last`].
        count last() -> Option<i64>;
        /// As [`Series::to_vec`]: a copy, after one edit.
        read to_vec(range: impl Indices) -> Vec<i64>;
        /// As [`Series::read_into`].
        read read_into(range: impl Indices, buffer: &mut [i64]) -> usize;
        /// As [`Series::save`]: after one edit.
        read save() -> Vec<u8>;
    }

    questions!(Series, read, ask, |series| series);
    scans!(|series| series);

    /// As [`Series::extend_from_slice`]: no other edit comes between. Tells the number of the last edit.
    pub fn extend_from_slice(&self, values: &[i64]) -> Result<u64, RefusedAt> {
        self.many(|series| series.extend_from_slice(values))
    }

    /// As [`Series::write_many`]: no other edit comes between. Tells the number of the last edit.
    pub fn write_many<I: AsIndex>(&self, indices: &[I], values: &[i64]) -> Result<u64, RefusedAt> {
        self.many(|series| series.write_many(indices, values))
    }
}

impl Shared<Samples> {
    forwarded! {
        /// As [`Samples::push`].
        edit push(time: i64, value: i64) -> Pushed;
        /// As [`Samples::pop`].
        edit pop() -> Popped;
        /// As [`Samples::write`].
        edit write(index: impl AsIndex, value: i64) -> Written;
        /// As [`Samples::truncate`].
        edit truncate(size: impl AsIndex) -> Dropped;
        /// As [`Samples::expire`].
        edit expire(index: impl AsIndex) -> Dropped;
        /// As [`Samples::expire_before`].
        edit expire_before(time: i64) -> Dropped;
        /// As [`Samples::clear`].
        edit clear() -> Dropped;
        /// As [`Samples::get`].
        read get(index: impl AsIndex) -> Sample;
        /// The index of the first sample that is kept.
        values_count first() -> usize;
        /// The index behind the last sample.
        values_count size() -> usize;
        /// How many samples are kept.
        values_count len() -> usize;
        /// Whether none is kept.
        values_count is_empty() -> bool;
        /// As [`Samples::to_vec`]: a copy, after one edit.
        read to_vec(range: impl Indices) -> Vec<Sample>;
        /// As [`Samples::times`]: a copy, after one edit.
        read times(range: impl Indices) -> Vec<i64>;
        /// As [`Samples::between`]. Before the next call another thread may edit; within a [`with`](Shared::with) it doesn't.
        read between(times: Range<i64>) -> Range<usize>;
        /// As [`Samples::last`]. Before the next call another thread may edit; within a [`with`](Shared::with) it doesn't.
        count last(span: u64) -> Range<usize>;
        /// As [`Samples::save`]: after one edit.
        read save() -> Vec<u8>;
        /// As [`Samples::value`]: of a window of time.
        read value(kind: Kind, times: Range<i64>) -> Value;
        /// As [`Samples::value_of_last`].
        read value_of_last(kind: Kind, span: u64) -> Value;
    }

    questions!(Series, values, ask_values, |samples| samples.values());
    scans!(|samples| samples.values());

    /// As [`Samples::push_many`]: no other edit comes between. Tells the number of the last edit.
    pub fn push_many(&self, times: &[i64], values: &[i64]) -> Result<u64, RefusedAt> {
        self.many(|samples| samples.push_many(times, values))
    }
}
