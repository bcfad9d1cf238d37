//! Samples: values with times, and what is asked of a window of time.

use std::fmt;
use std::ops::Range;

use crate::indices::wide;
use crate::series::{Dropped, Lent, Popped, Pushed, Series, Written};
use crate::{AsIndex, Indices, Kind, Refusal, RefusedAt, Value, Values, raw};

/// Values with times that do not fall, in a unit of the caller's (seconds, say, or nanoseconds), for windows of time.
///
/// Each sample has an index, as an element of a [`Series`] has, and one count of edits is of both. The values are a series, which is lent by
/// [`values`](Samples::values): all that a series is asked by index it is asked there. A window of time is a range of indices, which
/// [`between`](Samples::between) and [`last`](Samples::last) tell.
///
/// ```
/// use livevec::{Kind, Refusal, Samples, Value};
///
/// # fn main() -> Result<(), Refusal> {
/// let mut load = Samples::new()?;
/// for (time, value) in [(0, 7), (90, 4), (91, 9), (240, 5)] {
///     load.push(time, value)?;
/// }
/// let window = load.between(90..240)?;
/// assert_eq!((window.clone(), load.values().greatest(window)?), (1..3, Some(9)));
/// assert_eq!(load.value_of_last(Kind::Sum, 150)?, Value::Sum(14));
/// assert_eq!(load.push(239, 1), Err(Refusal::Earlier { newest: 240 }));
/// assert_eq!(load.expire_before(91)?.dropped, 2);
/// # Ok(())
/// # }
/// ```
///
/// They may be sent to another thread, and read by several through `&`, as a [`Vector`](crate::Vector) may.
pub struct Samples {
    values: Series,
}

/// A value, and when it was taken.
#[derive(Clone, Copy, Debug, PartialEq, Eq, Hash)]
pub struct Sample {
    /// When.
    pub time: i64,
    /// The value.
    pub value: i64,
}

impl Samples {
    /// No samples yet. O(1). Refused with `NoMemory` alone.
    pub fn new() -> Result<Samples, Refusal> {
        raw::series::Series::new_samples().map(Samples::of_raw)
    }

    pub(crate) fn of_raw(raw: raw::series::Series) -> Samples {
        Samples { values: Series { raw } }
    }

    /// The values, as a series: what is asked by index. They are lent, and stay the samples'. O(1).
    pub fn values(&self) -> &Series {
        &self.values
    }

    /// The values of a range without a copy, as [`Series::lend`] has them.
    pub fn lend(&mut self, range: impl Indices) -> Result<Lent<'_>, Refusal> {
        self.values.lend(range)
    }

    /// Puts a sample at the end. O(1) amortised, and as much again for each tree. Refused with `Worn`, `Full`, `Earlier`, `NoMemory`, in this order.
    pub fn push(&mut self, time: i64, value: i64) -> Result<Pushed, Refusal> {
        self.values.raw.push_sample(time, value).map(|did| Pushed { edit: did.edit, index: did.place as usize })
    }

    /// Pushes each value with the time at the same place, in order, by one call, up to the first that is refused. Linear. Tells the number of the
    /// last edit.
    ///
    /// Refused with `ShortBuffer` unless there are as many values as times, then as the first push that is refused: [`RefusedAt::done`] tells
    /// how many were pushed before it.
    ///
    /// ```
    /// use livevec::{Refusal, Samples};
    ///
    /// # fn main() -> Result<(), Refusal> {
    /// let mut load = Samples::new()?;
    /// assert_eq!(load.push_many(&[0, 90], &[7, 4]), Ok(2));
    /// let refused = load.push_many(&[91, 80], &[9, 5]).unwrap_err();
    /// assert_eq!((refused.done, refused.refusal), (1, Refusal::Earlier { newest: 91 }));
    /// # Ok(())
    /// # }
    /// ```
    pub fn push_many(&mut self, times: &[i64], values: &[i64]) -> Result<u64, RefusedAt> {
        if times.len() != values.len() {
            return Err(RefusedAt::of_all(Refusal::ShortBuffer { wanted: times.len() }));
        }
        self.values.raw.push_samples(times, values)
    }

    /// Drops the last sample, and tells its value. O(log n). Refused with `Worn`, `Empty`, in this order.
    pub fn pop(&mut self) -> Result<Popped, Refusal> {
        self.values.pop()
    }

    /// Overwrites the value of a sample, whose time stays. O(log n) for each tree. Refused with `Worn`, `NotKept`, in this order.
    pub fn write(&mut self, index: impl AsIndex, value: i64) -> Result<Written, Refusal> {
        self.values.write(index, value)
    }

    /// Drops the samples from an index on. O(log n). Refused with `Worn`, `NotKept`, in this order.
    pub fn truncate(&mut self, size: impl AsIndex) -> Result<Dropped, Refusal> {
        self.values.truncate(size)
    }

    /// Drops all samples, by one edit, as [`Series::clear`] does. O(log n). Refused with `Worn`.
    pub fn clear(&mut self) -> Result<Dropped, Refusal> {
        self.values.clear()
    }

    /// Drops the samples before an index, as [`Series::expire`] does elements. O(1) amortised. Refused with `Worn`, `NotKept`, in this order.
    pub fn expire(&mut self, index: impl AsIndex) -> Result<Dropped, Refusal> {
        self.values.expire(index)
    }

    /// Drops the samples that were taken before a time. O(log n). It takes no memory, and gives memory back. Refused with `Worn`.
    pub fn expire_before(&mut self, time: i64) -> Result<Dropped, Refusal> {
        self.values.raw.expire_before(time).map(|did| Dropped { edit: did.edit, dropped: did.place as usize })
    }

    /// Makes the tree of a kind, as [`Series::prepare`] does, in O(n). Refused with `NoMemory`.
    pub fn prepare(&mut self, kind: Kind) -> Result<(), Refusal> {
        self.values.prepare(kind)
    }

    /// The sample under an index. O(1). Refused with `NotKept` alone.
    pub fn get(&self, index: impl AsIndex) -> Result<Sample, Refusal> {
        self.values.raw.sample(wide(index)).map(|told| Sample { time: told.time, value: told.value })
    }

    /// Puts the times of a range of indices into a buffer, as [`Series::read_into`] does the values, and refused as that. Linear in
    /// the piece.
    pub fn times_into(&self, range: impl Indices, buffer: &mut [i64]) -> Result<usize, Refusal> {
        let (lo, hi) = self.values.ends(range);
        self.values.raw.times(lo, hi, buffer).map(|did| did.length as usize)
    }

    /// A copy of the times of a range of indices. Linear. Refused with `BadRange`, `NotKept`, `NoMemory`, in this order.
    pub fn times(&self, range: impl Indices) -> Result<Vec<i64>, Refusal> {
        let (lo, hi) = self.values.ends(range);
        self.values.raw.times(lo, hi, &mut [])?;
        let length = (hi - lo) as usize;
        let mut times = raw::roomy(length)?;
        times.resize(length, 0);
        self.values.raw.times(lo, hi, &mut times)?;
        Ok(times)
    }

    /// The indices of the samples whose times are in a range, its end excluded. O(log n). Refused with `BadRange`.
    pub fn between(&self, times: Range<i64>) -> Result<Range<usize>, Refusal> {
        self.values.raw.between(times.start, times.end).map(|window| window.lo as usize..window.hi as usize)
    }

    /// The indices of the samples of the last `span` of time: those whose times are above that of the last sample less `span`. Of a span of 0
    /// there is none, and of 1 those with the last one's time. O(log n).
    pub fn last(&self, span: u64) -> Range<usize> {
        let window = self.values.raw.last(span).expect("samples that are there have a window");
        window.lo as usize..window.hi as usize
    }

    /// The value by one kind of the samples whose times are in a range. O(log n): the kind's tree is made first, in O(n), where there is none. Refused with
    /// `BadRange`, `NoMemory`, in this order.
    pub fn value(&self, kind: Kind, times: Range<i64>) -> Result<Value, Refusal> {
        let told = self.values.raw.value_between(kind as u32, times.start, times.end)?;
        Ok(Value::of(kind, Values::of_raw(told.values)))
    }

    /// The same of the last `span` of time, at the same cost. Refused with `NoMemory`.
    pub fn value_of_last(&self, kind: Kind, span: u64) -> Result<Value, Refusal> {
        let told = self.values.raw.value_of_last(kind as u32, span)?;
        Ok(Value::of(kind, Values::of_raw(told.values)))
    }
}

impl fmt::Debug for Samples {
    fn fmt(&self, f: &mut fmt::Formatter<'_>) -> fmt::Result {
        f.debug_struct("Samples")
            .field("first", &self.values.first())
            .field("size", &self.values.size())
            .field("edits", &self.values.edits())
            .finish_non_exhaustive()
    }
}
