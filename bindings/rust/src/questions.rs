//! What a vector is asked of a range: all six values, one, or a summary that travels.

use crate::values::ends;
use crate::{Answered, Indices, Kind, Reduced, Refusal, RefusedAt, Summary, Value, Values, Vector, raw};

impl Vector {
    /// All six values of a range. What is computed is kept: O(log n), and at most as much again for each edit since the last question, so O(n) at
    /// first. The same question costs at most 98 reads until an edit touches it. Where one value is wanted, [`value`](Vector::value) does a
    /// sixth of that.
    /// Refused with `BadRange`, `OutOfRange`, in this order.
    pub fn ask(&self, range: impl Indices) -> Result<Reduced, Refusal> {
        let (lo, hi) = ends(range, || self.len());
        self.raw.ask(lo, hi).map(Reduced::of)
    }

    /// All six values of a range, as [`ask`](Vector::ask) gives them, but nothing is kept: linear in the range each time, but for what `ask`,
    /// [`value`](Vector::value), [`refresh`](Vector::refresh) or a delivered outcome kept before. It is for a reader that is to leave everything as it
    /// is; else `ask` is the call. Refused as `ask` is.
    pub fn reduce(&self, range: impl Indices) -> Result<Reduced, Refusal> {
        let (lo, hi) = ends(range, || self.len());
        self.raw.reduce(lo, hi).map(Reduced::of)
    }

    /// The value of a range by one kind. It computes that kind alone, and keeps what it computes by that kind alone: where one kind is wanted, this
    /// is quicker than [`ask`](Vector::ask). O(log n), and at most as much again for each edit since the last question by that kind, so O(n) at
    /// first. Refused with `BadRange`, `OutOfRange`, in this order.
    ///
    /// ```
    /// use livevec::{Kind, Value, Vector};
    ///
    /// # fn main() -> Result<(), livevec::Refusal> {
    /// let prices = Vector::try_from([300, 120, 500, 80])?;
    /// assert_eq!(prices.value(Kind::Greatest, 1..)?, Value::Greatest(Some(500)));
    /// assert_eq!(prices.value(Kind::Sum, 2..2)?, Value::Sum(0));
    /// # Ok(())
    /// # }
    /// ```
    pub fn value(&self, kind: Kind, range: impl Indices) -> Result<Value, Refusal> {
        Ok(Value::of(kind, self.values(kind, range)?))
    }

    /// The same, with the number of the edit after which it is so. Costs and is refused as [`value`](Vector::value).
    ///
    /// ```
    /// use livevec::{Answered, Kind, Value, Vector};
    ///
    /// # fn main() -> Result<(), livevec::Refusal> {
    /// let prices = Vector::try_from([300, 120, 500, 80])?;
    /// assert_eq!(prices.value_at_edit(Kind::Sum, ..2)?, Answered { edit: 4, value: Value::Sum(420) });
    /// # Ok(())
    /// # }
    /// ```
    pub fn value_at_edit(&self, kind: Kind, range: impl Indices) -> Result<Answered, Refusal> {
        let (lo, hi) = ends(range, || self.len());
        let told = self.raw.value(kind as u32, lo, hi)?;
        Ok(Answered { edit: told.edit, value: Value::of(kind, Values::of_raw(told.values)) })
    }

    /// The value of each range by one kind, by one call, all after the last edit. Each costs what
    /// [`value`](Vector::value) does. All ranges are looked at first: where one is refused, with
    /// `BadRange` or `OutOfRange`, [`RefusedAt::place`] tells the first that is. Refused with `NoMemory` too.
    ///
    /// ```
    /// use livevec::{Kind, Value, Vector};
    ///
    /// # fn main() -> Result<(), livevec::Refusal> {
    /// let prices = Vector::try_from([300, 120, 500, 80])?;
    /// let least = prices.value_many(Kind::Least, [0..2, 1..4, 2..2])?;
    /// assert_eq!(least, [Value::Least(Some(120)), Value::Least(Some(80)), Value::Least(None)]);
    /// let windows = prices.value_many(Kind::Sum, (0..3_u32).map(|start| start..start + 2))?;
    /// assert_eq!(windows, [Value::Sum(420), Value::Sum(620), Value::Sum(580)]);
    /// assert_eq!(prices.value_many(Kind::Sum, [0..4, 3..5]).unwrap_err().place, 1);
    /// # Ok(())
    /// # }
    /// ```
    pub fn value_many<R: Indices>(&self, kind: Kind, ranges: impl IntoIterator<Item = R>) -> Result<Vec<Value>, RefusedAt> {
        let ranges = ranges.into_iter();
        let size = self.len();
        let mut asked = raw::roomy(ranges.size_hint().0).map_err(RefusedAt::of_all)?;
        for range in ranges {
            let (lo, hi) = ends(range, || size);
            asked.try_reserve(1).map_err(|_| RefusedAt::of_all(Refusal::NoMemory))?;
            asked.push(raw::Ends { lo, hi });
        }
        let told = self.raw.value_many(kind as u32, &asked)?;
        let mut values = raw::roomy(told.len()).map_err(RefusedAt::of_all)?;
        values.extend(told.into_iter().map(|value| Value::of(kind, Values::of_raw(value))));
        Ok(values)
    }

    /// What the elements of a range come to after the last edit, as bytes that travel: see [`Summary`]. Nothing is kept of it here, so it costs
    /// what [`reduce`](Vector::reduce) does.
    /// Refused with `BadRange`, `OutOfRange`, in this order.
    pub fn summary(&self, range: impl Indices) -> Result<Summary, Refusal> {
        let (lo, hi) = ends(range, || self.len());
        self.raw.summary(lo, hi).map(|told| Summary::of_raw(told.summary))
    }

    /// The sum, which wraps where it does not fit an `i64`. Costs what [`value`](Vector::value) does, and is refused as it is.
    pub fn sum(&self, range: impl Indices) -> Result<i64, Refusal> {
        Ok(self.values(Kind::Sum, range)?.sum)
    }

    /// The least element; none of an empty range. Costs what [`value`](Vector::value) does, and is refused as it is.
    pub fn least(&self, range: impl Indices) -> Result<Option<i64>, Refusal> {
        Ok(self.values(Kind::Least, range)?.least)
    }

    /// The greatest element; none of an empty range. Costs what [`value`](Vector::value) does, and is refused as it is.
    pub fn greatest(&self, range: impl Indices) -> Result<Option<i64>, Refusal> {
        Ok(self.values(Kind::Greatest, range)?.greatest)
    }

    /// The greatest total of one or more neighbours; none of an empty range. Costs what [`value`](Vector::value) does, and is refused as it is.
    pub fn best(&self, range: impl Indices) -> Result<Option<i128>, Refusal> {
        Ok(self.values(Kind::Best, range)?.best)
    }

    /// The values by one kind; only that kind's are told.
    fn values(&self, kind: Kind, range: impl Indices) -> Result<Values, Refusal> {
        let (lo, hi) = ends(range, || self.len());
        self.raw.value(kind as u32, lo, hi).map(|told| Values::of_raw(told.values))
    }
}
