//! Questions at a [`Series`] by one kind, and its running values by one kind, written into a slice of the caller's.

use crate::indices::{many, wide};
use crate::series::{Answered, Series};
use crate::{AsIndex, Column, Indices, Kind, Refusal, RefusedAt, Value, Values, raw};

/// What a piece of a scan into a column came to: the cells that were written, at the column's front, which are those after this edit.
#[derive(Debug, PartialEq, Eq)]
pub struct Filled<'a, Cell> {
    /// The number of the last edit.
    pub edit: u64,
    /// A cell for each element of the piece: as many as the column took, or fewer at the range's end.
    pub cells: &'a mut [Cell],
}

impl Series {
    /// Makes the tree of a kind, where there is none, in O(n): from then on a value by that kind takes O(log n) joins, and each edit renews the tree.
    /// Refused with `NoMemory`, and nothing has changed then.
    pub fn prepare(&mut self, kind: Kind) -> Result<(), Refusal> {
        self.raw.prepare(kind as u32).map(drop)
    }

    /// Writes each value under the index of the same place, in order, by one call. An index may come twice: the later value stays. Each
    /// costs what [`write`](Series::write) does. Tells the number of the last edit.
    ///
    /// All writes are made, or none. Refused with `ShortBuffer` unless there are as many values as indices, then with what the first write that
    /// is refused is refused with: `Worn`, `NotKept`.
    ///
    /// ```
    /// use livevec::{Refusal, Series};
    ///
    /// # fn main() -> Result<(), Refusal> {
    /// let mut readings = Series::new()?;
    /// readings.extend_from_slice(&[20, 22, 19, 25])?;
    /// assert_eq!(readings.write_many(&[3, 0, 3], &[24, 21, 23]), Ok(7));
    /// let refused = readings.write_many(&[0, 4], &[1, 2]).unwrap_err();
    /// assert_eq!((refused.place, refused.refusal), (1, Refusal::NotKept { first: 0, size: 4 }));
    /// assert_eq!(readings.to_vec(..)?, [21, 22, 19, 23]);
    /// # Ok(())
    /// # }
    /// ```
    pub fn write_many<I: AsIndex>(&mut self, indices: &[I], values: &[i64]) -> Result<u64, RefusedAt> {
        if indices.len() != values.len() {
            return Err(RefusedAt::of_all(Refusal::ShortBuffer { wanted: indices.len() }));
        }
        let indices = many(indices, I::as_wide(indices), wide).map_err(RefusedAt::of_all)?;
        self.raw.write_many(&indices, values)
    }

    /// As [`write_many`](Series::write_many), by which it is called now.
    #[deprecated(note = "it is `write_many` now, as a vector's")]
    pub fn write_all(&mut self, indices: &[u64], values: &[i64]) -> Result<u64, RefusedAt> {
        self.write_many(indices, values)
    }

    pub(crate) fn by_kind(&self, kind: Kind, range: impl Indices) -> Result<Values, Refusal> {
        let (lo, hi) = self.ends(range);
        Ok(Values::of_raw(self.raw.value(kind as u32, lo, hi)?.values))
    }

    /// The value of a range by one kind, in O(log n), by its tree, which is made first, in O(n), where there is none. Refused with `BadRange`, `NotKept`, `NoMemory`, in
    /// this order.
    ///
    /// ```
    /// use livevec::{Kind, Series, Value};
    ///
    /// # fn main() -> Result<(), livevec::Refusal> {
    /// let mut readings = Series::new()?;
    /// readings.extend_from_slice(&[20, 22, 19, 25])?;
    /// assert_eq!(readings.value(Kind::Least, 1..)?, Value::Least(Some(19)));
    /// assert_eq!(readings.value(Kind::Sum, 2..2)?, Value::Sum(0));
    /// # Ok(())
    /// # }
    /// ```
    pub fn value(&self, kind: Kind, range: impl Indices) -> Result<Value, Refusal> {
        Ok(Value::of(kind, self.by_kind(kind, range)?))
    }

    /// The same, with the number of the edit after which it is so. Costs and is refused as [`value`](Series::value).
    pub fn value_at_edit(&self, kind: Kind, range: impl Indices) -> Result<Answered, Refusal> {
        let (lo, hi) = self.ends(range);
        let told = self.raw.value(kind as u32, lo, hi)?;
        Ok(Answered { edit: told.edit, value: Value::of(kind, Values::of_raw(told.values)) })
    }

    /// The value of each range by one kind, by one call, all after the last edit; each costs what [`value`](Series::value) does. All ranges
    /// are looked at first: where one is refused, with `BadRange` or `NotKept`, [`RefusedAt::place`] tells the first that is. Refused with `NoMemory` too.
    ///
    /// ```
    /// use livevec::{Kind, Refusal, Series, Value};
    ///
    /// # fn main() -> Result<(), Refusal> {
    /// let mut readings = Series::new()?;
    /// readings.extend_from_slice(&[20, 22, 19, 25])?;
    /// readings.expire(1)?;
    /// let windows = readings.value_many(Kind::Sum, (1..3).map(|start| start..start + 2))?;
    /// assert_eq!(windows, [Value::Sum(41), Value::Sum(44)]);
    /// let refused = readings.value_many(Kind::Sum, [1..4, 0..2]).unwrap_err();
    /// assert_eq!((refused.place, refused.refusal), (1, Refusal::NotKept { first: 1, size: 4 }));
    /// # Ok(())
    /// # }
    /// ```
    pub fn value_many<R: Indices>(&self, kind: Kind, ranges: impl IntoIterator<Item = R>) -> Result<Vec<Value>, RefusedAt> {
        let ranges = ranges.into_iter();
        let mut asked = raw::roomy(ranges.size_hint().0).map_err(RefusedAt::of_all)?;
        for range in ranges {
            let (lo, hi) = self.ends(range);
            asked.try_reserve(1).map_err(|_| RefusedAt::of_all(Refusal::NoMemory))?;
            asked.push(raw::Ends { lo, hi });
        }
        let told = self.raw.value_many(kind as u32, &asked)?;
        let mut values = raw::roomy(told.len()).map_err(RefusedAt::of_all)?;
        values.extend(told.into_iter().map(|value| Value::of(kind, Values::of_raw(value))));
        Ok(values)
    }

    /// Writes running values of a range by one kind into the front of a column, from the index `at` on, as many as it takes: each of the
    /// elements from the range's start up to an element, that one included. What the column has behind stays. So a scan goes in pieces: `at`
    /// starts where the range does, and goes on by as many as were written. A piece costs a value by that kind of what lies before it, which goes
    /// over those elements where the kind has no tree, and a step for each cell: where there are many pieces, [`prepare`](Series::prepare)
    /// first. Refused with `BadRange`, `NotKept`, of what lies before `at`, then of what lies behind; the column is then as it was.
    ///
    /// ```
    /// use livevec::{Refusal, Series, by};
    ///
    /// # fn main() -> Result<(), Refusal> {
    /// let mut readings = Series::new()?;
    /// readings.extend_from_slice(&[3, -5, 4])?;
    /// let mut sums = [0; 2];
    /// let filled = readings.scan_inclusive_into::<by::Sum>(.., 0, &mut sums)?;
    /// assert_eq!((filled.edit, &*filled.cells), (3, &[3, -2][..]));
    /// assert_eq!(*readings.scan_inclusive_into::<by::Sum>(.., 2, &mut sums)?.cells, [2]);
    /// let mut least = [7; 3];
    /// readings.scan_exclusive_into::<by::Least>(.., 0, &mut least)?;
    /// assert_eq!(least, [0, 3, -5]);
    /// # Ok(())
    /// # }
    /// ```
    pub fn scan_inclusive_into<'a, K: Column>(
        &self,
        range: impl Indices,
        at: impl AsIndex,
        column: &'a mut [K::Cell],
    ) -> Result<Filled<'a, K::Cell>, Refusal> {
        self.fill_column::<K>(true, range, wide(at), column)
    }

    /// The same, each without the element itself. Refused as [`scan_inclusive_into`](Series::scan_inclusive_into) is.
    pub fn scan_exclusive_into<'a, K: Column>(
        &self,
        range: impl Indices,
        at: impl AsIndex,
        column: &'a mut [K::Cell],
    ) -> Result<Filled<'a, K::Cell>, Refusal> {
        self.fill_column::<K>(false, range, wide(at), column)
    }

    fn fill_column<'a, K: Column>(
        &self,
        inclusive: bool,
        range: impl Indices,
        at: u64,
        column: &'a mut [K::Cell],
    ) -> Result<Filled<'a, K::Cell>, Refusal> {
        let (lo, hi) = self.ends(range);
        let did = self.raw.scan_into::<K>(inclusive, lo, at, hi, column)?;
        Ok(Filled { edit: did.edit, cells: &mut column[..did.length as usize] })
    }
}
