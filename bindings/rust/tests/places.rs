//! Where in a range something stands, in vectors, series and samples, beside plain loops.

mod plain;

use std::cmp::Reverse;
use std::ops::Range;

use livevec::{Refusal, Samples, Series, Vector};
use plain::numbers;

/// An element or a run where it stands, as all three tell it.
type Placed = Option<(usize, i64)>;
type Run = Option<(Range<usize>, i128)>;

/// What is asked of each of the three.
trait Asked {
    fn extreme(&self, greatest: bool, range: Range<usize>) -> Result<Placed, Refusal>;
    fn best(&self, range: Range<usize>) -> Result<Run, Refusal>;
    fn reaches(&self, back: bool, range: Range<usize>, sum: i64) -> Result<Option<usize>, Refusal>;
    fn within(&self, last: bool, most: bool, range: Range<usize>, bound: i64) -> Result<Option<usize>, Refusal>;
}

macro_rules! asked {
    ($type:ty, $it:ident => $series:expr) => {
        impl Asked for $type {
            fn extreme(&self, greatest: bool, range: Range<usize>) -> Result<Placed, Refusal> {
                let $it = self;
                let told = if greatest { $series.where_greatest(range) } else { $series.where_least(range) };
                told.map(|placed| placed.map(|placed| (placed.index, placed.value)))
            }
            fn best(&self, range: Range<usize>) -> Result<Run, Refusal> {
                let $it = self;
                let told = $series.where_best(range)?;
                Ok(told.map(|run| (run.range, run.sum)))
            }
            fn reaches(&self, back: bool, range: Range<usize>, sum: i64) -> Result<Option<usize>, Refusal> {
                let $it = self;
                if back { $series.where_reaches_back(range, sum) } else { $series.where_reaches(range, sum) }
            }
            fn within(&self, last: bool, most: bool, range: Range<usize>, bound: i64) -> Result<Option<usize>, Refusal> {
                let $it = self;
                match (last, most) {
                    (false, false) => $series.where_first_at_least(range, bound),
                    (false, true) => $series.where_first_at_most(range, bound),
                    (true, false) => $series.where_last_at_least(range, bound),
                    (true, true) => $series.where_last_at_most(range, bound),
                }
            }
        }
    };
}
asked!(Vector, it => it);
asked!(Series, it => it);
asked!(Samples, it => it.values());

fn best_of(list: &[i64], range: Range<usize>) -> Run {
    let sum = |start: usize, end: usize| list[start..end].iter().map(|&x| i128::from(x)).sum::<i128>();
    let runs = (range.start + 1..=range.end).flat_map(|end| (range.start..end).map(move |start| (start, end)));
    runs.max_by_key(|&(start, end)| (sum(start, end), Reverse(end), start)).map(|(start, end)| (start..end, sum(start, end)))
}

/// All searches of a range, by some numbers.
fn look(asked: &impl Asked, list: &[i64], range: Range<usize>, sum: i64, bound: i64) {
    let placed = |at: usize| (at, list[at]);
    let total = |part: &[i64]| part.iter().map(|&x| i128::from(x)).sum::<i128>() >= sum.into();
    assert_eq!(asked.extreme(false, range.clone()), Ok(range.clone().min_by_key(|&at| list[at]).map(placed)));
    assert_eq!(asked.extreme(true, range.clone()), Ok(range.clone().min_by_key(|&at| Reverse(list[at])).map(placed)));
    assert_eq!(asked.best(range.clone()), Ok(best_of(list, range.clone())));
    let Range { start, end } = range;
    assert_eq!(asked.reaches(false, range.clone(), sum), Ok((start..=end).find(|&end| total(&list[start..end]))));
    assert_eq!(asked.reaches(true, range.clone(), sum), Ok((start..=end).rev().find(|&start| total(&list[start..end]))));
    for most in [false, true] {
        let within = |&at: &usize| if most { list[at] <= bound } else { list[at] >= bound };
        assert_eq!(asked.within(false, most, range.clone(), bound), Ok(range.clone().find(within)));
        assert_eq!(asked.within(true, most, range.clone(), bound), Ok(range.clone().rev().find(within)));
    }
}

#[test]
fn places_are_those_of_plain_loops() {
    let mut next = numbers(5);
    let (mut vector, mut series, mut load, mut list) =
        (Vector::new().unwrap(), Series::new().unwrap(), Samples::new().unwrap(), Vec::new());
    for round in 0..200 {
        let x = if next(30) == 0 { [i64::MIN, i64::MAX][next(2)] } else { next(9) as i64 - 4 };
        let gone = list.len() / 4;
        if round % 3 == 2 {
            let at = gone + next(list.len() - gone);
            vector.write(at as u32, x).unwrap();
            series.write(at as u64, x).unwrap();
            load.write(at as u64, x).unwrap();
            list[at] = x;
        } else {
            vector.push(x).unwrap();
            series.push(x).unwrap();
            load.push(round / 5, x).unwrap();
            list.push(x);
        }
        let gone = list.len() / 4;
        series.expire(gone as u64).unwrap();
        load.expire(gone as u64).unwrap();
        for _ in 0..8 {
            let (a, b) = (next(list.len() - gone + 1) + gone, next(list.len() - gone + 1) + gone);
            let (sum, bound) = if next(9) == 0 { (i64::MAX, i64::MIN) } else { (next(30) as i64 - 4, next(11) as i64 - 5) };
            look(&vector, &list, a.min(b)..a.max(b), sum, bound);
            look(&series, &list, a.min(b)..a.max(b), sum, bound);
            look(&load, &list, a.min(b)..a.max(b), sum, bound);
        }
    }
    assert_eq!(vector.edits(), 200);
}

#[test]
fn sums_past_64_bits_are_exact() {
    let list = [i64::MAX, i64::MAX, i64::MIN];
    let (vector, mut series) = (Vector::try_from(&list[..]).unwrap(), Series::new().unwrap());
    series.extend_from_slice(&list).unwrap();
    for asked in [&vector as &dyn Asked, &series] {
        assert_eq!(asked.best(0..3), Ok(Some((0..2, 2 * i128::from(i64::MAX)))));
        assert_eq!((asked.reaches(false, 0..3, i64::MAX), asked.reaches(false, 2..3, 0)), (Ok(Some(1)), Ok(Some(2))));
        assert_eq!((asked.reaches(true, 0..3, i64::MAX - 1), asked.reaches(true, 1..3, 0)), (Ok(Some(0)), Ok(Some(3))));
        assert_eq!(asked.reaches(true, 1..3, 1), Ok(None));
    }
}

/// Each search of a range is refused so.
fn refused(asked: &dyn Asked, range: Range<usize>, refusal: Refusal) {
    for way in [false, true] {
        assert_eq!(asked.extreme(way, range.clone()), Err(refusal));
        assert_eq!(asked.reaches(way, range.clone(), 1), Err(refusal));
        assert_eq!((asked.within(way, true, range.clone(), 1), asked.within(way, false, range.clone(), 1)), (Err(refusal), Err(refusal)));
    }
    assert_eq!(asked.best(range), Err(refusal));
}

#[test]
fn ranges_are_refused() {
    let vector = Vector::try_from(&[3, 1, 2][..]).unwrap();
    let mut series = Series::new().unwrap();
    series.extend_from_slice(&[3, 1, 2]).unwrap();
    series.expire(1).unwrap();
    refused(&vector, 1..4, Refusal::OutOfRange { size: 3 });
    refused(&series, 1..4, Refusal::NotKept { first: 1, size: 3 });
    refused(&series, 0..2, Refusal::NotKept { first: 1, size: 3 });
    for asked in [&vector as &dyn Asked, &series] {
        refused(asked, Range { start: 9, end: 8 }, Refusal::BadRange);
    }
}
