//! A series by one kind from outside, and its columns in pieces, beside plain loops over the same numbers.

use livevec::{Column, Kind, Refusal, Series, Value, by};

const SHARD: usize = 32_760;
const GONE: usize = 300;
const SIZE: usize = SHARD + 900;

/// The numbers of a fixed sequence, of which the first so many have expired.
fn numbers() -> (Vec<i64>, Series) {
    let mut state = 5_u64;
    let next = || {
        state = state.wrapping_mul(6_364_136_223_846_793_005).wrapping_add(1_442_695_040_888_963_407);
        if state >> 60 == 0 { i64::MAX } else { (state >> 33) as i64 % 2001 - 1000 }
    };
    let plain: Vec<i64> = std::iter::repeat_with(next).take(SIZE).collect();
    let mut series = Series::new().unwrap();
    assert_eq!(series.extend_from_slice(&plain), Ok(SIZE as u64));
    assert_eq!(series.extend_from_slice(&[]), Ok(SIZE as u64));
    series.expire(GONE as u64).unwrap();
    (plain, series)
}

/// What a loop over elements has so far.
#[derive(Clone, Copy)]
struct SoFar {
    sum: i64,
    least: Option<i64>,
    greatest: Option<i64>,
    ending: i128,
    best: Option<i128>,
    map: [u32; 2],
    states: [u8; 8],
}

impl SoFar {
    const NOTHING: SoFar =
        SoFar { sum: 0, least: None, greatest: None, ending: 0, best: None, map: [1, 0], states: [0, 1, 2, 3, 4, 5, 6, 7] };

    fn with(self, x: i64) -> SoFar {
        let (slope, rest) = (x.div_euclid(256) as u32, x.rem_euclid(256) as u32);
        let ending = self.ending.max(0) + i128::from(x);
        SoFar {
            sum: self.sum.wrapping_add(x),
            least: Some(self.least.map_or(x, |least| least.min(x))),
            greatest: self.greatest.max(Some(x)),
            ending,
            best: self.best.max(Some(ending)),
            map: [slope.wrapping_mul(self.map[0]), slope.wrapping_mul(self.map[1]).wrapping_add(rest)],
            states: self.states.map(|state| (2 * state + x.rem_euclid(4) as u8) % 8),
        }
    }

    fn value(self, kind: Kind) -> Value {
        match kind {
            Kind::Sum => Value::Sum(self.sum),
            Kind::Least => Value::Least(self.least),
            Kind::Greatest => Value::Greatest(self.greatest),
            Kind::Best => Value::Best(self.best),
            Kind::Affine => Value::Affine(self.map[0], self.map[1]),
            Kind::Automaton => Value::Automaton(self.states),
        }
    }
}

fn plainly(elements: &[i64]) -> SoFar {
    elements.iter().fold(SoFar::NOTHING, |so_far, x| so_far.with(*x))
}

#[test]
fn values_by_each_kind() {
    let (plain, series) = numbers();
    let ranges = [(GONE, SIZE), (GONE, GONE), (GONE + 7, GONE + 8), (SHARD - 50, SHARD + 60), (SHARD, SIZE)];
    for kind in Kind::ALL {
        let wanted: Vec<Value> = ranges.iter().map(|&(lo, hi)| plainly(&plain[lo..hi]).value(kind)).collect();
        for (&(lo, hi), wanted) in ranges.iter().zip(&wanted) {
            assert_eq!(series.value(kind, lo as u64..hi as u64), Ok(*wanted));
        }
        assert_eq!(series.value(kind, ..), Ok(wanted[0]));
        assert_eq!(series.value_many(kind, ranges.map(|(lo, hi)| lo as u64..hi as u64)), Ok(wanted));
    }
    assert_eq!(series.value_many(Kind::Best, std::iter::empty::<std::ops::Range<u64>>()), Ok(vec![]));
}

#[test]
fn ranges_that_are_refused() {
    let (_, series) = numbers();
    let not_kept = Refusal::NotKept { first: GONE, size: SIZE };
    let (first, size) = (GONE as u64, SIZE as u64);
    assert_eq!(series.value(Kind::Sum, first - 1..size), Err(not_kept));
    #[allow(clippy::reversed_empty_ranges)]
    let backwards = size..first;
    assert_eq!(series.value(Kind::Sum, backwards.clone()), Err(Refusal::BadRange));
    let refused = series.value_many(Kind::Sum, [first..size, first..size + 1, backwards.clone()]).unwrap_err();
    assert_eq!((refused.place, refused.done, refused.refusal), (1, 0, not_kept));
    let refused = series.value_many(Kind::Sum, [first..size, backwards]).unwrap_err();
    assert_eq!((refused.place, refused.refusal), (1, Refusal::BadRange));

    let mut column = [7; 3];
    assert_eq!(series.scan_inclusive_into::<by::Sum>(first - 1.., first, &mut column).unwrap_err(), not_kept);
    assert_eq!(series.scan_exclusive_into::<by::Least>(.., first - 1, &mut column).unwrap_err(), Refusal::BadRange);
    assert_eq!(series.scan_exclusive_into::<by::Least>(.., size + 1, &mut column).unwrap_err(), not_kept);
    assert_eq!(series.scan_exclusive_into::<by::Least>(.., size, &mut column).unwrap().cells, &[]);
    assert_eq!(column, [7; 3]);
}

#[test]
fn writes_are_all_made_or_none() {
    let mut series = Series::new().unwrap();
    series.extend_from_slice(&[9, 20, 22, 19, 25]).unwrap();
    assert_eq!(series.prepare(Kind::Sum), Ok(()));
    series.expire(1).unwrap();
    assert_eq!((series.write_many(&[4, 1, 4], &[24, 21, 23]), series.to_vec(..)), (Ok(9), Ok(vec![21, 22, 19, 23])));
    assert_eq!((series.sum(..), series.write_many::<u64>(&[], &[])), (Ok(85), Ok(9)));
    let refused = series.write_many(&[1, 0, 2], &[7, 7, 7]).unwrap_err();
    assert_eq!((refused.place, refused.done, refused.refusal), (1, 0, Refusal::NotKept { first: 1, size: 5 }));
    assert_eq!(series.write_many(&[1], &[]).unwrap_err().refusal, Refusal::ShortBuffer { wanted: 1 });
    assert_eq!((series.edits(), series.sum(..)), (9, Ok(85)));
}

/// A column in pieces of so many places, as a whole.
fn pieces<K: Column>(series: &Series, inclusive: bool, lo: usize, hi: usize, places: usize) -> Vec<K::Cell> {
    let (mut whole, mut piece) = (Vec::new(), vec![K::Cell::default(); places]);
    while lo + whole.len() < hi {
        let (range, at) = (lo as u64..hi as u64, (lo + whole.len()) as u64);
        let filled = if inclusive {
            series.scan_inclusive_into::<K>(range, at, &mut piece)
        } else {
            series.scan_exclusive_into::<K>(range, at, &mut piece)
        }
        .unwrap();
        assert_eq!(filled.edit, series.edits());
        assert_eq!(filled.cells.len(), places.min(hi - lo - whole.len()));
        whole.extend_from_slice(filled.cells);
    }
    whole
}

#[test]
fn columns_are_those_of_a_loop() {
    let (plain, series) = numbers();
    for (lo, hi, places) in [(SHARD - 700, SHARD + 600, 250), (GONE, GONE + 1, 1), (GONE, SIZE, 10_000)] {
        let with_own: Vec<SoFar> = plain[lo..hi]
            .iter()
            .scan(SoFar::NOTHING, |so_far, x| {
                *so_far = so_far.with(*x);
                Some(*so_far)
            })
            .collect();
        let without: Vec<SoFar> = std::iter::once(SoFar::NOTHING).chain(with_own[..hi - lo - 1].iter().copied()).collect();
        for (inclusive, wanted) in [(true, with_own), (false, without)] {
            let each = |of: fn(&SoFar) -> i64| wanted.iter().map(of).collect::<Vec<_>>();
            assert_eq!(pieces::<by::Sum>(&series, inclusive, lo, hi, places), each(|it| it.sum));
            assert_eq!(pieces::<by::Least>(&series, inclusive, lo, hi, places), each(|it| it.least.unwrap_or(0)));
            assert_eq!(pieces::<by::Greatest>(&series, inclusive, lo, hi, places), each(|it| it.greatest.unwrap_or(0)));
            let totals: Vec<i128> = wanted.iter().map(|it| it.best.unwrap_or(0)).collect();
            assert_eq!(pieces::<by::Best>(&series, inclusive, lo, hi, places), totals);
            let maps: Vec<[u32; 2]> = wanted.iter().map(|it| it.map).collect();
            assert_eq!(pieces::<by::Affine>(&series, inclusive, lo, hi, places), maps);
            let states: Vec<[u8; 8]> = wanted.iter().map(|it| it.states).collect();
            assert_eq!(pieces::<by::Automaton>(&series, inclusive, lo, hi, places), states);
        }
    }
}
