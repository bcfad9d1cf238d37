//! Reads of one vector, series or samples by several threads, whose trees nobody has made yet; beside sums and maxima by hand. Those that are empty.

use std::sync::{Barrier, RwLock};
use std::thread::scope;

use livevec::{Kind, Queries, Samples, Series, Summary, Value, Vector};

const MANY: i64 = 5000;

/// Four threads ask at once, each for the ranges that begin at its number and end at any multiple of 100.
fn asked_together(sum: impl Fn(i64, i64) -> i64 + Sync, greatest: impl Fn(i64, i64) -> Option<i64> + Sync) {
    let begin = Barrier::new(4);
    scope(|threads| {
        for lo in 0..4 {
            let (sum, greatest, begin) = (&sum, &greatest, &begin);
            threads.spawn(move || {
                begin.wait();
                for hi in (100..=MANY).step_by(100) {
                    assert_eq!((sum(lo, hi), greatest(lo, hi)), ((hi - lo) * (hi + lo - 1) / 2, Some(hi - 1)));
                }
            });
        }
    });
}

#[test]
fn several_threads_read_at_once() {
    let vector = Vector::try_from_iter(0..MANY).unwrap();
    asked_together(|lo, hi| vector.sum(lo as usize..hi as usize).unwrap(), |lo, hi| vector.greatest(lo as usize..hi as usize).unwrap());
    let series = Series::try_from_iter(0..MANY).unwrap();
    asked_together(
        |lo, hi| series.iter().take(hi as usize).skip(lo as usize).sum(),
        |lo, hi| series.greatest(lo as usize..hi as usize).unwrap(),
    );
    let mut samples = Samples::new().unwrap();
    for value in 0..MANY {
        samples.push(2 * value, value).unwrap();
    }
    let by = |kind, lo: i64, hi: i64| samples.value(kind, 2 * lo..2 * hi).unwrap();
    asked_together(
        |lo, hi| if let Value::Sum(sum) = by(Kind::Sum, lo, hi) { sum } else { panic!() },
        |lo, hi| if let Value::Greatest(most) = by(Kind::Greatest, lo, hi) { most } else { panic!() },
    );
}

/// Readers share a lock that a writer has for itself: what they see is whole.
#[test]
fn readers_share_a_lock() {
    let pairs = RwLock::new(Vector::default());
    scope(|threads| {
        for _ in 0..3 {
            threads.spawn(|| {
                while pairs.read().unwrap().len() < 400 {
                    let vector = pairs.read().unwrap();
                    assert_eq!((vector.len() % 2, vector.sum(..)), (0, Ok(0)));
                }
            });
        }
        for value in 0..200 {
            pairs.write().unwrap().extend_from_slice(&[value, -value]).unwrap();
        }
    });
}

#[test]
fn the_default_is_empty() {
    #[derive(Default)]
    struct Store {
        vector: Vector,
        series: Series,
        samples: Samples,
        queries: Queries,
        summary: Summary,
    }
    let mut store = Store::default();
    assert_eq!(
        (store.vector.push(7).unwrap().index, store.series.push(7).unwrap().index, store.samples.push(-1, 7).unwrap().index),
        (0, 0, 0)
    );
    store.queries.watch("all", Kind::Sum, ..).unwrap();
    assert_eq!((store.summary, store.vector.kind()), (Summary::empty(), None));
}
