//! Samples and their windows of time from outside, beside plain vectors of times and values.

mod plain;

use livevec::{Kind, Placed, Refusal, Sample, Samples, Value, series};
use plain::{numbers, plain};

/// The plain twin: the sample under index i has `times[i]` and `values[i]`, from `first` on.
#[derive(Default)]
struct Twin {
    times: Vec<i64>,
    values: Vec<i64>,
    first: usize,
    edits: u64,
}

impl Twin {
    /// The index of the first sample whose time isn't before another.
    fn since(&self, time: i128) -> usize {
        (self.first..self.times.len()).find(|&i| i128::from(self.times[i]) >= time).unwrap_or(self.times.len())
    }

    fn not_kept(&self) -> Refusal {
        Refusal::NotKept { first: self.first, size: self.times.len() }
    }

    fn push(&mut self, load: &mut Samples, time: i64, value: i64) {
        let newest = self.times[self.first..].last().copied();
        match newest {
            Some(newest) if time < newest => assert_eq!(load.push(time, value), Err(Refusal::Earlier { newest })),
            _ => {
                self.edits += 1;
                let pushed = series::Pushed { edit: self.edits, index: self.times.len() };
                assert_eq!(load.push(time, value), Ok(pushed));
                self.times.push(time);
                self.values.push(value);
            }
        }
    }

    fn drop_before(&mut self, index: usize, did: Result<series::Dropped, Refusal>) {
        self.edits += 1;
        assert_eq!(did, Ok(series::Dropped { edit: self.edits, dropped: index - self.first }));
        self.first = index;
    }

    fn look(&self, load: &Samples, since: i64, until: i64) {
        let (lo, hi) = (self.since(since.into()), self.since(until.into()));
        assert_eq!(load.between(since..until), Ok(lo..hi));
        for kind in Kind::ALL {
            assert_eq!(load.value(kind, since..until), Ok(plain(kind, &self.values[lo..hi])));
        }
        for span in [0, 1, 5, 40, 1 << 63, u64::MAX] {
            let newest = self.times[self.first..].last().map_or(0, |&newest| i128::from(newest));
            let (lo, hi) = (self.since(newest - i128::from(span) + 1), self.times.len());
            assert_eq!(load.last(span), lo..hi);
            assert_eq!(load.value_of_last(Kind::Greatest, span), Ok(plain(Kind::Greatest, &self.values[lo..hi])));
        }
        let values = load.values();
        assert_eq!((values.first(), values.size(), values.edits()), (self.first, self.times.len(), self.edits));
    }
}

#[test]
fn windows_are_those_of_plain_loops() {
    let (mut load, mut twin, mut next) = (Samples::new().unwrap(), Twin::default(), numbers(3));
    twin.look(&load, i64::MIN, i64::MAX);
    for round in 0..1500 {
        let newest = twin.times[twin.first..].last().map_or(-50, |&newest| newest);
        match next(12) {
            0 if twin.first < twin.times.len() => {
                let before = twin.times[twin.first] + next(4) as i64;
                let index = twin.since(before.into());
                twin.drop_before(index, load.expire_before(before));
            }
            1 if twin.first < twin.times.len() => {
                let index = twin.first + 1;
                twin.drop_before(index, load.expire(index));
            }
            2 if twin.first < twin.times.len() => {
                twin.edits += 1;
                twin.times.pop();
                assert_eq!(load.pop(), Ok(series::Popped { edit: twin.edits, value: twin.values.pop().unwrap() }));
            }
            3 if twin.first < twin.times.len() => {
                let at = twin.first + next(twin.times.len() - twin.first);
                twin.edits += 1;
                assert_eq!(load.write(at, 3), Ok(series::Written { edit: twin.edits, before: twin.values[at] }));
                twin.values[at] = 3;
            }
            _ => twin.push(&mut load, newest + next(5) as i64 - 1, next(2001) as i64 - 1000),
        }
        let (a, b) = (newest - next(60) as i64, newest - next(60) as i64);
        twin.look(&load, a.min(b), a.max(b));
        if round % 100 == 0 {
            twin.look(&load, i64::MIN, i64::MAX);
            assert_eq!(load.times(..), Ok(twin.times[twin.first..].to_vec()));
            assert_eq!(load.values().to_vec(..), Ok(twin.values[twin.first..].to_vec()));
            let at = twin.times.len() - 1;
            assert_eq!(load.get(at), Ok(Sample { time: twin.times[at], value: twin.values[at] }));
            assert_eq!(load.get(at + 1), Err(twin.not_kept()));
        }
    }
}

#[test]
fn times_at_both_ends() {
    let mut load = Samples::new().unwrap();
    assert_eq!(load.push_many(&[i64::MIN, i64::MIN, -1, i64::MAX], &[1, 2, 3, 4]), Ok(4));
    assert_eq!((load.between(i64::MIN..i64::MAX), load.between(i64::MIN + 1..-1)), (Ok(0..3), Ok(2..2)));
    assert_eq!((load.last(0), load.last(1), load.last(u64::MAX)), (4..4, 3..4, 2..4));
    let backwards = std::ops::Range { start: 1, end: 0 };
    assert_eq!((load.between(backwards.clone()), load.value(Kind::Sum, backwards)), (Err(Refusal::BadRange), Err(Refusal::BadRange)));
    assert_eq!(load.expire_before(i64::MAX).unwrap().dropped, 3);
    assert_eq!(load.truncate(3).unwrap().dropped, 1);
    assert_eq!(load.pop(), Err(Refusal::Empty));
    assert_eq!(load.push(i64::MIN, 6).unwrap().index, 3);
    assert_eq!(format!("{load:?}"), "Samples { first: 3, size: 4, edits: 7, .. }");
}

#[test]
fn pushes_end_with_the_first_that_is_refused() {
    let mut load = Samples::new().unwrap();
    let refused = load.push_many(&[5, 5, 4, 9], &[1, 2, 3, 4]).unwrap_err();
    assert_eq!((refused.place, refused.done, refused.refusal), (2, 2, Refusal::Earlier { newest: 5 }));
    let refused = load.push_many(&[3], &[1]).unwrap_err();
    assert_eq!((refused.place, refused.done, refused.refusal), (0, 0, Refusal::Earlier { newest: 5 }));
    assert_eq!(load.push_many(&[1, 2], &[1]).unwrap_err().refusal, Refusal::ShortBuffer { wanted: 2 });
    assert_eq!((load.push_many(&[], &[]), load.values().sum(..)), (Ok(2), Ok(3)));
    assert_eq!((Refusal::Earlier { newest: 5 }.number(), Refusal::NotSaved.number()), (21, 22));
    assert_eq!(Refusal::Earlier { newest: 5 }.to_string(), "earlier than the last sample, whose time is 5");
}

#[test]
fn values_are_asked_by_index() {
    let mut load = Samples::new().unwrap();
    load.push_many(&[0, 1, 1, 2], &[9, -4, 7, 7]).unwrap();
    assert_eq!(load.prepare(Kind::Best), Ok(()));
    let window = load.between(1..3).unwrap();
    assert_eq!(load.values().where_greatest(window.clone()), Ok(Some(Placed { index: 2, value: 7 })));
    assert_eq!((load.values().best(window.clone()), load.values().where_reaches(.., 10)), (Ok(Some(14)), Ok(Some(3))));
    assert_eq!(load.values().value(Kind::Least, window), Ok(Value::Least(Some(-4))));
    let mut room = [0; 3];
    assert_eq!((load.times_into(1.., &mut room), room), (Ok(3), [1, 1, 2]));
    assert_eq!((load.times_into(..5, &mut room), load.times(..5)), (Err(not_kept()), Err(not_kept())));
}

fn not_kept() -> Refusal {
    Refusal::NotKept { first: 0, size: 4 }
}
