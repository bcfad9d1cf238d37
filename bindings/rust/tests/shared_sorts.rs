//! A series and samples that threads share, and a shared vector that goes on as its copy. Values are worked out by hand.

use std::sync::mpsc;
use std::thread;
use std::time::Duration;

use livevec::series::{Dropped, Popped, Pushed, Swapped, Written};
use livevec::{Kind, Limits, Note, Queries, Query, Refusal, RefusedAt, Sample, Samples, Series, Shared, Subscriber, Value, Vector, by};

type Told = Vec<(String, u32, Value)>;

fn told(notes: Result<Vec<Note>, Refusal>) -> Told {
    notes.unwrap().iter().map(|note| (note.name().to_owned(), note.edit, note.value)).collect()
}

fn one(name: &str, edit: u32, value: Value) -> (String, u32, Value) {
    (name.to_owned(), edit, value)
}

fn asked<const N: usize>(named: [(&str, Query); N]) -> Queries {
    let mut queries = Queries::new().unwrap();
    named.iter().for_each(|&(name, query)| queries.watch_query(name, query).unwrap());
    queries
}

fn all(kind: Kind) -> Queries {
    asked([("all", Query::by(kind))])
}

#[test]
fn each_call_of_a_series() {
    let shared = Shared::new(Series::try_from([4, 5]).unwrap());
    let two = asked([("all", Query::by(Kind::Sum)), ("front", Query::by(Kind::Least).between(..2))]);
    let (mut alerts, mut late) = (shared.subscribe(two).unwrap(), shared.subscribe(all(Kind::Greatest)).unwrap());
    assert_eq!((shared.push(6), shared.len(), shared.get(2), shared.last_edit()), (Ok(Pushed { edit: 3, index: 2 }), Ok(3), Ok(6), Ok(3)));
    assert_eq!(told(alerts.next().unwrap()), [one("all", 3, Value::Sum(15)), one("front", 3, Value::Least(Some(4)))]);
    assert_eq!(shared.write(0, 7), Ok(Written { edit: 4, before: 4 }));
    assert_eq!((shared.swap(0, 1), shared.pop()), (Ok(Swapped { edit: 5, first: 5 }), Ok(Popped { edit: 6, value: 6 })));
    assert_eq!(told(alerts.next().unwrap()), [one("all", 6, Value::Sum(12)), one("front", 6, Value::Least(Some(5)))]);
    assert_eq!(alerts.edit(), 6);
    assert_eq!((shared.extend_from_slice(&[1, 2, 3]), shared.write_many(&[4], &[30])), (Ok(9), Ok(10)));
    assert_eq!((shared.expire(1), shared.first(), shared.size()), (Ok(Dropped { edit: 11, dropped: 1 }), Ok(1), Ok(5)));
    assert_eq!(shared.truncate(4), Ok(Dropped { edit: 12, dropped: 1 }));
    assert_eq!((shared.sum(..), shared.total(..), shared.least(..), shared.greatest(2..)), (Ok(10), Ok(10), Ok(Some(1)), Ok(Some(2))));
    assert_eq!((shared.best(1..3), shared.value(Kind::Affine, 4..), shared.is_empty()), (Ok(Some(8)), Ok(Value::Affine(1, 0)), Ok(false)));
    assert_eq!((shared.reduce(..).unwrap().edit, shared.value_at_edit(Kind::Sum, 1..2).unwrap().edit), (12, 12));
    assert_eq!(
        (shared.get(0), shared.write(4, 1)),
        (Err(Refusal::NotKept { first: 1, size: 4 }), Err(Refusal::NotKept { first: 1, size: 4 }))
    );
    let refused = shared.write_many(&[1, 9], &[0, 0]).unwrap_err();
    assert_eq!((refused.place, refused.done, shared.last_edit()), (1, 0, Ok(12)));
    let within = shared.with(|series| {
        assert_eq!(shared.len(), Err(Refusal::Busy));
        *series = Series::try_from([9]).unwrap();
    });
    // another in its place is edit 13, and its push is 14
    assert_eq!((within, shared.last_edit(), shared.push(50)), (Ok(()), Ok(14), Ok(Pushed { edit: 15, index: 1 })));
    assert_eq!(told(alerts.look()), [one("all", 15, Value::Sum(59)), one("front", 15, Value::Least(Some(9)))]);
    let (tells, has_heard) = mpsc::channel();
    let sleeping = thread::spawn(move || {
        let first = told(late.next().unwrap());
        tells.send(()).unwrap();
        (first, told(late.next().unwrap()), late.next().is_none(), late.edit())
    });
    // however busy the machine is, it has heard of the first edit before the next
    has_heard.recv().unwrap();
    shared.write(0, 90).unwrap();
    let clone = shared.clone();
    assert!(shared.close().is_none());
    let (first, last, is_over, edit) = sleeping.join().unwrap();
    assert_eq!((first, last), (vec![one("all", 15, Value::Greatest(Some(50)))], vec![one("all", 16, Value::Greatest(Some(90)))]));
    assert!(is_over && edit == 16);
    assert_eq!((clone.push(1), clone.subscribe(Queries::new().unwrap()).err()), (Err(Shared::CLOSED), Some(Shared::CLOSED)));
    assert_eq!(clone.extend_from_slice(&[1]), Err(RefusedAt { place: 0, done: 0, refusal: Shared::CLOSED }));
    assert_eq!(clone.close().unwrap().to_vec(..).unwrap(), [90, 50]);
}

/// Of [3, -1, 4, 1, -5, 9, 2, 6] each form answers as its twin that isn't shared, and that as by hand.
macro_rules! answers_as_alone {
    ($shared:expr, $alone:expr) => {
        let (shared, alone) = (&$shared, &$alone);
        assert_eq!((shared.where_least(..), shared.where_greatest(..5)), (alone.where_least(..), alone.where_greatest(..5)));
        assert_eq!((shared.where_best(..), shared.where_best(2..2)), (alone.where_best(..), Ok(None)));
        let ends = (shared.where_reaches(.., 6), shared.where_reaches_back(.., 8));
        assert_eq!(ends, (alone.where_reaches(.., 6), alone.where_reaches_back(.., 8)));
        assert_eq!(ends, (Ok(Some(3)), Ok(Some(6))));
        let firsts = (shared.where_first_at_least(.., 4), shared.where_first_at_most(2.., -1));
        assert_eq!((firsts, alone.where_first_at_least(.., 4)), ((Ok(Some(2)), Ok(Some(4))), Ok(Some(2))));
        assert_eq!((shared.where_last_at_least(..5, 4), shared.where_last_at_most(.., 1)), (Ok(Some(2)), Ok(Some(4))));
        assert_eq!(
            (shared.sum(1..5), shared.total(..), shared.least(3..), shared.greatest(6..6), shared.best(..)),
            (Ok(-1), Ok(19), Ok(Some(-5)), Ok(None), Ok(Some(19)))
        );
        assert_eq!(shared.value_many(Kind::Sum, [(0..3), (2..8)]), Ok(vec![Value::Sum(6), Value::Sum(17)]));
        assert_eq!(shared.value_many(Kind::Sum, [(0..3), (2..9)]).map_err(|refused| refused.place), Err(1));
        assert_eq!((shared.ask(2..4).unwrap().values, shared.ask(..).unwrap().edit), (alone.ask(2..4).unwrap().values, 8));
        assert_eq!(
            (shared.reduce(..), shared.value_at_edit(Kind::Affine, 2..4)),
            (alone.reduce(..), alone.value_at_edit(Kind::Affine, 2..4))
        );
    };
}

const ELEMENTS: [i64; 8] = [3, -1, 4, 1, -5, 9, 2, 6];

#[test]
fn each_form_answers_as_alone() {
    let alone = Vector::try_from(ELEMENTS).unwrap();
    let shared = Shared::new(alone.try_clone().unwrap());
    answers_as_alone!(shared, alone);
    assert_eq!((shared.capacity(), shared.last(), shared.to_vec()), (Ok(8), Ok(Some(6)), Ok(ELEMENTS.to_vec())));
    assert_eq!(shared.summary(0..3).map(|summary| summary.total()), Ok(6));
    assert_eq!(Vector::load(&shared.save().unwrap()).unwrap(), shared.to_vec().unwrap());
    assert_eq!(shared.scan_inclusive(6..).unwrap().iter().map(|values| values.sum).collect::<Vec<_>>(), [2, 8]);
    assert_eq!(shared.scan_exclusive(6..).unwrap().iter().map(|values| values.sum).collect::<Vec<_>>(), [0, 2]);
    let mut sums = [7; 3];
    assert_eq!(shared.scan_inclusive_into::<by::Sum>(6.., &mut sums).map(|filled| filled.edit), Ok(8));
    assert_eq!(
        (sums, shared.scan_exclusive_into::<by::Least>(..2, &mut sums).map(|filled| filled.cells.to_vec())),
        ([2, 8, 7], Ok(vec![0, 3]))
    );
    assert!(shared.try_clone().unwrap() == alone && shared.clear().unwrap().dropped == 8);

    let alone = Series::try_from(ELEMENTS).unwrap();
    let shared = Shared::new(alone.try_clone().unwrap());
    answers_as_alone!(shared, alone);
    let mut piece = [0; 2];
    assert_eq!(
        (shared.last(), shared.to_vec(5..), shared.read_into(5.., &mut piece), piece),
        (Ok(Some(6)), Ok(vec![9, 2, 6]), Ok(2), [9, 2])
    );
    assert_eq!(shared.scan_inclusive(6..).unwrap().iter().map(|values| values.sum).collect::<Vec<_>>(), [2, 8]);
    assert_eq!(shared.scan_exclusive(6..).unwrap().iter().map(|values| values.sum).collect::<Vec<_>>(), [0, 2]);
    let filled = shared.scan_inclusive_into::<by::Sum>(.., 6, &mut piece).map(|filled| (filled.edit, filled.cells.to_vec()));
    assert_eq!(filled, Ok((8, vec![13, 19])));
    let filled = shared.scan_exclusive_into::<by::Least>(6.., 6, &mut piece).map(|filled| (filled.edit, filled.cells.to_vec()));
    assert_eq!(filled, Ok((8, vec![0, 2])));
    assert!(Series::load(&shared.save().unwrap()).unwrap() == shared.try_clone().unwrap());
    assert_eq!(shared.clear(), Ok(Dropped { edit: 9, dropped: 8 }));

    let times = [0, 5, 5, 10, 20, 30, 31, 40];
    let alone = Samples::try_from_iter(times.into_iter().zip(ELEMENTS)).unwrap();
    let shared = Shared::new(alone.try_clone().unwrap());
    answers_as_alone!(shared, alone.values());
    assert_eq!((shared.first(), shared.size(), shared.len(), shared.is_empty()), (Ok(0), Ok(8), Ok(8), Ok(false)));
    assert_eq!((shared.times(1..4), shared.between(5..10), shared.last(10)), (Ok(vec![5, 5, 10]), Ok(1..3), Ok(6..8)));
    assert_eq!(shared.to_vec(7..), Ok(vec![Sample { time: 40, value: 6 }]));
    assert_eq!(shared.scan_inclusive(6..).unwrap().iter().map(|values| values.sum).collect::<Vec<_>>(), [2, 8]);
    assert_eq!(shared.scan_exclusive(6..).unwrap().iter().map(|values| values.sum).collect::<Vec<_>>(), [0, 2]);
    assert_eq!(shared.scan_inclusive_into::<by::Sum>(.., 6, &mut piece).map(|filled| filled.cells.to_vec()), Ok(vec![13, 19]));
    assert!(Samples::load(&shared.save().unwrap()).unwrap() == shared.try_clone().unwrap());
    assert_eq!(shared.clear(), Ok(Dropped { edit: 9, dropped: 8 }));
}

#[test]
fn crossings_alone_are_told() {
    let shared = Shared::new(Series::new().unwrap());
    let (low, sum) = (Query::by(Kind::Least).at_most(0), Query::by(Kind::Sum).at_least(10));
    let mut alerts = shared.subscribe(asked([("low", low), ("sum", sum), ("map", Query::by(Kind::Affine).at_least(0))])).unwrap();
    // of no elements there is no least, and the sum is 0
    let mut after = |value| {
        shared.push(value).unwrap();
        told(alerts.look())
    };
    assert_eq!(after(9), []);
    assert_eq!(after(1), [one("sum", 2, Value::Sum(10))]);
    assert_eq!(after(0), [one("low", 3, Value::Least(Some(0)))]);
    assert_eq!(after(-1), [one("sum", 4, Value::Sum(9))]);
    assert_eq!(after(-7), []);
    assert_eq!(after(20), [one("sum", 6, Value::Sum(22))]);
    shared.clear().unwrap();
    assert_eq!(told(alerts.look()), [one("low", 7, Value::Least(None)), one("sum", 7, Value::Sum(0))]);
}

#[test]
fn what_can_not_be_watched() {
    let mut queries = Queries::new().unwrap();
    assert_eq!(queries.watch("seventeen letters", Kind::Sum, ..).err(), Some(Refusal::BadName));
    assert_eq!(queries.watch("back", Kind::Sum, 2..1).err(), Some(Refusal::BadRange));
    // of no elements there is no news, by any kind
    let shared = Shared::new(Series::new().unwrap());
    let names = ["a", "b", "c", "d", "e", "f"];
    Kind::ALL.iter().zip(names).for_each(|(&kind, name)| queries.watch(name, kind, 5..).unwrap());
    let mut nothing = shared.subscribe(queries).unwrap();
    shared.push(1).unwrap();
    assert_eq!((nothing.look(), nothing.edit()), (Ok(Vec::new()), 0));
}

#[test]
fn each_call_of_samples() {
    let mut some = Samples::new().unwrap();
    some.push_many(&[0, 12], &[20, 22]).unwrap();
    let load = Shared::new(some);
    let mut alerts: Subscriber<Samples> = load.subscribe(all(Kind::Greatest)).unwrap();
    assert_eq!((load.push(61, 30), load.push_many(&[75, 80], &[26, 28])), (Ok(Pushed { edit: 3, index: 2 }), Ok(5)));
    assert_eq!(told(alerts.next().unwrap()), [one("all", 5, Value::Greatest(Some(30)))]);
    assert_eq!((load.get(3), load.value_of_last(Kind::Sum, 60)), (Ok(Sample { time: 75, value: 26 }), Ok(Value::Sum(84))));
    assert_eq!(load.value(Kind::Least, 0..13), Ok(Value::Least(Some(20))));
    assert_eq!((load.expire_before(70), load.expire(4)), (Ok(Dropped { edit: 6, dropped: 3 }), Ok(Dropped { edit: 7, dropped: 1 })));
    assert_eq!((load.push(79, 1), load.write(4, 29)), (Err(Refusal::Earlier { newest: 80 }), Ok(Written { edit: 8, before: 28 })));
    assert_eq!(told(alerts.look()), [one("all", 8, Value::Greatest(Some(29)))]);
    assert_eq!((load.pop(), load.truncate(4)), (Ok(Popped { edit: 9, value: 29 }), Ok(Dropped { edit: 10, dropped: 0 })));
    assert!(load.close().unwrap().values().is_empty());
    assert_eq!(told(alerts.next().unwrap()), [one("all", 10, Value::Greatest(None))]);
}

#[test]
fn threads_share_a_series() {
    let shared = Shared::new(Series::new().unwrap());
    let mut alerts = shared.subscribe(all(Kind::Sum)).unwrap();
    alerts.set_pause(Duration::ZERO);
    let listener = thread::spawn(move || alerts.map(|notes| told(notes)[0].clone()).collect::<Vec<_>>());
    let feeders = [1, 2, 3, 4].map(|_| {
        let shared = shared.clone();
        thread::spawn(move || (0..2000).for_each(|_| assert!(shared.push(2).is_ok())))
    });
    feeders.into_iter().for_each(|feeder| feeder.join().unwrap());
    assert_eq!(shared.close().unwrap().size(), 8000);
    // of twos alone the sum is twice the number of edits, and the numbers rise
    let heard = listener.join().unwrap();
    assert!(heard.iter().all(|(_, edit, value)| *value == Value::Sum(2 * i64::from(*edit))));
    assert!(heard.is_sorted_by(|a, b| a.1 < b.1) && heard.last().unwrap().1 == 8000);
}

/// The elements count, and not where they stand or after which edit; samples have times too.
#[test]
fn they_are_compared() {
    let vectors = [[1, 2], [1, 2], [1, 3]].map(|of| Shared::new(Vector::try_from(of).unwrap()));
    assert!(vectors[0] == vectors[1] && vectors[0] != vectors[2] && vectors[0] == vectors[0].clone());
    vectors[2].write(1, 2).unwrap();
    assert!(vectors[1] == vectors[2]);
    let series = [[1, 2, 3], [9, 2, 3]].map(|of| Shared::new(Series::try_from(of).unwrap()));
    assert!(series[0] != series[1]);
    for it in &series {
        it.expire(1).unwrap();
    }
    assert!(series[0] == series[1]);
    let samples = [5, 6].map(|time| {
        let shared = Shared::new(Samples::new().unwrap());
        shared.push(time, 7).unwrap();
        shared
    });
    assert!(samples[0] != samples[1] && samples[0] == samples[0].clone());
}

/// Each of two threads compares the other way round, and a third edits meanwhile: none waits for ever.
#[test]
fn they_are_compared_both_ways_at_once() {
    let (a, b) = (Shared::new(Vector::try_from([1; 64]).unwrap()), Shared::new(Vector::try_from([1; 64]).unwrap()));
    let compare = |a: &Shared, b: &Shared| (0..500).filter(|_| a == b).count();
    thread::scope(|scope| {
        let both = [scope.spawn(|| compare(&a, &b)), scope.spawn(|| compare(&b, &a))];
        for round in 0..100 {
            a.write(0, round % 2).unwrap();
        }
        assert!(both.into_iter().all(|it| it.join().unwrap() <= 500));
    });
    a.write(0, 1).unwrap();
    assert!(a == b);
}

#[test]
fn a_vector_of_few_edits_goes_on() {
    let shared = Shared::new(Vector::of_kind(Kind::Sum, Limits::new(1, 6).unwrap()).unwrap());
    let mut queries = Queries::new().unwrap();
    queries.watch("all", Kind::Sum, ..).unwrap();
    let mut alerts = shared.subscribe(queries).unwrap();
    shared.start_workers(2).unwrap();
    let mut wanted: Vec<i64> = Vec::new();
    for edit in 1..=50 {
        if shared.with(|vector| vector.edits()) == Ok(6) {
            assert_eq!(shared.push(1), Err(Refusal::Worn));
            shared.renew().unwrap();
            assert_eq!((shared.edits(), alerts.look(), shared.least(..)), (Ok(edit - 1), Ok(Vec::new()), Err(Refusal::BadKind)));
        }
        // of at most two elements, so that a copy has four edits left
        let number = if wanted.len() < 2 {
            wanted.push(edit.into());
            shared.push(edit.into()).unwrap().edit
        } else {
            let did = shared.pop().unwrap();
            assert_eq!(Some(did.value), wanted.pop());
            did.edit
        };
        let sum = wanted.iter().sum();
        assert_eq!((number, told(alerts.look()), alerts.edit()), (edit, vec![one("all", edit, Value::Sum(sum))], edit.into()));
        assert_eq!((shared.sum(..), shared.value_at_edit(Kind::Sum, ..).unwrap().edit), (Ok(sum), edit));
    }
    // scans tell such a number too, which is no longer the vector's own
    let mut column = vec![0; wanted.len()];
    assert_eq!(shared.scan_inclusive_into::<by::Sum>(.., &mut column).map(|filled| filled.edit), Ok(50));
    assert_eq!(shared.with(|vector| vector.edits() < 50), Ok(true));
    assert_eq!(shared.with(|_| shared.renew()), Ok(Err(Refusal::Busy)));
    let vector = shared.close().unwrap();
    assert!(vector.to_vec().unwrap() == wanted && vector.edits() <= 6 && vector.kind() == Some(Kind::Sum));
    let mut full = Vector::with_limits(Limits::new(1, 4).unwrap()).unwrap();
    full.extend_from_slice(&[1; 4]).unwrap();
    let full = Shared::new(full);
    full.pop().unwrap_err();
    full.renew().unwrap();
    assert_eq!((full.scan_inclusive(..).unwrap().edit(), full.scan_exclusive(1..).unwrap().edit()), (4, 4));
    assert_eq!((full.edits(), full.pop(), full.close().unwrap().edits()), (Ok(4), Err(Refusal::Worn), 4));
}
