//! A shared vector: subscribers, workers, clones, and what is refused.

mod plain;

use std::panic::{AssertUnwindSafe, catch_unwind};
use std::sync::mpsc;
use std::thread;
use std::time::Duration;

use livevec::{Kind, Limits, Note, Queries, Refusal, RefusedAt, Shared, Value, Vector};
use plain::until;

fn watching(kind: Kind) -> Queries {
    let mut queries = Queries::new().unwrap();
    queries.watch("all", kind, ..).unwrap();
    queries
}

fn told(notes: Option<Result<Vec<Note>, Refusal>>) -> Vec<(u32, Value)> {
    notes.map_or(Vec::new(), |notes| notes.unwrap().iter().map(|note| (note.edit, note.value)).collect())
}

#[test]
fn a_subscriber_looks_sleeps_and_has_the_last_notes() {
    let shared = Shared::new(Vector::try_from([4, 5]).unwrap());
    let mut alerts = shared.subscribe(watching(Kind::Sum)).unwrap();
    let mut late = shared.subscribe(watching(Kind::Least)).unwrap();
    shared.push(6).unwrap();
    assert_eq!(told(alerts.next()), [(3, Value::Sum(15))]);
    assert_eq!(alerts.look(), Ok(Vec::new()));
    shared.write(0, 4).unwrap();
    assert_eq!(alerts.look(), Ok(Vec::new()));
    // a pause doesn't hold up the close, nor does a sleep
    alerts.set_pause(Duration::from_secs(3600));
    shared.push(1).unwrap();
    assert_eq!(told(alerts.next()), [(5, Value::Sum(16))]);
    let pausing = thread::spawn(move || (told(alerts.next()), alerts.next().is_none(), alerts.look()));
    let sleeping = shared.subscribe(watching(Kind::Greatest)).unwrap();
    let (tells, first) = mpsc::channel();
    let sleeping = thread::spawn(move || sleeping.map(|notes| told(Some(notes))).inspect(|_| tells.send(()).unwrap_or(())).collect::<Vec<_>>());
    // however busy the machine is, it has looked before the next edit
    first.recv().unwrap();
    thread::sleep(Duration::from_millis(20));
    shared.write(0, -9).unwrap();
    let clone = shared.clone();
    assert!(shared.close().is_none());
    assert_eq!(pausing.join().unwrap(), (vec![(6, Value::Sum(3))], true, Ok(Vec::new())));
    assert_eq!(sleeping.join().unwrap(), [[(5, Value::Greatest(Some(6)))]]);
    assert_eq!(told(Some(late.look())), [(6, Value::Least(Some(-9)))]);
    assert!(late.next().is_none());

    assert_eq!(clone.push(1), Err(Shared::CLOSED));
    assert_eq!(clone.extend_from_slice(&[1]), Err(RefusedAt { place: 0, done: 0, refusal: Shared::CLOSED }));
    assert_eq!(clone.write_many(&[0], &[1]).unwrap_err().refusal, Shared::CLOSED);
    assert_eq!(clone.with(|vector| vector.push(1)).err(), Some(Shared::CLOSED));
    assert_eq!(clone.start_workers(1), Err(Shared::CLOSED));
    assert_eq!(clone.subscribe(Queries::new().unwrap()).err(), Some(Shared::CLOSED));
    assert_eq!((clone.sum(..), clone.edits()), (Ok(3), Ok(6)));
    assert_eq!(clone.close().unwrap().to_vec().unwrap(), [-9, 5, 6, 1]);
}

#[test]
fn clones_that_close_at_once_give_one_vector() {
    for _ in 0..50 {
        let shared = Shared::new(Vector::new().unwrap());
        shared.start_workers(1).unwrap();
        let mut alerts = shared.subscribe(watching(Kind::Sum)).unwrap();
        let clones = [shared.clone(), shared.clone(), shared];
        let closing = clones.map(|it| thread::spawn(move || it.close().is_some()));
        assert_eq!(closing.map(|it| u32::from(it.join().unwrap())).iter().sum::<u32>(), 1);
        assert!(alerts.next().is_none());
    }
    // the last drop ends all as well
    let shared = Shared::new(Vector::new().unwrap());
    shared.start_workers(3).unwrap();
    let alerts = shared.subscribe(watching(Kind::Sum)).unwrap();
    let listener = thread::spawn(move || alerts.count());
    shared.push(7).unwrap();
    drop(shared);
    assert!(listener.join().unwrap() == 1);
}

#[test]
fn what_is_refused_changes_nothing() {
    let shared = Shared::new(Vector::with_limits(Limits::new(1, 20).unwrap()).unwrap());
    let mut alerts = shared.subscribe(watching(Kind::Sum)).unwrap();
    assert_eq!(shared.pop(), Err(Refusal::Empty));
    assert_eq!(shared.write(0, 1), Err(Refusal::OutOfRange { size: 0 }));
    assert_eq!(shared.swap(0, 1), Err(Refusal::OutOfRange { size: 0 }));
    assert_eq!(shared.truncate(1), Err(Refusal::OutOfRange { size: 0 }));
    assert_eq!(shared.reserve(9), Err(Refusal::TooLarge { limit: 8 }));
    assert_eq!((shared.edits(), shared.is_empty(), alerts.look()), (Ok(0), Ok(true), Ok(Vec::new())));
    assert_eq!(shared.extend_from_slice(&[2; 9]), Err(RefusedAt { place: 8, done: 0, refusal: Refusal::Full }));
    assert_eq!((shared.edits(), alerts.look(), shared.extend_from_slice(&[2; 8])), (Ok(0), Ok(Vec::new()), Ok(8)));
    assert_eq!(told(alerts.next()), [(8, Value::Sum(16))]);
    let refused = shared.write_many(&[0, 8], &[1, 1]);
    assert_eq!(refused, Err(RefusedAt { place: 1, done: 0, refusal: Refusal::OutOfRange { size: 8 } }));
    assert_eq!(shared.write_many(&[0, 7], &[1]).unwrap_err().refusal, Refusal::ShortBuffer { wanted: 2 });
    assert_eq!((shared.get(8), shared.get(7)), (Err(Refusal::OutOfRange { size: 8 }), Ok(2)));
    assert_eq!((shared.value(Kind::Best, 1..3), shared.best(2..9).is_err()), (Ok(Value::Best(Some(4))), true));
    assert_eq!((shared.least(..), shared.greatest(1..1)), (Ok(Some(2)), Ok(None)));
    let sums = Shared::new(Vector::of_kind(Kind::Sum, Limits::GREATEST).unwrap());
    let (mut early, mut late) = (sums.subscribe(watching(Kind::Least)).unwrap(), sums.subscribe(watching(Kind::Least)).unwrap());
    assert_eq!((early.look(), early.next()), (Err(Refusal::BadKind), Some(Err(Refusal::BadKind))));
    assert_eq!(sums.subscribe(watching(Kind::Sum)).unwrap().look(), Ok(Vec::new()));
    assert!(sums.close().is_some());
    assert_eq!((late.next(), late.next()), (Some(Err(Refusal::BadKind)), None));
    assert_eq!(shared.start_workers(usize::MAX), Err(Refusal::NoMemory));
}

#[test]
fn a_panic_within_leaves_whole_edits_and_stops_nobody() {
    let shared = Shared::new(Vector::new().unwrap());
    shared.start_workers(1).unwrap();
    let mut alerts = shared.subscribe(watching(Kind::Sum)).unwrap();
    let clone = shared.clone();
    let panicked = thread::spawn(move || {
        clone.with(|vector| {
            vector.push(3).unwrap();
            assert_eq!(clone.len(), Err(Refusal::Busy));
            panic!("within");
        })
    });
    assert_eq!(told(alerts.next()), [(1, Value::Sum(3))]);
    assert!(panicked.join().is_err());
    let again = catch_unwind(AssertUnwindSafe(|| shared.with(|_| panic!("within, of this thread"))));
    assert!(again.is_err());
    assert_eq!(shared.push(4).unwrap().edit, 2);
    assert_eq!(told(alerts.next()), [(2, Value::Sum(7))]);
    // nor does what would wait for itself
    let mut gone = Some(shared.subscribe(watching(Kind::Best)).unwrap());
    shared
        .with(|vector| {
            assert!(matches!(alerts.next(), Some(Err(Refusal::Busy))));
            assert_eq!(shared.stop_workers(), Err(Refusal::Busy));
            assert!(shared.clone().close().is_none());
            drop(gone.take());
            vector.push(1).unwrap();
        })
        .unwrap();
    assert_eq!(told(alerts.next()), [(3, Value::Sum(8))]);
    assert_eq!(shared.close().unwrap().to_vec().unwrap(), [3, 4, 1]);
}

#[test]
fn workers_compute_stop_and_start_again() {
    let shared = Shared::new(Vector::new().unwrap());
    shared.start_workers(2).unwrap();
    for round in 1..4 {
        let many: Vec<i64> = (0..20_000).collect();
        shared.extend_from_slice(&many).unwrap();
        // a reduction reads few cells once the summaries are there, and nothing keeps them but the workers
        until(|| shared.reduce(..).unwrap().cells < 8);
        assert_eq!(shared.reduce(..).unwrap().values.sum, round * 199_990_000);
        shared.stop_workers().unwrap();
        shared.start_workers(1 + round as usize).unwrap();
    }
    // a vector put in the place of another takes no outcome of its jobs
    shared.extend_from_slice(&[1; 30_000]).unwrap();
    shared.with(|vector| *vector = Vector::try_from([5; 64]).unwrap()).unwrap();
    until(|| shared.reduce(..).unwrap().cells == 0);
    assert_eq!(shared.close().unwrap().sum(..), Ok(320));
}

#[test]
fn subscribers_come_and_go_while_edits_go_on() {
    let shared = Shared::new(Vector::new().unwrap());
    shared.start_workers(1).unwrap();
    thread::scope(|scope| {
        for value in 1..4 {
            scope.spawn({
                let shared = &shared;
                move || (0..3000).for_each(|_| assert!(shared.push(value).is_ok()))
            });
        }
        for _ in 0..100 {
            let mut alerts = shared.subscribe(watching(Kind::Sum)).unwrap();
            let first = told(Some(alerts.look()));
            assert!(first.iter().all(|&(edit, value)| matches!(value, Value::Sum(sum) if (edit..=3 * edit).contains(&(sum as u32)))));
        }
    });
    assert_eq!(shared.sum(..), Ok(18_000));
}
