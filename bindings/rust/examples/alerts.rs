//! A store with alerts: four racks of sensors feed a shared vector from threads of their own, workers compute beside them, and a listener sleeps
//! until a rack gets hot or calm. What is printed goes by no thread's speed: each hour's writes are to places of the rack's own, and an alarm
//! stays until it was heard.

use std::collections::BTreeMap;
use std::sync::mpsc;
use std::thread;

use livevec::{Kind, Queries, Refusal, Shared, Subscriber, Value, Vector};

const RACKS: u32 = 4;
const SENSORS: u32 = 250;
const HOURS: u32 = 8;
const HOT: i64 = 90;

fn range(rack: u32) -> std::ops::Range<u32> {
    rack * SENSORS..(rack + 1) * SENSORS
}

/// What a rack's sensors measure in an hour: now and then something hot.
fn feed(shared: &Shared, rack: u32, hour: u32) -> Result<(), Refusal> {
    let mut state = u64::from(1 + rack + RACKS * hour);
    for sensor in range(rack) {
        state = state.wrapping_mul(6_364_136_223_846_793_005).wrapping_add(1_442_695_040_888_963_407);
        let warm = 40 + (state >> 33) as i64 % 41;
        let is_hot = (state >> 40).is_multiple_of(600);
        shared.write(sensor, if is_hot { warm + 50 } else { warm })?;
    }
    Ok(())
}

fn number(value: Value) -> i64 {
    match value {
        Value::Greatest(Some(it)) | Value::Least(Some(it)) | Value::Sum(it) => it,
        other => unreachable!("nobody asks for {other:?}"),
    }
}

/// The greatest of each rack, by its name.
fn racks() -> Result<Queries, Refusal> {
    let mut queries = Queries::new()?;
    for rack in 0..RACKS {
        queries.watch(&format!("rack_{rack}"), Kind::Greatest, range(rack))?;
    }
    Ok(queries)
}

/// Sends a rack's name whenever it gets hot, or calm again; tells at which edit it heard the last news.
fn listen(news: Subscriber, alarms: &mpsc::Sender<(String, bool)>) -> Result<u32, Refusal> {
    let (mut hot, mut last) = (BTreeMap::new(), 0);
    for notes in news {
        for note in notes? {
            assert!(note.edit >= last, "what is told doesn't go back");
            last = note.edit;
            let is_hot = number(note.value) >= HOT;
            if hot.insert(note.name().to_owned(), is_hot).unwrap_or(false) != is_hot {
                alarms.send((note.name().to_owned(), is_hot)).expect("the store listens to the end");
            }
        }
    }
    Ok(last)
}

/// All racks feed at once.
fn measure(shared: &Shared, hour: u32) -> Result<(), Refusal> {
    thread::scope(|scope| {
        let feeders = [0, 1, 2, 3].map(|rack| scope.spawn(move || feed(shared, rack, hour)));
        feeders.into_iter().try_for_each(|feeder| feeder.join().expect("a feeder doesn't panic"))
    })
}

/// Cools what is too hot in a rack, sensor by sensor, under one lock; tells how many there were.
fn cool(shared: &Shared, rack: u32) -> Result<usize, Refusal> {
    shared.with(|sensors| {
        let mut cooled = 0;
        while let Some(hottest) = sensors.where_greatest(range(rack))?.filter(|it| it.value >= HOT) {
            sensors.write(hottest.index, 60)?;
            cooled += 1;
        }
        Ok(cooled)
    })?
}

fn main() -> Result<(), Refusal> {
    let shared = Shared::new(Vector::try_from(vec![50; (RACKS * SENSORS) as usize].as_slice())?);
    shared.start_workers(2)?;
    let (alarms, heard) = mpsc::channel();
    let news = shared.subscribe(racks()?)?;
    let listener = thread::spawn(move || listen(news, &alarms));
    let mut board = racks()?;
    board.watch("coolest", Kind::Least, ..)?;
    board.watch("total", Kind::Sum, ..)?;
    let mut board = shared.subscribe(board)?;
    for hour in 0..HOURS {
        measure(&shared, hour)?;
        let mut hot = Vec::new();
        println!("hour {hour}, {} edits", shared.edits()?);
        for note in board.look()? {
            println!("  {}: {}", note.name(), number(note.value));
            if note.kind == Kind::Greatest && number(note.value) >= HOT {
                hot.push((note.name().to_owned(), true));
            }
        }
        let mut told: Vec<_> = heard.iter().take(hot.len()).collect();
        told.sort();
        assert_eq!(told, hot);
        for (name, _) in hot {
            let rack = name["rack_".len()..].parse().expect("a rack has a number");
            println!("  alarm of {name}: {} cooled", cool(&shared, rack)?);
            assert_eq!(heard.recv(), Ok((name, false)));
        }
    }
    let sensors = shared.close().expect("no other clone is left");
    let last = listener.join().expect("the listener doesn't panic")?;
    assert!(last <= sensors.edits());
    println!("at the end {} edits of {} sensors, total {}", sensors.edits(), sensors.len(), sensors.sum(..)?);
    Ok(())
}
