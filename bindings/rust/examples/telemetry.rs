//! A store of telemetry: four writers in threads of their own send samples with times to one store that they share, and correct some later. After each
//! step the last 1, 5 and 60 minutes are asked, and a query with a threshold tells when the greatest of two hours gets hot, and calm again. What is
//! older expires. By livevec each question costs O(log n), whatever an hour has; the twin `telemetry_plain` goes over the samples in a `VecDeque`, and
//! prints the same.

mod day;

use day::{HOT, Store, Window};
use livevec::{Kind, Queries, Query, Refusal, Samples, Shared, Subscriber, Value};

struct Kept {
    load: Shared<Samples>,
}

fn number(value: Value) -> i64 {
    match value {
        Value::Sum(it) | Value::Greatest(Some(it)) => it,
        other => unreachable!("a window with samples has no {other:?}"),
    }
}

impl Store for Kept {
    type Error = Refusal;
    type Alerts = Subscriber<Samples>;

    fn new() -> Result<Kept, Refusal> {
        Ok(Kept { load: Shared::new(Samples::new()?) })
    }

    fn alerts(&self) -> Result<Subscriber<Samples>, Refusal> {
        let mut queries = Queries::new()?;
        queries.watch_query("greatest", Query::by(Kind::Greatest).at_least(HOT))?;
        self.load.subscribe(queries)
    }

    fn take(&self, time: i64, values: &[i64]) -> Result<usize, Refusal> {
        // two calls with no other writer's between them
        self.load.with(|load| {
            let first = load.values().size();
            load.push_many(&vec![time; values.len()], values)?;
            Ok(first)
        })?
    }

    fn correct(&self, number: usize, value: i64) -> Result<(), Refusal> {
        match self.load.write(number, value) {
            Err(Refusal::NotKept { .. }) => Ok(()),
            written => written.map(drop),
        }
    }

    fn forget(&self, before: i64) -> Result<(), Refusal> {
        self.load.expire_before(before).map(drop)
    }

    fn last(&self, seconds: u64) -> Result<Window, Refusal> {
        self.load.with(|load| {
            let window = load.last(seconds);
            let of = |kind| Ok::<i64, Refusal>(number(load.value_of_last(kind, seconds)?));
            Ok(Window { samples: window.len(), sum: of(Kind::Sum)?, greatest: of(Kind::Greatest)? })
        })?
    }

    fn look(&self, alerts: &mut Subscriber<Samples>) -> Result<Option<i64>, Refusal> {
        Ok(alerts.look()?.first().map(|note| number(note.value)))
    }
}

fn main() -> Result<(), Refusal> {
    day::run::<Kept>()
}
