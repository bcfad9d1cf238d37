//! A day of telemetry: what four writers send at once from threads of their own, and what is asked after each step, whoever keeps it.

use std::fmt::Debug;
use std::thread;

const WRITERS: u64 = 4;
const STEPS: i64 = 3_000;
/// Seconds from a step to the next, and how many samples a writer sends at each.
const STEP: i64 = 10;
const AT_ONCE: usize = 10;
const KEPT: i64 = 2 * 3_600;
pub const HOT: i64 = 1_200;

/// What the samples of the last minutes come to.
#[derive(Debug, PartialEq, Eq)]
pub struct Window {
    pub samples: usize,
    pub sum: i64,
    pub greatest: i64,
}

/// Who keeps samples, and tells their windows of time. Writers share it.
pub trait Store: Sized + Sync {
    type Error: Debug + Send;
    /// Who is told that the greatest of all samples that are kept begins or ceases to be hot.
    type Alerts;

    fn new() -> Result<Self, Self::Error>;
    fn alerts(&self) -> Result<Self::Alerts, Self::Error>;
    /// Takes samples of one time, and gives the number of the first, counted from the first that was ever taken.
    fn take(&self, time: i64, values: &[i64]) -> Result<usize, Self::Error>;
    /// Puts another value in the place of a sample, if that is kept.
    fn correct(&self, number: usize, value: i64) -> Result<(), Self::Error>;
    /// Forgets the samples before a time. The others keep their numbers.
    fn forget(&self, before: i64) -> Result<(), Self::Error>;
    /// The samples of the last so many seconds, of which there are some.
    fn last(&self, seconds: u64) -> Result<Window, Self::Error>;
    /// The greatest, if it has begun or ceased to be hot since the last look.
    fn look(&self, alerts: &mut Self::Alerts) -> Result<Option<i64>, Self::Error>;
}

/// A writer's numbers, which don't depend on when it is served.
struct Writer {
    state: u64,
    /// The numbers of the first samples that it sent at each step.
    sent: Vec<usize>,
}

impl Writer {
    fn next(&mut self, below: u64) -> u64 {
        self.state = self.state.wrapping_mul(6_364_136_223_846_793_005).wrapping_add(1_442_695_040_888_963_407);
        (self.state >> 33) % below
    }

    /// Sends the samples of a step, then a correction of one that it sent before.
    fn write<S: Store>(&mut self, store: &S, time: i64) -> Result<(), S::Error> {
        let values = [(); AT_ONCE].map(|()| self.next(1_000) as i64 + if self.next(16_000) == 0 { 700 } else { 0 });
        self.sent.push(store.take(time, &values)?);
        let step = self.next(self.sent.len() as u64) as usize;
        let (number, value) = (self.sent[step] + self.next(AT_ONCE as u64) as usize, self.next(1_000) as i64);
        store.correct(number, value)
    }
}

/// Fills a store by four writers at once. After each step, once all have written, it prints the alerts, and each hour the last minutes.
pub fn run<S: Store>() -> Result<(), S::Error> {
    let store = S::new()?;
    let mut alerts = store.alerts()?;
    let mut writers: Vec<Writer> = (1..=WRITERS).map(|state| Writer { state, sent: Vec::new() }).collect();
    for step in 1..=STEPS {
        let time = step * STEP;
        thread::scope(|scope| {
            let store = &store;
            let sending: Vec<_> = writers.iter_mut().map(|writer| scope.spawn(move || writer.write(store, time))).collect();
            sending.into_iter().try_for_each(|writer| writer.join().expect("no writer panics"))
        })?;
        store.forget(time - KEPT)?;
        if let Some(greatest) = store.look(&mut alerts)? {
            println!("second {time}: {} at a greatest of {greatest}", if greatest >= HOT { "hot" } else { "calm" });
        }
        let windows = [60, 300, 3_600].map(|seconds| (seconds, store.last(seconds)));
        for (seconds, window) in windows {
            let Window { samples, sum, greatest } = window?;
            if time % 3_600 == 0 {
                println!("second {time}: {samples} samples of the last {seconds}, mean {}, greatest {greatest}", sum / samples as i64);
            }
        }
    }
    Ok(())
}
