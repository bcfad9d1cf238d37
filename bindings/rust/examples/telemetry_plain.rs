//! The same store of telemetry by a queue, a lock and loops.

mod day;

use std::collections::VecDeque;
use std::convert::Infallible;
use std::sync::{Mutex, MutexGuard};

use day::{HOT, Store, Window};

/// Times and values, and how many were forgotten before them.
#[derive(Default)]
struct Last {
    samples: VecDeque<(i64, i64)>,
    forgotten: usize,
}

#[derive(Default)]
struct Plain {
    last: Mutex<Last>,
}

impl Plain {
    fn locked(&self) -> MutexGuard<'_, Last> {
        self.last.lock().expect("no writer panics")
    }
}

impl Store for Plain {
    type Error = Infallible;
    /// Whether it was hot.
    type Alerts = bool;

    fn new() -> Result<Plain, Infallible> {
        Ok(Plain::default())
    }

    fn alerts(&self) -> Result<bool, Infallible> {
        Ok(false)
    }

    fn take(&self, time: i64, values: &[i64]) -> Result<usize, Infallible> {
        let mut last = self.locked();
        let first = last.forgotten + last.samples.len();
        last.samples.extend(values.iter().map(|&value| (time, value)));
        Ok(first)
    }

    fn correct(&self, number: usize, value: i64) -> Result<(), Infallible> {
        let last = &mut *self.locked();
        if number >= last.forgotten {
            last.samples[number - last.forgotten].1 = value;
        }
        Ok(())
    }

    fn forget(&self, before: i64) -> Result<(), Infallible> {
        let last = &mut *self.locked();
        while last.samples.front().is_some_and(|&(time, _)| time < before) {
            last.samples.pop_front();
            last.forgotten += 1;
        }
        Ok(())
    }

    fn last(&self, seconds: u64) -> Result<Window, Infallible> {
        let last = self.locked();
        let newest = last.samples.back().expect("there are some").0;
        let from = last.samples.partition_point(|&(time, _)| time <= newest - seconds as i64);
        let values = || last.samples.range(from..).map(|&(_, value)| value);
        Ok(Window { samples: values().len(), sum: values().sum(), greatest: values().max().expect("there are some") })
    }

    fn look(&self, was_hot: &mut bool) -> Result<Option<i64>, Infallible> {
        let greatest = self.locked().samples.iter().map(|&(_, value)| value).max().expect("there are some");
        let is_hot = greatest >= HOT;
        Ok((std::mem::replace(was_hot, is_hot) != is_hot).then_some(greatest))
    }
}

fn main() -> Result<(), Infallible> {
    day::run::<Plain>()
}
