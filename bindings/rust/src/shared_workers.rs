//! Threads that compute the summaries of a shared vector.

use std::sync::atomic::{AtomicBool, Ordering};
use std::sync::{Arc, MutexGuard, PoisonError};
use std::thread;
use std::time::Duration;

use crate::shared_lock::{Guarded, Lock, Worker};
use crate::shared_sweep::{Gave, Portion};
use crate::{Job, Outcome, Refusal, SubtreeOutcome, Vector, raw};

/// So many jobs are claimed at once, so that the lock is taken seldom, and never held for long.
const AT_ONCE: usize = 16;

/// How long a worker lets edits go on, where some came while it computed, and how long it waits for memory.
const PAUSE: Duration = Duration::from_millis(1);

/// What a worker has in hand: jobs, for as many of which it has room, or a portion of many blocks.
struct Hands {
    jobs: Vec<Job>,
    outcomes: Vec<Outcome>,
    portion: Option<Portion>,
    /// What a portion that was run gave; none inside where memory was wanting.
    back: Option<Option<Gave>>,
    /// A subtree that was handed in. It is dropped without the lock.
    spent: Option<SubtreeOutcome>,
}

impl Hands {
    fn new() -> Result<Hands, Refusal> {
        Ok(Hands { jobs: raw::roomy(AT_ONCE)?, outcomes: raw::roomy(AT_ONCE)?, portion: None, back: None, spent: None })
    }

    fn are_empty(&self) -> bool {
        self.jobs.is_empty() && self.portion.is_none()
    }

    /// Hands in what was computed. An outcome that the vector doesn't know, since a `with` put another in its place, is let go.
    fn deliver(&mut self, guarded: &mut Guarded<Vector>) {
        if let Some(gave) = self.back.take() {
            self.give_back(guarded, gave);
        }
        if let Some(vector) = &mut guarded.of {
            for outcome in &self.outcomes {
                if vector.vouches_for(outcome) {
                    // it is never refused what it vouches for
                    let _ = vector.deliver(outcome);
                }
            }
        }
        self.outcomes.clear();
    }

    /// Hands in a portion. Of a subtree that a write came to it has the blocks in hand then.
    fn give_back(&mut self, guarded: &mut Guarded<Vector>, gave: Option<Gave>) {
        let Guarded { of: Some(vector), sweep, .. } = guarded else { return };
        match gave {
            None => sweep.lost(vector),
            Some(Gave::Batch(outcomes)) => sweep.take_batch_in(vector, outcomes),
            Some(Gave::Subtree(mut outcome)) => {
                self.portion = sweep.take_subtree_in(vector, &mut outcome);
                self.spent = Some(outcome);
            }
        }
    }

    /// Takes a portion where many blocks that lie near together want a job, else jobs. Refused with `NoMemory` alone.
    fn take(&mut self, guarded: &mut Guarded<Vector>) -> Result<(), Refusal> {
        let Guarded { of: Some(vector), sweep, .. } = guarded else { return Ok(()) };
        if self.are_empty() && sweep.is_under_way() {
            self.portion = sweep.take(vector)?;
        }
        if !self.are_empty() || !sweep.is_done() {
            return Ok(());
        }
        self.claim(vector)?;
        if let [first, .., last] = &self.jobs[..]
            && self.jobs.len() == AT_ONCE
        {
            sweep.begin(first.node(), last.node());
        }
        if sweep.is_under_way() {
            self.jobs.clear();
            self.portion = sweep.take(vector)?;
        }
        Ok(())
    }

    /// Takes jobs until the hands are full or there is none.
    fn claim(&mut self, vector: &mut Vector) -> Result<(), Refusal> {
        while self.jobs.len() < AT_ONCE {
            let Some(job) = vector.claim()? else { break };
            self.jobs.push(job);
        }
        Ok(())
    }

    /// Computes all, without the lock.
    fn run(&mut self) {
        self.spent = None;
        self.outcomes.extend(self.jobs.drain(..).map(Job::run));
        self.back = self.portion.take().map(|portion| portion.run().ok());
    }
}

/// Starts so many workers, or none. Refused with `CLOSED`, then with `NoMemory`.
pub(crate) fn start(lock: &Arc<Lock<Vector>>, count: usize) -> Result<(), Refusal> {
    let stop = Arc::new(AtomicBool::new(false));
    let mut workers = raw::roomy(count)?;
    lock.enter()?.open()?;
    let all = (0..count).try_for_each(|_| {
        workers.push(spawned(lock, &stop)?);
        Ok(())
    });
    let kept = all.and_then(|()| {
        let mut guarded = lock.enter()?;
        guarded.open()?;
        guarded.workers.try_reserve(count).map_err(|_| Refusal::NoMemory)?;
        guarded.workers.append(&mut workers);
        Ok(())
    });
    lock.end(workers);
    kept
}

fn spawned(lock: &Arc<Lock<Vector>>, stop: &Arc<AtomicBool>) -> Result<Worker, Refusal> {
    let (lock, word, mut hands) = (lock.clone(), stop.clone(), Hands::new()?);
    let named = thread::Builder::new().name("livevec worker".to_owned());
    let thread = named.spawn(move || work(&lock, &word, &mut hands)).map_err(|_| Refusal::NoMemory)?;
    Ok(Worker { thread, stop: stop.clone() })
}

/// Takes and delivers under the lock, computes without it, and sleeps while there is nothing to take.
fn work(lock: &Lock<Vector>, stop: &AtomicBool, hands: &mut Hands) {
    let Ok(mut guarded) = lock.enter() else { return };
    guarded.working += 1;
    let mut seen = guarded.changes;
    loop {
        hands.deliver(&mut guarded);
        if hands.are_empty() && guarded.changes != seen && !guarded.closed {
            guarded = lock.paused(guarded, PAUSE);
        }
        // what is in hand counts as such until it is delivered
        if guarded.closed || stop.load(Ordering::Relaxed) && hands.are_empty() {
            break;
        }
        seen = guarded.changes;
        let is_wanting = hands.take(&mut guarded).is_err();
        if !hands.are_empty() || hands.spent.is_some() {
            run(lock, hands, guarded);
        } else if is_wanting {
            guarded = lock.paused(guarded, PAUSE);
            seen = guarded.changes;
            continue;
        } else if risen(&mut guarded) {
            drop(guarded);
            thread::yield_now();
        } else {
            guarded = asleep(lock, stop, guarded);
            seen = guarded.changes;
            continue;
        }
        let Ok(again) = lock.enter() else { return };
        guarded = again;
    }
    guarded.working -= 1;
    // a call that came to one that ends is another's
    guarded.call();
    drop(guarded);
    lock.work.notify_one();
}

/// Computes what a worker has in hand without the lock, and has another help where there is more.
fn run(lock: &Lock<Vector>, hands: &mut Hands, mut guarded: MutexGuard<Guarded<Vector>>) {
    let is_helped = (hands.jobs.len() == AT_ONCE || guarded.sweep.is_under_way()) && guarded.call();
    drop(guarded);
    if is_helped {
        lock.work.notify_one();
    }
    hands.run();
}

/// Computes some summaries above blocks that workers went over; tells whether it did.
fn risen(guarded: &mut Guarded<Vector>) -> bool {
    let Guarded { of: Some(vector), sweep, .. } = guarded else { return false };
    sweep.rise(vector)
}

/// Sleeps until it is called, or told to stop.
fn asleep<'a>(lock: &'a Lock<Vector>, stop: &AtomicBool, mut guarded: MutexGuard<'a, Guarded<Vector>>) -> MutexGuard<'a, Guarded<Vector>> {
    guarded.idle += 1;
    while guarded.calls == 0 && !guarded.closed && !stop.load(Ordering::Relaxed) {
        guarded = lock.work.wait(guarded).unwrap_or_else(PoisonError::into_inner);
    }
    guarded.idle -= 1;
    guarded.calls = guarded.calls.saturating_sub(1);
    guarded
}
