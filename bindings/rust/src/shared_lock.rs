//! The lock round what threads share, what it guards, and who sleeps at it.

use std::sync::atomic::{AtomicBool, AtomicUsize, Ordering};
use std::sync::{Arc, Condvar, Mutex, MutexGuard, PoisonError, Weak};
use std::thread::JoinHandle;
use std::time::Duration;

use crate::shared::CLOSED;
use crate::shared_sweep::Sweep;
use crate::{Note, Queries, Refusal, Sharing};

/// What each call at what is shared goes through. Nothing is computed while it is held, but in `with`, in a subscriber's look, and by the 256
/// the summaries above blocks and subtrees that workers went over.
pub(crate) struct Lock<T: Sharing> {
    guarded: Mutex<Guarded<T>>,
    /// Workers sleep here while there is no job.
    pub(crate) work: Condvar,
    /// Subscribers sleep here while nothing has changed.
    pub(crate) change: Condvar,
    /// Who pauses sleeps here, and no edit wakes it.
    pause: Condvar,
    /// The thread that is within a `with`; 0 where none is.
    within: AtomicUsize,
    /// How many clones of `Shared` there are.
    pub(crate) clones: AtomicUsize,
}

/// What the lock guards.
pub(crate) struct Guarded<T: Sharing> {
    /// What is shared, until it is given back.
    pub(crate) of: Option<T>,
    /// What is added to its numbers of edits, since it took another's place.
    pub(crate) base: u64,
    pub(crate) closed: bool,
    /// Grows with each call that changed something.
    pub(crate) changes: u64,
    /// How many workers there are, how many of them sleep, and how many of those are called.
    pub(crate) working: usize,
    pub(crate) idle: usize,
    pub(crate) calls: usize,
    /// Where the workers are that share many blocks.
    pub(crate) sweep: Sweep,
    /// Whether a subscriber may sleep.
    pub(crate) unaware: bool,
    pub(crate) workers: Vec<Worker>,
    pub(crate) seats: Vec<Seat>,
}

/// A thread that computes summaries, until it is told to stop.
pub(crate) struct Worker {
    pub(crate) thread: JoinHandle<()>,
    pub(crate) stop: Arc<AtomicBool>,
}

/// What a subscriber has here.
pub(crate) struct Seat {
    /// Goes with the subscriber.
    pub(crate) whose: Weak<()>,
    pub(crate) asked: Queries,
    /// The changes that there were when it looked last; others before its first look.
    pub(crate) seen: u64,
    /// Notes of the end, that it wasn't given yet.
    pub(crate) last: Result<Vec<Note>, Refusal>,
    /// The edit after which it was told notes last.
    pub(crate) edit: u64,
}

impl Seat {
    /// The notes that there are now.
    pub(crate) fn notes<T: Sharing>(&mut self, of: &mut T, base: u64, changes: u64) -> Result<Vec<Note>, Refusal> {
        if self.seen == changes {
            return Ok(Vec::new());
        }
        let mut notes = self.asked.notes(of)?;
        self.seen = changes;
        if !notes.is_empty() {
            self.edit = base + of.number();
        }
        notes.iter_mut().for_each(|note| note.edit = self.edit as u32);
        Ok(notes)
    }
}

/// Who is to be woken once the lock is let go.
#[must_use]
pub(crate) struct Sleepers {
    worker: bool,
    subscribers: bool,
}

impl<T: Sharing> Guarded<T> {
    /// Something has changed.
    pub(crate) fn changed(&mut self) -> Sleepers {
        self.changes += 1;
        // one that is awake sees it by itself, and calls others where there is much to do
        let worker = self.idle == self.working && self.calls == 0 && self.call();
        Sleepers { worker, subscribers: std::mem::take(&mut self.unaware) }
    }

    /// Calls a worker that sleeps, if there is one, which is to be woken then.
    pub(crate) fn call(&mut self) -> bool {
        let some = self.idle > self.calls;
        self.calls += usize::from(some);
        some
    }

    /// What is shared, while it may be edited.
    pub(crate) fn open(&mut self) -> Result<&mut T, Refusal> {
        match &mut self.of {
            Some(of) if !self.closed => Ok(of),
            _ => Err(CLOSED),
        }
    }

    /// The number of the last edit.
    pub(crate) fn number(&self) -> u64 {
        self.base + self.of.as_ref().map_or(0, T::number)
    }

    /// Forgets subscribers that are gone.
    pub(crate) fn sweep(&mut self) {
        self.seats.retain(|seat| seat.whose.strong_count() > 0);
    }

    /// Ends edits, and leaves each subscriber its last notes.
    fn shut(&mut self) {
        if std::mem::replace(&mut self.closed, true) {
            return;
        }
        self.sweep();
        let Some(of) = &mut self.of else { return };
        for seat in &mut self.seats {
            seat.last = seat.notes(of, self.base, self.changes);
        }
    }
}

impl<T: Sharing> Lock<T> {
    pub(crate) fn new(of: T) -> Lock<T> {
        let guarded = Guarded {
            of: Some(of),
            base: 0,
            closed: false,
            changes: 0,
            working: 0,
            idle: 0,
            calls: 0,
            sweep: Sweep::default(),
            unaware: false,
            workers: Vec::new(),
            seats: Vec::new(),
        };
        Lock {
            guarded: Mutex::new(guarded),
            work: Condvar::new(),
            change: Condvar::new(),
            pause: Condvar::new(),
            within: AtomicUsize::new(0),
            clones: AtomicUsize::new(1),
        }
    }

    /// Takes the lock. Refused with `Busy` where this thread has it, within a `with`. A thread that panicked left whole calls behind, so that
    /// its panic is no concern of the others.
    pub(crate) fn enter(&self) -> Result<MutexGuard<'_, Guarded<T>>, Refusal> {
        let within = self.within.load(Ordering::Relaxed);
        if within != 0 && within == me() {
            return Err(Refusal::Busy);
        }
        Ok(self.guarded.lock().unwrap_or_else(PoisonError::into_inner))
    }

    /// One call that edits, or nothing; it is given what is added to numbers of edits.
    pub(crate) fn edit<R>(&self, call: impl FnOnce(&mut T, u64) -> R) -> Result<R, Refusal> {
        let mut guarded = self.enter()?;
        let (before, base) = (guarded.number(), guarded.base);
        let told = call(guarded.open()?, base);
        let sleepers = (guarded.number() != before).then(|| guarded.changed());
        drop(guarded);
        if let Some(sleepers) = sleepers {
            self.wake(sleepers);
        }
        Ok(told)
    }

    /// One call that reads; it is given what is added to numbers of edits.
    pub(crate) fn read<R>(&self, call: impl FnOnce(&T, u64) -> R) -> Result<R, Refusal> {
        let guarded = self.enter()?;
        Ok(call(guarded.of.as_ref().ok_or(CLOSED)?, guarded.base))
    }

    /// What a caller does with what is shared, whose thread is known meanwhile.
    pub(crate) fn with<R>(&self, call: impl FnOnce(&mut T) -> R) -> Result<R, Refusal> {
        let mut guarded = self.enter()?;
        let before = guarded.open()?.number();
        self.within.store(me(), Ordering::Relaxed);
        let mut held = Within { lock: self, guarded: Some(guarded), before };
        let of = held.guarded.as_mut().expect("it is held until it is dropped").open()?;
        Ok(call(of))
    }

    /// Wakes those that were told of a change.
    pub(crate) fn wake(&self, sleepers: Sleepers) {
        if sleepers.worker {
            self.work.notify_one();
        }
        if sleepers.subscribers {
            self.change.notify_all();
        }
    }

    /// Lets the lock go for so long, or until all are woken.
    pub(crate) fn paused<'a>(&self, guarded: MutexGuard<'a, Guarded<T>>, pause: Duration) -> MutexGuard<'a, Guarded<T>> {
        self.pause.wait_timeout(guarded, pause).unwrap_or_else(PoisonError::into_inner).0
    }

    /// Wakes all, whatever they sleep for.
    pub(crate) fn wake_all(&self) {
        self.work.notify_all();
        self.change.notify_all();
        self.pause.notify_all();
    }

    /// Ends workers, and waits for them. What one panicked with goes on here.
    pub(crate) fn end(&self, workers: Vec<Worker>) {
        if workers.is_empty() {
            return;
        }
        workers.iter().for_each(|worker| worker.stop.store(true, Ordering::Relaxed));
        // whoever looked at the word before it was stored sleeps by now
        drop(self.enter());
        self.wake_all();
        let panic = workers.into_iter().filter_map(|worker| worker.thread.join().err()).last();
        if let Some(panic) = panic
            && !std::thread::panicking()
        {
            std::panic::resume_unwind(panic);
        }
    }

    /// Ends edits, workers and subscribers. Refused with `Busy` as `enter`.
    pub(crate) fn close(&self) -> Result<(), Refusal> {
        let mut guarded = self.enter()?;
        guarded.shut();
        let workers = std::mem::take(&mut guarded.workers);
        drop(guarded);
        self.wake_all();
        self.end(workers);
        Ok(())
    }
}

/// A `with` under way. Its end, also by a panic, lets the lock go and wakes who sleeps.
struct Within<'a, T: Sharing> {
    lock: &'a Lock<T>,
    guarded: Option<MutexGuard<'a, Guarded<T>>>,
    before: u64,
}

impl<T: Sharing> Drop for Within<'_, T> {
    fn drop(&mut self) {
        self.lock.within.store(0, Ordering::Relaxed);
        let sleepers = self.guarded.take().map(|mut guarded| {
            // another is in its place, which counts as an edit: numbers go on rising
            if guarded.number() < guarded.base + self.before {
                guarded.base += self.before + 1;
            }
            guarded.changed()
        });
        if let Some(sleepers) = sleepers {
            self.lock.wake(sleepers);
        }
    }
}

/// A number that this thread alone has while it lives, and that is not 0.
fn me() -> usize {
    thread_local!(static ME: u8 = const { 0 });
    ME.with(|me| std::ptr::from_ref(me) as usize)
}
