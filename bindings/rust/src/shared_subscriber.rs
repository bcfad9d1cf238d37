//! Who sleeps until edits change the answers of standing queries.

use std::fmt;
use std::sync::{Arc, PoisonError};
use std::time::{Duration, Instant};

use crate::shared_lock::{Guarded, Lock, Seat};
use crate::{Note, Queries, Refusal, Sharing, Vector};

/// One who is told by a [`Shared`](crate::Shared) form which of its answers have changed; made by
/// [`Shared::subscribe`](crate::Shared::subscribe).
///
/// As an iterator it sleeps until an edit changes an answer, and gives the notes of those that differ from what it was told last, in the order
/// in which the queries were named. All notes of one list are at one edit, and these rise. What comes and goes between two looks is not told.
/// Once it is closed it gives the notes at the last edit, if there are any, and then ends.
///
/// It gives `Err(BadKind)` where one of the queries may not be asked, and `Err(NoMemory)` where memory was wanted: nothing
/// counts as told then, and it may be asked again. At the close memory is asked for once. It gives `Err(Busy)` within a
/// [`with`](crate::Shared::with) of its own thread.
///
/// It may be dropped at any time.
pub struct Subscriber<T: Sharing = Vector> {
    lock: Arc<Lock<T>>,
    me: Arc<()>,
    pause: Duration,
    /// No look before this one.
    rested: Option<Instant>,
    edit: u64,
}

impl Subscriber {
    /// How long one pauses between two looks at least, so that edits are not held up, unless it is told otherwise.
    pub const PAUSE: Duration = Duration::from_millis(1);

    /// It pauses so many times as long as its last look took, where that is longer.
    const SHARE: u32 = 2;
}

impl<T: Sharing> Subscriber<T> {
    pub(crate) fn new(lock: &Arc<Lock<T>>, asked: Queries) -> Result<Subscriber<T>, Refusal> {
        let me = Arc::new(());
        let mut guarded = lock.enter()?;
        guarded.open()?;
        guarded.sweep();
        guarded.seats.try_reserve(1).map_err(|_| Refusal::NoMemory)?;
        let seen = guarded.changes.wrapping_sub(1);
        guarded.seats.push(Seat { whose: Arc::downgrade(&me), asked, seen, last: Ok(Vec::new()), edit: 0 });
        drop(guarded);
        Ok(Subscriber { lock: lock.clone(), me, pause: Subscriber::PAUSE, rested: None, edit: 0 })
    }

    /// Has it pause so long after each look from now on, and twice as long as the look took where that is longer. By `Duration::ZERO` it
    /// doesn't pause at all: each edit may be looked at then, and waits for the look.
    pub fn set_pause(&mut self, pause: Duration) {
        self.pause = pause;
    }

    /// The notes that there are now; none where nothing has changed. It neither sleeps nor pauses.
    pub fn look(&mut self) -> Result<Vec<Note>, Refusal> {
        let mut guarded = self.lock.enter()?;
        let start = Instant::now();
        let Guarded { of, base, closed, changes, seats, .. } = &mut *guarded;
        let Some(seat) = seats.iter_mut().find(|seat| is_of(seat, &self.me)) else { return Ok(Vec::new()) };
        let (Some(of), false) = (of, *closed) else {
            self.edit = seat.edit;
            return std::mem::replace(&mut seat.last, Ok(Vec::new()));
        };
        let notes = seat.notes(of, *base, *changes);
        self.edit = seat.edit;
        drop(guarded);
        self.rested = self.rest(start.elapsed());
        notes
    }

    /// After which edit all answers are so that were told last: the whole number, of which a [`Note`] has the low 32 bits.
    pub fn edit(&self) -> u64 {
        self.edit
    }

    /// Until when it pauses after a look that took so long.
    fn rest(&self, look: Duration) -> Option<Instant> {
        let pause = if self.pause.is_zero() { self.pause } else { self.pause.max(look.saturating_mul(Subscriber::SHARE)) };
        Instant::now().checked_add(pause)
    }

    /// Sleeps until there may be something to look at; tells whether there is.
    fn is_awaited(&self) -> Result<bool, Refusal> {
        let mut guarded = self.lock.enter()?;
        loop {
            let Some(seat) = guarded.seats.iter().find(|seat| is_of(seat, &self.me)) else { return Ok(false) };
            if guarded.closed {
                return Ok(!matches!(&seat.last, Ok(notes) if notes.is_empty()));
            }
            let rest = self.rested.map_or(Duration::ZERO, |till| till.saturating_duration_since(Instant::now()));
            if !rest.is_zero() {
                guarded = self.lock.paused(guarded, rest);
            } else if seat.seen != guarded.changes {
                return Ok(true);
            } else {
                guarded.unaware = true;
                guarded = self.lock.change.wait(guarded).unwrap_or_else(PoisonError::into_inner);
            }
        }
    }
}

fn is_of(seat: &Seat, me: &Arc<()>) -> bool {
    seat.whose.as_ptr() == Arc::as_ptr(me)
}

impl<T: Sharing> Iterator for Subscriber<T> {
    type Item = Result<Vec<Note>, Refusal>;

    fn next(&mut self) -> Option<Result<Vec<Note>, Refusal>> {
        loop {
            match self.is_awaited() {
                Ok(true) => {}
                Ok(false) => return None,
                Err(refusal) => return Some(Err(refusal)),
            }
            let notes = self.look();
            if !matches!(&notes, Ok(notes) if notes.is_empty()) {
                return Some(notes);
            }
        }
    }
}

impl<T: Sharing> Drop for Subscriber<T> {
    fn drop(&mut self) {
        // where the lock can't be had, the next subscriber or the close sweeps it away
        if let Ok(mut guarded) = self.lock.enter() {
            guarded.seats.retain(|seat| !is_of(seat, &self.me));
        }
    }
}

impl<T: Sharing> fmt::Debug for Subscriber<T> {
    fn fmt(&self, f: &mut fmt::Formatter<'_>) -> fmt::Result {
        f.debug_struct("Subscriber").field("pause", &self.pause).finish_non_exhaustive()
    }
}
