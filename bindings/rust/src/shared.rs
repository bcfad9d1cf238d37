//! What threads share, by a lock round it: a vector, a series or samples.

use std::fmt;
use std::sync::Arc;
use std::sync::atomic::Ordering;

use crate::shared_lock::Lock;
use crate::shared_subscriber::Subscriber;
use crate::{
    Answered, AsIndex, BestRun, Column, Filled, Indices, Kind, Placed, Popped, Pushed, Queries, Reduced, Refusal, RefusedAt,
    Reserved, Scan, Summary, Swapped, Truncated, Value, Vector, Written, raw, shared_workers,
};

/// A [`Vector`] that threads share, or a [`Series`](crate::Series), or [`Samples`](crate::Samples): each clone is a handle of the same one.
///
/// Edits and questions take a lock for one call, and cost what those of what is shared do, with the wait for it; [`with`](Shared::with) takes it for
/// several. Workers compute summaries of a vector beside them, without the
/// lock, and [`Subscriber`]s sleep until an edit changes what they ask. Each edit tells its number, so that who edits has a receipt.
///
/// ```
/// use livevec::{Kind, Queries, Shared, Value, Vector};
/// use std::thread;
///
/// # fn main() -> Result<(), livevec::Refusal> {
/// let shared = Shared::new(Vector::new()?);
/// shared.start_workers(2)?;
/// let mut queries = Queries::new()?;
/// queries.watch("total", Kind::Sum, ..)?;
/// let alerts = shared.subscribe(queries)?;
/// let listener = thread::spawn(move || alerts.map(|notes| notes.unwrap()[0].value).last());
/// let feeders = [1, 2].map(|value| {
///     let shared = shared.clone();
///     thread::spawn(move || (0..100).try_for_each(|_| shared.push(value).map(drop)))
/// });
/// for feeder in feeders {
///     feeder.join().unwrap()?;
/// }
/// let vector = shared.close().expect("the feeders' clones are gone");
/// assert_eq!((vector.len(), vector.edits()), (200, 200));
/// assert_eq!(listener.join().unwrap(), Some(Value::Sum(300)));
/// # Ok(())
/// # }
/// ```
///
/// Each call may be refused with [`Busy`](Refusal::Busy): within a `with` of its own thread, where it would wait for itself. Once a clone is
/// [`close`](Shared::close)d, edits are refused with [`CLOSED`](Shared::CLOSED); questions are answered on. Where the last clone is dropped
/// without it, workers and subscribers end all the same.
///
/// Numbers of edits go on rising where another vector takes the place of one, by [`renew`](Shared::renew) or in a `with`: what is told in 32 bits are the
/// low ones, and [`last_edit`](Shared::last_edit) and [`Subscriber::edit`] tell all 64.
///
/// Where a thread panics within `with`, the calls that it made there stay, each a whole edit; the lock is let go, subscribers are told, and the
/// panic goes on in that thread alone. Should a worker panic, [`close`](Shared::close) or [`stop_workers`](Shared::stop_workers) goes on with
/// its panic. Nothing else of a caller's runs under the lock.
///
/// Memory for `Arc`s and for what `std` needs to start a thread is not refused: where it is wanting, the process ends, as ever.
pub struct Shared<T: Sharing = Vector> {
    pub(crate) lock: Arc<Lock<T>>,
    /// Whether it is no longer counted among the clones.
    is_gone: bool,
}

/// What edits, `subscribe` and `start_workers` are refused with once it is closed.
pub(crate) const CLOSED: Refusal = Refusal::Other { number: 101 };

/// What threads may share: [`Vector`], [`Series`](crate::Series) and [`Samples`](crate::Samples). It can't be implemented elsewhere.
pub trait Sharing: Send + Sized + sealed::Sealed {
    /// What a standing query is answered, with an edit's number.
    type Answered;

    /// The number of the last edit.
    #[doc(hidden)]
    fn number(&self) -> u64;

    /// What is asked.
    #[doc(hidden)]
    fn target(&self) -> raw::Target<'_>;

    /// An answer after an edit.
    #[doc(hidden)]
    fn answered(edit: u64, value: Value) -> Self::Answered;

    /// One of its own.
    #[doc(hidden)]
    fn copied(&self) -> Result<Self, Refusal>;

    /// It is given back.
    #[doc(hidden)]
    fn given_back(&mut self) {}
}

pub(crate) mod sealed {
    pub trait Sealed {}
}

/// A number of an edit, as it is told.
pub(crate) trait Above {
    /// With what is added to it.
    fn above(&mut self, base: u64);
}

impl Above for u32 {
    fn above(&mut self, base: u64) {
        *self = self.wrapping_add(base as u32);
    }
}

impl Above for u64 {
    fn above(&mut self, base: u64) {
        *self += base;
    }
}

/// Calls of what is shared, each under the lock: those that edit, or ask, and tell a number of an edit; and those that read alone, with a refusal of their
/// own or none; of samples also those that ask their values.
macro_rules! forwarded {
    ($($(#[$doc:meta])* $how:ident $name:ident($($given:ident: $of:ty),*) -> $told:ty;)*) => {
        $(
            $(#[$doc])*
            pub fn $name(&self $(, $given: $of)*) -> Result<$told, crate::Refusal> {
                crate::shared::forwarded!(@ $how self, $name($($given),*))
            }
        )*
    };
    (@ edit $of:ident, $name:ident $given:tt) => {
        $of.lock.edit(|of, base| of.$name $given.map(|mut did| { crate::shared::Above::above(&mut did.edit, base); did }))?
    };
    (@ ask $of:ident, $name:ident $given:tt) => {
        $of.lock.read(|of, base| of.$name $given.map(|mut did| { crate::shared::Above::above(&mut did.edit, base); did }))?
    };
    (@ read $of:ident, $name:ident $given:tt) => {
        $of.lock.read(|of, _| of.$name $given)?
    };
    (@ count $of:ident, $name:ident $given:tt) => {
        $of.lock.read(|of, _| of.$name $given)
    };
    (@ values $of:ident, $name:ident $given:tt) => {
        $of.lock.read(|of, _| of.values().$name $given)?
    };
    (@ values_count $of:ident, $name:ident $given:tt) => {
        $of.lock.read(|of, _| of.values().$name $given)
    };
    (@ ask_values $of:ident, $name:ident $given:tt) => {
        $of.lock.read(|of, base| of.values().$name $given.map(|mut did| { crate::shared::Above::above(&mut did.edit, base); did }))?
    };
}
pub(crate) use forwarded;

/// The questions that a vector, a series and the values of samples answer alike, by calls of `$of`: those that tell an edit by `$ask`, the others by
/// `$read`. `Answered` and `Reduced` are those of where it is used.
macro_rules! questions {
    ($of:ident, $read:ident, $ask:ident, |$it:ident| $asked:expr) => {
        crate::shared::forwarded! {
            #[doc = concat!("As [`", stringify!($of), "::sum`].")]
            $read sum(range: impl Indices) -> i64;
            #[doc = concat!("As [`", stringify!($of), "::least`].")]
            $read least(range: impl Indices) -> Option<i64>;
            #[doc = concat!("As [`", stringify!($of), "::greatest`].")]
            $read greatest(range: impl Indices) -> Option<i64>;
            #[doc = concat!("As [`", stringify!($of), "::best`].")]
            $read best(range: impl Indices) -> Option<i128>;
            #[doc = concat!("As [`", stringify!($of), "::total`]: the exact sum.")]
            $read total(range: impl Indices) -> i128;
            #[doc = concat!("As [`", stringify!($of), "::value_at_edit`].")]
            $ask value_at_edit(kind: Kind, range: impl Indices) -> Answered;
            #[doc = concat!("As [`", stringify!($of), "::ask`], which tells after which edit the values are so.")]
            $ask ask(range: impl Indices) -> Reduced;
            #[doc = concat!("As [`", stringify!($of), "::reduce`], which tells after which edit the values are so.")]
            $ask reduce(range: impl Indices) -> Reduced;
            #[doc = concat!("As [`", stringify!($of), "::where_least`].")]
            $read where_least(range: impl Indices) -> Option<Placed>;
            #[doc = concat!("As [`", stringify!($of), "::where_greatest`].")]
            $read where_greatest(range: impl Indices) -> Option<Placed>;
            #[doc = concat!("As [`", stringify!($of), "::where_best`].")]
            $read where_best(range: impl Indices) -> Option<BestRun>;
            #[doc = concat!("As [`", stringify!($of), "::where_reaches`].")]
            $read where_reaches(range: impl Indices, sum: i64) -> Option<usize>;
            #[doc = concat!("As [`", stringify!($of), "::where_reaches_back`].")]
            $read where_reaches_back(range: impl Indices, sum: i64) -> Option<usize>;
            #[doc = concat!("As [`", stringify!($of), "::where_first_at_least`].")]
            $read where_first_at_least(range: impl Indices, bound: i64) -> Option<usize>;
            #[doc = concat!("As [`", stringify!($of), "::where_first_at_most`].")]
            $read where_first_at_most(range: impl Indices, bound: i64) -> Option<usize>;
            #[doc = concat!("As [`", stringify!($of), "::where_last_at_least`].")]
            $read where_last_at_least(range: impl Indices, bound: i64) -> Option<usize>;
            #[doc = concat!("As [`", stringify!($of), "::where_last_at_most`].")]
            $read where_last_at_most(range: impl Indices, bound: i64) -> Option<usize>;
        }

        #[doc = concat!("As [`", stringify!($of), "::value_many`]: all after one edit. The ranges are gone through before the lock is taken.")]
        pub fn value_many<R: Indices>(&self, kind: Kind, ranges: impl IntoIterator<Item = R>) -> Result<Vec<Value>, RefusedAt> {
            let ranges: Vec<R> = ranges.into_iter().collect();
            self.lock.read(|$it, _| $asked.value_many(kind, ranges)).unwrap_or_else(|refusal| Err(RefusedAt::of_all(refusal)))
        }
    };
}
pub(crate) use questions;

impl<T: Sharing> Shared<T> {
    /// Puts a lock round a vector, a series or samples.
    pub fn new(of: T) -> Shared<T> {
        Shared { lock: Arc::new(Lock::new(of)), is_gone: false }
    }

    /// The number of the last edit, in 64 bits.
    pub fn last_edit(&self) -> Result<u64, Refusal> {
        self.lock.read(|of, base| base + of.number())
    }

    /// Several calls, with no other thread's between them. Other threads wait meanwhile. Within it no call of this thread at the
    /// clones and subscribers goes through, but by what it is handed. Refused with `Busy` and `CLOSED`.
    ///
    /// ```
    /// use livevec::{Refusal, Shared, Vector};
    ///
    /// # fn main() -> Result<(), Refusal> {
    /// let shared = Shared::new(Vector::try_from([300, 120, 500, 80])?);
    /// let moved = shared.with(|prices| {
    ///     assert_eq!(shared.push(1), Err(Refusal::Busy));
    ///     let least = prices.where_least(..)?.expect("there are prices");
    ///     prices.write(least.index, 2 * least.value)
    /// });
    /// assert_eq!(moved??.edit, 5);
    /// assert_eq!(shared.get(3)?, 160);
    /// # Ok(())
    /// # }
    /// ```
    pub fn with<R>(&self, calls: impl FnOnce(&mut T) -> R) -> Result<R, Refusal> {
        self.lock.with(calls)
    }

    /// A copy of what is shared, which no other thread has, as its own `try_clone` makes one. Linear, under the lock. Refused with `NoMemory`.
    pub fn try_clone(&self) -> Result<T, Refusal> {
        self.lock.read(|of, _| of.copied())?
    }

    /// One more that is told which answers of these queries change. Before its first look each counts as told what [`Queries`] says. Refused with
    /// `CLOSED`, then with `NoMemory`.
    pub fn subscribe(&self, asked: Queries) -> Result<Subscriber<T>, Refusal> {
        Subscriber::new(&self.lock, asked)
    }

    /// Ends edits, workers and subscribers, of all clones, and waits for the workers. Each subscriber has its last notes then, at the last edit.
    /// Gives what is shared back, unless there are other clones: each of them may be closed too, and the last one has it.
    ///
    /// Within a `with` of the same thread nothing is ended, and there is another clone: the one whose `with` it is.
    pub fn close(mut self) -> Option<T> {
        self.lock.close().ok()?;
        self.gone()
    }

    /// Is counted off, once. The last one ends all, and has what is shared.
    fn gone(&mut self) -> Option<T> {
        if std::mem::replace(&mut self.is_gone, true) || self.lock.clones.fetch_sub(1, Ordering::AcqRel) > 1 {
            return None;
        }
        self.lock.close().ok()?;
        let mut of = self.lock.enter().ok()?.of.take()?;
        of.given_back();
        Some(of)
    }
}

impl<T: Sharing> Clone for Shared<T> {
    fn clone(&self) -> Shared<T> {
        self.lock.clones.fetch_add(1, Ordering::Relaxed);
        Shared { lock: self.lock.clone(), is_gone: false }
    }
}

impl<T: Sharing> Drop for Shared<T> {
    fn drop(&mut self) {
        drop(self.gone());
    }
}

/// As `==` of what is shared: by elements, and of samples by times too. What the other shares is copied under its lock, and then compared under this one's,
/// so that no thread waits for both. Linear. Panics within a `with` of its own thread, and where there is no memory for the copy.
impl<T: Sharing + PartialEq> PartialEq for Shared<T> {
    fn eq(&self, other: &Shared<T>) -> bool {
        let same = |theirs| self.lock.read(|of, _| *of == theirs);
        Arc::ptr_eq(&self.lock, &other.lock) || other.try_clone().and_then(same).expect("both can be read, and there is memory for a copy")
    }
}

impl<T: Sharing + Eq> Eq for Shared<T> {}

impl<T: Sharing> fmt::Debug for Shared<T> {
    fn fmt(&self, f: &mut fmt::Formatter<'_>) -> fmt::Result {
        f.debug_struct("Shared").finish_non_exhaustive()
    }
}

impl sealed::Sealed for Vector {}
impl Sharing for Vector {
    type Answered = Answered;

    fn number(&self) -> u64 {
        self.edits().into()
    }

    fn target(&self) -> raw::Target<'_> {
        raw::Target::of_vector(&self.raw)
    }

    fn answered(edit: u64, value: Value) -> Answered {
        Answered { edit: edit as u32, value }
    }

    fn copied(&self) -> Result<Vector, Refusal> {
        self.try_clone()
    }

    /// Jobs that nobody delivers any more are handed out again.
    fn given_back(&mut self) {
        self.forget_claims();
    }
}

impl Shared {
    /// What edits, `subscribe` and `start_workers` are refused with once it is closed.
    pub const CLOSED: Refusal = CLOSED;

    forwarded! {
        /// As [`Vector::push`].
        edit push(value: i64) -> Pushed;
        /// As [`Vector::pop`].
        edit pop() -> Popped;
        /// As [`Vector::write`].
        edit write(index: impl AsIndex, value: i64) -> Written;
        /// As [`Vector::swap`].
        edit swap(first: impl AsIndex, second: impl AsIndex) -> Swapped;
        /// As [`Vector::truncate`].
        edit truncate(elements: impl AsIndex) -> Truncated;
        /// As [`Vector::clear`].
        edit clear() -> Truncated;
        /// As [`Vector::reserve`].
        edit reserve(elements: impl AsIndex) -> Reserved;
        /// As [`Vector::get`].
        read get(index: impl AsIndex) -> i64;
        /// How many elements there are.
        count len() -> usize;
        /// Whether there is no element.
        count is_empty() -> bool;
        /// As [`Vector::value`].
        read value(kind: Kind, range: impl Indices) -> Value;
        /// As [`Vector::capacity`].
        count capacity() -> usize;
        /// As [`Vector::last`].
        count last() -> Option<i64>;
        /// As [`Vector::to_vec`]: a copy, after one edit.
        read to_vec() -> Vec<i64>;
        /// As [`Vector::save`]: after one edit.
        read save() -> Vec<u8>;
        /// As [`Vector::summary`].
        read summary(range: impl Indices) -> Summary;
        /// As [`Vector::scan_inclusive`].
        ask scan_inclusive(range: impl Indices) -> Scan;
        /// As [`Vector::scan_exclusive`].
        ask scan_exclusive(range: impl Indices) -> Scan;
    }

    questions!(Vector, read, ask, |vector| vector);

    /// As [`Vector::scan_inclusive_into`].
    pub fn scan_inclusive_into<'a, K: Column>(
        &self,
        range: impl Indices,
        column: &'a mut [K::Cell],
    ) -> Result<Filled<'a, K::Cell>, Refusal> {
        self.filled(|of| of.scan_inclusive_into::<K>(range, column))
    }

    /// As [`Vector::scan_exclusive_into`].
    pub fn scan_exclusive_into<'a, K: Column>(
        &self,
        range: impl Indices,
        column: &'a mut [K::Cell],
    ) -> Result<Filled<'a, K::Cell>, Refusal> {
        self.filled(|of| of.scan_exclusive_into::<K>(range, column))
    }

    /// A column, with the number of the edit as it is told here.
    fn filled<'a, C>(&self, scan: impl FnOnce(&Vector) -> Result<Filled<'a, C>, Refusal>) -> Result<Filled<'a, C>, Refusal> {
        self.lock.read(|of, base| scan(of).map(|did| Filled { edit: did.edit.wrapping_add(base as u32), ..did }))?
    }

    /// The number of the last edit.
    pub fn edits(&self) -> Result<u32, Refusal> {
        self.last_edit().map(|edit| edit as u32)
    }

    /// As [`Vector::extend_from_slice`]: no other edit comes between. Tells the number of the last edit.
    pub fn extend_from_slice(&self, values: &[i64]) -> Result<u32, RefusedAt> {
        self.many(|vector| vector.extend_from_slice(values))
    }

    /// As [`Vector::write_many`]: no other edit comes between. Tells the number of the last edit.
    pub fn write_many<I: AsIndex>(&self, indices: &[I], values: &[i64]) -> Result<u32, RefusedAt> {
        self.many(|vector| vector.write_many(indices, values))
    }

    /// Goes on as a copy, before the vector is worn: with the same elements, limits, table and kind, and no edits yet but the pushes of its elements.
    /// Numbers of edits go on as if nothing were, and subscribers are told nothing. Linear. Refused with `CLOSED`, then as
    /// [`Vector::try_clone`], with nothing changed.
    ///
    /// ```
    /// use livevec::{Limits, Refusal, Shared, Vector};
    ///
    /// # fn main() -> Result<(), Refusal> {
    /// let shared = Shared::new(Vector::with_limits(Limits::new(1, 2)?)?);
    /// assert_eq!((shared.push(7)?.edit, shared.pop()?.edit, shared.push(8)), (1, 2, Err(Refusal::Worn)));
    /// shared.renew()?;
    /// assert_eq!((shared.push(8)?.edit, shared.last_edit()?), (3, 3));
    /// # Ok(())
    /// # }
    /// ```
    pub fn renew(&self) -> Result<(), Refusal> {
        let mut guarded = self.lock.enter()?;
        let vector = guarded.open()?;
        let fresh = vector.try_clone()?;
        let more = u64::from(vector.edits() - fresh.edits());
        let worn = std::mem::replace(vector, fresh);
        guarded.base += more;
        // nothing has changed, but that all summaries are wanted
        let is_called = guarded.call();
        drop(guarded);
        if is_called {
            self.lock.work.notify_one();
        }
        drop(worn);
        Ok(())
    }

    /// Starts so many more workers, or none. Each sleeps while there is nothing to compute; edits wake it. It takes jobs under the lock, computes
    /// them without it, and hands in what the vector vouches for. Where many blocks near together want one it takes a subtree of 4,096 elements, or
    /// where there is none at most 1,024 blocks. A subtree that was written to meanwhile it goes over again by its blocks. Summaries above those it
    /// computes under the lock, by the 256. No answer changes by it. Refused with `CLOSED`, then with `NoMemory`.
    pub fn start_workers(&self, count: usize) -> Result<(), Refusal> {
        shared_workers::start(&self.lock, count)
    }

    /// Ends all workers, of all clones, and waits for them. More may be started later.
    pub fn stop_workers(&self) -> Result<(), Refusal> {
        let workers = std::mem::take(&mut self.lock.enter()?.workers);
        self.lock.end(workers);
        Ok(())
    }
}

impl<T: Sharing> Shared<T> {
    /// Many edits by one call, which tells the number of the last.
    pub(crate) fn many<N: Above>(&self, call: impl FnOnce(&mut T) -> Result<N, RefusedAt>) -> Result<N, RefusedAt> {
        let told = self.lock.edit(|of, base| {
            let mut edit = call(of)?;
            edit.above(base);
            Ok(edit)
        });
        told.unwrap_or_else(|refusal| Err(RefusedAt::of_all(refusal)))
    }
}
