//! The vector: how it is made, edited and read. What it is asked stands beside: `questions.rs`, `scans.rs`, `jobs.rs`.

use std::fmt;

use crate::elements::Elements;
use crate::indices::{AsIndex, Indices, exact, narrow};
use crate::values::ends;
use crate::{Edit, Kind, Limits, Popped, Pushed, Refusal, Reserved, Swapped, Truncated, Written, raw};

/// A growable vector of `i64` that answers reductions and scans of any range.
///
/// Edits are numbered 1, 2, 3 and so on. Each answer names the last edit, and equals the plain left fold of the range after it.
///
/// ```
/// use livevec::Vector;
///
/// # fn main() -> Result<(), livevec::Refusal> {
/// let mut latencies = Vector::new()?;
/// for micros in [120, 80, 4000, 95] {
///     latencies.push(micros)?;
/// }
/// assert_eq!(latencies.sum(..)?, 4295);
/// assert_eq!(latencies.greatest(1..)?, Some(4000));
/// latencies.write(2, 100)?;
/// assert_eq!(latencies.greatest(1..)?, Some(100));
/// assert_eq!(latencies.edits(), 5);
/// # Ok(())
/// # }
/// ```
///
/// What `std`'s `Vec` has and this hasn't: `Clone`, for which it has [`try_clone`](Vector::try_clone), which says if there is no memory; and `Index`,
/// which lends the element itself, while the library gives elements by value ([`get`](Vector::get)). `Default`, `Extend` and `FromIterator` panic if
/// there is no memory or an element is refused; nothing else here panics.
///
/// Threads: a `Vector` may be sent to another thread, and read by several threads through `&`. A question keeps what it computed, so reads of one
/// vector don't run in parallel: one waits until the other ends. Edits take `&mut`: put it into an `RwLock`, or take a [`Shared`](crate::Shared).
///
/// ```
/// use livevec::{Refusal, Vector};
///
/// # fn main() -> Result<(), Refusal> {
/// let mut latencies = Vector::default();
/// latencies.extend_from_slice(&[120, 80, 4000, 95])?;
/// std::thread::scope(|scope| {
///     let sum = scope.spawn(|| latencies.sum(..));
///     assert_eq!(latencies.greatest(..), Ok(Some(4000)));
///     assert_eq!(sum.join().unwrap(), Ok(4295));
/// });
/// # Ok(())
/// # }
/// ```
pub struct Vector {
    pub(crate) raw: raw::Vector,
    // what a clone is made by
    pub(crate) limits: Limits,
    pub(crate) table: Option<[[u8; 4]; 8]>,
    pub(crate) only: Option<Kind>,
}

impl Vector {
    /// A vector with no elements and no edits, of the greatest limits. O(1). Refused with `NoMemory` alone.
    pub fn new() -> Result<Vector, Refusal> {
        Vector::with_limits(Limits::GREATEST)
    }

    /// A vector of limits of its own. O(1). Refused with `NoMemory` alone.
    pub fn with_limits(limits: Limits) -> Result<Vector, Refusal> {
        Ok(Vector { raw: raw::Vector::new(limits.buckets(), limits.edits())?, limits, table: None, only: None })
    }

    /// A vector of one kind alone, where no other is wanted. It answers [`value`](Vector::value), [`value_many`](Vector::value_many), the method
    /// of that kind and its scans, and the searches that go by it: of `Least` [`where_least`](Vector::where_least), of `Greatest`
    /// [`where_greatest`](Vector::where_greatest), of `Best` [`where_best`](Vector::where_best) and [`where_reaches`](Vector::where_reaches).
    /// Each of these by another kind is refused with `BadKind`, before its range is looked at, and so is what is by all six. Refused with
    /// `NoMemory` alone.
    ///
    /// ```
    /// use livevec::{Kind, Limits, Refusal, Vector};
    ///
    /// # fn main() -> Result<(), Refusal> {
    /// let mut volumes = Vector::of_kind(Kind::Sum, Limits::GREATEST)?;
    /// volumes.extend_from_slice(&[300, 120, 500])?;
    /// assert_eq!(volumes.sum(1..)?, 620);
    /// assert_eq!(volumes.greatest(..), Err(Refusal::BadKind));
    /// assert_eq!(volumes.ask(..).err(), Some(Refusal::BadKind));
    /// assert_eq!(volumes.try_clone()?.kind(), Some(Kind::Sum));
    /// # Ok(())
    /// # }
    /// ```
    pub fn of_kind(kind: Kind, limits: Limits) -> Result<Vector, Refusal> {
        Ok(Vector { raw: raw::Vector::of_kind(kind as u32, limits.buckets(), limits.edits())?, limits, table: None, only: Some(kind) })
    }

    /// The kind that it is of, if it is of one.
    pub fn kind(&self) -> Option<Kind> {
        self.only
    }

    /// A vector whose automaton goes by this table: from state `q`, an element `x` leads to `table[q][x mod 4]`, the remainder never negative.
    /// Refused with `BadTable` where an entry is above 7, then with `NoMemory`.
    ///
    /// ```
    /// use livevec::{Limits, Refusal, Vector};
    ///
    /// # fn main() -> Result<(), Refusal> {
    /// // state 1 says: a remainder of 3 was seen
    /// let mut table = [[0, 0, 0, 1]; 8];
    /// table[1] = [1; 4];
    /// let mut vector = Vector::with_table(Limits::GREATEST, &table)?;
    /// vector.extend_from_slice(&[4, 7, 8])?;
    /// assert_eq!(vector.ask(..)?.values.automaton[0], 1);
    /// assert_eq!(vector.ask(2..)?.values.automaton[0], 0);
    /// table[7][0] = 8;
    /// assert_eq!(Vector::with_table(Limits::GREATEST, &table).err(), Some(Refusal::BadTable));
    /// # Ok(())
    /// # }
    /// ```
    pub fn with_table(limits: Limits, table: &[[u8; 4]; 8]) -> Result<Vector, Refusal> {
        Ok(Vector { raw: raw::Vector::with_table(limits.buckets(), limits.edits(), table)?, limits, table: Some(*table), only: None })
    }

    /// Puts an element at the end. O(log n) amortised. Refused with `Worn`, `Full`, `NoMemory`, in this order.
    pub fn push(&mut self, value: i64) -> Result<Pushed, Refusal> {
        self.raw.edit(Edit::Push(value)).map(|did| Pushed { edit: did.edit, index: did.place as usize })
    }

    /// Drops the last element. O(log n). Refused with `Worn`, `Empty`, `NoMemory`, in this order.
    pub fn pop(&mut self) -> Result<Popped, Refusal> {
        self.raw.edit(Edit::Pop).map(|did| Popped { edit: did.edit, value: did.value })
    }

    /// Overwrites an element. O(log n) amortised. Refused with `Worn`, `OutOfRange`, `NoMemory`, in this order.
    pub fn write(&mut self, index: impl AsIndex, value: i64) -> Result<Written, Refusal> {
        self.raw.edit(Edit::Write { index: exact(index), value }).map(|did| Written { edit: did.edit, before: did.value })
    }

    /// Makes room for so many elements in all: linear in the room. Refused with `Worn`, `TooLarge`, `NoMemory`, in this order. It is an edit
    /// like any other.
    pub fn reserve(&mut self, elements: impl AsIndex) -> Result<Reserved, Refusal> {
        self.raw.edit(Edit::Reserve(exact(elements))).map(|did| Reserved { edit: did.edit, capacity: did.place as usize })
    }

    /// Exchanges the elements at two indices, which may be one. O(log n) amortised. Refused with `Worn`, `OutOfRange`, `NoMemory`, in this order.
    pub fn swap(&mut self, first: impl AsIndex, second: impl AsIndex) -> Result<Swapped, Refusal> {
        let edit = Edit::Swap { first: exact(first), second: exact(second) };
        self.raw.edit(edit).map(|did| Swapped { edit: did.edit, first: did.value })
    }

    /// Keeps so many elements, the first ones, and drops the others. O(log n) amortised. Refused with `Worn`, `OutOfRange`, `NoMemory`, in this order. It gives
    /// no memory back.
    pub fn truncate(&mut self, elements: impl AsIndex) -> Result<Truncated, Refusal> {
        self.raw.edit(Edit::Truncate(exact(elements))).map(|did| Truncated { edit: did.edit, dropped: did.place as usize })
    }

    /// Why an edit would be refused, want of memory apart, or `Ok` where it would be accepted. O(1), and changes nothing.
    ///
    /// ```
    /// use livevec::{Edit, Limits, Refusal, Vector};
    ///
    /// # fn main() -> Result<(), Refusal> {
    /// let mut small = Vector::with_limits(Limits::new(1, 100)?)?;
    /// assert_eq!(small.verdict(Edit::Pop), Err(Refusal::Empty));
    /// small.extend_from_slice(&[1; 8])?;
    /// assert_eq!(small.verdict(Edit::Push(1)), Err(Refusal::Full));
    /// assert_eq!(small.verdict(Edit::Write { index: 7, value: 1 }), Ok(()));
    /// # Ok(())
    /// # }
    /// ```
    pub fn verdict(&self, edit: Edit) -> Result<(), Refusal> {
        self.raw.verdict(edit)
    }

    /// The element at an index. O(1). Refused with `OutOfRange` alone.
    pub fn get(&self, index: impl AsIndex) -> Result<i64, Refusal> {
        self.raw.get(narrow(index)).map(|found| found.value)
    }

    /// The last element, if there is one. O(1).
    pub fn last(&self) -> Option<i64> {
        self.get(self.len().checked_sub(1)?).ok()
    }

    /// How many elements there are. O(1).
    pub fn len(&self) -> usize {
        self.raw.size() as usize
    }

    /// Whether there is no element.
    pub fn is_empty(&self) -> bool {
        self.len() == 0
    }

    /// How many elements have room without another bucket. O(1).
    pub fn capacity(&self) -> usize {
        self.raw.capacity() as usize
    }

    /// The number of the last edit, which is how many were accepted. O(1).
    pub fn edits(&self) -> u32 {
        self.raw.edits()
    }

    /// The elements, from the first on; O(1) for each. While the iterator lives the vector can't be edited:
    ///
    /// ```compile_fail
    /// let mut vector = livevec::Vector::new().unwrap();
    /// for element in &vector {
    ///     vector.push(element).unwrap();
    /// }
    /// ```
    ///
    /// ```
    /// # fn main() -> Result<(), livevec::Refusal> {
    /// let mut vector = livevec::Vector::new()?;
    /// vector.try_extend(1..=5)?;
    /// assert_eq!(vector.iter().rev().collect::<Vec<_>>(), [5, 4, 3, 2, 1]);
    /// assert_eq!(vector.elements(1..3)?.sum::<i64>(), 5);
    /// # Ok(())
    /// # }
    /// ```
    pub fn iter(&self) -> Elements<'_> {
        Elements::new(self, 0, self.len())
    }

    /// The elements of a range; O(1) for each. Refused with `BadRange`, `OutOfRange`, in this order.
    pub fn elements(&self, range: impl Indices) -> Result<Elements<'_>, Refusal> {
        let size = self.len();
        let (lo, hi) = ends(range, || size);
        if lo > hi {
            return Err(Refusal::BadRange);
        }
        if hi as usize > size {
            return Err(Refusal::OutOfRange { size });
        }
        Ok(Elements::new(self, lo as usize, hi as usize))
    }

    /// Fills the front of a buffer with the elements of a range, by one call, and gives that front. Linear in the range.
    /// Refused with `BadRange`, `OutOfRange`, then `ShortBuffer`.
    pub fn read_into<'a>(&self, range: impl Indices, buffer: &'a mut [i64]) -> Result<&'a mut [i64], Refusal> {
        let (lo, hi) = ends(range, || self.len());
        let length = self.raw.read(lo, hi, buffer)?.length as usize;
        Ok(&mut buffer[..length])
    }
}

impl fmt::Debug for Vector {
    fn fmt(&self, f: &mut fmt::Formatter<'_>) -> fmt::Result {
        f.debug_struct("Vector").field("len", &self.len()).field("edits", &self.edits()).finish_non_exhaustive()
    }
}
