//! The board: a vector of elements of 16 bits that threads share without a lock.

use std::fmt;

use crate::indices::narrow;
use crate::values::ends;
use crate::{AsIndex, Indices, Kind, Limits, Popped, Pushed, Refusal, Value, Values, Written, raw};

/// A growable vector of elements of 16 bits that up to eight threads edit and reduce at once, without a lock.
///
/// Each thread has a [`Seat`]. No call waits for another thread: what another edit outran is refused with `Contended` or `Overtaken`, and
/// has not happened. All seats' accepted edits are one list, numbered 1, 2, 3 and so on. When the seats are dropped the board can be closed.
///
/// ```
/// use std::thread;
/// use livevec::{Board, Kind, Refusal, Value};
///
/// # fn main() -> Result<(), Refusal> {
/// let mut board = Board::new(Kind::Sum, 2)?;
/// let (reader, mut writer) = (board.sit()?, board.sit()?);
/// writer.push(0, 1)?;
/// thread::scope(|scope| {
///     scope.spawn(move || {
///         for count in 1..=3 {
///             while writer.write(0, count, 100).is_err_and(Refusal::is_outrun) {}
///         }
///     });
///     // edit 1 left a count of 0, edit 2 one of 1, and so on: the answer names the edit
///     if let Ok(told) = reader.reduce(..1) {
///         assert_eq!(told.value, Value::Sum(i64::from(told.edit) - 1));
///     }
/// });
/// drop(reader);
/// let closed = board.close()?;
/// assert_eq!((closed.edits(), closed.to_vec()?), (4, vec![3]));
/// # Ok(())
/// # }
/// ```
pub struct Board {
    raw: raw::Board,
    kind: Kind,
}

impl Board {
    /// A board with no elements, of the greatest limits: 4,088 elements and 16,777,215 edits. It takes all its memory now.
    /// Refused with `BadLimits` unless there are 1 to 8 seats, then with `NoMemory`.
    pub fn new(kind: Kind, seats: u32) -> Result<Board, Refusal> {
        Board::with_limits(kind, Limits::GREATEST_BOARD, seats)
    }

    /// A board of limits of its own. Refused with `BadLimits` above 9 buckets and outside 1 to 8 seats, then with `NoMemory`.
    ///
    /// ```
    /// use livevec::{Board, Kind, Limits, Refusal};
    ///
    /// let too_many = Board::with_limits(Kind::Least, Limits::new(10, 100)?, 8);
    /// assert_eq!(too_many.err(), Some(Refusal::BadLimits));
    /// # Ok::<(), Refusal>(())
    /// ```
    pub fn with_limits(kind: Kind, limits: Limits, seats: u32) -> Result<Board, Refusal> {
        Ok(Board { raw: raw::Board::new(kind as u32, limits.buckets(), limits.edits(), seats)?, kind })
    }

    /// A seat of the board: one that nobody has yet, or one that was dropped. O(1). Refused with `NoMemory`, `NoSeat`.
    pub fn sit(&mut self) -> Result<Seat, Refusal> {
        Ok(Seat { raw: self.raw.sit()?, kind: self.kind })
    }

    /// What the board reduces by.
    pub fn kind(&self) -> Kind {
        self.kind
    }

    /// Closes a board whose seats are all dropped. Linear. Refused with `NoMemory`, `SeatsOut`; the board then comes back as it was.
    ///
    /// ```
    /// use livevec::{Board, Kind, Refusal};
    ///
    /// # fn main() -> Result<(), Refusal> {
    /// let mut board = Board::new(Kind::Sum, 1)?;
    /// let mut seat = board.sit()?;
    /// let refused = board.close().unwrap_err();
    /// assert_eq!(refused.refusal, Refusal::SeatsOut);
    /// board = refused.board;
    /// seat.push(7, 1)?;
    /// drop(seat);
    /// assert_eq!(board.close()?.get(0), Ok(7));
    /// # Ok(())
    /// # }
    /// ```
    pub fn close(mut self) -> Result<Closed, NotClosed> {
        match self.raw.close() {
            Ok(edits) => Ok(Closed { raw: self.raw, edits }),
            Err(refusal) => Err(NotClosed { board: self, refusal }),
        }
    }
}

impl fmt::Debug for Board {
    fn fmt(&self, f: &mut fmt::Formatter<'_>) -> fmt::Result {
        f.debug_struct("Board").field("kind", &self.kind).finish_non_exhaustive()
    }
}

/// The answer of a reduction at a seat.
#[derive(Clone, Copy, Debug, PartialEq, Eq, Hash)]
pub struct Told {
    /// The edit after which the range was read.
    pub edit: u32,
    /// How many elements were read for it.
    pub cells: u32,
    /// How many summaries of blocks were read for it.
    pub summaries: u32,
    /// The value of the range.
    pub value: Value,
}

/// The answer of a refresh at a seat.
#[derive(Clone, Copy, Debug, PartialEq, Eq, Hash)]
pub struct Refreshed {
    /// The edit after which the block was read.
    pub edit: u32,
    /// The edit that touched the block last.
    pub version: u32,
}

/// A thread's place at a [`Board`]. Seats of one board are used at once on several threads; a drop gives the seat back to its board.
///
/// An edit is tried at most `tries` times, where 0 counts as 1; the pauses between are of microseconds at most. Reads make one try. What is
/// refused with `Contended` or `Overtaken` has not happened, and may be called again: see [`Refusal::is_outrun`].
///
/// A seat may be sent to another thread, and stays good where the board is dropped first. It can't be shared by `&`:
///
/// ```compile_fail
/// fn shared<T: Sync>(_: T) {}
/// shared(livevec::Board::new(livevec::Kind::Sum, 1).unwrap().sit().unwrap());
/// ```
pub struct Seat {
    raw: raw::Seat,
    kind: Kind,
}

impl Seat {
    /// Puts an element at the end. O(1) a try. Refused with `TooWide`, `Worn`, `Full`, `Contended`.
    pub fn push(&mut self, value: i64, tries: u32) -> Result<Pushed, Refusal> {
        self.raw.push(value, tries).map(|did| Pushed { edit: did.edit, index: did.place as usize })
    }

    /// Drops the last element. O(1) a try. Refused with `Worn`, `Empty`, `Contended`, `Overtaken`.
    pub fn pop(&mut self, tries: u32) -> Result<Popped, Refusal> {
        self.raw.pop(tries).map(|did| Popped { edit: did.edit, value: did.value })
    }

    /// Overwrites an element. O(1) a try. Refused with `TooWide`, `Worn`, `OutOfRange`, `Contended`, `Overtaken`.
    pub fn write(&mut self, index: impl AsIndex, value: i64, tries: u32) -> Result<Written, Refusal> {
        self.raw.write(narrow(index), value, tries).map(|did| Written { edit: did.edit, before: did.value })
    }

    /// The element at an index. O(1). Refused with `OutOfRange`, `Overtaken`.
    pub fn get(&self, index: impl AsIndex) -> Result<i64, Refusal> {
        self.raw.get(narrow(index)).map(|found| found.value)
    }

    /// How many elements there are. O(1). Another seat may change it at once.
    pub fn len(&self) -> usize {
        self.raw.size() as usize
    }

    /// Whether there is no element. Another seat may change it at once.
    pub fn is_empty(&self) -> bool {
        self.len() == 0
    }

    /// The value of a range by the board's kind, of the elements as they were after one edit. Linear: it reads each element, or one summary for
    /// each block of eight that [`refresh`](Seat::refresh) has computed. An open end is that of the size just before.
    /// Refused with `BadRange`, `OutOfRange`, `Overtaken`.
    pub fn reduce(&self, range: impl Indices) -> Result<Told, Refusal> {
        let (lo, hi) = ends(range, || self.len());
        let raw = self.raw.reduce(lo, hi)?;
        let value = Value::of(self.kind, Values::of_raw(raw.values));
        Ok(Told { edit: raw.edit, cells: raw.cells, summaries: raw.summaries, value })
    }

    /// Computes the summary of a block, the eight elements from index `8 * block` on, so that reductions read less. No answer changes. O(1).
    /// Refused with `OutOfRange` where not all eight are there, and with `Overtaken`.
    ///
    /// ```
    /// use livevec::{Board, Kind, Refreshed, Refusal, Value};
    ///
    /// # fn main() -> Result<(), Refusal> {
    /// let mut seat = Board::new(Kind::Greatest, 1)?.sit()?;
    /// for element in 1..=9 {
    ///     seat.push(element, 1)?;
    /// }
    /// assert_eq!(seat.refresh(0), Ok(Refreshed { edit: 9, version: 8 }));
    /// assert_eq!(seat.refresh(1), Err(Refusal::OutOfRange { size: 9 }));
    /// let told = seat.reduce(..)?;
    /// assert_eq!((told.cells, told.summaries, told.value), (1, 1, Value::Greatest(Some(9))));
    /// # Ok(())
    /// # }
    /// ```
    pub fn refresh(&self, block: u32) -> Result<Refreshed, Refusal> {
        self.raw.refresh(block).map(|did| Refreshed { edit: did.edit, version: did.version })
    }
}

impl fmt::Debug for Seat {
    fn fmt(&self, f: &mut fmt::Formatter<'_>) -> fmt::Result {
        f.debug_struct("Seat").field("kind", &self.kind).field("len", &self.len()).finish_non_exhaustive()
    }
}

/// What a closed [`Board`] came to: its elements, and how many edits made them.
pub struct Closed {
    raw: raw::Board,
    edits: u32,
}

impl Closed {
    /// How many edits were accepted at all seats together.
    pub fn edits(&self) -> u32 {
        self.edits
    }

    /// How many elements there are.
    pub fn len(&self) -> usize {
        self.raw.closed_size() as usize
    }

    /// Whether there is no element.
    pub fn is_empty(&self) -> bool {
        self.len() == 0
    }

    /// The element at an index. O(1). Refused with `OutOfRange` alone.
    pub fn get(&self, index: impl AsIndex) -> Result<i64, Refusal> {
        self.raw.closed_get(narrow(index)).map(|found| found.value)
    }

    /// Fills the front of a buffer with all elements, and gives that front. Linear. Refused with `ShortBuffer` alone.
    pub fn read_into<'a>(&self, buffer: &'a mut [i64]) -> Result<&'a mut [i64], Refusal> {
        let length = self.raw.closed_read(buffer)?;
        Ok(&mut buffer[..length])
    }

    /// A copy of all elements. Linear. Refused with `NoMemory` alone.
    pub fn to_vec(&self) -> Result<Vec<i64>, Refusal> {
        let length = self.len();
        let mut elements = Vec::new();
        elements.try_reserve_exact(length).map_err(|_| Refusal::NoMemory)?;
        elements.resize(length, 0);
        self.read_into(&mut elements)?;
        Ok(elements)
    }
}

impl fmt::Debug for Closed {
    fn fmt(&self, f: &mut fmt::Formatter<'_>) -> fmt::Result {
        f.debug_struct("Closed").field("len", &self.len()).field("edits", &self.edits).finish_non_exhaustive()
    }
}

/// A board that stayed open, as it was.
#[derive(Debug)]
pub struct NotClosed {
    /// The board.
    pub board: Board,
    /// Why: `NoMemory` or `SeatsOut`.
    pub refusal: Refusal,
}

impl fmt::Display for NotClosed {
    fn fmt(&self, f: &mut fmt::Formatter<'_>) -> fmt::Result {
        write!(f, "the board stayed open: {}", self.refusal)
    }
}

impl std::error::Error for NotClosed {
    fn source(&self) -> Option<&(dyn std::error::Error + 'static)> {
        Some(&self.refusal)
    }
}

impl From<NotClosed> for Refusal {
    fn from(stayed: NotClosed) -> Refusal {
        stayed.refusal
    }
}
