//! Why a call is refused.

use std::fmt;

/// Why a call was refused. A refused call changes no element, no edit number and no later answer.
///
/// The numbers and the names are those of the library's rules; see [`Refusal::number`].
///
/// ```
/// use livevec::{Refusal, Vector};
///
/// # fn main() -> Result<(), Refusal> {
/// let mut prices = Vector::new()?;
/// let refusal = prices.pop().unwrap_err();
/// assert_eq!(refusal, Refusal::Empty);
/// assert_eq!(refusal.number(), 2);
/// assert_eq!(refusal.to_string(), "there is nothing to pop");
/// # Ok(())
/// # }
/// ```
#[derive(Clone, Copy, Debug, PartialEq, Eq, Hash)]
#[non_exhaustive]
pub enum Refusal {
    /// 1: as many edits are accepted as the limits allow.
    Worn,
    /// 2: there is nothing to pop.
    Empty,
    /// 3: an index, or the end of a range, is past the end.
    OutOfRange {
        /// How many elements there are.
        size: usize,
    },
    /// 3 too, of a [`Series`](crate::Series): an index, or an end of a range, isn't kept.
    NotKept {
        /// The first index that is kept.
        first: usize,
        /// The index behind the last.
        size: usize,
    },
    /// 4: more was to be reserved than the limits allow.
    TooLarge {
        /// The most elements.
        limit: usize,
    },
    /// 5: there are as many elements as the limits allow.
    Full,
    /// 6: memory was wanted, and there was none.
    NoMemory,
    /// 7: a range whose start is past its end.
    BadRange,
    /// 8: limits outside their ranges.
    BadLimits,
    /// 9: an automaton's table with an entry above 7.
    BadTable,
    /// 10: a query of that name is there already.
    NameTaken,
    /// 11: no query has that name.
    NoSuchName,
    /// 12: as many queries as a set may have.
    TooMany,
    /// 15: an outcome that is not of a job of this vector.
    Stranger,
    /// 16: an element of a board outside `-32768..=32767`.
    TooWide,
    /// 17: another seat's edit came first. Nothing has happened, and the call may be made again: see [`Refusal::is_outrun`].
    Contended {
        /// The number of that edit.
        edit: u32,
    },
    /// 18: a later edit wrote where the call read. Nothing has happened, and the call may be made again: see [`Refusal::is_outrun`].
    Overtaken {
        /// The number of that edit.
        edit: u32,
    },
    /// 21: a sample's time is before that of the last sample.
    Earlier {
        /// The time of the last sample.
        newest: i64,
    },
    /// 22: bytes that no saved vector, series or samples have: they were changed, or are too few or too many.
    NotSaved,
    /// 103: a buffer shorter than what it should take, or not as many values as there are indices.
    ShortBuffer {
        /// How many values it should take, or there should be.
        wanted: usize,
    },
    /// 105: somebody has each of the board's seats.
    NoSeat,
    /// 106: a seat of the board is not dropped yet.
    SeatsOut,
    /// 108: another call is under way: of a [`Shared`](crate::Shared) the `with` of the same thread, in which this one was made. Reads of one value by
    /// several threads wait for each other, and are not refused.
    Busy,
    /// 109: bytes of a summary of another version of the layout, or of no summary at all.
    OtherVersion,
    /// 110: bytes of a summary that were changed, or that no elements have.
    Damaged,
    /// 111: two summaries by automata of two tables.
    OtherTable,
    /// 112: summaries of more than 2^62 elements together, or a text of more than 2^30 bytes.
    TooLong,
    /// 113: a vector of one kind was asked by another, or by all six; or what has no times was asked a query of the last so much time.
    BadKind,
    /// 114: what is no name of a query: 1 to 16 bytes of `a-z`, `0-9` and `_`.
    BadName,
    /// 115: recorded answers that don't rise by their edits.
    NotInOrder,
    /// 116: bytes that are no front of a transcript.
    NoFront,
    /// Any other number: 101 of a shared vector that was closed, and no other today.
    Other {
        /// The number.
        number: u32,
    },
}

impl Refusal {
    /// The refusal of a number and its detail (a size, a limit, an edit or a length), as C gives them.
    pub(crate) fn of(number: u32, detail: u32) -> Refusal {
        match number {
            1 => Refusal::Worn,
            2 => Refusal::Empty,
            3 => Refusal::OutOfRange { size: detail as usize },
            4 => Refusal::TooLarge { limit: detail as usize },
            5 => Refusal::Full,
            6 => Refusal::NoMemory,
            7 => Refusal::BadRange,
            8 => Refusal::BadLimits,
            9 => Refusal::BadTable,
            10 => Refusal::NameTaken,
            11 => Refusal::NoSuchName,
            12 => Refusal::TooMany,
            15 => Refusal::Stranger,
            16 => Refusal::TooWide,
            17 => Refusal::Contended { edit: detail },
            18 => Refusal::Overtaken { edit: detail },
            22 => Refusal::NotSaved,
            103 => Refusal::ShortBuffer { wanted: detail as usize },
            105 => Refusal::NoSeat,
            106 => Refusal::SeatsOut,
            108 => Refusal::Busy,
            109 => Refusal::OtherVersion,
            110 => Refusal::Damaged,
            111 => Refusal::OtherTable,
            112 => Refusal::TooLong,
            113 => Refusal::BadKind,
            114 => Refusal::BadName,
            115 => Refusal::NotInOrder,
            116 => Refusal::NoFront,
            number => Refusal::Other { number },
        }
    }

    /// The number that the library's rules, scripts and transcripts give this refusal.
    pub fn number(self) -> u32 {
        match self {
            Refusal::Worn => 1,
            Refusal::Empty => 2,
            Refusal::OutOfRange { .. } | Refusal::NotKept { .. } => 3,
            Refusal::TooLarge { .. } => 4,
            Refusal::Full => 5,
            Refusal::NoMemory => 6,
            Refusal::BadRange => 7,
            Refusal::BadLimits => 8,
            Refusal::BadTable => 9,
            Refusal::NameTaken => 10,
            Refusal::NoSuchName => 11,
            Refusal::TooMany => 12,
            Refusal::Stranger => 15,
            Refusal::TooWide => 16,
            Refusal::Contended { .. } => 17,
            Refusal::Overtaken { .. } => 18,
            Refusal::Earlier { .. } => 21,
            Refusal::NotSaved => 22,
            Refusal::ShortBuffer { .. } => 103,
            Refusal::NoSeat => 105,
            Refusal::SeatsOut => 106,
            Refusal::Busy => 108,
            Refusal::OtherVersion => 109,
            Refusal::Damaged => 110,
            Refusal::OtherTable => 111,
            Refusal::TooLong => 112,
            Refusal::BadKind => 113,
            Refusal::BadName => 114,
            Refusal::NotInOrder => 115,
            Refusal::NoFront => 116,
            Refusal::Other { number } => number,
        }
    }

    /// Whether another seat's edit alone stood in the way (`Contended`, `Overtaken`), so that the same call may go through if it is made
    /// again.
    ///
    /// ```
    /// use livevec::{Pushed, Refusal, Seat};
    ///
    /// fn insist(seat: &mut Seat, value: i64) -> Result<Pushed, Refusal> {
    ///     loop {
    ///         match seat.push(value, 100) {
    ///             Err(refusal) if refusal.is_outrun() => std::thread::yield_now(),
    ///             answer => return answer,
    ///         }
    ///     }
    /// }
    /// ```
    pub fn is_outrun(self) -> bool {
        matches!(self, Refusal::Contended { .. } | Refusal::Overtaken { .. })
    }
}

impl fmt::Display for Refusal {
    fn fmt(&self, f: &mut fmt::Formatter<'_>) -> fmt::Result {
        match self {
            Refusal::Worn => f.write_str("the limit of edits is reached"),
            Refusal::Empty => f.write_str("there is nothing to pop"),
            Refusal::OutOfRange { size } => write!(f, "out of range: the size is {size}"),
            Refusal::NotKept { first, size } => write!(f, "out of range: kept are the indices from {first} up to {size}"),
            Refusal::TooLarge { limit } => write!(f, "too large: the limit is {limit} elements"),
            Refusal::Full => f.write_str("full: there are as many elements as the limits allow"),
            Refusal::NoMemory => f.write_str("no memory"),
            Refusal::BadRange => f.write_str("a range whose start is past its end"),
            Refusal::BadLimits => f.write_str("limits outside their ranges"),
            Refusal::BadTable => f.write_str("a table with an entry above 7"),
            Refusal::NameTaken => f.write_str("a name that another query has"),
            Refusal::NoSuchName => f.write_str("a name that no query has"),
            Refusal::TooMany => f.write_str("as many queries as a set may have"),
            Refusal::Stranger => f.write_str("an outcome that is not of a job of this vector"),
            Refusal::TooWide => f.write_str("an element of a board outside -32768 to 32767"),
            Refusal::Contended { edit } => write!(f, "contended: edit {edit} came first"),
            Refusal::Overtaken { edit } => write!(f, "overtaken: edit {edit} wrote there"),
            Refusal::Earlier { newest } => write!(f, "earlier than the last sample, whose time is {newest}"),
            Refusal::NotSaved => f.write_str("bytes that are no saved vector, series or samples"),
            Refusal::NoSeat => f.write_str("no seat is left"),
            Refusal::SeatsOut => f.write_str("seats are out"),
            Refusal::Busy => f.write_str("another call is under way"),
            Refusal::OtherVersion => f.write_str("a summary of another version, or none"),
            Refusal::Damaged => f.write_str("a damaged summary"),
            Refusal::OtherTable => f.write_str("summaries by two tables"),
            Refusal::TooLong => f.write_str("more elements than summaries may have, or more bytes than a text may have"),
            Refusal::BadKind => f.write_str("a kind that the vector is not of"),
            Refusal::BadName => f.write_str("what is no name of a query"),
            Refusal::NotInOrder => f.write_str("recorded answers that don't rise by their edits"),
            Refusal::NoFront => f.write_str("bytes that are no front of a transcript"),
            Refusal::ShortBuffer { wanted } => write!(f, "a buffer shorter than the {wanted} values"),
            Refusal::Other { number } => write!(f, "refused {number}"),
        }
    }
}

impl std::error::Error for Refusal {}
