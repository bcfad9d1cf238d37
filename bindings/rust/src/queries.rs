//! Standing queries: names for questions by one kind, and notes of those whose answer has changed.

use std::fmt;

use crate::indices::Indices;
use crate::values::Values;
use crate::{Kind, Refusal, Sharing, Value, raw};

/// What a standing query asks: `Query::by(Kind::Greatest).last(100).at_least(90)`. Of all, and told of at each change, where nothing is said.
///
/// ```
/// use livevec::{Kind, Queries, Query, Samples, Value};
///
/// # fn main() -> Result<(), livevec::Refusal> {
/// let (mut load, mut queries) = (Samples::new()?, Queries::new()?);
/// queries.watch_query("hot", Query::by(Kind::Greatest).within(60).at_least(90))?;
/// let mut told = Vec::new();
/// for (time, value) in [(0, 40), (30, 95), (60, 99), (119, 70), (121, 60)] {
///     load.push(time, value)?;
///     told.extend(queries.notes(&mut load)?.iter().map(|note| (time, note.value)));
/// }
/// assert_eq!(told, [(30, Value::Greatest(Some(95))), (121, Value::Greatest(Some(70)))]);
/// # Ok(())
/// # }
/// ```
#[derive(Clone, Copy, Debug)]
pub struct Query {
    kind: Kind,
    asked: raw::Query,
}

impl Query {
    /// By a kind.
    pub fn by(kind: Kind) -> Query {
        Query { kind, asked: raw::Query { kind: kind as u32, span: 0, bound: 0, lo: 0, hi: u64::MAX, x: 0 } }
    }

    fn over(self, span: u32, lo: u64, hi: u64) -> Query {
        Query { asked: raw::Query { span, lo, hi, ..self.asked }, ..self }
    }

    /// Of a range, which may reach past the end: what of it exists is asked, also where it has no end.
    pub fn between(self, range: impl Indices) -> Query {
        let (lo, hi) = reach(range);
        self.over(0, lo, hi)
    }

    /// Of the last so many elements, or of all where there are fewer.
    pub fn last(self, count: usize) -> Query {
        self.over(1, count as u64, 0)
    }

    /// Of the samples of the last so much time, as [`Samples::last`](crate::Samples::last) has them.
    pub fn within(self, time: u64) -> Query {
        self.over(2, time, 0)
    }

    /// Told of only as its answer begins or ends to be at least `x`. No elements, a map and states never are; a sum is signed here.
    pub fn at_least(self, x: i64) -> Query {
        Query { asked: raw::Query { bound: 1, x, ..self.asked }, ..self }
    }

    /// Told of only as its answer begins or ends to be at most `x`.
    pub fn at_most(self, x: i64) -> Query {
        Query { asked: raw::Query { bound: 2, x, ..self.asked }, ..self }
    }
}

/// A set of standing queries, which may be asked of any [`Vector`](crate::Vector), [`Series`](crate::Series) and [`Samples`](crate::Samples).
///
/// [`notes`](Queries::notes) tells which answers are others than were told last, or have crossed their bound, in the order in which the queries were
/// named: called after each edit, it tells the notes of that edit. Before its first note a query counts as told its answer of no elements.
///
/// ```
/// use livevec::{Kind, Queries, Value, Vector};
///
/// # fn main() -> Result<(), livevec::Refusal> {
/// let (mut feed, mut queries) = (Vector::new()?, Queries::new()?);
/// queries.watch("total", Kind::Sum, ..)?;
/// queries.watch("dip", Kind::Least, ..2)?;
/// for price in [30, 12, 50] {
///     feed.push(price)?;
///     for note in queries.notes(&mut feed)? {
///         println!("{}: {} is {:?}", note.edit, note.name(), note.value);
///     }
/// }
/// feed.write(0, 5)?;
/// let notes = queries.notes(&mut feed)?;
/// assert_eq!(notes.iter().map(|note| note.name()).collect::<Vec<_>>(), ["total", "dip"]);
/// assert_eq!((notes[1].edit, notes[1].value), (4, Value::Least(Some(5))));
/// assert_eq!(queries.notes(&mut feed)?, []);
/// # Ok(())
/// # }
/// ```
///
/// A name is 1 to 16 bytes of `a-z`, `0-9` and `_`. It may be sent to another thread.
pub struct Queries {
    raw: raw::Queries,
    // of each query its name, zeros behind it, and its kind: C's answer doesn't tell it
    kinds: Vec<([u8; raw::NAME_BYTES], Kind)>,
}

/// That the answer of a standing query is another than it was told last, or has crossed its bound.
#[derive(Clone, Copy, PartialEq, Eq, Hash)]
pub struct Note {
    // a zero stands behind it
    name: [u8; raw::NAME_BYTES + 1],
    /// The query's kind.
    pub kind: Kind,
    /// After which edit this is its answer: the low 32 bits of its number.
    pub edit: u32,
    /// Its answer.
    pub value: Value,
}

/// An answer by one kind: of a standing query, or of [`Vector::value_at_edit`](crate::Vector::value_at_edit).
#[derive(Clone, Copy, Debug, PartialEq, Eq, Hash)]
pub struct Answered {
    /// After which edit it is so: the last one that was accepted.
    pub edit: u32,
    /// The answer.
    pub value: Value,
}

impl Queries {
    /// How many queries a set has at most.
    pub const MOST: usize = raw::MOST_QUERIES;

    /// A set without queries. Refused with `NoMemory` alone.
    pub fn new() -> Result<Queries, Refusal> {
        Ok(Queries { raw: raw::Queries::new()?, kinds: Vec::new() })
    }

    /// Registers a query: what a kind says of a range, which may reach past the end: what of it exists is asked, also where it has no end.
    /// O(q) of q queries.
    /// Refused with `BadName`, `BadRange`, `NameTaken`, `TooMany` (past [`MOST`](Queries::MOST)), `NoMemory`, in this order.
    pub fn watch(&mut self, name: &str, kind: Kind, range: impl Indices) -> Result<(), Refusal> {
        self.watch_query(name, Query::by(kind).between(range))
    }

    /// Registers a query of any span, with or without a bound. O(q), and refused as [`watch`](Queries::watch).
    pub fn watch_query(&mut self, name: &str, query: Query) -> Result<(), Refusal> {
        let room = self.kinds.try_reserve(1);
        // what is refused for itself is told before want of memory, so that C is asked first
        self.raw.watch(name.as_bytes(), &query.asked)?;
        if room.is_err() {
            self.raw.unwatch(name.as_bytes())?;
            return Err(Refusal::NoMemory);
        }
        self.kinds.push((padded(name), query.kind));
        Ok(())
    }

    /// Forgets a query; the others keep their order, and what they were told. O(q). Refused with `BadName`, `NoSuchName`, in this order.
    pub fn unwatch(&mut self, name: &str) -> Result<(), Refusal> {
        self.raw.unwatch(name.as_bytes())?;
        let name = padded(name);
        self.kinds.retain(|&(other, _)| other != name);
        Ok(())
    }

    /// The answer of a query now. Nothing counts as told by it. Costs what `value` does. Refused with `BadName`, `NoSuchName`, and `BadKind` where it may
    /// not be asked (of a vector of another kind, or of the last so much time at what has no times), in this order.
    ///
    /// ```
    /// use livevec::{Kind, Queries, Refusal, Value, Vector};
    ///
    /// # fn main() -> Result<(), Refusal> {
    /// let (feed, mut queries) = (Vector::try_from([30, 12])?, Queries::new()?);
    /// queries.watch("second", Kind::Sum, 1..2)?;
    /// assert_eq!(queries.answer(&feed, "second")?.value, Value::Sum(12));
    /// assert_eq!(queries.answer(&feed, "third"), Err(Refusal::NoSuchName));
    /// # Ok(())
    /// # }
    /// ```
    pub fn answer<T: Sharing>(&self, of: &T, name: &str) -> Result<T::Answered, Refusal> {
        let (edit, values) = self.raw.answer(of.target(), name.as_bytes())?;
        let name = padded(name);
        let kind = self.kinds.iter().find(|&&(other, _)| other == name).map(|&(_, kind)| kind);
        let kind = kind.expect("a query has a kind");
        Ok(T::answered(edit, Value::of(kind, Values::of_raw(values))))
    }

    /// A note of each query, in the order in which they were named, whose answer is another than it was told last, or has crossed its bound. Each then
    /// counts as told its answer. Costs what `value` does, for each query. Refused with `BadKind` where one of them may not be asked, then with
    /// `NoMemory`: nothing is told then.
    pub fn notes<T: Sharing>(&mut self, of: &mut T) -> Result<Vec<Note>, Refusal> {
        // room first: what was told once isn't told again
        let mut notes = raw::roomy(self.kinds.len())?;
        notes.extend(self.raw.notes(of.target())?.iter().map(Note::of_raw));
        Ok(notes)
    }
}

impl Note {
    fn of_raw(raw: &raw::Note) -> Note {
        let kind = raw.kind();
        Note { name: raw.name, kind, edit: raw.edit, value: Value::of(kind, Values::of_raw(raw.values)) }
    }

    /// The query's name.
    pub fn name(&self) -> &str {
        let length = self.name.iter().position(|&byte| byte == 0).unwrap_or(raw::NAME_BYTES);
        std::str::from_utf8(&self.name[..length]).expect("a name is whole text")
    }
}

impl fmt::Debug for Note {
    fn fmt(&self, f: &mut fmt::Formatter<'_>) -> fmt::Result {
        f.debug_struct("Note")
            .field("name", &self.name())
            .field("kind", &self.kind)
            .field("edit", &self.edit)
            .field("value", &self.value)
            .finish()
    }
}

impl fmt::Debug for Queries {
    fn fmt(&self, f: &mut fmt::Formatter<'_>) -> fmt::Result {
        f.debug_struct("Queries").finish_non_exhaustive()
    }
}

/// The bytes of a name, and zeros behind them.
fn padded(name: &str) -> [u8; raw::NAME_BYTES] {
    let mut bytes = [0; raw::NAME_BYTES];
    bytes[..name.len()].copy_from_slice(name.as_bytes());
    bytes
}

/// What of a range there may be, or a range that C refuses where it is backwards.
fn reach(range: impl Indices) -> (u64, u64) {
    let (lo, hi) = range.ends();
    let (lo, hi) = (lo.unwrap_or(0), hi.unwrap_or(u64::MAX.into()));
    if lo > hi {
        return (1, 0);
    }
    let within = |index: i128| index.clamp(0, u64::MAX.into()) as u64;
    (within(lo), within(hi))
}
