//! The kinds by which a range is reduced: their names, in and out, and a value by one of them.

use std::fmt;
use std::str::FromStr;

use crate::Values;

/// What a board reduces by, and what a vector may be asked by alone. The kinds are those of [`Values`].
#[derive(Clone, Copy, Debug, PartialEq, Eq, Hash)]
pub enum Kind {
    /// The sum.
    Sum = 0,
    /// The least element.
    Least = 1,
    /// The greatest element.
    Greatest = 2,
    /// The greatest total of one or more neighbours.
    Best = 3,
    /// The map that the elements make.
    Affine = 4,
    /// The states that the elements lead to, by a vector's own table, and on a board by that which leads from `q` by `x` to
    /// `(2 * q + x mod 4) mod 8`.
    Automaton = 5,
}

/// The value of a range by one kind: the board's, or that by which a vector was asked.
#[derive(Clone, Copy, Debug, PartialEq, Eq, Hash)]
pub enum Value {
    /// The sum.
    Sum(i64),
    /// The least element; none of an empty range.
    Least(Option<i64>),
    /// The greatest element; none of an empty range.
    Greatest(Option<i64>),
    /// The greatest total of one or more neighbours; none of an empty range.
    Best(Option<i128>),
    /// `a` and `b` of the map `y -> a * y + b` modulo 2^32.
    Affine(u32, u32),
    /// The state that the elements lead to from each of the states 0 to 7.
    Automaton([u8; 8]),
}

impl Value {
    pub(crate) fn of(kind: Kind, values: Values) -> Value {
        match kind {
            Kind::Sum => Value::Sum(values.sum),
            Kind::Least => Value::Least(values.least),
            Kind::Greatest => Value::Greatest(values.greatest),
            Kind::Best => Value::Best(values.best),
            Kind::Affine => Value::Affine(values.affine.0, values.affine.1),
            Kind::Automaton => Value::Automaton(values.automaton),
        }
    }
}

impl Kind {
    /// All six.
    pub const ALL: [Kind; 6] = [Kind::Sum, Kind::Least, Kind::Greatest, Kind::Best, Kind::Affine, Kind::Automaton];

    fn name(self) -> &'static str {
        match self {
            Kind::Sum => "sum",
            Kind::Least => "least",
            Kind::Greatest => "greatest",
            Kind::Best => "best",
            Kind::Affine => "affine",
            Kind::Automaton => "automaton",
        }
    }
}

/// Its name: `sum`, `least`, `greatest`, `best`, `affine` or `automaton`.
///
/// ```
/// use livevec::Kind;
///
/// assert_eq!(format!("{:>6}", Kind::Best), "  best");
/// assert_eq!("best".parse(), Ok(Kind::Best));
/// let unknown = "median".parse::<Kind>().unwrap_err();
/// assert_eq!(unknown.to_string(), "no kind has this name: there are sum, least, greatest, best, affine, automaton");
/// ```
impl fmt::Display for Kind {
    fn fmt(&self, f: &mut fmt::Formatter<'_>) -> fmt::Result {
        f.pad(self.name())
    }
}

/// Of its name, as `Display` gives it.
impl FromStr for Kind {
    type Err = UnknownKind;

    fn from_str(name: &str) -> Result<Kind, UnknownKind> {
        Kind::ALL.into_iter().find(|kind| kind.name() == name).ok_or(UnknownKind(()))
    }
}

/// A name that no [`Kind`] has.
#[derive(Clone, Copy, Debug, PartialEq, Eq, Hash)]
pub struct UnknownKind(());

impl fmt::Display for UnknownKind {
    fn fmt(&self, f: &mut fmt::Formatter<'_>) -> fmt::Result {
        write!(f, "no kind has this name: there are {}", Kind::ALL.map(Kind::name).join(", "))
    }
}

impl std::error::Error for UnknownKind {}
