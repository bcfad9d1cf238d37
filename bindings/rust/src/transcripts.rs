//! The journal of a vector, and transcripts: texts that are written, audited and made vectors of.

use std::fmt;

use crate::raw::Says;
use crate::raw::transcripts as calls;
use crate::{Edit, Kind, Limits, Refusal, Value, Vector, raw};

/// An answer as it was given, to be written into a transcript: at which edit, of which range, and its value by one kind.
#[derive(Clone, Copy, Debug, PartialEq, Eq, Hash)]
pub struct Recorded {
    /// The edit that the answer named.
    pub edit: u32,
    /// The first index of its range.
    pub lo: usize,
    /// The index behind its last.
    pub hi: usize,
    /// The value by one kind.
    pub value: Value,
}

/// What an audit says of a transcript.
#[derive(Clone, Copy, Debug, PartialEq, Eq, Hash)]
pub enum Verdict {
    /// It is sound.
    Yes,
    /// The line of this number, counted from 1, is the first fault: it has the right form, and is false.
    No(u32),
    /// The line of this number is the first fault: it is not of the form that may stand there, or is missing.
    Bad(u32),
}

/// What an audit says of a front of a transcript: as much of one as was written, edits and answers in the order of time.
#[derive(Clone, Copy, Debug, PartialEq, Eq, Hash)]
pub enum FrontVerdict {
    /// It is one.
    Front {
        /// How many edits it has.
        edits: u32,
        /// How many answers it has.
        answers: u32,
    },
    /// The line of this number, counted from 1, is the first fault: it has the right form, and is false.
    No(u32),
    /// The line of this number is the first fault: it is not of the form that may stand there.
    Bad(u32),
}

/// Why a text was not made a vector.
#[derive(Clone, Copy, Debug, PartialEq, Eq, Hash)]
pub enum NotRestored {
    /// It is no front: the verdict is `No` or `Bad`.
    NoFront(FrontVerdict),
    /// An edit was refused by the limits, or for want of memory, after so many that were made.
    Stopped {
        /// How many edits come before it.
        edits: u32,
        /// Why it was refused.
        refusal: Refusal,
    },
    /// The text was not read: it is too long, or memory was wanting.
    Refused(Refusal),
}

impl Verdict {
    /// Audits bytes as a transcript, by the automaton of [`Vector::new`]: each edit is made anew, and each answer computed plainly. Linear in
    /// the text, and each answer in its range. Refused
    /// with `TooLong` (more than 2^30 bytes), `NoMemory`.
    ///
    /// ```
    /// use livevec::Verdict;
    ///
    /// # fn main() -> Result<(), livevec::Refusal> {
    /// assert_eq!(Verdict::of(b"livevec 1\nj push 5\na 1 sum 0 1 5\nend\n")?, Verdict::Yes);
    /// assert_eq!(Verdict::of(b"livevec 1\nj push 5\na 1 sum 0 1 6\nend\n")?, Verdict::No(3));
    /// # Ok(())
    /// # }
    /// ```
    pub fn of(text: &[u8]) -> Result<Verdict, Refusal> {
        let told = calls::audit(text);
        match (told.refusal(), told.verdict) {
            (Some(refusal), _) => Err(refusal),
            (None, 1) => Ok(Verdict::Yes),
            (None, 2) => Ok(Verdict::No(told.line)),
            (None, _) => Ok(Verdict::Bad(told.line)),
        }
    }
}

impl FrontVerdict {
    /// Audits bytes as a front; what stands behind the last LF doesn't count. Refused as [`Verdict::of`] is.
    ///
    /// ```
    /// use livevec::FrontVerdict;
    ///
    /// # fn main() -> Result<(), livevec::Refusal> {
    /// let cut = b"livevec 1\nj push 5\na 1 sum 0 1 5\nj push 6\na 2 su";
    /// assert_eq!(FrontVerdict::of(cut)?, FrontVerdict::Front { edits: 2, answers: 1 });
    /// # Ok(())
    /// # }
    /// ```
    pub fn of(text: &[u8]) -> Result<FrontVerdict, Refusal> {
        let told = calls::audit_front(text);
        match told.refusal() {
            Some(refusal) => Err(refusal),
            None => Ok(FrontVerdict::told(&told)),
        }
    }

    fn told(told: &calls::Audited) -> FrontVerdict {
        match told.verdict {
            1 => FrontVerdict::Front { edits: told.edits, answers: told.answers },
            2 => FrontVerdict::No(told.line),
            _ => FrontVerdict::Bad(told.line),
        }
    }
}

impl Vector {
    /// The accepted edits behind the first `from`, in order: all of them from 0 on. Linear. Refused with `NoMemory` alone.
    ///
    /// ```
    /// use livevec::{Edit, Vector};
    ///
    /// # fn main() -> Result<(), livevec::Refusal> {
    /// let mut vector = Vector::new()?;
    /// vector.extend_from_slice(&[4, 6])?;
    /// vector.swap(0, 1)?;
    /// assert_eq!(vector.journal(1)?, [Edit::Push(6), Edit::Swap { first: 0, second: 1 }]);
    /// assert_eq!(vector.journal(3)?, []);
    /// # Ok(())
    /// # }
    /// ```
    pub fn journal(&self, from: u32) -> Result<Vec<Edit>, Refusal> {
        let flat = self.raw.journal(from, self.edits().saturating_sub(from) as usize)?;
        let mut edits = raw::roomy(flat.len())?;
        edits.extend(flat.into_iter().map(edit_of));
        Ok(edits)
    }

    /// The text of the transcript of all edits and of answers, which rise by their edits. It is sound where each answer is true, which is for
    /// [`Verdict::of`] to say. Linear in both. Refused with `OutOfRange` of an index that no vector may have (2^32 or more), then with `NotInOrder`,
    /// `NoMemory`.
    ///
    /// ```
    /// use livevec::{Recorded, Value, Vector, Verdict};
    ///
    /// # fn main() -> Result<(), livevec::Refusal> {
    /// let mut vector = Vector::new()?;
    /// vector.extend_from_slice(&[5, -7])?;
    /// let answer = Recorded { edit: vector.edits(), lo: 0, hi: 2, value: Value::Sum(vector.sum(..)?) };
    /// let text = vector.transcript(&[answer])?;
    /// assert_eq!(text, "livevec 1\nj push 5\nj push -7\na 2 sum 0 2 18446744073709551614\nend\n");
    /// assert_eq!(Verdict::of(text.as_bytes())?, Verdict::Yes);
    /// # Ok(())
    /// # }
    /// ```
    pub fn transcript(&self, answers: &[Recorded]) -> Result<String, Refusal> {
        let mut flat = raw::roomy(answers.len())?;
        for it in answers {
            let (Ok(lo), Ok(hi)) = (u32::try_from(it.lo), u32::try_from(it.hi)) else {
                return Err(Refusal::OutOfRange { size: self.len() });
            };
            flat.push(calls::Recorded::new(it.edit, lo, hi, it.value));
        }
        let text = self.raw.transcript(&flat)?;
        // all of it is ASCII
        Ok(String::from_utf8(text).unwrap_or_default())
    }

    /// A vector with the edits of a front, made anew within limits: what follows has the numbers behind them. Its answers are audited, and not
    /// kept. It costs what an audit does.
    ///
    /// ```
    /// use livevec::{FrontVerdict, Limits, NotRestored, Vector};
    ///
    /// # fn main() -> Result<(), NotRestored> {
    /// let mut vector = Vector::restore(b"livevec 1\nj push 5\na 1 sum 0 1 5\nj push 6\na 2 su", Limits::GREATEST)?;
    /// assert_eq!((vector.edits(), vector.sum(..)), (2, Ok(11)));
    /// let bad = Vector::restore(b"livevec 1\nj pop\n", Limits::GREATEST);
    /// assert_eq!(bad.err(), Some(NotRestored::NoFront(FrontVerdict::No(2))));
    /// # Ok(())
    /// # }
    /// ```
    pub fn restore(text: &[u8], limits: Limits) -> Result<Vector, NotRestored> {
        restored(None, text, limits)
    }

    /// The same of one kind alone, as [`of_kind`](Vector::of_kind).
    pub fn restore_of(kind: Kind, text: &[u8], limits: Limits) -> Result<Vector, NotRestored> {
        restored(Some(kind), text, limits)
    }
}

fn restored(only: Option<Kind>, text: &[u8], limits: Limits) -> Result<Vector, NotRestored> {
    let made = raw::Vector::restored(only.map(|kind| kind as u32), limits.buckets(), limits.edits(), text).map_err(NotRestored::Refused)?;
    match made {
        Ok(raw) => Ok(Vector { raw, limits, table: None, only }),
        Err(told) => Err(match told.refusal() {
            Some(Refusal::NoFront) => NotRestored::NoFront(FrontVerdict::told(&told)),
            Some(refusal @ Refusal::TooLong) => NotRestored::Refused(refusal),
            Some(refusal) => NotRestored::Stopped { edits: told.edits, refusal },
            None => NotRestored::Refused(Refusal::NoMemory),
        }),
    }
}

/// The edit that C tells by numbers.
fn edit_of(flat: calls::FlatEdit) -> Edit {
    match flat.what {
        1 => Edit::Push(flat.value),
        2 => Edit::Pop,
        3 => Edit::Write { index: flat.index as usize, value: flat.value },
        4 => Edit::Reserve(flat.index as usize),
        5 => Edit::Swap { first: flat.index as usize, second: flat.second as usize },
        _ => Edit::Truncate(flat.index as usize),
    }
}

impl fmt::Display for NotRestored {
    fn fmt(&self, f: &mut fmt::Formatter<'_>) -> fmt::Result {
        match self {
            NotRestored::NoFront(FrontVerdict::No(line)) => write!(f, "no front of a transcript: line {line} is false"),
            NotRestored::NoFront(FrontVerdict::Bad(line)) => write!(f, "no front of a transcript: line {line} may not stand there"),
            NotRestored::NoFront(FrontVerdict::Front { .. }) => f.write_str("no front of a transcript"),
            NotRestored::Stopped { edits, refusal } => write!(f, "after {edits} edits: {refusal}"),
            NotRestored::Refused(refusal) => refusal.fmt(f),
        }
    }
}

impl std::error::Error for NotRestored {}
