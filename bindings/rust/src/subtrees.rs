//! All summaries of 4,096 elements at once.

use std::fmt;

use crate::{Refusal, Vector, raw};

/// How many blocks a subtree has.
pub(crate) const BLOCKS: u32 = 512;

/// The job of a subtree: of all 585 summaries of 4,096 elements side by side, which are those of its 512 blocks and of the nodes above them up to
/// the one of all. It holds nothing of its vector, so any thread may [`run`](Subtree::run) it. It has 32 KB, copied from there.
///
/// ```
/// # fn main() -> Result<(), livevec::Refusal> {
/// let mut vector = livevec::Vector::try_from([7; 5000])?;
/// let subtree = vector.copy_subtree(0)?.expect("its elements are there, and want summaries");
/// let mut outcome = std::thread::spawn(move || subtree.run()).join().unwrap()?;
/// assert!(vector.take_subtree(&mut outcome)?);
/// assert_eq!(vector.reduce(..4096)?.summaries, 1);
/// assert!(vector.copy_subtree(0)?.is_none());
/// # Ok(())
/// # }
/// ```
pub struct Subtree {
    raw: raw::blocks::Batch,
    number: u32,
}

impl Subtree {
    /// Which subtree it is: that of the elements from index 4096 * number on.
    pub fn number(&self) -> u32 {
        self.number
    }

    /// Computes all, of 4,096 elements. Refused with `NoMemory`; the job is let go then, and since nothing is claimed by it, the vector has the work still.
    pub fn run(mut self) -> Result<SubtreeOutcome, Refusal> {
        self.raw.run()?;
        Ok(SubtreeOutcome { raw: self.raw, number: self.number })
    }
}

impl fmt::Debug for Subtree {
    fn fmt(&self, f: &mut fmt::Formatter<'_>) -> fmt::Result {
        f.debug_struct("Subtree").field("number", &self.number).finish_non_exhaustive()
    }
}

/// What a subtree gave, for [`Vector::take_subtree`]. It has some 150 KB until it is dropped, also where it was taken in: that is best done where no
/// lock is held.
#[must_use = "only what is taken in saves reads"]
pub struct SubtreeOutcome {
    raw: raw::blocks::Batch,
    number: u32,
}

impl SubtreeOutcome {
    /// Which subtree it is of.
    pub fn number(&self) -> u32 {
        self.number
    }
}

impl fmt::Debug for SubtreeOutcome {
    fn fmt(&self, f: &mut fmt::Formatter<'_>) -> fmt::Result {
        f.debug_struct("SubtreeOutcome").field("number", &self.number).finish_non_exhaustive()
    }
}

impl Vector {
    /// The job of a subtree, of the 4,096 elements from index 4096 * number on. None where these aren't all there, or where the first or the last of
    /// their blocks has its summary already: then [`copy_blocks`](Vector::copy_blocks) does less. Nothing is claimed: threads that share the work ask
    /// for subtrees apart. Refused with `NoMemory` alone.
    pub fn copy_subtree(&self, number: u32) -> Result<Option<Subtree>, Refusal> {
        let copied = self.raw.copy_subtree(number)?;
        Ok(copied.map(|raw| Subtree { raw, number }))
    }

    /// Keeps all summaries that a subtree gave, where its elements stand here still, and tells whether it did; else nothing has changed. What was
    /// taken in once isn't taken again. No answer changes by it. Takes no memory, and is refused by a vector never.
    pub fn take_subtree(&mut self, outcome: &mut SubtreeOutcome) -> Result<bool, Refusal> {
        Ok(self.raw.accept_subtree(&mut outcome.raw)? > 0)
    }
}
