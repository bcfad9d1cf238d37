//! Jobs of many blocks at once.

use std::fmt;

use crate::{Refusal, Vector, raw};

/// What became of the outcomes of a batch: how many of them each.
#[derive(Debug, Clone, Copy, PartialEq, Eq, Hash, Default)]
pub struct Taken {
    /// Their summaries are kept from now on.
    pub installed: usize,
    /// They were kept already.
    pub held: usize,
    /// Edits overtook them.
    pub stale: usize,
    /// The vector can't vouch for them: they are another vector's, as a rule.
    pub strangers: usize,
}

/// Jobs of blocks, of 8 elements side by side each. It holds nothing of its vector, so any thread may [`run`](Batch::run) it.
///
/// ```
/// # fn main() -> Result<(), livevec::Refusal> {
/// let mut vector = livevec::Vector::try_from([7; 100])?;
/// let batch = vector.copy_blocks(0, 1000)?.expect("twelve blocks are whole, and want a job");
/// let outcomes = std::thread::spawn(move || batch.run()).join().unwrap()?;
/// assert_eq!(vector.take_in(outcomes)?.installed, 12);
/// # Ok(())
/// # }
/// ```
pub struct Batch {
    raw: raw::blocks::Batch,
    jobs: u32,
}

impl Batch {
    /// How many jobs there are: one at least. O(1).
    #[allow(clippy::len_without_is_empty)]
    pub fn len(&self) -> usize {
        self.jobs as usize
    }

    /// Computes all. Linear. Refused with `NoMemory`; the jobs are let go then, and since none is claimed, the vector has them still.
    pub fn run(mut self) -> Result<BatchOutcome, Refusal> {
        self.raw.run()?;
        Ok(BatchOutcome { raw: self.raw, jobs: self.jobs })
    }
}

impl fmt::Debug for Batch {
    fn fmt(&self, f: &mut fmt::Formatter<'_>) -> fmt::Result {
        f.debug_struct("Batch").field("len", &self.jobs).finish_non_exhaustive()
    }
}

/// What a batch gave, to be taken in once by [`Vector::take_in`].
pub struct BatchOutcome {
    raw: raw::blocks::Batch,
    jobs: u32,
}

impl fmt::Debug for BatchOutcome {
    fn fmt(&self, f: &mut fmt::Formatter<'_>) -> fmt::Result {
        f.debug_struct("BatchOutcome").field("len", &self.jobs).finish_non_exhaustive()
    }
}

impl Vector {
    /// A job for each block that wants one, of at most `limit` from block `first` on; none where none wants one. Block n is of the elements from
    /// index 8 * n on. Nothing is claimed: threads that share the work ask for blocks apart. Linear in what is copied. Refused with `NoMemory` alone.
    pub fn copy_blocks(&self, first: u32, limit: u32) -> Result<Option<Batch>, Refusal> {
        let copied = self.raw.copy_blocks(first, limit)?;
        Ok(copied.map(|(jobs, raw)| Batch { raw, jobs }))
    }

    /// Takes in what a batch gave, each where [`vouches_for`](Vector::vouches_for) would say yes, and tells what became of them. No answer
    /// changes by it. Linear in the batch. Takes no memory, and is refused by a vector never.
    pub fn take_in(&mut self, outcomes: BatchOutcome) -> Result<Taken, Refusal> {
        let did = self.raw.accept_blocks(outcomes.raw)?;
        let [installed, held, stale, strangers] = [did.installed, did.held, did.stale, did.strangers].map(|many| many as usize);
        Ok(Taken { installed, held, stale, strangers })
    }
}
