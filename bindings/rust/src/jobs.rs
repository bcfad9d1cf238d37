//! Summaries that are computed in place, or as jobs that any thread may run.

use std::fmt;

use crate::{Accepted, Node, Refusal, Vector, raw};

impl Vector {
    /// Computes at most so many summaries in place, the least node first, and tells how many. No answer changes by it. Linear in how
    /// many they are: of eight elements or summaries each.
    pub fn refresh(&mut self, jobs: u32) -> u32 {
        self.raw.refresh(jobs).map_or(0, |count| count.value)
    }

    /// A job for the least node that wants one, if there is one. O(log n). Refused with `NoMemory` alone. See [`Job`].
    pub fn claim(&mut self) -> Result<Option<Job>, Refusal> {
        let claimed = self.raw.claim()?;
        Ok(claimed.map(|(told, raw)| Job { raw, node: Node { level: told.level, number: told.number }, version: told.version }))
    }

    /// Whether [`deliver`](Vector::deliver) would take an outcome: yes for each of a job of this vector, however late.
    /// O(1).
    pub fn vouches_for(&self, outcome: &Outcome) -> bool {
        self.raw.vouches_for(&outcome.raw)
    }

    /// Delivers an outcome. It may be late or come twice: no answer changes by that. O(log n). Refused with `Stranger` where it is not one of this
    /// vector's jobs, as [`vouches_for`](Vector::vouches_for) says.
    pub fn deliver(&mut self, outcome: &Outcome) -> Result<Accepted, Refusal> {
        let did = self.raw.accept(&outcome.raw)?;
        Ok(match did.became {
            1 => Accepted::Installed,
            2 => Accepted::Held,
            _ => Accepted::Stale { now: did.now },
        })
    }

    /// Makes every claim void, so that their nodes are handed out again. Jobs that are out stay good.
    pub fn forget_claims(&mut self) {
        self.raw.forget();
    }
}

/// A node's summary that is still to be computed. It holds nothing of its vector, so any thread may [`run`](Job::run) it.
///
/// ```
/// use std::thread;
/// use livevec::{Accepted, Vector};
///
/// # fn main() -> Result<(), livevec::Refusal> {
/// let mut vector = Vector::new()?;
/// vector.try_extend(1..=8)?;
/// let job = vector.claim()?.expect("the first block wants a summary");
/// let worker = thread::spawn(move || job.run());
/// let outcome = worker.join().unwrap();
/// assert_eq!(vector.deliver(&outcome)?, Accepted::Installed);
/// assert_eq!(vector.deliver(&outcome)?, Accepted::Held);
/// vector.write(3, 9)?;
/// assert_eq!(vector.deliver(&outcome)?, Accepted::Stale { now: 9 });
/// assert_eq!(vector.sum(..)?, 41);
/// # Ok(())
/// # }
/// ```
///
/// A job that is dropped leaves its node claimed until an edit touches it or [`Vector::forget_claims`] is called.
#[must_use = "a claimed node waits for its outcome"]
pub struct Job {
    raw: raw::Job,
    node: Node,
    version: u32,
}

impl Job {
    /// Whose summary it computes.
    pub fn node(&self) -> Node {
        self.node
    }

    /// The edit that touched the node last when it was claimed.
    pub fn version(&self) -> u32 {
        self.version
    }

    /// Computes it, from eight elements or summaries: O(1). Takes no memory.
    pub fn run(self) -> Outcome {
        Outcome { raw: self.raw.run(), node: self.node, version: self.version }
    }
}

impl fmt::Debug for Job {
    fn fmt(&self, f: &mut fmt::Formatter<'_>) -> fmt::Result {
        f.debug_struct("Job").field("node", &self.node).field("version", &self.version).finish_non_exhaustive()
    }
}

/// What a [`Job`] came to. It may be delivered any number of times, at any time.
#[must_use = "only what is delivered saves reads"]
pub struct Outcome {
    raw: raw::Outcome,
    node: Node,
    version: u32,
}

impl Outcome {
    /// Whose summary it has.
    pub fn node(&self) -> Node {
        self.node
    }

    /// The edit that touched the node last when it was claimed.
    pub fn version(&self) -> u32 {
        self.version
    }
}

impl fmt::Debug for Outcome {
    fn fmt(&self, f: &mut fmt::Formatter<'_>) -> fmt::Result {
        f.debug_struct("Outcome").field("node", &self.node).field("version", &self.version).finish_non_exhaustive()
    }
}
