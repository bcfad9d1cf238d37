//! How the workers of a shared vector go over many blocks.

use crate::subtrees::BLOCKS;
use crate::{Batch, BatchOutcome, Node, Refusal, Subtree, SubtreeOutcome, Vector};

/// How many blocks a batch is of at most, so that the lock is held for a fifth of a millisecond at most.
const AT_ONCE: u32 = 1024;

/// Where fewer blocks of a range want a job, claims find them sooner.
const FEW: u32 = 64;

/// How many summaries above blocks are computed in place at once.
const ABOVE_AT_ONCE: u32 = 256;

/// What a worker takes at once of many blocks.
pub(crate) enum Portion {
    Batch(Batch),
    Subtree(Subtree),
}

/// What a portion gave.
pub(crate) enum Gave {
    Batch(BatchOutcome),
    Subtree(SubtreeOutcome),
}

impl Portion {
    /// Computes it. Refused with `NoMemory`, where it is lost.
    pub(crate) fn run(self) -> Result<Gave, Refusal> {
        Ok(match self {
            Portion::Batch(batch) => Gave::Batch(batch.run()?),
            Portion::Subtree(subtree) => Gave::Subtree(subtree.run()?),
        })
    }

    /// How many blocks are to be computed.
    fn blocks(&self) -> u32 {
        match self {
            Portion::Batch(batch) => batch.len() as u32,
            Portion::Subtree(_) => BLOCKS,
        }
    }
}

/// Where the workers are that share many blocks.
#[derive(Default)]
pub(crate) struct Sweep {
    /// From which block on nobody has any yet.
    next: u32,
    is_under_way: bool,
    /// How many portions are in hand.
    out: usize,
    /// How many summaries above may be computed in place, once all are back.
    above: u32,
}

impl Sweep {
    /// Whether blocks are to be taken.
    pub(crate) fn is_under_way(&self) -> bool {
        self.is_under_way
    }

    /// Whether neither portions are out nor summaries above them are to be computed.
    pub(crate) fn is_done(&self) -> bool {
        self.out == 0 && self.above == 0
    }

    /// Begins where jobs, of which the first and the last are told, lie near together.
    pub(crate) fn begin(&mut self, first: Node, last: Node) {
        if last.level == 1 && last.number - first.number < 4 * FEW {
            self.next = first.number;
            self.is_under_way = true;
        }
    }

    /// A portion of the next blocks, if any of them wants a job: a subtree where one begins and is worth it, for it leaves fewer summaries above to
    /// be computed under the lock; else a batch.
    pub(crate) fn take(&mut self, vector: &Vector) -> Result<Option<Portion>, Refusal> {
        let subtree = if self.next.is_multiple_of(BLOCKS) { vector.copy_subtree(self.next / BLOCKS)? } else { None };
        let (portion, end) = match subtree {
            Some(subtree) => (Some(Portion::Subtree(subtree)), self.next + BLOCKS),
            None => {
                let end = self.end_of_batch((vector.len() / 8) as u32);
                (vector.copy_blocks(self.next, end - self.next)?.map(Portion::Batch), end)
            }
        };
        self.next = end;
        self.is_under_way = portion.as_ref().is_some_and(|it| it.blocks() >= FEW);
        self.out += usize::from(portion.is_some());
        Ok(portion)
    }

    /// Up to which block a batch goes, of `all` that there are. A subtree begins there, if there are so many.
    fn end_of_batch(&self, all: u32) -> u32 {
        all.min(self.next / BLOCKS * BLOCKS + AT_ONCE).max(self.next)
    }

    /// A portion was lost by want of memory: what was claimed of it is handed out again.
    pub(crate) fn lost(&mut self, vector: &mut Vector) {
        vector.forget_claims();
        self.back(0);
    }

    /// A batch is back.
    pub(crate) fn take_batch_in(&mut self, vector: &mut Vector, outcomes: BatchOutcome) {
        self.back(vector.take_in(outcomes).map_or(0, |it| it.installed));
    }

    /// A subtree is back. Where a write came between, gives its blocks in its place, which count as in hand as it did: so a sweep gets on beside a
    /// writer.
    pub(crate) fn take_subtree_in(&mut self, vector: &mut Vector, outcome: &mut SubtreeOutcome) -> Option<Portion> {
        let is_taken = vector.take_subtree(outcome).unwrap_or(false);
        let instead = if is_taken { Ok(None) } else { vector.copy_blocks(BLOCKS * outcome.number(), BLOCKS) };
        match instead {
            Ok(Some(batch)) => return Some(Portion::Batch(batch)),
            Ok(None) => self.back(usize::from(is_taken)),
            Err(_) => self.lost(vector),
        }
        None
    }

    /// A portion is back, and so many nodes are new that want one above them: its blocks, or the top of a subtree. Each has a seventh of a node above
    /// it.
    fn back(&mut self, installed: usize) {
        self.out -= 1;
        self.above += installed as u32 / 7 + 1;
    }

    /// Computes some summaries above in place, where it is time for that; tells whether it did.
    pub(crate) fn rise(&mut self, vector: &mut Vector) -> bool {
        let wanted = self.above.min(ABOVE_AT_ONCE);
        if self.out > 0 || wanted == 0 {
            return false;
        }
        self.above = if vector.refresh(wanted) < wanted { 0 } else { self.above - wanted };
        true
    }
}
