"""Summaries that a vector computes in place, or whose jobs it hands out."""
from __future__ import annotations

from typing import Optional

from ._blocks import Batch, Subtree, Taken, _accept_blocks, _accept_subtree, _blocks, _subtree
from ._calls import _accept, _claim, _forget, _refresh, _vet
from ._elements import _Elements
from ._jobs import Became, Delivered, Job, Node, Outcome, _checked
from ._limits import _MOST_U32
from ._numbers import _as_u32
from ._refusals import _refuse


class _Claims(_Elements):
    """The part of `Vector` that computes summaries, so that reductions read less. No answer changes by it."""

    __slots__ = ()

    def refresh(self, jobs: int = _MOST_U32) -> int:
        """Computes at most so many summaries in place, and gives how many. Linear in how many they are: of eight elements or summaries each."""
        told = _refresh(self._at, _as_u32(jobs, "jobs"))
        if told.refusal:
            raise _refuse(told.refusal)
        return told.value

    def claim(self) -> Optional[Job]:
        """A job for the least node that wants one, or None. O(log n). Raises NoMemory."""
        job = Job()
        did = _claim(self._at, job._at)
        if did.refusal:
            raise _refuse(did.refusal)
        job.node, job.version = Node(did.level, did.number), did.version
        return job if did.found else None

    def vouches_for(self, outcome: Outcome) -> bool:
        """Whether `deliver` would take an outcome: yes for each of a job of this vector, however late. O(1)."""
        told = _vet(self._at, _checked(outcome)._at)
        if told.refusal:
            raise _refuse(told.refusal)
        return told.yes

    def deliver(self, outcome: Outcome) -> Delivered:
        """Delivers an outcome. It may be late or come twice. O(log n). Raises Stranger where it isn't of a job of this vector."""
        did = _accept(self._at, _checked(outcome)._at)
        if did.refusal:
            raise _refuse(did.refusal)
        return Delivered(Became(did.became), did.now)

    def copy_blocks(self, first: int = 0, limit: int = _MOST_U32) -> Optional[Batch]:
        """A job for each block that wants one, of at most `limit` from block `first` on; None where none wants one. Block n is of the elements from
        index 8 * n on. Nothing is claimed: threads that share the work ask for blocks apart. Linear in what is copied. Raises NoMemory, and
        Busy beside another call."""
        batch = Batch()
        did = _blocks(self._at, batch._at, _as_u32(first, "the block"), _as_u32(limit, "the count"))
        if did.refusal:
            raise _refuse(did.refusal)
        batch._jobs = did.value
        return batch if did.value else None

    def take_in(self, batch: Batch) -> Taken:
        """Takes in what a batch that was run gave, each where `vouches_for` would say yes, once. No answer changes by it. Linear in
        the batch. Raises Closed where it was not run, and Busy beside another call."""
        if not isinstance(batch, Batch):
            raise TypeError(f"a Batch is wanted, not a {type(batch).__name__}")
        did = _accept_blocks(self._at, batch._at)
        if did.refusal:
            raise _refuse(did.refusal)
        return Taken(did.installed, did.held, did.stale, did.strangers)

    def copy_subtree(self, number: int) -> Optional[Subtree]:
        """The job of a subtree, of the 4,096 elements from index 4096 * number on. None where these aren't all there, or where the first or the last
        of their blocks has its summary already: then `copy_blocks` does less. Nothing is claimed: threads that share the work ask for subtrees
        apart. Raises NoMemory, and Busy beside another call."""
        subtree = Subtree()
        subtree.number = _as_u32(number, "the subtree")
        did = _subtree(self._at, subtree._at, subtree.number)
        if did.refusal:
            raise _refuse(did.refusal)
        return subtree if did.value else None

    def take_subtree(self, subtree: Subtree) -> bool:
        """Keeps all summaries of a subtree that was run, where its elements stand here still, and tells whether it did; else nothing has changed.
        What was taken in once isn't taken again. No answer changes by it. Raises Closed where the subtree was not run, and Busy beside another
        call."""
        if not isinstance(subtree, Subtree):
            raise TypeError(f"a Subtree is wanted, not a {type(subtree).__name__}")
        did = _accept_subtree(self._at, subtree._at)
        if did.refusal:
            raise _refuse(did.refusal)
        return did.value > 0

    def forget_claims(self) -> None:
        """Makes every claim void, so that their nodes are handed out again. Jobs that are out stay good."""
        refusal = _forget(self._at)
        if refusal:
            raise _refuse(refusal)
