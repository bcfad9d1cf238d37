"""Jobs of many blocks at once and of subtrees: computed outside a vector, and what becomes of them there."""
from __future__ import annotations

import ctypes
from typing import TYPE_CHECKING, NamedTuple

from ._calls import _slot
from ._handle import _Handle
from ._library import _call, _released, _u32
from ._records import _laid_out
from ._refusals import _refuse
from ._structures import _Count, _Slot

if TYPE_CHECKING:
    from ._records import u32, u64


class _BatchSlot(_Slot):
    sort = 3


@_laid_out
class _Taken(ctypes.Structure):
    refusal: u32
    installed: u64
    held: u64
    stale: u64
    strangers: u64


# They take long enough to release the interpreter's lock.
_batch = ctypes.POINTER(_BatchSlot)
_blocks = _call("livevec_blocks", _Count, _slot, _batch, _u32, _u32, by=_released)
_run_blocks = _call("livevec_run_blocks", _u32, _batch, by=_released)
_accept_blocks = _call("livevec_accept_blocks", _Taken, _slot, _batch, by=_released)
_subtree = _call("livevec_subtree", _Count, _slot, _batch, _u32, by=_released)
_accept_subtree = _call("livevec_accept_subtree", _Count, _slot, _batch, by=_released)


class Taken(NamedTuple):
    """What became of the outcomes of a batch: how many of them each."""

    installed: int
    """Their summaries are kept from now on."""
    held: int
    """They were kept already."""
    stale: int
    """Edits overtook them."""
    strangers: int
    """The vector can't vouch for them: they are another vector's, as a rule."""


class _Portion(_Handle):
    """What a slot of a batch has: jobs, and what they gave once they are run."""

    __slots__ = ()
    _made_of = _BatchSlot

    def run(self) -> None:
        """Computes all, once; the interpreter's lock is released. Raises NoMemory, where the jobs stay, Closed where it was run before or has no
        jobs, and Busy beside another thread's call at it."""
        refusal = _run_blocks(self._at)
        if refusal:
            raise _refuse(refusal)


class Batch(_Portion):
    """Jobs of blocks, of 8 elements side by side each, and what they gave once they are run. It holds nothing of its vector, so any thread may run it.

        >>> from livevec import Vector
        >>> vector = Vector(range(100))
        >>> batch = vector.copy_blocks()
        >>> len(batch)
        12
        >>> batch.run()
        >>> vector.take_in(batch)
        Taken(installed=12, held=0, stale=0, strangers=0)
    """

    __slots__ = ("_jobs",)
    _jobs: int

    def __len__(self) -> int:
        """How many jobs there are."""
        return getattr(self, "_jobs", 0)

    def __repr__(self) -> str:
        return f"<livevec.Batch of {len(self)} blocks>"


class Subtree(_Portion):
    """The job of a subtree: of all 585 summaries of 4,096 elements side by side, which are those of its 512 blocks and of the nodes above them up to
    the one of all. Once it is run it has what they came to. It holds nothing of its vector, so any thread may run it. It has some 150 KB until it is
    let go.

        >>> from livevec import Vector
        >>> vector = Vector(range(5000))
        >>> subtree = vector.copy_subtree(0)
        >>> subtree.run()
        >>> vector.take_subtree(subtree)
        True
        >>> vector.reduce(0, 4096).summaries
        1
    """

    __slots__ = ("number",)
    number: int
    """Which subtree it is: that of the elements from index 4096 * number on."""

    def __repr__(self) -> str:
        return f"<livevec.Subtree {self.number}>" if hasattr(self, "number") else "<livevec.Subtree of nothing>"
