"""Jobs and outcomes: summaries that are computed outside a vector, and what becomes of them there."""
from __future__ import annotations

import enum
from typing import NamedTuple

from ._calls import _run
from ._handle import _Handle
from ._refusals import Closed, _refuse
from ._structures import _JobSlot, _OutcomeSlot


class Node(NamedTuple):
    """The node of this level and number has the 8**level indices from number * 8**level."""

    level: int
    number: int


class Became(enum.Enum):
    """What becomes of an outcome. None of these changes an answer."""

    INSTALLED = 1
    HELD = 2
    STALE = 3


class Delivered(NamedTuple):
    """What became of an outcome; where it is stale, `now` is the edit that touched its node last, else 0."""

    became: Became
    now: int


class Job(_Handle):
    """A node's summary that is still to be computed. It holds nothing of its vector, so any thread may run it."""

    __slots__ = ("node", "version")
    _made_of = _JobSlot
    node: Node
    version: int

    def run(self) -> Outcome:
        """Computes it, from eight elements or summaries: O(1). It can be run once: then it is Closed, as is one that no vector filled in."""
        if not hasattr(self, "node"):
            raise _refuse(Closed.number)
        outcome = Outcome(self.node, self.version)
        refusal = _run(self._at, outcome._at)
        if refusal:
            raise _refuse(refusal)
        return outcome

    def __repr__(self) -> str:
        if not hasattr(self, "node"):
            return "<livevec.Job of nothing>"
        return f"<livevec.Job of {self.node} at version {self.version}>"


class Outcome(_Handle):
    """What a job came to. It may be delivered any number of times, at any time."""

    __slots__ = ("node", "version")
    _made_of = _OutcomeSlot

    def __init__(self, node: Node, version: int) -> None:
        self.node, self.version = node, version

    def __repr__(self) -> str:
        return f"<livevec.Outcome of {self.node} at version {self.version}>"


def _checked(outcome: Outcome) -> Outcome:
    if not isinstance(outcome, Outcome):
        raise TypeError(f"an Outcome is wanted, not a {type(outcome).__name__}")
    return outcome
