"""The table of an automaton as C takes it."""
from __future__ import annotations

from typing import Sequence

from ._numbers import _whole
from ._refusals import BadTable, _refuse
from ._structures import _Table


def _table_of(table: Sequence[Sequence[int]]) -> _Table:
    rows = [[_whole(state, f"table[{at}][{on}]") for on, state in enumerate(row)] for at, row in enumerate(table)]
    if len(rows) != 8 or any(len(row) != 4 for row in rows):
        raise ValueError("an automaton's table has eight rows of four states")
    made = _Table()
    for at, state in enumerate(state for row in rows for state in row):
        if not 0 <= state <= 7:
            raise _refuse(BadTable.number, given=f"table[{at // 4}][{at % 4}] = {state}")
        made.next[at] = state
    return made
