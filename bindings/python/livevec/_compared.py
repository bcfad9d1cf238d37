"""How a vector, a series, samples and what threads share of these are compared: by elements, as lists are."""
from __future__ import annotations

import operator
from array import array
from typing import Optional


class _Compared:
    """The part of them all that is compared."""

    __slots__ = ()
    # samples are compared by their times too
    _has_times = False

    def __eq__(self, other: object) -> bool:
        """Whether the elements are the same, in order: as those of another vector or series, of what threads share of one, of a list, a tuple, a range or
        an `array.array`. Indices, edits, limits and kinds don't count. Samples are equal to samples of the same values and times, and to nothing
        else. Since elements may change, there is no hash.

        The elements of each vector or series are copied once, and nothing else is. What threads share is copied under its own lock, one after the
        other, so that no thread waits for both. Linear; O(1) if the lengths differ. An element of a list that isn't this number makes it False, and
        so does one that can't be compared (TypeError). With an array of numpy's the answer is numpy's, element by element, as it is with a list.
        Raises Closed, Busy."""
        if self is other:
            return True
        if isinstance(other, _Compared):
            return self._has_times == other._has_times and len(self) == len(other) and self._columns() == other._columns()
        if self._has_times or not isinstance(other, (list, tuple, range, array)):
            return NotImplemented
        # of a range too long for `len` there are as many as settle it
        row = other[: len(self) + 1] if isinstance(other, range) else other
        if len(self) != len(row):
            return False
        elements = self.to_array()
        try:
            return elements == row if isinstance(row, array) else len(elements) == len(row) and all(map(operator.eq, elements, row))
        except TypeError:
            return NotImplemented

    def _columns(self) -> tuple[array[int], ...]:
        """What is compared of two, all after one edit, each a copy."""
        return (self.to_array(),)

    # By what each has, the next two.

    def __len__(self) -> int:
        raise NotImplementedError

    def to_array(self, lo: Optional[int] = None, hi: Optional[int] = None) -> array[int]:
        raise NotImplementedError
