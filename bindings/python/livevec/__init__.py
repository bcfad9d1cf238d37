"""livevec: a growable vector of 64-bit numbers for programs that keep asking it about ranges.

    >>> from livevec import Vector
    >>> with Vector([300, 120, 500, 80]) as prices:
    ...     prices[0] = 180
    ...     prices.sum(), prices.least(0, 2), prices.edits
    (880, 120, 5)

The library is written and proved in Rattle. This module calls its C form, `liblivevec.so`, by ctypes. The library's functions are proved; the
module over them is tested.

The shared object is the file that LIVEVEC_LIB names. Else `liblivevec.so` is looked for in this order: in the folder that LIVEVEC_LIB_DIR names; in
this package's folder, then in the one that contains it; in the folder `build` of the repository that it is in; in the folders of LD_LIBRARY_PATH; in
`lib` of the interpreter's prefix, which is that of a virtual environment; in `lib` of the prefix below which the package is installed; in `lib` of
the user's base, which is $HOME/.local as a rule; where the system's loader looks; where `pkg-config` says; in /usr/local/lib.

Threads. A `Vector`'s calls into C keep the interpreter's lock, so it may be used by several threads, one call at a time. What takes more than
one call (`vector[-1]`, a loop over the elements, `edits` after a push) needs a lock of your own if another thread edits meanwhile.
`value_many`, `rolling`, `write_many` and scans by one kind release the interpreter's lock, so that other threads run meanwhile. Of such a call and
an edit of the same vector meanwhile, the one that comes second raises Busy.
A `SharedVector`, a `SharedSeries` and `SharedSamples` have such a lock, with subscribers; that of a vector with workers too.
A `Board` is for threads: each has a `Seat`, whose calls into C release the interpreter's lock and wait for no other thread.

Machines. A `Summary` is what a list comes to, as bytes that travel; `livevec_mpi`, a module beside this one, joins those of MPI's ranks.
"""
from __future__ import annotations

from ._blocks import Batch, Subtree, Taken
from ._board import Board, Finished, Refreshed, Seat, Told
from ._by_index import LongReduced
from ._jobs import Became, Delivered, Job, Node, Outcome
from ._kinds import Kind
from ._library import library_version
from ._limits import MOST_BOARD_BUCKETS, MOST_BUCKETS, MOST_EDITS, MOST_QUERIES, MOST_SEATS, SUMMARY_BYTES
from ._queries import Answered, Note, Queries
from ._refusals import (
    BadKind, BadLimits, BadName, BadRange, BadTable, Busy, Closed, Contended, Damaged, Earlier, Empty, Full, NameTaken, NoFront, NoMemory, NoSeat,
    NoSuchName, NotInOrder, NotKept, NotSaved, OtherTable, OtherVersion, OutOfRange, Outrun, Overtaken, Refusal, SeatsOut, ShortBuffer, Stranger,
    TooLarge, TooLong, TooMany, TooWide, Worn,
)
from ._samples import Sample, Samples, Window
from ._scans import Column, Scan
from ._series import Series
from ._series_lent import Lent
from ._shared import Receipt, SharedVector
from ._shared_series import SharedSamples, SharedSeries
from ._subscribers import Subscriber
from ._summary import Summary
from ._transcripts import JournalEdit, Recorded, Verdict, audit, audit_front, journal, restore, transcript
from ._values import BestRun, Placed, Reduced, Values
from ._vector import Vector, _remade

__all__ = [
    "Vector", "Job", "Outcome", "Batch", "Taken", "Subtree", "Scan", "Column", "Summary", "Values", "Reduced", "Delivered", "Became", "Node", "Placed", "BestRun",
    "Board", "Seat", "Kind", "Told", "Refreshed", "Finished",
    "Queries", "Note", "Answered",
    "SharedVector", "SharedSeries", "SharedSamples", "Subscriber", "Receipt",
    "Refusal", "Worn", "Empty", "OutOfRange", "TooLarge", "Full", "NoMemory", "BadRange", "BadLimits", "BadTable", "Stranger", "Closed",
    "ShortBuffer", "TooWide", "Outrun", "Contended", "Overtaken", "NoSeat", "SeatsOut", "Busy", "OtherVersion", "Damaged", "OtherTable", "TooLong",
    "Series", "LongReduced", "Lent", "NotKept", "Samples", "Sample", "Window", "Earlier", "NotSaved",
    "BadKind", "NameTaken", "NoSuchName", "TooMany", "BadName",
    "library_version", "journal", "transcript", "audit", "audit_front", "restore", "JournalEdit", "Recorded", "Verdict", "NotInOrder", "NoFront",
    "MOST_BUCKETS", "MOST_EDITS", "MOST_BOARD_BUCKETS", "MOST_SEATS", "SUMMARY_BYTES", "MOST_QUERIES",
]

__version__ = "0.3.0"

# each has the name by which programs have it: so tracebacks show it, and so pickles find it again
for _name in (*__all__, "_remade"):
    if hasattr(globals()[_name], "__module__"):
        globals()[_name].__module__ = __name__
