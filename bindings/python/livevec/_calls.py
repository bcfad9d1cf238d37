"""The calls of include/livevec.h at vectors, jobs, summaries and boards."""
from __future__ import annotations

import ctypes
from typing import Any

from ._library import _call, _flag, _i64, _lib, _pointer, _released, _size, _u32
from ._structures import (
    _Accepted, _BoardSlot, _Claimed, _Count, _Edited, _Element, _Found, _JobSlot, _Many, _Opened, _OutcomeSlot, _Pushed, _Reduced, _Renewed,
    _Scanned, _SeatSlot, _Summarised, _Summed, _Table, _VectorSlot, _Verdict, _Vetted,
)

# its type is told, since other modules use it
_slot: Any
_slot, _job, _outcome = ctypes.POINTER(_VectorSlot), ctypes.POINTER(_JobSlot), ctypes.POINTER(_OutcomeSlot)
_new = _call("livevec_new", _u32, _slot, _u32, _u32)
_new_of = _call("livevec_new_of", _u32, _slot, _u32, _u32, _u32)
_new_with_table = _call("livevec_new_with_table", _u32, _slot, _u32, _u32, ctypes.POINTER(_Table))
_make_edit = _call("livevec_make_edit", _Edited, _slot, _u32, _u32, _u32, _i64)
_judge_edit = _call("livevec_judge_edit", _Verdict, _slot, _u32, _u32, _u32, _i64)
_push_many = _call("livevec_push_many", _Pushed, _slot, _pointer, _size)
_write_many = _call("livevec_write_many", _Many, _slot, _pointer, _pointer, _size, by=_released)
_push_saved = _call("livevec_push_saved", _Pushed, _slot, _pointer, _size, by=_released)
_get = _call("livevec_get", _Element, _slot, _u32)
_read = _call("livevec_read", _Scanned, _slot, _u32, _u32, _pointer, _size)
_save = _call("livevec_save", _Scanned, _slot, ctypes.c_uint64, _pointer, _size, by=_released)
_saved_length = _call("livevec_saved_length", _Count, _slot)
_count_size = _call("livevec_size", _Count, _slot)
_count_capacity = _call("livevec_capacity", _Count, _slot)
_count_edits = _call("livevec_edits", _Count, _slot)
_reduce = _call("livevec_reduce", _Reduced, _slot, _u32, _u32)
_ask = _call("livevec_ask", _Reduced, _slot, _u32, _u32)
_value = _call("livevec_value", _Reduced, _slot, _u32, _u32, _u32)
_exact_sum = _call("livevec_exact_sum", _Summed, _slot, _u32, _u32)
_value_many = _call("livevec_value_many", _Many, _slot, _u32, _pointer, _pointer, _size, by=_released)
_find = _call("livevec_find", _Found, _slot, _u32, _u32, _u32, _i64)
# scans by one kind write columns, and take long enough to release the interpreter's lock
_scan, _scan_by = (_call("livevec_scan", _Scanned, _slot, _u32, _flag, _u32, _u32, _pointer, _size, by=lib) for lib in (_lib, _released))
# a summary's bytes are read during the call alone
_sealed = ctypes.c_char_p
_summary_empty = _call("livevec_summary_empty", _Summarised)
_summary_empty_with_table = _call("livevec_summary_empty_with_table", _Summarised, ctypes.POINTER(_Table))
_summary_of = _call("livevec_summary_of", _Summarised, _slot, _u32, _u32)
_summary_extend = _call("livevec_summary_extend", _Summarised, _sealed, _pointer, _size)
_summary_join = _call("livevec_summary_join", _Summarised, _sealed, _sealed)
_summary_values = _call("livevec_summary_values", _Opened, _sealed)
_refresh = _call("livevec_refresh", _Count, _slot, _u32)
_claim = _call("livevec_claim", _Claimed, _slot, _job)
_run = _call("livevec_run", _u32, _job, _outcome)
_vet = _call("livevec_vet", _Vetted, _slot, _outcome)
_accept = _call("livevec_accept", _Accepted, _slot, _outcome)
_forget = _call("livevec_forget", _u32, _slot)
_board, _seat = ctypes.POINTER(_BoardSlot), ctypes.POINTER(_SeatSlot)
_board_new = _call("livevec_board_new", _u32, _board, _u32, _u32, _u32, _u32)
_board_sit = _call("livevec_board_sit", _u32, _board, _seat)
_board_take_back = _call("livevec_board_take_back", _u32, _board, _seat)
_board_close = _call("livevec_board_close", _Count, _board)
_closed_read = _call("livevec_closed_read", _u32, _board, _pointer, _size, ctypes.POINTER(_u32))
_seat_push = _call("livevec_seat_push", _Edited, _seat, _i64, _u32, by=_released)
_seat_pop = _call("livevec_seat_pop", _Edited, _seat, _u32, by=_released)
_seat_write = _call("livevec_seat_write", _Edited, _seat, _u32, _i64, _u32, by=_released)
_seat_get = _call("livevec_seat_get", _Element, _seat, _u32, by=_released)
_seat_size = _call("livevec_seat_size", _Count, _seat, by=_released)
_seat_reduce = _call("livevec_seat_reduce", _Reduced, _seat, _u32, _u32, by=_released)
_seat_refresh = _call("livevec_seat_refresh", _Renewed, _seat, _u32, by=_released)
