"""When samples were taken, as a stream says it: milliseconds since the start of 1970."""
from __future__ import annotations

import datetime
import re
from decimal import Decimal as Exact
from typing import Optional

from .numbers import EXACT, Decimal

FIELDS = ("time", "timestamp")
"""The fields of a JSON object, or columns of CSV, that are taken for the time of a line where no other one is said."""

NO_TIME = -(1 << 63)
"""What stands for the time of a sample that came without one."""

_NUMBER = re.compile(r"[0-9]{9,19}(?:\.[0-9]{1,20})?\Z", re.ASCII)
_ISO = re.compile(r"(\d{4})-(\d\d)-(\d\d)(?:[T ](\d\d):(\d\d)(?::(\d\d)(?:[.,](\d{1,9}))?)?)? ?(?:(Z)|([+-])(\d\d):?(\d\d))?\Z", re.ASCII)
# 1973 and 2100 in seconds: between them lie no milliseconds, microseconds or nanoseconds of these years
_FROM, _UP_TO = 10**8, 4_102_444_800
_UNITS = (1, 1000, 1_000_000, 1_000_000_000)


def time_of(value: object) -> Optional[int]:
    """The time that a value of a stream says, or None where it says none.

    It is a number of seconds, milliseconds, microseconds or nanoseconds since 1970, of a moment from 1973 up to 2100, or a date with or without a
    time of day as ISO 8601 has it. One without a zone is of the zone of this machine."""
    if type(value) is int:
        return _counted(Exact(value))
    if not isinstance(value, str):
        return None
    text = value.strip()
    if _NUMBER.match(text):
        return _counted(Exact(text))
    found = None if isinstance(value, Decimal) else _ISO.match(text)
    return _dated(found) if found else None


def _counted(number: Exact) -> Optional[int]:
    for unit in _UNITS:
        if _FROM * unit <= number < _UP_TO * unit:
            return int(EXACT.multiply(number, Exact(1000))) // unit
    return None


def _dated(found: re.Match[str]) -> Optional[int]:
    year, month, day, hour, minute, second, part, utc, sign, hours, minutes = found.groups()
    zone = datetime.timezone.utc if utc else None
    try:
        if sign:
            zone = datetime.timezone((-1 if sign == "-" else 1) * datetime.timedelta(hours=int(hours), minutes=int(minutes)))
        moment = datetime.datetime(int(year), int(month), int(day), int(hour or 0), int(minute or 0), int(second or 0), tzinfo=zone)
        return 1000 * int(moment.timestamp()) + int((part or "0").ljust(3, "0")[:3])
    except (ValueError, OverflowError, OSError):
        return None
