"""Texts of numbers into whole numbers of 64 bits, each rounded once, and back."""
from __future__ import annotations

import decimal
import re
from typing import Optional, Union

_LEAST, _MOST = -(1 << 63), (1 << 63) - 1
_WHOLE = re.compile(rb"[+-]?[0-9]+\Z")
_DECIMAL = re.compile(rb"[+-]?(?:[0-9]+\.?[0-9]*|\.[0-9]+)(?:[eE][+-]?[0-9]{1,4})?\Z")
EXACT = decimal.Context(prec=1 << 13, rounding=decimal.ROUND_HALF_EVEN, traps=[decimal.Inexact])
"""Multiplies without rounding: a product has no more digits than its factors together, which is less than this for what a line and a scale have. Else it
would raise."""


class Bad(ValueError):
    """Why a line is bad: one of a few fixed texts, so that they can be counted."""


class Decimal(str):
    """The text of a number with a point or an exponent in a JSON line."""


def is_number(text: bytes) -> bool:
    return _DECIMAL.match(text) is not None


def whole(text: bytes, scale: Optional[int]) -> int:
    """The number that a text spells, times the scale, rounded to the nearest whole number. Without a scale a decimal is Bad."""
    if text.isdigit() or _WHOLE.match(text):
        return within(int(text) * (scale or 1))
    if not _DECIMAL.match(text):
        raise Bad("not a number")
    if scale is None:
        raise Bad("a decimal, and no --scale")
    return within(_rounded(decimal.Decimal(text.decode()), scale))


def within(number: int) -> int:
    """The number, if it has a place in 64 bits."""
    if not _LEAST <= number <= _MOST:
        raise Bad("outside 64 bits")
    return number


def _rounded(value: decimal.Decimal, scale: int) -> int:
    # before it is written out in full: an exponent may ask for thousands of digits
    if value and value.adjusted() > 20:
        raise Bad("outside 64 bits")
    return int(EXACT.multiply(value, decimal.Decimal(scale)).to_integral_value(context=EXACT))


def of_json(value: object) -> Union[int, bytes]:
    """A JSON value as a number, or as the text of one. True, false, null, texts, lists and objects spell none."""
    if type(value) is int:
        return value
    return value.encode() if isinstance(value, Decimal) else b"none"


def spelt(value: Optional[int], digits: int) -> Optional[str]:
    """A number divided by 10**digits, written out in full."""
    if value is None or digits == 0:
        return None if value is None else str(value)
    whole, part = divmod(abs(value), 10**digits)
    return f"{'-' if value < 0 else ''}{whole}.{part:0{digits}}"
