"""Texts from outside, made fit to be shown."""
from __future__ import annotations


def shown(text: str) -> str:
    """The text, with an escape as Python writes it for each character that a terminal or a browser would act on and not show.

    These are control characters, format characters (those that change the direction of text among them), line separators, halves of a pair
    of UTF-16, and characters that Unicode doesn't define."""
    if text.isprintable():
        return text
    return "".join(it if it.isprintable() else it.encode("unicode_escape").decode("ascii") for it in text)
