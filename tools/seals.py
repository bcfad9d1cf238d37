#!/usr/bin/env python3
"""Seals of logs of version 3, made from docs/formats.md and not from the program: each line ends in a space and 16 lower-case hexadecimal digits, the checksum
of all bytes of the file before them (FNV-1a of 64 bits). Texts are strings with a character for each byte.

usage: tools/seals.py seal|strip|fill < FILE

seal      adds a seal to each whole line of a log, whose first line becomes one of version 3
strip     checks the seals and takes them away, so that a log of version 2 is left; a wrong line is named, and then the status is 1
fill      puts a seal in the place of each `{seal}`; a line that begins with `livevec 3 ` begins a file
"""
import sys

BASIS, PRIME, BITS = 0xcbf29ce484222325, 0x100000001b3, 0xffffffffffffffff
# a seal with the space in front of it
WIDTH = 17


def checksum(text, before=BASIS):
    """FNV-1a of 64 bits of a text, behind what has a checksum already."""
    for byte in text.encode("latin-1"):
        before = (before ^ byte) * PRIME & BITS
    return before


def digits(text, line=None):
    """The digits behind a text in a file, where the line before it, without LF, is a sealed one; none if the text is the file's first. A line's digits tell
    what the checksum was in front of them, so no more of the file is needed."""
    return f"{checksum(text, BASIS if line is None else checksum(line[-16:] + chr(10), int(line[-16:], 16))):016x}"


def sealed(lines, before=None):
    """Lines with their seals, all without LF, in a file of their own or behind a sealed line."""
    for line in lines:
        before = f"{line} {digits(line + ' ', before)}"
        yield before


def first_wrong(lines, before=None):
    """The number, from 1, of the first of some lines whose seal is wrong or missing; none if each is right."""
    for number, line in enumerate(lines, 1):
        if line[-WIDTH:-16] != " " or line[-16:] != digits(line[:-16], before):
            return number
        before = line


def whole(text):
    """The whole lines of a text, without LF, and what comes after its last LF."""
    *lines, rest = text.split("\n")
    return lines, rest


def seal(text):
    """The file of version 3 that has the whole lines of a log of version 2 or without seals; the same comes after the last LF."""
    lines, rest = whole(text)
    return "".join(f"{line}\n" for line in sealed(["livevec 3" + line[9:] if not at else line for at, line in enumerate(lines)])) + rest


def strip(text):
    """The log of version 2 that a file of version 3 has; the same comes after the last LF. A wrong line is a ValueError with its number."""
    lines, rest = whole(text)
    if not text.startswith("livevec 3 "):
        return text
    if wrong := first_wrong(lines):
        raise ValueError(wrong)
    return "".join(("livevec 2" + line[9:] if not at else line)[:-WIDTH] + "\n" for at, line in enumerate(lines)) + rest


def fill(text):
    """A text in which each `{seal}` is the seal of its line. A line that begins with `livevec 3 ` is the first of a file."""
    made, state = [], BASIS
    for line in text.split("\n"):
        state = BASIS if line.startswith("livevec 3 ") else state
        before, mark, behind = line.partition("{seal}")
        made.append(before + (mark and f"{checksum(before, state):016x}") + behind)
        state = checksum(made[-1] + "\n", state)
    return "\n".join(made)


def main(words):
    if len(words) != 1 or words[0] not in ("seal", "strip", "fill"):
        sys.exit(__doc__)
    try:
        made = globals()[words[0]](sys.stdin.buffer.read().decode("latin-1"))
    except ValueError as wrong:
        sys.exit(f"line {wrong} has no right seal")
    sys.stdout.buffer.write(made.encode("latin-1"))


if __name__ == "__main__":
    main(sys.argv[1:])
