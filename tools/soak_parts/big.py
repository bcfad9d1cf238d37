"""A part of a log of 3,000,000,000 bytes, which is audited, gone on with and compacted, and of a damaged byte near its end."""
import os
import random
import shutil
import time

import seals
from soak_parts.paced import Paced
from soak_parts.program import KINDS, PROGRAM, SEED, knob, measured, put, stop, value, whole_lines

BYTES = knob("SOAK_BYTES", 3000000000)
# how many elements the log begins with, how many updates it has at most with these, and in how many rounds of updates and answers
ELEMENTS, EDITS, ROUNDS = 1_000_000, 16_000_000, 150
BASE = 5_000_000_000


def taken(words, room, asked=os.devnull):
    """What a run of the program prints and says, its status, and a text of its time and of the most memory it held."""
    printed, said, status, seconds, held = measured(words, room, asked)
    return printed, said, status, f"{seconds:.0f} s and {held:.0f} MB"


def edited(dice, elements, count):
    """Makes some updates of the elements, and says their lines."""
    lines = []
    for _ in range(count):
        roll, size = dice.random(), len(elements)
        if roll < 0.6:
            i, x = int(dice.random() * size), dice.getrandbits(64) - 2**63
            elements[i] = x
            lines.append(f"j write {i} {x}")
        elif roll < 0.8:
            i, k = int(dice.random() * size), int(dice.random() * size)
            elements[i], elements[k] = elements[k], elements[i]
            lines.append(f"j swap {i} {k}")
        elif roll < 0.9 or size < ELEMENTS // 2:
            elements.append(dice.getrandbits(64) - 2**63)
            lines.append(f"j push {elements[-1]}")
        else:
            elements.pop()
            lines.append("j pop")
    return lines


def answered(dice, elements, edit):
    """Some answers by all kinds after so many updates."""
    lines = []
    for _ in range(600):
        kind, low = dice.choice(KINDS), dice.randrange(len(elements) - 3000)
        high = low + dice.randrange(3000)
        lines.append(f"a {edit} {kind} {low} {high} {value(kind, elements[low:high])}")
    return lines


class Sealed:
    """A log that is made: its lines get their seals, and what bytes it has is counted."""

    def __init__(self, file):
        self.file, self.last, self.bytes = file, None, 0

    def write(self, lines):
        for self.last in seals.sealed(lines, self.last):
            self.file.write(self.last + "\n")
            self.bytes += len(self.last) + 1


def made(path):
    """Makes the log, and says how many updates behind its elements, answers and lines it has, and the elements."""
    dice, elements = random.Random(SEED), []
    edit = answers = 0
    with open(path, "w", buffering=1 << 20) as file:
        log = Sealed(file)
        log.write([f"livevec 3 {BASE} {ELEMENTS}"])
        for _ in range(ELEMENTS):
            elements.append(dice.getrandbits(64) - 2**63)
        log.write(f"j push {x}" for x in elements)
        edit = ELEMENTS
        for turn in range(ROUNDS):
            lines = edited(dice, elements, (EDITS - ELEMENTS) // ROUNDS)
            edit += len(lines)
            log.write(lines)
            some = answered(dice, elements, edit)
            size = sum(len(line) + seals.WIDTH + 1 for line in some)
            # updates of later rounds take some 44 bytes each
            share = (BYTES - log.bytes - (EDITS - edit) * 44) // (ROUNDS - turn) // size
            log.write(some * share)
            answers += len(some) * share
        while log.bytes < BYTES:
            log.write([some[answers % len(some)]])
            answers += 1
    return edit - ELEMENTS, answers, elements


def damaged(path, dice):
    """Flips a bit of an answer in the last megabyte, or of its seal. Says where it is and what the byte was, and how many lines there are from that one on."""
    at = max(os.path.getsize(path) - (1 << 20) + dice.randrange(1 << 19), 0)
    with open(path, "r+b") as log:
        log.seek(at)
        behind = log.read()
        begin = behind.index(b"\na ") + 1
        place = dice.randrange(begin, behind.index(b"\n", begin))
        old = behind[place:place + 1]
        log.seek(at + place)
        log.write(bytes([old[0] ^ 1]))
    return at + place, old, behind[begin:].count(b"\n")


def mended(path, at, old):
    """Puts a byte back."""
    with open(path, "r+b") as log:
        log.seek(at)
        log.write(old)


def state(room, log):
    """Which files there are, and how the log is."""
    kept = os.stat(log)
    return sorted(os.listdir(room)), kept.st_ino, kept.st_size, kept.st_mtime_ns


def told_of_damage(room, log, lines, dice):
    """A damaged byte in the last megabyte is told by its line, by whatever reads the log, and no file changes."""
    put("push 1\n", f"{room}/session")
    for words, asked in ((["audit", "--front"], log), (["serve", "--log", log, f"{room}/session"], os.devnull), (["compact", log], os.devnull)):
        at, old, behind = damaged(log, dice)
        line, before = lines - behind + 1, state(room, log)
        printed, said, status, took = taken(words, room, asked)
        is_told = printed == f"bad {line}\n" and not said if asked == log else f"line {line} " in said and "livevec: fault 13\n" in said
        if status != 1 or not is_told or state(room, log) != before:
            stop(f"{words} of a log with line {line} damaged: status {status}, {printed!r}, {said!r}")
        mended(log, at, old)
        print(f"big: {words[0]} told of a damaged byte by its line, {line} of {lines}: {took}", flush=True)


def gone_on(room, log, words, last, elements):
    """A server goes on with the log: a client makes some edits, whose numbers go on. What is said of it."""
    began = time.time()
    server = Paced([PROGRAM, *words, "--log", log, f"{room}/client"], room, [f"{room}/client"], longest=1800)
    edits = []
    for turn in range(100):
        edits.append((f"push {turn}", f"edit {last + 2 * turn + 1} at {len(elements)}"))
        edits.append((f"write {turn} {-turn}", f"edit {last + 2 * turn + 2} was {elements[turn]}"))
        elements.append(turn)
        elements[turn] = -turn
        if not server.turn([[line for line, _ in edits[-2:]]]):
            stop(f"serve --log said {open(server.said).read()!r}")
        first = time.time() - began if not turn else first
    held = next(int(line.split()[1]) for line in open(f"/proc/{server.process.pid}/status") if line.startswith("VmHWM:"))
    status, said = server.end()
    replies = whole_lines(f"{room}/client.out")
    if status or said or replies != [reply for _, reply in edits]:
        stop(f"serve --log ended with {status}, {said!r}, {replies[:3]}")
    os.remove(f"{room}/client")
    os.remove(f"{room}/client.out")
    print(f"big: serve --log replied first after {first:.0f} s, then to {len(edits)} lines until {time.time() - began:.0f} s, with the numbers {last + 1} to {last + len(edits)}; {held / 1024:.0f} MB", flush=True)
    return last + len(edits)


def big(room):
    """A log of so many bytes, most of them of answers, is audited, gone on with and compacted."""
    if shutil.disk_usage(room).free < BYTES + (1 << 30):
        stop(f"{room} has no place for {BYTES} bytes: set TMPDIR")
    log, began = f"{room}/log", time.time()
    edits, answers, elements = made(log)
    last, lines = BASE + edits, 1 + ELEMENTS + edits + answers
    print(f"big: made {os.path.getsize(log)} bytes in {time.time() - began:.0f} s: {ELEMENTS} elements, {edits} updates, {answers} answers, {lines} lines", flush=True)
    printed, said, status, took = taken(["audit", "--front"], room, log)
    if printed != f"log {BASE} base {ELEMENTS} elements {edits} edits {answers} answers\n" or status or said:
        stop(f"audit --front ended with {status}, {printed!r}, {said!r}")
    print(f"big: audit --front: {took}", flush=True)
    told_of_damage(room, log, lines, random.Random(SEED))
    # at most so long it isn't made anew: compact is to read it whole
    last = gone_on(room, log, ["serve", "--compact-at", "4000000000"], last, elements)
    printed, said, status, took = taken(["compact", "--drop-old", log], room)
    if printed != f"compacted '{log}': {last} base {len(elements)} elements, what it was is dropped\n" or status or said:
        stop(f"compact ended with {status}, {printed!r}, {said!r}")
    with open(log) as kept:
        wanted = seals.sealed([f"livevec 3 {last} {len(elements)}", *(f"j push {x}" for x in elements)])
        if any(line != f"{other}\n" for line, other in zip(kept, wanted, strict=True)):
            stop("a compacted log hasn't the elements of a plain list")
    print(f"big: compact: {took}; {os.path.getsize(log)} bytes remain, with each of {len(elements)} elements", flush=True)
    gone_on(room, log, ["serve", "--sync"], last, elements)
