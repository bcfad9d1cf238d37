"""A part of logs that are damaged: flipped bits, lines that are doubled, left out or moved, and torn ends; and of logs of version 2."""
import os
import random
import shutil
from concurrent.futures import ProcessPoolExecutor

import seals
from soak_parts.inputs import damaged as changed
from soak_parts.program import KINDS, ROUNDS, SEED, knob, made_by, make, put, ran, stop, text_at, value

# how many bits of a long log are flipped, one at a time, and how many lines it has
FLIPS, LINES = knob("SOAK_FLIPS", 10000), 200000
LANES = 4


def plain(dice, count, elements):
    """The text of a log without seals: elements first, then updates of each kind, and an answer by each reduction, until it has so many lines."""
    edits = len(elements)
    lines = [f"livevec 3 40 {edits}", *(f"j push {x}" for x in elements)]
    while len(lines) < count:
        turn, size, low = len(lines) % 16, len(elements), dice.randrange(len(elements) - 2)
        if turn < len(KINDS):
            lines.append(f"a {edits} {KINDS[turn]} {low} {low + 3} {value(KINDS[turn], elements[low:low + 3])}")
            continue
        number = dice.getrandbits(64) - 2**63
        edit = {7: f"write {low} {number}", 9: "pop", 11: f"reserve {low}", 13: f"swap {low} {size - 1}", 15: f"truncate {size - 1}"}.get(turn, f"push {number}")
        make(elements, edit)
        edits += 1
        lines.append(f"j {edit}")
    return "".join(f"{line}\n" for line in lines)


def first_other(text, other):
    """Where two texts differ first: at the end of the shorter one if that begins the other."""
    low, high = 0, min(len(text), len(other))
    while low < high:
        middle = (low + high + 1) // 2
        low, high = (middle, high) if text[low:middle] == other[low:middle] else (low, middle - 1)
    return low


def wrong_line(text, damaged):
    """Which line of a damaged log is wrong, where `text` is what it was: the one with the first byte that differs, if it has a line end, or has another byte in
    the place of its line end. None if there is none: then whole lines of the log are followed by a torn end, or by nothing."""
    at = first_other(text, damaged)
    is_wrong = damaged.find("\n", at) >= 0 or len(damaged) == at + 1 and text[at:at + 1] == "\n"
    return text.count("\n", 0, at) + 1 if is_wrong else None


def verdict(lines):
    """What an audit says of whole lines that begin a log: how many of each kind there are, or that elements are missing."""
    if not lines:
        return "front 0 edits 0 answers\n"
    base, count = map(int, lines[0].split()[2:4])
    edits = sum(line.startswith("j ") for line in lines)
    return f"bad {len(lines) + 1}\n" if edits < count else f"log {base} base {count} elements {edits - count} edits {sum(line.startswith('a ') for line in lines)} answers\n"


def audited(text, damaged):
    """Sees what an audit says of a log that was damaged, and says which line is wrong."""
    line = wrong_line(text, damaged)
    wanted = f"bad {line}\n" if line else verdict(seals.whole(damaged)[0])
    it = ran(["audit", "--front"], data=damaged.encode("latin-1"))
    if it.stdout.decode() != wanted or it.returncode != wanted.startswith("bad") or it.stderr:
        stop(f"a damaged log was called {it.stdout!r}, where {wanted!r} was wanted, with status {it.returncode}, {it.stderr!r}: its end is {damaged[-200:]!r}")
    return line


def written(folder, text):
    """A folder with a log, and with the lines of a session."""
    os.mkdir(folder)
    put("push 1\n", f"{folder}/session")
    with open(f"{folder}/log", "w", encoding="latin-1", newline="") as log:
        log.write(text)
    return folder


def refused(folder, text, damaged):
    """Sees that nobody goes on with a log in which a line is wrong: whoever tries names the line, and no file changes. Says whether a line is wrong."""
    line = audited(text, damaged)
    if not line:
        return False
    written(folder, damaged)
    for words in (["serve", "--log", "log", "session"], ["serve", "--keep-version", "--log", "log", "session"], ["compact", "log"], ["restore", "log"]):
        it = ran(words, folder, b"")
        if it.returncode != 1 or it.stdout or b"livevec: fault 13\n" not in it.stderr or f": line {line} is ".encode() not in it.stderr:
            stop(f"{words} of a log whose line {line} is wrong: status {it.returncode}, {it.stdout!r}, {it.stderr!r}")
        if sorted(os.listdir(folder)) != ["log", "session"] or open(f"{folder}/log", encoding="latin-1", newline="").read() != damaged:
            stop(f"{words} of a log whose line {line} is wrong: {os.listdir(folder)}")
    shutil.rmtree(folder)
    return True


def flipped(text, bit):
    """A text with one of its bits flipped."""
    at = bit // 8
    return text[:at] + chr(ord(text[at]) ^ 1 << bit % 8) + text[at + 1:]


def flip_each(room, text, lane):
    """Flips each bit of a log in turn, of which the lanes have their parts: the line is named by an audit, and for each eighth bit by all that read a log."""
    for bit in range(lane, 8 * len(text), LANES):
        damaged = flipped(text, bit)
        if wrong_line(text, damaged) != text.count("\n", 0, bit // 8) + 1:
            stop(f"bit {bit} of a log isn't in line {wrong_line(text, damaged)}")
        if bit // LANES % 8:
            audited(text, damaged)
        else:
            refused(f"{room}/flip{bit}", text, damaged)


def flip_some(text, lane):
    """Flips some bits of a long log, one at a time."""
    dice = random.Random(f"{SEED} {lane}")
    for _ in range(FLIPS // LANES):
        if not audited(text, flipped(text, dice.randrange(8 * len(text)))):
            stop("a bit of a log was flipped, and no line is wrong")


def moved(dice, lines):
    """Some lines of a log, one or a block of them, doubled there or elsewhere, left out, or exchanged with others."""
    most = dice.choice((1, 1, 30))
    one, two, three, four = sorted(dice.choices(range(len(lines)), k=4))
    two, four = min(two, one + most), min(four, three + most)
    first, second = lines[one:two + 1], lines[three:four + 1]
    return dice.choice((
        lines[:one] + first + lines[one:],
        lines[:one] + lines[two + 1:],
        lines[:three] + first + lines[three:],
        lines[:three] + first + lines[four + 1:],
        lines[:one] + second + lines[one:],
        lines[:one] + second + lines[two + 1:three] + first + lines[four + 1:] if two < three else lines[:one] + first[::-1] + lines[two + 1:],
    ))


def move_some(room, texts, lane):
    """Lines of logs are doubled, left out or moved, or bytes are changed, dropped, doubled or made strange. Says how often a line was wrong: what is missing at
    the end can't be seen, nor what is behind the last line end."""
    dice, seen = random.Random(f"{SEED} moved {lane}"), 0
    for turn in range(ROUNDS):
        text = texts[turn % 8 == 0]
        damaged = changed(dice, text.encode()).decode("latin-1") if turn % 3 == 0 else "".join(f"{line}\n" for line in moved(dice, seals.whole(text)[0]))
        seen += refused(f"{room}/moved{lane}-{turn}", text, damaged)
    return seen


def cut_each(room, text, lane):
    """A log is cut behind each of its bytes, of which the lanes have their parts: it is gone on with behind its whole lines, and what is cut off is said. A line that
    is whole but for another byte in the place of its line end is wrong, and nothing is cut off."""
    for at in range(lane, len(text), LANES):
        folder = f"{room}/cut{at}"
        if text[at] == "\n" and not refused(folder, text, text[:at] + chr(11 + at % 245)):
            stop(f"a log without the line end at {at} was gone on with")
        audited(text, text[:at])
        lines, rest = seals.whole(text[:at])
        kept = lines or [*seals.sealed(["livevec 3 0 0"])]
        served(folder, text[:at], [], [*kept, *seals.sealed(["j push 1"], kept[-1])], rest)


def served(folder, text, words, wanted, rest):
    """Sees that a server goes on with a log by one push: which lines the log has then, and that what is cut off is said."""
    it = ran(["serve", *words, "--log", "log", "session"], written(folder, text))
    is_said = f"isn't whole: {len(rest)} bytes are cut off\n".encode() in it.stderr
    if it.returncode or it.stdout or is_said != (rest != "") or text_at(f"{folder}/log") != "".join(f"{line}\n" for line in wanted):
        stop(f"serve {words} of a log that ends with {text[-200:]!r}: status {it.returncode}, {it.stdout!r}, {it.stderr!r}, {text_at(f'{folder}/log')!r}")
    kept = text_at(f"{folder}/log.1")
    shutil.rmtree(folder)
    return kept


def renew_each(room, text, lane):
    """A log of version 2 is cut behind each of its bytes: a server makes a new log of it, under the old numbers, and keeps or drops what it was. With --keep-version
    it goes on with the log as it is."""
    for at in range(text.index("\n") + 1 + lane, len(text) + 1, LANES):
        folder, (lines, rest) = f"{room}/renewed{at}", seals.whole(text[:at])
        edits = [line[2:] for line in lines if line.startswith("j ")]
        elements = made_by(edits)
        new = [*seals.sealed([f"livevec 3 {len(edits)} {len(elements)}", *(f"j push {x}" for x in elements), "j push 1"])]
        kept = served(folder, text[:at], [], new, rest)
        if seals.whole(kept or "")[0] != lines:
            stop(f"of a log of version 2 that ends with {text[:at][-200:]!r} this was kept: {kept!r}")
        if served(folder, text[:at], ["--drop-old"], new, rest) or served(folder, text[:at], ["--keep-version"], [*lines, "j push 1"], rest):
            stop("a log of version 2 was kept, and was to be dropped or gone on with")


def each(lanes, what, *given):
    """Does something in each lane, and says what comes of it."""
    return list(lanes.map(what, *([it] * LANES for it in given), range(LANES)))


def damage(room):
    """Each damage to a log is told by its line, but for what its end has lost; and logs of version 2 are made anew."""
    dice = random.Random(SEED)
    small, long = (seals.seal(plain(dice, count, [dice.getrandbits(64) - 2**63 for _ in range(4)])) for count in (22, LINES))
    begun = plain(dice, 22, [5, -6, 7, -8]).replace("livevec 3 40 4", "livevec 3 0 0")
    with ProcessPoolExecutor(LANES) as lanes:
        each(lanes, flip_each, room, small)
        each(lanes, cut_each, room, seals.seal(begun))
        each(lanes, renew_each, room, begun.replace("livevec 3", "livevec 2"))
        moves = sum(each(lanes, move_some, room, (small, long)))
        each(lanes, flip_some, long)
    print(f"damage: {8 * len(small)} bits of a log of {small.count(chr(10))} lines and {FLIPS // LANES * LANES} of one of {LINES} were flipped, one at a time, and lines of both were doubled, "
          f"left out or moved, or bytes made others, {moves} times: each was told by its line, and nobody went on with such a log. Logs were cut behind each byte, and gone on with, also of version 2")
