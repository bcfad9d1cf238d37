"""Parts of logs that are made anew while they are served: more updates than a vector takes, and a chain of kills between small files."""
import os
import random
import signal
import subprocess
import time
from array import array

import seals
from soak_parts.cut_off import KILLS
from soak_parts.logs import MADE, QUERIES, SIGNALS, Log, check_end, check_log
from soak_parts.program import PROGRAM, SEED, but_start, knob, make, put, ran, session, stop, whole_lines

EDITS, SESSIONS = knob("SOAK_EDITS", 40000000), 16


def numbered(names):
    """The updates of sessions by their numbers, as their replies tell them, in order."""
    made = []
    for name in names:
        for line, reply in zip(whole_lines(name), whole_lines(f"{name}.out")):
            words = reply.split()
            if words[0] == "edit":
                if not line.startswith(MADE[words[2]]):
                    stop(f"{name}: {line!r} was answered by {reply!r}")
                made.append((int(words[1]), line))
    return sorted(made)


def check(room, names, before, elements, ended):
    """Sees that the log has what was told of, also in what its file no longer tells. Says what it has, and the list after it."""
    log, made = check_log(f"{room}/log", [f"{name}.out" for name in (*names, f"{room}/w")], before), numbered(names)
    if any(number > log.base and log.edit(number) != line for number, line in made):
        stop("an update was told of, and the log has another of its number")
    # what was kept, where it is kept, ends where the file begins
    if os.path.exists(f"{room}/log.1") and not os.path.samefile(f"{room}/log.1", f"{room}/log"):
        old = Log(f"{room}/log.1")
        if old.last() == log.base and old.list() != [int(edit.split()[1]) for edit in log.edits[:log.elements]]:
            stop(f"the elements of a log aren't those after the {log.base} updates before it")
    after = log.list()
    if ended:
        # each update was told of: so the list is known
        if log.told != list(range(before + 1, log.last() + 1)):
            stop(f"updates behind {before} end at {log.last()}, of which {len(log.told)} were told of")
        for _, edit in made:
            make(elements, edit)
        if elements != after:
            stop(f"after {log.last()} updates a log has {len(after)} elements, and a plain list {len(elements)}")
    return log, after


def renewals(room):
    """One log is served by one server after the other, which make it anew again and again, and each of which is killed or ends."""
    signal.signal(signal.SIGINT, signal.default_int_handler)
    dice, kills, ends, anew, total = random.Random(SEED), 0, 0, 0, 0
    names = [f"{room}/{name}" for name in ("a", "b")]
    put(QUERIES, f"{room}/w")
    elements = []
    while kills < KILLS:
        for name in names:
            put("truncate 100\n" + session(dice, 20000), name)
        put("", *(f"{name}.out" for name in names + [f"{room}/w"]))
        was = Log(f"{room}/log")
        before, turn = was.last(), kills + ends
        words = ["serve", "--log", f"{room}/log", "--compact-at", str(dice.choice((1, 2000, 20000, 60000))), "--watch", f"{room}/w", *names]
        words += ["--sync"] * (turn % 2) + ["--drop-old"] * (turn // 2 % 2) + ["--log-answers"] * (turn // 4 % 2)
        process = subprocess.Popen([PROGRAM, *words], stdout=subprocess.PIPE, stderr=subprocess.PIPE)
        if turn % 8:
            time.sleep(dice.random() * 0.5)
            process.send_signal(dice.choice(SIGNALS))
        printed, said = process.communicate()
        kills, ends = kills + (process.returncode < 0), ends + (process.returncode == 0)
        check_end(process, printed, said)
        if not os.path.exists(f"{room}/log"):
            continue
        log, elements = check(room, names, before, elements, process.returncode == 0)
        total, anew = total + log.last() - before, anew + (log.base > was.base)
    print(f"renewals: {kills} kills of one server after the other, and {ends} ends; {total} updates, of which none was lost that was told of; {anew} of the servers had made their log anew")


def lines_of(dice, count):
    """Lines that are quick to make: of 50 blocks by turns, with some more pushes than pops."""
    blocks = []
    for _ in range(50):
        rolls = [dice.random() for _ in range(1000)]
        blocks.append("".join(f"push {dice.randrange(1000)}\n" if roll < 0.44 else "pop\n" if roll < 0.87 else f"write {dice.randrange(5)} {dice.randrange(1000)}\n" for roll in rolls))
    return (dice.choice(blocks) for _ in range(count // 1000))


def worn(room):
    """More updates than a vector takes, by 16 sessions of one server: numbers go on, and the list at the end is a plain one's."""
    dice = random.Random(SEED)
    names = [f"{room}/s{number}" for number in range(SESSIONS)]
    for name in names:
        with open(name, "w") as file:
            file.writelines(lines_of(dice, EDITS // SESSIONS))
    put("watch all sum 0 1048568\nwatch last best last 50\n", f"{room}/w")
    served = ran(["serve", "--log", f"{room}/log", "--watch", f"{room}/w", *names], seconds=7200)
    if served.returncode or served.stdout or but_start(served.stderr):
        stop(f"serve --log ended with {served.returncode}, {served.stderr[:200]!r}")
    # which session made the update of a number: then its lines, in turn, are the updates
    by = bytearray(EDITS + 1)
    refused = 0
    for number, name in enumerate(names, 1):
        with open(f"{name}.out") as file:
            for line in file:
                if line.startswith("edit "):
                    edit = int(line.split(" ", 2)[1])
                    if by[edit]:
                        stop(f"the number {edit} came twice")
                    by[edit] = number
                else:
                    refused += 1
    last = EDITS // SESSIONS // 1000 * 1000 * SESSIONS - refused
    if not all(by[1:last + 1]) or any(by[last + 1:]):
        stop(f"{refused} lines were rejected, and the numbers aren't those up to {last}")
    check_worn(room, names, by, last)
    print(f"worn: {last} updates and {refused} rejected lines by {SESSIONS} sessions of one server; no number missing or twice, and the elements are a plain list's")


def check_worn(room, names, by, last):
    """Sees that a log has the elements that a plain list has after all updates, in the order of their numbers."""
    lines = [accepted(name) for name in names]
    elements = array("q")
    for number in by[1:last + 1]:
        make(elements, next(lines[number - 1]))
    kept = array("q")
    with open(f"{room}/log") as file:
        _, _, base, count, _ = next(file).split()
        edits = 0
        for line in file:
            make(kept, line[2:-seals.WIDTH - 1])
            edits += 1
    if int(base) + edits - int(count) != last or int(base) == 0 and last > 16777215:
        stop(f"the log begins with {base} and {count}, has {edits} updates, and {last} were made")
    if kept != elements:
        stop(f"the log has {len(kept)} elements, and a plain list {len(elements)}")


def accepted(name):
    """The lines of a session that were accepted."""
    with open(name) as lines, open(f"{name}.out") as replies:
        for line, reply in zip(lines, replies):
            if reply.startswith("edit "):
                yield line
