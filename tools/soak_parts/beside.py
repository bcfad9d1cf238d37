"""Parts that set what is answered beside a plain program's answers: lines, sessions, seats, a board, a window."""
import random
import subprocess
import time

from soak_parts.program import PROGRAM, SEED, knob, put, receipts, session, stop, told, whole_lines
from programs import plain, prove, proved

LINES, TURNS = knob("SOAK_LINES", 10000000), knob("SOAK_TURNS", 100000000)


def lines(room):
    """The replies of a long script are those of a plain program, byte for byte."""
    with open(f"{room}/asked", "wb") as asked:
        subprocess.run([plain("feeds", room), "lines", str(LINES)], stdout=asked, check=True)
    for words, name in (([PROGRAM, "run"], "ours"), ([plain("script", room)], "plain")):
        began = time.time()
        with open(f"{room}/asked", "rb") as asked, open(f"{room}/{name}", "wb") as replies:
            subprocess.run(words, stdin=asked, stdout=replies, check=True)
        print(f"lines: {name}: {time.time() - began:.1f} s")
    if subprocess.run(["cmp", f"{room}/ours", f"{room}/plain"]).returncode:
        stop("a reply differs from that of the plain program")
    print(f"lines: {LINES} lines, every reply as the plain program has it")


def sessions(room):
    """Sixteen sessions beside eight workers: one history, which the auditor agrees with."""
    dice = random.Random(SEED)
    files = [f"{room}/session{k}" for k in range(16)]
    for file in files:
        put(session(dice, 5000), file)
    served = told(["serve", "--workers", "8", "--turns", "100000", *files])
    if served.returncode:
        stop(f"serve ended with {served.returncode}: {served.stderr!r}")
    answers = sum(line.startswith("at ") for file in files for line in whole_lines(f"{file}.out"))
    journal = served.stdout.count(b"\nj ")
    if receipts(f"{file}.out" for file in files) != list(range(1, journal + 1)):
        stop("the receipts are not the numbers of the transcript's edits, each once")
    if served.stdout.count(b"\na ") != answers:
        stop("the transcript has not each answer once")
    audited = told(["audit"], served.stdout)
    if audited.stdout != b"yes\n":
        stop(f"the transcript's audit: {audited.stdout!r}")
    print(f"sessions: 16 with 8 workers: {journal} edits, each receipt once; {answers} answers; audit: yes")


def seats(room):
    """Eight sessions at a board: the accepted edits are numbered from 1, each once, and each session sees its own numbers rise."""
    dice = random.Random(SEED)
    files = [f"{room}/seat{k}" for k in range(8)]
    for file in files:
        lines = [dice.choice((f"push {k % 30000}", "pop", f"write {dice.randrange(200)} {k % 99}", "size", "refresh 0", "reduce sum 0 8")) for k in range(20000)]
        put("\n".join(lines) + "\n", file)
    held = told(["board", *files])
    if held.returncode or held.stderr:
        stop(f"board ended with {held.returncode}: {held.stderr!r}")
    each = [[int(line.split()[1]) for line in open(f"{file}.out") if line.startswith("edit ")] for file in files]
    if any(numbers != sorted(set(numbers)) for numbers in each):
        stop("a session's edit numbers do not rise")
    numbers = sorted(number for some in each for number in some)
    if numbers != list(range(1, len(numbers) + 1)):
        stop("the accepted edits are not numbered from 1, each once")
    lines = sum(1 for file in files for _ in open(f"{file}.out"))
    print(f"seats: 8 sessions of 20000 lines at a board: {lines} replies, {len(numbers)} edits, each number once and rising in each session")


def board(room):
    """Eight threads at one board try it a million times each; the proved program of it is built first, and stopped after five minutes."""
    prove("soak")
    if subprocess.run([proved("soak")], timeout=300).returncode:
        stop("the board's part failed")


def window(room):
    """A window that slides over a series, beside a plain list; the proved program of it is built first. What all answers come to is one number."""
    prove("window")
    for kept in (10_000, 3_000_000):
        told_by = {subprocess.run([it, str(TURNS), str(kept)], capture_output=True, text=True, check=True).stdout for it in (proved("window"), plain("peers", room))}
        if len(told_by) != 1:
            stop(f"the answers differ: {told_by}")
        print(f"window: {told_by.pop().strip()}")
