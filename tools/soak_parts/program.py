"""What the parts of the soak share: the knobs, the program and what it answers, lines of a session, a plain list, and what files and logs have."""
import os
import re
import subprocess
import sys
import time

TOP = os.path.dirname(os.path.dirname(os.path.dirname(os.path.abspath(__file__))))
PROGRAM = os.environ.get("SOAK_PROGRAM", f"{TOP}/crates/livevec/out/livevec")
KINDS = ("sum", "least", "greatest", "best", "affine", "automaton")


def knob(name, usual):
    return int(os.environ.get(name, str(usual)))


ROUNDS, SEED = knob("SOAK_ROUNDS", 400), knob("SOAK_SEED", 1)
sys.path.insert(0, f"{TOP}/bench")


def stop(why):
    sys.exit(f"soak: {why}")


def ran(words, folder=None, data=None, seconds=600, **more):
    """A run of the program in a folder, without input unless some is given, and what it printed and said."""
    given = {"input": data} if data is not None else {"stdin": subprocess.DEVNULL}
    try:
        return subprocess.run([PROGRAM, *words], cwd=folder, capture_output=True, timeout=seconds, **given, **more)
    except subprocess.TimeoutExpired:
        stop(f"{words} has not ended after {seconds} s")


STARTS = re.compile(rb"livevec: (makes '.*'|goes on with '.*': \d+ updates in all, \d+ elements|ready, \d+ clients|'.*' was a log of version 2, and was made anew .*|'.*' stays a log of version 2, .*)\n")


def but_start(said):
    """What the program said on standard error, without the lines in which `serve` says with what it begins and that it is ready."""
    return STARTS.sub(b"", said)


def told(words, data=b"", seconds=600):
    """The same, where a signal or an unknown status ends the soak."""
    it = ran(words, None, data, seconds)
    if it.returncode not in (0, 1, 2):
        stop(f"{words} ended with {it.returncode}: {it.stderr[:200]!r}")
    return it


# Runs a program, and writes its status and the most memory it held to a file: from a process of its own, since a fork counts what this one holds.
HELD = "import os, subprocess, sys; ran = subprocess.Popen(sys.argv[2:]); _, ended, used = os.wait4(ran.pid, 0); print(os.waitstatus_to_exitcode(ended), used.ru_maxrss, file=open(sys.argv[1], 'w'))"


def measured(words, room, asked=os.devnull):
    """What a run of the program prints and says, its status, how many seconds it took and how many MB it held at most."""
    began = time.time()
    with open(asked, "rb") as lines:
        run = subprocess.run([sys.executable, "-c", HELD, f"{room}/held", PROGRAM, *words], stdin=lines, capture_output=True, text=True, cwd=room, check=True)
    status, held = map(int, open(f"{room}/held").read().split())
    os.remove(f"{room}/held")
    return run.stdout, run.stderr, status, time.time() - began, held / 1024


def put(text, *names):
    """Writes a text to files."""
    for name in names:
        with open(name, "w") as file:
            file.write(text)


def text_at(path):
    """What a file has, or none."""
    if not os.path.exists(path):
        return None
    with open(path) as file:
        return file.read()


def whole_lines(path):
    """The whole lines of a file, none where there is no such file."""
    text = text_at(path) or ""
    return text[:text.rfind("\n") + 1].splitlines()


def session(dice, count):
    """Lines of a session, most of them pushes."""
    made = []
    for _ in range(count):
        roll = dice.random()
        low = dice.randrange(0, 200)
        if roll < 0.5:
            made.append(f"push {dice.randrange(-2**63, 2**63)}")
        elif roll < 0.6:
            made.append("pop")
        elif roll < 0.75:
            made.append(f"write {dice.randrange(0, 2000)} {dice.randrange(-1000, 1000)}")
        elif roll < 0.8:
            made.append(f"reserve {dice.randrange(0, 5000)}")
        else:
            made.append(f"reduce {dice.choice(KINDS)} {low} {low + dice.randrange(0, 400)}")
    return "\n".join(made) + "\n"


def make(elements, edit):
    """Makes an update on a plain list, as a log or a line of a session tells it."""
    what, *numbers = edit.split()
    n = [int(number) for number in numbers]
    if what == "push":
        elements.append(n[0])
    elif what == "pop":
        elements.pop()
    elif what == "write":
        elements[n[0]] = n[1]
    elif what == "swap":
        elements[n[0]], elements[n[1]] = elements[n[1]], elements[n[0]]
    elif what == "truncate":
        del elements[n[0]:]


def made_by(edits):
    """The elements after some updates, by a plain list."""
    elements = []
    for edit in edits:
        make(elements, edit)
    return elements


def value(kind, xs):
    """What is shown of some elements."""
    if kind == "sum":
        return str(sum(xs) % 2**64)
    if kind == "affine":
        a, b = 1, 0
        for x in xs:
            a, b = (x >> 8) * a % 2**32, ((x >> 8) * b + x % 256) % 2**32
        return f"{a} {b}"
    if kind == "automaton":
        states = range(8)
        for x in xs:
            states = [(2 * q + x % 4) % 8 for q in states]
        return " ".join(map(str, states))
    if not xs:
        return "none"
    if kind != "best":
        return str(min(xs) if kind == "least" else max(xs))
    best = run = xs[0]
    for x in xs[1:]:
        run = max(x, run + x)
        best = max(best, run)
    return str(best)


def receipts(outs):
    """The numbers of the updates that replies tell of, in order."""
    return sorted(int(line.split()[1]) for out in outs for line in whole_lines(out) if line.startswith("edit "))


def library(room, name="failing_writes"):
    """Builds a library that is loaded before the program, by which calls go wrong, and gives the environment that loads it."""
    made = f"{room}/{name}.so"
    if not os.path.exists(made):
        subprocess.run([os.environ.get("CC", "cc"), "-shared", "-fPIC", "-O2", "-Wall", "-o", made, f"{TOP}/tools/{name}.c", "-ldl"], check=True)
    return {**os.environ, "LD_PRELOAD": made}


def failing(room, call, at, how, **more):
    """The environment in which one call goes wrong (tools/failing_writes.c). Words of it by their names: `told` is a file that is made when it comes."""
    given = {"CALL": call, "AT": str(at), "HOW": str(how), **{name.upper(): text for name, text in more.items()}}
    return {**library(room), **{f"FAILING_{name}": text for name, text in given.items()}}
