"""The part `notes`: four subscribers of 64 names each are told beside 16 sessions and 8 workers, and each note is compared with a plain model.

The model plays the transcript's journal. A note at edit E must be the plain value of its question after E edits, and another than that name was told
last; a name that isn't told at E must have there what it was told last; edits rise; and after the last note each name's answer at the end is as told.
At last one subscriber's file may not grow on, by a limit that the system has for the size of files: that subscriber alone ends, by fault 14.
"""
import os
import random
import resource
import subprocess
import time
from concurrent.futures import ProcessPoolExecutor
from itertools import groupby

from soak_parts.program import KINDS, PROGRAM, SEED, knob, make, put, ran, receipts, stop, text_at, told, value

LINES = knob("SOAK_NOTED", 100000)
SUBSCRIBERS = ("watch0", "watch1", "watch2", "watch3")


def lines_of(dice, count):
    """Lines of a session: sixteen of them leave some thousand elements."""
    made = []
    for _ in range(count):
        roll, place = dice.random(), dice.randrange(3000)
        element = dice.choice((dice.randrange(-99, 99), dice.randrange(-2**63, 2**63)))
        if roll < 0.32:
            made.append(f"push {element}")
        elif roll < 0.5:
            made.append("pop")
        elif roll < 0.8:
            made.append(f"write {place} {element}")
        elif roll < 0.9:
            made.append(f"swap {place} {dice.randrange(3000)}")
        elif roll < 0.9005:
            made.append(f"truncate {place}")
        else:
            made.append(f"reduce {dice.choice(KINDS)} {place} {place + dice.randrange(400)}")
    return "\n".join(made) + "\n"


def questions(dice):
    """64 questions of random kinds and ranges, some of them of nothing and some of all that is behind a place."""
    made = []
    for number in range(64):
        low = dice.randrange(dice.choice((10, 1000, 6000)))
        made.append((f"name_{number}", dice.choice(KINDS), low, min(low + dice.choice((0, 1, 8, 100, 1000, 2**32)), 2**32 - 1)))
    return made


def asked(some):
    return "".join(f"watch {name} {kind} {low} {high}\n" for name, kind, low, high in some)


class Model:
    """Some questions beside the elements, and what each was told last: at first its value of nothing."""

    def __init__(self, some):
        self.questions, self.xs, self.edit = some, [], 0
        # the elements that a question was computed of last, and its value
        self.computed = {name: ([], value(kind, [])) for name, kind, _, _ in some}
        self.told = {name: value(kind, []) for name, kind, _, _ in some}

    def play_to(self, journal, edit):
        if not self.edit < edit <= len(journal):
            stop(f"notes: edit {edit} comes after {self.edit}, and there are {len(journal)}")
        for line in journal[self.edit:edit]:
            make(self.xs, line)
        self.edit = edit

    def now(self, name, kind, low, high):
        """The plain value of a question now; computed anew where its elements are others."""
        xs = self.xs[low:high]
        if self.computed[name][0] != xs:
            self.computed[name] = xs, value(kind, xs)
        return self.computed[name][1]

    def take(self, notes, is_all):
        """Compares the notes at an edit, in order, where all are there or the first of them, with what they should be."""
        wanted = [(question[0], self.now(*question)) for question in self.questions]
        wanted = [(name, what) for name, what in wanted if what != self.told[name]]
        if notes != (wanted if is_all else wanted[:len(notes)]):
            stop(f"at {self.edit} the notes are {notes[:3]} and so on, wanted {wanted[:3]}")
        self.told.update(notes)


def compare(journal, some, text, is_whole):
    """Compares what a subscriber was told with the model; says how many notes there were, at how many edits."""
    lines = [line.split(" ", 3) for line in text[:text.rfind("\n") + 1].splitlines()]
    if any(len(words) != 4 or words[0] != "at" for words in lines) or (is_whole and text and not text.endswith("\n")):
        stop("a line is no note")
    model = Model(some)
    groups = [(int(edit), [(words[2], words[3]) for words in group]) for edit, group in groupby(lines, lambda words: words[1])]
    for n, (edit, notes) in enumerate(groups, 1):
        model.play_to(journal, edit)
        model.take(notes, is_whole or n < len(groups))
    if is_whole and model.edit < len(journal):
        model.play_to(journal, len(journal))
        model.take([], True)
    return len(lines), len(groups)


def journal_of(transcript, files):
    """The edits of a transcript that is audited, once it is known that the sessions' receipts are their numbers, each once."""
    if told(["audit"], transcript.encode()).stdout != b"yes\n":
        stop("the transcript's audit isn't yes")
    journal = [line[2:] for line in transcript.splitlines() if line.startswith("j ")]
    if receipts(f"{file}.out" for file in files) != list(range(1, len(journal) + 1)):
        stop("the receipts are not the numbers of the transcript's edits, each once")
    return journal


def noted(room, seed):
    """Four subscribers beside 16 sessions with 8 workers."""
    dice = random.Random(seed)
    files, watches = [f"{room}/session{k}" for k in range(16)], [f"{room}/{name}" for name in SUBSCRIBERS]
    some = [questions(dice) for _ in watches]
    for path, text in [(file, lines_of(dice, LINES)) for file in files] + list(zip(watches, map(asked, some))):
        put(text, path)
    options = [word for path in watches for word in ("--watch", path)]
    began = time.time()
    served = ran(["serve", "--workers", "8", "--turns", "100000", *options, *files], text=True)
    took = time.time() - began
    if served.returncode or served.stderr:
        stop(f"serve ended with {served.returncode}: {served.stderr!r}")
    journal = journal_of(served.stdout, files)
    with ProcessPoolExecutor(4) as lanes:
        found = list(lanes.map(compare, [journal] * 4, some, [text_at(f"{path}.out") for path in watches], [True] * 4))
    notes, edits = (sum(counts) for counts in zip(*found))
    print(f"notes: seed {seed}: 16 sessions, 8 workers and 4 subscribers of 64 names: {len(journal)} edits in {took:.1f} s; {notes} notes at {edits} edits, each the plain value there; the last ones are the answers at the end", flush=True)


def fed(process, pipe, loud, most):
    """Feeds a session edit by edit: until a subscriber's file has as many bytes as it may have, and then on."""
    said, more = 0, 0
    while more < 100:
        if process.poll() is not None or said > 20000:
            stop(f"it has ended with {process.poll()} after {said} edits, or a file never was full")
        os.write(pipe, f"push {said}\n".encode())
        said, more = said + 1, more + (os.path.exists(loud) and os.path.getsize(loud) >= most)
        time.sleep(0.002)


def full(room, seed):
    """One subscriber's file is full while the sessions go on. Its lines end within what it was told; nothing else differs."""
    dice, most = random.Random(seed), 150000
    files, watches = [f"{room}/session{k}" for k in range(4)], [f"{room}/{name}" for name in SUBSCRIBERS]
    # all 64 names of the first change by each edit; those of the others seldom
    some = [[(f"name_{number}", "sum", 0, 2**32 - 1) for number in range(64)]]
    some += [[(f"name_{number}", dice.choice(("least", "greatest")), dice.randrange(1000), 2**32 - 1) for number in range(64)] for _ in range(3)]
    for path, text in [(file, lines_of(dice, 2000)) for file in files[1:]] + list(zip(watches, map(asked, some))):
        put(text, path)
    os.mkfifo(files[0])
    pipe = os.open(files[0], os.O_RDWR)
    options = [word for path in watches for word in ("--watch", path)]
    limit = lambda: resource.setrlimit(resource.RLIMIT_FSIZE, (most, most))
    process = subprocess.Popen([PROGRAM, "serve", *options, *files], stdout=subprocess.PIPE, stderr=subprocess.PIPE, text=True, preexec_fn=limit, restore_signals=False)
    try:
        fed(process, pipe, f"{watches[0]}.out", most)
    finally:
        os.close(pipe)
        transcript, told = process.communicate(timeout=600)
    if process.returncode != 1 or told != f"livevec: fault 14\n'{watches[0]}.out' can't be written\n":
        stop(f"serve ended with {process.returncode}: {told!r}")
    journal = journal_of(transcript, files)
    cut, *others = [compare(journal, ones, text_at(f"{path}.out"), path != watches[0]) for ones, path in zip(some, watches)]
    print(f"notes: one of 4 subscribers could write {most} bytes, {cut[0]} notes: it alone ended, by fault 14; {len(journal)} edits, and {sum(notes for notes, _ in others)} notes of the others, all as they should be", flush=True)


def notes(room):
    """With three seeds, and then with a file that is full."""
    for part, seed in [(noted, SEED), (noted, SEED + 1), (noted, SEED + 2), (full, SEED)]:
        folder = f"{room}/{part.__name__}{seed}"
        os.mkdir(folder)
        part(folder, seed)
