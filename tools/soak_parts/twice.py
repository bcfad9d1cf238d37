"""A part of several servers and compactions on one log."""
import os
import random
import subprocess
import time

import seals
from soak_parts.logs import Log, check_log
from soak_parts.paced import Paced
from soak_parts.program import PROGRAM, ROUNDS, SEED, but_start, put, ran, receipts, session, stop

LOCKED = b"is locked by another program, such as a server that writes it"


def files_in(folder):
    """The files of a folder, with what each has and when it was written last."""
    found = {}
    for name in sorted(os.listdir(folder)):
        state = os.lstat(f"{folder}/{name}")
        kept = open(f"{folder}/{name}", "rb").read() if os.path.isfile(f"{folder}/{name}") else b""
        found[name] = (state.st_ino, state.st_mtime_ns, kept)
    return found


def turned_away(folder, words):
    """Runs a second program on a log that is served, and sees that it is told so and touches no file. Says how many seconds that takes."""
    before, began = files_in(folder), time.monotonic()
    it = ran(words, folder)
    took = time.monotonic() - began
    if it.returncode != 2 or it.stdout or LOCKED not in it.stderr or files_in(folder) != before:
        changed = [name for name in {**before, **files_in(folder)} if before.get(name) != files_in(folder).get(name)]
        stop(f"{words} on a served log: status {it.returncode}, {it.stdout!r}, {it.stderr!r}; changed: {changed}")
    return took


def beside_one(folder, dice, turn):
    """A server is asked now and then while others try its log, and is then ended or killed. Says how often others tried, and the longest that one took."""
    os.makedirs(f"{folder}/other/deep", exist_ok=True)
    for name, text in (("second", "push 2\n"), ("second.out", "kept\n"), ("third", "push 3\n")):
        put(text, f"{folder}/{name}")
    before, log = Log(f"{folder}/log").last(), f"{folder}/log"
    server, number, took = Paced([PROGRAM, "serve", "--log", log, f"{folder}/first"] + ["--sync"] * (turn % 2), folder, [f"{folder}/first"]), before, []
    for words in (["serve", "--log", "log", "second"], ["compact", "log"], ["serve", "--log", "other/../log", "third"], ["compact", "--drop-old", "./log"], ["serve", "--sync", "--log", log, "third"], ["serve", "--transcript", "log", "second"]):
        number += 1
        if not server.turn([[f"push {dice.randrange(-99, 99)}"]]):
            stop(f"the first server said {open(server.said).read()!r}")
        took.append(turned_away(folder, words))
    if turn % 3:
        server.kill()
    elif server.end() != (0, b""):
        stop(f"the first server said {open(server.said).read()!r}")
    told = check_log(log, [f"{folder}/first.out"], before).told
    if told != list(range(before + 1, number + 1)):
        stop(f"the first server told of {told}, where {before + 1} to {number} were wanted")
    for name in ("first", "first.out"):
        os.remove(f"{folder}/{name}")
    return took


def at_once(folder, dice, turn):
    """Six servers and two compactions are started together on one log. Says how many of them came to it, and how many were turned away."""
    before, runs, names = Log(f"{folder}/log").last(), [], [f"race{k}" for k in range(6)]
    for name in names:
        put("push 1\n" + session(dice, dice.choice((0, 20, 2000))), f"{folder}/{name}")
        if os.path.exists(f"{folder}/{name}.out"):
            os.remove(f"{folder}/{name}.out")
    commands = [["serve", "--log", "log", name] + ["--sync"] * dice.randrange(2) for name in names] + [["compact", "log"], ["compact", "--drop-old", "log"]]
    dice.shuffle(commands)
    for words in commands:
        runs.append((words, subprocess.Popen([PROGRAM, *words], cwd=folder, stdin=subprocess.DEVNULL, stdout=subprocess.PIPE, stderr=subprocess.PIPE)))
        time.sleep(dice.choice((0, 0, 0.02)))
    told, served, away = [], 0, 0
    for words, process in runs:
        _, said = process.communicate(timeout=600)
        name = words[3] if words[0] == "serve" else None
        if process.returncode == 2 and LOCKED in said and not (name and os.path.exists(f"{folder}/{name}.out")):
            away += 1
        elif process.returncode == 0 and not but_start(said):
            served += 1
            told += receipts([f"{folder}/{name}.out"]) if name else []
        else:
            stop(f"{words} beside others: status {process.returncode}, {said!r}")
    last = check_log(f"{folder}/log", [], 0).last()
    if not served or sorted(told) != list(range(before + 1, last + 1)):
        stop(f"of {len(runs)} at once {served} told of {len(told)} updates between {before} and {last}")
    return served, away


def beside_its_log(folder, name, tries):
    """A server has the file that another log's old or new file would take: that log isn't made anew, neither by its own server nor otherwise, and each update
    of the first is there. Says how long others took until they were turned away."""
    os.makedirs(f"{folder}/deep")
    empty = seals.seal("livevec 3 0 0\n")
    for place, text in (("x", empty), (f"x.{name}", empty), ("third", "push 3\n")):
        put(text, f"{folder}/{place}")
    log, beside, told = f"{folder}/x", f"{folder}/x.{name}", 0
    own = Paced([PROGRAM, "serve", "--compact-at", "100", "--log", log, f"{folder}/first"], folder, [f"{folder}/first"])
    # it has looked beside its log before another server comes
    if not own.turn([["push 1"]]):
        stop(f"the server beside whose log x.{name} is to be served said {open(own.said).read()!r}")
    other = Paced([PROGRAM, "serve", "--log", beside, f"{folder}/deep/second"], f"{folder}/deep", [f"{folder}/deep/second"])
    while other.turn([["push 2"]]) and own.turn([["push 1"]]) and told < 99:
        told += 1
    said = f"livevec: the log isn't made anew: '{log}.{name}' is locked by another program, such as a server that writes it".encode()
    status, text = own.end()
    if status or said not in text:
        stop(f"a server beside whose log x.{name} is served: status {status}, {text!r}")
    took = [turned_away(folder, words) for words in tries]
    if not other.turn([["push 2"]]) or other.end() != (0, b"") or Log(beside).list() != [2] * (told + 2) or not set(Log(log).list()) <= {1}:
        stop(f"the server of x.{name} said {open(other.said).read()!r}, and there are {Log(beside).list()} after {told + 2} updates")
    return took


def twice(room):
    """Several programs on one log: one at a time has it, and any other is told at once, before a file is touched."""
    dice, took, had, away = random.Random(SEED), [], 0, 0
    took += beside_its_log(f"{room}/kept", "1", (["compact", "x"], ["serve", "--log", "x", "third"]))
    took += beside_its_log(f"{room}/made", "compacting", (["compact", "x"], ["compact", "--drop-old", "x"], ["serve", "--drop-old", "--log", "x", "third"]))
    for turn in range(ROUNDS // 10):
        took += beside_one(room, dice, turn)
        served, others = at_once(room, dice, turn)
        had, away = had + served, away + others
    print(f"twice: {len(took)} tries on a log that was served were turned away, after {max(took):.2f} s at most, with no file touched; of {had + away} started together "
          f"{had} had the log, one after the other, and {away} were turned away; no number came twice")
