"""A part of a compaction and of a server's start, which are killed before each of their calls that change a file, or of which each such call fails."""
import errno
import os
import shutil
import signal
from concurrent.futures import ProcessPoolExecutor

import seals
from soak_parts.logs import Log, check_log
from soak_parts.program import but_start, failing, library, put, ran, stop
from soak_parts.swapped import swapped

# for failing_writes.c: the program is killed before the call
KILLED = -3
OLD = "livevec 2 40 2\n" + "".join(f"j {edit}\n" for edit in ("push 5", "push -6", "push 7", "swap 0 2", "write 1 9", "pop", "push 8"))
LOG = seals.seal(OLD)
# what may be next to a log: an older one, what a killed compaction left, and an end that isn't whole; or the log is one of version 2
PLACES = ("alone", "kept", "linked", "compacting", "torn", "old")
COMMANDS = (["compact", "log"], ["compact", "--drop-old", "log"], ["serve", "--sync", "--log", "log", "session"])


def prepare(folder, place):
    """A folder with a log, and with what lies beside it."""
    os.mkdir(folder)
    put(OLD if place == "old" else LOG + "j push 12" * (place == "torn"), f"{folder}/log")
    for name, count in (("session", 3), ("second", 2)):
        put("push 1\n" * count, f"{folder}/{name}")
    if place == "kept":
        put("livevec 2 0 0\n", f"{folder}/log.1")
    elif place == "linked":
        os.link(f"{folder}/log", f"{folder}/log.1")
    if place in ("linked", "compacting"):
        put("livevec 2 43", f"{folder}/log.compacting")


def step_one(room, case):
    """One command of which one call goes wrong. Says whether it came to that."""
    place, words, how, at = case
    folder = f"{room}/{place}{COMMANDS.index(words)}{how}-{at}"
    prepare(folder, place)
    old = Log(f"{folder}/log")
    first = ran(words, folder, env=failing(room, "any", at, how, told=f"{folder}/told"))
    came = os.path.exists(f"{folder}/told")
    wanted = 0 if not came else -signal.SIGKILL if how == KILLED else 1
    if first.returncode != wanted or wanted == 1 and b"livevec: fault 14\n" not in first.stderr:
        stop(f"{case}: status {first.returncode}, {first.stderr!r}")
    log = check_log(f"{folder}/log", [f"{folder}/session.out"], old.last())
    more = log.last() - old.last()
    if log.list() != old.list() + [1] * more or more > 3 * (words[0] == "serve"):
        stop(f"{case}: {old.list()} at {old.last()} became {log.list()} at {log.last()}")
    # a server goes on with it, and a compaction does so then
    for name, next_words in (("second", ["serve", "--log", "log", "second"]), (None, ["compact", "log"])):
        then = ran(next_words, folder)
        if then.returncode or but_start(then.stderr) and not but_start(then.stderr).endswith(b"cut off\n"):
            stop(f"{case}, then {next_words}: status {then.returncode}, {then.stderr!r}")
        now = check_log(f"{folder}/log", [f"{folder}/{name}.out"] if name else [], log.last())
        if now.list() != log.list() + [1, 1] or now.last() != log.last() + 2 or name and now.told != [log.last() + 1, log.last() + 2]:
            stop(f"{case}, then {next_words}: {log.list()} at {log.last()} became {now.list()} at {now.last()}")
    if os.path.exists(f"{folder}/log.compacting") or os.stat(f"{folder}/log").st_nlink != 1:
        stop(f"{case}: {os.listdir(folder)} are left")
    shutil.rmtree(folder)
    return came


def step_each(room, place, words, how):
    """The same for each of the command's calls. Says how many there are."""
    at = 1
    while step_one(room, (place, words, how, at)):
        at += 1
    return at - 1


def steps(room):
    """A compaction and a server's start are killed before each of their calls, or each call fails: the log is the old one or the new one, and is gone on with.
    Then files are exchanged meanwhile."""
    library(room)
    runs = [(place, words, how) for place in PLACES for words in COMMANDS for how in (KILLED, errno.EIO)]
    with ProcessPoolExecutor(4) as lanes:
        counts = list(lanes.map(step_each, [room] * len(runs), *zip(*runs)))
    if min(counts) < 4:
        stop(f"no more than {min(counts)} calls were counted: {runs[counts.index(min(counts))]}")
    kills = sum(count for count, run in zip(counts, runs) if run[2] == KILLED)
    print(f"steps: {kills} kills before a call and {sum(counts) - kills} calls that failed, of compact and of a server on {len(PLACES)} logs: each had its elements and numbers, and was gone on with")
    print(f"steps: in {swapped(room)} other runs files were exchanged, or could not be flushed, while a log was made anew, begun or served: no other file was replaced or removed, and it was told")
