"""A part of writes and flushes of a log that go wrong, each of the first in turn."""
import errno
import os
import random
import shutil
from concurrent.futures import ProcessPoolExecutor

from soak_parts.logs import QUERIES, Log, check_log
from soak_parts.paced import Paced
from soak_parts.program import PROGRAM, SEED, but_start, failing, knob, library, put, ran, session, stop

FAULTS = knob("SOAK_FAULTS", 200)
# what the library knows besides the errors' numbers: a write that takes half of its bytes, one after which the next fails, and one that
# takes none and says that it took all
SHORT, TORN, DROPPED = 0, -1, -2
KINDS = [("write", how) for how in (errno.ENOSPC, errno.EIO, SHORT, TORN, errno.EINTR, errno.EAGAIN)] + [("sync", how) for how in (errno.EIO, errno.ENOSPC, errno.EINTR)]
PASSING = (SHORT, errno.EINTR, errno.EAGAIN)


def words_of(case, folder, names):
    """The command of a run: with --sync if flushes go wrong and in half of the other runs, with --log-answers in half of all."""
    call, how, at = case
    is_synced = call == "sync" or at % 2 == 0
    return ["serve", "--log", f"{folder}/log", "--watch", f"{folder}/w", *names] + ["--sync"] * is_synced + ["--log-answers"] * (at % 4 > 1)


def served_in_turns(case, server, dice):
    """Has two sessions sent some lines in each turn, one of them an update, until the log has had more calls than the one that goes wrong: its first
    line takes one, and each turn one more. Says whether all were replied."""
    lines = session(dice, 4 * case[2] + 40).splitlines()
    for _ in range(case[2] + 2):
        count = dice.randrange(4)
        batch, lines = lines[:count], lines[count:]
        if not server.turn([[f"push {dice.randrange(-2**63, 2**63)}"], batch]):
            return False
    return True


def fault_one(room, case):
    """A server of which one write or flush of the log goes wrong. Says whether it came to that."""
    call, how, at = case
    folder = f"{room}/{call}{how}-{at}"
    os.mkdir(folder)
    shutil.copy(f"{room}/w", f"{folder}/w")
    names, log = [f"{folder}/{name}" for name in ("a", "b")], f"{folder}/log"
    outs = [f"{name}.out" for name in names + [f"{folder}/w"]]
    words = words_of(case, folder, names)
    server = Paced([PROGRAM, *words], folder, names, failing(room, call, at, how, file="/log", told=f"{folder}/told"))
    is_whole = served_in_turns(case, server, random.Random(f"{SEED} {case}"))
    is_told, came = server.has_said(), os.path.exists(f"{folder}/told")
    status, said = server.end()
    # the server that goes on reads the log as an audit does, and what is there then is audited
    kept = check_log(log, outs, 0, at % 10 == 1) if os.path.exists(log) else None
    if came and how not in PASSING + (DROPPED,):
        # a failure before anything is served is the fault alone; any other is told while the sessions could still send
        if status != 1 or is_whole or not is_told or b"livevec: fault 14\n" not in said or at > 1 and b"can't be written, and no session goes on" not in said:
            stop(f"{case}: status {status}, {said!r}")
    elif status or said or os.path.getsize(server.printed) or not is_whole or kept.told != list(range(1, kept.last() + 1)) or kept.answers != kept.asked * ("--log-answers" in words):
        stop(f"{case}: status {status}, {said!r}, {len(kept.told)} replies of {len(kept.edits)} updates")
    if came:
        gone_on(case, room, words, names, log, outs)
    shutil.rmtree(folder)
    return came


def gone_on(case, room, words, names, log, outs):
    """The same command goes on with the log, from its last number."""
    before = Log(log).last() if os.path.exists(log) else 0
    for name in names:
        os.remove(name)
        shutil.copy(f"{room}/{os.path.basename(name)}", name)
    again = ran(words)
    if again.returncode or again.stdout or but_start(again.stderr) and not but_start(again.stderr).endswith(b"cut off\n"):
        stop(f"{case}: then status {again.returncode}, {again.stderr!r}")
    after = check_log(log, outs, before)
    if after.told != list(range(before + 1, after.last() + 1)) or not after.told:
        stop(f"{case}: then {after.told} are the updates behind {before} of {after.last()}")


def faults(room):
    """One write or one flush of a log goes wrong, each of the first in turn: no reply tells of what the log hasn't got."""
    dice = random.Random(SEED)
    for name in ("a", "b"):
        put("push 1\n" + session(dice, 25), f"{room}/{name}")
    put(QUERIES, f"{room}/w")
    library(room)
    cases = [(call, how, at) for call, how in KINDS for at in range(1, FAULTS + 1)]
    with ProcessPoolExecutor(4) as lanes:
        came = list(lanes.map(fault_one, [room] * len(cases), cases))
    missed = [case for case, is_met in zip(cases, came) if not is_met]
    if missed:
        stop(f"{len(missed)} of {len(cases)} runs didn't come to their call: {missed[:5]}..")
    found_out(room)
    print(f"faults: {len(cases)} runs, of which {sum(came)} came to the call that went wrong: each told what its log has, by its status too, and was gone on with; "
          "and three writes that were dropped in silence were found out")


def found_out(room):
    """What is tried here can fail: of a write that is dropped in silence a reply tells what the log hasn't got."""
    for at in (2, 40, 80):
        try:
            fault_one(room, ("write", DROPPED, at))
        except SystemExit:
            continue
        stop(f"write {at} was dropped, and nothing was said of it")
