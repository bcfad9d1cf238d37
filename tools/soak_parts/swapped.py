"""Cases of the part `steps`: what lies in the folder of a log is exchanged, locked or served by another program right while a log is made anew or begun, or while it is served."""
import errno
import os
import resource
import shutil
import subprocess
import time

import seals
from soak_parts.logs import check_log
from soak_parts.paced import Paced
from soak_parts.program import PROGRAM, failing, put, ran, stop, text_at

# for failing_writes.c: nothing goes wrong
PASSES = -4
TEXT = "livevec 3 0 0\nj push 5\nj push 6\nj pop\n"
LOG, LONGER, OTHER = seals.seal(TEXT), seals.seal(TEXT + "j push 1\n"), seals.seal("livevec 3 7 1\nj push 777\n")
ONE, TWO = (seals.seal("livevec 3 0 0\n" + pushes) for pushes in ("j push 1\n", "j push 1\nj push 2\n"))
LOST = b"livevec: 'log' can't be written, and no session goes on: this name no longer leads to the log\n"
COMPACT, DROP = ["compact", "log"], ["compact", "--drop-old", "log"]
SERVE, SERVE_DROP = (["serve", *more, "--compact-at", "1", "--log", "log", "session"] for more in ([], ["--drop-old"]))
# what is done at the first flush of the new log, which name it takes, and what has that name then: a file's text, or none
SWAPS = (("mv other log", "log", OTHER), ("ln -sf other log", "log", OTHER), ("rm log", "log", None), ("mv other log.compacting", "log.compacting", OTHER), ("rm log.compacting", "log.compacting", None))


def folder_of(room, name):
    """A folder with a log, another one, and the lines of a session."""
    folder = f"{room}/{name}"
    os.mkdir(folder)
    for name, text in (("log", LOG), ("other", OTHER), ("session", "push 1\n")):
        put(text, f"{folder}/{name}")
    return folder


def meanwhile(room, folder, words, call, at, runs, how=PASSES, **more):
    """A command, at one call of which another runs, which may then fail."""
    came = f"{folder}-came"
    it = ran(words, folder, env=failing(room, call, at, how, runs=f"{runs} && : > {came}"), **more)
    if not os.path.exists(came):
        stop(f"{words} didn't come to {call} {at}, where `{runs}` was to run: status {it.returncode}, {it.stderr!r}")
    os.remove(came)
    return it


def swap(room, words, runs, name, wanted):
    """A name leads elsewhere once the new log is whole: nothing is replaced, which is told, and what was made is removed. A server whose log it was ends, and tells of no update."""
    folder = folder_of(room, "swap")
    it = meanwhile(room, folder, words, "fsync", 1, runs)
    served = words[0] == "serve"
    said = f"'{name}' is no longer the file that livevec {'opened' if name == 'log' else 'created'}".encode()
    ends = not served or name == "log"
    wanted_too = [said] + [b"livevec: the log isn't made anew: "] * served + [b"livevec: fault 14\n"] * ends + [LOST] * (ends and served)
    if it.returncode != ends or not all(text in it.stderr for text in wanted_too) or served and text_at(f"{folder}/session.out") != "edit 4 at 1\n" * (not ends):
        stop(f"{words}, meanwhile `{runs}`: status {it.returncode}, {it.stdout!r}, {it.stderr!r}")
    if text_at(f"{folder}/{name}") != wanted or name == "log" and os.path.lexists(f"{folder}/log.compacting") or os.path.islink(f"{folder}/log") != runs.startswith("ln"):
        stop(f"{words}, meanwhile `{runs}`: {name} has {text_at(f'{folder}/{name}')!r}, beside {os.listdir(folder)}")
    if name != "log" and text_at(f"{folder}/log") != (LONGER if served else LOG):
        stop(f"{words}, meanwhile `{runs}`: the log has {text_at(f'{folder}/log')!r}")
    shutil.rmtree(folder)


def begun_by_another(room):
    """A server makes a log and fails, and another tries that log right before it is removed: it is turned away, or has a log that stays."""
    folder = folder_of(room, "begun")
    os.remove(f"{folder}/log")
    os.mkdir(f"{folder}/log.1")
    shutil.copy(f"{folder}/session", f"{folder}/second")
    it = meanwhile(room, folder, ["serve", "--log", "log", "session"], "unlink", 1, f"{{ {PROGRAM} serve --drop-old --log log second; echo $? > status; }}")
    status = text_at(f"{folder}/status")
    if it.returncode != 2 or status == "0\n" and text_at(f"{folder}/log") != ONE or status == "2\n" and os.path.exists(f"{folder}/log"):
        stop(f"a log that is removed was served meanwhile: status {it.returncode} and {status!r}, {it.stderr!r}, {os.listdir(folder)}")
    shutil.rmtree(folder)


def served_before_the_lock(room):
    """A server makes a log, which another serves and ends before the first has locked it. The first can't begin, and the log stays; or it is to be a transcript, and is emptied."""
    for words, status, wanted in ((["--log"], 2, TWO), (["--transcript"], 0, "livevec 1\nj push 1\nend\n")):
        folder = folder_of(room, "before")
        os.remove(f"{folder}/log")
        os.mkdir(f"{folder}/log.1")
        put("push 1\npush 2\n", f"{folder}/second")
        it = meanwhile(room, folder, ["serve", *words, "log", "session"], "flock", 1, f"{PROGRAM} serve --drop-old --log log second")
        if it.returncode != status or text_at(f"{folder}/log") != wanted:
            stop(f"{words} of a log that was served before the lock: status {it.returncode}, {it.stderr!r}, {text_at(f'{folder}/log')!r}")
        shutil.rmtree(folder)


def left_behind(room):
    """A log that was made has another name when its first line can't be written: it is left, and that is told."""
    folder = folder_of(room, "left")
    os.remove(f"{folder}/log")
    it = meanwhile(room, folder, ["serve", "--log", "log", "session"], "write", 1, "mv log made && cp other log", errno.ENOSPC)
    if it.returncode != 1 or b"\n'log' was created by this command, and isn't removed: another file may have its name by now\n" not in it.stderr or text_at(f"{folder}/log") != OTHER:
        stop(f"a log that was made and moved: status {it.returncode}, {it.stderr!r}, {os.listdir(folder)}")
    shutil.rmtree(folder)


def unflushed(room):
    """The folder can't be flushed once the new log has its name: that it has is told."""
    folder = folder_of(room, "unflushed")
    it = meanwhile(room, folder, COMPACT, "fsync", 2, ":", errno.EIO)
    if it.returncode != 1 or b"'log' was replaced by a new log, but its folder can't be flushed to the disk" not in it.stderr or text_at(f"{folder}/log") != seals.seal("livevec 3 3 1\nj push 5\n"):
        stop(f"a folder that can't be flushed: status {it.returncode}, {it.stderr!r}, {text_at(f'{folder}/log')!r}")
    shutil.rmtree(folder)
    # with --sync a transcript's name is on the disk too: its folder is what is flushed by this call
    folder = folder_of(room, "synced")
    it = meanwhile(room, folder, ["serve", "--sync", "--transcript", "kept", "session"], "fsync", 1, ":", errno.EIO)
    if it.returncode != 1 or b"'kept' can't be served: its folder can't be flushed to the disk" not in it.stderr or os.path.exists(f"{folder}/kept"):
        stop(f"a transcript's folder that can't be flushed: status {it.returncode}, {it.stderr!r}, {os.listdir(folder)}")
    shutil.rmtree(folder)


def private(room):
    """Nobody but its owner may open the new log while it is filled; once it is in place, whoever might open the old one may open it."""
    folder = folder_of(room, "private")
    os.chmod(f"{folder}/log", 0o640)
    it = meanwhile(room, folder, COMPACT, "write", 1, "test $(stat -c %a log.compacting) = 600")
    if it.returncode != 0 or os.stat(f"{folder}/log").st_mode & 0o777 != 0o640:
        stop(f"a log that some may read: status {it.returncode}, {it.stderr!r}, {os.stat(f'{folder}/log')}")
    shutil.rmtree(folder)


def removed_while_locked(room):
    """A new log that can't be filled is locked until it is removed."""
    folder = folder_of(room, "locked")
    few = {"preexec_fn": lambda: resource.setrlimit(resource.RLIMIT_FSIZE, (0, 0)), "restore_signals": False}
    it = meanwhile(room, folder, COMPACT, "unlink", 1, "{ flock -n log.compacting true; test $? = 1; }", **few)
    if it.returncode != 1 or text_at(f"{folder}/log") != LOG or os.path.exists(f"{folder}/log.compacting"):
        stop(f"a new log that can't be filled: status {it.returncode}, {it.stderr!r}, {os.listdir(folder)}")
    shutil.rmtree(folder)


def written_since(room, words):
    """A server makes a file of replies and waits for what a subscriber asks, while another serves that file as a log, and ends: the file is refused, and stays."""
    folder = folder_of(room, "since")
    os.mkfifo(f"{folder}/later")
    shutil.copy(f"{folder}/session", f"{folder}/second")
    with subprocess.Popen([PROGRAM, "serve", *words, "--watch", "later", "session"], cwd=folder, stdin=subprocess.DEVNULL, stdout=subprocess.PIPE, stderr=subprocess.PIPE) as first:
        while first.poll() is None and not os.path.exists(f"{folder}/session.out"):
            time.sleep(0.01)
        second = ran(["serve", "--log", "session.out", "second"], folder)
        os.close(os.open(f"{folder}/later", os.O_RDWR))
        told, said = first.communicate(timeout=600)
    if second.returncode or first.returncode != 2 or told or b"error: 'session.out' was created by this command, and another program has written to it since: rename one of the two\n" not in said or text_at(f"{folder}/session.out") != ONE:
        stop(f"{words}, replies that another has written: status {second.returncode} and {first.returncode}, {told!r}, {said!r}, {text_at(f'{folder}/session.out')!r}")
    if sorted(os.listdir(folder)) != ["later", "log", "other", "second", "second.out", "session", "session.out"] or text_at(f"{folder}/log") != LOG:
        stop(f"{words}, replies that another has written: {os.listdir(folder)}, {text_at(f'{folder}/log')!r}")
    shutil.rmtree(folder)


def lost_while_served(room, runs, wanted):
    """A log is moved, replaced or removed while it is served: some lines later, and within some seconds, the server ends, and each update that it told of is in the file that it had."""
    folder = folder_of(room, "lost")
    log, kept, first = (f"{folder}/{name}" for name in ("log", "kept", "first"))
    server = Paced([PROGRAM, "serve", "--log", log, first], folder, [first])
    if not server.turn([["push 1"]]):
        stop(f"a server said {text_at(server.said)!r}")
    os.link(log, kept)
    subprocess.run(runs, shell=True, cwd=folder, check=True)
    came = time.monotonic()
    while server.turn([["push 2"]]):
        if time.monotonic() - came > 5:
            stop(f"`{runs}` while a log is served: nothing was said of it for 5 s")
        time.sleep(0.01)
    status, said = server.end()
    now = None if os.path.islink(log) else text_at(log)
    if status != 1 or LOST.replace(b"log", log.encode(), 1) not in said or b"livevec: fault 14\n" not in said or now != wanted:
        stop(f"`{runs}` while a log is served: status {status}, {said!r}, {now!r}")
    there = check_log(kept, [f"{first}.out"], 3)
    if there.told != list(range(4, 4 + len(there.told))) or there.last() < 4:
        stop(f"`{runs}` while a log is served: {there.told} were told of, and {there.last()} is the last")
    shutil.rmtree(folder)


def swapped(room):
    """Each of these. Says how many."""
    cases = [(words, *case) for words in (COMPACT, DROP, SERVE, SERVE_DROP) for case in SWAPS]
    for case in cases:
        swap(room, *case)
    others = (begun_by_another, served_before_the_lock, left_behind, unflushed, private, removed_while_locked)
    for case in others:
        case(room)
    sorts = ([], ["--transcript", "kept"], ["--log", "log"])
    for words in sorts:
        written_since(room, words)
    losses = (("mv log moved", None), ("rm log", None), ("mv other log", OTHER), ("mv log moved && ln -s moved log", None))
    for case in losses:
        lost_while_served(room, *case)
    return len(cases) + len(others) + len(sorts) + len(losses)
