"""Parts of logs that a server goes on from: a chain of kills."""
import os
import random
import signal
import subprocess
import time

import seals
from soak_parts.program import PROGRAM, SEED, but_start, knob, made_by, put, session, stop, told, whole_lines

KILLS = knob("SOAK_KILLS", 100)
# of so many lines at each end of a log the seals are looked at; that `audit --front` accepts a log shows them all to be what the program takes for right
CHECKED = 1000
SIGNALS = (signal.SIGKILL, signal.SIGTERM, signal.SIGINT)
QUERIES = "".join(f"watch {kind} {kind} last 50\n" for kind in ("sum", "least", "greatest", "best")) + "watch all sum 0 1000000\n"


def unsealed(path):
    """The whole lines of a log without their seals, which only version 3 has."""
    lines = whole_lines(path)
    if not lines or not lines[0].startswith("livevec 3 "):
        return lines
    begin = max(len(lines) - CHECKED, 1)
    if seals.first_wrong(lines[:CHECKED]) or seals.first_wrong(lines[begin:], lines[begin - 1]):
        stop(f"{path} has a line with a wrong seal, among its first or its last {CHECKED}")
    return [line[:-seals.WIDTH] for line in lines]


class Log:
    """What a log has: its version, its base, how many of its updates are elements, its updates, and its answers."""

    def __init__(self, path):
        lines = unsealed(path)
        words = lines[0].split() if lines else ["livevec", "3", "0", "0"]
        if words[0] != "livevec" or words[1] not in ("2", "3"):
            stop(f"{path} begins with {lines[0]!r}")
        self.version, self.base, self.elements = map(int, words[1:])
        self.edits = [line[2:] for line in lines if line.startswith("j ")]
        self.answers = sum(line.startswith("a ") for line in lines)

    def last(self):
        """The number of its last update."""
        return self.base + len(self.edits) - self.elements

    def edit(self, number):
        return self.edits[number - self.base + self.elements - 1]

    def list(self):
        """The elements after its updates, by a plain list."""
        return made_by(self.edits)


MADE = {"at": "push", "value": "pop", "was": "write", "capacity": "reserve", "now": "swap", "dropped": "truncate"}


def audit(path, log):
    """Sees that the program finds in a log what there is."""
    verdict = told(["audit", "--front"], open(path, "rb").read()).stdout.decode()
    wanted = f"log {log.base} base {log.elements} elements {len(log.edits) - log.elements} edits {log.answers} answers\n"
    if verdict != wanted and (os.path.getsize(path) or verdict != "front 0 edits 0 answers\n"):
        stop(f"a log was called {verdict!r}, and has {wanted!r}")


def check_log(path, outs, before, is_audited=True):
    """Sees that a log is sound, and that it has what replies and notes told of, behind the update of a number. Says what it has, which updates sessions
    were told of, and how many of their lines were answered by a reduction."""
    log, seen, asked = Log(path), [], 0
    if is_audited:
        audit(path, log)
    for out in outs:
        for line in whole_lines(out):
            words = line.split()
            if words[0] == "edit":
                # what was made anew no longer tells of the updates up to its base
                if int(words[1]) > log.last() or int(words[1]) > log.base and not log.edit(int(words[1])).startswith(MADE[words[2]]):
                    stop(f"{out} tells of {line!r}, which the log hasn't: its last is {log.last()}")
                seen.append(int(words[1]))
            elif words[0] == "at" and int(words[1]) > log.last():
                stop(f"{out} tells of {line!r}, and the log's last update is {log.last()}")
            asked += words[0] == "at" and not out.endswith("/w.out")
    if len(set(seen)) != len(seen) or seen and min(seen) <= before:
        stop(f"updates behind {before} were told of under the numbers {sorted(seen)[:5]}..")
    log.told, log.asked = sorted(seen), asked
    return log


def compact(room, dice, took):
    """Compacts a log, or kills what does so at some moment, and sees that it has what it had. Says whether it was killed; how long compactions took that
    weren't is noted."""
    old, began = Log(f"{room}/log"), time.monotonic()
    process = subprocess.Popen([PROGRAM, "compact", f"{room}/log"] + dice.choice(([], ["--drop-old"])), stdout=subprocess.DEVNULL)
    is_cut = len(took) > 1 and dice.random() < 0.7
    if is_cut:
        time.sleep(dice.random() * sum(took[-2:]) / 2)
        process.kill()
    status = process.wait()
    if status not in ((0, -signal.SIGKILL) if is_cut else (0,)):
        stop(f"compact ended with {status}")
    if not is_cut:
        took.append(time.monotonic() - began)
    new = check_log(f"{room}/log", [], 0)
    if new.last() != old.last() or new.list() != old.list():
        stop(f"after compact a log ends at {new.last()}, and before at {old.last()}")
    return status != 0


def check_end(process, printed, said):
    """Sees that a server with a log ended well or by a signal, and said nothing but with what it begins, and that a line was cut off."""
    said = but_start(said)
    if process.returncode > 0 or printed or said.count(b"\n") != said.count(b"cut off\n"):
        stop(f"serve --log ended with {process.returncode}, after {printed[:100]!r} and {said[:200]!r}")


class Chain:
    """A log that one server after the other goes on with, and what was tried and seen."""

    def __init__(self, room):
        self.log, self.dice = f"{room}/log", random.Random(SEED)
        self.names, self.watched = [f"{room}/{name}" for name in ("a", "b")], f"{room}/w"
        self.outs = [f"{name}.out" for name in self.names + [self.watched]]
        self.sessions = ["truncate 100\n" + session(self.dice, 60000) for _ in range(6)]
        self.runs = self.kills = self.synced = self.ends = self.updates = self.told = self.highest = 0
        put(QUERIES, self.watched)

    def size(self):
        return os.path.getsize(self.log) if os.path.exists(self.log) else 0

    def serve(self):
        """Has a server go on with the log, kills it at some moment by one of three signals, and sees what the log has."""
        for name, lines in zip(self.names, self.dice.sample(self.sessions, 2)):
            put(lines, name)
        before, size, is_synced = Log(self.log).last(), self.size(), self.runs % 2
        if before < self.highest:
            stop(f"update {self.highest} was told of, and the log's last is {before}")
        words = ["serve", "--log", self.log, "--watch", self.watched, *self.names] + ["--sync"] * is_synced + ["--log-answers"] * (self.runs // 2 % 2)
        process = subprocess.Popen([PROGRAM, *words], stdout=subprocess.PIPE, stderr=subprocess.PIPE)
        # some are killed as they start, and most once they have written some part of what they are sent
        more = self.dice.randrange(200000) if self.runs % 8 > 1 else -1
        while process.poll() is None and self.size() <= size + more:
            time.sleep(0.0005)
        time.sleep(self.dice.random() * 0.02)
        process.send_signal(self.dice.choice(SIGNALS))
        printed, said = process.communicate()
        check_end(process, printed, said)
        is_killed = process.returncode < 0
        self.runs, self.kills, self.synced, self.ends = self.runs + 1, self.kills + is_killed, self.synced + (is_killed and is_synced), self.ends + (not is_killed)
        if os.path.exists(self.log):
            kept = check_log(self.log, self.outs, before)
            self.updates, self.told, self.highest = self.updates + kept.last() - before, self.told + len(kept.told), max([self.highest, *kept.told])
        put("", *self.outs)


def logs(room):
    """One log is gone on with by one server after the other, each of which is killed; now and then it is compacted, which is killed too."""
    # a shell that runs this in the background has it ignore SIGINT, and servers would too
    signal.signal(signal.SIGINT, signal.default_int_handler)
    chain, cuts, took = Chain(room), 0, []
    while chain.kills < KILLS:
        if chain.ends > 4 * KILLS:
            stop("the program ends before it can be killed")
        chain.serve()
        if chain.size() and chain.dice.random() < 0.4:
            cuts += compact(room, chain.dice, took)
        if whole_lines(chain.log) and chain.dice.random() < 0.1:
            open(chain.log, "ab").write(b"j push 12")
    print(f"logs: {chain.kills} kills of one server after the other, {chain.synced} of them with --sync, and {chain.ends} ends; {cuts} kills of compact and {len(took)} ends; "
          f"{chain.updates} updates, {chain.told} of which were told of: none of these was lost, and no number came twice")
