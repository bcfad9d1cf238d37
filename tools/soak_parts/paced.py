"""Sessions over FIFOs, whose client sends some lines to each, waits for all replies, and only then sends more."""
import contextlib
import os
import subprocess
import time

from soak_parts.program import but_start, stop


class Paced:
    """A server whose sessions are FIFOs. What is sent after a reply can't be in the log's write before it, so each turn with an update has a write of its own.
    A reply, an error or an end that hasn't come after the longest wait, in seconds, is the failure."""

    def __init__(self, words, folder, names, env=None, longest=60):
        # a session ends with its client here, also where the server goes on from a log
        words = [*words[:2], "--once", *words[2:]] if "--log" in words else words
        self.longest, self.names, self.said, self.printed = longest, names, f"{folder}/said", f"{folder}/printed"
        self.outs, self.sent, self.counts = ([it] * len(names) for it in (None, 0, 0))
        for name in names:
            os.mkfifo(name)
        # opened for both directions, so that neither side waits for the other to open it
        self.lines = [os.open(name, os.O_RDWR | os.O_CLOEXEC) for name in names]
        with open(self.printed, "wb") as printed, open(self.said, "wb") as said:
            self.process = subprocess.Popen(words, env=env, stdin=subprocess.DEVNULL, stdout=printed, stderr=said)

    def has_said(self):
        """Whether standard error has anything but with what the server begins."""
        with open(self.said, "rb") as said:
            return but_start(said.read()) != b""

    def replies(self, at):
        """How many replies a session has."""
        if self.outs[at] is None and os.path.exists(f"{self.names[at]}.out"):
            self.outs[at] = os.open(f"{self.names[at]}.out", os.O_RDONLY | os.O_CLOEXEC)
        if self.outs[at] is not None:
            while data := os.read(self.outs[at], 1 << 16):
                self.counts[at] += data.count(b"\n")
        return self.counts[at]

    def turn(self, batches):
        """Sends some lines to each session, and waits until each has as many replies as it was sent lines. False if the server says something on standard
        error or ends instead."""
        for at, batch in enumerate(batches):
            self.sent[at] += len(batch)
            if batch:
                os.write(self.lines[at], ("\n".join(batch) + "\n").encode())
        for _ in self.naps("hasn't replied"):
            if all(self.replies(at) >= count for at, count in enumerate(self.sent)):
                return True
            if self.has_said() or self.process.poll() is not None:
                return False

    def naps(self, what):
        """Waits, ever longer. Only these naps are counted, so that a machine that holds all processes for a while is no failure."""
        slept, nap = 0, 0.00005
        while slept < self.longest:
            yield
            time.sleep(nap)
            slept, nap = slept + nap, min(nap * 1.5, 0.005)
        self.kill()
        stop(f"{self.names}: the server {what} after {self.longest} s: {self.counts} of {self.sent} replies, {open(self.said).read()!r}")

    def end(self):
        """Ends the sessions, and says with which status the server ended and what it said but with what it begins."""
        for line in self.lines:
            os.close(line)
        self.lines = []
        for _ in self.naps("hasn't ended with its sessions"):
            if self.process.poll() is not None:
                break
            self.come_and_go()
        self.close()
        with open(self.said, "rb") as said:
            return self.process.returncode, but_start(said.read())

    def come_and_go(self):
        """Has a client come to each pipe and go. A session that has opened its pipe only after its own client went would wait for one."""
        for name in self.names:
            with contextlib.suppress(OSError):
                os.close(os.open(name, os.O_WRONLY | os.O_NONBLOCK | os.O_CLOEXEC))

    def kill(self):
        """Kills the server."""
        self.process.kill()
        self.process.wait()
        self.close()

    def close(self):
        for opened in self.lines + [out for out in self.outs if out is not None]:
            os.close(opened)
        self.lines, self.outs = [], [None] * len(self.names)
