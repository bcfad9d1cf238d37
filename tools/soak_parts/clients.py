"""A part about the clients of `serve --log`: many that come to one pipe one after the other, some that are killed within a line, some that never come, and
a thousand at once."""
import os
import resource
import signal
import subprocess
import sys
import time

from soak_parts.logs import Log
from soak_parts.program import PROGRAM, knob, made_by, ran, receipts, stop, whole_lines

CLIENTS = knob("SOAK_CLIENTS", 1000)

# writes a text to a pipe, and waits to be killed
WRITER = "import os, signal, sys; os.write(os.open(sys.argv[1], os.O_WRONLY), sys.argv[2].encode()); signal.pause()"


class Server:
    """A server whose sessions are pipes, until it is ended by a signal."""

    def __init__(self, folder, count):
        os.mkdir(folder)
        self.folder, self.names = folder, [f"p{at}" for at in range(count)]
        for name in self.names:
            os.mkfifo(self.at(name))
        with open(self.at("said"), "w") as said:
            self.process = subprocess.Popen([PROGRAM, "serve", "--clients", str(max(count, 16)), "--log", "log", *self.names], cwd=folder, stdin=subprocess.DEVNULL, stderr=said)
        self.wait_for(lambda: f"ready, {count} clients" in open(self.at("said")).read(), "isn't ready")

    def at(self, name):
        return f"{self.folder}/{name}"

    def write(self, name, text):
        """A client that comes, writes, and goes."""
        with open(self.at(name), "w") as pipe:
            pipe.write(text)

    def wait_for(self, test, what, seconds=120):
        began = time.monotonic()
        while not test():
            if self.process.poll() is not None or time.monotonic() - began > seconds:
                self.process.kill()
                stop(f"{self.folder}: the server {what}: {open(self.at('said')).read()[:300]!r}")
            time.sleep(0.005)

    def wait_for_replies(self, name, count):
        self.wait_for(lambda: len(whole_lines(self.at(f"{name}.out"))) >= count, f"hasn't given {count} replies to {name}")

    def used(self):
        """The processor seconds that it has taken, and the MB that it holds."""
        fields = open(f"/proc/{self.process.pid}/stat").read().rsplit(")", 1)[1].split()
        return (int(fields[11]) + int(fields[12])) / os.sysconf("SC_CLK_TCK"), int(fields[21]) * resource.getpagesize() / 2**20

    def end(self):
        """Ends it by a signal. The log must have the updates that replies tell of, and no others; these are given."""
        self.process.terminate()
        self.process.wait()
        edits, told = Log(self.at("log")).edits, receipts(self.at(f"{name}.out") for name in self.names)
        if told != list(range(1, len(edits) + 1)):
            stop(f"{self.folder}: {len(told)} replies tell of {len(edits)} updates")
        return edits


def one_after_the_other(room):
    """Writers of one pipe, none of which waits for its reply: nothing is lost, and the order is theirs."""
    server = Server(f"{room}/after", 1)
    for number in range(CLIENTS):
        server.write("p0", f"push {number}\n")
    server.wait_for_replies("p0", CLIENTS)
    if server.end() != [f"push {number}" for number in range(CLIENTS)]:
        stop("the log hasn't the updates of writers that came one after the other")


def torn(room):
    """Writers that end within a line, or are killed there: their whole lines are done, and the torn one is bad."""
    server, lines, wanted = Server(f"{room}/torn", 1), 0, []
    for number in range(100):
        wanted += [f"push {number}", f"push {number + 1}"]
        text = "".join(f"{line}\n" for line in wanted[-2:]) + f"truncate {number}0"[:1 + number % 10]
        if number % 2:
            server.write("p0", text)
            lines += 3
        else:
            with subprocess.Popen([sys.executable, "-c", WRITER, server.at("p0"), text]) as writer:
                server.wait_for_replies("p0", lines + 2)
                writer.send_signal(signal.SIGKILL)
            lines += 3
        server.wait_for_replies("p0", lines)
        if whole_lines(server.at("p0.out"))[-1] != f"bad {lines}":
            stop(f"a torn line was answered {whole_lines(server.at('p0.out'))[-1]!r}")
    if made_by(server.end()) != made_by(wanted):
        stop("a torn line was done")


def absent(room):
    """Clients that never come hold up neither the one that is there nor the refusal of a second server."""
    server = Server(f"{room}/absent", 16)
    for number in range(200):
        server.write("p9", f"push {number}\n")
        server.wait_for_replies("p9", number + 1)
    open(server.at("other"), "w").close()
    began = time.monotonic()
    second = ran(["serve", "--log", "log", "other"], server.folder)
    took = time.monotonic() - began
    if second.returncode != 2 or took > 5 or len(server.end()) != 200:
        stop(f"a second server ended with {second.returncode} after {took:.1f} s")
    return took


def many(room, count):
    """So many clients: each comes twice, and then they are idle."""
    server = Server(f"{room}/many", count)
    for turn in (1, 2):
        for at, name in enumerate(server.names):
            server.write(name, f"push {at}\n")
        for name in server.names:
            server.wait_for_replies(name, turn)
    time.sleep(15)
    (before, _), began = server.used(), time.monotonic()
    time.sleep(10)
    (after, held), passed = server.used(), time.monotonic() - began
    if sorted(server.end()) != sorted(2 * [f"push {at}" for at in range(count)]):
        stop("the log hasn't each update of many clients once")
    return 100 * (after - before) / passed, held


def clients(room):
    """Each of these. Says what idle pipes cost."""
    _, most = resource.getrlimit(resource.RLIMIT_NOFILE)
    count = CLIENTS if most == resource.RLIM_INFINITY else min(CLIENTS, (most - 100) // 2)
    resource.setrlimit(resource.RLIMIT_NOFILE, (2 * count + 100, most))
    one_after_the_other(room)
    torn(room)
    took = absent(room)
    share, held = many(room, count)
    print(f"clients: {CLIENTS} writers of one pipe and 100 torn lines, 50 of them of writers that were killed: nothing lost, nothing torn done; a second server was refused after {took:.2f} s; "
          f"{count} idle pipes took {share:.0f} % of a processor and {held:.0f} MB")
