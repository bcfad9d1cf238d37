"""A part that counts how often a log is flushed to the disk while many clients push, each in lock-step with its replies."""
import os
import tempfile
import time
from threading import Thread

from soak_parts.logs import Log
from soak_parts.paced import Paced
from soak_parts.program import PROGRAM, failing, knob, receipts, stop

# how many pushes each client makes
PUSHES = knob("SOAK_PUSHES", 200)


def push_in_turn(server, at):
    """Sends a client's pushes, each after the reply to the one before."""
    out = os.open(f"{server.names[at]}.out", os.O_RDONLY)
    for number in range(PUSHES):
        os.write(server.lines[at], f"push {number}\n".encode())
        began, nap = time.monotonic(), 0.00005
        while not os.read(out, 4096):
            if time.monotonic() - began > 60:
                os._exit(1)
            time.sleep(nap)
    os.close(out)


def flushed(room, clients):
    """Has so many clients push, and says how often the log was flushed, and how many seconds it took."""
    folder = tempfile.mkdtemp(dir=room)
    names, log, counted = [f"{folder}/{at}" for at in range(clients)], f"{folder}/log", f"{folder}/counted"
    server = Paced([PROGRAM, "serve", "--sync", "--log", log, *names], folder, names, failing(room, "fdatasync", 0, -4, file="/log", counted=counted))
    for _ in server.naps("hasn't opened its outputs"):
        if all(os.path.exists(f"{name}.out") for name in names):
            break
    began = time.monotonic()
    threads = [Thread(target=push_in_turn, args=(server, at)) for at in range(clients)]
    for thread in threads:
        thread.start()
    for thread in threads:
        thread.join()
    took = time.monotonic() - began
    status, said = server.end()
    all_told = list(range(1, clients * PUSHES + 1))
    if status or said or len(Log(log).edits) != len(all_told) or receipts([f"{name}.out" for name in names]) != all_told:
        stop(f"{clients} clients: status {status}, {said!r}, {len(Log(log).edits)} updates in the log")
    return os.path.getsize(counted), took


def flushes(room):
    """Sixteen clients that push share the flushes: one serves four pushes at least, since who finds its own updates on the disk doesn't write those of others. The best of three
    runs counts: on a busy machine clients wait for a processor, and then fewer of them wait for a flush."""
    alone, _ = flushed(room, 1)
    if alone > PUSHES + 1:
        stop(f"{PUSHES} pushes by one client took {alone} flushes")
    runs = [flushed(room, 16) for _ in range(3)]
    pushes, least = 16 * PUSHES, min(count for count, _ in runs)
    if 4 * least > pushes:
        stop(f"{pushes} pushes by 16 clients took {least} flushes at least, more than one for four")
    print(f"flushes: {pushes} pushes by 16 clients took {', '.join(f'{count} in {took:.1f} s' for count, took in runs)}; each is in the log, and was told once")
