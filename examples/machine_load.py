#!/usr/bin/env python3
"""Lines `name value` of what this machine does, read from the kernel's files in /proc: a feed to try a dashboard on.

    examples/machine_load.py | livevec-dashboard -

Twenty times a second, or as often as an argument says. Rates are those of the time since the last line of the name.
"""
import os
import sys
import time


def counters():
    """What only grows: time of each processor in ticks, and events since the machine's start."""
    found = {}
    with open("/proc/stat") as file:
        for line in file:
            name, *fields = line.split()
            if name.startswith("cpu"):
                ticks = list(map(int, fields[:8]))
                # idle and waiting for a disk are no work
                found[name] = sum(ticks) - ticks[3] - ticks[4]
            elif name in ("ctxt", "processes"):
                found[name] = int(fields[0])
            elif name == "intr":
                found[name] = int(fields[0])
    with open("/proc/net/dev") as file:
        rows = [line.split(":")[1].split() for line in file if ":" in line]
        found["received"], found["sent"] = sum(int(row[0]) for row in rows), sum(int(row[8]) for row in rows)
    return found


def gauges():
    """What goes up and down."""
    with open("/proc/meminfo") as file:
        memory = {name: int(rest.split()[0]) for name, rest in (line.split(":") for line in file)}
    with open("/proc/loadavg") as file:
        load, _, _, tasks, _ = file.read().split()
    return {"memory used, MiB": (memory["MemTotal"] - memory.get("MemAvailable", memory["MemFree"])) // 1024, "load, hundredths": round(100 * float(load)),
            "tasks running": int(tasks.split("/")[0])}


def percent(part, whole):
    # a tick may be counted in the time after its own
    return min(round(100 * part / whole), 100)


def rates(before, now, seconds):
    """What the counters did in a second, in the words of the page."""
    grown = {name: now[name] - before.get(name, now[name]) for name in now}
    processors, ticks = os.cpu_count() or 1, os.sysconf("SC_CLK_TCK") * seconds
    made = {"processors, % busy": percent(grown.pop("cpu"), ticks * processors)}
    words = {"ctxt": "task switches a second", "processes": "processes begun a second", "intr": "interrupts a second"}
    for name, word in words.items():
        made[word] = round(grown[name] / seconds)
    for name in ("received", "sent"):
        made[f"{name}, KiB a second"] = round(grown[name] / 1024 / seconds)
    return {**made, **{f"processor {name[3:]}, % busy": percent(by, ticks) for name, by in grown.items() if name.startswith("cpu")}}


def main():
    pause = 1 / float(sys.argv[1]) if len(sys.argv) > 1 else 0.05
    before, since = counters(), time.monotonic()
    while True:
        time.sleep(pause)
        now, at = counters(), time.monotonic()
        lines = [f"{name} {value}\n" for name, value in {**rates(before, now, at - since), **gauges()}.items()]
        before, since = now, at
        sys.stdout.write("".join(lines))
        sys.stdout.flush()


if __name__ == "__main__":
    try:
        main()
    except (KeyboardInterrupt, BrokenPipeError):
        # the reader went first: nothing is left to be flushed to it
        os.dup2(os.open(os.devnull, os.O_WRONLY), sys.stdout.fileno())
