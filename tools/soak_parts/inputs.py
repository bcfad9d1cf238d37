"""Parts of strange inputs: damaged and random bytes, and names and links that lead to one another."""
import os
import random
import shutil
import subprocess

from soak_parts.program import PROGRAM, ROUNDS, SEED, TOP, knob, put, session, stop, told

LINKS = knob("SOAK_LINKS", 500)


def damaged(dice, text):
    """A text with some of its bytes changed, dropped, doubled or made strange."""
    data = bytearray(text)
    for _ in range(dice.randrange(1, 12)):
        at = dice.randrange(0, len(data) + 1)
        data[at : at + dice.randrange(0, 3)] = dice.choice(
            (b"", b"\0", b"\xff\xfe", b"\r", b"\n", b"\t", b"-", b" " * dice.randrange(1, 200), bytes([dice.randrange(256)]), b"9" * dice.randrange(1, 40))
        )
    return bytes(data)


def strange(dice):
    """Bytes of one of several sorts: random, one long line, zeros."""
    return dice.choice(
        (
            dice.randbytes(dice.randrange(0, 4000)),
            b"push 1 " * dice.randrange(1, 40000),
            b"\0" * dice.randrange(0, 5000),
            "push ٣\nreduce sum 0 ½\n".encode() * dice.randrange(1, 50),
        )
    )


def commands():
    """The commands of the program that read lines from standard input, and those that read files; each with a text that it knows."""
    script = open(f"{TOP}/examples/dashboard.script", "rb").read()
    schedule = open(f"{TOP}/examples/two_pushers.schedule", "rb").read()
    sound = open(f"{TOP}/examples/sound.transcript", "rb").read()
    kept = open(f"{TOP}/examples/till.session", "rb").read()
    named = [("serve", kept)] + [("board", kept)] * (b"board" in told(["--help"]).stdout)
    return [("run", script), ("schedule", schedule), ("audit", sound)], named


def bytes_(room):
    """Whatever the bytes are, a command ends with status 0, 1 or 2."""
    dice, tried = random.Random(SEED), 0
    streamed, named = commands()
    for _ in range(ROUNDS):
        for command, text in streamed:
            told([command], dice.choice((damaged(dice, text), strange(dice))), 60)
            tried += 1
        for command, text in named:
            open(f"{room}/file", "wb").write(dice.choice((damaged(dice, text), strange(dice))))
            told([command, f"{room}/file"], b"", 60)
            tried += 1
    print(f"bytes: {tried} inputs of random, damaged and strange bytes: each ended with status 0, 1 or 2")


def files_of(folder):
    """Each file below a folder, by its name: where a link leads, or its bytes."""
    found = {}
    for place, _, names in os.walk(folder):
        for name in names:
            path = os.path.join(place, name)
            found[path] = os.readlink(path) if os.path.islink(path) else open(path, "rb").read()
    return found


def spelt(dice, name, folder):
    """Another way to write the name of a file in the folder where the program runs."""
    return dice.choice((name, f"./{name}", f".//{name}", f"../{folder}/{name}", f"sub/../{name}", f"../{folder}/./{name}"))


def trap(dice, room, folder):
    """Makes files where an output would be an input, a link or another output, and says the words and where standard output goes."""
    own, other = dice.sample(("a", "b", "c"), 2)
    name = lambda file: spelt(dice, file, folder)
    at = lambda file: f"{room}/{folder}/{file}"
    command = dice.choice(("serve", "board"))
    kind = dice.randrange(10)
    if kind == 0:
        return [command, name(own), name(own)], None
    if kind == 1:
        shutil.copy(at(own), at(f"{other}.out"))
        return [command, name(other), name(f"{other}.out")], None
    if kind == 2:
        os.symlink(dice.choice((own, other, "kept", "gone", f"../{folder}/{own}")), at(f"{own}.out"))
        return [command, name(own), name(other)], None
    if kind == 3:
        os.link(at(dice.choice((own, other))), at(f"{own}.out"))
        return [command, name(own), name(other)], None
    if kind == 4:
        put("replies of before\n", at(f"{own}.out"))
        os.link(at(f"{own}.out"), at(f"{other}.out"))
        return [command, name(own), name(other)], None
    if kind == 5:
        os.link(at(own), at("twin")) if dice.random() < 0.5 else os.symlink(own, at("twin"))
        os.link(at("twin"), at("twin.out")) if not os.path.islink(at("twin")) else os.symlink(own, at("twin.out"))
        return [command, name("twin"), name(other)], None
    if kind == 6:
        return ["serve", "--transcript", name(dice.choice((own, other, f"{own}.out"))), name(own), name(other)], None
    if kind == 7:
        os.symlink(dice.choice((own, "kept", "gone")), at("link"))
        return ["serve", "--transcript", name("link"), name(own), name(other)], None
    if kind == 8:
        os.link(at(own), at("hard"))
        return ["serve", "--transcript", name("hard"), name(own), name(other)], None
    sent = dice.choice((own, f"{own}.out", "kept"))
    if sent == "kept":
        return ["serve", "--transcript", name("kept"), name(own)], at("kept")
    return [command, name(own), name(other)], at(sent)


def links(room):
    """Whatever names and links lead to, no file that is there is changed or lost, and none is made."""
    dice = random.Random(SEED)
    for turn in range(LINKS):
        folder = f"room{turn}"
        os.makedirs(f"{room}/{folder}/sub")
        for file in ("a", "b", "c", "kept"):
            put(session(dice, 5), f"{room}/{folder}/{file}")
        words, sent = trap(dice, room, folder)
        out = open(sent, "ab") if sent else subprocess.DEVNULL
        before = files_of(f"{room}/{folder}")
        it = subprocess.run([PROGRAM, *words], stdin=subprocess.DEVNULL, stdout=out, stderr=subprocess.PIPE, cwd=f"{room}/{folder}", timeout=60)
        if it.returncode != 2 or not it.stderr:
            stop(f"{words} with standard output to {sent} ended with {it.returncode}: {it.stderr[:200]!r}")
        if files_of(f"{room}/{folder}") != before:
            stop(f"{words} with standard output to {sent} changed a file")
    print(f"links: {LINKS} inputs whose outputs are links, inputs or each other: each a usage fault, and every file as it was")
