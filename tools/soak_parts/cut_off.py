"""Parts of what is cut off: runs that are killed, and transcripts that end anywhere."""
import os
import random
import shutil
import subprocess
import time
from concurrent.futures import ThreadPoolExecutor

from soak_parts.logs import SIGNALS
from soak_parts.program import PROGRAM, ROUNDS, SEED, knob, made_by, put, session, stop, told, whole_lines

KILLS = knob("SOAK_KILLS", 200)


def size_of(edits):
    """How many elements the lines of some edits leave."""
    return len(made_by(line[2:] for line in edits))


def killed(room):
    """A process that is killed leaves whole lines, but where the system cut a write, which it does at the end of a page."""
    dice, some, cut = random.Random(SEED), 0, 0
    put(session(dice, 200000), f"{room}/long")
    for turn in range(40):
        for words, out in (([PROGRAM, "run"], f"{room}/run.out"), ([PROGRAM, "serve", f"{room}/long"], f"{room}/long.out"), ([PROGRAM, "board", f"{room}/long"], f"{room}/long.out")):
            if os.path.exists(out):
                os.remove(out)
            asked = open(f"{room}/long", "rb")
            replies = open(out, "wb") if words[1] == "run" else subprocess.DEVNULL
            process = subprocess.Popen(words, stdin=asked, stdout=replies, stderr=subprocess.DEVNULL)
            time.sleep(dice.random() * 0.2)
            process.kill()
            process.wait()
            data = open(out, "rb").read() if os.path.exists(out) else b""
            whole = not data or data.endswith(b"\n")
            if not whole and len(data) % os.sysconf("SC_PAGE_SIZE"):
                stop(f"{out} ends within a line: {data[-60:]!r}")
            some, cut = some + bool(data), cut + (not whole)
    print(f"killed: 120 times, {some} of them with replies written: each file ended with a whole line, but {cut} whose last write the system cut")


def kill_one(room, turn):
    """Serves three sessions in a folder of its own, kills that at some moment by one of three signals, and says how many edits and answers were written until then, and whether it had ended before."""
    dice, folder = random.Random(SEED * 1000 + turn), f"{room}/kill{turn}"
    os.mkdir(folder)
    names = [f"{folder}/{name}" for name in ("a", "b", "c")]
    for name in names:
        os.link(f"{room}/{os.path.basename(name)}", name)
    process = subprocess.Popen([PROGRAM, "serve", "--transcript", f"{folder}/kept", *names], stdout=subprocess.DEVNULL, stderr=subprocess.DEVNULL)
    # some are killed as they start, and most in the middle
    while turn % 8 and process.poll() is None and not (os.path.exists(f"{folder}/kept") and os.path.getsize(f"{folder}/kept")):
        time.sleep(0.001)
    time.sleep(dice.random() * 0.4)
    process.send_signal(dice.choice(SIGNALS))
    process.wait()
    lines_of, told_of = whole_lines(f"{folder}/kept"), [line for name in names for line in whole_lines(f"{name}.out")]
    edits, answers = sum(line.startswith("j ") for line in lines_of), sum(line.startswith("a ") for line in lines_of)
    front = open(f"{folder}/kept", "rb").read() if os.path.exists(f"{folder}/kept") else b""
    verdict = told(["audit", "--front"], front)
    if verdict.stdout.decode() != f"front {edits} edits {answers} answers\n":
        stop(f"a killed session's transcript was called {verdict.stdout!r}")
    if edits < sum(line.startswith("edit ") for line in told_of) or answers < sum(line.startswith("at ") and " inc " not in line and " exc " not in line for line in told_of):
        stop("a reply tells of an edit or an answer that the transcript of a killed session lacks")
    open(f"{folder}/kept", "ab").close()
    restored = told(["restore", f"{folder}/kept"], b"size\n").stdout.decode()
    if restored != f"size {size_of(line for line in lines_of if line.startswith('j '))} edit {edits}\n":
        stop(f"a killed session of {edits} edits was restored as {restored!r}")
    shutil.rmtree(folder)
    return edits + answers, process.returncode == 0


def kills(room):
    """What is killed leaves a front, with all that was replied before, and is gone on from. Four at a time are killed."""
    dice = random.Random(SEED)
    for name in ("a", "b", "c"):
        put(session(dice, 100000), f"{room}/{name}")
    ended = []
    with ThreadPoolExecutor(4) as lanes:
        # a kill that came after the end is no kill: another is tried in its place
        while (left := KILLS - sum(not over for _, over in ended)) > 0:
            if len(ended) > 5 * KILLS:
                stop("the program ends before it can be killed")
            ended += lanes.map(lambda turn: kill_one(room, turn), range(len(ended), len(ended) + left))
    written, tried = sum(count for count, _ in ended), len(ended)
    print(f"kills: {KILLS} times, and {tried - KILLS} more that came after the end; {written} edits and answers written; {tried} of {tried} files audited: each a front, with what replies told of, and restored")


def in_time(text):
    """A transcript's lines in the order of time: each answer behind the edit that it is of."""
    edits = [line for line in text.splitlines() if line.startswith("j ")]
    answers = [line for line in text.splitlines() if line.startswith("a ")]
    made, told_of = ["livevec 1"], 0
    for number in range(len(edits) + 1):
        made += edits[number - 1:number] if number else []
        while told_of < len(answers) and int(answers[told_of].split()[1]) == number:
            made.append(answers[told_of])
            told_of += 1
    return "\n".join(made + ["end"]) + "\n"


def fronts(room):
    """A transcript that is cut anywhere is a front, and a vector is restored from it."""
    dice = random.Random(SEED)
    for name in ("a", "b"):
        put(session(dice, 3000), f"{room}/{name}")
    whole = told(["serve", f"{room}/a", f"{room}/b"]).stdout.decode()
    for text in (whole, in_time(whole)):
        for _ in range(ROUNDS):
            cut = text[:dice.randrange(0, len(text) + 1)]
            kept = cut[:cut.rfind("\n") + 1].splitlines()
            edits = [line for line in kept if line.startswith("j ")]
            answers = sum(line.startswith("a ") for line in kept)
            verdict = told(["audit", "--front"], cut.encode())
            if verdict.stdout.decode() != f"front {len(edits)} edits {answers} answers\n" or verdict.returncode:
                stop(f"a front of {len(edits)} edits and {answers} answers was called {verdict.stdout!r}")
            put(cut, f"{room}/front")
            restored = told(["restore", f"{room}/front"], b"size\npush 7\n").stdout.decode()
            size = size_of(edits)
            if restored != f"size {size} edit {len(edits)}\nedit {len(edits) + 1} at {size}\n":
                stop(f"a front of {len(edits)} edits was restored as {restored!r}")
    print(f"fronts: {2 * ROUNDS} cut anywhere, each counted and gone on from")
