"""Parts of memory: how much is held at most, and what comes of a run where it gives out."""
import os
import random
import resource
import subprocess

from soak_parts.program import SEED, TOP, measured, put, ran, session, stop, told, whole_lines


def most_held(words, room, asked=os.devnull):
    """How many MB a run of the program holds at most."""
    _, said, status, _, held = measured(words, room, asked)
    if status:
        stop(f"{words} ended with {status}: {said!r}")
    return held


def pairs(room):
    """A job that is claimed and forgotten leaves next to nothing."""
    for name, count in (("few", 10), ("many", 300000)):
        put("push 1\n" * 8 + "claim\nforget\n" * count, f"{room}/{name}")
    few, many = (most_held(["run"], room, f"{room}/{name}") for name in ("few", "many"))
    if many > 50:
        stop(f"{many:.0f} MB are held for 300000 claims, where 50 are wanted")
    print(f"pairs: 300000 claims, each forgotten: {many:.0f} MB at most, and {few:.0f} MB for ten")


def answers(room):
    """What is kept of answers is bounded where that is asked for."""
    for name, count in (("few", 2000), ("more", 2000), ("a", 300000), ("b", 300000)):
        put("push 1\n" + "reduce sum 0 1\n" * count, f"{room}/{name}")
    held = [most_held(["serve", *words], room) for words in (["few", "more"], ["--answers", "1000", "a", "b"], ["a", "b"], ["--transcript", "kept", "a", "b"])]
    if held[1] > held[0] + 4:
        stop(f"{held[1]:.0f} MB are held where 1000 answers are kept, and {held[0]:.0f} MB for 2000")
    print("answers: two sessions of 300000 reductions each: {1:.0f} MB at most with 1000 answers kept, {2:.0f} MB with all, {3:.0f} MB with a transcript, and {0:.0f} MB for 2000 each".format(*held))


def limited(words, room, most):
    """A run of the program with at most so many bytes of memory."""
    limit = lambda: resource.setrlimit(resource.RLIMIT_AS, (most, most))
    return ran(words, room, preexec_fn=limit)


def narrow(room):
    """Memory gives out while two sessions are served, and neither their beginning nor their end needs more. Threads that find room for their stacks leave them other amounts."""
    dice = random.Random(SEED)
    for name, count in (("a", 300000), ("b", 300000), ("few", 20), ("more", 20)):
        put(session(dice, count), f"{room}/{name}")
    low, high = 0, 1 << 34
    while high - low > 1 << 16:
        most = (low + high) // 2
        low, high = (low, most) if limited(["serve", "--transcript", "kept", "few", "more"], room, most).returncode == 0 else (most, high)
    for more in (8, 5, 6, 7, 9, 10, 12, 16, 24, 32):
        narrowed(room, high, more)


def narrowed(room, least, more):
    """Two sessions with so many MB beyond the least: each line is answered, and both transcripts are whole."""
    served = limited(["serve", "--transcript", "kept", "a", "b"], room, least + (more << 20))
    replies = [line for name in ("a", "b") for line in whole_lines(f"{room}/{name}.out")]
    edits, answers = (sum(line.startswith(word) for line in replies) for word in ("edit ", "at "))
    refused = replies.count("refused 6")
    if served.returncode or len(replies) != 600000 or not refused:
        stop(f"serve with {more} MB ended with {served.returncode}, after {len(replies)} replies, {refused} of them refused for want of memory: {served.stderr!r}")
    kept = open(f"{room}/kept", "rb").read()
    for text, words, says in ((served.stdout, ["audit"], b"yes\n"), (kept, ["audit", "--front"], f"front {edits} edits {answers} answers\n".encode())):
        verdict = told(words, text)
        if verdict.stdout != says or not text.endswith(b"\nend\n") or text.count(b"\nj ") != edits or text.count(b"\na ") != answers:
            stop(f"{words} said {verdict.stdout!r} of a transcript of {edits} edits and {answers} answers, which ends with {text[-40:]!r}")
    print(f"narrow: 600000 lines with {more} MB beyond {least >> 20} MB: {edits} edits, {answers} answers, {refused} refused; both transcripts are whole")


def memory(room):
    """Requests for memory, refused in turn."""
    if subprocess.run([f"{TOP}/tools/soak_memory", "--rows"]).returncode:
        stop("the memory's part failed")
