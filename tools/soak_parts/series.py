"""The part `series`: `livevec run --series` beside a plain list, reply by reply.

How many elements there are goes to and fro between sizes around blocks of eight and powers of two, by pushes, pops, truncations and expiries, so that
memory and trees grow, are cut, move and shrink. Ranges and indices are around the borders of blocks and of what is kept. Queries are watched only in
the first lines of each run, since the plain list answers each of them anew after every update. Some of them have a bound. Searches try one index
after the other here.
"""
import random

from soak_parts.program import KINDS, SEED, knob, stop, told, value

MANY = knob("SOAK_SERIES", 2000000)


def within(bound, answer, kind=None):
    """Whether what is shown of a kind, or an element, is within a bound: its word and its number. A sum is shown without its sign."""
    if answer == "none":
        return False
    number = int(answer)
    if kind == "sum" and number >= 1 << 63:
        number -= 1 << 64
    return number >= int(bound[1]) if bound[0] == "at-least" else number <= int(bound[1])


def best_run(xs):
    """Where the best run is: of several the one that ends first, and of those the shortest."""
    best = start = None
    run = 0
    for i, x in enumerate(xs):
        if start is None or run <= 0:
            start, run = i, 0
        run += x
        if best is None or run > best[0]:
            best = run, start, i + 1
    return best


class Plain:
    """Elements, the index of the first, how many edits there were, and queries by name."""

    def __init__(self):
        self.xs, self.first, self.edit, self.queries = [], 0, 0, {}

    def at(self, i):
        return self.xs[i - self.first] if self.first <= i < self.first + len(self.xs) else None

    def between(self, lo, hi):
        return self.xs[max(lo - self.first, 0):max(hi - self.first, 0)]

    def asked(self, kind, span):
        n = int(span[1])
        return value(kind, self.xs[max(len(self.xs) - n, 0):] if span[0] == "last" else self.between(int(span[0]), n))

    def refused(self, lo, hi):
        size = self.first + len(self.xs)
        return "refused 7" if hi < lo else None if self.first <= lo and hi <= size else "refused 3"

    def changed(self, verb, words):
        """What an edit is answered, or its refusal."""
        n, size = [int(word) for word in words], self.first + len(self.xs)
        if verb == "push":
            self.xs.append(n[0])
            return f"at {size}"
        if verb == "pop":
            return f"value {self.xs.pop()}" if self.xs else "refused 2"
        if verb == "truncate" and self.first <= n[0] <= size:
            del self.xs[n[0] - self.first:]
            return f"dropped {size - n[0]}"
        if verb == "expire" and self.first <= n[0] <= size:
            del self.xs[:n[0] - self.first]
            self.first = n[0]
            return f"first {n[0]}"
        if verb == "write" and self.at(n[0]) is not None:
            was, self.xs[n[0] - self.first] = self.at(n[0]), n[1]
            return f"was {was}"
        if verb == "swap" and self.at(n[0]) is not None and self.at(n[1]) is not None:
            a, b = n[0] - self.first, n[1] - self.first
            self.xs[a], self.xs[b] = self.xs[b], self.xs[a]
            return f"now {self.xs[a]} {self.xs[b]}"
        return "refused 3"

    def edited(self, verb, words):
        answer = self.changed(verb, words)
        if answer.startswith("refused"):
            return [answer]
        self.edit += 1
        lines = [f"edit {self.edit} {answer}"]
        for name, (kind, span, bound, was) in self.queries.items():
            now = self.asked(kind, span)
            if within(bound, now, kind) != within(bound, was, kind) if bound else now != was:
                lines.append(f"note {name} {now}")
            self.queries[name] = kind, span, bound, now
        return lines

    def sought(self, verb, words):
        """Where something is in a range."""
        *what, lo, hi = words
        lo, hi = int(lo), int(hi)
        refusal = self.refused(lo, hi)
        if refusal:
            return refusal
        xs, found = self.between(lo, hi), None
        if what == ["best"]:
            run = best_run(xs)
            return f"at {self.edit} from {lo + run[1]} to {lo + run[2]}" if run else f"at {self.edit} none"
        if verb == "reach":
            total = 0
            for found in range(len(xs) + 1):
                if total >= int(what[0]):
                    break
                total += xs[found] if found < len(xs) else 0
            else:
                found = None
        elif verb == "where":
            found = xs.index(min(xs) if what == ["least"] else max(xs)) if xs else None
        else:
            places = [i for i, x in enumerate(xs) if within(what, x)]
            found = places[0 if verb == "first" else -1] if places else None
        return f"at {self.edit} none" if found is None else f"at {self.edit} index {lo + found}"

    def reply(self, line):
        verb, *words = line.split()
        if verb in ("push", "pop", "write", "swap", "truncate", "expire"):
            return self.edited(verb, words)
        if verb in ("last", "reach", "where") or verb == "first" and words:
            return [self.sought(verb, words)]
        if verb in ("size", "first"):
            return [f"{verb} {self.first + (len(self.xs) if verb == 'size' else 0)} edit {self.edit}"]
        if verb == "get":
            x = self.at(int(words[0]))
            return ["refused 3" if x is None else f"value {x}"]
        if verb == "watch":
            name, kind, *span = words
            span, bound = span[:2], span[2:]
            if name in self.queries:
                return ["refused 10"]
            self.queries[name] = kind, span, bound, self.asked(kind, span)
            return [f"watching {name}"]
        if verb in ("unwatch", "answer") and words[0] not in self.queries:
            return ["refused 11"]
        if verb == "unwatch":
            del self.queries[words[0]]
            return [f"unwatched {words[0]}"]
        if verb == "answer":
            return [f"at {self.edit} {words[0]} {self.queries[words[0]][-1]}"]
        kind, lo, hi = words[0], int(words[1]), int(words[2])
        refusal = self.refused(lo, hi)
        if refusal:
            return [refusal]
        xs = self.between(lo, hi)
        if verb == "reduce":
            return [f"at {self.edit} {kind} {value(kind, xs)}"]
        more = 1 if verb == "inc" else 0
        return [f"at {self.edit} {verb} {kind} {hi - lo}"] + [f"= {value(kind, xs[:i + more])}" for i in range(len(xs))]


# what a line does: while queries are watched, and without them
WATCHED = {"push": 30, "pop": 9, "write": 9, "swap": 6, "expire": 5, "truncate": 3, "get": 5, "size": 1, "first": 1, "reduce": 5, "inc": 2, "exc": 2, "search": 5, "watch": 4, "unwatch": 2, "answer": 2}
REST = {"push": 14, "pop": 9, "write": 16, "swap": 6, "expire": 4, "truncate": 2, "get": 9, "size": 1, "first": 1, "reduce": 6, "inc": 1, "exc": 1, "search": 6}
# how many lines a run has, and how many of them have queries
LINES, FIRST = 100_000, 2_000
# sizes that are gone to, often and less often: few, and around powers of two
GOALS = [0, 1, 7, 8, 9, 15, 16, 17] + [2**k + off for k in range(5, 9) for off in (-8, -1, 0, 1, 8)]
FAR = [2**k + off for k in range(9, 13) for off in (-8, -1, 0, 1, 8)]
FARTHEST = [2**k + off for k in range(13, 17) for off in (-1, 0, 1, 9)]


class Lines:
    """Lines that mostly ask of what is kept, and sometimes of what lies a little outside."""

    def __init__(self, plain, rng):
        self.plain, self.rng, self.goal, self.stays = plain, rng, 0, 0

    def ends(self):
        return self.plain.first, self.plain.first + len(self.plain.xs)

    def index(self):
        """An index near an end, near the border of a block, or anywhere."""
        first, size = self.ends()
        near = self.rng.random()
        if near < 0.3:
            found = size - self.rng.randrange(-3, 40)
        elif near < 0.5:
            found = first + self.rng.randrange(-9, 40)
        else:
            found = self.rng.randint(first, size)
            if near < 0.8:
                found = found // 8 * 8 + self.rng.randrange(-1, 2)
        return max(0, found)

    def range(self):
        """A range of few elements, now and then of many: those of more than 64 are answered from trees."""
        lo, near = self.index(), self.rng.random()
        if near < 0.97:
            return lo, lo + self.rng.randrange(0, 100)
        size = self.ends()[1]
        return lo, size if near < 0.98 else min(max(lo, size), lo + self.rng.randrange(64, 2000))

    def some(self, weights):
        """A line of the given kinds."""
        rng, (first, size) = self.rng, self.ends()
        verb = weights[rng.randrange(len(weights))]
        if verb == "push":
            return f"push {self.element()}"
        if verb in ("write", "swap"):
            return f"{verb} {self.index()} {self.element() if verb == 'write' else self.index()}"
        if verb in ("reduce", "inc", "exc"):
            lo, hi = self.range()
            return f"{verb} {rng.choice(KINDS)} {lo} {hi if verb == 'reduce' else min(hi, lo + 17)}"
        if verb == "search":
            lo, hi = self.range()
            return rng.choice((
                f"{rng.choice(('first', 'last'))} {self.bound()} {lo} {hi}",
                f"reach {self.element() if rng.random() < 0.5 else rng.randrange(-99, 5000)} {lo} {hi}",
                f"where {rng.choice(('least', 'greatest', 'best'))} {lo} {hi}",
            ))
        if verb == "get":
            return f"get {self.index()}"
        if verb == "expire":
            return f"expire {max(first + rng.randrange(-1, 18), 0)}"
        if verb == "truncate":
            return f"truncate {max(size - rng.randrange(-1, 18), 0)}"
        if verb == "watch":
            lo, hi = self.range()
            hi = max(lo, hi)
            bound = rng.random() < 0.4
            span = rng.choice((f"{lo} {hi}", f"last {hi - lo}"))
            return f"watch q{rng.randrange(10)} {rng.choice(KINDS[:4] if bound else KINDS)} {span}" + (f" {self.bound()}" if bound else "")
        return f"{verb} q{rng.randrange(10)}" if verb in ("unwatch", "answer") else verb

    def element(self):
        return self.rng.choice((self.rng.randrange(-99, 100), self.rng.randrange(-2**63, 2**63)))

    def bound(self):
        """A bound, more often of small numbers than of great ones."""
        return f"{self.rng.choice(('at-least', 'at-most'))} {self.rng.randrange(-300, 300) if self.rng.random() < 0.6 else self.element()}"

    def towards(self):
        """A line that brings the number of elements to the goal: by pushes, or by an expiry or a truncation at once, or a little at a time."""
        rng, (first, size) = self.rng, self.ends()
        if size - first < self.goal:
            return f"push {self.element()}"
        far = size - first - self.goal
        some = far if rng.random() < 0.3 else min(far, rng.choice((1, 7, 8, 9, 64)))
        return f"truncate {size - some}" if rng.random() < 0.2 else f"expire {first + some}"

    def next(self, weights):
        """Goes to the goal, stays about there for a while, then has another."""
        if self.stays:
            self.stays -= 1
            return self.some(weights)
        if len(self.plain.xs) != self.goal:
            return self.towards() if self.rng.random() < 0.9 else self.some(weights)
        far = self.rng.random()
        self.goal = self.rng.choice(GOALS if far < 0.8 else FAR if far < 0.99 else FARTHEST)
        self.stays = self.rng.randrange(1000)
        return "size"


def spread(weights):
    return [verb for verb, count in weights.items() for _ in range(count)]


def compared(many, seed):
    """Runs so many lines, and tells how many replies they had, which are those of the plain list."""
    plain, script, wanted = Plain(), [], []
    lines, watched, rest = Lines(plain, random.Random(seed)), spread(WATCHED), spread(REST)
    for n in range(many):
        # the queries are taken away, one a line
        line = f"unwatch q{n - FIRST}" if FIRST <= n < FIRST + 10 else lines.next(watched if n < FIRST else rest)
        script.append(line)
        wanted += plain.reply(line)
    got = told(["run", "--series"], "\n".join(script).encode()).stdout.decode().split("\n")[:-1]
    if got != wanted:
        n = next((n for n, both in enumerate(zip(got, wanted)) if both[0] != both[1]), min(len(got), len(wanted)))
        stop(f"with seed {seed}, reply {n + 1} is {got[n:n + 1]}, wanted {wanted[n:n + 1]}")
    return len(wanted)


def series(room):
    """Runs of many lines, each with another seed."""
    replies = sum(compared(min(LINES, MANY - n), SEED + n // LINES) for n in range(0, MANY, LINES))
    print(f"series: {MANY} lines in runs of {LINES}, {replies} replies, each the plain list's")
