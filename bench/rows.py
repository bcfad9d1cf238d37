"""What the benchmarks show: each row with its figures, and of each figure the two times that are divided, and at most which ratio is wanted.

A time is named by a file of out/ and the label of its lines there: each line is a label, nanoseconds (or bytes), and how often the work was done in them.
The least of all lines counts."""
import collections
import functools
import os

HERE = os.path.dirname(os.path.abspath(__file__))
OUT = f"{HERE}/out"
KINDS = ("sum", "least", "greatest", "best", "affine", "automaton")
SIZES, SERIES_SIZES, THREADS, SUMS = (1000, 30000, 1048560), (1000, 65536, 1000000), (1, 2, 4), (8, 64, 4000)
ALL_KINDS = " / ".join(f"`{kind}`" for kind in KINDS)
BOTH, EACH_SIXTEENTH = "`best` / `sum`", "each 16th line a `best` of 10,000 elements"
TREE, LOCK, PLAIN, FOLDING = "a bottom-up segment tree", "a `Vec` in a `Mutex`", "a plain program", " that folds the one kind"

# Of a row: the work and the baseline as a reader calls them, and its figures. Of a figure: its label and its sides' names as a line shows them, where
# the two times are found (or a number), and the target, if there is one.
Row = collections.namedtuple("Row", "work baseline figures")
Figure = collections.namedtuple("Figure", "label side ours peer theirs most")


def fig(label, peer, ours, theirs, most=None, side="livevec"):
    return Figure(label, side, ours, peer, theirs, most)


@functools.lru_cache(None)
def lines_of(file):
    """The least time of each label of a file."""
    least = {}
    for line in open(f"{OUT}/{file}.txt") if os.path.exists(f"{OUT}/{file}.txt") else ():
        label, _, rest = line.rpartition(": ")
        if label and label != "answers" and len(rest.split()) == 2:
            taken, turns = map(float, rest.split())
            least[label] = min(taken / turns, least.get(label, float("inf")))
    return least


def time(place):
    """The least time of a label, or none: by `FILE:LABEL`; a number is itself."""
    if isinstance(place, (int, float)):
        return place
    file, label = place.split(":", 1)
    return lines_of(file).get(label)


def ratio(figure):
    ours, theirs = time(figure.ours), time(figure.theirs)
    return None if ours is None or theirs is None else ours / theirs


def trees(work, label, ours, kinds=KINDS, most=lambda kind: (None,) * 3):
    """A row a kind: three sizes, compared with segment trees."""
    return [Row(work.format(kind), TREE, [
        fig(f"{label} of {size}, {kind}", "segment tree", f"figures:{ours} {kind} {size}", f"peers:tree {ours.replace('fresh ', '')} {kind} {size}", bound) for size, bound in zip(SIZES, most(kind))
    ]) for kind in kinds]


AT_REST = {"sum": (0.9,) * 3, "best": (1.2, 0.9, 1.0)}
ALL = {"sum": (1.2, 1.0, 1.2), "least": (1.6, 1.3, 1.4), "greatest": (1.6, 1.3, 1.4), "best": (1.2, 1.0, 1.0), "affine": (2.1, 1.7, 1.4), "automaton": (1.2, 1.0, 1.0)}
QUERIES = [
    *trees("random write, then `{}` of all", "a write, then all", "write and ask all", most=ALL.get),
    *trees("random write, then `{}` of a random range", "a write, then a range", "write and ask range", most=lambda kind: (1.6 if kind == "automaton" else 1.3, 1.3, 1.3)),
    *trees("`{}` of a random range, asked again", "a known range", "ask range", most=lambda kind: AT_REST.get(kind, (1.5,) * 3)),
    Row("`sum` of a random range, asked again", "a plain loop", [fig(f"ask range of {size}", "plain fold", f"figures:ask range sum {size}", f"peers:fold ask range sum {size}") for size in SIZES]),
    *trees("`{}` of a random range, all nodes valid", "a fresh range", "ask fresh range", ("sum", "best"), AT_REST.get),
    *[Row(f"{what} in a random range", TREE + ", by descent", [fig(f"a search of {size}, {it}", "segment tree", f"figures:{it} {size}", f"peers:tree {it} {size}", most) for size in SIZES])
      for it, what, most in (("first at least", "first element at least x", 2.0), ("last at least", "last element at least x", 2.0), ("end of a sum", "first end at which a sum is reached", 3.0))],
    *[Row(f"`{kind}` of a random range by `Live::reduce`, which counts its reads", peer, [
        fig(f"reduce of {size}, {kind}", name, f"figures:reduce {kind} {size}", f"peers:{by} {kind} {size}", most) for size, most in zip(SIZES, bounds)
    ]) for kind, wanted in (("sum", (1.0,) * 3), ("best", (1.3, 0.9, 0.9))) for peer, name, by, bounds in ((TREE, "segment tree", "tree", wanted), ("a plain loop", "plain fold", "fold", (None,) * 3))],
]
FOLDS = {"sum": "peers:fold all sum", "all six": "peers:fold six"}
REFRESHED = {"sum": "sum", "all six": "six"}
PRECOMPUTING = [
    Row("one write, then precompute until idle, among 1,000 / 1,048,560 elements: `sum`", "a tree's write", [fig(f"one write of {size} until idle, sum", "segment tree", f"figures:write {size}", f"peers:tree write {size}", 3) for size in (1000, 1048560)]),
    Row("precompute 1,048,560 elements in place: `sum` / all six", "one plain fold of them", [fig(f"full refresh of 1,048,560, {it}", "plain fold", f"figures:refresh {REFRESHED[it]}", FOLDS[it], most) for it, most in (("sum", 4), ("all six", 2))]),
    Row("the same, all six", "one `fold_slice` of them", [fig("full refresh of 1,048,560, all six", "fold by livevec", "figures:refresh six", "figures:fold six", 3)]),
    Row("precompute 1,048,560 elements task by task: `sum` / all six", "one plain fold of them", [fig(f"full refresh job by job of 1,048,560, {it}", "plain fold", f"figures:jobs {REFRESHED[it]}", FOLDS[it]) for it in FOLDS]),
    Row("a claim that finds nothing, among 1,048,560 elements", "among 1,000", [fig("a claim that finds nothing", "of 1000", "figures:poll 1048560", "figures:poll 1000", side="of 1048560")]),
    # 50 us, of a fold's 130
    Row("worst case: `cost` of 1,048,560 elements, none of their nodes valid", "one plain fold of them", [fig("cost of 1,048,560, nothing valid", "plain fold", "figures:cost none fresh", FOLDS["sum"], 0.4)]),
    Row("worst case: `forget`, then `claim`, among 1,048,560 elements whose nodes are all valid", "one plain fold of them", [fig("forget and claim among 1,048,560, all valid", "plain fold", "figures:forget and claim all fresh", FOLDS["sum"], 0.4)]),
]
WHOLES = [
    Row(f"fold of 1,000,000 elements: {ALL_KINDS}", "a plain loop", [fig(f"fold of 1,000,000, {kind}", "plain Rust", f"figures:fold {kind}", f"peers:fold {kind}", 1.5) for kind in KINDS]),
    *[Row(f"`{form}` of 1,048,560 elements: {BOTH}", peer, [fig(f"par_{it} of 1,048,560, {kind}", peer, f"figures:par_{it} {kind}", f"peers:{by} {it} {kind}", most) for kind, most in zip(("best", "sum"), bounds)])
      for form, it, peer, by, bounds in (("par_scan_inclusive", "scan", "one plain thread", "plain", (0.6, 0.8)), ("par_scan_inclusive", "scan", "oneTBB", "tbb", (1.5, 1.5)),
                                         ("par_reduce", "reduce", "one plain thread", "plain", (0.5, 0.7)), ("par_reduce", "reduce", "oneTBB", "tbb", (1.2, 1.2)))],
]


def beside(label, peer, most=None, side="livevec"):
    """A figure of two commands, whose times `run` keeps by its label and the sides' names."""
    return fig(label, peer, f"commands:{label}, {side}", f"commands:{label}, {peer}", most, side)


SCAN = "1,000,000 pushes and their running sums"
PROGRAM = [
    *[Row(f"write and `reduce {kind}` of all, as two lines, among 1,000 / 1,000,000 elements", PLAIN + " with a segment tree", [beside(f"two lines among {among}, {kind}", "segment tree", 1.0) for among in (1000, 1000000)]) for kind in KINDS],
    Row("500,000 pushes with one continuous query of everything", PLAIN + " with segment trees", [beside("500,000 pushes under one query", "plain Rust", 0.6)]),
    Row("64 continuous queries of all kinds: 20,000 pushes / 10,000 pushes and 10,000 writes", PLAIN + " with segment trees", [beside("20,000 pushes under 64 queries", "plain Rust", 0.4), beside("10,000 pushes and 10,000 writes under 64 queries", "plain Rust", 1.5)]),
    Row("script of 2,000,000 lines", PLAIN, [beside("a script of 2,000,000 lines", "plain Rust", 0.95)]),
    Row(f"1,000,000 pushes, then 300 reductions of random ranges: {ALL_KINDS}", PLAIN + " with a segment tree", [beside(f"1,000,000 pushes and 300 reductions, {kind}", "plain Rust", 1.0) for kind in KINDS]),
    Row("1,000,000 pushes, then their running sums: time / memory", PLAIN + " with a `Vec`", [beside(SCAN, "plain Rust", 1.3), beside(f"{SCAN}, memory", "plain Rust", 3.0)]),
    Row(f"audit of 200,000 updates and 20,000 answers over 10,000 elements: {ALL_KINDS}", PLAIN + FOLDING, [beside(f"an audit of 20,000 answers over 10,000 elements, {kind}", "plain Rust", 2) for kind in KINDS]),
]
CLIENTS = [
    Row("one client with one line, next to 8 workers of 1,000,000 iterations", "no worker", [beside("a session of one line", "no worker", 1.2, "8 workers")]),
    Row(f"update of one client, {EACH_SIXTEENTH}, next to a worker of 1,000,000 iterations", "no worker", [beside("an edit by a session", "no worker", 1.2, "a worker")]),
    *[Row(work, LOCK + FOLDING, [beside(f"an edit by {count} sessions, {workers} workers", "Vec in a Mutex", 1.0) for count in THREADS])
      for workers, work in ((0, f"update of 1 / 2 / 4 clients, {EACH_SIXTEENTH}"), (2, "the same, next to 2 workers of 1,000,000 iterations"))],
    Row(f"update of 4 clients with `--log`, {EACH_SIXTEENTH}", "no log", [beside("an edit by 4 sessions, in a log", "no log", 1.3, "a log")]),
    Row("`compact` of a log of 1,000,000 elements", "`cp` and `sync` of the file", [beside("a log of 1,000,000 elements made anew", "cp and sync", side="compact")]),
    Row("one client with one line, on a log of 1,000,000 elements that is made anew before it", "the same, not made anew", [beside("a start with a log of 1,000,000 elements", "not made anew", side="made anew")]),
    Row("update of one such client, next to a subscriber of 64 random ranges of all kinds", "no subscriber", [beside("an edit beside 64 queries", "no subscriber", 2)]),
    Row("update of one such client, next to a subscriber without queries", "no subscriber", [beside("an edit beside a subscriber without queries", "no subscriber")]),
    Row("time from an update to its notification among those 64, of 100 updates: the median", "1 ms", [fig("from an edit to its note, median", "1 ms", "notes:median", 1e6, 1)]),
    Row("the same, the 99th of 100", "5 ms", [fig("from an edit to its note, 99th of 100", "5 ms", "notes:99th", 5e6, 1)]),
    # what they took if looks took no time
    Row("a notification, if 64 change at once", "64 notifications each millisecond", [fig("a note of 64 a look", "64 notes a millisecond", "notes:notes", 15625)]),
]


def series(work, label, ours, sum_most, most, front="", file="series", kinds=KINDS):
    return [Row(f"{front}{work.format(kind)}", TREE, [
        fig(f"{front and 'from C, '}{label} of {size}, {kind}", "segment tree", f"{file}:{ours} {kind} {size}", f"series-peers:{ours} {kind} {size}", sum_most if kind == "sum" else most, "series") for size in SERIES_SIZES
    ]) for kind in kinds]


def tail(front, file, most, peer="two segment trees in a ring", name="segment trees in a ring", by="trees"):
    return Row(f"{front and 'from C: '}a push, then `sum` and `greatest` of the last 600", peer, [fig(f"{front}sum and greatest of the last 600", name, f"{file}:last series", f"series-peers:last {by}", most, "series")])


def window(work, front, file):
    return Row(work, "two stacks", [fig(f"{front}a window of 100,000, {kind}", "two stacks", f"{file}:window {kind} series", f"series-peers:window {kind}", 2.0, "series") for kind in ("sum", "greatest")])


SERIES = [
    *series("random write, then `{}` of a random range", "a series' write, then a range", "write and range", 1.1, 1.7),
    *series("`{}` of a random range, no writes", "a series' range", "range", 1.2, 1.9),
    *series("random write, then `{}` of a random range", "a series' write, then a range", "write and range", 1.4, 2.0, "from C: ", "calls"),
    *series("`{}` of a random range, no writes", "a series' range", "range", 1.5, 2.2, "from C: ", "calls"),
    Row("from C: first element at least x in a random range", f"{TREE}, by descent", [fig(f"from C, a series' first element at least x of {size}", "segment tree", f"calls:first at least {size}", f"series-searches:first at least {size}", 2.0, "series") for size in SERIES_SIZES]),
    Row("10,000,000 pushes", "a `Vec`", [fig("10,000,000 pushes", "Vec", "series:pushes series", "series-peers:pushes", 1.5, "series")]),
    Row("the same, with the `sum` of all after each 1,000,000", "a `Vec` and a running sum", [fig("10,000,000 pushes and ten sums", "Vec and running sum", "series:pushes and sums series", "series-peers:pushes and sums", 3, "series")]),
    window("window of 100,000: a push, an expiry, then `sum` / `greatest` of all", "", "series"),
    window("from C: the same window", "from C, ", "calls"),
    tail("from C, ", "calls", 1.5),
    tail("", "series", 1.5),
    tail("", "series", None, "a running sum and a monotonic deque", "running sum and deque", "deques"),
    Row("the slowest of 100,000,000 pushes, each with an expiry, in a window of 1,000,000 by `sum` and `greatest`", "1 ms", [fig("the slowest of 100,000,000 pushes", "1 ms", "series:slowest push series", 1e6, side="series")]),
    Row("memory of 10,000,000 elements: no query / `sum` and `greatest` of all", "a `Vec`", [fig(f"10,000,000 elements, {it}, memory", "Vec", f"series-memory:{word}", "series-memory:elements", most, "series") for it, word, most in (("nothing asked", "unasked", 2), ("two kinds asked", "asked", 3))]),
    Row("memory of a window of 10,000,000 elements by all six, after 100,000,000 turns", "after 20,000,000 turns", [fig("a window of 10,000,000, memory", "20,000,000 turns", "series-memory:100000000 turns", "series-memory:20000000 turns", 1.2, "100,000,000 turns")]),
]


def sums(work, baseline, labels, peer, theirs, most=None, side="board", ours="parts"):
    return Row(work, baseline, [fig(label, peer, f"board:{ours} {cells} by {count}", f"{theirs} {cells} by {count}", most, side) for label, cells, count in labels])


def by_threads(count):
    return f"by {count} thread{'s' * (count > 1)}"


BOARD = [
    *[Row(f"{edit} by 1 / 2 / 4 threads", LOCK, [fig(f"a {edit} by {count} threads", "Vec in a Mutex", f"board:{edit} by {count}", f"board-peers:mutex {edit} by {count}", most, "board") for count, most in ((1, 1), (2, None), (4, 0.8))]) for edit in ("push", "write")],
    Row("push by 1 / 2 / 4 threads", "oneTBB's `concurrent_vector`", [fig(f"a push by {count} threads", "concurrent_vector", f"board:push by {count}", f"board-peers:tbb push by {count}", 1.5, "board") for count in THREADS]),
    *[sums(f"sum of 8 / 64 / 4,000 elements from cached partials, {by_threads(count)}", LOCK, [(f"a sum of {cells} by {count} threads, parts", cells, count) for cells in SUMS], "Vec in a Mutex", "board-peers:mutex sum") for count in THREADS],
    *[sums(f"the same sums {by_threads(count)}", "sums from cells", [(f"a sum of {cells} by {count} threads", cells, count) for cells in SUMS], "cell by cell", "board:cells", 0.3, "from parts") for count in THREADS],
    sums("sum of 4,000 elements from cells, by 1 / 2 / 4 threads", LOCK, [(f"a sum of 4000 by {count} threads, cells", 4000, count) for count in THREADS], "Vec in a Mutex", "board-peers:mutex sum", ours="cells"),
]
# Of each part of the page: its heading, a line above its table, and its rows.
PARTS = [
    ("Queries by one aggregate", "Ratios are for 1,000 / 30,000 / 1,048,560 elements.", QUERIES),
    ("Precomputing", "", PRECOMPUTING),
    ("Folds and parallel forms", "", WHOLES),
    ("The program: `run` and `audit`", "", PROGRAM),
    ("Clients and subscribers: `serve`", "", CLIENTS),
    ("The series", "Three ratios are for 1,000 / 65,536 / 1,000,000 elements.", SERIES),
    ("The board", "The time of one thread's update or sum while the others work too.", BOARD),
]
BOOK = [fig("an order book of 65,536 levels: a message, both best levels known", peer, "bounds:livevec order book", f"bounds:{name} order book", most) for peer, name, most in (("a tree", "tree", 2.5), ("std::map", "map", 0.8), ("loops", "plain", None))]
BINDINGS = [Row("calls from C and C++", "", [
    *[fig(f"a write, then the sum of all {size}", "segment tree", f"bounds:livevec write and sum of {size}", f"bounds:tree write and sum of {size}", 2.0) for size in ("1,000", "1,000,000")],
    fig("1,000,000 running sums", "a loop", "bounds:livevec running sums", "bounds:plain running sums", 2.0),
    fig("1,000,000 pushes by one call", "a copy", "bounds:livevec push_many", "bounds:plain copy", 5.0),
    fig("a refresh of all by 4 workers", "in place by one", "bounds:livevec refresh by 4 workers", "bounds:livevec refresh in place", 0.5),
    *BOOK,
])]
# Over MPI: the work, its label, that of the peer, and by how many processes the peer is (0: as many)
ENGINES = [
    ("all six kinds of 16,777,088 elements in plain arrays, joined; peer: one thread's plain loop for all six", "fold of arrays", "plain loop", 1),
    ("the same; peer: a plain loop for the sum in each process, and `MPI_SUM`", "fold of arrays", "MPI_SUM of arrays", 0),
    ("an answer of a random range of as many elements in vectors, told to all; peer: the range's sum by a plain loop over arrays in each process, and `MPI_SUM`", "range answer", "range sum of arrays", 0),
    ("an allreduce of ready summaries; peer: of one number by `MPI_SUM`", "allreduce of summaries", "allreduce of numbers", 0),
    ("one element's running values, all six; peer: one element of one thread's plain loop for all six", "running values", "plain element", 1),
]
# what each part of `run` measures
MEASURED = {"figures": QUERIES + PRECOMPUTING + WHOLES, "program": PROGRAM, "serve": CLIENTS[:-5], "notes": CLIENTS[-5:], "series": SERIES, "board": BOARD, "bindings": BINDINGS}


def figures_of(part):
    return [figure for row in MEASURED.get(part, ()) for figure in row.figures]


def text(nanoseconds):
    return f"{nanoseconds:.1f} ns" if nanoseconds < 1e3 else f"{nanoseconds / 1e3:.2f} us" if nanoseconds < 1e6 else f"{nanoseconds / 1e6:.2f} ms"


def spelled(figure, amount):
    return f"{amount / 1e6:.1f} MB" if figure.label.endswith(" memory") else text(amount)


def rounded(of):
    """A ratio with two significant digits."""
    return f"{of:.0f}" if of >= 9.95 else f"{of:.1f}" if of >= 0.995 else f"{of:.2g}"


def reasons():
    """What is known of figures: what a reader calls the work, the baseline, the labels, what takes the time, what was tried and kept, and left."""
    lines = [line.rstrip("\n") for line in open(f"{HERE}/reasons") if line.strip() and not line.startswith("#")]
    return [["" if it == "-" else it for it in line.split(" | ")] for line in lines]


def line(figure, why=""):
    """A line that sets both times side by side, with the target if there is one, and with what takes the time where it is missed."""
    of = ratio(figure)
    if of is None:
        return f"{figure.label}: no figure beside {figure.peer}"
    told = "" if figure.most is None else f" (at most {figure.most}: met)" if of <= figure.most else f" (at most {figure.most}: missed{why and '; ' + why})"
    return f"{figure.label}: {figure.side} {spelled(figure, time(figure.ours))}, {figure.peer} {spelled(figure, time(figure.theirs))}, ratio {of:.{5 if of < 0.1 else 3}f}{told}"
