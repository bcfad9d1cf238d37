"""Parts whose answers a plain count says, and that tell what each takes: audits and costs of 1,000,000 elements."""
import random
import resource

from soak_parts.program import SEED, stop, told


def processor_seconds(words, data):
    """What a run of the program prints, and the processor time that it took."""
    before = resource.getrusage(resource.RUSAGE_CHILDREN)
    ran = told(words, data)
    after = resource.getrusage(resource.RUSAGE_CHILDREN)
    return ran.stdout, after.ru_utime + after.ru_stime - before.ru_utime - before.ru_stime


def timed_least(words, data):
    """The same, with the least time of three runs: a difference of two such is seldom lost in noise."""
    runs = [processor_seconds(words, data) for _ in range(3)]
    return runs[0][0], min(spent for _, spent in runs)


def audits(room):
    """Sums of great ranges, each after one more overwrite, are audited; a plain tree of sums says what is right."""
    dice, size, count = random.Random(SEED), 1000000, 100000
    elements = [dice.randrange(-2**63, 2**63) for _ in range(size)]
    tree = [0] * (size + 1)
    for i, x in enumerate(elements, 1):
        tree[i] += x
        above = i + (i & -i)
        if above <= size:
            tree[above] += tree[i]

    def total(n):
        found = 0
        while n:
            found += tree[n]
            n &= n - 1
        return found

    edits, answers = [f"j push {x}" for x in elements], []
    for edit in range(size + 1, size + count + 1):
        i, x = dice.randrange(size), dice.randrange(-2**63, 2**63)
        edits.append(f"j write {i} {x}")
        more, elements[i] = x - elements[i], x
        n = i + 1
        while n <= size:
            tree[n] += more
            n += n & -n
        low, high = sorted((dice.randrange(size // 2), dice.randrange(size // 2, size + 1)))
        answers.append(f"a {edit} sum {low} {high} {(total(high) - total(low)) % 2**64}")
    transcript = lambda claims: ("\n".join(["livevec 1", *edits, *claims, "end"]) + "\n").encode()
    (said, alone), (said, whole) = timed_least(["audit"], transcript([])), timed_least(["audit"], transcript(answers))
    if said != b"yes\n":
        stop(f"the audit of right answers: {said!r}")
    answers[-1] = f"{answers[-1][:-1]}{(int(answers[-1][-1]) + 1) % 10}"
    said, _ = processor_seconds(["audit"], transcript(answers))
    if said != f"no {1 + len(edits) + count}\n".encode():
        stop(f"the audit of a wrong answer: {said!r}")
    spent = f"{(whole - alone) / count * 1e6:.1f} us an answer" if whole > 1.1 * alone else f"no time that can be told beside the {alone:.1f} s of the edits"
    print(f"audits: {count} sums of {size // 2} elements or so, each after an overwrite: yes, and no for a wrong one; {spent}")


def costs(room):
    """What a reduction reads is told at once where few blocks are fresh."""
    size, count, every = 1000000, 1000, 997
    pushes, jobs = [f"push {k}" for k in range(size)], ["claim"] * (size // 8)
    fresh = set(range(0, size // 8, every))
    given = [f"deliver {block + 1}" for block in sorted(fresh)]
    dice, asked, wanted = random.Random(SEED), [], []
    for _ in range(count):
        low, high = sorted((dice.randrange(size + 1), dice.randrange(size + 1)))
        inside = sum(low <= 8 * block and 8 * block + 8 <= high for block in fresh)
        asked.append(f"cost {low} {high}")
        wanted.append(f"cells {high - low - 8 * inside} summaries {inside}")
    script = lambda more: ("\n".join([*pushes, *jobs, *given, *more]) + "\n").encode()
    _, alone = processor_seconds(["run"], script([]))
    said, whole = processor_seconds(["run"], script(asked))
    if said.decode().splitlines()[-count:] != wanted:
        stop("a cost is not what a plain count says")
    cells = sum(int(line.split()[1]) for line in wanted)
    print(f"costs: {count} ranges of {size} elements, {len(fresh)} blocks of them fresh: as a plain count says; {(whole - alone) / cells * 1e9:.2f} ns a cell")
