"""What plain Python makes of numbers, for tests to compare with."""
import itertools
from typing import Any

from livevec import Kind


def wrapped(total: Any) -> Any:
    """A sum as `Values.sum` has it."""
    return (total + 2**63) % 2**64 - 2**63


def plain_values(numbers: Any) -> Any:
    """All values but the automaton's, each from its meaning."""
    runs = [sum(numbers[i:j]) for i, j in itertools.combinations(range(len(numbers) + 1), 2)] if len(numbers) < 60 else best_runs(numbers)
    a, b = 1, 0
    for x in numbers:
        a, b = a * (x // 256) % 2**32, (x // 256 * b + x % 256) % 2**32
    return wrapped(sum(numbers)), min(numbers, default=None), max(numbers, default=None), max(runs, default=None), (a, b)


def best_runs(numbers: Any) -> Any:
    """The greatest total of a run that ends at each place."""
    return itertools.accumulate(numbers, lambda ends, x: max(ends, 0) + x)


def best(numbers: Any) -> Any:
    """The greatest total of one or more neighbours; None of nothing."""
    return max(best_runs(numbers), default=None)


def value_of(kind: Any, elements: Any) -> Any:
    """What a kind says of some elements, by a loop over them."""
    if kind is Kind.SUM:
        return wrapped(sum(elements))
    if kind is Kind.LEAST:
        return min(elements, default=None)
    if kind is Kind.GREATEST:
        return max(elements, default=None)
    if kind is Kind.BEST:
        return best(elements)
    a, b, states = 1, 0, list(range(8))
    for x in elements:
        a, b = a * (x // 256) % 2**32, (b * (x // 256) + x % 256) % 2**32
        states = [(2 * state + x % 4) % 8 for state in states]
    return (a, b) if kind is Kind.AFFINE else tuple(states)
