"""A key of the module as a plain list: what each command replies, from its meaning."""
from fractions import Fraction

from livevec import Kind
from plain import value_of

KINDS = {"sum": Kind.SUM, "min": Kind.LEAST, "max": Kind.GREATEST, "best": Kind.BEST, "affine": Kind.AFFINE, "automaton": Kind.AUTOMATON}
OUT_OF_RANGE, BAD_RANGE, EMPTY, EARLIER, WRONG_TYPE = "!LV3", "!LV7", "!LV2", "!LV21", "!WRONGTYPE"


def value(kind, elements):
    """What a kind says, as a reply has it: numbers, lists of numbers, or None."""
    if kind == "count":
        return len(elements)
    if kind == "exactsum":
        return as_reply(sum(elements))
    if kind == "mean":
        return float(Fraction(sum(elements), len(elements))) if elements else None
    found = value_of(KINDS[kind], elements)
    return list(found) if isinstance(found, tuple) else as_reply(found)


def as_reply(number):
    """A number that doesn't fit into 64 bits is a text."""
    return number if number is None or -(2**63) <= number < 2**63 else str(number)


class PlainList:
    def __init__(self, has_times):
        self.has_times, self.first, self.edits, self.retention = has_times, 0, 0, 0
        self.values, self.times = [], []

    @property
    def size(self):
        return self.first + len(self.values)

    def edited(self, second=None):
        self.edits += 1
        return self.edits if second is None else [self.edits, second]

    def push(self, *values):
        if self.has_times:
            return WRONG_TYPE
        self.values += values
        self.edits += len(values)
        return self.edits

    def add(self, time, x):
        if not self.has_times:
            return WRONG_TYPE
        if self.times and time < self.times[-1]:
            return EARLIER
        self.values.append(x)
        self.times.append(time)
        edit = self.edited()
        gone = sum(it <= time - self.retention for it in self.times) if self.retention else 0
        if gone:
            self.drop(gone)
        return edit

    def drop(self, count):
        self.first += count
        del self.values[:count], self.times[:count]
        return self.edited(count)

    def has(self, *indices):
        return all(self.first <= it < self.size for it in indices)

    def set(self, index, x):
        if not self.has(index):
            return OUT_OF_RANGE
        before, self.values[index - self.first] = self.values[index - self.first], x
        return self.edited(before)

    def pop(self):
        if not self.values:
            return EMPTY
        del self.times[-1:]
        return self.edited(self.values.pop())

    def swap(self, i, j):
        if self.has_times:
            return WRONG_TYPE
        if not self.has(i, j):
            return OUT_OF_RANGE
        i, j = i - self.first, j - self.first
        self.values[i], self.values[j] = self.values[j], self.values[i]
        return self.edited(self.values[i])

    def truncate(self, size):
        if not self.first <= size <= self.size:
            return OUT_OF_RANGE
        count = self.size - size
        del self.values[size - self.first :], self.times[size - self.first :]
        return self.edited(count)

    def expire(self, form, at):
        if form == "BEFORE":
            return self.drop(sum(it < at for it in self.times)) if self.has_times else WRONG_TYPE
        return self.drop(at - self.first) if self.first <= at <= self.size else OUT_OF_RANGE

    def retain(self, span):
        self.retention = span
        return "OK"

    def range(self, window):
        """The indices of a window as a pair, or an error."""
        form, *numbers = window or ["ALL"]
        if form in ("TIME", "WITHIN") and not self.has_times:
            return WRONG_TYPE
        if form == "ALL":
            return self.first, self.size
        if form == "LAST":
            return max(self.first, self.size - numbers[0]), self.size
        if form == "WITHIN":
            since = (self.times[-1] if self.times else 0) - numbers[0]
            return self.first + sum(it <= since for it in self.times), self.size
        lo, hi = numbers
        if form == "INDEX":
            return BAD_RANGE if lo > hi else (lo, hi) if self.first <= lo and hi <= self.size else OUT_OF_RANGE
        lo, hi = -(2**64) if lo == "-" else lo, 2**64 if hi == "+" else hi
        return BAD_RANGE if lo > hi else tuple(self.first + sum(it < end for it in self.times) for end in (lo, hi))

    def within(self, window):
        """The elements of a window, and where it begins; or an error."""
        found = self.range(window)
        return (found, 0) if isinstance(found, str) else (self.values[found[0] - self.first : found[1] - self.first], found[0])

    def value(self, kind, *window):
        elements, _ = self.within(window)
        return elements if isinstance(elements, str) else [self.edits, value(kind, elements)]

    def scan(self, kind, exclusive, *window):
        elements, _ = self.within(window)
        return elements if isinstance(elements, str) else [value(kind, elements[: i + (not exclusive)]) for i in range(len(elements))]

    def entries(self, *window):
        elements, begin = self.within(window)
        if isinstance(elements, str) or not self.has_times:
            return elements
        return [list(it) for it in zip(self.times[begin - self.first :], elements)]

    def buckets(self, span, kind, *window):
        found = self.entries(*window) if self.has_times else WRONG_TYPE
        if isinstance(found, str):
            return found
        begins = sorted({time // span * span for time, _ in found})
        return [[begin, value(kind, [x for time, x in found if time // span * span == begin])] for begin in begins]

    def find(self, which, form, x, *bounds):
        elements, begin = self.within(("INDEX", *bounds) if bounds else ())
        if isinstance(elements, str):
            return elements
        places = [begin + i for i, it in enumerate(elements) if (it >= x if form == "ATLEAST" else it <= x)]
        return [self.edits, (places[0] if which == "FIRST" else places[-1]) if places else None]

    def reach(self, x, *bounds):
        elements, begin = self.within(("INDEX", *bounds) if bounds else ())
        if isinstance(elements, str):
            return elements
        return [self.edits, next((begin + i for i in range(len(elements) + 1) if sum(elements[:i]) >= x), None)]

    def where(self, kind, *bounds):
        elements, begin = self.within(("INDEX", *bounds) if bounds else ())
        if isinstance(elements, str) or not elements:
            return elements or [self.edits, None]
        if kind != "best":
            return [self.edits, begin + elements.index(min(elements) if kind == "min" else max(elements))]
        runs = [(sum(elements[i:j]), -j, i) for j in range(1, len(elements) + 1) for i in range(j)]
        _, end, start = max(runs)
        return [self.edits, begin + start, begin - end]
