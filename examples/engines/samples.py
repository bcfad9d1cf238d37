"""What samples_mpi.py and samples_plain.py share: the samples, what is asked of them, and how an answer is printed; as in samples.h."""

PLACES, WRITTEN = 10, 5_000_000


def sample(index):
    return (index * 2654435761 ^ index >> 7) % 2000003 - 1000001


def ranges(samples):
    third = samples // 3
    return [(0, samples), (samples // 4, samples - samples // 4), (third, third + (samples - third) // 50), (samples // 2, samples),
            (samples // 7, samples // 7), (samples - samples // 100, samples)]


def shown(lo, hi, values):
    if lo == hi:
        return f"{lo} to {hi}: nothing"
    a, b = values.affine
    return f"{lo} to {hi}: sum {values.sum}, least {values.least}, greatest {values.greatest}, best run {values.best}, map {a} {b}"


class Running:
    """The running values as they are shown: at the places, and all of them in one number."""

    def __init__(self, samples):
        self.sums, self.bests, self.all = [0] * PLACES, [0] * PLACES, 0
        self.places = [samples * (which + 1) // PLACES for which in range(PLACES)]
        self.at = set(self.places)

    def take(self, index, total, best):
        """Takes in the running values up to `index`, that one included."""
        self.all = (self.all + (2 * index + 1) * total + (2 * index + 3) * best) % 2**64
        if index + 1 in self.at:
            for which in range(PLACES):
                if self.places[which] == index + 1:
                    self.sums[which], self.bests[which] = total, best

    def show(self):
        for place, total, best in zip(self.places, self.sums, self.bests):
            print(f"up to {place}: sum {total}, best run {best}")
        print(f"all running values: {self.all}")
