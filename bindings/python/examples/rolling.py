#!/usr/bin/env python3
"""Rolling windows over a data frame that grows: each batch of rows gets the sum, the peak and the lowest of the hour before each row, while late
corrections change rows that came long ago. By livevec: a batch asks for its own windows, whatever an hour has. rolling_plain.py does it by pandas
alone, which goes over the last hour for each batch, and prints the same.

usage: rolling.py
"""
import feed
from livevec import Samples
from typing import Any


class Windows:
    def __init__(self) -> None:
        self.loads = Samples()

    def take(self, rows: Any) -> Any:
        start = self.loads.size
        self.loads.push_many(rows["time"], rows["load"])
        kinds = {"hour": "sum", "peak": "greatest", "lowest": "least"}
        return rows.assign(**{name: self.loads.rolling_span(kind, feed.HOUR, start).cells for name, kind in kinds.items()})

    def correct(self, row: Any, load: Any) -> None:
        self.loads[row] = load


if __name__ == "__main__":
    feed.run(Windows())
