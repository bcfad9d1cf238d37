#!/usr/bin/env python3
"""The rolling windows of rolling.py by pandas alone: for each batch it goes over the rows of the last hour.

usage: rolling_plain.py
"""
import feed
import pandas
from typing import Any


class Windows:
    def __init__(self) -> None:
        self.frame = pandas.DataFrame({"time": [], "load": []}, dtype="int64")

    def take(self, rows: Any) -> Any:
        self.frame = pandas.concat([self.frame, rows], ignore_index=True)
        since = self.frame["time"].searchsorted(rows["time"].iloc[0] - feed.HOUR, side="right")
        hour = self.frame.iloc[since:]
        rolled = hour.set_index(pandas.to_datetime(hour["time"], unit="s"))["load"].rolling(f"{feed.HOUR}s")
        windows = {"hour": rolled.sum(), "peak": rolled.max(), "lowest": rolled.min()}
        return rows.assign(**{name: column.tail(len(rows)).astype("int64").to_numpy() for name, column in windows.items()})

    def correct(self, row: Any, load: Any) -> None:
        self.frame.loc[row, "load"] = load


if __name__ == "__main__":
    feed.run(Windows())
