"""What the rolling windows of rolling.py and rolling_plain.py are of: batches of rows for a data frame, with late corrections; and what is printed."""
import random
from typing import Any

import pandas

BATCHES, ROWS, LATE = 300, 40, 6
HOUR = 3600


def run(windows: Any) -> None:
    """Hands batches of rows to what keeps windows, which gives each batch back with its windows; prints what they came to."""
    chance, now, size, alerts = random.Random(4), 0, 0, 0
    for number in range(BATCHES):
        times = []
        for _ in range(ROWS):
            now += chance.choice((0, 0, 1, 1, 2))
            times.append(now)
        loads = [chance.randint(0, 100) + (400 if chance.random() < 0.0001 else 0) for _ in times]
        rows = windows.take(pandas.DataFrame({"time": times, "load": loads}))
        alerts += int((rows["peak"] >= 400).sum())
        size += ROWS
        for _ in range(LATE):
            # a late meter: its row is corrected, and the windows of later rows go by that
            windows.correct(chance.randrange(max(0, size - 4000), size), chance.randint(0, 120))
        if number % 50 == 49:
            last = rows.iloc[-1]
            print(f"second {last['time']}: {last['hour']} in the last hour, peak {last['peak']}, lowest {last['lowest']}; {alerts} rows with an alert")
