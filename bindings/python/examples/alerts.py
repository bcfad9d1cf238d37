#!/usr/bin/env python3
"""A store with alerts: four racks of sensors feed a shared vector from threads of their own, workers compute beside them, and a listener sleeps
until a rack gets hot or calm. It is the program of bindings/rust/examples/alerts.rs, and prints the same. What is printed goes by no thread's
speed: each hour's writes are to places of the rack's own, and an alarm stays until it was heard.

usage: alerts.py
"""
import queue
import threading
from typing import Any

from livevec import Kind, Queries, SharedVector, Vector

RACKS, SENSORS, HOURS, HOT = 4, 250, 8, 90


def feed(shared: Any, rack: Any, hour: Any) -> None:
    """What a rack's sensors measure in an hour: now and then something hot."""
    state = 1 + rack + RACKS * hour
    for sensor in range(rack * SENSORS, (rack + 1) * SENSORS):
        state = (state * 6_364_136_223_846_793_005 + 1_442_695_040_888_963_407) % 2**64
        shared[sensor] = 40 + (state >> 33) % 41 + (50 if (state >> 40) % 600 == 0 else 0)


def racks() -> Any:
    """The greatest of each rack, by its name."""
    queries = Queries()
    for rack in range(RACKS):
        queries.watch(f"rack_{rack}", "greatest", rack * SENSORS, (rack + 1) * SENSORS)
    return queries


def listen(news: Any, alarms: Any) -> None:
    """Sends a rack's name whenever it gets hot, or calm again."""
    hot, last = {}, 0
    for notes in news:
        assert notes[0].edit > last, "what is told doesn't go back"
        last = notes[0].edit
        for note in notes:
            is_hot = note.value >= HOT
            if hot.get(note.name, False) != is_hot:
                alarms.put((note.name, is_hot))
            hot[note.name] = is_hot


def measure(shared: Any, hour: Any) -> None:
    """All racks feed at once."""
    feeders = [threading.Thread(target=feed, args=(shared, rack, hour)) for rack in range(RACKS)]
    for feeder in feeders:
        feeder.start()
    for feeder in feeders:
        feeder.join()


def cool(shared: Any, rack: Any) -> Any:
    """Cools what is too hot in a rack, sensor by sensor, under one lock; tells how many there were."""
    cooled = 0
    with shared.locked() as sensors:
        while True:
            hottest = sensors.where_greatest(rack * SENSORS, (rack + 1) * SENSORS)
            if hottest.value < HOT:
                return cooled
            sensors[hottest.index] = 60
            cooled += 1


def main() -> None:
    with SharedVector(Vector([50] * (RACKS * SENSORS))) as shared:
        shared.start_workers(2)
        alarms = queue.Queue()
        listener = threading.Thread(target=listen, args=(shared.subscribe(racks()), alarms))
        listener.start()
        asked = racks()
        asked.watch("coolest", "least")
        asked.watch("total", "sum")
        board = shared.subscribe(asked)
        for hour in range(HOURS):
            measure(shared, hour)
            print(f"hour {hour}, {shared.edits} edits")
            hot = []
            for note in board.look():
                print(f"  {note.name}: {note.value}")
                if note.kind is Kind.GREATEST and note.value >= HOT:
                    hot.append((note.name, True))
            assert sorted(alarms.get() for _ in hot) == hot
            for name, _ in hot:
                print(f"  alarm of {name}: {cool(shared, int(name[5:]))} cooled")
                assert alarms.get() == (name, False)
        sensors = shared.close()
        listener.join()
    print(f"at the end {sensors.edits} edits of {len(sensors)} sensors, total {sensors.sum()}")


if __name__ == "__main__":
    main()
