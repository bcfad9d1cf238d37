"""What a type checker takes of livevec, and what it refuses. `mypy --strict` reads this file; nobody runs it.

Each line that is marked has a mistake: the checker complains where it doesn't see one."""
from __future__ import annotations

from array import array
from typing import Optional, Union

from livevec import Answered, Board, Column, Delivered, Finished, Job, Kind, LongReduced, NotKept, Note, Outrun, Queries, Receipt, Reduced
from livevec import BestRun, Placed, Refusal, Sample, Samples, Scan, Seat, Series, SharedSamples, SharedSeries, SharedVector, Subscriber, Summary, Values, Vector, Window


class Prices(Vector):
    pass


def vectors(prices: Vector, some: Prices) -> None:
    index: int = prices.push(7)
    first: int = prices[0]
    part: list[int] = prices[1:3]
    total: int = prices.sum(-1000)
    least: Optional[int] = prices.least()
    every: array[int] = prices.to_array()
    answer: Reduced = prices.ask(index, index + total)
    values: Values = answer.values
    whole: tuple[int, ...] = values.automaton
    scanned: Scan = prices.scan_inclusive()
    last: Values = scanned[-1]
    why: Optional[Refusal] = prices.why_not_pop()
    one: tuple[int, int] = prices.value("affine", -5)
    many: list[Optional[int]] = prices.value_many(Kind.BEST, [(0, 1), (index, None)])
    prices.write_many([index, 0], every)
    again: Prices = some.copy()
    again = Prices.load(some.save())
    again.push_saved(memoryview(some.save()))
    length: int = some.save_into(bytearray(8), 8) + some.saved_length + some.total(0, index)
    same: bool = again == prices
    numbers = [2 * price for price in prices] + [first, *part]
    prices += numbers
    prices.extend(every)
    prices.read_into(memoryview(every), 0, 1)
    sums: memoryview = prices.scan_inclusive_by("sum", index).cells
    filled: int = prices.scan_exclusive_into(Kind.LEAST, every)
    kind: Optional[Kind] = Vector(numbers, kind="sum").kind
    print(least, whole, last.best, why, same, one, many, sums, filled, kind, length)


def wrong_vectors(prices: Vector) -> None:
    prices.push("7")  # type: ignore[arg-type]
    prices[0] = 1.5  # type: ignore[assignment]
    prices.ask(0, "end")  # type: ignore[arg-type]
    least: int = prices.least()  # type: ignore[assignment]
    prices.push(7, 8)  # type: ignore[call-arg]
    prices.deliver(prices)  # type: ignore[arg-type]
    Vector(["7"])  # type: ignore[list-item]
    Vector(kind=0)  # type: ignore[arg-type]
    prices.insert(0, least)  # type: ignore[attr-defined]
    prices.read_into([0])  # type: ignore[arg-type]
    prices.value(7)  # type: ignore[call-overload]
    prices.value_many("sum", [0, 1])  # type: ignore[list-item]
    total: int = prices.value("greatest")  # type: ignore[assignment]
    prices.value_many("sum", [(0, 1)], into=[total])  # type: ignore[call-overload]
    prices.rolling("sum", "3")  # type: ignore[call-overload]


def kinds_as_they_are_told(prices: Vector, readings: Series, load: Samples, shared: SharedVector, kind: str, of: Kind, room: array[int]) -> int:
    sums: int = prices.value("sum") + readings.value(Kind.SUM) + load.value_of_last("sum", 60) + load.value_between(Kind.SUM, 0, 9) + shared.value("sum")
    least: Optional[int] = prices.value(Kind.LEAST, 1) or readings.value("best", None, 3) or load.value_of_last("greatest", 60)
    pairs: list[tuple[int, int]] = [prices.value("affine"), *readings.value_many(Kind.AFFINE, [(0, 1)])]
    states: tuple[int, ...] = prices.value("automaton")
    some: Union[int, None, tuple[int, ...]] = prices.value(kind) or readings.value(of)
    every: list[Union[int, None, tuple[int, ...]]] = prices.value_many(kind, [(0, 1)])
    taken: int = prices.value_many(kind, [(0, 1)], into=room) + readings.rolling(of, 60, into=room) + load.rolling_span("sum", 60, into=room)
    table: memoryview = memoryview(room).cast("B").cast("q", [len(room) // 2, 2])
    taken += prices.value_many(of, table, into=table) + len(readings.value_many("sum", table))
    column: Column = readings.rolling("sum", 60)
    cells: memoryview = column.cells or load.rolling_span("sum", 60).cells
    print(least, pairs, states, some, every, column, cells)
    return sums + taken + sum(prices.value_many("sum", [(0, 1)])) + prices.total(1) + readings.total()


def series(readings: Series) -> int:
    index: int = readings.push(7)
    first: int = readings[index]
    part: list[int] = readings[index:9]
    again: Series = readings.copy()
    same: bool = again == readings
    dropped: int = readings.expire(index) + readings.truncate(index)
    answer: LongReduced = readings.ask(readings.first, readings.size)
    least: Optional[int] = readings.least(index)
    every: array[int] = readings.to_array()
    piece: Scan = readings.scan_inclusive(0, index, at=0, most=100)
    readings += [first, dropped, same, *part, *readings, *reversed(readings)]
    readings.extend(every)
    try:
        many: int = readings.read_into(memoryview(every), index)
    except NotKept as refusal:
        many = refusal.size - refusal.first
    with Series([1, 2]) as some:
        some[0] = many
    print(answer.values.best, least, piece.sums())
    return len(readings)


def series_by_one_kind(readings: Series, room: array[int]) -> int:
    one: Optional[int] = readings.value(Kind.BEST, 5)
    many: list[int] = readings.value_many("sum", [(0, 2), (None, 9)])
    column: Column = readings.scan_inclusive_by("affine", 0, 9, at=3, most=100)
    cells: memoryview = readings.scan_exclusive_by(Kind.SUM).cells
    took: int = readings.scan_inclusive_into("least", room, at=7) + readings.scan_exclusive_into("least", room, 1, 2)
    print(one, many, cells)
    return column.edit + took


def places(prices: Vector, readings: Series) -> Optional[int]:
    least: Optional[Placed] = readings.where_least(2)
    run: Optional[BestRun] = readings.where_best(0, 9)
    found: Optional[int] = readings.where_first_at_least(7) or prices.where_last_at_most(7, 0, 9)
    readings.where_reaches()  # type: ignore[call-arg]
    prices.where_reaches_back("7")  # type: ignore[arg-type]
    print(least, run)
    return found or readings.where_reaches_back(7, 0, 9)


class Load(Samples):
    pass


def samples(saved: bytes, every: array[int]) -> Load:
    back: Load = Load.load(saved)
    window: Window = back.between(0, 60)
    total: int = back.sum(*window) + back.push(60, 7) + back.times_into(every)
    one: Sample = back.sample(window.lo)
    value: Optional[int] = back.value_of_last("greatest", one.time)
    back.push_many(back.times(), every)
    again: bytes = Load.load_pieces([saved[:8], bytearray(saved[8:])]).save()
    took: int = back.save_into(bytearray(64), 8) + back.saved_length
    back.push(60)  # type: ignore[call-arg]
    back.between("0", 60)  # type: ignore[arg-type]
    back.extend([7])  # type: ignore[attr-defined]
    Series.load("livevec:")  # type: ignore[arg-type]
    print(total, value, again, took)
    return back


def wrong_series_by_one_kind(readings: Series) -> None:
    readings.value(7)  # type: ignore[call-overload]
    readings.value_many("sum", [1, 2])  # type: ignore[list-item]
    readings.scan_inclusive_by("sum", 0, 9, 3)  # type: ignore[misc]
    readings.scan_inclusive_into("sum", [1])  # type: ignore[arg-type]


def wrong_series(readings: Series) -> None:
    readings.push("7")  # type: ignore[arg-type]
    readings.expire(1.5)  # type: ignore[arg-type]
    total: int = readings.greatest()  # type: ignore[assignment]
    readings.read_into([total])  # type: ignore[arg-type]
    Series(["7"])  # type: ignore[list-item]
    readings.reserve(7)  # type: ignore[attr-defined]


def summaries(prices: Vector, sent: bytes) -> Summary:
    part: Summary = prices.summary(-10)
    edit: Optional[int] = part.edit
    total: int = part.values.sum + part.count
    rows: tuple[tuple[int, ...], ...] = part.table
    prices + part  # type: ignore[operator]
    part.join(sent)  # type: ignore[arg-type]
    Summary.from_bytes(5)  # type: ignore[arg-type]
    print(edit, total, rows, bytes(part))
    return Summary([1], table=rows).join(Summary.from_bytes(sent)).extended(prices)


def standing(prices: Vector) -> None:
    with Queries() as queries:
        queries.watch("total", "sum")
        queries.watch("dip", Kind.LEAST, 0, 2)
        notes: list[Note] = queries.notes(prices)
        name: str = notes[0].name
        answer: Answered = queries.answer(prices, name)
        value: Union[int, None, tuple[int, ...]] = answer.value
        edit: int = notes[0].edit + answer.edit
        queries.watch("dip", 2)  # type: ignore[arg-type]
        queries.watch(b"dip", "sum")  # type: ignore[arg-type]
        queries.notes([1])  # type: ignore[arg-type]
        queries.unwatch()  # type: ignore[call-arg]
        print(queries.names, value, edit)


def threads(prices: Vector, queries: Queries) -> Vector:
    with SharedVector(prices) as shared:
        shared.start_workers(2)
        receipt: Receipt = shared.push(7)
        alerts: Subscriber = shared.subscribe(queries)
        alerts.pause = 0.01
        for notes in alerts:
            name: str = notes[0].name
            print(name, shared.sum(0, receipt.edit), shared.reduce().edit)
        with shared.locked() as vector:
            index: int = vector.push(8)
        last: int = shared.extend([index]) + shared.write_many([0], [1])
        looked: list[Note] = alerts.look()
        shared.push("7")  # type: ignore[arg-type]
        shared.subscribe("total")  # type: ignore[arg-type]
        shared.start_workers(None)  # type: ignore[arg-type]
        least: int = shared.least()  # type: ignore[assignment]
        shared.renew()
        print(last, looked, least)
        return shared.close()


def threads_of_series(readings: Series, load: Samples) -> tuple[Series, Samples]:
    with SharedSeries(readings) as shared, SharedSamples(load) as samples:
        receipt: Receipt = shared.push(7)
        alerts: Subscriber = shared.subscribe({"total": "sum", "dip": (Kind.LEAST, 0, None)})
        looked: list[Note] = alerts.look() + samples.subscribe({"most": "greatest"}).look()
        with shared.locked() as series, samples.locked() as within:
            index: int = series.push(8) + within.push(0, 8)
        last: int = shared.extend([index]) + samples.push_many([1], [2]) + shared.expire(1).edit + samples.expire_before(1).told
        shared.start_workers(2)  # type: ignore[attr-defined]
        samples.push(7)  # type: ignore[call-arg]
        SharedSeries(load)  # type: ignore[arg-type]
        print(last, looked, receipt, shared.reduce().edit, shared.first + shared.size, samples.sample(0).time)
        return shared.close(), samples.close()


def jobs(prices: Vector) -> None:
    job: Optional[Job] = prices.claim()
    job.run()  # type: ignore[union-attr]
    if job is not None:
        delivered: Delivered = prices.deliver(job.run())
        print(delivered.became.name, job.node.level)


def boards() -> Finished:
    with Board(Kind.SUM, seats=1) as board:
        with board.sit() as seat:
            place: int = seat.push(1, tries=3)
            try:
                seat[place] = 2
            except Outrun as outrun:
                print(outrun.detail)
            seat.push(1, 3)  # type: ignore
            other: Seat = board  # type: ignore[assignment]
        print(other)
        return board.finish()
