#!/usr/bin/env python3
"""Sums a study up:

    python3 examples/study/summary.py RESULTS FOLDER

writes FOLDER/summary.txt: how many runs ended how; for each line and train the ten orders that cost most; which runs
stall where; and those that are refused, or couldn't be made. FOLDER/costs.txt has what each order costs by where it
lies, for costs.gp. What an order costs is by how much its run arrives later at the end of the line than the run of
the same line, train and plan without edits. An order lies where the first `put` of its edits begins.
"""

import csv
import heapq
import pathlib
import sys
from collections import Counter
from collections.abc import Iterable, Iterator
from dataclasses import dataclass, fields
from operator import itemgetter

MOST = 10  # orders of a line and a train

Group = tuple[str, str, str]


@dataclass(frozen=True, slots=True)
class Ending:
    """How a run ended: columns of the last of its rows."""

    run: str
    line: str
    stock: str
    plan: str
    edits: str
    status: str
    file: str
    place: str
    rule: str
    stalled: str
    arrival_high: str

    @property
    def group(self) -> Group:
        """What runs share of which the costs are compared."""
        return self.line, self.stock, self.plan

    def shown(self, *columns: str) -> str:
        """Columns in one line; a plan or edits that the run hasn't are `-`."""
        return " ".join(getattr(self, column) or "-" for column in columns)


@dataclass(frozen=True)
class Order:
    """A run with edits, by where these lie in m, and what they cost in ns; none where the train stalls."""

    run: Ending
    place: int
    cost: "int | None"


def endings_in(results: pathlib.Path) -> Iterator[Ending]:
    """How each run ended."""
    with open(results, encoding="utf-8", newline="") as file:
        rows = csv.reader(file)
        head = next(rows)
        columns = itemgetter(*(head.index(field.name) for field in fields(Ending)))
        last: list[str] = []
        for row in rows:
            if last and row[0] != last[0]:
                yield Ending(*map(sys.intern, columns(last)))
            last = row
        if last:
            yield Ending(*map(sys.intern, columns(last)))


def place_of(edits: str) -> int:
    """Where the first restriction of an edits file begins, in m; 0 where it has none."""
    lines = pathlib.Path(edits).read_text(errors="replace").splitlines()
    return next((int(line.split()[2]) for line in lines if line.startswith("put ")), 0)


def groups_of(runs: Iterable[Ending]) -> dict[Group, list[Ending]]:
    """The runs of each line, train and plan."""
    groups: dict[Group, list[Ending]] = {}
    for run in runs:
        groups.setdefault(run.group, []).append(run)
    return groups


def orders_of(group: Iterable[Ending]) -> list[Order]:
    """The orders of a group by where they lie; none where it has no whole run without edits."""
    ended = [run for run in group if run.status in ("done", "stalled")]
    free = next((run for run in ended if not run.edits and run.status == "done"), None)
    if free is None:
        return []
    orders = []
    for run in filter(lambda run: run.edits, ended):
        cost = int(run.arrival_high) - int(free.arrival_high) if run.status == "done" else None
        orders.append(Order(run, place_of(run.edits), cost))
    return sorted(orders, key=lambda order: order.place)


def tenths(cost: int) -> str:
    """Nanoseconds as seconds, to a tenth."""
    rounded = (2 * abs(cost) + 10**8) // (2 * 10**8)
    return f"{'-' if cost < 0 and rounded else ''}{rounded // 10}.{rounded % 10}"


def dearest(orders: Iterable[Order]) -> Iterator[str]:
    """For each line and train, the orders that cost most."""
    trains: dict[tuple[str, str], list[Order]] = {}
    for order in orders:
        if order.cost is not None:
            trains.setdefault((order.run.line, order.run.stock), []).append(order)
    for (line, stock), some in trains.items():
        yield f"\nWhat costs {stock} most on {line}, in s"
        for order in heapq.nlargest(MOST, some, key=lambda order: order.cost):
            yield f"{tenths(order.cost):>8} {order.run.shown('edits', 'plan')}"


def listed(title: str, runs: Iterable[Ending], *columns: str) -> Iterator[str]:
    """Runs with some columns of theirs, below a title; nothing where there are none."""
    for number, run in enumerate(runs):
        if number == 0:
            yield f"\n{title}"
        yield f"{run.shown(*columns)}: {run.shown('line', 'stock', 'plan', 'edits')}"


def summary(runs: list[Ending], orders: Iterable[Order]) -> Iterator[str]:
    """The lines of the summary."""
    counts = Counter(run.status for run in runs)
    yield f"{len(runs)} runs: {', '.join(f'{count} {status}' for status, count in sorted(counts.items()))}"
    yield from dearest(orders)
    told = {"done", "stalled", "refused"}
    yield from listed("Stalled, at m", (run for run in runs if run.status == "stalled"), "stalled")
    refused = (run for run in runs if run.status == "refused")
    yield from listed("Refused, by file, place and rule", refused, "file", "place", "rule")
    yield from listed("Not made", (run for run in runs if run.status not in told), "status", "file")


def costs(orders: dict[Group, list[Order]]) -> Iterator[str]:
    """For each group a title, then `KM SECONDS` for each order, and `KM stalled`; groups are two empty lines apart."""
    for number, (group, some) in enumerate(orders.items()):
        title = ", ".join([group[0], *(pathlib.Path(name).stem for name in group[1:] if name)])
        yield ("\n\n" if number else "") + f'"{title}" -'
        for order in some:
            yield f"{order.place / 1000} {'stalled' if order.cost is None else tenths(order.cost)}"


def main(results: str, folder: str) -> int:
    runs = list(endings_in(pathlib.Path(results)))
    orders = {group: orders_of(some) for group, some in groups_of(runs).items()}
    told = summary(runs, [order for some in orders.values() for order in some])
    drawn = costs({group: some for group, some in orders.items() if some})
    for name, lines in (("summary.txt", told), ("costs.txt", drawn)):
        (pathlib.Path(folder) / name).write_text("".join(f"{line}\n" for line in lines))
    return 0


if __name__ == "__main__":
    if len(sys.argv) != 3:
        sys.exit(__doc__)
    sys.exit(main(*sys.argv[1:]))
