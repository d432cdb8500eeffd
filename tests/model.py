"""A model of rtime, written from docs/METHOD.md alone, against which compare.py holds the program.

It is meant to be checked against METHOD.md section by section, so it states the definitions and seeks
no speed: a run is found by lowering the caps, in passes along the line, until no clause lowers any more.
How an edits file is read isn't said there; that stands in docs/FORMATS.md.

Units: places in m, speeds in km/h, squared speeds `u` in (0.01 km/h)², forces in N (resistance in mN),
masses in kg, braking rates in mm/s², gradients in tenths of a per mille. Push and pull are in units of
`u` times kg, braking in units of `u`; both are by the metre run. `//` rounds down, also below 0.
"""

import re
from bisect import bisect_left, bisect_right
from collections.abc import Callable, Collection, Iterable, Sequence
from dataclasses import dataclass, replace
from decimal import Decimal, localcontext
from functools import cached_property
from itertools import accumulate, pairwise
from math import isqrt

Row = tuple[int, int]
Zone = tuple[int, int, int]


def ceil_div(number: int, by: int) -> int:
    """The quotient, rounded up."""
    return -(-number // by)


def squared(kmh: int) -> int:
    """The squared speed `u` of a speed in whole km/h."""
    return 10000 * kmh**2


# Tables of a train


def grid(rows: Sequence[Row]) -> list[int]:
    """The values at 0, 1, .. km/h of a table given by rows of a speed in km/h and a value."""
    values = [rows[0][1]]
    for (x0, y0), (x1, y1) in pairwise(rows):
        values += [y0 + (y1 - y0) * (k - x0) // (x1 - x0) for k in range(x0 + 1, x1 + 1)]
    return values


def between(values: Sequence[int], u: int) -> int:
    """The value at the squared speed `u` of a table with values at 0, 1, .. km/h."""
    k = isqrt(u // 10000)
    if u == squared(k):
        return values[k]
    return values[k] + (values[k + 1] - values[k]) * (u - squared(k)) // (10000 * (2 * k + 1))


@dataclass(frozen=True)
class Train:
    """A train, as the keys of a stock file say it."""

    mass: int  # kg
    rotating: int  # per mille of the mass
    length: int  # m
    top: int  # km/h
    effort: tuple[Row, ...]  # km/h, N
    resistance: tuple[int, int, int]  # N, mN per km/h, mN per (km/h)²
    brake: tuple[Row, ...]  # km/h, mm/s²

    @cached_property
    def moved(self) -> int:
        """The moved mass in kg."""
        return ceil_div(self.mass * (1000 + self.rotating), 1000)

    def held_at(self, k: int) -> int:
        """The resistance in mN at `k` km/h."""
        constant, linear, quadratic = self.resistance
        return 1000 * constant + linear * k + quadratic * k**2

    @cached_property
    def pushes(self) -> list[int]:
        """The push at each whole km/h up to the top speed."""
        return [
            259200 * effort - ceil_div(1296 * self.held_at(k), 5)
            for k, effort in enumerate(grid(self.effort))
        ]

    @cached_property
    def brakings(self) -> list[int]:
        """What full brakes take off `u` on a metre, at each whole km/h up to the top speed."""
        return [2592 * rate // 10 for rate in grid(self.brake)]

    def breaks_effort_law(self) -> list[int]:
        """The speeds `k` in km/h from which the push falls too steeply to `k + 1`."""
        falls = [before - after for before, after in pairwise(self.pushes)]
        return [k for k, fall in enumerate(falls) if fall > 10000 * (2 * k + 1) * self.moved]

    def breaks_brake_law(self) -> list[int]:
        """The speeds `k` in km/h from which the braking climbs too steeply to `k + 1`."""
        climbs = [after - before for before, after in pairwise(self.brakings)]
        return [k for k, climb in enumerate(climbs) if climb > 10000 * (2 * k + 1)]


# Gradient and caps


@dataclass(frozen=True)
class Line:
    """A line, as the records of a line file say it."""

    length: int  # m
    gradients: tuple[Zone, ...]  # from and to in m, tenths of a per mille
    limits: tuple[Zone, ...]  # from and to in m, km/h

    def gradient(self, cell: int) -> int:
        """The gradient of a cell in tenths of a per mille: level where no record gives it."""
        return sum(slope for start, end, slope in self.gradients if start <= cell < end)

    def under(self, zones: Iterable[Zone]) -> "Line":
        """The line with restrictions in force, which bind as its limits do."""
        return replace(self, limits=(*self.limits, *zones))


def pulls_of(line: Line, train: Train) -> list[int]:
    """The pull at each cell: that of the mean gradient of the cells under the train."""
    gradients = [line.gradient(cell) for cell in range(line.length)]
    return [
        ceil_div(
            train.mass * sum(gradients[max(0, head - train.length + 1) : head + 1]) * 158922,
            625 * train.length,
        )
        for head in range(line.length)
    ]


@dataclass(frozen=True)
class Call:
    """A stop or a pass of a plan."""

    at: int  # m
    dwell: int | None  # s; None where the train passes


@dataclass(frozen=True)
class Section:
    """A stretch of the line with an allowance."""

    start: int  # m
    end: int  # m
    kind: str  # percent, per100km or fixed
    amount: int  # tenths of a percent, s for each 100 km, or s


@dataclass(frozen=True)
class Plan:
    """A plan, as the records of a plan file say it: what no record says is 0."""

    depart: int = 0  # s
    enter: int = 0  # km/h
    leave: int = 0  # km/h
    calls: tuple[Call, ...] = ()
    sections: tuple[Section, ...] = ()


def bounds_of(plan: Plan, length: int) -> list[Row]:
    """The points of a line of so many m with the greatest `u` that a plan allows there."""
    stands = [(call.at, 0) for call in plan.calls if call.dwell is not None]
    return [(0, squared(plan.enter)), (length, squared(plan.leave)), *stands]


def caps_of(line: Line, length: int, top: int, bounds: Iterable[Row] = ()) -> list[int]:
    """The greatest `u` allowed at each point, for a train of so many m and so many km/h.

    A limit binds until the train's tail has left it, and a bound at its point alone.
    """

    def kmh_at(point: int) -> int:
        return min(
            [top] + [kmh for start, end, kmh in line.limits if start <= point <= end + length]
        )

    caps = [squared(kmh_at(point)) for point in range(line.length + 1)]
    for point, most in bounds:
        caps[point] = min(caps[point], most)
    return caps


# Edits


NAME = re.compile("[A-Za-z0-9._-]{1,40}")
WHOLE = re.compile("0|-?[1-9][0-9]*")
WORDS = {"put": 5, "take": 2}  # the words of each command
LONGEST = 200  # bytes of a line
MOST_HELD = 10000  # restrictions that may be in force


@dataclass(frozen=True)
class Refusal:
    """The first line of an edits file that has a code."""

    line: int  # its number, from 1
    code: int


def edit_lines(text: str) -> list[str]:
    """The lines of an edits file, each without one CR at its end; the last needs no LF."""
    *lines, last = text.split("\n")
    return [line.removesuffix("\r") for line in (*lines, *([last] if last else []))]


def words_of(line: str) -> list[str]:
    """The words of a line, parted by blanks."""
    return [word for word in line.split(" ") if word]


def is_zone(words: Sequence[str], length: int) -> bool:
    """Whether words are from and to on a line of so many m, and a speed."""
    if not all(map(WHOLE.fullmatch, words)):
        return False
    start, end, kmh = map(int, words)
    return 0 <= start < end <= length and 1 <= kmh <= 500


def code_of(line: str, length: int, held: Collection[str]) -> int | None:
    """The code that a line has, where restrictions of the names `held` are in force; None where none."""
    words = words_of(line)
    if len(line.encode(errors="surrogateescape")) > LONGEST:
        return 1
    if not words or len(words) != WORDS.get(words[0]):
        return 2
    kind, name, *zone = words
    if not NAME.fullmatch(name) or (kind == "put" and not is_zone(zone, length)):
        return 3
    if kind == "take":
        return None if name in held else 5
    if name in held:
        return 4
    return 6 if len(held) == MOST_HELD else None


def edited(text: str, length: int) -> tuple[Zone, ...] | Refusal:
    """The restrictions that an edits file leaves in force on a line of so many m, in their order."""
    held: dict[str, Zone] = {}
    for number, line in enumerate(edit_lines(text), 1):
        if code := code_of(line, length, held):
            return Refusal(number, code)
        kind, name, *zone = words_of(line)
        if kind == "put":
            start, end, kmh = map(int, zone)
            held[name] = start, end, kmh
        else:
            del held[name]
    return tuple(held.values())


# Runs


class Drive:
    """A train on a line: its step rule, and the greatest lists that keep it."""

    def __init__(self, line: Line, train: Train) -> None:
        self.train = train
        self.length = line.length
        self.pulls = pulls_of(line, train)

    def up(self, cell: int, u: int) -> int:
        """The greatest squared speed after a cell, from `u` before it: at full effort."""
        return u + (between(self.train.pushes, u) - self.pulls[cell]) // self.train.moved

    def low(self, cell: int, u: int) -> int:
        """The least squared speed after a cell, from `u` before it: at full brakes."""
        return min(self.up(cell, u), u - between(self.train.brakings, u))

    def braked(self, cell: int, u: int, after: int) -> int:
        """The greatest squared speed up to `u` from which the train can brake to `after` on a cell.

        It is found by halving, as `low` never falls as `u` rises; it is -1 where there is none.
        """
        if self.low(cell, u) <= after:
            return u
        return bisect_right(range(u), after, key=lambda lower: self.low(cell, lower)) - 1

    def keeps(self, caps: Sequence[int], k: int) -> list[int] | None:
        """The greatest list of numbers of at least 0, at most the caps, that keeps the clauses:

        on each cell `low(q_i) <= q_{i+1}`, and on the cells below `k` also `q_{i+1} <= up(q_i)`, with
        no two neighbours that are both 0. None where there is no such list.

        A number above what a clause lets it be is in no such list, so it is lowered to that, until
        nothing changes. Of two lists that keep the clauses the greater at each point keeps them too.
        So where the greatest that is left has two neighbours of 0, every list has them.
        """
        numbers, old = list(caps), None
        while numbers != old:
            old = list(numbers)
            for cell in reversed(range(self.length)):
                numbers[cell] = self.braked(cell, numbers[cell], numbers[cell + 1])
                if numbers[cell] < 0:
                    return None
            for cell in range(k):
                numbers[cell + 1] = min(numbers[cell + 1], self.up(cell, numbers[cell]))
                if numbers[cell + 1] < 0:
                    return None
        moves = all(numbers[cell] or numbers[cell + 1] for cell in range(k))
        return numbers if moves else None

    def brakes(self, caps: Sequence[int]) -> list[int] | None:
        """The braking list under the caps."""
        return self.keeps(caps, 0)

    def run(self, caps: Sequence[int]) -> list[int] | None:
        """The greatest run under the caps, where there is a run."""
        return self.keeps(caps, self.length)

    def stall(self, caps: Sequence[int]) -> int | None:
        """The point at which the train is stalled, where it is: the least `k` with no list up to it.

        A list up to `k` is one up to `k - 1`, so halving finds it. All these lists can brake on each
        cell, so none exceeds the braking list, and lowering may begin there.
        """
        brakes = self.brakes(caps)
        points = range(1, self.length + 1)
        place = bisect_left(points, True, key=lambda k: self.keeps(brakes, k) is None)
        return points[place] if place < len(points) else None


# Times


SECOND = 10**9  # ns
MILLISECOND = 10**6  # ns


def speed_below(u: int) -> int:
    """The speed of a squared speed in 0.00001 km/h, rounded down."""
    return isqrt(10**6 * u)


def speed_above(u: int) -> int:
    """The same, rounded up."""
    below = speed_below(u)
    return below if below**2 == 10**6 * u else below + 1


def shortest(a: int, b: int) -> int:
    """The time of a metre from `a` to `b` in ns: from the speeds rounded up, rounded down."""
    return 720 * 10**12 // (speed_above(a) + speed_above(b))


def longest(a: int, b: int) -> int:
    """The same, from the speeds rounded down, rounded up."""
    return ceil_div(720 * 10**12, speed_below(a) + speed_below(b))


def true_times(run: Sequence[int]) -> list[Decimal]:
    """The time of a run from point 0 to each point, in ns to 60 digits, without dwells.

    A metre takes two metres over the sum of the speeds at its ends.
    """
    with localcontext() as context:
        context.prec = 60
        speeds = [Decimal(u).sqrt() for u in run]
        cells = (Decimal(720 * 10**9) / (a + b) for a, b in pairwise(speeds))
        return list(accumulate(cells, initial=Decimal(0)))


class Timetable:
    """The times of a run by a plan."""

    def __init__(self, run: Sequence[int], plan: Plan) -> None:
        self.plan = plan
        self.length = len(run) - 1
        self.lo = [0, *accumulate(shortest(a, b) for a, b in pairwise(run))]
        self.hi = [0, *accumulate(longest(a, b) for a, b in pairwise(run))]

    def arrival(self, point: int) -> Row:
        """When the train comes to a point, in ns: at the earliest, and at the latest."""
        dwells = sum(call.dwell or 0 for call in self.plan.calls if call.at < point)
        before = SECOND * (self.plan.depart + dwells)
        return before + self.lo[point], before + self.hi[point]

    def amount(self, section: Section) -> int:
        """What a section adds in all, in ms."""
        metres = section.end - section.start
        time = self.hi[section.end] - self.hi[section.start]
        return {
            "percent": ceil_div(time * section.amount, 10**9),
            "per100km": ceil_div(metres * section.amount, 100),
            "fixed": section.amount * 1000,
        }[section.kind]

    def added(self, point: int) -> int:
        """What all sections add at a point, in ms."""
        return sum(self.added_by(section, point) for section in self.plan.sections)

    def added_by(self, section: Section, point: int) -> int:
        if point <= section.start:
            return 0
        if point >= section.end:
            return self.amount(section)
        so_far = self.hi[point] - self.hi[section.start]
        return self.amount(section) * so_far // (self.hi[section.end] - self.hi[section.start])

    def row(self, point: int, kind: str, dwell: int, name: str) -> str:
        """A row: place, kind, arrival and departure at both ends, what is added, what is planned."""
        arrive = self.arrival(point)
        leave = [time + SECOND * dwell for time in arrive]
        added = self.added(point)
        planned = ceil_div(arrive[1], MILLISECOND) + added
        return " ".join(map(str, [point, kind, *arrive, *leave, added, planned, name]))

    def rows(self, names: Callable[[Call], str]) -> list[str]:
        """The rows: the departure, the calls, and the arrival at the end of the line."""
        calls = [
            self.row(call.at, "pass" if call.dwell is None else "stop", call.dwell or 0, names(call))
            for call in self.plan.calls
        ]
        return [self.row(0, "start", 0, "-"), *calls, self.row(self.length, "end", 0, "-")]
