#!/usr/bin/env python3
"""Compares the proved program with the model of model.py.

    python3 tests/compare.py [COUNT [SEED]]

draws COUNT lines, trains and plans from SEED, the same ones at each run, asks the program for `stock`, `caps`,
`rise`, `brakes`, `envelope`, `plan` and `check` over each, for some of them under drawn edits too, and compares
whole outputs and exit statuses with what the model says. It compares as well how `stock` refuses trains that
break a law of their tables, and all commands over the lines and trains of examples/. At the end it prints how
many of the trains drawn ran the whole line, how many were stalled, and what the edits were. tests/run.py makes
the same comparisons with the COUNT and SEED below.
"""

import csv
import os
import pathlib
import subprocess
import sys
import tempfile
import tomllib
from collections import Counter
from collections.abc import Iterable, Iterator, Mapping, Sequence
from dataclasses import dataclass, replace
from functools import cached_property
from random import Random

sys.dont_write_bytecode = True  # the sources have no folder of compiled ones beside them

from model import (
    Call,
    Drive,
    Line,
    Plan,
    Refusal,
    Row,
    Section,
    Timetable,
    Train,
    Zone,
    between,
    bounds_of,
    caps_of,
    edited,
    squared,
    true_times,
)

TOP = pathlib.Path(__file__).resolve().parent.parent
PROGRAM = TOP / "crates" / "rtime" / "out" / "rtime"
EXAMPLES = TOP / "examples"  # a folder for each line, with `line.csv` and its trains
SECONDS = 60
COUNT = 300
SEED = 4

Result = tuple[str, bool | None, str]  # a name; whether it passed (none: skipped); a detail
Answer = tuple[int, str]


# Drawing


def drawn_rows(
    random: Random, top: int, first: float, factors: tuple[float, float], bounds: Row
) -> tuple[Row, ...]:
    """Rows from 0 to `top` km/h whose values begin at `first` and change by factors, within bounds."""
    inner = random.sample(range(1, top), min(random.randint(0, 3), top - 1))
    rows = []
    for kmh in [0, *sorted(inner), top]:
        rows.append((kmh, min(max(int(first), bounds[0]), bounds[1])))
        first *= random.uniform(*factors)
    return tuple(rows)


def drawn_train(random: Random) -> Train:
    """A train of 1 to 40 m, light or heavy, weak or strong, whose tables may break a law."""
    mass = 10 ** random.choice([random.uniform(3, 6), random.uniform(3, 6), random.uniform(6, 7.3)])
    top = random.randint(1, 60) if random.random() < 0.95 else random.randint(61, 500)
    weakest, strongest = random.choice([(0, 40), (30, 200), (100, 600), (300, 2000)])  # mm/s²
    effort = mass * random.uniform(weakest, strongest) / 1000
    weakest, strongest = random.choice([(50, 50), (50, 120), (100, 1000), (800, 3000)])  # mm/s²
    rate = random.uniform(weakest, strongest)
    resistance = mass * random.choice([0, 0, random.uniform(0, 0.02), random.uniform(0, 0.1)])
    return Train(
        mass=int(mass),
        rotating=random.choice([0, random.randint(0, 300)]),
        length=random.randint(1, 40),
        top=top,
        effort=drawn_rows(random, top, effort, (0.5, 1.05), (0, 3000000)),
        resistance=(
            min(int(resistance), 1000000),
            min(int(resistance * random.uniform(0, 10)), 10000000),
            min(int(resistance * random.uniform(0, 0.3)), 1000000),
        ),
        brake=drawn_rows(random, top, rate, (0.7, 1.2), (50, 3000)),
    )


def rolling_train(random: Random) -> Train:
    """A train that speeds up by less than 1 on a level metre, so that by itself it doesn't start."""
    train, mass = drawn_train(random), random.randint(1000000, 20000000)
    effort = random.randint(0, mass // 259200)
    return replace(
        train,
        mass=mass,
        length=random.randint(1, 3),
        effort=((0, effort), (train.top, effort)),
        resistance=(0, 0, 0),
    )


def lawful_train(random: Random) -> Train:
    """A train whose tables keep both laws."""
    while True:
        train = rolling_train(random) if random.random() < 0.15 else drawn_train(random)
        if not train.breaks_effort_law() and not train.breaks_brake_law():
            return train


def lawless_train(random: Random) -> Train:
    """A train whose tables break one of the laws."""
    while True:
        train = drawn_train(random)
        if bool(train.breaks_effort_law()) != bool(train.breaks_brake_law()):
            return train


def drawn_stretches(random: Random, length: int) -> list[Row]:
    """Up to four stretches of a line, as pairs of points, with or without gaps between them."""
    points = sorted(random.choices(range(length + 1), k=2 * random.randint(0, 4)))
    if random.random() < 0.3:
        points[-1:] = [length]
    pairs = zip(points[::2], points[1::2]) if random.random() < 0.5 else zip(points, points[1:])
    return [(start, end) for start, end in pairs if start < end]


def drawn_ramp(random: Random, length: int, train: Train) -> Zone:
    """A short ramp that slows the train by more than its brakes, or little less."""
    start = random.randint(length // 2, length - 1)
    end = min(start + random.randint(1, 2 * train.length), length)
    rate = 1000 * train.effort[0][1] // train.mass + train.brake[0][1]
    return start, end, min(int(rate * random.uniform(0.8, 4) / 0.981), 1000)


def drawn_gradients(random: Random, length: int, train: Train) -> tuple[Zone, ...]:
    """Gradients of a line, level to steep; some are what the train's effort can just hold, or more."""
    if random.random() < 0.2:
        return (drawn_ramp(random, length, train),)
    held = int(1000 * train.effort[0][1] / train.mass / 0.981)
    steepest = min(random.choice([0, 10, 50, 200, 1000, held, 2 * held, 5 * held]), 1000)
    flattest = random.choice([-steepest, -steepest // 4, 0, steepest // 2])
    return tuple(
        (start, end, random.randint(flattest, steepest))
        for start, end in drawn_stretches(random, length)
    )


def drawn_waves(random: Random, length: int) -> tuple[Zone, ...]:
    """Slopes down and up alike, that often climb back to where they began, and never above."""
    slope, metres = random.randint(1, 40), random.randint(1, 3)
    zones: list[Zone] = []
    height = 0
    for start in range(0, length, metres):
        rise = random.choice([-1, 0, 1, 1] if height < 0 else [-1, -1, -1, 0])
        zones.append((start, min(start + metres, length), rise * slope))
        height += rise
    return tuple(zones)


def drawn_line(random: Random, train: Train) -> Line:
    """A line of 2 to 120 m, with limits about the train's speeds."""
    length = random.randint(2, random.choice([6, 120, 120, 120]))
    if 0 <= train.pushes[0] < train.moved:
        gradients = drawn_waves(random, length)
    else:
        gradients = drawn_gradients(random, length, train)
    limits: list[Zone] = []
    for _ in range(random.choice([0, 1, 2, 5])):
        start, end = sorted(random.sample(range(length + 1), 2))
        limits.append((start, end, random.randint(1, min(train.top + 3, 500))))
    return Line(length, gradients, tuple(limits))


MOST = {"percent": 1000, "per100km": 3600, "fixed": 86400}  # tenths of a percent, s, s


def drawn_sections(random: Random, length: int) -> tuple[Section, ...]:
    """Up to four allowances, with or without gaps between them."""
    stretches = drawn_stretches(random, length)
    kinds = random.choices(list(MOST), k=len(stretches))
    return tuple(
        Section(start, end, kind, random.choice([0, 1, MOST[kind], random.randint(0, MOST[kind])]))
        for (start, end), kind in zip(stretches, kinds)
    )


def drawn_plan(random: Random, line: Line, train: Train) -> Plan:
    """A plan of up to four calls, at the ends too, of a train that may come and go at a speed."""
    points = sorted(random.sample(range(line.length + 1), min(random.randint(0, 4), line.length + 1)))
    ends = [random.choice([0, 0, random.randint(0, min(train.top + 3, 500))]) for _ in range(2)]
    return Plan(
        depart=random.choice([0, random.randint(0, 86400)]),
        enter=ends[0],
        leave=ends[1],
        calls=tuple(Call(at, random.choice([None, 0, random.randint(0, 600)])) for at in points),
        sections=drawn_sections(random, line.length),
    )


def drawn_put(random: Random, name: str, length: int, top: int) -> str:
    """A restriction that is put in force, slow or about the train's speeds."""
    start, end = sorted(random.sample(range(length + 1), 2))
    kmh = random.choice([1, random.randint(1, min(top + 3, 500))])
    return f"put {name} {start} {end} {kmh}"


def drawn_fault(random: Random, length: int) -> list[str]:
    """Edits of which the last is refused, where no ID is in force that begins with `x`."""
    put = drawn_put(random, "x", length, 500)
    zones = ["1 1 5", f"0 {length + 1} 5", "0 1 0", "0 1 501", "00 1 5", "-1 1 5", "0 1.5 5", "-0 1 5"]
    others = ["", "envelope", "time x", "take", "take x x", "Take x", "put x 0 1", "put\tx 0 1 5", "# x"]
    wrong = [f"put x {random.choice(zones)}", "take x!", f"take {'x' * 41}", "put é 0 1 5"]
    faults = [
        [random.choice([f"{put:201}", "x" * 201])],
        [random.choice(others)],
        [random.choice(wrong)],
        [put, put],
        ["take x"],
        [f"put x{number} 0 1 5" for number in range(10001)],
    ]
    return random.choice(faults)


def spelled(random: Random, edit: str) -> str:
    """An edit with blanks as they may stand, sometimes up to the greatest length, and a line end."""
    around, between_words = random.choice(["", "", "  "]), random.choice([" ", " ", "   "])
    line = around + edit.replace(" ", between_words) + around
    return random.choice([line, line, f"{line:200}"]) + random.choice(["\n", "\n", "\r\n"])


def drawn_edits(random: Random, line: Line, train: Train) -> str:
    """An edits file of up to 40 lines that are accepted; some have a fault among them."""
    edits: list[str] = []
    held: list[str] = []
    fault = random.choice([None, random.randint(0, 40)])
    for number in range(random.randint(0, 40)):
        if held and random.random() < 0.4:
            edits.append(f"take {held.pop(random.randrange(len(held)))}")
        else:
            held.append(random.choice([f"r{number}", f"slow_.-{number}", f"{number:040}"]))
            edits.append(drawn_put(random, held[-1], line.length, train.top))
    if fault is not None:
        edits[fault:fault] = drawn_fault(random, line.length)
    text = "".join(spelled(random, edit) for edit in edits)
    return text.removesuffix("\n") if random.random() < 0.2 else text


# Reading


def read_train(text: str) -> Train:
    """The train of a stock file that breaks no rule."""
    keys = tomllib.loads(text)
    keys |= {key: tuple(map(tuple, keys[key])) for key in ("effort", "brake")}
    keys |= {"resistance": tuple(keys["resistance"])}
    return Train(**{key: keys[key] for key in Train.__dataclass_fields__})


def read_line(text: str) -> Line:
    """The line of a line file that breaks no rule."""
    records = list(csv.reader(text.splitlines()))

    def zones(kind: str) -> tuple[Zone, ...]:
        return tuple(tuple(map(int, record[1:])) for record in records if record[:1] == [kind])

    length = next(int(record[2]) for record in records if record[:1] == ["line"])
    return Line(length, zones("gradient"), zones("limit"))


def read_points(text: str) -> dict[str, int]:
    """The points of a line file that breaks no rule, by their names."""
    records = csv.reader(text.splitlines())
    return {record[2]: int(record[1]) for record in records if record[:1] == ["point"]}


def read_plan(text: str, points: Mapping[str, int]) -> Plan:
    """The plan of a plan file that breaks no rule, over the points of its line."""
    records = [record for record in csv.reader(text.splitlines()) if record and record[0][:1] != "#"]
    ends = {kind: int(rest[0]) for kind, *rest in records if kind in ("depart", "enter", "leave")}
    calls = ((points[rest[0]], rest[1:]) for kind, *rest in records if kind in ("stop", "pass"))
    sections = (rest for kind, *rest in records if kind == "allow")
    return Plan(
        **ends,
        calls=tuple(Call(at, int(dwell[0]) if dwell else None) for at, dwell in calls),
        sections=tuple(Section(int(a), int(b), kind, int(amount)) for a, b, kind, amount in sections),
    )


# What is compared


KINDS = [
    "whole",
    "stalled",
    "stalled at 1",
    "stalled on the way",
    "stalled at the last point",
    "stalled as it stands at two neighbouring points",
    "whole with a stand at a point on the way",
    "whole over a hill that slows more than the brakes",
]
KINDS += [f"{kind}, by a plan" for kind in KINDS]
KINDS += [f"edits refused by code {code}" for code in range(1, 7)]
KINDS += [
    "edits that change nothing",
    "edits that change the run",
    "edits that stall the train",
]


def records_text(records: Iterable[str]) -> str:
    """The text of records."""
    return "".join(f"{record}\n" for record in records)


def line_text(line: Line, plan: Plan) -> str:
    """The line file of a line, with a point for each call of a plan."""
    records = [f"line,Drawn,{line.length}"]
    records += [f"gradient,{start},{end},{slope}" for start, end, slope in line.gradients]
    records += [f"limit,{start},{end},{kmh}" for start, end, kmh in line.limits]
    records += [f"point,{call.at},{name_of(call)}" for call in plan.calls]
    return records_text(records)


def name_of(call: Call) -> str:
    """The name of the point of a call."""
    return f"At {call.at}"


def plan_text(plan: Plan) -> str:
    """The plan file of a plan."""
    keys = ("depart", "enter", "leave")
    records = [f"{key},{getattr(plan, key)}" for key in keys if getattr(plan, key)]
    for call in plan.calls:
        kind, dwell = ("pass", "") if call.dwell is None else ("stop", f",{call.dwell}")
        records.append(f"{kind},{name_of(call)}{dwell}")
    for section in plan.sections:
        records.append(f"allow,{section.start},{section.end},{section.kind},{section.amount}")
    return records_text(records)


def stock_text(train: Train) -> str:
    """The stock file of a train."""
    values = {key: getattr(train, key) for key in Train.__dataclass_fields__}
    rows = {key: [list(row) for row in values[key]] for key in ("effort", "brake")}
    values |= {"resistance": list(train.resistance), **rows}
    return "".join(f"{key} = {value}\n" for key, value in values.items())


def numbers_text(numbers: Iterable[int]) -> str:
    """The text of a list: a line `POINT NUMBER` for each point."""
    return "".join(f"{point} {number}\n" for point, number in enumerate(numbers))


def stock_answer(train: Train) -> Answer:
    """What `stock` answers, of a train that breaks one law at most."""
    broken = [(k, 5) for k in train.breaks_effort_law()] + [(k, 6) for k in train.breaks_brake_law()]
    if broken:
        kmh, rule = broken[0]
        return 5, f"refused 2 {kmh} {rule}\n"
    rows = enumerate(zip(train.pushes, train.brakings))
    head = f"{train.moved} {train.mass} {train.length} {train.top}\n"
    return 0, head + "".join(f"{kmh} {push} {braking}\n" for kmh, (push, braking) in rows)


@dataclass(frozen=True)
class Ride:
    """A drive under caps."""

    drive: Drive
    caps: list[int]

    @cached_property
    def run(self) -> list[int] | None:
        return self.drive.run(self.caps)

    @cached_property
    def stall(self) -> int | None:
        return self.drive.stall(self.caps)

    def answer(self) -> Answer:
        """What a command answers that prints the run."""
        if self.run is None:
            return 6, f"stalled {self.stall}\n"
        return 0, numbers_text(self.run)

    @cached_property
    def certificate(self) -> str:
        """The text of the certificate."""
        braking = self.drive.brakes(self.caps)
        run = self.run or self.drive.keeps(self.caps, self.stall - 1)[: self.stall]
        speeds = [*map(str, run), *["-"] * (len(braking) - len(run))]
        rows = (f"{c} {e}" for c, e in zip(braking, speeds, strict=True))
        return records_text([*rows, self.verdict])

    @property
    def verdict(self) -> str:
        """How far the train gets, as a certificate says it."""
        return "whole" if self.stall is None else f"stalled {self.stall}"

    def certified(self) -> Answer:
        """What a command answers that prints the certificate."""
        return 0 if self.stall is None else 6, self.certificate

    def kinds(self) -> Iterator[str]:
        """The kinds of case that this is one of."""
        if self.run is None:
            ends = {1: "stalled at 1", self.drive.length: "stalled at the last point"}
            yield "stalled"
            yield ends.get(self.stall, "stalled on the way")
            before = self.drive.keeps(self.caps, self.stall - 1)[self.stall - 1]
            if self.drive.up(self.stall - 1, before) == 0:
                yield "stalled as it stands at two neighbouring points"
        else:
            yield "whole"
            if not all(self.run[1:-1]):
                yield "whole with a stand at a point on the way"
            if any(self.is_steep(cell, u) for cell, u in enumerate(self.run[:-1])):
                yield "whole over a hill that slows more than the brakes"

    def is_steep(self, cell: int, u: int) -> bool:
        """Whether the hill at a cell slows the train more than its brakes do."""
        return self.drive.up(cell, u) < u - between(self.drive.train.brakings, u)


@dataclass(frozen=True)
class Journey:
    """A train on a line, a speed for `rise`, a plan, and an edits file where there is one."""

    line: Line
    train: Train
    kmh: int  # km/h
    plan: Plan
    edits: str | None = None

    @cached_property
    def drive(self) -> Drive:
        return Drive(self.line, self.train)

    @cached_property
    def limits(self) -> list[int]:
        """The caps of the line's limits alone."""
        return caps_of(self.line, self.train.length, self.train.top)

    def ride(self, plan: Plan) -> Ride:
        """The drive by a plan."""
        bounds = bounds_of(plan, self.line.length)
        return Ride(self.drive, caps_of(self.line, self.train.length, self.train.top, bounds))

    @cached_property
    def free(self) -> Ride:
        """The drive of a train that stands at both ends and calls nowhere."""
        return self.ride(Plan())

    @cached_property
    def planned(self) -> Ride:
        return self.ride(self.plan)

    @cached_property
    def held(self) -> tuple[Zone, ...] | Refusal:
        """The restrictions that the edits leave in force."""
        return edited(self.edits or "", self.line.length)

    @cached_property
    def restricted(self) -> "Journey":
        """The journey under the restrictions in force."""
        return replace(self, line=self.line.under(self.held), edits=None)

    def rise_text(self) -> str:
        """The text of `rise`: a line `CELL PULL UP LOW` for each cell."""
        drive, u = self.drive, squared(min(self.kmh, self.train.top))
        return "".join(
            f"{cell} {pull} {drive.up(cell, u)} {drive.low(cell, u)}\n"
            for cell, pull in enumerate(drive.pulls)
        )

    def answers(self) -> Iterator[tuple[list[str], Answer]]:
        """The words that are asked, each with the status and the output that the model gives."""
        length, top = str(self.train.length), str(self.train.top)
        brakes = self.drive.brakes(self.free.caps)
        plan = ["plan", "line.csv", "train.toml", "plan.csv", "--print"]
        yield ["stock", "train.toml"], stock_answer(self.train)
        yield ["caps", "line.csv", length, top], (0, numbers_text(self.limits))
        yield ["rise", "line.csv", "train.toml", str(self.kmh)], (0, self.rise_text())
        yield ["brakes", "line.csv", "train.toml"], (0, numbers_text(brakes))
        yield ["envelope", "line.csv", "train.toml"], self.free.answer()
        yield [*plan, "envelope"], self.planned.answer()
        yield [*plan, "timetable"], self.timetable_answer()
        yield [*plan, "cert"], self.planned.certified()
        check = ["check", "line.csv", "train.toml", "plan.csv"]
        yield [*check, "cert.txt"], (0, f"valid {self.planned.verdict}\n")
        if self.edits is not None:
            run, timetable, certificate, checked = self.edited_answers()
            yield [*plan, "envelope", "--edits", "edits.txt"], run
            yield [*plan, "timetable", "--edits", "edits.txt"], timetable
            yield [*plan, "cert", "--edits", "edits.txt"], certificate
            yield [*check, "edited.txt", "--edits", "edits.txt"], checked

    def edited_answers(self) -> tuple[Answer, Answer, Answer, Answer]:
        """What `plan` answers under the edits, for each kind of print, and `check` of their certificate."""
        if isinstance(self.held, Refusal):
            refused = 5, f"refused 4 {self.held.line} {self.held.code}\n"
            return refused, refused, refused, refused
        ride = self.restricted.planned
        valid = 0, f"valid {ride.verdict}\n"
        return ride.answer(), self.restricted.timetable_answer(), ride.certified(), valid

    def timetable_answer(self) -> Answer:
        """What `plan` answers where it prints the timetable."""
        run = self.planned.run
        if run is None:
            return self.planned.answer()
        return 0, records_text(Timetable(run, self.plan).rows(name_of))

    def encloses(self) -> bool:
        """Whether the true time of the planned run to each point, if there is a run, lies in its bracket."""
        run = self.planned.run
        if run is None:
            return True
        times = Timetable(run, self.plan)
        return all(
            lo <= time <= hi for lo, time, hi in zip(times.lo, true_times(run), times.hi, strict=True)
        )

    def kinds(self) -> Iterator[str]:
        """The kinds of case that this is one of."""
        yield from self.free.kinds()
        yield from (f"{kind}, by a plan" for kind in self.planned.kinds())
        if self.edits is not None:
            yield self.kind_of_edits()

    def kind_of_edits(self) -> str:
        """The kind of the edits."""
        if isinstance(self.held, Refusal):
            return f"edits refused by code {self.held.code}"
        before, after = self.planned, self.restricted.planned
        if (before.run, before.stall) == (after.run, after.stall):
            return "edits that change nothing"
        return "edits that stall the train" if before.run and not after.run else "edits that change the run"

    def texts(self) -> dict[str, str]:
        """The files that say the line, the train, the plan and, where there are some, the edits."""
        texts = {
            "line.csv": line_text(self.line, self.plan),
            "train.toml": stock_text(self.train),
            "plan.csv": plan_text(self.plan),
        }
        return texts if self.edits is None else texts | {"edits.txt": self.edits}

    def files(self) -> dict[str, str]:
        """These files and the certificates, without edits and under them."""
        files = self.texts() | {"cert.txt": self.planned.certificate}
        if self.edits is None:
            return files
        is_refused = isinstance(self.held, Refusal)
        return files | {"edited.txt": "" if is_refused else self.restricted.planned.certificate}


# Comparing


def program_answer(words: Sequence[str], folder: pathlib.Path) -> Answer:
    """The exit status and the output of the program, run in a folder; standard error is output too."""
    pipes = {"stdout": subprocess.PIPE, "stderr": subprocess.STDOUT}
    try:
        ended = subprocess.run([PROGRAM, *words], cwd=folder, timeout=SECONDS, **pipes)
    except subprocess.TimeoutExpired:
        return -1, f"ended after {SECONDS} s"
    return ended.returncode, ended.stdout.decode(errors="replace")


def difference(words: Sequence[str], answer: Answer, wanted: Answer) -> str:
    """The first place at which an answer isn't the one wanted; empty where it is."""
    if answer == wanted:
        return ""
    lines, lines_wanted = answer[1].split("\n"), wanted[1].split("\n")
    pairs = enumerate(zip(lines, lines_wanted), 1)
    first = next((number for number, (a, b) in pairs if a != b), min(len(lines), len(lines_wanted)))
    return (
        f"  {' '.join(words)}: status {answer[0]}, wanted {wanted[0]}; line {first} is "
        f"{lines[first - 1 : first]}, wanted {lines_wanted[first - 1 : first]}\n"
    )


def compared(
    name: str, files: dict[str, str], answers: Iterable[tuple[list[str], Answer]]
) -> Result:
    """The result of asking the program all words over the files."""
    with tempfile.TemporaryDirectory() as given:
        folder = pathlib.Path(given)
        for file, text in files.items():
            (folder / file).write_text(text)
        differences = [
            difference(words, program_answer(words, folder), wanted) for words, wanted in answers
        ]
    contents = "".join(f"  {file}: {text!r}\n" for file, text in files.items())
    return name, not any(differences), "".join(differences) + contents


def examples() -> Iterator[Result]:
    """Compares what is said of the example trains on their lines."""
    for train in sorted(EXAMPLES.glob("*/*.toml")):
        line = train.parent / "line.csv"
        files = {"line.csv": line.read_text(), "train.toml": train.read_text(), "plan.csv": ""}
        journey = Journey(read_line(files["line.csv"]), read_train(files["train.toml"]), 60, Plan())
        files["cert.txt"] = journey.planned.certificate
        yield compared(f"{train.stem} on {line.parent.name}", files, journey.answers())


def refusals(random: Random, count: int) -> Iterator[Result]:
    """Compares how trains that break a law are refused."""
    for number in range(1, count + 1):
        train = lawless_train(random)
        files = {"train.toml": stock_text(train)}
        yield compared(f"lawless {number}", files, [(["stock", "train.toml"], stock_answer(train))])


def comparisons(
    count: int = COUNT, seed: int = SEED, kinds: Counter[str] | None = None
) -> Iterator[Result]:
    """Compares the program and the model: for each case its name, whether they agree, and details.

    The kinds of the cases are counted in `kinds`.
    """
    random, of_edits = Random(seed), Random(seed)
    kinds = Counter() if kinds is None else kinds
    for number in range(1, count + 1):
        train = lawful_train(random)
        kmh = random.randint(0, min(train.top + 3, 500))
        line = drawn_line(random, train)
        edits = drawn_edits(of_edits, line, train) if of_edits.random() < 0.2 else None
        drawn = Journey(line, train, kmh, drawn_plan(random, line, train), edits)
        kinds.update(drawn.kinds())
        yield compared(f"drawn {number}", drawn.files(), drawn.answers())
        yield f"the true times of drawn {number}", drawn.encloses(), f"  {drawn.files()}\n"
    yield from refusals(random, count // 5)
    yield from examples()
    if count >= COUNT:
        missing = [kind for kind in KINDS if not kinds[kind]]
        yield "all kinds of trains are drawn", not missing, f"  none is {missing}\n"


def why_older() -> str:
    """Why the program isn't one of the sources as they stand; empty where it is."""
    if not os.access(PROGRAM, os.X_OK):
        return "it isn't there: ./rtime proves and builds it"
    parts = (TOP.glob(f"crates/*/{part}/**/*") for part in ("src", "specs", "proofs"))
    built = PROGRAM.stat().st_mtime_ns
    newer = [path for paths in parts for path in paths if path.stat().st_mtime_ns > built]
    return f"{newer[0].relative_to(TOP)} is newer: ./rtime proves and builds it anew" if newer else ""


def report(results: Iterable[Result]) -> bool:
    """Prints what failed or was skipped and how many passed; whether there are some, and none failed."""
    counts: Counter[bool | None] = Counter()
    for name, passed, detail in results:
        counts[passed] += 1
        if passed is None:
            print(f"SKIPPED {name}: {detail}")
        elif not passed:
            print(f"FAILED {name}\n{detail}", end="")
    skipped = f", {counts[None]} skipped" if counts[None] else ""
    print(f"{counts[True]} passed, {counts[False]} failed{skipped}")
    return bool(counts[True]) and not counts[False]


def main() -> int:
    if older := why_older():
        sys.exit(f"the program isn't current: {older}")
    kinds: Counter[str] = Counter()
    passed = report(comparisons(*map(int, sys.argv[1:3]), kinds=kinds))
    for kind in KINDS:
        print(f"{kinds[kind]} {kind}")
    return 0 if passed else 1


if __name__ == "__main__":
    sys.exit(main())
