#!/usr/bin/env python3
"""Measures the proved program against a plain one that does the same, and how its cost grows.

    python3 bench/run.py [--turns N] [--only TEXT] [--program PATH]

README.md says what is measured and how to read it. It is no test: it expects no times.
"""

import argparse
import os
import pathlib
import platform
import shutil
import subprocess
import sys
import tempfile
from collections.abc import Callable, Iterator, Sequence
from dataclasses import dataclass, replace

TOP = pathlib.Path(__file__).resolve().parent.parent
PROGRAM = TOP / "crates" / "rtime" / "out" / "rtime"
TWIN = TOP / "bench" / "twin"
TRAIN = TOP / "examples" / "lauter" / "railcar.toml"
TRAIN_LENGTH, TRAIN_TOP = "56", "140"  # m and km/h, as TRAIN has them
TRAIN_SPEED = "60"  # km/h, of which `rise` is asked

LONGEST = 500000  # m
LIMITS = (60, 100, 40, 120, 80)  # km/h, by turns
GRADIENTS = (0, 40, 85, -30, 120, -75, 15, -110, 60, -20)  # tenths of a per mille, by turns
GRADIENT_METRES = 500
STOP_METRES, STOP_LENGTH, STOP_KMH = 250, 20, 5  # of the stopping line: m, m and km/h
DWELLS = (30, 60, 20)  # s, by turns
ALLOWANCES = ("percent,50", "per100km,180", "fixed,60")  # kinds with their amounts, by turns
SECTION_STEPS = 512  # at most, for each row of a timetable and each end of a section

TURNS = 9
SECONDS = 1  # for which a short case is run again and again, past its turns
PIPE = 4096  # bytes of the output that a program can write before they are taken

NAMES = ("rtime", "twin")

Stretch = tuple[int, int]
Zone = tuple[int, int, int]


# Lines


def spread(length: int, count: int) -> list[Zone]:
    """So many limits, on each second stretch of equal ones."""
    places = [number * length // (2 * count) for number in range(2 * count + 1)]
    zones = zip(places[1::2], places[2::2])
    return [(start, end, LIMITS[turn % len(LIMITS)]) for turn, (start, end) in enumerate(zones)]


def stops(length: int) -> list[Zone]:
    """A limit for each place at which the train all but stops."""
    starts = range(STOP_METRES, length - STOP_METRES, STOP_METRES)
    return [(start, start + STOP_LENGTH, STOP_KMH) for start in starts]


def hills(length: int) -> list[Zone]:
    """Gradients all along."""
    starts = range(0, length, GRADIENT_METRES)
    ends = [min(start + GRADIENT_METRES, length) for start in starts]
    return [
        (start, end, GRADIENTS[turn % len(GRADIENTS)])
        for turn, (start, end) in enumerate(zip(starts, ends))
    ]


def halts(length: int, count: int) -> list[int]:
    """The points of so many stops, each in the middle of one of as many equal stretches."""
    return [(2 * number + 1) * length // (2 * count) for number in range(count)]


def sections(length: int, count: int) -> list[Stretch]:
    """So many sections with allowances, one behind the other over the whole line."""
    ends = [number * length // count for number in range(count + 1)]
    return list(zip(ends, ends[1:]))


# Cases


@dataclass(frozen=True)
class Case:
    """A command on a line, and by a plan, which it has to answer with status 0."""

    command: str
    length: int  # m
    limits: Sequence[Zone]
    gradients: Sequence[Zone]
    about: str = ""
    stops: Sequence[int] = ()
    sections: Sequence[Stretch] = ()

    @property
    def name(self) -> str:
        metres = f"{self.length / 1000:g} km, {len(self.limits):,} limits"
        return ", ".join(filter(None, (self.command, metres, self.about)))

    def line_records(self) -> Iterator[str]:
        """The records of the line file, with a point for each stop."""
        yield f"line,Made up,{self.length}"
        yield from (f"gradient,{start},{end},{slope}" for start, end, slope in self.gradients)
        yield from (f"limit,{start},{end},{kmh}" for start, end, kmh in self.limits)
        yield from (f"point,{point},Halt {point}" for point in self.stops)

    def plan_records(self) -> Iterator[str]:
        """The records of the plan file."""
        for turn, point in enumerate(self.stops):
            yield f"stop,Halt {point},{DWELLS[turn % len(DWELLS)]}"
        for turn, (start, end) in enumerate(self.sections):
            yield f"allow,{start},{end},{ALLOWANCES[turn % len(ALLOWANCES)]}"

    def files(self) -> dict[str, str]:
        """The files that the case is asked over, beside that of the train."""
        records = {"line.csv": self.line_records(), "plan.csv": self.plan_records()}
        return {name: "".join(f"{record}\n" for record in each) for name, each in records.items()}


@dataclass(frozen=True)
class Command:
    """The words of a command, and the counted steps that are proved to be the most of a case."""

    words: tuple[str, ...]
    most_steps: Callable[[Case], int]


def run_steps(case: Case) -> int:
    """The steps at most of a run."""
    return 34 * case.length + 33


def timetable_steps(case: Case) -> int:
    """The steps at most of a run and of its timetable."""
    rows = len(case.stops) + 2  # one for each end of the line too
    return run_steps(case) + case.length + SECTION_STEPS * (rows + 2 * len(case.sections))


PLAN = ("plan", "line.csv", str(TRAIN), "plan.csv", "--print")

COMMANDS = {
    "caps": Command(("caps", "line.csv", TRAIN_LENGTH, TRAIN_TOP), lambda case: 0),
    "rise": Command(("rise", "line.csv", str(TRAIN), TRAIN_SPEED), lambda case: 2 * case.length),
    "brakes": Command(("brakes", "line.csv", str(TRAIN)), lambda case: 33 * (case.length + 1)),
    "envelope": Command(("envelope", "line.csv", str(TRAIN)), run_steps),
    "plan --print envelope": Command((*PLAN, "envelope"), run_steps),
    "plan --print timetable": Command((*PLAN, "timetable"), timetable_steps),
}
PLANNED = ("plan --print timetable", "plan --print envelope")


def cases() -> Iterator[Case]:
    """The cases that are measured against the twin."""
    hilly = hills(LONGEST)
    for count in (20, 2000, 20000):
        yield Case("caps", LONGEST, spread(LONGEST, count), hilly)
    yield Case("rise", LONGEST, spread(LONGEST, 200), hilly)
    yield Case("brakes", LONGEST, spread(LONGEST, 200), hilly)
    for length, count in ((5000, 2), (50000, 20), (LONGEST, 200)):
        yield Case("envelope", length, spread(length, count), hills(length), "hilly")
    yield Case("envelope", LONGEST, spread(LONGEST, 200), [], "flat")
    yield Case("envelope", LONGEST, stops(LONGEST), hilly, "stopping")
    halted, allowed = halts(LONGEST, 100), sections(LONGEST, 6)
    for command in PLANNED:
        limits = spread(LONGEST, 200)
        yield Case(command, LONGEST, limits, hilly, "hilly, 100 stops", halted, allowed)


def grown(command: str) -> Iterator[tuple[int, Case]]:
    """A command on a line, and on ones of 10, 100 and 1000 times as many metres and records."""
    for times in (1, 10, 100, 1000):
        length = GRADIENT_METRES * times
        case = Case(command, length, spread(length, times), hills(length))
        if command in PLANNED:
            case = replace(case, stops=halts(length, times), sections=sections(length, times))
        yield times, case


# Measuring


@dataclass(frozen=True)
class Measured:
    """What one program took for one case."""

    seconds: float  # user and system time: the least of the turns
    start: float  # the same of a run without words, which reads no file and ends by `usage`
    memory: int | None  # the greatest resident memory in KiB, where the system tells it


def cpu_seconds(words: Sequence[str], given: str = os.devnull) -> float:
    """User and system time of one run over a file as its input, whose output is thrown away, in seconds."""
    places = [(os.POSIX_SPAWN_OPEN, 0, given, os.O_RDONLY, 0), (os.POSIX_SPAWN_OPEN, 1, os.devnull, os.O_WRONLY, 0)]
    usage = os.wait4(os.posix_spawn(words[0], words, os.environ, file_actions=places), 0)[2]
    return usage.ru_utime + usage.ru_stime


def least_seconds(programs: Sequence[Sequence[str]], turns: int) -> list[float]:
    """The least time of each program, which are run turn about."""
    times: list[list[float]] = []
    while len(times) < turns or sum(map(sum, times)) < SECONDS:
        times.append([cpu_seconds(words) for words in programs])
    return [min(each) for each in zip(*times)]


def memory_of(process: int) -> int | None:
    """The greatest resident memory that a program that still runs has had, in KiB."""
    try:
        rows = pathlib.Path(f"/proc/{process}/status").read_text().splitlines()
    except OSError:
        return None
    return next((int(row.split()[1]) for row in rows if row.startswith("VmHWM")), None)


def greatest_memory(words: Sequence[str]) -> int | None:
    """The greatest resident memory of one run, in KiB.

    It is asked as the program waits for its output to be taken: of a process that has ended the
    system tells no less than what this script has itself.
    """
    told = []
    with subprocess.Popen(words, stdout=subprocess.PIPE, bufsize=0, pipesize=PIPE) as started:
        while started.stdout.read(PIPE):
            told.append(memory_of(started.pid))
    return max(filter(None, told), default=None)


def answer(words: Sequence[str]) -> bytes:
    """The output of a program, which ends with status 0."""
    return subprocess.run(words, stdout=subprocess.PIPE, check=True).stdout


def measured(case: Case, programs: Sequence[pathlib.Path], turns: int) -> list[Measured]:
    """What each of the programs takes for a case. They have to answer it with the same bytes."""
    with tempfile.TemporaryDirectory() as folder:
        files = case.files()
        for name, text in files.items():
            (pathlib.Path(folder) / name).write_text(text)
        words = COMMANDS[case.command].words
        given = [os.path.join(folder, word) if word in files else word for word in words]
        runs = [[str(program), *given] for program in programs]
        if len(set(map(answer, runs))) > 1:
            sys.exit(f"{case.name}: the outputs differ")
        seconds = least_seconds([*runs, *([str(program)] for program in programs)], turns)
        starts = seconds[len(runs) :]
        return [
            Measured(least, start, greatest_memory(run))
            for least, start, run in zip(seconds, starts, runs)
        ]


# Tables


def row(columns: Sequence[str]) -> None:
    """Prints a row of a table."""
    print(f"| {' | '.join(columns)} |", flush=True)


def head(columns: Sequence[str]) -> None:
    """Prints the head of a table."""
    row(columns)
    print("|" + "---|" * len(columns))


def milliseconds(seconds: float) -> str:
    return f"{seconds * 1000:.2f}"


def megabytes(memory: int | None) -> str:
    return "-" if memory is None else f"{memory * 1024 / 1e6:.1f}"


def print_cases(programs: Sequence[pathlib.Path], turns: int, only: str) -> None:
    """Prints what each case takes: the program, and beside it the twin."""
    names = NAMES[: len(programs)]
    ratio = ["ratio"] if len(programs) > 1 else []
    head(["case", *(f"{name}, ms" for name in names), *ratio, *(f"{name}, MB" for name in names)])
    for case in cases():
        if only not in case.name:
            continue
        found = measured(case, programs, turns)
        columns = [milliseconds(each.seconds) for each in found]
        if ratio:
            columns.append(f"{found[0].seconds / found[1].seconds:.2f}")
        row([case.name, *columns, *(megabytes(each.memory) for each in found)])


def print_certificates(program: pathlib.Path, turns: int, only: str) -> None:
    """Prints what certificates cost beside the command that prints the run alone."""
    head(["command", "ms", "beside", "ms", "ratio", "MB"])
    limits, hilly = spread(LONGEST, 200), hills(LONGEST)
    case = Case("plan --print envelope", LONGEST, limits, hilly, "hilly, 100 stops", halts(LONGEST, 100))
    if only not in f"{case.name} cert check":
        return
    with tempfile.TemporaryDirectory() as folder:
        for name, text in case.files().items():
            (pathlib.Path(folder) / name).write_text(text)
        os.chdir(folder)
        *plan, _ = COMMANDS[case.command].words
        run, certificate = [[str(program), *plan, kind] for kind in ("envelope", "cert")]
        pathlib.Path("cert.txt").write_bytes(answer(certificate))
        check = [str(program), "check", *plan[1:4], "cert.txt"]
        for name, words in (("plan --print cert", certificate), ("check", check)):
            seconds, beside = least_seconds([words, run], turns)
            ratio = f"{seconds / beside:.2f}"
            memory = megabytes(greatest_memory(words))
            row([name, milliseconds(seconds), case.command, milliseconds(beside), ratio, memory])
        os.chdir(TOP)


def print_growth(programs: Sequence[pathlib.Path], turns: int, only: str) -> None:
    """Prints how the cost of each command grows with what it is given."""
    names = NAMES[: len(programs)]
    columns = [f"{name}, {what}" for name in names for what in ("ms", "ns a metre")]
    head(["command", "times", "metres", "limits", "steps at most", *columns])
    for name, command in COMMANDS.items():
        for times, case in grown(name):
            if only not in case.name:
                continue
            columns = []
            for each in measured(case, programs, turns):
                a_metre = (each.seconds - each.start) / case.length
                columns += [milliseconds(each.seconds), f"{a_metre * 1e9:.1f}"]
            sizes = [times, case.length, len(case.limits), command.most_steps(case)]
            row([name, *(f"{size:,}" for size in sizes), *columns])


# Programs


def built_program() -> pathlib.Path:
    """The proved program, which is proved and built where it isn't current."""
    if subprocess.run([TOP / "rtime"], stdout=subprocess.DEVNULL).returncode != 2:  # without words
        sys.exit("the program isn't proved and built")
    return PROGRAM


def built_twin() -> pathlib.Path | None:
    """The twin, which is built where it isn't current; none where its compiler isn't there."""
    if not shutil.which("rustc") or not shutil.which("cargo"):
        print("Without the twin: rustc and cargo aren't there.\n")
        return None
    paths = ["--manifest-path", TWIN / "Cargo.toml", "--target-dir", TWIN / "target"]
    subprocess.run(["cargo", "build", "--release", "--offline", "--quiet", *paths], check=True)
    return TWIN / "target" / "release" / "twin"


def pin() -> None:
    """Keeps this process, and with it all that it starts, on one core, where the system can."""
    if hasattr(os, "sched_setaffinity"):
        os.sched_setaffinity(0, {max(os.sched_getaffinity(0))})
    else:
        print("Not pinned to one core: the system has no call for it.\n")


def machine() -> str:
    """The kind of machine that measures."""
    try:
        rows = pathlib.Path("/proc/cpuinfo").read_text().splitlines()
    except OSError:
        rows = []
    models = (row.split(":", 1)[1].strip() for row in rows if row.startswith("model name"))
    return f"{next(models, platform.machine())}, {os.cpu_count()} cores"


def main() -> int:
    parser = argparse.ArgumentParser(description="Measures rtime against its twin.")
    parser.add_argument("--turns", type=int, default=TURNS, help="the fewest turns of a case")
    parser.add_argument("--only", default="", help="only what has this text in its name")
    parser.add_argument("--program", type=pathlib.Path, help="a program in place of ./rtime")
    given = parser.parse_args()
    program = given.program.resolve() if given.program else built_program()
    twin = built_twin()
    programs = [program, twin] if twin else [program]
    pin()
    print(f"{machine()}\n")
    print_cases(programs, given.turns, given.only)
    print()
    print_certificates(program, given.turns, given.only)
    print()
    print_growth(programs, given.turns, given.only)
    return 0


if __name__ == "__main__":
    sys.exit(main())
