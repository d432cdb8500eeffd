#!/usr/bin/env python3
"""Measures sessions of the proved program against making each run anew, and how long a reply takes.

    python3 bench/sessions.py [--turns N] [--bytes N] [--program PATH]

README.md says what is measured and how to read it. It is no test: it expects no times.
"""

import argparse
import os
import pathlib
import statistics
import subprocess
import sys
import tempfile
import time
import tomllib
from collections.abc import Iterator, Sequence
from dataclasses import dataclass

sys.dont_write_bytecode = True  # the sources have no folder of compiled ones beside them

import run

LONGEST = run.LONGEST
PLACES = 2000  # at which a restriction is put in force and taken out again
ANEW = 5  # of these are made anew, and stand for all
TURNS = 5
SINGLE = 1000000  # bytes that are written one by one
PIECE = 65536
MOST_BYTES = 67108864  # of an input
IN_FORCE = (10, 10000)  # with the one that is put: there may be no more

STRONG = """mass = 20000000
rotating = 0
length = 1
top = 500
effort = [[0, 3000000], [500, 3000000]]
resistance = [0, 0, 0]
brake = [[0, 3000], [500, 3000]]
"""

Zone = tuple[int, int, int]
FILES = ("line.csv", "train.toml", "plan.csv")


@dataclass(frozen=True)
class Work:
    """A line with a train and a plan, and restrictions that are put in force and taken out, one at a time."""

    name: str
    line: str
    train: str
    plan: str
    zones: Sequence[Zone]

    def lay(self, folder: pathlib.Path) -> None:
        """Lays the three files into a folder."""
        for name, text in zip(FILES, (self.line, self.train, self.plan)):
            (folder / name).write_text(text)

    def talk(self) -> str:
        """The lines of a session: each edit, and the arrival at the end of the line behind it."""
        return "".join(f"{put(zone)}time End\ntake a\ntime End\n" for zone in self.zones)

    def some(self) -> list[Zone]:
        """Some of the restrictions, from all over the line."""
        return list(self.zones[:: max(len(self.zones) // ANEW, 1)][:ANEW])


def put(zone: Zone, name: str = "a") -> str:
    """The line that puts a restriction in force."""
    return "put {} {} {} {}\n".format(name, *zone)


def plain() -> Work:
    """A level line and a strong train, and restrictions of a metre a little below its top speed."""
    first, step = LONGEST // 5, LONGEST // 5000
    starts = [first + step * number for number in range(PLACES)]
    zones = [(start, start + 1, 499) for start in starts]
    return Work("level, a metre at 499 km/h", f"line,Plain,{LONGEST}\npoint,{LONGEST},End\n", STRONG, "", zones)


def hilly() -> Work:
    """A hilly line by a plan with stops, and restrictions as slow orders are."""
    halts, limits = run.halts(LONGEST, 100), run.spread(LONGEST, 200)
    case = run.Case("plan", LONGEST, limits, run.hills(LONGEST), "", halts, run.sections(LONGEST, 6))
    texts = case.files()
    line = f"{texts['line.csv']}point,{LONGEST},End\n"
    starts = [(2 * number + 1) * LONGEST // (2 * PLACES) for number in range(PLACES)]
    zones = [(start, min(start + 300, LONGEST), 30) for start in starts]
    return Work("hilly, 100 stops, 300 m at 30 km/h", line, run.TRAIN.read_text(), texts["plan.csv"], zones)


# Sessions


def session(program: pathlib.Path) -> list[str]:
    """The words of a session over the files where it is run."""
    return [str(program), "session", *FILES]


def replies(program: pathlib.Path, lines: str) -> list[str]:
    """The replies to lines."""
    ended = subprocess.run(session(program), input=lines, stdout=subprocess.PIPE, check=True, text=True)
    return ended.stdout.splitlines()


def least(words: Sequence[str], lines: str, turns: int) -> float:
    """The least processor time of a run with lines as its input, in seconds."""
    with tempfile.NamedTemporaryFile("w") as given:
        given.write(lines)
        given.flush()
        return min(run.cpu_seconds(words, given.name) for _ in range(turns))


def touched(program: pathlib.Path, zone: Zone) -> int:
    """The points at which a restriction binds, or whose braking number or speed is another under it."""
    text = replies(program, f"cert\n{put(zone)}cert\n")
    points = text.index("whole")
    before, after = text[:points], text[points + 2 : -1]
    length = tomllib.loads(pathlib.Path("train.toml").read_text())["length"]
    binds = range(zone[0], min(zone[1] + length, points - 1) + 1)
    changed = {point for point, (old, new) in enumerate(zip(before, after)) if old != new}
    return len(changed.union(binds))


# What is made anew


def anew(program: pathlib.Path, zone: Zone, is_twin: bool) -> list[str]:
    """The words of a run that is made anew under one restriction: for the twin it is a limit of the line."""
    words = [str(program), "plan", *FILES, "--print", "timetable"]
    if not is_twin:
        pathlib.Path("edits.txt").write_text(put(zone))
        return [*words, "--edits", "edits.txt"]
    record = "limit,{},{},{}\n".format(*zone)
    pathlib.Path("limited.csv").write_text(pathlib.Path("line.csv").read_text() + record)
    return ["limited.csv" if word == "line.csv" else word for word in words]


def check_arrival(program: pathlib.Path, zone: Zone, words: Sequence[str]) -> None:
    """Ends this script where a run that is made anew arrives at another time than a session tells."""
    arrival = run.answer(words).decode().splitlines()[-1].split()[2:4]
    told = replies(program, f"{put(zone)}time End\n")[1].split()[1:]
    if arrival != told:
        sys.exit(f"{zone}: the arrivals {arrival} and {told} differ")


def anew_seconds(programs: Sequence[pathlib.Path], place: int, work: Work, turns: int) -> float:
    """The mean time in which a program makes the run and its times anew, less that of starting the program."""
    start = least([str(programs[place])], "", turns)
    spans = []
    for zone in work.some():
        words = anew(programs[place], zone, is_twin=place > 0)
        check_arrival(programs[0], zone, words)
        spans.append(least(words, "", turns) - start)
    return statistics.mean(spans)


# Tables


def print_edits(programs: Sequence[pathlib.Path], turns: int) -> None:
    """Prints what edits cost, each with the arrival behind it, and what making them anew costs."""
    names = run.NAMES[: len(programs)]
    ratios = [title for name in names for title in (f"{name} anew, ms", "times as much")]
    run.head(["session", "edits", "points touched", "steps at most", "anew", "ms an edit", *ratios])
    for work in (plain(), hilly()):
        work.lay(pathlib.Path())
        free, talked = (least(session(programs[0]), lines, turns) for lines in ("", work.talk()))
        edit = (talked - free) / (2 * len(work.zones))
        points = round(statistics.mean(touched(programs[0], zone) for zone in work.some()))
        columns = []
        for place in range(len(programs)):
            seconds = anew_seconds(programs, place, work, turns)
            columns += [run.milliseconds(seconds), f"{seconds / edit:,.0f}"]
        counts = [2 * len(work.zones), points, 35 * (points + 2) + 1024, 35 * (LONGEST + 1)]
        run.row([work.name, *(f"{count:,}" for count in counts), f"{edit * 1000:.4f}", *columns])


def force(count: int) -> list[str]:
    """The lines that put so many restrictions in force, each before all others on the line and by its name."""
    step = LONGEST // 2 // max(IN_FORCE)
    starts = [9 * LONGEST // 10 - step * number for number in range(count)]
    return [put((start, start + 1, 498), f"r{start}") for start in starts]


def put_seconds(program: pathlib.Path, turns: int) -> list[float]:
    """What one more `put` costs for each count in force, by a line through what half of the most and all cost.

    Where a `put` costs `a + b * n` with `n` in force, `n` of them cost `a * n + b * n * n / 2`.
    """
    most = max(IN_FORCE)
    counts = (0, most // 2, most)
    free, half, whole = (least(session(program), "".join(force(count)), turns) for count in counts)
    early, late = (half - free) / (most // 2), (whole - half) / (most // 2)
    growth = (late - early) / (most // 2)
    return [early + growth * (count - most // 4) for count in IN_FORCE]


def pair_seconds(program: pathlib.Path, count: int, turns: int) -> float:
    """The mean of a `put` before all that are in force and of the `take` behind it, so many with the one."""
    others = "".join(force(count - 1))
    edits = f"{put(plain().zones[0])}take a\n" * PLACES
    free, edited = (least(session(program), lines, turns) for lines in (others, others + edits))
    return (edited - free) / (2 * PLACES)


def print_in_force(program: pathlib.Path, turns: int) -> None:
    """Prints what an edit costs where few and where many restrictions are in force."""
    run.head(["in force", "ms a put", "to the first", "ms an edit, put and take", "to the first"])
    plain().lay(pathlib.Path())
    puts, pairs = put_seconds(program, turns), [pair_seconds(program, count, turns) for count in IN_FORCE]
    for count, one, edit in zip(IN_FORCE, puts, pairs):
        columns = [f"{one * 1000:.4f}", f"{one / puts[0]:.2f}", f"{edit * 1000:.4f}", f"{edit / pairs[0]:.2f}"]
        run.row([f"{count:,}", *columns])


def delays(program: pathlib.Path, lines: Sequence[str]) -> Iterator[tuple[str, float]]:
    """The word of each line, and the time from its writing to its reply, of one line, in seconds."""
    pipes = {"stdin": subprocess.PIPE, "stdout": subprocess.PIPE, "bufsize": 0}
    with subprocess.Popen(session(program), **pipes) as started:
        write, read = started.stdin.fileno(), started.stdout.fileno()
        os.write(write, b"time End\n")
        os.read(read, PIECE)  # the files are read, and the run is made
        for line in lines:
            begun = time.perf_counter()
            os.write(write, line.encode())
            reply = os.read(read, PIECE)
            yield line.split()[0], time.perf_counter() - begun
            if not reply.endswith(b"\n"):
                sys.exit(f"a reply came in parts: {reply!r}")
        started.stdin.close()


def print_delays(program: pathlib.Path) -> None:
    """Prints how long the reply to a line takes through pipes."""
    run.head(["line", "replies", "median, ms", "worst, ms"])
    work = plain()
    work.lay(pathlib.Path())
    found: dict[str, list[float]] = {}
    for word, seconds in delays(program, work.talk().splitlines(keepends=True)):
        found.setdefault(word, []).append(seconds * 1000)
    for word, spans in found.items():
        run.row([word, f"{len(spans):,}", f"{statistics.median(spans):.3f}", f"{max(spans):.3f}"])


def fed(started: subprocess.Popen, piece: bytes, count: int) -> int | None:
    """Writes a piece so often, then a line; the greatest memory once that is replied to."""
    for _ in range(count):
        os.write(started.stdin.fileno(), piece)
    os.write(started.stdin.fileno(), b"\ntime End\n")
    text = b""
    while not text.splitlines() or not text.splitlines()[-1].startswith(b"time"):
        text += os.read(started.stdout.fileno(), PIECE)
    return run.memory_of(started.pid)


def print_memory(program: pathlib.Path, single: int) -> None:
    """Prints the greatest memory of a session, as its input grows."""
    run.head(["after", "MB"])
    plain().lay(pathlib.Path())
    steps = [("the first reply", b"", 0), (f"{single:,} bytes one by one", b"x", single)]
    left = (MOST_BYTES - single - 100) // PIECE
    steps.append((f"{left * PIECE:,} bytes in pieces of {PIECE:,}", b"x" * PIECE, left))
    pipes = {"stdin": subprocess.PIPE, "stdout": subprocess.PIPE, "bufsize": 0}
    with subprocess.Popen(session(program), **pipes) as started:
        for name, piece, count in steps:
            run.row([name, run.megabytes(fed(started, piece, count))])
        started.stdin.close()


def main() -> int:
    parser = argparse.ArgumentParser(description="Measures sessions of rtime.")
    parser.add_argument("--turns", type=int, default=TURNS, help="the turns of each run")
    parser.add_argument("--bytes", type=int, default=SINGLE, help="the bytes that are written one by one")
    parser.add_argument("--program", type=pathlib.Path, help="a program in place of ./rtime")
    given = parser.parse_args()
    program = given.program.resolve() if given.program else run.built_program()
    twin = run.built_twin()
    run.pin()
    print(f"{run.machine()}\n")
    with tempfile.TemporaryDirectory() as folder:
        os.chdir(folder)
        print_edits([program, twin] if twin else [program], given.turns)
        print()
        print_in_force(program, given.turns)
        print()
        print_delays(program)
        print()
        print_memory(program, given.bytes)
        os.chdir(run.TOP)
    return 0


if __name__ == "__main__":
    sys.exit(main())
