#!/usr/bin/env python3
"""Measures studies: the wall-clock time of 2,000 runs by each engine against the processor time of the runs alone.

    python3 bench/studies.py [--runs N] [--cores N] [--sizes N ..] [--turns N] [--program PATH]

README.md says what is measured and how to read it. It is no test: it expects no times.
"""

import argparse
import os
import pathlib
import resource
import shutil
import subprocess
import sys
import tempfile
import time
from collections.abc import Callable, Iterator, Sequence
from dataclasses import dataclass

sys.dont_write_bytecode = True  # the sources have no folder of compiled ones beside them

import run

RUNS = 2000
LENGTH = 50000  # m
LIMITS, HALTS, SECTIONS = 20, 5, 3
CORES = 4
SIZES = (50, 125, 250, 500, 1000)
TURNS = 3
METRES, KMH = 300, 30  # of the slow order of each run


@dataclass(frozen=True)
class Study:
    """A study whose runs share their files, or have a plan each."""

    name: str
    is_shared: bool

    def lay(self, folder: pathlib.Path, count: int) -> None:
        """Lays the files and the table of so many runs into a folder."""
        limits, halts = run.spread(LENGTH, LIMITS), run.halts(LENGTH, HALTS)
        case = run.Case("plan", LENGTH, limits, run.hills(LENGTH), "", halts, run.sections(LENGTH, SECTIONS))
        texts = case.files()
        (folder / "line.csv").write_text(texts["line.csv"])
        shutil.copy(run.TRAIN, folder / "train.toml")
        shutil.copytree(run.TOP / "examples" / "study", folder / "examples" / "study")
        for name in ("plans", "edits"):
            (folder / name).mkdir()
        rows = ["line,stock,plan,edits\n"]
        for number in range(count):
            start = number * (LENGTH - METRES) // count
            edits, plan = f"edits/{number}.txt", f"plans/{0 if self.is_shared else number}.csv"
            (folder / edits).write_text(f"put order {start} {start + METRES} {KMH}\n")
            (folder / plan).write_text(f"depart,{18000 if self.is_shared else number}\n{texts['plan.csv']}")
            rows.append(f"line.csv,train.toml,{plan},{edits}\n")
        (folder / "runs.csv").write_text("".join(rows))

    def alone(self, program: pathlib.Path, count: int) -> float:
        """The processor time of the runs alone, each by `plan`, one after the other, in seconds."""
        rows = [row.split(",") for row in pathlib.Path("runs.csv").read_text().splitlines()[1:]]
        words = [str(program), "plan", "--print=timetable"]
        return sum(run.cpu_seconds([*words, f"--edits={row[3]}", *row[:3]]) for row in rows)


STUDIES = (Study("one line, train and plan", True), Study("a plan each", False))


# Engines


def cut(size: int) -> None:
    words = ["python3", "examples/study/batches.py", "cut", "runs.csv", "study", "--size", str(size)]
    subprocess.run(words, check=True, stdout=subprocess.DEVNULL)


def by_parallel(program: pathlib.Path, size: int, cores: int) -> None:
    """A study by GNU parallel, up to its results."""
    cut(size)
    way = ["parallel", "--jobs", str(cores), "--joblog", "study/joblog", "--resume-failed", "--halt", "never"]
    worker = ["python3", "examples/study/batch.py", "{}", "study/done/{/}", "--program", str(program)]
    subprocess.run([*way, *worker, "::::", "study/batches.txt"], check=True)
    subprocess.run(["python3", "examples/study/batches.py", "join", "runs.csv", "study"], check=True)


def by_snakemake(program: pathlib.Path, size: int, cores: int) -> None:
    """A study by Snakemake, up to its results."""
    config = ["--config", "runs=runs.csv", "to=study", f"batch={size}", f"program={program}"]
    way = ["snakemake", "study/results.csv", "--profile", "examples/study/local", "--cores", str(cores)]
    subprocess.run([*way, *config], check=True, stdout=subprocess.DEVNULL, stderr=subprocess.DEVNULL)


Engine = Callable[[pathlib.Path, int, int], None]
ENGINES: dict[str, Engine] = {"parallel": by_parallel, "snakemake": by_snakemake}


# Measuring


def children_seconds() -> float:
    """The processor time of all processes that have ended below this one."""
    used = resource.getrusage(resource.RUSAGE_CHILDREN)
    return used.ru_utime + used.ru_stime


def least(engine: Engine, program: pathlib.Path, size: int, cores: int, turns: int) -> tuple[float, float, bytes]:
    """The least wall-clock time and the processor time of a study with it, from nothing; and its results."""
    found = []
    for _ in range(turns):
        for name in ("study", ".snakemake"):
            shutil.rmtree(name, ignore_errors=True)
        begun, used = time.perf_counter(), children_seconds()
        engine(program, size, cores)
        found.append((time.perf_counter() - begun, children_seconds() - used))
    return *min(found), pathlib.Path("study/results.csv").read_bytes()


def disk() -> Iterator[tuple[str, int]]:
    """The bytes of what a study leaves, by name."""
    for name in ("study/results.csv", "study/done", "study/batches", "edits", ".snakemake"):
        path = pathlib.Path(name)
        files = [path] if path.is_file() else [file for file in path.rglob("*") if file.is_file()]
        yield name, sum(file.stat().st_blocks * 512 for file in files)


def print_study(study: Study, program: pathlib.Path, given: argparse.Namespace, engines: Sequence[str]) -> None:
    """Prints what a study takes by each engine, with batches of several sizes."""
    study.lay(pathlib.Path(), given.runs)
    alone = min(study.alone(program, given.runs) for _ in range(given.turns))
    share = alone / given.cores
    print(f"{study.name}: {given.runs:,} runs alone take {alone:.2f} s of processor time, or {share:.2f} s on each core\n")
    run.head(["engine", "runs a batch", "wall clock, s", "times the share", "processor time, s", "by that alone"])
    results = set()
    for name in engines:
        for size in given.sizes:
            wall, used, text = least(ENGINES[name], program, size, given.cores, given.turns)
            results.add(text)
            columns = [f"{wall:.2f}", f"{wall / share:.2f}", f"{used:.2f}", f"{used / alone:.2f}"]
            run.row([name, f"{size:,}", *columns])
    if len(results) > 1:
        sys.exit("the results differ")
    print(f"\nOn disk, KB a run: {', '.join(f'{name} {size / given.runs / 1000:.2f}' for name, size in disk())}\n")


def main() -> int:
    parser = argparse.ArgumentParser(description="Measures studies by GNU parallel and by Snakemake.")
    parser.add_argument("--runs", type=int, default=RUNS, help="the runs of a study")
    parser.add_argument("--cores", type=int, default=CORES, help="the cores that an engine is given")
    parser.add_argument("--sizes", type=int, nargs="+", default=SIZES, help="the runs of a batch, at most")
    parser.add_argument("--turns", type=int, default=TURNS, help="the turns of each study")
    parser.add_argument("--program", type=pathlib.Path, help="a program in place of ./rtime")
    given = parser.parse_args()
    program = given.program.resolve() if given.program else run.built_program()
    engines = [name for name in ENGINES if shutil.which(name)]
    print(f"{run.machine()}; {', '.join(engines) or 'no engine is there'}\n")
    for study in STUDIES:
        with tempfile.TemporaryDirectory() as folder:
            os.chdir(folder)
            print_study(study, program, given, engines)
            os.chdir(run.TOP)
    return 0


if __name__ == "__main__":
    sys.exit(main())
