"""Tries the study of examples/study/: 40 runs, three of which are refused and two stalled.

`tests/run.py studies` runs these tests alone. The study is made by Snakemake, by GNU parallel, and batch by batch
without either; its results have to be those of 40 single runs of `plan`, to the byte, whatever makes them and
however large a batch is. So have they where a study is cut off and started again, where a file changes, where rtime is
killed or finds no memory, and where edits are odd. Without an engine its tests are skipped.
"""

import csv
import hashlib
import io
import os
import pathlib
import shutil
import signal
import subprocess
import tempfile
import time
from collections import Counter
from collections.abc import Callable, Iterator, Sequence
from contextlib import contextmanager

from compare import PROGRAM, TOP, Result

STUDY = TOP / "examples" / "study"
RUNS = "examples/study/runs.csv"
COUNTS = {"done": 35, "refused": 3, "stalled": 2}
CORES = 4
SIZE = 7  # runs in a batch, where a test names no other
SECONDS = 120
STATUSES = {0: "done", 1: "memory", 3: "missing", 5: "refused", 6: "stalled", 8: "too long", -9: "killed"}
HEAD = (
    "run,line,stock,plan,edits,status,file,place,rule,stalled,point,kind,name,arrival_low,arrival_high,planned,"
    "program_sha256,line_sha256,stock_sha256,plan_sha256,edits_sha256\n"
)
ODD = {  # edits files that a session must not take as they stand, or that take more than one piece of it
    "question.txt": "put a 5000 5100 20\ntimetable\n",
    "blank.txt": "put a 5000 5100 20\n\nput b 9000 9100 20\n",
    "cr.txt": "put a 5000 5100 20\r\n",
    "open.txt": "put a 5000 5100 20",
    "long.txt": "put a 5000 5100 20" + " " * 190 + "\n",
    "twice.txt": "put a 5000 5100 20\nput a 6000 6100 20\nput c 12000 12100 20\n",
    "again.txt": "put a 5000 5100 20\ntake a\nput a 6000 6100 20\n",
    "empty.txt": "",
    "many.txt": "".join(f"put r{number} {number} {number + 50} 40\n" for number in range(2500)),
    "outside.txt": "put a 5000 5100 20\nput far 43000 44000 20\n",
    "plain.txt": "put a 5000 5100 20\n",
    "gone.txt": None,
}


# What is wanted


def hash_of(path: pathlib.Path) -> str:
    return hashlib.sha256(path.read_bytes()).hexdigest() if path.is_file() else ""


def columns_of(files: Sequence[str], status: int, text: str, folder: pathlib.Path) -> Iterator[list[str]]:
    """What is wanted of a run between its files and their hashes, for each of its rows."""
    word, *others = text.split() or [""]
    outcome = [STATUSES[status], "", "", "", ""]
    if status == 5:
        outcome[1:4] = [files[int(others[0]) - 1], *others[1:]]
    elif status == 6:
        outcome[4] = others[0]
    elif status == 3:
        outcome[1] = next(file for file in files if file and not (folder / file).exists())
    if status != 0:
        yield [*outcome, *[""] * 6]
        return
    for row in text.splitlines():
        at, kind, low, high, *_, planned, name = row.split(" ", 8)
        yield [*outcome, at, kind, name, low, high, planned]


def wanted(folder: pathlib.Path, program: pathlib.Path = PROGRAM, table: str = RUNS) -> str:
    """The results of a table, by a run of `plan` for each of its rows."""
    with open(folder / table, newline="") as file:
        _, *runs = csv.reader(file)
    first = {tuple(files[:3]): number for number, files in reversed(list(enumerate(runs)))}
    order = sorted(range(len(runs)), key=lambda number: (first[tuple(runs[number][:3])], number))
    text = io.StringIO()
    text.write(HEAD)
    for number in order:
        line, stock, plan, edits = files = runs[number]
        words = [program, "plan", line, stock, plan or "/dev/null", "--print", "timetable"]
        words += ["--edits", edits] if edits else []
        ended = subprocess.run(words, cwd=folder, stdout=subprocess.PIPE, text=True)
        hashes = [hash_of(path) for path in (program, *(folder / file for file in files))]
        rows = columns_of(files, ended.returncode, ended.stdout, folder)
        csv.writer(text, lineterminator="\n").writerows([number + 1, *files, *row, *hashes] for row in rows)
    return text.getvalue()


def statuses(results: str) -> dict[str, int]:
    """How many runs of results ended how."""
    return dict(Counter({row["run"]: row["status"] for row in csv.DictReader(io.StringIO(results))}.values()))


# Engines


@contextmanager
def laid() -> Iterator[pathlib.Path]:
    """A new folder with the examples and the program, as from the top of the repository."""
    with tempfile.TemporaryDirectory() as given:
        folder = pathlib.Path(given)
        shutil.copytree(TOP / "examples", folder / "examples", ignore=shutil.ignore_patterns("__pycache__"))
        (folder / "rtime").symlink_to(TOP / "rtime")
        yield folder


def ended(words: Sequence[str], folder: pathlib.Path, wants: int | None = 0) -> None:
    """Runs a command, which has to end with a status."""
    taken = {"stdin": subprocess.DEVNULL, "stdout": subprocess.PIPE, "stderr": subprocess.STDOUT, "text": True}
    done = subprocess.run(words, cwd=folder, timeout=SECONDS, **taken)
    if wants is not None and done.returncode != wants:
        raise AssertionError(f"{' '.join(words)} ended with {done.returncode}:\n{done.stdout[-1500:]}")


def cut(folder: pathlib.Path, size: int, table: str = RUNS) -> list[str]:
    """The batches of a study."""
    ended(["python3", "examples/study/batches.py", "cut", table, "study", "--size", str(size)], folder)
    return (folder / "study" / "batches.txt").read_text().splitlines()


def joined(folder: pathlib.Path, table: str = RUNS) -> None:
    ended(["python3", "examples/study/batches.py", "join", table, "study"], folder)


def by_itself(folder: pathlib.Path, size: int = SIZE, program: str = "./rtime", table: str = RUNS) -> None:
    """Makes a study batch by batch."""
    for batch in cut(folder, size, table):
        result = batch.replace("batches", "done")
        ended(["python3", "examples/study/batch.py", batch, result, "--program", program, "--attempt", "2"], folder)
    joined(folder, table)


def snakemake_words(size: int, program: str, table: str) -> list[str]:
    config = [f"runs={table}", "to=study", f"batch={size}", f"program={program}"]
    return ["snakemake", "--profile", "examples/study/local", "--cores", str(CORES), "--config", *config]


def by_snakemake(folder: pathlib.Path, size: int = SIZE, program: str = "./rtime", table: str = RUNS) -> None:
    """Makes a study by Snakemake."""
    if (folder / ".snakemake" / "locks").exists() and any((folder / ".snakemake" / "locks").iterdir()):
        ended([*snakemake_words(size, program, table), "--unlock"], folder)
    ended(snakemake_words(size, program, table), folder)


def parallel_words(program: str, attempt: int) -> list[str]:
    way = ["--jobs", str(CORES), "--joblog", "study/joblog", "--resume-failed", "--halt", "never"]
    worker = ["python3", "examples/study/batch.py", "{}", "study/done/{/}", "--program", program]
    return ["parallel", *way, *worker, "--attempt", str(attempt), "::::", "study/batches.txt"]


def by_parallel(folder: pathlib.Path, size: int = SIZE, program: str = "./rtime", table: str = RUNS) -> None:
    """Makes a study by GNU parallel: the second line tries again what failed in the first."""
    cut(folder, size, table)
    ended(parallel_words(program, 1), folder, wants=None)
    ended(parallel_words(program, 2), folder)
    joined(folder, table)


Engine = Callable[..., None]
ENGINES: dict[str, Engine] = {"snakemake": by_snakemake, "parallel": by_parallel}


# Tests


def results_of(folder: pathlib.Path) -> str:
    return (folder / "study" / "results.csv").read_text()


def check_same(results: str, wants: str) -> None:
    """Fails where results aren't those wanted."""
    pairs = zip(results.splitlines(), wants.splitlines())
    for number, (row, want) in enumerate(pairs, 1):
        if row != want:
            raise AssertionError(f"line {number}:\n{row}\nwanted:\n{want}")
    if results != wants:
        raise AssertionError(f"{len(results)} bytes of results, wanted {len(wants)}")


def stand_in(folder: pathlib.Path, name: str, lines: str) -> pathlib.Path:
    """A program in place of rtime, which does something before it is rtime."""
    path = folder / name
    path.write_text(f'#!/bin/sh\n{lines}\nexec {PROGRAM} "$@"\n')
    path.chmod(0o755)
    return path


def check_sizes() -> None:
    """The same results come of batches of one run, which are made by `plan`, of several, and of all runs."""
    with laid() as folder:
        wants = wanted(folder)
        if statuses(wants) != COUNTS:
            raise AssertionError(f"the runs of the example ended otherwise: {statuses(wants)}")
        for size in (1, 3, 40):
            by_itself(folder, size)
            check_same(results_of(folder), wants)


def check_odd_edits() -> None:
    """Edits that a session must not take as they stand have the answers of `plan`, and none leaves a trace."""
    files = "examples/lauter/line.csv,examples/lauter/railcar.toml,examples/lauter/local.csv"
    with laid() as folder:
        rows = ["line,stock,plan,edits", f"{files},"]
        for name, text in ODD.items():
            if text is not None:
                (folder / name).write_bytes(text.encode())
            rows += [f"{files},{name}", f"{files},plain.txt"]
        rows.append("examples/lauter/line.csv,examples/lauter/railcar.toml,,plain.txt")
        rows += [f"gone.csv,examples/lauter/railcar.toml,,{name}" for name in ("plain.txt", "gone.txt", "")]
        (folder / "odd.csv").write_text("".join(f"{row}\n" for row in rows))
        by_itself(folder, 100, table="odd.csv")
        check_same(results_of(folder), wanted(folder, table="odd.csv"))


def check_most_bytes() -> None:
    """A session that has been given nearly as much as rtime reads is followed by another one."""
    with laid() as folder:
        batch = folder / "examples" / "study" / "batch.py"
        batch.write_text(batch.read_text().replace("MOST_BYTES = 60000000", "MOST_BYTES = 100"))
        by_itself(folder, 40)
        check_same(results_of(folder), wanted(folder))


def check_changed_meanwhile() -> None:
    """A file that changes while its batch is made leaves no result, as its hash would be a wrong one."""
    with laid() as folder:
        program = stand_in(folder, "changing", "echo >> examples/study/edits/lauter-2.txt")
        batch = cut(folder, 3)[0]
        words = ["python3", "examples/study/batch.py", batch, "result.csv", "--program", str(program)]
        ended(words, folder, wants=1)
        if (folder / "result.csv").exists():
            raise AssertionError("it has a result")


def check_incomplete() -> None:
    """Results aren't joined where a batch isn't made, or where the table has changed since it was cut."""
    with laid() as folder:
        join = ["python3", "examples/study/batches.py", "join", RUNS, "study"]
        by_itself(folder, 20)
        text = (folder / RUNS).read_text()
        head, first, second, *others = text.splitlines(keepends=True)
        rows = [first, second, *others]
        for changed in ([second, first, *others], [*rows, first], [*rows, rows[-1]], rows[1:], rows[:-1]):
            (folder / RUNS).write_text("".join([head, *changed]))
            ended(join, folder, wants=1)
        (folder / RUNS).write_text(text)
        ended(join, folder)
        next((folder / "study" / "done").iterdir()).unlink()
        ended(join, folder, wants=1)


def check_engine(engine: Engine) -> None:
    """An engine makes the results of single runs, in batches of two sizes, and Snakemake the summary too."""
    for size in (SIZE, 100):
        with laid() as folder:
            engine(folder, size)
            check_same(results_of(folder), wanted(folder))
            if engine is by_snakemake:
                summary = (folder / "study" / "summary.txt").read_text()
                if not summary.startswith("40 runs: 35 done, 3 refused, 2 stalled\n"):
                    raise AssertionError(summary)


def check_cut_off(engine: Engine) -> None:
    """A study that was cut off goes on where it was, and has the same results."""
    with laid() as folder:
        program = stand_in(folder, "slow", "sleep 0.2")
        done = folder / "study" / "done"
        words = snakemake_words(2, str(program), RUNS)
        if engine is by_parallel:
            cut(folder, 2)
            words = parallel_words(str(program), 1)
        silent = {"stdin": subprocess.DEVNULL, "stdout": subprocess.DEVNULL, "stderr": subprocess.DEVNULL}
        started = subprocess.Popen(words, cwd=folder, start_new_session=True, **silent)
        until = time.monotonic() + SECONDS
        while len(list(done.glob("*.csv"))) < 6 and time.monotonic() < until:
            time.sleep(0.02)
        end_of(engine, started)
        before = {path: path.stat().st_mtime_ns for path in done.glob("*.csv")}
        if not 6 <= len(before) < len(list((folder / "study" / "batches").iterdir())):
            raise AssertionError(f"{len(before)} batches were done as it was cut off")
        engine(folder, 2, str(program))
        check_same(results_of(folder), wanted(folder, program))
        anew = sum(time != path.stat().st_mtime_ns for path, time in before.items())
        if anew > CORES:  # of which the engine hadn't yet taken note
            raise AssertionError(f"{anew} of {len(before)} batches that were done are made anew")


def end_of(engine: Engine, started: subprocess.Popen) -> None:
    """Cuts a study off: Snakemake as the system does, and GNU parallel with its jobs, by the two signals it wants."""
    if engine is by_snakemake:
        os.killpg(started.pid, signal.SIGKILL)
    else:
        for _ in range(2):
            started.send_signal(signal.SIGTERM)
            time.sleep(0.3)
    started.wait(SECONDS)
    time.sleep(1)  # for jobs that have gone on without it


def check_killed(engine: Engine) -> None:
    """Runs that are killed or find no memory are tried again, and then are rows."""
    with laid() as folder:
        log = folder / "killed.txt"
        lines = f"""case "$*" in
session*) exit 1 ;;
*lauter-4.txt*) echo >> {log}; kill -9 $$ ;;
*eschenjoch-30.txt*) exit 1 ;;
esac"""
        program = stand_in(folder, "killed", lines)
        engine(folder, 40, str(program))
        results = results_of(folder)
        tries = len(log.read_text())
        wants = COUNTS | {"done": 32, "killed": 1, "memory": 2}
        if tries != 2 or statuses(results) != wants:
            raise AssertionError(f"{tries} tries, and {statuses(results)}")
        check_same(results, wanted(folder, program))


def check_killed_once(engine: Engine) -> None:
    """A run that is killed the first time alone is as any other."""
    with laid() as folder:
        lines = f"""case "$*" in session*) exit 1 ;; *lauter-4.txt*)
mkdir {folder}/once && kill -9 $$ ;; esac 2> /dev/null"""
        program = stand_in(folder, "once.sh", lines)
        engine(folder, SIZE, str(program))
        check_same(results_of(folder), wanted(folder, program))


def times_of(folder: pathlib.Path) -> dict[str, int]:
    """When each batch was made."""
    return {path.name: path.stat().st_mtime_ns for path in (folder / "study" / "done").iterdir()}


def check_changed(engine: Engine) -> None:
    """A file that changes makes the batches anew that hang on it; a row that is added makes those that it is in."""
    with laid() as folder:
        engine(folder)
        first = times_of(folder)
        time.sleep(0.02)
        (folder / "examples/study/edits/lauter-10.txt").write_text("put lauter-10 10000 10300 20\n")
        engine(folder)
        second = times_of(folder)
        check_same(results_of(folder), wanted(folder))
        if sum(first[name] != second[name] for name in first) != 1 or first.keys() != second.keys():
            raise AssertionError("not one batch was made anew for a changed file of edits")
        with open(folder / RUNS, "a") as table:
            table.write("examples/lauter/line.csv,examples/lauter/railcar.toml,,\n")
        engine(folder)
        third = times_of(folder)
        check_same(results_of(folder), wanted(folder))
        if any(second[name] != third[name] for name in second) or len(third) != len(second) + 1:
            raise AssertionError("not one batch was made for a row that was added")


def check_other_program(engine: Engine) -> None:
    """Another program makes all anew, though its file is older than what is done."""
    with laid() as folder:
        engine(folder)
        program = stand_in(folder, "other", "")
        os.utime(program, (1, 1))
        engine(folder, program=str(program))
        check_same(results_of(folder), wanted(folder, program))


def check_missing(engine: Engine) -> None:
    """A run whose file isn't there is a row, and is made once the file is there."""
    with laid() as folder:
        path = folder / "examples" / "study" / "edits" / "lauter-10.txt"
        text = path.read_text()
        path.unlink()
        engine(folder)
        check_same(results_of(folder), wanted(folder))
        if statuses(results_of(folder)).get("missing") != 1:
            raise AssertionError("no row says that a file is missing")
        if engine is by_snakemake:
            path.write_text(text)
            engine(folder)
            check_same(results_of(folder), wanted(folder))


def check_pictures() -> None:
    """A command that draws ends as rtime does, and makes no picture, whichever of its calls fails."""
    files = [f"examples/eschenjoch/{name}" for name in ("line.csv", "emu.toml", "express.csv")]
    commands = {"speed": files[:2], "times": [*files, *files[1:]], "costs": [*files, "Lindhafen"]}
    with laid() as folder:
        tools = folder / "tools"
        tools.mkdir()
        (tools / "gnuplot").write_text('#!/bin/sh\ncase $2 in *costs.gp|*speed.gp|*times.gp) : > picture.png ;; esac\n')
        (tools / "gnuplot").chmod(0o755)
        given = os.environ | {"PATH": f"{tools}:{os.environ['PATH']}", "RTIME": "./failing"}
        for name, words in commands.items():
            calls = 1 + drawn(folder, name, words, given, 0, 0)  # one more than fail: the picture is there
            for call in range(1, calls):
                for status in (1, 3, 4, 5, 8, 137):
                    if drawn(folder, name, words, given, call, status) != status:
                        raise AssertionError(f"{name}.sh doesn't end with status {status} of call {call}")
            if calls < 2:
                raise AssertionError(f"{name}.sh doesn't call rtime")


def drawn(
    folder: pathlib.Path, name: str, words: Sequence[str], given: dict[str, str], call: int, status: int
) -> int:
    """The exit status of a command that draws, one of whose calls fails behind its text; the calls, where none does."""
    lines = f"""echo >> calls.txt
if [ $(wc -l < calls.txt) -eq {call} ]; then {PROGRAM} "$@"; exit {status}; fi"""
    stand_in(folder, "failing", lines)
    for file in ("calls.txt", "picture.png"):
        (folder / file).unlink(missing_ok=True)
    script = ["sh", f"examples/pictures/{name}.sh", "picture.png", *words]
    ended = subprocess.run(script, cwd=folder, env=given, stdout=subprocess.PIPE, stderr=subprocess.STDOUT)
    if (folder / "picture.png").exists() != (call == 0):
        raise AssertionError(f"{name}.sh, where call {call} ends with {status}: {ended.stdout[-300:]!r}")
    return ended.returncode if call else len((folder / "calls.txt").read_text())


BY_ITSELF = [check_pictures, check_sizes, check_odd_edits, check_most_bytes, check_changed_meanwhile, check_incomplete]
BY_ENGINE = [check_engine, check_cut_off, check_killed, check_killed_once, check_missing]
BY_SNAKEMAKE = [check_changed, check_other_program]  # which learns of changed files


def result_of(name: str, check: Callable[..., None], *given: Engine) -> Result:
    """Whether a check passed, and why it didn't."""
    name = f"studies: {name}{check.__doc__.splitlines()[0]}"
    try:
        check(*given)
    except (AssertionError, OSError, subprocess.TimeoutExpired) as failure:
        return name, False, f"  {failure}\n"
    return name, True, ""


def is_there(engine: str) -> bool:
    """Whether an engine is there: another program has the name of GNU parallel too."""
    if not shutil.which(engine):
        return False
    told = subprocess.run([engine, "--version"], stdin=subprocess.DEVNULL, capture_output=True, text=True).stdout
    return engine != "parallel" or told.startswith("GNU parallel")


def results() -> Iterator[Result]:
    """The results of all checks; those of an engine that isn't there are skipped."""
    for check in BY_ITSELF:
        yield result_of("", check)
    for name, engine in ENGINES.items():
        for check in [*BY_ENGINE, *(BY_SNAKEMAKE if name == "snakemake" else [])]:
            if is_there(name):
                yield result_of(f"{name}: ", check, engine)
            else:
                yield f"studies: {name}: {check.__doc__.splitlines()[0]}", None, f"{name} isn't there"
