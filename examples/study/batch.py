#!/usr/bin/env python3
"""Makes the runs of one batch of a study:

    python3 examples/study/batch.py BATCH RESULT [--program PATH] [--attempt N]

BATCH is a table of runs, as batches.py writes it. RESULT gets a row for each call of a run, and one row for a run
that has no timetable. It is written whole or not at all. Where rtime is killed or finds no memory, the first
attempt ends with status 1 and leaves no RESULT; from the second on such a run is a row too. docs/STUDIES.md says
what the columns hold. Python 3.9 and rtime are all that it needs.
"""

import argparse
import contextlib
import csv
import functools
import hashlib
import itertools
import os
import pathlib
import re
import shutil
import subprocess
import sys
from collections.abc import Iterable, Iterator, Sequence
from typing import NamedTuple

ATTEMPTS = 2  # in the last of which a run that is killed or finds no memory is a row
STATUSES = {0: "done", 1: "memory", 3: "missing", 5: "refused", 6: "stalled", 8: "too long"}
FAILURES = {"memory", "killed"}  # which are tried again

RUN = ["line", "stock", "plan", "edits"]
OUTCOME = ["status", "file", "place", "rule", "stalled"]
CALL = ["point", "kind", "name", "arrival_low", "arrival_high", "planned"]
HASHES = [f"{name}_sha256" for name in ("program", *RUN)]
COLUMNS = ["run", *RUN, *OUTCOME, *CALL, *HASHES]

# Edits that a session takes as an edits file has them. All others are left to `plan`.
PLAIN = re.compile(rb"(?:(?:put [\w.-]{1,40} \d{1,6} \d{1,6} \d{1,3}|take [\w.-]{1,40})\n)*")
PIECE = 1000  # lines that are written ahead: their replies fit into a pipe
ENVIRONMENT = dict(os.environb)  # of the program: made once, as it is given to each run
MOST_BYTES = 60000000  # of an input; rtime takes 67,108,864

Answer = tuple[int, str]  # an exit status and a text


class Run(NamedTuple):
    """The files of a run: the plan and the edits may be empty, which is none."""

    line: str
    stock: str
    plan: str
    edits: str

    @property
    def shared(self) -> tuple[str, str, str]:
        """The files that runs of one session share."""
        return self.line, self.stock, self.plan or os.devnull

    @property
    def files(self) -> list[str]:
        """The files that are there to be read."""
        return [path for path in self if path]


class Ended(Exception):
    """A session has ended before its time."""


class Session:
    """A session of rtime over the files that runs share."""

    def __init__(self, program: str, shared: Sequence[str]) -> None:
        self.words = [program, "session", "--", *shared]
        self.begin()

    def begin(self) -> None:
        """Begins the session, in which nothing is in force."""
        self.process = subprocess.Popen(self.words, stdin=subprocess.PIPE, stdout=subprocess.PIPE)
        self.takes: list[bytes] = []  # the lines that take out what the run before has put in force
        self.written = 0

    def end(self) -> None:
        """Ends the session."""
        self.process.communicate()

    def write(self, text: bytes) -> None:
        """Writes lines, which are to be replied to."""
        try:
            self.process.stdin.write(text)
            self.process.stdin.flush()
        except BrokenPipeError:
            raise Ended from None
        self.written += len(text)

    def reply(self) -> bytes:
        """The next line that is replied."""
        line = self.process.stdout.readline()
        if not line.endswith(b"\n"):
            raise Ended
        return line

    def replies(self, lines: Sequence[bytes]) -> Iterator[bytes]:
        """The replies to lines that have one of one line, and then a question for the timetable."""
        for start in range(0, len(lines) + 1, PIECE):
            piece = lines[start : start + PIECE]
            is_last = start + PIECE > len(lines)
            self.write(b"".join(piece) + (b"timetable\n" if is_last else b""))
            yield from (self.reply() for _ in piece)

    def timetable(self) -> Answer:
        """The reply to the question for the timetable."""
        rows = [self.reply()]
        if rows[0].startswith(b"stalled "):
            return 6, rows[0].decode()
        while rows[-1].split(b" ", 2)[1] != b"end":
            rows.append(self.reply())
        return 0, b"".join(rows).decode()

    def answer(self, edits: bytes) -> "Answer | None":
        """What `plan` answers under edits; none where one of them is refused."""
        if self.written + len(edits) > MOST_BYTES:
            self.end()
            self.begin()
        lines = edits.splitlines(keepends=True)
        in_force: dict[bytes, None] = {}
        refused = False
        replies = list(self.replies(self.takes + lines))
        for line, reply in zip(lines, replies[len(self.takes) :]):
            word, name = line.split(None, 2)[:2]
            if not reply.startswith(b"ok "):
                refused = True
            elif word == b"put":
                in_force[name] = None
            else:
                del in_force[name]
        answer = self.timetable()
        self.takes = [b"take %s\n" % name for name in in_force]
        return None if refused else answer


def program_of(path: str) -> str:
    """The program itself, where a path is that of the script `rtime` of a clone, which calls the program."""
    found = shutil.which(path) or path
    top = pathlib.Path(found).resolve().parent
    if not (top / "build.sh").exists():
        return found
    program = top / "crates" / "rtime" / "out" / "rtime"
    if not program.exists():
        sys.exit("the program isn't built: call ./rtime first")
    return str(program)


def planned(program: str, run: Run) -> Answer:
    """What `plan` answers for a run."""
    edits = [f"--edits={run.edits}"] if run.edits else []
    words = [program, "plan", "--print=timetable", *edits, "--", *run.shared]
    ended = subprocess.run(words, stdin=subprocess.DEVNULL, stdout=subprocess.PIPE, close_fds=False, env=ENVIRONMENT)
    return ended.returncode, ended.stdout.decode(errors="replace")


def content_of(path: str) -> "bytes | None":
    """The bytes of a file; none where it can't be read."""
    try:
        return pathlib.Path(path).read_bytes()
    except OSError:
        return None


def plain_edits(run: Run) -> "bytes | None":
    """The edits of a run, as the lines of a session; none where they are left to `plan`."""
    edits = content_of(run.edits) if run.edits else b""
    return edits if edits is not None and PLAIN.fullmatch(edits) else None


def answers_of(program: str, runs: Sequence[Run]) -> Iterator[Answer]:
    """What rtime answers for runs that share line, stock and plan: in one session where they are several."""
    session = Session(program, runs[0].shared) if len(runs) > 1 else None
    for run in runs:
        answer = None
        edits = plain_edits(run) if session else None
        if session and edits is not None:
            try:
                answer = session.answer(edits)
            except Ended:
                session.end()
                session = None
        yield answer or planned(program, run)
    if session:
        session.end()


@functools.cache
def hash_of(path: str) -> str:
    """The SHA-256 of a file, as sha256sum prints it; empty where there is none, or it can't be read."""
    content = content_of(path) if path else None
    return "" if content is None else hashlib.sha256(content).hexdigest()


def outcome_of(run: Run, status: str, text: str) -> list[str]:
    """The columns of an outcome."""
    words = text.split()
    if status == "refused":
        return [status, run[int(words[1]) - 1], words[2], words[3], ""]
    if status == "too long":
        return [status, run[int(words[2]) - 1], "", "", ""]
    if status == "missing":
        return [status, next((path for path in run.files if not hash_of(path)), ""), "", "", ""]
    return [status, "", "", "", words[1] if status == "stalled" else ""]


def calls_of(text: str) -> Iterator[list[str]]:
    """The columns of each call of a timetable."""
    for row in text.splitlines():
        point, kind, low, high, _, _, _, planned, name = row.split(" ", 8)
        yield [point, kind, name, low, high, planned]


def rows_of(program: str, run: Run, answer: Answer) -> Iterator[list[str]]:
    """The rows of a run, without its number."""
    status = "killed" if answer[0] < 0 else STATUSES.get(answer[0])
    if status is None:
        sys.exit(f"{run}: rtime ended with exit status {answer[0]}")
    outcome = outcome_of(run, status, answer[1])
    hashes = [hash_of(program), *map(hash_of, run)]
    for call in calls_of(answer[1]) if status == "done" else [[""] * len(CALL)]:
        yield [*run, *outcome, *call, *hashes]


def rows_of_batch(program: str, runs: Iterable[Run], attempt: int) -> Iterator[list[str]]:
    """The rows of a batch, each with the number of its run in the batch before it."""
    number = 0
    for _, group in itertools.groupby(runs, key=lambda run: run.shared):
        shared = list(group)
        for run, answer in zip(shared, answers_of(program, shared)):
            number += 1
            for row in rows_of(program, run, answer):
                if row[len(RUN)] in FAILURES and attempt < ATTEMPTS:
                    sys.exit(f"{run}: {row[len(RUN)]}: to be tried again")
                yield [str(number), *row]


@contextlib.contextmanager
def unchanged(paths: Iterable[str]) -> Iterator[None]:
    """Takes the hashes of files, and ends this program where one of them isn't the same at the end."""
    hashes = {path: hash_of(path) for path in paths}
    yield
    for path, before in hashes.items():
        if hash_of.__wrapped__(path) != before:
            sys.exit(f"{path} was changed while the batch was made: to be tried again")


def read_runs(path: "str | pathlib.Path") -> list[Run]:
    """The runs of a table; other columns of it are ignored."""
    with open(path, encoding="utf-8-sig", newline="") as file:
        table = csv.DictReader(file)
        if missing := [name for name in RUN if name not in (table.fieldnames or [])]:
            sys.exit(f"{path}: these columns are missing: {', '.join(missing)}")
        return [Run(*(row[name] or "" for name in RUN)) for row in table]


def main() -> int:
    parser = argparse.ArgumentParser(description="Makes the runs of one batch of a study.")
    parser.add_argument("batch", help="the table of the runs")
    parser.add_argument("result", type=pathlib.Path, help="where the rows go")
    parser.add_argument("--program", default="./rtime", help="the program (./rtime)")
    parser.add_argument("--attempt", type=int, default=1, help="1, or 2 for what has failed before")
    given = parser.parse_args()
    program, runs = program_of(given.program), read_runs(given.batch)
    given.result.parent.mkdir(parents=True, exist_ok=True)
    unfinished = given.result.with_name(f"{given.result.name}.{os.getpid()}")
    try:
        with unchanged({program, *(path for run in runs for path in run.files)}):
            with open(unfinished, "w", encoding="utf-8", newline="") as file:
                csv.writer(file, lineterminator="\n").writerows(rows_of_batch(program, runs, given.attempt))
        os.replace(unfinished, given.result)
    finally:
        unfinished.unlink(missing_ok=True)
    return 0


if __name__ == "__main__":
    sys.exit(main())
