#!/usr/bin/env python3
"""Refuses memory to the program, one growth after the other: tests/memory.py

It is run by `.ci/run --slow`, or on its own. The program is run as it was built, with the calls of memory/refuse.c in
front of those of the C library, which refuse the Nth growth that the program asks for; N goes from 1 to the first that
a run doesn't come to. Each run has to give the right answer, or to end with status 1. Then a front of the right text
stands written; of a session nothing, or the replies to the lines before one of its lines `timetable`.

Where the machine has no compiler of C, it is skipped.

The program of tests/room/ makes room for one restriction, and then puts one in force: of the growths of its memory, the
first whose refusal doesn't keep it from making room mustn't keep it from the put either.
"""

import os
import pathlib
import shutil
import subprocess
import sys
import tempfile
from collections.abc import Iterator, Sequence
from dataclasses import dataclass

sys.dont_write_bytecode = True  # the sources have no folder of compiled ones beside them

from compare import PROGRAM, TOP, Answer, Result, report, why_older
from programs import crate_of, tried

SECONDS = 60
MOST = 100000  # growths of one run
MEMORY = 1  # the exit status at want of memory
SHOWN = 5  # of the runs that went wrong

FILES = {
    "two.csv": "line,Two,2\npoint,2,End\n",
    "ten.csv": "line,Ten,10\npoint,5,A\npoint,6,B\n",
    "lim.csv": "# a limit, and all kinds of records\nline,Lim,4\nlimit,1,2,36\ngradient,0,1,0\npoint,1,P\n",
    "toy.toml": "mass = 259200\nrotating = 0\nlength = 10\ntop = 60\neffort = [[0, 20000], [60, 20000]]\n"
    "resistance = [0, 0, 0]\nbrake = [[0, 100], [60, 100]]\n",
    "slow.toml": "mass = 259200\nrotating = 0\nlength = 10\ntop = 2\neffort = [[0, 20000], [2, 20000]]\n"
    'resistance = [0, 0, 0]\nbrake = [[0, 100], [2, 100]]\nname = "slow"\n',
    "none.csv": "",
    "plan.csv": "# all kinds of records\ndepart,0\nenter,0\nleave,0\npass,End\nallow,0,2,percent,0\n",
    "edits.txt": "put a 0 2 1\r\ntake a\nput a 0 2 1\nput b 0 1 60\n",
    "cert.txt": "0 0\n25920 20000\n0 0\nwhole\n",
}
FREE = "time 10182291298 10182363300\n"
SLOW = "time 14400000000 14400000000\n"
ROWS = "0 start 0 0 0 0 0 0 -\n2 end 10182291298 10182363300 10182291298 10182363300 0 10183 -\n"
SLOW_ROWS = "0 start 0 0 0 0 0 0 -\n2 end 14400000000 14400000000 14400000000 14400000000 0 14400 -\n"
RUN = "0 0\n1 20000\n2 40000\n3 60000\n4 80000\n5 100000\n6 103680\n7 77760\n8 51840\n9 25920\n10 0\n"
SUMMARY = "points 120001\ncommands 2000\nputs 970\ntakes 930\ntimes 100\nstalls 0\nlast 5948736461721 5948736961980\n"
SESSION = "session two.csv toy.toml none.csv"
ROOM_USES = "allowances incr_envelope line_tables plan_tables restrictions run_io stock_tables time_brackets unit_rules"


@dataclass(frozen=True)
class Case:
    """Words over the files, with an input, and the text that they are answered by with status 0."""

    words: str
    text: str
    given: str = ""
    fronts: tuple[str, ...] | None = None  # what may stand written at want of memory; None where any front

    def is_right(self, answer: Answer) -> bool:
        """Whether an answer is the right one, or that of want of memory."""
        status, text = answer
        if status != MEMORY:
            return answer == (0, self.text)
        return self.text.startswith(text) if self.fronts is None else text in self.fronts


CASES = [
    Case("caps lim.csv 1 60", "0 36000000\n1 12960000\n2 12960000\n3 12960000\n4 36000000\n"),
    Case("stock slow.toml", "259200 259200 10 2\n0 5184000000 25920\n1 5184000000 25920\n2 5184000000 25920\n"),
    Case("envelope ten.csv toy.toml", RUN),
    Case("rise two.csv toy.toml 0", "0 0 20000 -25920\n1 0 20000 -25920\n"),
    Case("brakes two.csv toy.toml", "0 0\n1 25920\n2 0\n"),
    Case("plan two.csv toy.toml plan.csv --print envelope", "0 0\n1 20000\n2 0\n"),
    Case("plan two.csv toy.toml none.csv --print timetable", ROWS),
    Case("plan two.csv toy.toml none.csv --print timetable --edits edits.txt", SLOW_ROWS),
    Case("plan two.csv toy.toml none.csv --print cert", FILES["cert.txt"]),
    Case("check two.csv toy.toml none.csv cert.txt", "valid whole\n"),
    Case("gen 1", SUMMARY, fronts=("",)),
    Case(
        SESSION,
        f"{FREE}ok whole\n{SLOW}ok whole\n{FREE}",
        "time End\nput a 0 2 1\ntime End\ntake a\ntime End\n",
        ("",),
    ),
    Case(
        SESSION,
        f"{FREE}{ROWS}ok whole\n{SLOW_ROWS}ok whole\n{FREE}error 2\n{ROWS}",
        "time End\ntimetable\nput a 0 2 1\ntimetable\ntake a\ntime End\nquit\ntimetable",
        (
            "",
            FREE,
            f"{FREE}{ROWS}ok whole\n",
            f"{FREE}{ROWS}ok whole\n{SLOW_ROWS}ok whole\n{FREE}error 2\n",
        ),
    ),
]


def built(folder: pathlib.Path) -> pathlib.Path:
    """The library that refuses memory, built in a folder."""
    library = folder / "refuse.so"
    source = TOP / "tests" / "memory" / "refuse.c"
    subprocess.run(["cc", "-O1", "-shared", "-fPIC", "-o", library, source], check=True)
    return library


@dataclass(frozen=True)
class Refusing:
    """A program to which memory is refused, over the files of a folder."""

    program: pathlib.Path
    folder: pathlib.Path
    library: pathlib.Path

    def answer(self, case: Case, number: int) -> tuple[Answer, bool]:
        """The answer where the growth of this number is refused, and whether the run came to it."""
        told = self.folder / "refused"
        told.unlink(missing_ok=True)
        names = {"LD_PRELOAD": str(self.library), "REFUSE": str(number), "REFUSE_TELLS": str(told)}
        ended = subprocess.run(
            [self.program, *case.words.split()],
            cwd=self.folder,
            env={**os.environ, **names},
            input=case.given.encode(),
            stdout=subprocess.PIPE,
            stderr=subprocess.STDOUT,
            timeout=SECONDS,
        )
        return (ended.returncode, ended.stdout.decode(errors="replace")), told.exists()

    def wrong(self, case: Case) -> Iterator[tuple[int, Answer]]:
        """The numbers of the growths at whose refusal the answer is wrong; 0 where none was refused."""
        for number in range(1, MOST):
            answer, is_refused = self.answer(case, number)
            if not case.is_right(answer) or not is_refused and answer != (0, case.text):
                yield number, answer
            if not is_refused:
                if number == 1:
                    yield 0, answer
                return


def with_room() -> Iterator[Result]:
    """Whether a put wants no memory after room was made for it."""
    with tempfile.TemporaryDirectory() as given:
        crate = crate_of("room", ROOM_USES, pathlib.Path(given))
        kept, freed = 0, 64  # a growth that making room needs, and one that it doesn't
        while tried(crate, refused=freed)[0] == "no room\n" and freed < MOST:
            kept, freed = freed, 2 * freed
        while freed - kept > 1:
            middle = (kept + freed) // 2
            needs = tried(crate, refused=middle)[0] == "no room\n"
            kept, freed = (middle, freed) if needs else (kept, middle)
        printed, said = tried(crate, refused=freed)
        is_right = kept > 0 and printed == "put\n"
        yield "refused memory: a put after room was made", is_right, f"  growth {freed}: {printed!r}, {said}\n"


def results(program: pathlib.Path = PROGRAM, cases: Sequence[Case] = CASES) -> Iterator[Result]:
    """Of each case whether every refusal leaves a right answer, and whether a put after room was made does."""
    yield from refusals(program, cases)
    yield from with_room()


def refusals(program: pathlib.Path, cases: Sequence[Case]) -> Iterator[Result]:
    """Of each case whether every refusal leaves a right answer."""
    if not shutil.which("cc"):
        yield "refused memory", None, "a compiler of C isn't there"
        return
    with tempfile.TemporaryDirectory() as given:
        folder = pathlib.Path(given)
        for name, text in FILES.items():
            (folder / name).write_bytes(text.encode())
        refusing = Refusing(program, folder, built(folder))
        for case in cases:
            wrong = list(refusing.wrong(case))
            name = f"refused memory: {case.words}{' <' * bool(case.given)} {case.given!r}"
            none = "no growth was refused; " * any(number == 0 for number, _ in wrong)
            yield name, not wrong, f"  {none}wrong answers, by the growth that was refused: {wrong[:SHOWN]}\n"


if __name__ == "__main__":
    if older := why_older():
        sys.exit(f"the program isn't current: {older}")
    sys.exit(0 if report(results()) else 1)
