#!/usr/bin/env python3
"""Tries made-up cases: tests/made.py

The files that examples/make_case.py writes for some numbers are compared byte by byte with the texts of the crate
made_cases, which the program of tests/made/ prints; it is run as it is written, without proofs. Over these files a
session gives as many replies of each kind as `gen` counts, and a timetable with the last arrival that `gen` tells. For
some of them the model of model.py gives the same summary. It makes the run once, under what the last command leaves in
force: to make it anew after each edit would take hours. Of the first case the timetable is that of the model, and its
certificate is valid.
"""

import pathlib
import subprocess
import sys
import tempfile
from collections import Counter
from collections.abc import Iterator, Mapping, Sequence
from itertools import pairwise

sys.dont_write_bytecode = True  # the sources have no folder of compiled ones beside them

import pipes
import programs
from compare import EXAMPLES, PROGRAM, Answer, Result, difference, program_answer, records_text, report, why_older
from model import words_of
from session_model import Session, Talk, lines_of
from sessions import talk_of

SCRIPT = EXAMPLES / "make_case.py"
USES = "made_cases run_io unit_rules"
NUMBERS = [*range(1, 21), 1000000]
MODELLED = [1, 2, 1000000]  # of these the model gives the summary
NO_NUMBERS = ["", "0", "-1", "+1", "01", "1.0", "1000001", "one"]
WORDS = ["line.csv", "stock.toml", "plan.csv"]
SECONDS = 60

Texts = Mapping[str, str]  # the texts of a case, by the names of its files


# The files


def written(words: Sequence[str | pathlib.Path]) -> int:
    """The exit status of make_case.py."""
    return subprocess.run([sys.executable, SCRIPT, *words], stderr=subprocess.DEVNULL, timeout=SECONDS).returncode


def texts_in(folder: pathlib.Path) -> Texts:
    """The texts of the files of a folder."""
    return {path.name: path.read_bytes().decode() for path in folder.iterdir()}


def texts_printed(output: str) -> dict[str, dict[str, str]]:
    """The texts that the program of tests/made/ has printed, by the number of the case."""
    cases: dict[str, dict[str, str]] = {}
    for part in output.split("# ")[1:]:
        head, _, text = part.partition("\n")
        number, name = head.split(" ")
        cases.setdefault(number, {})[name] = text
    return cases


def first_difference(texts: Texts, wanted: Texts) -> str:
    """The first line of the files of a case that isn't the one wanted; empty where there is none."""
    if texts.keys() != wanted.keys():
        return f"  the files are {sorted(texts)}, wanted {sorted(wanted)}\n"
    return "".join(difference([name], (0, texts[name]), (0, wanted[name])) for name in wanted)


def of_files(folder: pathlib.Path) -> Iterator[Result]:
    """Compares the files with the texts of the crate."""
    output, said = programs.printed("made", USES, list(map(str, NUMBERS)))
    cases = texts_printed(output)
    yield "the texts of the crate are printed", bool(cases), f"  {said}\n"
    for number in NUMBERS:
        status = written([str(number), folder / str(number)])
        found = first_difference(texts_in(folder / str(number)), cases.get(str(number), {}))
        yield f"the files of case {number}", status == 0 and not found, f"  status {status}\n{found}"
    for place, word in enumerate(NO_NUMBERS):
        none = folder / f"none {place}"
        is_refused = written([word, none]) != 0 and not none.exists()
        yield f"make_case.py {word!r} is refused", is_refused, "  it isn't\n"


# The summaries


def summary(points: int, counts: Sequence[int], last: str) -> str:
    """A summary, of the commands and of how many were accepted, by the kinds, with the arrival in the last line."""
    names = ["points", "commands", "puts", "takes", "times", "stalls"]
    return records_text([*(f"{name} {count}" for name, count in zip(names, [points, *counts])), f"last {last}"])


def replies_to(folder: pathlib.Path, text: str) -> list[str]:
    """The lines that a session over the files of a folder prints, which ends as it should."""
    status, output, errors = pipes.ended([PROGRAM, "session", *WORDS], folder, [text.encode()], SECONDS)
    return [] if status != 0 or errors else output.decode().splitlines()


def summed_up(commands: Sequence[str], replies: Sequence[str], end: Sequence[str]) -> str:
    """The summary of a session by its replies, and by the words of the last row of the timetable behind them."""
    kinds = Counter(f"{words_of(line)[0]} {reply.split()[0]}" for line, reply in zip(commands, replies))
    stalls = sum(reply.startswith("ok stalled") for reply in replies)
    counts = [len(replies), kinds["put ok"], kinds["take ok"], kinds["time time"] + kinds["time none"], stalls]
    if end[1:2] != ["end"]:
        return f"the last row is {end}"
    return summary(int(end[0]) + 1, counts, " ".join(end[2:4]))


def of_session(folder: pathlib.Path, commands: str) -> tuple[str, str]:
    """The summary of a session over the files of a folder, and its reply to the last of the commands."""
    lines = commands.splitlines()
    replies = replies_to(folder, commands + "timetable\n")
    if len(replies) <= len(lines):
        return f"{len(replies)} replies", ""
    return summed_up(lines, replies[: len(lines)], replies[-1].split()), replies[len(lines) - 1]


def speeds_up_everywhere(talk: Talk) -> bool:
    """Whether full effort lets the train gain speed on each metre, whatever its speed: it stalls nowhere then."""
    return min(talk.train.pushes) - max(talk.drive.pulls) >= talk.train.moved


def of_model(texts: Texts) -> tuple[str, str]:
    """The same by the model, of a session whose last line asks for a time."""
    talk = talk_of({word: texts[word] for word in WORDS})
    session = Session(talk)
    kinds: Counter[str] = Counter()
    lines, _ = lines_of(texts["commands.txt"].encode())
    for line in lines:
        if session.code(line) is None:
            words = words_of(line)
            kinds[words[0]] += 1
            if words[0] != "time":
                session.edit(*words)
    if not speeds_up_everywhere(talk):
        return "the train may stall", ""
    counts = [len(lines), kinds["put"], kinds["take"], kinds["time"], 0]
    last = session.outcome.arrival(talk.line.length).split()
    return summary(talk.line.length + 1, counts, " ".join(last[1:])), session.reply(lines[-1]).strip()


def of_summaries(folder: pathlib.Path) -> Iterator[Result]:
    """Compares the summaries that `gen` writes with those of a session, and of the model."""
    for number in NUMBERS:
        texts = texts_in(folder / str(number))
        words = ["gen", str(number)]
        answer = program_answer(words, folder)
        text, reply = of_session(folder / str(number), texts["commands.txt"])
        found = difference(words, answer, (0, text))
        yield f"the summary of case {number} is that of a session", not found, found
        if number in MODELLED:
            text, wanted = of_model(texts)
            found = difference(words, answer, (0, text))
            yield f"the summary of case {number} is that of the model", not found, found
            yield f"the last reply of case {number} is that of the model", reply == wanted, f"  {reply}, {wanted}\n"


# The plan


def of_plan(folder: pathlib.Path) -> Iterator[Result]:
    """Compares the timetable of a case with that of the model, and has its certificate checked."""
    talk = talk_of({word: texts_in(folder)[word] for word in WORDS})
    wanted: Answer = 0, talk.under(()).text("timetable")
    words = ["plan", *WORDS, "--print"]
    timetable = program_answer([*words, "timetable"], folder)
    places = [int(row.split()[0]) for row in timetable[1].splitlines()]
    found = difference([*words, "timetable"], timetable, wanted)
    yield "the timetable of a case", not found, found
    is_ordered = len(places) == 7 and all(a < b for a, b in pairwise(places))
    yield "it has seven rows", is_ordered, f"  {places}\n"
    (folder / "cert.txt").write_text(program_answer([*words, "cert"], folder)[1])
    checked = program_answer(["check", *WORDS, "cert.txt"], folder)
    yield "the certificate of a case", checked == (0, "valid whole\n"), f"  {checked}\n"


def results() -> Iterator[Result]:
    """Compares the files and the summaries of made-up cases, and tries the plan of the first."""
    with tempfile.TemporaryDirectory() as given:
        folder = pathlib.Path(given)
        yield from of_files(folder)
        yield from of_summaries(folder)
        yield from of_plan(folder / "1")


if __name__ == "__main__":
    if older := why_older():
        sys.exit(f"the program isn't current: {older}")
    sys.exit(0 if report(results()) else 1)
