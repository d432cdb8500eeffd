#!/usr/bin/env python3
"""Tries sessions: tests/sessions.py [COUNT [SEED]]

Over lines, trains and plans that are drawn, the same ones at each run, the program holds COUNT sessions whose lines
are drawn too, and gets them in pieces of odd sizes. Its status and its whole output are compared with those of the
model of session_model.py, which is asked for the worked cases of tests/cases/session.toml as well. How a session goes
on and ends is tried by conversation.py.
"""

import pathlib
import sys
import tempfile
from collections import Counter
from collections.abc import Iterator
from dataclasses import dataclass
from random import Random

sys.dont_write_bytecode = True  # the sources have no folder of compiled ones beside them

import conversation
import pipes
from case_files import CASES, content_of, is_fifo, output_of, read_cases, tables_of
from compare import (
    PROGRAM,
    Answer,
    Result,
    difference,
    drawn_line,
    drawn_plan,
    drawn_put,
    lawful_train,
    line_text,
    name_of,
    plan_text,
    read_line,
    read_plan,
    read_points,
    read_train,
    records_text,
    report,
    spelled,
    stock_text,
    why_older,
)
from model import Line, Plan, Train
from session_model import Session, Talk, lines_of

COUNT = 200
SEED = 23
LINES = 50
POOL = 5  # restrictions that a script puts and takes
SECONDS = 60
WORDS = ["session", "line.csv", "train.toml", "plan.csv"]

KINDS = [f"error {code}" for code in range(1, 8)]
KINDS += ["a stall comes", "a stall moves", "a stall goes", "an edit that leaves how far it gets"]
KINDS += [f"{text} of a {run}" for text in ("envelope", "timetable", "cert") for run in ("whole run", "stall")]
KINDS += ["a time", "a time past a stall", "a last line without LF", "a line with CR LF"]


# Drawing


def drawn_points(random: Random, length: int) -> dict[str, int]:
    """Points of a line of so many m beside the calls of a plan, at both ends too."""
    places = [0, length, *random.choices(range(length + 1), k=3)]
    names = ["Foot", "Old  mill halt", "Mühle 1", "time", "put a 0 1 1"]
    return dict(zip(random.sample(names, len(names)), places))


def drawn_error(random: Random, length: int, held: str) -> str:
    """A line that is refused, where `held` is in force, and nothing that begins with `x`."""
    put = drawn_put(random, "x", length, 500)
    zones = ["1 1 5", f"0 {length + 1} 5", "0 1 0", "0 1 501", "00 1 5", "-1 1 5", "0 1.5 5", "-0 1 5"]
    others = ["", "quit", "time", "take", "take x x", "Take x", "put x 0 1", "put\tx 0 1 5", "# x", "cert 1"]
    wrong = [f"put x {random.choice(zones)}", "take x!", f"take {'x' * 41}", "put é 0 1 5"]
    unknown = ["time x", "time foot", "time Old mill halt", "time é\t", f"time {'x' * 190}"]
    lines = [
        random.choice([f"{put:201}", "x" * 201, "é" * 101]),
        random.choice(others),
        random.choice(wrong),
        drawn_put(random, held, length, 500),
        "take x",
        random.choice(unknown),
    ]
    return random.choice(lines)


def drawn_lines(random: Random, talk: Talk) -> Iterator[str]:
    """The lines of a script: edits, questions, and lines that are refused."""
    length = talk.line.length
    pool = {f"r{number}": drawn_put(random, f"r{number}", length, talk.train.top) for number in range(POOL)}
    held: list[str] = []
    for _ in range(LINES):
        match random.random():
            case share if share < 0.35:
                name = random.choice(list(pool))
                held += [name] * (name not in held)
                yield pool[name]
            case share if share < 0.52 and held:
                yield f"take {held.pop(random.randrange(len(held)))}"
            case share if share < 0.72:
                yield f"time {random.choice([*talk.points, 'Foot'])}"
            case share if share < 0.86:
                yield random.choice(["envelope", "timetable", "cert"])
            case _:
                yield drawn_error(random, length, random.choice(held or ["x"]))


def drawn_pieces(random: Random, given: bytes) -> list[bytes]:
    """The bytes in pieces of odd sizes, from single bytes to all at once."""
    most = random.choice([1, 3, 40, 300, len(given) + 1])
    pieces = []
    while given:
        size = random.randint(1, most)
        pieces.append(given[:size])
        given = given[size:]
    return pieces


# Scripts


@dataclass
class Script:
    """A session to be held: what it is about, its files, and its input in pieces."""

    talk: Talk
    files: dict[str, str]
    pieces: list[bytes]

    @classmethod
    def drawn(cls, random: Random) -> "Script":
        """A script over a drawn line, train and plan."""
        train: Train = lawful_train(random)
        line: Line = drawn_line(random, train)
        plan: Plan = drawn_plan(random, line, train)
        points = drawn_points(random, line.length)
        records = records_text(f"point,{place},{name}" for name, place in points.items())
        files = {"line.csv": line_text(line, plan) + records, "train.toml": stock_text(train)}
        files["plan.csv"] = plan_text(plan)
        talk = Talk(line, train, plan, read_points(files["line.csv"]), name_of)
        text = "".join(spelled(random, line) for line in drawn_lines(random, talk))
        text = text.removesuffix("\n") if random.random() < 0.3 else text
        return cls(talk, files, drawn_pieces(random, text.encode()))

    @classmethod
    def full(cls, random: Random) -> "Script":
        """A script in which as many restrictions are in force as may be."""
        script = cls.drawn(random)
        puts = "".join(f"put many{number} 0 1 1\n" for number in range(10001)).encode()
        return cls(script.talk, script.files, drawn_pieces(random, puts + b"take many7\n" + b"".join(script.pieces)))

    def answer(self, kinds: Counter[str]) -> Answer:
        """The status and the text that the model gives; what comes in it is counted."""
        session = Session(self.talk)
        given = b"".join(self.pieces)
        kinds["a last line without LF"] += not given.endswith(b"\n")
        kinds["a line with CR LF"] += b"\r\n" in given
        replies = []
        for line in lines_of(given)[0]:
            before = session.outcome.stall
            replies.append(session.reply(line))
            kinds[kind_of(line, replies[-1], before, session.outcome.stall)] += 1
        return 0, "".join(replies)


def kind_of(line: str, reply: str, before: int | None, after: int | None) -> str:
    """The kind of a reply, where the train was stalled before and after its line."""
    word = line.split()[0] if line.split() else ""
    if reply.startswith("error"):
        return reply.strip()
    if word == "time":
        return "a time past a stall" if reply == "none\n" else "a time"
    if word in ("envelope", "timetable", "cert"):
        return f"{word} of a {'whole run' if after is None else 'stall'}"
    if before == after:
        return "an edit that leaves how far it gets"
    comes, goes = before is None, after is None
    return "a stall comes" if comes else "a stall goes" if goes else "a stall moves"


def held(script: Script) -> Answer:
    """The status and the output of the program."""
    with tempfile.TemporaryDirectory() as given:
        for name, text in script.files.items():
            (pathlib.Path(given) / name).write_text(text)
        status, output, errors = pipes.ended([PROGRAM, *WORDS], given, script.pieces, SECONDS)
    return status, (output + errors).decode(errors="replace")


def compared(name: str, script: Script, kinds: Counter[str]) -> Result:
    """Whether the program holds a session as the model does."""
    found = difference(WORDS, held(script), script.answer(kinds))
    return name, not found, f"{found}  {script.files} {b''.join(script.pieces)!r}\n"


# The worked cases


def talk_of(files: dict[str, str]) -> Talk:
    """What a session over the files of a case is about, which break no rule."""
    line, train, plan = files.values()
    points = read_points(line)
    names = {place: name for name, place in reversed(points.items())}
    calls = read_plan(plan, points)
    return Talk(read_line(line), read_train(train), calls, points, lambda call: names[call.at])


def is_modelled(case: dict) -> bool:
    """Whether a worked case is one of those of which the model is asked: short lines, and files that are read."""
    files = case.get("files", {})
    said = [files.get(word) for word in case["words"][1:]]
    is_short = isinstance(said[0] if said else None, str) and "500000" not in said[0]
    is_held = case["words"][0] == "session" and len(said) == 3 and None not in said
    return is_held and is_short and not any(map(is_fifo, said)) and case.get("status", 0) in (0, 8)


def worked() -> Iterator[Result]:
    """Asks the model for the worked cases whose whole output is said."""
    for kind, table in tables_of(CASES / "session.toml"):
        for case in read_cases(kind, table):
            if not is_modelled(case) or "output" not in case or "stdin" in case or "stdout" in case:
                continue
            files = {word: content_of(case["files"][word]).decode() for word in case["words"][1:]}
            yield of_model(case, talk_of(files))


def of_model(case: dict, talk: Talk) -> Result:
    """Whether the model answers a worked case as the case says."""
    session = Session(talk)
    lines, is_long = lines_of(content_of(case.get("input", "")))
    replies = "".join(map(session.reply, lines)) + "too long 6\n" * is_long
    passed = (8 if is_long else 0, replies.encode()) == (case.get("status", 0), output_of(case))
    return f"the model: {case['name']}", passed, f"  {replies[-400:]!r}\n"


def results(count: int = COUNT, seed: int = SEED) -> Iterator[Result]:
    """Compares drawn sessions, asks the model for worked ones, and tries how a session goes on."""
    yield from worked()
    random = Random(seed)
    kinds: Counter[str] = Counter()
    for number in range(1, count + 1):
        yield compared(f"session {number}", Script.drawn(random), kinds)
    yield compared("a session that is full", Script.full(random), kinds)
    if count >= COUNT:
        missing = [kind for kind in KINDS if not kinds[kind]]
        yield "all kinds of lines are drawn", not missing, f"  none is {missing}\n"
    yield from conversation.results()


if __name__ == "__main__":
    if older := why_older():
        sys.exit(f"the program isn't current: {older}")
    sys.exit(0 if report(results(*map(int, sys.argv[1:3]))) else 1)
