#!/usr/bin/env python3
"""Tries the checker on certificates in which one thing was changed: tests/certificates.py

Over lines, trains and plans that are drawn, the same ones at each run, some under edits, the program prints the
certificate, and one number, row or verdict of it is changed at random. Then `check` of the program and check.py,
which was written from docs/CERTIFICATE.md alone, have to answer alike: that the certificate is valid, and that no
changed one is. And the crate of the checker may stand on none of those that make what it checks.
"""

import pathlib
import sys
import tempfile
from collections import Counter
from collections.abc import Iterator
from random import Random

sys.dont_write_bytecode = True  # the sources have no folder of compiled ones beside them

import check
from compare import (
    TOP,
    Answer,
    Journey,
    Refusal,
    Result,
    drawn_edits,
    drawn_line,
    drawn_plan,
    lawful_train,
    program_answer,
    report,
    why_older,
)

CHECKER = "cert_check"
WALKS = {"brake_caps", "effort_run", "incr_envelope"}  # the crates that make what is checked

CASES = 200
CHANGES = 10
SEED = 11
LARGEST = 4294967295

KINDS = [f"not valid {rule}" for rule in range(1, 10)]
KINDS += [f"refused 5, rule {rule}" for rule in (1, 2, 3, 4)]
KINDS += ["a certificate of a stall", "a certificate of a whole run", "a certificate under edits"]


def other_number(random: Random, number: str) -> str:
    """Another number, near it or far from it, or what is none."""
    near = int(number) if number.isdigit() else 0
    others = [near - 1, near + 1, 0, near + random.randint(2, 99999), random.randint(0, LARGEST), LARGEST]
    numbers = [str(other) for other in others if other >= 0]
    rare = ["-", str(LARGEST + 1), f"0{number}", "", "whole"]
    return random.choice(random.choice([numbers, numbers, numbers, rare]))


def changed_row(random: Random, row: str) -> str:
    """A row of which one number is changed."""
    numbers = row.split(" ")
    place = random.randrange(2)
    numbers[place] = other_number(random, numbers[place])
    return " ".join(numbers)


def changed_verdict(random: Random, verdict: str, points: int) -> str:
    """Another verdict."""
    stall = int(verdict.split(" ")[1]) if " " in verdict else points
    stalls = [stall - 1, stall + 1, 0, random.randint(0, points), LARGEST]
    return random.choice(["whole", *(f"stalled {k}" for k in stalls if k >= 0), "whole\r", "stalled"])


def changed(random: Random, text: str) -> str:
    """The text of a certificate with one number, row or verdict changed, taken out or put in."""
    *rows, verdict, _ = text.split("\n")
    place = random.randrange(len(rows))
    match random.randrange(8):
        case 0:
            verdict = changed_verdict(random, verdict, len(rows))
        case 1:
            del rows[place]
        case 2:
            rows.insert(place, random.choice([rows[place], "0 0", "0 -", verdict]))
        case 3:
            return text[: random.randrange(len(text))]
        case _:
            rows[place] = changed_row(random, rows[place])
    return "\n".join([*rows, verdict, ""])


def kind_of(answer: Answer) -> str:
    """The kind of an answer, by its rule."""
    words = answer[1].split()
    if words[:1] == ["refused"]:
        return f"refused 5, rule {words[3]}"
    return " ".join(words[:3]) if words[:1] == ["not"] else "valid"


class Case:
    """A journey whose files lie in a folder, and its certificate."""

    def __init__(self, journey: Journey, folder: pathlib.Path) -> None:
        self.folder = folder
        self.texts = journey.texts()
        for name, text in self.texts.items():
            (folder / name).write_bytes(text.encode())
        self.edits = ["--edits", "edits.txt"] if journey.edits is not None else []
        plan = ["plan", "line.csv", "train.toml", "plan.csv", "--print", "cert", *self.edits]
        self.status, self.certificate = program_answer(plan, folder)

    def answers(self, certificate: str) -> tuple[Answer, Answer]:
        """What the program and check.py answer of a text as the certificate."""
        (self.folder / "cert.txt").write_bytes(certificate.encode())
        words = ["check", "line.csv", "train.toml", "plan.csv", "cert.txt", *self.edits]
        names = ("line.csv", "train.toml", "plan.csv")
        edits = self.texts.get("edits.txt", "")
        status, output = check.answer(*(self.texts[name] for name in names), certificate.encode(), edits)
        return program_answer(words, self.folder), (status, f"{output}\n")


def drawn_case(random: Random, folder: pathlib.Path) -> Case:
    """A case over a drawn line, train and plan, and some edits that are accepted."""
    train = lawful_train(random)
    line = drawn_line(random, train)
    journey = Journey(line, train, 0, drawn_plan(random, line, train))
    if random.random() < 0.3:
        edited = Journey(line, train, 0, journey.plan, drawn_edits(random, line, train))
        journey = journey if isinstance(edited.held, Refusal) else edited
    return Case(journey, folder)


def tried(case: Case, name: str, text: str, kinds: Counter[str]) -> Result:
    """Whether both checkers answer alike of a text, and that only the certificate is valid."""
    answer, other = case.answers(text)
    kinds[kind_of(answer)] += 1
    is_right = (answer[0] == 0) == (text == case.certificate)
    return name, answer == other and is_right, f"  {answer}, check.py {other}; {case.texts} {text!r}\n"


def crates_below(crate: str, uses: dict[str, list[str]]) -> set[str]:
    """The crates on which a crate stands, through others too."""
    below = uses.get(crate, [])
    return set(below).union(*(crates_below(each, uses) for each in below))


def independence() -> Result:
    """Whether the checker stands on no crate that makes what it checks, by the list of crates."""
    rows = (line.split(":") for line in (TOP / "crates.txt").read_text().splitlines())
    uses = {name: below.split() for name, below in rows}
    below = crates_below(CHECKER, uses)
    passed = CHECKER in uses and WALKS <= uses.keys() and not below & WALKS
    return "the checker stands on no walk", passed, f"  {CHECKER} stands on {sorted(below)}\n"


def results() -> Iterator[Result]:
    """Tries the certificates of drawn cases, and texts that differ from them in one thing."""
    yield independence()
    random = Random(SEED)
    kinds: Counter[str] = Counter()
    for number in range(CASES):
        with tempfile.TemporaryDirectory() as given:
            case = drawn_case(random, pathlib.Path(given))
            kinds["a certificate of a stall" if case.status else "a certificate of a whole run"] += 1
            kinds["a certificate under edits"] += bool(case.edits)
            yield tried(case, f"certificate {number}", case.certificate, kinds)
            for turn in range(CHANGES):
                text = changed(random, case.certificate)
                while text == case.certificate:
                    text = changed(random, case.certificate)
                yield tried(case, f"certificate {number}, change {turn}", text, kinds)
    missing = [kind for kind in KINDS if not kinds[kind]]
    yield "all kinds of claims are drawn", not missing, f"  none is {missing}\n"


if __name__ == "__main__":
    if older := why_older():
        sys.exit(f"the program isn't current: {older}")
    sys.exit(0 if report(results()) else 1)
