#!/usr/bin/env python3
"""Tries an envelope that is kept right while restrictions are put in force and taken out: tests/kept.py

The program of tests/kept/ is run as it is written, without proofs, over the crates. It makes edits one after
the other, over lines, trains and plans that are drawn, the same ones at each run, and compares after each what
is kept with what is made anew. What it prints for an edit is compared with what the model of model.py says: the
code of each one that is refused, and how far the train gets after some of those that aren't. It makes edits all
along the longest line too, whose arrivals are known: to make the line anew each time would take hours.
"""

import sys
from collections.abc import Iterator
from dataclasses import dataclass
from random import Random

sys.dont_write_bytecode = True  # the sources have no folder of compiled ones beside them

import programs
from compare import (
    Journey,
    Result,
    drawn_fault,
    drawn_line,
    drawn_plan,
    drawn_put,
    lawful_train,
    report,
)
from model import Plan, Zone, code_of, words_of

USES = "allowances incr_envelope line_tables plan_tables restrictions run_io stock_tables"
USES += " time_brackets unit_rules"
CASES = 12
EDITS = 200
ASKED = 10  # the model is asked how far the train gets after each tenth edit
SEED = 7

# the arrivals at the end of 500 km, before the edits, under each restriction, and after the last is taken
FREE = "4086111009367 4086111202049"
ARRIVALS = [FREE, *["4086112982582 4086113175575"] * 2000, FREE]


def put_or_take(random: Random, journey: Journey, held: dict[str, Zone]) -> str:
    """A restriction that is put in force or taken out, of few names, so that some are refused."""
    name = f"r{random.randrange(12)}"
    if held and random.random() < 0.5:
        return f"take {random.choice([name, *held])}"
    return drawn_put(random, name, journey.line.length, journey.train.top)


@dataclass
class Script:
    """A journey, and edits that are made one after the other."""

    journey: Journey
    edits: list[str]
    replies: list[str | None]  # what is wanted of each edit; None where only that it is accepted
    kinds: set[str]

    @classmethod
    def drawn(cls, random: Random) -> "Script":
        """A script over a drawn line, train and plan."""
        train = lawful_train(random)
        line = drawn_line(random, train)
        plan = drawn_plan(random, line, train)
        script = cls(Journey(line, train, 0, plan), [], [], set())
        held: dict[str, Zone] = {}
        stall = script.journey.planned.stall
        for number in range(1, EDITS + 1):
            edit = put_or_take(random, script.journey, held)
            if random.random() < 0.05:
                edit = drawn_fault(random, line.length)[0]
            code = script.make(edit, held)
            if code is None and number % ASKED == 0:
                stall = script.ask(held, stall)
        return script

    def make(self, edit: str, held: dict[str, Zone]) -> int | None:
        """Makes an edit; the answer is its code, where it has one."""
        code = code_of(edit, self.journey.line.length, held)
        self.edits.append(edit)
        self.replies.append(code and f"error {code}")
        if code:
            self.kinds.add(f"code {code}")
            return code
        kind, name, *zone = words_of(edit)
        if kind == "put":
            start, end, kmh = map(int, zone)
            held[name] = start, end, kmh
        else:
            del held[name]
        return None

    def ask(self, held: dict[str, Zone], before: int | None) -> int | None:
        """Asks the model how far the train gets, which the last edit has to answer."""
        journey = self.journey
        line = journey.line.under(tuple(held.values()))
        stall = Journey(line, journey.train, 0, journey.plan).planned.stall
        self.replies[-1] = "ok whole" if stall is None else f"ok stalled {stall}"
        if before != stall:
            comes, goes = before is None, stall is None
            self.kinds.add("a stall comes" if comes else "a stall goes" if goes else "a stall moves")
        return stall

    def files(self, number: int) -> dict[str, str]:
        """The files of the script, by their names."""
        said = self.journey.texts()
        kinds = {"line": "line.csv", "train": "train.toml", "plan": "plan.csv"}
        texts = {kind: said[name] for kind, name in kinds.items()} | {"edits": "\n".join(self.edits)}
        return {f"{number}.{kind}": text for kind, text in texts.items()}

    def first_wrong(self, lines: list[str]) -> str:
        """The first edit that isn't answered as it is wanted; empty where there is none."""
        for number, (edit, wanted) in enumerate(zip(self.edits, self.replies)):
            line = lines[number] if number < len(lines) else "nothing"
            if not (line.startswith("ok") if wanted is None else line == wanted):
                return f"  edit {number}, {edit!r}: {line}, wanted {wanted}; {self.journey}\n"
        return ""


KINDS = {f"code {code}" for code in (1, 2, 3, 4, 5)}
KINDS |= {"a stall comes", "a stall moves", "a stall goes"}


def results() -> Iterator[Result]:
    """Compares what is printed over drawn scripts, and of the longest line, with what is wanted."""
    random = Random(SEED)
    scripts = [Script.drawn(random) for _ in range(CASES)]
    files = {name: text for number, script in enumerate(scripts) for name, text in script.files(number).items()}
    text, said = programs.printed("kept", USES, [str(CASES)], files)
    lines = text.splitlines()
    yield "what is kept is as made anew after each edit", bool(lines), f"  {said}\n"
    for number, script in enumerate(scripts):
        wrong = script.first_wrong(lines[number * EDITS : (number + 1) * EDITS])
        yield f"the edits of case {number}", not wrong, wrong
    missing = KINDS - set().union(*(script.kinds for script in scripts))
    yield "all kinds of edits are drawn", not missing, f"  none is {sorted(missing)}\n"
    arrivals = lines[CASES * EDITS :][: len(ARRIVALS)]
    yield "4,000 edits along 500 km", arrivals == ARRIVALS, f"  {arrivals[:3]}\n"


if __name__ == "__main__":
    sys.exit(0 if report(results()) else 1)
