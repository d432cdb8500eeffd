#!/usr/bin/env python3
"""Makes up a case from a number: a line, a train, a plan, and the lines of a session over them.

    python3 examples/make_case.py N FOLDER

N is a number from 1 to 1000000. The files line.csv, stock.toml, plan.csv and commands.txt are written into FOLDER,
which is made where it isn't there. They are those over which `rtime gen N` holds a session, and the same on every
machine.

What differs from case to case is drawn by a linear congruential generator, whose state x begins as N. A draw below M
first sets x to (6364136223846793005·x + 1442695040888963407) mod 2^64, and is then floor(x / 2^33) mod M. The draws are
made in the order in which their numbers stand in the files:

- The line has 120 km. Each kilometre has a gradient, drawn below 201, less 100; then each four kilometres have a limit,
  drawn below 141, and 60 more. There are five points, one each 20 km.
- The train and the plan are always the same. Nothing is drawn for them.
- Of the 2,000 commands, with numbers J from 0 on, each twentieth is `time P3`. Each other one takes out of force what
  was put first, where 40 restrictions are in force; else it is `put gJ FROM TO KMH`, with FROM drawn below 119000, TO
  drawn below 900, and 100 more than FROM, and KMH drawn below 90, and 30 more.
"""

import pathlib
import re
import sys
from collections import deque

STOCK = """\
mass = 400000
rotating = 60
length = 400
top = 200
effort = [[0, 300000], [67, 300000], [70, 288000], [80, 252000], [90, 224000], [100, 201600], [120, 168000], \
[140, 144000], [160, 126000], [180, 112000], [200, 100800]]
resistance = [4000, 30000, 600]
brake = [[0, 500], [200, 500]]
"""
PLAN = """\
depart,0
stop,P1,60
stop,P2,60
stop,P3,60
stop,P4,60
stop,P5,60
allow,0,120000,percent,50
"""
GREATEST = 1000000  # number of a case
COMMANDS = 2000
MOST = 40  # restrictions in force


class Draws:
    """The numbers of a case, one after the other."""

    def __init__(self, number):
        self.state = number

    def below(self, bound):
        """The next number below a bound."""
        self.state = (6364136223846793005 * self.state + 1442695040888963407) % 2**64
        return (self.state >> 33) % bound


def line_records(draws):
    """The records of the line file."""
    yield "line,Gen,120000"
    for start in range(0, 120000, 1000):
        yield f"gradient,{start},{start + 1000},{draws.below(201) - 100}"
    for start in range(0, 120000, 4000):
        yield f"limit,{start},{start + 4000},{60 + draws.below(141)}"
    for number in range(1, 6):
        yield f"point,{20000 * number},P{number}"


def commands(draws):
    """The lines of the session."""
    in_force = deque()
    for number in range(COMMANDS):
        if number % 20 == 19:
            yield "time P3"
        elif len(in_force) == MOST:
            yield f"take {in_force.popleft()}"
        else:
            in_force.append(f"g{number}")
            start = draws.below(119000)
            end = start + 100 + draws.below(900)
            yield f"put g{number} {start} {end} {30 + draws.below(90)}"


def text_of(lines):
    """The text of lines."""
    return "".join(f"{line}\n" for line in lines)


def make_case(number):
    """The texts of the files of a case, by their names."""
    draws = Draws(number)
    return {
        "line.csv": text_of(line_records(draws)),
        "stock.toml": STOCK,
        "plan.csv": PLAN,
        "commands.txt": text_of(commands(draws)),
    }


def main(words):
    if len(words) != 2 or not re.fullmatch("[1-9][0-9]{0,6}", words[0]) or int(words[0]) > GREATEST:
        sys.exit(f"make_case.py takes a number from 1 to {GREATEST}, and a folder")
    folder = pathlib.Path(words[1])
    folder.mkdir(parents=True, exist_ok=True)
    for name, text in make_case(int(words[0])).items():
        (folder / name).write_bytes(text.encode())


if __name__ == "__main__":
    main(sys.argv[1:])
