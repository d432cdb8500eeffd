#!/usr/bin/env python3
"""What slow orders cost at each stop, as they come into force one after the other:

    python3 examples/orders.py [LINE STOCK PLAN ORDERS]

ORDERS is a file of lines `put ID FROM TO KMH`. The costs are in hours, minutes and seconds of the fastest run, each
by itself on top of the orders above it. Without words it takes the local train of examples/lauter.
"""

import csv
import pathlib
import subprocess
import sys

TOP = pathlib.Path(__file__).resolve().parent.parent
LAUTER = TOP / "examples" / "lauter"
FILES = [LAUTER / name for name in ("line.csv", "railcar.toml", "local.csv", "works.txt")]
REPLIES = {"ok", "time", "none", "error"}  # how the replies of one line begin


class Session:
    """A session of rtime over a line, a train and a plan."""

    def __init__(self, files):
        pipes = {"stdin": subprocess.PIPE, "stdout": subprocess.PIPE, "text": True}
        self.process = subprocess.Popen([TOP / "rtime", "session", *files], **pipes)

    def ask(self, line):
        """The words of the reply to a line, which is one line itself; a session that has ended ends this program."""
        reply = ""
        try:
            print(line, file=self.process.stdin, flush=True)  # without the flush both would wait
            reply = self.process.stdout.readline()
        except BrokenPipeError:
            pass  # it has ended, perhaps with a text
        words = (reply or self.process.stdout.readline()).split() or ["nothing"]
        if words[0] not in REPLIES:
            sys.exit(f"rtime ended with exit status {self.process.wait()}: {' '.join(words)}")
        return words

    def arrivals(self, stops):
        """The latest arrival at each stop in ns; None where the train doesn't get there."""
        replies = [self.ask(f"time {stop}") for stop in stops]
        return [int(words[2]) if words[0] == "time" else None for words in replies]


def shown(arrival, before):
    """By how much a train arrives later than before."""
    if arrival is None or before is None:
        return "-"
    seconds = round((arrival - before) / 1e9)
    return f"{seconds // 3600}:{seconds // 60 % 60:02}:{seconds % 60:02}"


def main(line, stock, plan, orders):
    with open(plan, encoding="utf-8-sig", newline="") as file:
        stops = [record[1] for record in csv.reader(file) if record and record[0] == "stop"]
    session = Session([line, stock, plan])
    before = first = session.arrivals(stops)
    print(f"{'order':20}", *(f"{stop:>11}" for stop in stops))
    in_force = []
    for order in pathlib.Path(orders).read_text().splitlines():
        name = (order.split() + ["", ""])[1]
        result, *details = session.ask(order)
        if result == "error":
            print(f"{name:20} refused: code {details[0]}")
            continue
        in_force.append(name)
        after = session.arrivals(stops)
        stalled = [f" stalled at {details[1]}"] if details[0] == "stalled" else []
        print(f"{name:20}", *(f"{shown(*each):>11}" for each in zip(after, before)), *stalled)
        before = after
    print(f"{'all together':20}", *(f"{shown(*each):>11}" for each in zip(before, first)))
    for name in in_force:
        session.ask(f"take {name}")
    print("without them it is as before:", "yes" if session.arrivals(stops) == first else "no")
    session.process.stdin.close()  # the end of the input ends the session
    return session.process.wait()


if __name__ == "__main__":
    sys.exit(main(*(sys.argv[1:] or FILES)))
