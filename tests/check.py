"""Checks the certificate of a run by the nine rules of CERTIFICATE.md, from which it is written.

python3 check.py LINE STOCK PLAN CERT [--edits FILE]        (`-(-a // b)` is a / b, rounded up)
"""
import csv
import io
import math
import sys
import tomllib
from array import array
from pathlib import Path

def is_number(word: bytes) -> bool:
    """Whether the word is a number up to 4294967295, as it is written without a zero in front."""
    return word.isdigit() and len(word) <= 10 and word == b"%d" % min(int(word), 4294967295)

def read_certificate(text: bytes) -> tuple[list[int], list[int], str]:
    """The braking list, the envelope, and the verdict or else the refusal of the text."""
    braking_list, envelope, verdict = [], [], ""
    *lines, rest = text.split(b"\n")
    for place, line in enumerate(lines + [rest] if rest else lines, 1):
        match [int(word) if is_number(word) else word for word in line.split(b" ")]:
            case _ if verdict:
                return [], [], f"refused 5 {place} 1"
            case [b"whole"] | [b"stalled", int()]:
                verdict = line.decode()
            case [int(), int()] if len(envelope) < len(braking_list):
                return [], [], f"refused 5 {place} 3"
            case [int(), int() | b"-"] as row:
                braking_list.append(row[0])
                envelope += [number for number in row[1:] if number != b"-"]
            case _:
                return [], [], f"refused 5 {place} 2"
    if rest or not verdict:
        return [], [], f"refused 5 {len(lines) + 1} 4"
    return braking_list, envelope, verdict

def records(text: str) -> list[list[str]]:
    """The records of a line file or of a plan."""
    csv.field_size_limit(sys.maxsize)  # a comment may be long
    rows = csv.reader(io.StringIO(text, newline=""))
    return [row for row in rows if row and not row[0].startswith("#")]

def caps_by_point(length: int, train: dict, line: list, plan: list) -> list[int]:
    """The cap at each point: all limits are painted over each other, the least of them last."""
    places = {row[2]: int(row[1]) for row in line if row[0] == "point"}
    ends = {row[0]: int(row[1]) for row in plan if row[0] in ("enter", "leave")}
    limits = [(train["top"], 0, length)]  # each is km/h, first point, last point
    limits += [(ends.get("enter", 0), 0, 0), (ends.get("leave", 0), length, length)]
    limits += [(0, places[row[1]], places[row[1]]) for row in plan if row[0] == "stop"]
    for _, start, end, speed in (row for row in line if row[0] == "limit"):
        limits.append((int(speed), int(start), min(length, int(end) + train["length"])))
    speeds = array("H", [0]) * (length + 1)
    for speed, first, last in sorted(limits, reverse=True):
        speeds[first : last + 1] = array("H", [speed]) * (last + 1 - first)
    return [10000 * speed**2 for speed in speeds]

def pulls_by_cell(length: int, train: dict, line: list) -> list[int]:
    """The pull in each cell, from the sum of the gradients of the cells under the train."""
    gradients, pulls, total, behind = [0] * length, [], 0, train["length"]
    for _, start, end, gradient in (row for row in line if row[0] == "gradient"):
        gradients[int(start) : int(end)] = [int(gradient)] * (int(end) - int(start))
    for cell in range(length):
        total += gradients[cell] - (gradients[cell - behind] if cell >= behind else 0)
        pulls.append(-(-train["mass"] * total * 158922 // (625 * train["length"])))
    return pulls

def table_by_speed(rows: list[list[int]]) -> list[int]:
    """The value at each whole km/h from 0 to top, by the rows of `effort` or `brake`."""
    table = [rows[0][1]]
    for (x0, y0), (x1, y1) in zip(rows, rows[1:]):
        table += [y0 + (y1 - y0) * (k - x0) // (x1 - x0) for k in range(x0 + 1, x1 + 1)]
    return table

def between(table: list[int], u: int) -> int:
    """The table's value at the squared speed u, in equal steps from km/h to km/h; at most top's."""
    k = math.isqrt(u) // 100
    step = table[min(k + 1, len(table) - 1)] - table[k]
    return table[k] + step * (u - 10000 * k**2) // (10000 * (2 * k + 1))

class StepRule:
    """What a train can gain and lose in a cell, from the squared speed u before it."""

    def __init__(self, train: dict, pulls: list[int]) -> None:
        a, b, c = train["resistance"]
        sums = [1000 * a + b * k + c * k**2 for k in range(train["top"] + 1)]
        efforts = table_by_speed(train["effort"])
        self.push = [259200 * t - -(-1296 * total // 5) for t, total in zip(efforts, sums)]
        self.braking = [2592 * rate // 10 for rate in table_by_speed(train["brake"])]
        self.moved_mass = -(-train["mass"] * (1000 + train["rotating"]) // 1000)
        self.pulls = pulls

    def up(self, cell: int, u: int) -> int:
        """The squared speed behind the cell, with full effort."""
        return u + (between(self.push, u) - self.pulls[cell]) // self.moved_mass

    def low(self, cell: int, u: int) -> int:
        """The least squared speed behind the cell, with the brakes or without."""
        return min(self.up(cell, u), u - between(self.braking, u))

def first_broken(caps: list[int], step: StepRule, c: list[int], e: list[int],
                 verdict: str) -> tuple[int, int]:
    """The first broken rule and its point, or 0 and 0; c is the braking list, e the envelope."""
    end, up, low = len(caps) - 1, step.up, step.low
    if len(c) != end + 1:  # then e has no more numbers than that, as each stands behind one of c
        return 1, 0
    for i, cap in enumerate(caps):
        rule = (
            2 if c[i] > cap
            else 3 if c[i] < cap and (i == end or low(i, c[i] + 1) <= c[i + 1])
            else 4 if i < len(e) and e[i] > c[i]
            else 5 if i < len(e) and e[i] < c[i] and (i == 0 or e[i] < up(i - 1, e[i - 1]))
            else 6 if 1 <= i < len(e) and e[i] > up(i - 1, e[i - 1])
            else 7 if i < end and low(i, c[i]) > c[i + 1]
            else 8 if 1 <= i < len(e) and e[i - 1] == e[i] == 0
            else 0
        )
        if rule:
            return rule, i
    if verdict == "whole":
        return (0, 0) if len(e) == end + 1 else (9, end)
    stalled = int(verdict.split()[1])
    if 1 <= stalled <= end and len(e) == stalled:
        ahead = up(stalled - 1, e[stalled - 1])
        if ahead < 0 or (e[stalled - 1] == 0 and min(c[stalled], ahead) == 0):
            return 0, 0
    return 9, stalled

def answer(line_text: str, stock_text: str, plan_text: str, certificate_bytes: bytes,
           edits_text: str = "") -> tuple[int, str]:
    """The exit status, and the line that is printed."""
    braking_list, envelope, verdict = read_certificate(certificate_bytes)
    if verdict.startswith("refused"):
        return 5, verdict
    last = {name: limit for _, name, *limit in map(str.split, edits_text.splitlines())}
    in_force = [["limit", *limit] for limit in last.values() if limit]  # a `take` has no limit
    line, train = records(line_text) + in_force, tomllib.loads(stock_text)
    length = int(line[0][2])
    caps = caps_by_point(length, train, line, records(plan_text))
    step = StepRule(train, pulls_by_cell(length, train, line))
    rule, point = first_broken(caps, step, braking_list, envelope, verdict)
    return (7, f"not valid {rule} {point}") if rule else (0, f"valid {verdict}")

if __name__ == "__main__":
    line, stock, plan, certificate, *edits = map(Path, sys.argv[1:])
    texts = [file.read_text("utf-8-sig", "replace") for file in (line, stock, plan, *edits[1:])]
    status, output = answer(*texts[:3], certificate.read_bytes(), *texts[3:])
    print(output)
    sys.exit(status)
