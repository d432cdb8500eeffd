#!/usr/bin/env python3
"""Writes the table of a study of one slow order at many places of a line:

    python3 examples/study/places.py FOLDER LINE STOCK PLAN [--every M] [--metres M] [--kmh KMH]

adds to FOLDER/runs.csv a run without edits, and one for each place, whose edits it writes into FOLDER/edits/. PLAN is
`-` for none. Called again for other trains or lines it adds their runs to the same table.
"""

import argparse
import csv
import pathlib
import sys

HEAD = ["line", "stock", "plan", "edits"]


def length_of(line: str) -> int:
    """The length of a line, in m."""
    with open(line, encoding="utf-8-sig", newline="") as file:
        return next(int(record[2]) for record in csv.reader(file) if record and record[0] == "line")


def main() -> int:
    parser = argparse.ArgumentParser(description="Writes the table of a study of one slow order at many places.")
    parser.add_argument("folder", type=pathlib.Path, help="where the table and the edits go")
    parser.add_argument("line")
    parser.add_argument("stock")
    parser.add_argument("plan", help="a plan, or - for none")
    parser.add_argument("--every", type=int, default=2000, help="metres from one place to the next (2000)")
    parser.add_argument("--metres", type=int, default=300, help="how long the order is (300)")
    parser.add_argument("--kmh", type=int, default=30, help="its speed (30)")
    given = parser.parse_args()
    files = [given.line, given.stock, "" if given.plan == "-" else given.plan]
    (given.folder / "edits").mkdir(parents=True, exist_ok=True)
    table = given.folder / "runs.csv"
    is_new = not table.exists()
    with open(table, "a", encoding="utf-8", newline="") as runs:
        rows = csv.writer(runs, lineterminator="\n")
        rows.writerows([HEAD] if is_new else [])
        rows.writerow([*files, ""])
        for start in range(given.every, length_of(given.line) - given.metres, given.every):
            order = f"put m-{start} {start} {start + given.metres} {given.kmh}"
            edits = given.folder / "edits" / f"{start}-{given.metres}-{given.kmh}.txt"
            edits.write_text(f"{order}\n")
            rows.writerow([*files, edits])
    return 0


if __name__ == "__main__":
    sys.exit(main())
