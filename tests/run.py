#!/usr/bin/env python3
"""Runs the tests over the proved program: tests/run.py [--slow] [PART ..]

The parts, all of which are run where none is named, are `cases`, those of tests/cases/; `compare`, the
comparisons of compare.py; `sessions`, sessions that are drawn, and how a session goes on and ends
(sessions.py); `certificates`, changed certificates (certificates.py); `kept`, edits of an envelope that is
kept right (kept.py); `made`, made-up cases (made.py); `studies`, a small study by both of its engines
(studies.py); `runner`, broken cases that the runner has to fail (runner.py); `wrapper`, the calls of
`./rtime` (wrapper.py); `documents`, the commands of the documents (documents.py); and `mistakes`, that the
manual's table of mistakes and the cases of mistakes say the same (mistakes.py). With `--slow`, or where it is
named, `memory` is one too, which refuses memory (memory.py). It ends with a line 'N passed, M failed', which
says how many were skipped too, where some were. A program that is older than its sources fails, and
nothing is run.

The head of case_files.py says how a file of tests/cases/ is written. For each case the program is started
in a new folder that holds the files of the case alone.
"""

import os
import pathlib
import subprocess
import sys
import tempfile
import threading
from collections import Counter

sys.dont_write_bytecode = True  # the sources have no folder of compiled ones beside them

import certificates
import compare
import documents
import kept
import made
import memory
import mistakes
import pipes
import runner
import sessions
import studies
import wrapper
from case_files import (
    CASES,
    TOP,
    Broken,
    content_of,
    is_fifo,
    output_of,
    read_cases,
    shown,
    tables_of,
    wanted_of,
)

SECONDS = 60
OF_POINTS = {"caps", "brakes", "envelope"}


def are_points(lines):
    """Whether lines are those of the points 0, 1, 2 and so on."""
    return all(line.split(" ")[0] == str(point) for point, line in enumerate(lines))


def is_wanted(case, output):
    """Whether an output is one that a case wants."""
    if "begins" not in case and "has" not in case:
        return output == output_of(case)
    text = output.decode(errors="replace")
    lines = text.splitlines()
    left = iter(lines)
    has = text.endswith("\n") and all(line in left for line in case.get("has", []))
    of_points = case["words"][0] not in OF_POINTS or are_points(lines)
    return text.startswith(case.get("begins", "")) and has and of_points


def lay(path, given):
    """Lays a file of a case where the program finds it."""
    if not is_fifo(given):
        path.write_bytes(content_of(given))
        return
    os.mkfifo(path)
    threading.Thread(target=path.write_text, args=(given["fifo"],), daemon=True).start()


def redirected(stdin, stdout):
    """How a shell has the input come from a place and the output go to one."""
    ways = zip("<>", (stdin, stdout))
    return " ".join(f"{way}{'&-' if place == 'closed' else place}" for way, place in ways if place)


def run(case, folder):
    """The status, the output and the standard error of a case."""
    for name, given in case.get("files", {}).items():
        lay(folder / name, given)
    words = [str(TOP / "rtime"), *(content_of(word) for word in case["words"])]
    given, seconds = content_of(case.get("input", "")), case.get("seconds", SECONDS)
    pieces = pipes.pieces_of(given, case.get("piece", max(len(given), 1)))
    places = case.get("stdin"), case.get("stdout")
    if any(places):
        words = ["bash", "-c", f'exec "$@" {redirected(*places)}', "bash", *words]
    taken = subprocess.PIPE if places[1] is None else None
    status, output, errors = pipes.ended(words, folder, pieces, seconds, taken)
    return status, output or b"", errors


def result_of(case):
    """Whether a case passed (none: it was skipped), and how it differs, or why it was skipped."""
    if "skip" in case:
        return None, case["skip"]
    with tempfile.TemporaryDirectory() as folder:
        status, output, errors = run(case, pathlib.Path(folder))
    wanted = case.get("status", 0), case.get("errors", "").encode()
    return (status, errors) == wanted and is_wanted(case, output), (
        f"  status {status}, wanted {wanted[0]}\n"
        f"  output {shown(output)}\n"
        f"  wanted {wanted_of(case)}\n"
        f"  errors {shown(errors)}, wanted {shown(wanted[1])}\n"
    )


def results_in(kind, table):
    """Of each case of a table its name, whether it passed, and a detail."""
    try:
        cases = read_cases(kind, table)
    except Broken as broken:
        yield table.get("name"), False, f"  {broken}\n"
        return
    for case in cases:
        yield case["name"], *result_of(case)


def results_of(path):
    """The results of a file of cases, in which each case has a name of its own."""
    names = Counter()
    try:
        for kind, table in tables_of(path):
            for name, *result in results_in(kind, table):
                names[name] += 1
                yield f"{path.name}: {name}", *result
    except Broken as broken:
        yield path.name, False, f"  {broken}\n"
    for name in (name for name, count in names.items() if count > 1):
        yield f"{path.name}: {name}", False, "  it is the name of more than one case\n"


def case_results():
    """The results of all files of cases."""
    for path in sorted(CASES.iterdir()):
        yield from results_of(path)


PARTS = {
    "cases": case_results,
    "compare": compare.comparisons,
    "sessions": sessions.results,
    "certificates": certificates.results,
    "kept": kept.results,
    "made": made.results,
    "studies": studies.results,
    "runner": runner.results,
    "wrapper": wrapper.results,
    "documents": documents.results,
    "mistakes": mistakes.results,
}
SLOW = {"memory": memory.results}


def results(parts):
    """The results of parts, over a program that is current."""
    if older := compare.why_older():
        yield "the program is built from the sources", False, f"  {older}\n"
        return
    for part in parts:
        yield from (PARTS | SLOW)[part]()


def main(parts):
    every = PARTS | SLOW
    named = [part for part in parts if part != "--slow"]
    if unknown := set(named) - every.keys():
        sys.exit(f"no parts of the tests are {sorted(unknown)}; these are: {', '.join(every)}")
    slow = SLOW if len(named) < len(parts) else {}
    return 0 if compare.report(results([*(named or PARTS), *slow])) else 1


if __name__ == "__main__":
    sys.exit(main(sys.argv[1:]))
