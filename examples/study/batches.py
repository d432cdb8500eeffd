#!/usr/bin/env python3
"""Cuts the table of a study into batches, and joins the results of the batches:

    python3 examples/study/batches.py cut RUNS FOLDER [--size N]
    python3 examples/study/batches.py join RUNS FOLDER

RUNS is a table with the columns line, stock, plan and edits, a row for each run. `cut` writes FOLDER/batches/, and
the list of the batches, FOLDER/batches.txt. For each batch NAME, batch.py makes FOLDER/done/NAME. `join` makes
FOLDER/results.csv of these. A batch is named by its content, so that what doesn't change keeps its name.
"""

import argparse
import csv
import hashlib
import io
import os
import pathlib
import sys
from collections.abc import Iterator, Sequence

sys.dont_write_bytecode = True  # the folder of the study has no folder of compiled files in it

from batch import COLUMNS, RUN, Run, read_runs

SIZE = 500  # runs in a batch, at most


def in_order(runs: Sequence[Run]) -> list[list[tuple[int, Run]]]:
    """The runs with their numbers, those together that share line, stock and plan, in the order of their first."""
    groups: dict[tuple[str, str, str], list[tuple[int, Run]]] = {}
    for number, run in enumerate(runs, 1):
        groups.setdefault(run.shared, []).append((number, run))
    return list(groups.values())


def batches_of(runs: Sequence[Run], size: int) -> Iterator[list[Run]]:
    """The batches, in the order of the runs. One ends where it is full, and behind a group that could fill half of
    it, so that a run that is added moves few of the others to another batch."""
    batch: list[Run] = []
    for group in in_order(runs):
        for place, (_, run) in enumerate(group, 1):
            batch.append(run)
            if len(batch) == size or place == len(group) and 2 * len(group) >= size:
                yield batch
                batch = []
    if batch:
        yield batch


def text_of(batch: Sequence[Run]) -> bytes:
    """The table of a batch."""
    text = io.StringIO(newline="")
    csv.writer(text, lineterminator="\n").writerows([RUN, *batch])
    return text.getvalue().encode()


def write_changed(path: pathlib.Path, text: bytes) -> None:
    """Writes a file, whole or not at all; one that has that content keeps its time."""
    if path.exists() and path.read_bytes() == text:
        return
    unfinished = path.with_name(f"{path.name}.{os.getpid()}")
    unfinished.write_bytes(text)
    os.replace(unfinished, path)


def cut(table: pathlib.Path, folder: pathlib.Path, size: int) -> dict[str, list[Run]]:
    """Writes the batches of a table into a folder; the runs of each, by its file."""
    (folder / "batches").mkdir(parents=True, exist_ok=True)
    batches = {}
    for batch in batches_of(read_runs(table), size):
        text = text_of(batch)
        path = folder / "batches" / f"{hashlib.sha256(text).hexdigest()[:16]}.csv"
        while str(path) in batches:  # the same runs stand in the table twice
            path = path.with_name(f"{path.stem}-again.csv")
        write_changed(path, text)
        batches[str(path)] = batch
    write_changed(folder / "batches.txt", "".join(f"{path}\n" for path in batches).encode())
    return batches


def joined(table: pathlib.Path, folder: pathlib.Path) -> Iterator[str]:
    """The rows of the results, each run by its number in the table."""
    left = [numbered for group in in_order(read_runs(table)) for numbered in group]
    yield ",".join(COLUMNS) + "\n"
    for batch in (folder / "batches.txt").read_text().splitlines():
        runs = read_runs(batch)
        numbered, left = left[: len(runs)], left[len(runs) :]
        done = folder / "done" / pathlib.Path(batch).name
        if [run for _, run in numbered] != runs:
            sys.exit(f"{table} was changed: cut it again, and make its batches")
        if not done.exists():
            sys.exit(f"{done} isn't there: make its batch first")
        with open(done, encoding="utf-8", newline="") as rows:
            for row in rows:
                place, rest = row.split(",", 1)
                yield f"{numbered[int(place) - 1][0]},{rest}"
    if left:
        sys.exit(f"{table} was changed: cut it again, and make its batches")


def join(table: pathlib.Path, folder: pathlib.Path) -> None:
    """Joins the results of the batches."""
    unfinished = folder / f"results.csv.{os.getpid()}"
    try:
        with open(unfinished, "w", encoding="utf-8", newline="") as results:
            results.writelines(joined(table, folder))
        os.replace(unfinished, folder / "results.csv")
    finally:
        unfinished.unlink(missing_ok=True)


def main() -> int:
    parser = argparse.ArgumentParser(description="Cuts the table of a study into batches, and joins their results.")
    parser.add_argument("what", choices=["cut", "join"])
    parser.add_argument("runs", type=pathlib.Path, help="the table of the runs")
    parser.add_argument("folder", type=pathlib.Path, help="the folder of the study")
    parser.add_argument("--size", type=int, default=SIZE, help=f"runs in a batch, at most ({SIZE})")
    given = parser.parse_args()
    if given.what == "join":
        join(given.runs, given.folder)
    else:
        print(f"{len(cut(given.runs, given.folder, given.size))} batches")
    return 0


if __name__ == "__main__":
    sys.exit(main())
