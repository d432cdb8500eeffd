#!/usr/bin/env python3
"""Tries wrong bodies of functions, which the proofs must refuse: tests/wrong.py [CRATE ..]

It is run on demand, and is no part of the merge gate. Each file of tests/wrong/ is TOML, is named
as the crate whose bodies it makes wrong, and has tables `[[wrong]]` with

    name    a name for the wrong body, of letters, digits and _
    why     what the wrong body would do to a user
    file    the file of the crate that it stands in, as "src/lib.rt"
    old     a text of one line that stands in that file once, or a list of such texts
    new     the text that takes its place, or a list with one for each, put in one after the other

A row with other keys is refused. Without a crate's name the files of all are tried, on a copy of
the crates in which the rows are the must-fail edits of their crate, over the proofs that `rt check`
kept. A row is `refused` by a contract, as it has to be; `NOT REFUSED` where the crate is still
proved; and `BAD` where its text can't be put in or read, or where no contract refused it but a limit
of the prover, or a proof that names what the text took away.
"""

import pathlib
import shutil
import subprocess
import sys
import tempfile
import tomllib

TOP = pathlib.Path(__file__).resolve().parent.parent
KEYS = {"name", "why", "file", "old", "new"}
REFUSED = "refused, as it must be"


def rows_of(crate):
    """The rows of the file of a crate, where each has the known keys."""
    path = TOP / "tests" / "wrong" / f"{crate}.toml"
    if not path.is_file():
        sys.exit(f"{crate} has no file of wrong bodies")
    rows = tomllib.loads(path.read_text())["wrong"]
    for row in rows:
        if row.keys() != KEYS:
            sys.exit(f"{crate}: {row.get('name', 'a row')} has the keys {sorted(row)}")
    return rows


def listed(text):
    """A text or a list of texts as a list."""
    return [text] if isinstance(text, str) else text


def edit_of(row):
    """The must-fail edit of a row."""
    pairs = zip(listed(row["old"]), listed(row["new"]), strict=True)
    return f"file: {row['file']}\n" + "".join(f"old: {old}\nnew: {new}\n" for old, new in pairs)


def copy_crates(folder):
    """Copies the crates, without their edits and what checks made, into a folder."""
    left_out = shutil.ignore_patterns("out", "must-fail")
    shutil.copytree(TOP / "crates", folder / "crates", ignore=left_out)
    for name in ("crates.txt", "HANDLES"):
        shutil.copy(TOP / name, folder)


def told(crate, rows, folder):
    """What `rt must-fail` says of each row of a crate, by its name."""
    edits = folder / "crates" / crate / "must-fail"
    edits.mkdir()
    for row in rows:
        (edits / f"{row['name']}.edit").write_text(edit_of(row))
    pipes = {"stdout": subprocess.PIPE, "stderr": subprocess.STDOUT}
    ran = subprocess.run(["rt", "must-fail", crate], cwd=folder, text=True, **pipes)
    lines = ran.stdout.splitlines()
    for row in rows:
        begin = f"rt: must-fail {crate}/{row['name']}.edit: "
        said = [line.removeprefix(begin) for line in lines if line.startswith(begin)]
        yield row["name"], said[0] if said else f"nothing is told of it: {lines[-1:]}"


def verdict(text):
    """The verdict on a row by what is said of it."""
    if text.startswith(REFUSED) and not text.startswith(f"{REFUSED} (only "):
        return "refused"
    if text.startswith("NOT REFUSED"):
        return "NOT REFUSED"
    return f"BAD: {text.removeprefix('BAD EDIT: ')}"


def main(crates):
    files = sorted(path.stem for path in (TOP / "tests" / "wrong").glob("*.toml"))
    rows = {crate: rows_of(crate) for crate in crates or files}
    passed = failed = 0
    with tempfile.TemporaryDirectory() as folder:
        copy_crates(pathlib.Path(folder))
        for crate in rows:
            for name, text in told(crate, rows[crate], pathlib.Path(folder)):
                found = verdict(text)
                print(f"{crate} {name}: {found}", flush=True)
                passed += found == "refused"
                failed += found != "refused"
    print(f"{passed} passed, {failed} failed")
    return 1 if failed else 0


if __name__ == "__main__":
    sys.exit(main(sys.argv[1:]))
