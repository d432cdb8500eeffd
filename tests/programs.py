"""Runs the programs of tests/NAME/main.rs over the crates, as they are written, without proofs."""

import pathlib
import shutil
import subprocess
import tempfile
from collections.abc import Mapping, Sequence

TOP = pathlib.Path(__file__).resolve().parent.parent
SECONDS = 300
NO_FILES: Mapping[str, str] = {}


def crate_of(name: str, uses: str, folder: pathlib.Path) -> pathlib.Path:
    """The crate of the program of tests/NAME/, which uses some crates, among copies of all in a folder."""
    left_out = shutil.ignore_patterns("out", "must-fail", "proofs")
    shutil.copytree(TOP / "crates", folder / "crates", ignore=left_out)
    # the gate takes each `.rt` file for one of a crate that it proves, so this one has another ending
    source = folder / "crates" / name / "src"
    source.mkdir(parents=True)
    shutil.copy(TOP / "tests" / name / "main.rs", source / "main.rt")
    shutil.copy(TOP / "HANDLES", folder)
    crates = (TOP / "crates.txt").read_text()
    (folder / "crates.txt").write_text(f"{crates}{name}: {uses}\n")
    return folder / "crates" / name


def tried(
    crate: pathlib.Path, words: Sequence[str] = (), files: Mapping[str, str] = NO_FILES, refused: int = 0
) -> tuple[str, str]:
    """What a program prints, which is nothing where it fails; and the end of what is said.

    Where a number is given, the growth of that number finds no memory.
    """
    for name, text in files.items():
        (crate / name).write_text(text)
    data = [word for name in files for word in ("--data", f"{name}={crate / name}")]
    data += ["--fail-alloc", str(refused)] * bool(refused)
    command = ["rt", "try", "--steps", "1000", "--seconds", str(SECONDS // 2), *data, "--", *words]
    try:
        ended = subprocess.run(command, cwd=crate, capture_output=True, timeout=SECONDS)
    except subprocess.TimeoutExpired:
        return "", f"ended after {SECONDS} s"
    output, errors = (text.decode(errors="replace") for text in (ended.stdout, ended.stderr))
    is_done = "checked: ended status=0" in (output + errors).splitlines()
    return output if is_done else "", (output + errors)[-400:]


def printed(name: str, uses: str, words: Sequence[str], files: Mapping[str, str] = NO_FILES) -> tuple[str, str]:
    """The same of the program of tests/NAME/, which uses some crates, over files."""
    with tempfile.TemporaryDirectory() as given:
        return tried(crate_of(name, uses, pathlib.Path(given)), words, files)
