"""Runs the commands of README.md, docs/*.md and examples/README.md as the documents have them.

`tests/run.py documents` runs these tests alone. A document says by the word behind its fence what a
block of it is:

    ```console    commands with what they print. A line `$ ..` is a command, and lines `> ..` right
                  below it continue it. The lines below are all that it prints, standard error too;
                  a line `...` stands for any number of lines.
    ```sh         a recipe, to be pasted whole. No command of it may fail. The next block, where it
    ```output     is one of this word, holds what the recipe prints; else it prints nothing.

Programs that a machine may lack stand behind the word, as in `sh gnuplot`: without them the block is
skipped. Where a command `$ cat NAME` names a file that isn't there, the lines below it are laid as this
file. An exit status is compared only where a document shows it, by `$ echo $?`.

The blocks of a document run one after the other in one fresh folder, which holds `rtime` and copies of
`examples/` and `tests/check.py` at the start: commands are written as from the top of the repository. Each
block has a shell of its own, which is ended after 60 seconds.

Other blocks, indented ones too, aren't run. In them no line begins with `$ ` or `./rtime`, so that no
command is left out. No block pipes what rtime prints into another program, which would hide how it
ended: it goes to a file, and the exit status is tested.
"""

import os
import pathlib
import re
import shutil
import signal
import subprocess
import tempfile
from dataclasses import dataclass, field

import compare

SECONDS = 60
RUN = {"console", "sh"}
MARK = "\x1e"  # stands between the outputs of two commands; no text has it
ANY = "..."  # stands for any number of lines
SHOWS = re.compile(r"cat ([\w.-]+)")
PIPED = re.compile(r"\brtime\s(?:(?!&&)[^|;\n])*\|(?!\|)")


@dataclass
class Block:
    """A block of a document: the word behind its fence, the programs it needs, and its lines."""

    line: int  # of its fence, or its first line where it is indented
    word: str
    needs: list[str] = field(default_factory=list)
    lines: list[str] = field(default_factory=list)


def blocks_of(text):
    """The blocks of a document, fenced and indented."""
    block = None
    for number, line in enumerate(text.splitlines(), 1):
        if block and block.word != "indented":
            if line.startswith("```"):
                yield block
                block = None
            else:
                block.lines.append(line)
        elif line.startswith("```"):
            if block:
                yield block
            word, *needs = line.removeprefix("```").split() or [""]
            block = Block(number, word, needs)
        elif line.startswith("    "):
            block = block or Block(number, "indented")
            block.lines.append(line.removeprefix("    "))
        elif block and line.strip():
            yield block
            block = None
    if block:
        yield block


def commands_of(lines):
    """The commands of a console block, each with the lines that it is to print."""
    commands = []
    for line in lines:
        if line.startswith("$ "):
            commands.append((line[2:], []))
        elif line.startswith("> ") and commands and not commands[-1][1]:
            commands[-1] = (f"{commands[-1][0]}\n{line[2:]}", [])
        elif commands:
            commands[-1][1].append(line)
        else:
            raise ValueError(f"no command stands before {line!r}")
    return commands


def printed(script, folder, seconds):
    """The status and the output of a script, standard error too; it is ended in time."""
    pipes = {"stdin": subprocess.DEVNULL, "stdout": subprocess.PIPE, "stderr": subprocess.STDOUT}
    process = subprocess.Popen(["bash", "-c", script], cwd=folder, start_new_session=True, **pipes)
    try:
        output, _ = process.communicate(timeout=seconds)
    except subprocess.TimeoutExpired:
        os.killpg(process.pid, signal.SIGKILL)
        return f"ended after {seconds} s", process.communicate()[0].decode(errors="replace")
    return process.returncode, output.decode(errors="replace")


def is_like(lines, wanted):
    """Whether lines are those wanted, where `...` stands for any number of them."""
    parts = [[]]
    for line in wanted:
        parts[-1].append(line) if line != ANY else parts.append([])
    first, *others = parts
    if not others:
        return lines == first
    if lines[: len(first)] != first:
        return False
    lines, last = lines[len(first) :], others.pop()
    for part in others:
        starts = range(len(lines) - len(part) + 1)
        start = next((it for it in starts if lines[it : it + len(part)] == part), None)
        if start is None:
            return False
        lines = lines[start + len(part) :]
    return lines[max(len(lines) - len(last), 0) :] == last


def difference(command, lines, wanted):
    """How what a command prints differs; empty where it doesn't."""
    if is_like(lines, wanted):
        return ""
    shown = "".join(f"    {line}\n" for line in lines[:20])
    return f"  {command}\n  printed {len(lines)} lines, wanted {wanted[:20]}:\n{shown}"


def with_file(command, wanted, place):
    """A command; where it shows a file, one that lays that file first if it isn't there."""
    shows = SHOWS.fullmatch(command)
    if not shows or ANY in wanted:
        return command
    place.write_text("".join(f"{line}\n" for line in wanted))
    return f"[ -e {shows[1]} ] || cp {place} {shows[1]}; {command}"


def outputs_of(commands, folder, seconds):
    """The outputs of commands that one shell runs; fewer where it ends before the last."""
    with tempfile.TemporaryDirectory() as given:
        place = pathlib.Path(given)
        lines = [with_file(*it, place / str(number)) for number, it in enumerate(commands)]
        # `$?` is the status of the command before, whatever is printed between them.
        parts = [f"(exit $status)\n{line}\nstatus=$?; printf '{MARK}'\n" for line in lines]
        _, output = printed("status=0\n" + "".join(parts), folder, seconds)
    return output.split(MARK)


def console_difference(block, folder, seconds):
    """How the outputs of the commands of a console block differ from what it shows."""
    commands = commands_of(block.lines)
    *outputs, rest = outputs_of(commands, folder, seconds)
    if rest or len(outputs) != len(commands):
        return f"  {len(outputs)} of {len(commands)} commands came to their end\n  {rest[-400:]}\n"
    return "".join(
        difference(command, output.splitlines(), wanted)
        for (command, wanted), output in zip(commands, outputs)
    )


def recipe_difference(block, wanted, folder, seconds):
    """How the status or the output of a recipe differ from what the document shows."""
    status, output = printed("\n".join(["set -e", *block.lines]), folder, seconds)
    text = difference("the recipe", output.splitlines(), wanted)
    return text + (f"  status {status}, wanted 0\n" if status != 0 else "")


def commands_left_out(block):
    """What a block that isn't run has of commands."""
    lines = [line for line in block.lines if line.lstrip().startswith(("$ ", "./rtime"))]
    return f"  this block isn't run, and has the line {lines[0]!r}\n" if lines else ""


def block_difference(block, following, *given):
    """How what a block that is run prints differs from what the document shows."""
    if found := PIPED.search(re.sub(r"\\\n", "", "\n".join(block.lines))):
        return f"  it pipes what rtime prints, in {found[0]!r}\n"
    if block.word == "sh":
        is_shown = following is not None and following.word == "output"
        return recipe_difference(block, following.lines if is_shown else [], *given)
    try:
        return console_difference(block, *given)
    except ValueError as error:
        return f"  {error}\n"


def results_of(name, text, folder, seconds=SECONDS):
    """Of each block of a document its name, whether it passed (none: skipped), and a detail."""
    blocks = list(blocks_of(text))
    for before, block, following in zip([None, *blocks], blocks, [*blocks[1:], None]):
        place = f"{name}, line {block.line}"
        missing = [need for need in block.needs if not shutil.which(need)]
        if block.word in RUN and missing:
            yield place, None, f"{', '.join(missing)} isn't there"
        elif block.word in RUN:
            found = block_difference(block, following, folder, seconds)
            yield place, not found, found
        elif block.word == "output" and (before is None or before.word != "sh"):
            yield place, False, "  no recipe stands before this output\n"
        elif found := commands_left_out(block):
            yield place, False, found


def documents():
    """The documents whose commands are run."""
    top = compare.TOP
    return [top / "README.md", *sorted((top / "docs").glob("*.md")), top / "examples" / "README.md"]


def results():
    """The results of all documents."""
    for path in documents():
        with tempfile.TemporaryDirectory() as given:
            folder = pathlib.Path(given)
            (folder / "rtime").symlink_to(compare.TOP / "rtime")
            shutil.copytree(compare.TOP / "examples", folder / "examples")
            (folder / "tests").mkdir()
            shutil.copy(compare.TOP / "tests" / "check.py", folder / "tests")
            yield from results_of(str(path.relative_to(compare.TOP)), path.read_text(), folder)
