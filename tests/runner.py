"""Tries run.py, pipes.py, memory.py and documents.py by what is broken, which they have to fail.

`tests/run.py runner` runs these tests alone. Cases are tried in a small repository, whose program prints
the words that it is given, one a line, and does more where the first is one of those of PROGRAM.
"""

import io
import os
import pathlib
import re
import shutil
import subprocess
import sys
import tempfile
from collections import Counter

import compare
import documents
import memory
import pipes

PROGRAM = """#!/usr/bin/env bash
printf '%s\\n' "$@"
case $1 in
cut) printf end ;;
fails) exit 7 ;;
warns) echo oops >&2 ;;
hangs) sleep 100 ;;
reads) cat 2>/dev/null ;;
esac
"""
GOOD = """
[[case]]
name = "good"
words = ["a"]
output = "a\\n"
"""


def case(text, name="broken", words='["a"]'):
    """The text of a case, of which more lines are given."""
    return f'[[case]]\nname = "{name}"\nwords = {words}\n{text}\n'


def table(text):
    """The text of a table of line files, of which more lines are given."""
    return f'[[table]]\nname = "broken"\nwords = ["line.csv"]\nfile = "line.csv"\n{text}\n'


def spoken(text):
    """The text of a table of inputs, of which more lines are given."""
    return f'[[table]]\nname = "broken"\nwords = ["reads"]\n{text}\n'


def words(text):
    """The text of a table of words, of which more lines are given."""
    return f'[[words]]\nname = "broken"\n{text}\n'


RIGHT = 'output = "a\\n"'
# What a file of cases has, how many of its cases pass and fail, and what is said of it.
CASES = [
    (case(RIGHT), 1, 0, ""),
    (case(""), 0, 1, "it says its output by []"),
    (case("status = 0"), 0, 1, "it says its output by []"),
    (case("has = []"), 0, 1, "it says nothing of its output"),
    (case('begins = ""'), 0, 1, "it says nothing of its output"),
    (case('begins = ""\nhas = ["a"]'), 0, 1, "it says nothing of its output"),
    (case(RIGHT + '\nbegins = "a"'), 0, 1, "it says its output by ['begins', 'output']"),
    (case(RIGHT + "\nstate = 0"), 0, 1, "it says its output by ['output', 'state']"),
    (case(RIGHT + '\nhead = "a\\n"'), 0, 1, "it has a head without spans"),
    (f'[[case]]\nname = "broken"\n{RIGHT}\n', 0, 1, "it has no name or no words"),
    (f'[[case]]\nwords = ["a"]\n{RIGHT}\n', 0, 1, "it has no name or no words"),
    (f'[[cases]]\nname = "broken"\nwords = ["a"]\n{RIGHT}\n', 0, 1, "it has ['cases']"),
    ("", 0, 1, "it has no case"),
    ("case = []", 0, 1, "it has no case"),
    ("[[case]", 0, 1, "Expected"),
    # files
    (case(RIGHT + '\nfiles = { "line.csv" = "" }'), 0, 1, "no word names ['line.csv']"),
    (case(RIGHT + '\nfiles = { "b" = "" }\nbeside = ["b"]'), 1, 0, ""),
    (case(RIGHT + '\nfiles = { "a" = "" }\nbeside = ["a"]'), 0, 1, "['a'] are said so"),
    (case(RIGHT + '\nbeside = ["b"]'), 0, 1, "['b'] are said so"),
    (case(RIGHT + '\nfiles = { "a" = { txt = "" } }'), 0, 1, "a file is said by ['txt']"),
    (case(RIGHT + '\nfiles = { "a" = { path = "none" } }'), 0, 1, "FileNotFoundError"),
    (case(RIGHT + '\nfiles = { "a" = { hex = "f" } }'), 0, 1, "ValueError"),
    # names
    (case(RIGHT) + case(RIGHT), 2, 1, "it is the name of more than one case"),
    (case(RIGHT) + case(RIGHT, "other"), 2, 0, ""),
    # tables
    (table('rows = [["line,A,9", "line.csv", 0]]'), 1, 0, ""),
    (table("rows = []"), 0, 1, "it has no rows"),
    (table(""), 0, 1, "KeyError: 'rows'"),
    (table('rows = [["line,A,9", "line.csv"]]'), 0, 1, "TypeError"),
    (table('rows = [["a", "line.csv", 0], ["a", "line.csv", 0]]'), 2, 1, "more than one case"),
    (table('rows = [["a", "line.csv", 0]]\ninput = ""'), 0, 1, "it has the keys ['input']"),
    (table('rows = [["a", "line.csv", 0]]\nwants = "has"'), 0, 1, "it wants what isn't known"),
    (table('rows = [["a", "", 0]]\nwants = "begins"'), 0, 1, "it says nothing of its output"),
    (table('rows = [["no b", "line.csv", 0]]\nbase = "a = 1"'), 0, 1, "KeyError: 'b'"),
    (table('rows = [["no a", "line.csv", 0]]\nbase = "a = 1"'), 1, 0, ""),
    (table('rows = [["a", "line.csv", 0]]\nfiles = { "b" = "" }'), 0, 1, "no word names ['b']"),
    (words(f'rows = [["a"]]\n{RIGHT}'), 1, 0, ""),
    (words(f"rows = []\n{RIGHT}"), 0, 1, "it has no rows"),
    (words(RIGHT), 0, 1, "KeyError: 'rows'"),
    (words(f'rows = [["a"], ["a"]]\n{RIGHT}'), 2, 1, "it is the name of more than one case"),
    (words(f'rows = [["a"]]\nwords = ["b"]\n{RIGHT}\nrow = 1'), 0, 1, "it says its output by"),
    (words('rows = [["a"], ["a", "b"]]\nbegins = "a"\nfiles = { "b" = "" }'), 2, 0, ""),
    # answers
    (case('output = "b\\n"'), 0, 1, "wanted b'b\\n'"),
    (case('output = "a"'), 0, 1, "wanted b'a'"),
    (case(RIGHT + "\nstatus = 7"), 0, 1, "status 0, wanted 7"),
    (case('output = "fails\\n"\nstatus = 7', words='["fails"]'), 1, 0, ""),
    (case('output = "fails\\n"', words='["fails"]'), 0, 1, "status 7, wanted 0"),
    (case('spans = [[0, 1, "a"]]', words='["0 a", "1 a"]'), 1, 0, ""),
    (case('spans = [[0, 2, "a"]]', words='["0 a", "1 a"]'), 0, 1, "wanted b'0 a"),
    (case('has = ["a", "c"]', words='["a", "b", "c"]'), 1, 0, ""),
    (case('has = ["c", "a"]', words='["a", "b", "c"]'), 0, 1, "wanted '' .. ['c', 'a']"),
    (case('has = ["end"]', words='["cut"]'), 0, 1, "wanted '' .. ['end']"),
    (case('begins = "b"', words='["a", "b", "c"]'), 0, 1, "wanted 'b' .. []"),
    (case('output = "warns\\n"', words='["warns"]'), 0, 1, "errors b'oops\\n', wanted b''"),
    (case('output = "warns\\n"\nerrors = "oops\\n"', words='["warns"]'), 1, 0, ""),
    (case(RIGHT + '\nerrors = "oops\\n"'), 0, 1, "errors b'', wanted b'oops\\n'"),
    (case('stdout = "/dev/null"\noutput = ""', words='["warns"]'), 0, 1, "errors b'oops\\n'"),
    (case('output = "hangs\\n"\nseconds = 1', words='["hangs"]'), 0, 1, "status ended after 1 s"),
    (case('output = ""\nstdout = "/dev/null"\nseconds = 1', words='["hangs"]'), 0, 1, "after 1 s"),
    # inputs
    (case('input = "b\\n"\noutput = "reads\\nb\\n"', words='["reads"]'), 1, 0, ""),
    (case('input = "b\\n"\noutput = "reads\\nc\\n"', words='["reads"]'), 0, 1, "wanted b'reads\\nc\\n'"),
    (case('input = "b"\npiece = 1\noutput = "reads\\nb"', words='["reads"]'), 1, 0, ""),
    (case('input = "bc"\npiece = 1\noutput = "reads\\nb"', words='["reads"]'), 0, 1, "reads\\nbc"),
    (case('input = { text = "%i%n ", count = 2, first = 5 }\nhas = ["56 67 "]', words='["reads"]'), 0, 1, "56 67 "),
    (case('input = { text = "%i%n\\n", count = 2, first = 5 }\nhas = ["56", "67"]', words='["reads"]'), 1, 0, ""),
    (case(RIGHT + '\ninput = { txt = "b" }'), 0, 1, "a file is said by ['txt']"),
    (case(RIGHT + '\ninput = ""\nstdin = "."'), 0, 1, "it has an input and a place of it"),
    (case(RIGHT + "\npiece = 1"), 0, 1, "it has pieces of no input"),
    (case('stdin = "."\noutput = "reads\\n"\nstatus = 1', words='["reads"]'), 1, 0, ""),
    (case('stdin = "closed"\noutput = "reads\\n"\nstatus = 1', words='["reads"]'), 1, 0, ""),
    (case('stdin = "closed"\noutput = "reads\\n"', words='["reads"]'), 0, 1, "status 1, wanted 0"),
    (case('stdin = "/dev/null"\nstdout = "/dev/null"\noutput = ""', words='["reads"]'), 1, 0, ""),
    (case('output = { text = "b\\n", times = 2 }', words='["b", "b"]'), 1, 0, ""),
    (case('output = { text = "b\\n", times = 3 }', words='["b", "b"]'), 0, 1, "wanted b'b\\nb\\nb\\n'"),
    (spoken('rows = [["b / c", "reads / b / c", 0]]'), 1, 0, ""),
    (spoken('rows = [["b / c", "reads / b", 0]]'), 0, 1, "reads\\nb\\nc\\n"),
    (spoken('rows = [[{ parts = ["b"] }, { parts = ["reads\\nb"] }, 0]]'), 1, 0, ""),
    # what is skipped
    (case(RIGHT + '\nskip = "not now"'), 0, 0, "SKIPPED"),
    (case(RIGHT + '\nskip = ""'), 0, 1, "it is skipped without a reason"),
]

FENCE = "```"
TELLS = re.compile(r"^(?=FAILED |SKIPPED )", re.M)  # where what is told of a case begins


def block(word, *lines):
    """The text of a block of a document."""
    return "\n".join([f"{FENCE}{word}", *lines, FENCE, ""])


# A document, how many of its blocks pass, fail and are skipped, and what is said of it.
DOCUMENTS = [
    (block("console", "$ ./rtime a b", "a", "b"), (1, 0, 0), ""),
    (block("console", "$ ./rtime a b", "a"), (0, 1, 0), "printed 2 lines, wanted ['a']"),
    (block("console", "$ ./rtime a b", "a", "b", "c"), (0, 1, 0), "printed 2 lines"),
    (block("console", "$ ./rtime a b", "a", "c"), (0, 1, 0), "printed 2 lines"),
    (block("console", "$ ./rtime warns", "warns"), (0, 1, 0), "    oops\n"),
    (block("console", "$ ./rtime a", "a", "$ ./rtime b", "a"), (0, 1, 0), "wanted ['a']"),
    # lines left out
    (block("console", "$ ./rtime a b c", "...", "c"), (1, 0, 0), ""),
    (block("console", "$ ./rtime a b c", "a", "..."), (1, 0, 0), ""),
    (block("console", "$ ./rtime a b c", "a", "...", "b", "...", "c"), (1, 0, 0), ""),
    (block("console", "$ ./rtime a b c", "a", "...", "b"), (0, 1, 0), "printed 3 lines"),
    (block("console", "$ ./rtime a b c", "b", "...", "c"), (0, 1, 0), "printed 3 lines"),
    (block("console", "$ ./rtime a b c", "...", "c", "...", "b", "..."), (0, 1, 0), "printed 3 lines"),
    (block("console", "$ ./rtime a b", "a", "b", "...", "b"), (0, 1, 0), "printed 2 lines"),
    # statuses, lines that go on, and shells
    (block("console", "$ ./rtime fails", "fails", "$ echo $?", "7"), (1, 0, 0), ""),
    (block("console", "$ ./rtime fails", "fails", "$ echo $?", "0"), (0, 1, 0), "wanted ['0']"),
    (block("console", "$ ./rtime a \\", ">   b", "a", "b"), (1, 0, 0), ""),
    (block("console", "$ exit 3", "$ ./rtime a", "a"), (0, 1, 0), "0 of 2 commands came to their end"),
    (block("console", "$ trap 'echo end' EXIT"), (0, 1, 0), "1 of 1 commands came to their end"),
    (block("console", "$ if true", "a"), (0, 1, 0), "0 of 1 commands came to their end"),
    (block("console", "a", "$ ./rtime a", "a"), (0, 1, 0), "no command stands before 'a'"),
    (block("console", "$ sleep 100"), (0, 1, 0), "commands came to their end"),
    # files
    (block("console", "$ cat new", "a", "$ ./rtime $(<new)", "a"), (1, 0, 0), ""),
    (block("console", "$ cat new", "a", "$ cat new", "b"), (0, 1, 0), "wanted ['b']"),
    (block("console", "$ ./rtime a >new", "$ cat new", "b"), (0, 1, 0), "wanted ['b']"),
    (block("console", "$ cat new", "...", "a"), (0, 1, 0), "No such file"),
    (block("console", "$ cat new", "a") + block("sh", "rm new"), (2, 0, 0), ""),
    (block("console", "$ x=1") + block("sh", "test -z $x"), (2, 0, 0), ""),
    # recipes
    (block("sh", "./rtime a") + block("output", "a"), (1, 0, 0), ""),
    (block("sh", "./rtime a") + block("output", "b"), (0, 1, 0), "wanted ['b']"),
    (block("sh", "./rtime a"), (0, 1, 0), "printed 1 lines, wanted []"),
    (block("sh", "./rtime a") + block("text", "a"), (0, 1, 0), "printed 1 lines, wanted []"),
    (block("sh", "./rtime fails") + block("output", "fails"), (0, 1, 0), "status 7, wanted 0"),
    (block("sh", "false", "true"), (0, 1, 0), "status 1, wanted 0"),
    (block("sh", "false || true"), (1, 0, 0), ""),
    (block("sh", "sleep 100"), (0, 1, 0), "status ended after 1 s"),
    (block("sh", "true") + block("text") + block("output", "a"), (1, 1, 0), "no recipe stands before"),
    (block("output", "a"), (0, 1, 0), "no recipe stands before"),
    (block("sh no-such-program", "no-such-program"), (0, 0, 1), "no-such-program isn't there"),
    (block("console bash no-such-program", "$ a"), (0, 0, 1), "no-such-program isn't there"),
    # pipes
    (block("console", "$ ./rtime a | cat", "a"), (0, 1, 0), "it pipes what rtime prints"),
    (block("sh", "./rtime a 2>&1 | cat"), (0, 1, 0), "it pipes what rtime prints"),
    (block("sh", "./rtime a |", "cat"), (0, 1, 0), "it pipes what rtime prints"),
    (block("sh", "./rtime a \\", "| cat"), (0, 1, 0), "it pipes what rtime prints"),
    (block("sh", "./rtime a >new || true; cat new | cat >/dev/null"), (1, 0, 0), ""),
    (block("sh", "./rtime a >new && cat new | cat >/dev/null"), (1, 0, 0), ""),
    # commands that aren't run
    (block("text", "$ a"), (0, 1, 0), "this block isn't run"),
    (block("", "./rtime a"), (0, 1, 0), "this block isn't run"),
    ("text\n\n    ./rtime a\n\ntext\n", (0, 1, 0), "this block isn't run"),
    (block("text", "rtime") + "\n    a\n", (0, 0, 0), ""),
]


def lay_program(folder):
    """Lays the program, where it is called and where it is built."""
    built = folder / "crates" / "rtime" / "out"
    built.mkdir(parents=True)
    for path in (folder / "rtime", built / "rtime"):
        path.write_text(PROGRAM)
        path.chmod(0o755)


def lay_repository(folder):
    """Lays a small repository with one good case."""
    shutil.copytree(compare.TOP / "tests", folder / "tests", ignore=shutil.ignore_patterns("*.toml"))
    (folder / "crates" / "rtime" / "src").mkdir(parents=True)
    (folder / "crates" / "rtime" / "src" / "main.rt").write_text("")
    (folder / "tests" / "cases" / "good.toml").write_text(GOOD)
    lay_program(folder)


def told(folder):
    """The status and the output of the runner over the cases of a small repository."""
    words = [sys.executable, "tests/run.py", "cases"]
    pipes = {"stdout": subprocess.PIPE, "stderr": subprocess.STDOUT}
    ended = subprocess.run(words, cwd=folder, text=True, timeout=60, **pipes)
    return ended.returncode, ended.stdout


def difference(found, passed, failed, said, skipped=0):
    """How what the runner told differs from so many that passed, failed and were skipped, and what is said."""
    status, text = found
    last = f"{passed} passed, {failed} failed{f', {skipped} skipped' if skipped else ''}\n"
    is_so = text.endswith(last) and said in text and status == (1 if failed or not passed else 0)
    return "" if is_so else f"  status {status}, told {text!r}\n  wanted {said!r} and {last!r}\n"


def case_results():
    """Tries the texts of CASES as files of one repository, each by what is told of its file."""
    with tempfile.TemporaryDirectory() as given:
        folder = pathlib.Path(given)
        lay_repository(folder)
        for number, (text, *_) in enumerate(CASES):
            (folder / "tests" / "cases" / f"{number}.toml").write_text(text)
        found = told(folder)
    passed, failed = (sum(row[column] for row in CASES) for column in (1, 2))
    whole = difference(found, passed + 1, failed, "", skipped=1)
    yield "runner: all files", not whole, whole
    for number, (text, _, failed, said) in enumerate(CASES):
        of_file = [it for it in TELLS.split(found[1]) if re.match(rf"\w+ {number}\.toml\b", it)]
        count = sum(it.startswith("FAILED") for it in of_file)
        is_so = count == failed and said in "".join(of_file)
        wanted = f"  wanted {failed} failures and {said!r}\n"
        yield f"runner: {text}", is_so, f"  told {of_file}\n{wanted}"


class Recorder(io.RawIOBase):
    """A pipe that keeps what each write gives it, and is broken after so many writes."""

    def __init__(self, most):
        super().__init__()
        self.most, self.pieces = most, []

    def writable(self):
        return True

    def write(self, piece):
        if len(self.pieces) == self.most:
            raise BrokenPipeError
        self.pieces.append(bytes(piece))
        return len(piece)


def piece_results():
    """Tries how an input is written in pieces, also into a pipe that breaks."""
    for size, most, wanted in [(1, 9, [b"a", b"b", b"c"]), (2, 9, [b"ab", b"c"]), (1, 2, [b"a", b"b"])]:
        pipe = Recorder(most)
        pipes.feed(io.BufferedWriter(pipe), pipes.pieces_of(b"abc", size))
        name = f"pieces of {size}, of which {most} are taken"
        yield name, pipe.pieces == wanted and pipe.closed, f"  {pipe.pieces}, wanted {wanted}\n"


# What a program does where memory is refused, what may stand written then, and whether memory.py passes it.
REFUSALS = [
    ("right", None, True),
    ("right", ("", "a\n"), True),
    ("right", ("",), False),
    ("wrong", None, False),
    ("silent", None, False),
    ("rash", None, False),
    ("none", None, False),
]


def memory_results():
    """Tries how memory is refused to the program of memory/tries.c."""
    if not shutil.which("cc"):
        yield "programs to which memory is refused", None, "a compiler of C isn't there"
        return
    with tempfile.TemporaryDirectory() as given:
        program = pathlib.Path(given) / "tries"
        source = compare.TOP / "tests" / "memory" / "tries.c"
        subprocess.run(["cc", "-o", program, source], check=True)
        for does, fronts, wanted in REFUSALS:
            case = memory.Case(does, "a\nb\n", fronts=fronts)
            found = [passed for _, passed, _ in memory.refusals(program, [case])]
            yield f"memory is refused: {does}, {fronts}", found == [wanted], f"  {found}\n"


def make_older(folder):
    """Makes a source newer than the program."""
    built = (folder / "crates" / "rtime" / "out" / "rtime").stat().st_mtime
    os.utime(folder / "crates" / "rtime" / "src" / "main.rt", (built + 1, built + 1))


def take_away(folder):
    """Takes the program away."""
    (folder / "crates" / "rtime" / "out" / "rtime").unlink()


def skip_all(folder):
    """Has the one case skipped."""
    (folder / "tests" / "cases" / "good.toml").write_text(case(RIGHT + '\nskip = "not now"'))


def add_file(folder):
    """Adds a file that is none of cases."""
    (folder / "tests" / "cases" / "notes").write_text("a = []")


# What is done to a small repository, how many cases pass, fail and are skipped then, and what is said.
CHANGES = [
    (make_older, 0, 1, 0, "crates/rtime/src/main.rt is newer"),
    (take_away, 0, 1, 0, "it isn't there"),
    (skip_all, 0, 0, 1, "not now"),
    (add_file, 1, 1, 0, "it is no file of cases"),
]


def change_results():
    """Tries each change of CHANGES."""
    for change, passed, failed, skipped, said in CHANGES:
        with tempfile.TemporaryDirectory() as given:
            folder = pathlib.Path(given)
            lay_repository(folder)
            change(folder)
            found = difference(told(folder), passed, failed, said, skipped)
        yield f"runner: {change.__doc__}", not found, found


def document_difference(text, counts, said):
    """How the results of a document differ from so many that passed, failed and were skipped."""
    with tempfile.TemporaryDirectory() as given:
        folder = pathlib.Path(given)
        lay_program(folder)
        results = list(documents.results_of("broken.md", text, folder, seconds=1))
    found = Counter(passed for _, passed, _ in results)
    details = "".join(detail for _, _, detail in results)
    if (found[True], found[False], found[None]) == counts and said in details:
        return ""
    return f"  found {results}\n  wanted {counts} and {said!r}\n"


def document_results():
    """Tries each text of DOCUMENTS."""
    for text, counts, said in DOCUMENTS:
        found = document_difference(text, counts, said)
        yield f"documents: {text}", not found, found


def results():
    """The results of all tries."""
    yield from case_results()
    yield from piece_results()
    yield from memory_results()
    yield from change_results()
    yield from document_results()
