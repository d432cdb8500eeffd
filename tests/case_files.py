"""Reads the files of cases of tests/cases/, which run.py runs.

Each file of tests/cases/ is TOML and has tables `[[case]]` with

    name    what the case shows
    words   the words of the command line: a text, or `{ hex = ".." }`
    files   the files that lie where the program runs, by name: a text; `{ hex = ".." }`, its bytes;
            `{ size = N }`, N bytes of 0; `{ text = "..", size = N }`, a text and then line ends, to N
            bytes; `{ parts = [..] }`, texts and `{ text = "..", times = N }` one after the other;
            `{ text = "..", count = N }`, the text N times, each with its number from 0 on in place of `%i`,
            and the number behind that in place of `%n`; with `first = M` the numbers go from M on;
            `{ fifo = ".." }`, a FIFO into which the text is written once it is read; or
            `{ path = ".." }`, the bytes of a file of the repository
    beside  those of the files that no word names; each other one has to be named by a word
    input   what standard input holds, said as a file is (none: no bytes)
    piece   how many bytes of it are written at once (none: all)
    stdin   a place from which the input comes in place of a pipe, as "." or "closed"
    stdout  a place to which the output goes in place of a pipe, as "/dev/full" or "closed"
    status  the exit status that is wanted (none: 0)
    output  the whole output that is wanted, said as a file is, or
    spans   the output as runs of points with one text: [[first, last, "text"], ..]; after the lines
            of `head`, where the case has these, or
    begins  the lines with which the output begins, and
    has     the list of whole lines that stand in the output, in that order; where the command prints a
            line for each point, its lines are also those of the points 0, 1, 2 and so on
    errors  the whole standard error that is wanted (none: nothing)
    seconds the time after which a run that goes on is ended, and fails (none: 60)
    skip    why the case isn't run: it is counted and said, and neither passes nor fails

and tables `[[table]]`, each with `words`, `name`, the name `file` of one file, and `rows` of three:
the content of the file (records parted by ` / `), the output in the same way, and the status. Without
`file` the content is that of standard input; and content and output may be said as a file is. Beside
them a table may have

    files   more files, as a case has them
    base    the text that each row changes: a record `KEY = ..` of a row stands in place of the line
            with that key, or after the last line; `no KEY` takes the line out
    wants   how the outputs of the rows are read: "output" (which is meant without it) or "begins"

and tables `[[words]]`, each with `name` and `rows` of words that one answer is wanted for, beside the
keys of a case. A file that some row names needs no `beside`.

What can't be read in this way fails: another key or table, no way or two to say the output, a way that
says nothing, a table without a row, two cases of one name, a file that isn't used.
"""

import pathlib
import tomllib

TOP = pathlib.Path(__file__).resolve().parent.parent
CASES = TOP / "tests" / "cases"
KEYS = {"name", "words", "files", "beside", "input", "piece", "stdin", "stdout", "status"}
KEYS |= {"head", "errors", "seconds", "skip"}
TABLE_KEYS = {"words", "name", "file", "rows", "files", "base", "wants"}
TABLES = {"case", "table", "words"}
WAYS = ({"output"}, {"spans"}, {"begins"}, {"has"}, {"begins", "has"})
CONTENTS = (
    *({"parts"}, {"hex"}, {"path"}, {"fifo"}),
    *({"text", "times"}, {"text", "count"}, {"text", "count", "first"}, {"text", "size"}, {"size"}),
)


class Broken(Exception):
    """A case that can't be read."""


def is_fifo(given):
    """Whether a file of a case is a FIFO."""
    return not isinstance(given, str) and "fifo" in given


def numbered(text, number):
    """A text with a number in place of `%i`, and the next in place of `%n`."""
    return text.replace("%i", str(number)).replace("%n", str(number + 1))


def content_of(given):
    """The bytes of a file of a case."""
    if isinstance(given, str):
        return given.encode()
    if given.keys() not in CONTENTS:
        raise Broken(f"a file is said by {sorted(given)}")
    if "parts" in given:
        return b"".join(map(content_of, given["parts"]))
    if "times" in given:
        return given["text"].encode() * given["times"]
    if "count" in given:
        first = given.get("first", 0)
        numbers = range(first, first + given["count"])
        return "".join(numbered(given["text"], number) for number in numbers).encode()
    if "hex" in given:
        return bytes.fromhex(given["hex"])
    if "path" in given:
        return (TOP / given["path"]).read_bytes()
    if "text" in given:
        return given["text"].encode().ljust(given["size"], b"\n")
    return bytes(given["size"])


def output_of(case):
    """The output that a case wants."""
    if "spans" not in case:
        return content_of(case["output"])
    lines = (
        f"{point} {text}\n"
        for first, last, text in case["spans"]
        for point in range(first, last + 1)
    )
    return (case.get("head", "") + "".join(lines)).encode()


def demand(is_so, text):
    """Goes on where something is so of a case; it is broken elsewhere."""
    if not is_so:
        raise Broken(text)


def checked(case):
    """The case, where it has known keys alone and says its output in one way."""
    ways = case.keys() - KEYS
    demand({"name", "words"} <= case.keys(), "it has no name or no words")
    demand(ways in WAYS, f"it says its output by {sorted(ways)}")
    demand(all(case[way] for way in ways - {"output"}), "it says nothing of its output")
    demand(case.get("skip", "so"), "it is skipped without a reason")
    demand("head" not in case or "spans" in ways, "it has a head without spans")
    demand("stdin" not in case or "input" not in case, "it has an input and a place of it")
    demand("piece" not in case or "input" in case, "it has pieces of no input")
    return case


def with_files_used(cases):
    """The cases of a table, where each file is named by a word of one of them, or is `beside`."""
    words = [word for case in cases for word in case["words"]]
    for case in cases:
        files, beside = case.get("files", {}).keys(), set(case.get("beside", []))
        unnamed = {name for name in files if name not in words}
        said = f"no word names {sorted(unnamed)}, and {sorted(beside)} are said so"
        demand(unnamed == beside, said)
    return cases


def shown(text):
    """A text as a failed case shows it."""
    return repr(text if len(text) <= 400 else text[:400] + b"..")


def wanted_of(case):
    """The output that a case wants, as a failed case shows it."""
    if "begins" not in case and "has" not in case:
        return shown(output_of(case))
    return f"{case.get('begins', '')!r} .. {case.get('has', [])!r}"


def lines_of(records):
    """The text of records that are parted by ` / `, or what is said as a file is."""
    if not isinstance(records, str):
        return records
    return "".join(f"{record}\n" for record in records.split(" / ")) if records else ""


def key_of(line):
    """The key of a line `KEY = ..`."""
    return line.split("=")[0].strip()


def changed(base, records):
    """The text `base`, changed by the records of a row."""
    lines = {key_of(line): line for line in base.splitlines()}
    for record in records.split(" / "):
        if record.startswith("no "):
            del lines[record.removeprefix("no ")]
        elif record:
            lines[key_of(record)] = record
    return "".join(f"{line}\n" for line in lines.values())


def case_of(table, content, output, status):
    """The case of a row of a table."""
    text = changed(table["base"], content) if "base" in table else lines_of(content)
    files = table.get("files", {})
    return {
        "name": f"{table['name']}: {content}",
        "words": table["words"],
        **({"files": {**files, table["file"]: text}} if "file" in table else {"files": files, "input": text}),
        table.get("wants", "output"): lines_of(output),
        "status": status,
    }


def rows_of(table):
    """The cases of a table `[[table]]`, one for each row."""
    demand(table.keys() <= TABLE_KEYS, f"it has the keys {sorted(table.keys() - TABLE_KEYS)}")
    demand(table.get("wants", "output") in ("output", "begins"), "it wants what isn't known")
    return [case_of(table, *row) for row in table["rows"]]


def cases_in(kind, table):
    """The cases of a table of a file: its own, or one for each row."""
    if kind == "case":
        return [table]
    if kind == "table":
        return rows_of(table)
    given = {key: value for key, value in table.items() if key != "rows"}
    return [{**given, "name": f"{table['name']}: {row}", "words": row} for row in table["rows"]]


def try_reading(case):
    """Reads the files and the output that a case says, as running it does."""
    for given in [*case.get("files", {}).values(), case.get("input", "")]:
        if not is_fifo(given):
            content_of(given)
    wanted_of(case)


def read_cases(kind, table):
    """The cases of a table; it is broken where one of them can't be read, whatever the reason."""
    try:
        cases = [checked(case) for case in cases_in(kind, table)]
        demand(cases, "it has no rows")
        for case in cases:
            try_reading(case)
        return with_files_used(cases)
    except (AttributeError, KeyError, OSError, TypeError, ValueError) as error:
        raise Broken(f"{type(error).__name__}: {error}") from error


def tables_of(path):
    """The tables of a file of cases, each with its kind."""
    try:
        tables = tomllib.loads(path.read_text())
    except (OSError, ValueError) as error:
        raise Broken(str(error)) from error
    demand(path.suffix == ".toml", "it is no file of cases")
    demand(tables.keys() <= TABLES, f"it has {sorted(tables.keys() - TABLES)}")
    found = [(kind, table) for kind, listed in tables.items() for table in listed]
    demand(found, "it has no case")
    return found
