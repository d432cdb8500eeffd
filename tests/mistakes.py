#!/usr/bin/env python3
"""Tests that the tables "What you typed" of docs/MISTAKES.md are the cases of tests/cases/mistakes.toml.

Each row of the document has to be a case with that answer, and each case has to be a row, but those whose
names begin with "in silence". A row and a case are the same where

- the case is a row of a table `[[table]]`, and the document's row shows the records, keys or lines that
  stand in it beside its line `line,A,5000` and the keys that are taken out;
- the case is a row of a table `[[words]]`, and the document's row shows its words; or
- the case has the name that the document's row has, where this shows nothing.

Of the replies of a session the last one is the answer.
"""

import pathlib
import re
import sys
import tomllib

TOP = pathlib.Path(__file__).resolve().parent.parent
HEAD = "| what you typed | what it answers |"
CODE = re.compile(r"`([^`]*)`")
PLAIN = "line,A,5000"


def rows(text):
    """The rows of the tables of the document: what is typed, and what it answers."""
    is_row = False
    for line in text.splitlines():
        is_row = line.startswith(HEAD) or is_row and line.startswith("|")
        if is_row and not line.startswith((HEAD, "|---")):
            yield tuple(cell.strip() for cell in re.split(r"(?<!\\)\|", line)[1:3])


def typed_of(cell):
    """What a row shows as typed, in any order; or its words, where it shows nothing."""
    return frozenset(shown.strip() for shown in CODE.findall(cell)) or frozenset([cell])


def answer_of(cell):
    """What a row says of the answer: a text and an exit status, or that it is no mistake."""
    if cell.startswith("no mistake"):
        return "no mistake"
    status = {"usage": 2, "nothing": 3, "error": 0}
    text = "".join(CODE.findall(cell)[:1])
    return text, status.get((text or "nothing").split(" ")[0], 5)


def records_of(content):
    """The records of a row of cases that the document shows."""
    records = [record for record in content.split(" / ") if not record.startswith("no ")]
    return frozenset(record.strip() for record in records if record != PLAIN) or frozenset([content])


def last_of(output):
    """The last line of an output whose lines are parted by ` / ` or end in LF."""
    return output.strip().replace("\n", " / ").split(" / ")[-1]


def cases(tables):
    """What each case types, what it answers, and its name."""
    for table in tables["table"]:
        for content, output, status in table["rows"]:
            yield records_of(content), (last_of(output), status), f"{table['name']}: {content}"
    for table in tables["words"]:
        for row in table["rows"]:
            answer = table["output"].strip(), table["status"]
            yield frozenset([" ".join(row) or "no words"]), answer, f"{table['name']}: {row}"
    for case in tables["case"]:
        status, output = case.get("status", 0), last_of(case.get("output", ""))
        answer = (output, status) if status or output.startswith("error") else "no mistake"
        yield frozenset([case["name"]]), answer, case["name"]


def rows_of_document():
    """What each row of the document types, what it answers, and its name."""
    for typed, answer in rows((TOP / "docs" / "MISTAKES.md").read_text()):
        yield typed_of(typed), answer_of(answer), typed


def cases_tried():
    """The same of each case that has a row."""
    tables = tomllib.loads((TOP / "tests" / "cases" / "mistakes.toml").read_text())
    return (case for case in cases(tables) if not case[2].startswith("in silence"))


def missing(these, those, place):
    """Of each of these whether it is among those: a name, whether it is, and what is missing."""
    found = {one[:2] for one in those}
    for typed, answer, name in these:
        yield f"mistake: {name}", (typed, answer) in found, f"  no {place} answers {answer}\n"


def results():
    """Of each row whether it is a case, and of each case whether it is a row."""
    document, tried = list(rows_of_document()), list(cases_tried())
    yield from missing(document, tried, "case of tests/cases/mistakes.toml")
    yield from missing(tried, document, "row of docs/MISTAKES.md")


def main():
    failed = [name + "\n" + detail for name, passed, detail in results() if not passed]
    print("".join(failed), end="")
    return 1 if failed else 0


if __name__ == "__main__":
    sys.exit(main())
