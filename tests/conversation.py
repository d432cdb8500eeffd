"""Tries how a session of the program goes on and ends, as somebody who talks to it through pipes sees it.

`tests/run.py sessions` runs these tests too. That no reply comes is seen after a short wait, so a program that is
right passes however slow the machine is; a reply that is wanted may take long.
"""

import contextlib
import os
import pathlib
import select
import signal
import socket
import subprocess
import tempfile
import time
from collections.abc import Callable, Iterable, Iterator

from compare import PROGRAM, Result

SECONDS = 60  # within which a reply or an end comes
WAIT = 0.3  # s, after which nothing is taken to come

FILES = {
    "two.csv": "line,Two,2\npoint,2,End\n",
    "short.csv": "line,Short,1\n",
    "toy.toml": "mass = 259200\nrotating = 0\nlength = 10\ntop = 60\neffort = [[0, 20000], [60, 20000]]\n"
    "resistance = [0, 0, 0]\nbrake = [[0, 100], [60, 100]]\n",
    "none.csv": "",
}
FREE = "time 10182291298 10182363300\n"  # the arrival at the end of two metres, by the definitions
SLOW = "time 14400000000 14400000000\n"  # the same under 1 km/h


class Talking:
    """A session that is talked to; the program is ended behind it, where it goes on."""

    def __init__(self, line: str = "two.csv", source: int | socket.socket = subprocess.PIPE) -> None:
        self.folder = tempfile.TemporaryDirectory()
        for name, text in FILES.items():
            (pathlib.Path(self.folder.name) / name).write_text(text)
        self.process = subprocess.Popen(
            [PROGRAM, "session", line, "toy.toml", "none.csv"],
            cwd=self.folder.name,
            stdin=source,
            stdout=subprocess.PIPE,
            stderr=subprocess.PIPE,
            bufsize=0,
            # a shell has what it runs behind it ignore this signal
            preexec_fn=lambda: signal.signal(signal.SIGINT, signal.SIG_DFL),
        )

    def __enter__(self) -> "Talking":
        return self

    def __exit__(self, *_: object) -> None:
        self.process.kill()
        self.process.communicate()
        self.folder.cleanup()

    def say(self, text: str) -> None:
        """Writes a text to the program."""
        self.process.stdin.write(text.encode())

    def hear(self, length: int, seconds: float = SECONDS) -> str:
        """What the program writes, up to so many bytes, or what came of it in time."""
        output, heard, last = self.process.stdout, b"", time.monotonic() + seconds
        while len(heard) < length and select.select([output], [], [], max(last - time.monotonic(), 0))[0]:
            piece = os.read(output.fileno(), length - len(heard))
            if not piece:
                break
            heard += piece
        return heard.decode(errors="replace")

    def quiet(self) -> str:
        """What the program writes though nothing is wanted of it; empty where it is quiet."""
        return self.hear(1, WAIT)

    def answers(self, text: str, reply: str) -> str:
        """How what is replied to a text differs from a reply, and nothing behind it; empty where it doesn't."""
        self.say(text)
        heard = self.hear(len(reply)) + self.quiet()
        return "" if heard == reply else f"  to {text!r} {heard!r}, wanted {reply!r}\n"

    def ends(self, status: int, output: str = "") -> str:
        """How it differs from an end with a status, an output, and no text on the error output."""
        try:
            said, errors = self.process.communicate(timeout=SECONDS)
        except subprocess.TimeoutExpired:
            return f"  it goes on after {SECONDS} s\n"
        found = self.process.returncode, said.decode(errors="replace"), errors
        return "" if found == (status, output, b"") else f"  it ended with {found}, wanted {status}, {output!r}\n"


def first(found: Iterable[str]) -> str:
    """The first difference; empty where there is none. Nothing is tried behind it, as each wait may be long."""
    return next(filter(None, found), "")


def replies_at_once() -> str:
    """each line is replied to before the next is written, and the end of the input ends the session"""
    run = "0 0\n1 20000\n2 0\n"
    lines = [("time End\n", FREE), ("put a 0 2 1\n", "ok whole\n"), ("time End\r\n", SLOW), ("quit\n", "error 2\n")]
    lines += [("take a\n", "ok whole\n"), ("envelope\n", run), ("cert\n", "0 0\n25920 20000\n0 0\nwhole\n")]
    lines += [("time End\n", FREE), ("take a\n", "error 5\n"), ("\n", "error 2\n")]
    with Talking() as talking:
        return first(talking.answers(*each) for each in lines) or talking.ends(0)


def waits_for_line_end() -> str:
    """a line has no reply before its LF, however it comes"""
    with Talking() as talking:
        found = first(talking.answers(piece, "") for piece in ("ti", "me", " End", "\r"))
        found = found or talking.answers("\n", FREE) or talking.answers("time En", "")
        return found or talking.ends(0, "error 7\n")


def replies_to_many() -> str:
    """lines that come at once are replied to at once, but for the one that isn't ended"""
    with Talking() as talking:
        found = talking.answers("put a 0 2 1\ntime End\ntake a\ntime ", f"ok whole\n{SLOW}ok whole\n")
        return found or talking.answers("End\n", FREE) or talking.ends(0)


def reads_files_first() -> str:
    """a file is refused before anything is read of the input"""
    with Talking("short.csv") as talking:
        found = talking.hear(100)
        status = talking.process.wait(SECONDS)
        return "" if (found, status) == ("refused 1 1 4\n", 5) else f"  {found!r}, status {status}\n"


def keeps_no_file() -> str:
    """the files may go, once the first reply is there"""
    with Talking() as talking:
        found = talking.answers("time End\n", FREE)
        for name in FILES:
            (pathlib.Path(talking.folder.name) / name).unlink()
        return found or talking.answers("put a 0 2 1\ntime End\n", f"ok whole\n{SLOW}") or talking.ends(0)


def ends_with_its_reader() -> str:
    """an output that nobody reads any more ends it with status 4 and no text elsewhere"""
    with Talking() as talking:
        found = talking.answers("time End\n", FREE)
        talking.process.stdout.close()
        talking.say("time End\n")
        status = talking.process.wait(SECONDS)
        errors = talking.process.stderr.read()
        return found or ("" if (status, errors) == (4, b"") else f"  status {status}, errors {errors!r}\n")


def ends_by_signal() -> str:
    """an interrupt ends it while it waits for a line"""
    with Talking() as talking:
        found = talking.answers("time End\n", FREE)
        talking.process.send_signal(signal.SIGINT)
        return found or talking.ends(-signal.SIGINT)


def ends_at_failed_read() -> str:
    """an input that fails behind some lines: these have their replies, the line that isn't ended has none"""
    ours, theirs = socket.socketpair()
    with contextlib.ExitStack() as stack:
        stack.enter_context(theirs)
        # a socket that is closed before all that was sent to it was read makes reads at its other end fail
        theirs.sendall(b"unread")
        talking = stack.enter_context(Talking(source=theirs))
        ours.sendall(b"time End\nput a 0 2 1\ntime En")
        found = talking.hear(len(FREE) + 9)
        ours.close()
        wanted = f"{FREE}ok whole\n"
        return ("" if found == wanted else f"  {found!r}, wanted {wanted!r}\n") or talking.ends(3)


TRIES: list[Callable[[], str]] = [
    replies_at_once,
    waits_for_line_end,
    replies_to_many,
    reads_files_first,
    keeps_no_file,
    ends_with_its_reader,
    ends_by_signal,
    ends_at_failed_read,
]


def results() -> Iterator[Result]:
    """Of each try its name, whether it passed, and how it differs."""
    for tried in TRIES:
        try:
            found = tried()
        except OSError as error:
            found = f"  {type(error).__name__}: {error}\n"
        except subprocess.TimeoutExpired as error:
            found = f"  it goes on after {error.timeout} s\n"
        yield f"a session: {tried.__doc__}", not found, found
