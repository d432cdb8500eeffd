"""Tries the wrapper `./rtime` in small repositories, with an `rt` that only tells, waits and copies.

`tests/run.py wrapper` runs these tests alone.

Each try has a fresh folder: `repo/`, with the wrapper, crates.txt and two crates of a file each;
`bin/`, with the programs that the wrapper needs and the `rt` below; and `tmp/`, for its log. The
`rt` writes the lines of a proving of two crates, waits until it is let go on, copies the proved program,
and counts its calls in `calls`. Others leave half a program, write it late, or refuse.
"""

import os
import pathlib
import pty
import shutil
import signal
import subprocess
import sys
import tempfile
import time
from contextlib import contextmanager

sys.dont_write_bytecode = True  # the sources have no folder of compiled ones beside them

import compare

SECONDS = 20
TOOLS = "bash cat cp cut find flock grep mkdir mktemp readlink rm sh sleep touch tr wc".split()
RT_TOOLS = ["chmod", "head", "setsid"]  # which only the `rt` below needs
LINE = "line,Two,2\n"
SIGNALS = signal.SIGINT, signal.SIGTERM, signal.SIGHUP
WORDS = ["caps", "line.csv", "1", "36"]
CAPS = "".join(f"{point} 12960000\n" for point in range(3))
CRATES = ["unit_rules", "rtime"]

RT = """#!/usr/bin/env bash
cat >/dev/null
echo "$$" >>"$TRY/calls"
echo "rt: chose --jobs 4 for unit_rules"
echo "statements std: modules loaded=7 checked=0"
echo "fn unit_rules::read: proved"
echo "crate unit_rules: modules loaded=7 checked=7"
echo "library unit_rules: modules loaded=7 checked=0"
echo "crate rtime: modules loaded=7 checked=7"
"""
WAIT = 'until [ -e "$TRY/go" ] || [ ! -d "$TRY" ]; do sleep 0.02; done\n'
PROVES = RT + WAIT + 'cp "$PROGRAM" out/rtime; out/rtime; exit 2\n'
HALF = RT + 'head -c 9999 "$PROGRAM" >out/rtime; chmod +x out/rtime\n' + WAIT + "exit 1\n"
LATE = RT + 'setsid bash -c "sleep 0.5; cp $PROGRAM out/rtime" &\n' + WAIT + "exit 1\n"
REFUSES = RT + "echo 'fn rtime::main: REFUSED'; exit 1\n"
STEPS = [
    "rtime: proving and building the program, once: this takes up to half an hour",
    "rtime: crate 1 of 2: unit_rules is proved",
    "rtime: crate 2 of 2: rtime is proved",
]
WAITS = "rtime: another call is proving the program: this one waits for it"


class Try:
    """A small repository in a fresh folder."""

    def __init__(self, folder, rt=PROVES, waits=False, tools=TOOLS):
        self.folder = folder
        self.repo, self.bin, self.tmp = (folder / name for name in ("repo", "bin", "tmp"))
        self.program = self.repo / "crates" / "rtime" / "out" / "rtime"
        self.source = self.repo / "crates" / "unit_rules" / "src" / "lib.rt"
        for path in (self.repo, self.bin, self.tmp):
            path.mkdir()
        for tool in [*tools, *RT_TOOLS]:
            (self.bin / tool).symlink_to(shutil.which(tool))
        self.lay_sources()
        self.set_rt(rt)
        if not waits:
            self.go_on()

    def lay_sources(self):
        """Lays the wrapper, the crates and a line file."""
        for file in "rtime", "build.sh":
            shutil.copy(compare.TOP / file, self.repo)
        (self.repo / "crates.txt").write_text("unit_rules:\nrtime: unit_rules\n")
        for crate in CRATES:
            for part in ("src", "specs", "proofs"):
                (self.repo / "crates" / crate / part).mkdir(parents=True)
                (self.repo / "crates" / crate / part / "lib.rt").write_text("")
        (self.repo / "line.csv").write_text(LINE)

    def set_rt(self, text):
        """Puts an `rt` on the path, or none."""
        (self.bin / "rt").unlink(missing_ok=True)
        if text:
            (self.bin / "rt").write_text(text)
            (self.bin / "rt").chmod(0o755)

    def start(self, words=WORDS, wrapper="./rtime", **how):
        """Starts the wrapper, in the repository where nothing else is said."""
        env = {"PATH": str(self.bin), "TMPDIR": str(self.tmp), "TRY": str(self.folder)}
        env |= {"PROGRAM": str(compare.PROGRAM), **how.pop("env", {})}
        pipes = {"stdin": subprocess.DEVNULL, "stdout": subprocess.PIPE, "stderr": subprocess.PIPE}
        how = {"cwd": self.repo, **pipes, **how}
        return subprocess.Popen([wrapper, *words], env=env, preexec_fn=hear_signals, **how)

    def call(self, *given, **how):
        """The status, the output and the lines of the error output of a call."""
        return ended(self.start(*given, **how))

    def start_waiting(self):
        """Starts a call that has to wait for another one, and goes on when it says so."""
        errors = self.folder / "errors"
        with errors.open("wb") as file:
            process = self.start(stderr=file)
        self.waits_for(lambda: errors.read_text() == f"{WAITS}\n")
        return process

    def ended_waiting(self, process):
        """The status, the output and the lines of the error output of such a call."""
        output, _ = process.communicate(timeout=SECONDS)
        return process.returncode, output.decode(), (self.folder / "errors").read_text().splitlines()

    def go_on(self):
        """Lets `rt` go on."""
        (self.folder / "go").write_text("")

    def calls(self):
        """How often `rt` was called."""
        path = self.folder / "calls"
        return len(path.read_text().split()) if path.exists() else 0

    def waits_for(self, is_so):
        """Waits until something is so."""
        end = time.monotonic() + SECONDS
        while not is_so():
            if time.monotonic() > end:
                raise TimeoutError("what was waited for didn't come")
            time.sleep(0.01)

    def logs(self):
        """The files that are left in the folder for temporary ones."""
        return list(self.tmp.iterdir())

    def made(self):
        """The names of what stands in the folder of the program."""
        return sorted(path.name for path in self.program.parent.iterdir())

    def is_rt_running(self):
        """Whether one of the `rt` that were called still runs."""
        numbers = (self.folder / "calls").read_text().split()
        return any(pathlib.Path(f"/proc/{number}").exists() for number in numbers)


def hear_signals():
    """Takes the signals as a call at a terminal does, also where the tests run behind nohup or `&`."""
    for number in SIGNALS:
        signal.signal(number, signal.SIG_DFL)


def ended(process):
    """The status, the output and the lines of the error output of a process, once it has ended."""
    output, errors = process.communicate(timeout=SECONDS)
    return process.returncode, output.decode(), errors.decode().splitlines()


@contextmanager
def trying(**how):
    """A small repository that is there for one test."""
    with tempfile.TemporaryDirectory() as folder:
        yield Try(pathlib.Path(folder), **how)


def same(*pairs):
    """How the first pair of found and wanted differs; empty where none does."""
    for found, wanted in pairs:
        if found != wanted:
            return f"  found {found!r}\n  wanted {wanted!r}\n"
    return ""


DONE = (0, CAPS, [])


def first_call():
    """The first call tells what it does, a line a crate; later ones say nothing and don't prove."""
    with trying() as it:
        first, later = it.call(), it.call()
        return same((first, (0, CAPS, STEPS)), (later, DONE), (it.calls(), 1), (it.logs(), []))


def quiet_call():
    """With RTIME_QUIET=1 the first call tells nothing."""
    with trying() as it:
        return same((it.call(env={"RTIME_QUIET": "1"}), DONE), (it.calls(), 1))


def shown_on_terminal(it, **how):
    """The output of a call whose error output is a terminal, and what that shows."""
    ours, theirs = pty.openpty()
    process = it.start(stderr=theirs, **how)
    os.close(theirs)
    output, _ = process.communicate(timeout=SECONDS)
    return output.decode(), read_all(ours).replace("\r\n", "\n")


def on_terminal():
    """On a terminal the steps take each other's place in one line, which is cleared at the end."""
    with trying() as it:
        output, text = shown_on_terminal(it)
        head, *steps = text.split("\r")
        found = [step.rstrip() for step in steps]
        wide = [step for step in steps if len(step) > 78 or "\n" in step]
        shown = ["rtime: crate 1 of 2: unit_rules::read", *STEPS[1:], ""]
        return same((head, STEPS[0] + "\n"), (found, shown), (wide, []), (output, CAPS))


def quiet_on_terminal():
    """With RTIME_QUIET=1 a terminal is told nothing."""
    with trying() as it:
        return same((shown_on_terminal(it, env={"RTIME_QUIET": "1"}), (CAPS, "")))


def read_all(terminal):
    """All that was written to a terminal whose other end is closed."""
    text = b""
    try:
        while part := os.read(terminal, 4096):
            text += part
    except OSError:  # the end of a terminal
        pass
    os.close(terminal)
    return text.decode()


def changes(it):
    """Ways to change the sources."""
    other = it.source.with_name("other.rt")
    yield "edited in place", lambda: it.source.write_text("x")
    yield "added", lambda: other.write_text("")
    yield "renamed", lambda: other.rename(it.source.with_name("third.rt"))
    yield "removed", lambda: it.source.with_name("third.rt").unlink()
    yield "a crate more", lambda: (it.repo / "crates.txt").write_text("rtime:\n")


def changed_sources():
    """Where a source was changed, added, renamed or removed, the next call proves, and only that."""
    with trying() as it:
        it.call()
        for number, (way, change) in enumerate(changes(it), 2):
            change()
            it.call()
            it.call()
            if it.calls() != number:
                return f"  {way}: rt was called {it.calls()} times\n"
        return ""


def changed_meanwhile():
    """A source that is changed while the program is built is newer than it."""
    with trying(waits=True) as it:
        process = it.start()
        it.waits_for(it.calls)
        it.source.write_text("x")
        it.go_on()
        return same((ended(process)[0], 0), (it.call()[0], 0), (it.calls(), 2))


def other_files():
    """What is no source doesn't make the program old."""
    with trying() as it:
        it.call()
        (it.repo / "line.csv").write_text(LINE)
        (it.program.parent / "more").write_text("")
        (it.repo / "crates" / "rtime" / "stdout").write_text("")
        return same((it.call(), DONE), (it.calls(), 1))


def through_links():
    """Through links, from other folders and by a path with blanks the sources are found."""
    with trying() as it:
        places = it.folder / "a b"
        places.mkdir()
        (places / "whole").symlink_to(it.repo / "rtime")
        (places / "near").symlink_to("../repo/rtime")
        (places / "twice").symlink_to("near")
        (places / "folder").symlink_to(it.repo)
        (it.bin / "rtime").symlink_to(places / "twice")
        shutil.copy(it.repo / "line.csv", places)
        ways = ["./whole", "./near", "./twice", "./folder/rtime", places / "near", it.bin / "rtime"]
        found = [it.call(wrapper=way, cwd=places)[:2] for way in ways]
        by_bash = it.call(["rtime", *WORDS], wrapper=it.bin / "bash")[:2]
        return same(([*found, by_bash], [(0, CAPS)] * 7), (it.calls(), 1))


def two_at_once():
    """Of two first calls one proves, and the other says that it waits; both answer."""
    with trying(waits=True) as it:
        first = it.start()
        it.waits_for(it.calls)
        second = it.start_waiting()
        it.go_on()
        found = ended(first), it.ended_waiting(second)
        return same((found, ((0, CAPS, STEPS), (0, CAPS, [WAITS]))), (it.calls(), 1))


def first_fails():
    """Where the call that is waited for fails, the one that waits proves."""
    with trying(waits=True, rt=HALF) as it:
        first = it.start()
        it.waits_for(it.program.exists)
        second = it.start_waiting()
        it.set_rt(PROVES)
        it.go_on()
        found = ended(first)[0], it.ended_waiting(second)
        return same((found, (70, (0, CAPS, [WAITS, *STEPS]))), (it.calls(), 2))


def without_flock():
    """Where there is no flock, a first call proves and answers."""
    with trying(tools=[tool for tool in TOOLS if tool != "flock"]) as it:
        return same((it.call(), (0, CAPS, STEPS)), (it.call(), DONE))


def interrupted():
    """Interrupted, it ends what it started and leaves no log and no program; the next one proves."""
    for rt in (PROVES, HALF, LATE):
        for number in SIGNALS:
            with trying(waits=True, rt=rt) as it:
                process = it.start()
                it.waits_for(it.program.exists if rt == HALF else it.calls)
                process.send_signal(number)
                status = ended(process)[0]
                left = it.logs(), it.made(), it.is_rt_running()
                it.go_on()
                it.set_rt(PROVES)
                if difference := same(
                    (status, -number), (left, ([], ["lock"], False)), (it.call(), (0, CAPS, STEPS))
                ):
                    return f"  {number.name}:\n{difference}"
    return ""


def at_the_keyboard():
    """Ctrl-C, which reaches the whole group of processes, is answered as well."""
    with trying(waits=True, rt=HALF) as it:
        process = it.start(start_new_session=True)
        it.waits_for(it.program.exists)
        os.killpg(process.pid, signal.SIGINT)
        status = ended(process)[0]
        return same((status, -signal.SIGINT), ((it.logs(), it.program.exists()), ([], False)))


def killed():
    """Killed while it builds, it can't take its program back; the next call doesn't run that."""
    with trying(waits=True, rt=HALF) as it:
        process = it.start(stdout=subprocess.DEVNULL, stderr=subprocess.DEVNULL)
        it.waits_for(it.program.exists)
        process.kill()
        process.wait()
        it.set_rt(PROVES)
        it.go_on()
        status, output, errors = it.call()
        return same(((status, output), (0, CAPS)), (errors[-3:], STEPS), (it.calls(), 2))


def no_rt():
    """Without `rt` the first call ends with 69 and one line; a current program needs none."""
    with trying(rt=None) as it:
        line = (
            "rtime: rt isn't on the path: "
            "add the folder bin of the Rattle kit to PATH, and call again"
        )
        first = it.call()
        it.set_rt(PROVES)
        it.call()
        it.set_rt(None)
        return same((first, (69, "", [line])), (it.call(), DONE))


def no_program():
    """Where proving fails, or the program doesn't run, it ends with 70 and says what to do."""
    line = "rtime: the program can't be proved and built: above stands why; mend it, and call again"
    for rt in (REFUSES, HALF):
        with trying(rt=rt) as it:
            status, output, errors = it.call(env={"RTIME_QUIET": "1"})
            told = "crate rtime: modules loaded=7 checked=7" in errors
            left = it.logs(), it.program.exists()
            found = status, output, errors[-1:]
            if difference := same((found, (70, "", [line])), (told, True), (left, ([], False))):
                return difference
    return ""


def no_room():
    """Where the program or the log can't be written, it ends with 70 and says so in one line."""
    program = "rtime: nothing can be written to ./crates/rtime/out: see who may, and call again"
    log = "rtime: no file can be made for the log: see whether $TMPDIR is full, and call again"
    with trying() as it:
        it.tmp.rmdir()
        found = it.call(env={"RTIME_QUIET": "1"})
        shutil.rmtree(it.program.parent)
        it.program.parent.write_text("")
        return same((found, (70, "", [log])), (it.call(), (70, "", [program])), (it.calls(), 0))


def input_is_kept():
    """What stands on the input is the program's, in a first call too."""
    with trying() as it:
        process = it.start(["caps", "/dev/stdin", "1", "36"], stdin=subprocess.PIPE)
        output, _ = process.communicate(LINE.encode(), timeout=SECONDS)
        return same((output.decode(), CAPS))


def closed_errors():
    """With a closed error output the first call answers as well."""
    with trying() as it:
        words = ["-c", 'exec "$@" 2>&-', "bash", "./rtime", *WORDS]
        return same((it.call(words, wrapper=it.bin / "bash")[:2], (0, CAPS)))


TESTS = [
    first_call,
    quiet_call,
    on_terminal,
    quiet_on_terminal,
    changed_sources,
    changed_meanwhile,
    other_files,
    through_links,
    two_at_once,
    first_fails,
    without_flock,
    interrupted,
    at_the_keyboard,
    killed,
    no_rt,
    no_program,
    no_room,
    input_is_kept,
    closed_errors,
]


def results():
    """Of each test its name, whether it passed, and what differed."""
    for test in TESTS:
        try:
            difference = test()
        except (TimeoutError, subprocess.TimeoutExpired) as error:
            difference = f"  {error}\n"
        yield f"wrapper: {test.__doc__.splitlines()[0]}", not difference, difference
