"""Runs programs whose standard input is written in pieces."""

import contextlib
import os
import signal
import subprocess
import threading
from collections.abc import Iterable, Sequence
from typing import BinaryIO

Ended = tuple[int | str, bytes | None, bytes | None]


def pieces_of(given: bytes, size: int) -> list[bytes]:
    """The bytes, so many at once."""
    return [given[at : at + size] for at in range(0, len(given), size)]


def feed(pipe: BinaryIO, pieces: Iterable[bytes]) -> None:
    """Writes each piece by itself and closes the pipe; a program that has ended takes no more of them."""
    with contextlib.suppress(BrokenPipeError), pipe:
        for piece in pieces:
            pipe.write(piece)
            pipe.flush()


def ended(
    words: Sequence[str | bytes],
    folder: str | os.PathLike,
    pieces: Iterable[bytes],
    seconds: float,
    stdout: int | None = subprocess.PIPE,
) -> Ended:
    """The status, output and standard error of a command; it is ended where it goes on too long."""
    source, drain = os.pipe()
    how = {"stdin": source, "stdout": stdout, "stderr": subprocess.PIPE}
    process = subprocess.Popen(words, cwd=folder, start_new_session=True, **how)
    os.close(source)
    threading.Thread(target=feed, args=(open(drain, "wb"), pieces), daemon=True).start()
    try:
        output, errors = process.communicate(timeout=seconds)
    except subprocess.TimeoutExpired:
        os.killpg(process.pid, signal.SIGKILL)
        return f"ended after {seconds} s", *process.communicate()
    return process.returncode, output, errors
