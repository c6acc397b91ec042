"""Runs of programs: what they print, how they end, and what they use."""

from __future__ import annotations

import ctypes
import fcntl
import os
import resource
import signal
import sys
import threading
import time
from collections.abc import Callable, Sequence
from dataclasses import dataclass
from typing import BinaryIO

# Begins a run in a folder, which waits until this shell has ended
SHELL = ("/bin/sh", "-c", 'cd -- "$1" && shift && { read go <&3; exec "$@" 3<&- <&4 4<&-; } &', "sh")
ERASED = "\r\x1b[K"  # what takes away the line of a terminal
SET_CHILD_SUBREAPER = 36  # of prctl: a process whose parent has ended becomes a child of this one


@dataclass(frozen=True)
class Run:
    """What a run printed on standard output and standard error, and its status, which is None where it took too
    long."""

    status: int | None
    printed: bytes
    told: bytes
    wall: float  # seconds of the clock
    seconds: float  # of the processor
    peak: int  # the most memory, in bytes

    @property
    def line(self) -> str:
        """The first line of what it printed."""
        return (self.printed.decode(errors="replace").splitlines() or ["nothing"])[0]


def given_file(text: bytes) -> int:
    """A file of memory with this text, at its begin, under a number that no run has for something else."""
    with open(os.memfd_create("stdin"), "r+b") as file:
        file.write(text)
        file.seek(0)
        return fcntl.fcntl(file, fcntl.F_DUPFD_CLOEXEC, 10)


class Progress:
    """How far long work is, on standard error: on a terminal a line that is written over and goes away at the end, and
    elsewhere a line each so many seconds, or none."""

    def __init__(self, name: str, every: float | None) -> None:
        # (where the output goes to a terminal too, a line would be written over it)
        self.is_terminal = sys.stderr.isatty() and not sys.stdout.isatty()
        self.name, self.every, self.told = name, 1.0 if self.is_terminal else every, time.monotonic()

    def tell(self, text: Callable[[], str]) -> None:
        """Says it, if it is time."""
        if self.every is not None and time.monotonic() - self.told >= self.every:
            self.told = time.monotonic()
            self.write(text(), "" if self.is_terminal else "\n")

    def end(self, text: str) -> None:
        """Says how it ended, in a line that stays."""
        self.write(text, "\n")

    def write(self, text: str, end: str) -> None:
        print(f"{ERASED if self.is_terminal else ''}{self.name}: {text}", end=end, file=sys.stderr, flush=True)


class Stopped(Exception):
    """A run that was ended because all of them are."""


class Runs:
    """The runs of the program that are at work. All of them can be ended at once, and then none begins.

    A run is begun out of a shell that ends first, and is then a child of this script, so that the memory of this script
    isn't counted as its own. The group of its processes has the number of that shell, and stands for the run.
    """

    def __init__(self) -> None:
        ctypes.CDLL(None).prctl(SET_CHILD_SUBREAPER, 1, 0, 0, 0)
        self.lock = threading.Lock()
        self.at_work: set[int] = set()
        self.late: set[int] = set()
        self.is_over = False

    def begin(self, words: Sequence[str], stdin: bytes, folder: str) -> tuple[int, BinaryIO, BinaryIO]:
        """The group of a new run and the reading ends of its output and its errors."""
        (out, put), (errors, put_errors), (wait, go) = os.pipe(), os.pipe(), os.pipe()
        given = given_file(stdin)
        ends = ((put, 1), (put_errors, 2), (wait, 3), (given, 4))
        files = [(os.POSIX_SPAWN_DUP2, end, place) for end, place in ends]
        with os.fdopen(go, "wb"), self.lock:
            if not self.is_over:
                words = [*SHELL, folder, *words]
                group = os.posix_spawn(
                    SHELL[0], words, os.environ, file_actions=files, setpgroup=0, setsigdef=[signal.SIGPIPE]
                )
            for end, _ in ends:
                os.close(end)
            if self.is_over:
                raise Stopped
            os.waitpid(group, 0)
            self.at_work.add(group)
        return group, os.fdopen(out, "rb"), os.fdopen(errors, "rb")

    def kill(self, group: int) -> None:
        """Ends a run that takes too long."""
        with self.lock:
            if group in self.at_work:
                self.late.add(group)
                os.killpg(group, signal.SIGKILL)

    def end(self) -> None:
        with self.lock:
            self.is_over = True
            for group in self.at_work:
                os.killpg(group, signal.SIGKILL)

    def reap(self, group: int) -> tuple[int, bool, resource.struct_rusage]:
        """Its status, whether it took too long, and what it used. It is in the list until it is reaped, so that no
        other process is killed in its place."""
        os.waitid(os.P_PGID, group, os.WEXITED | os.WNOWAIT)
        with self.lock:
            _, status, used = os.wait4(-group, 0)
            self.at_work.discard(group)
            is_late = group in self.late
            self.late.discard(group)
            if self.is_over:
                raise Stopped
            return os.waitstatus_to_exitcode(status), is_late, used

    def run(self, words: Sequence[str], stdin: bytes = b"", folder: str = ".", seconds: float | None = None) -> Run:
        """Runs a program in a folder; behind so many seconds of the clock it is ended."""
        group, out, errors = self.begin(words, stdin, folder)
        begun, told = time.perf_counter(), [b""]
        timer = threading.Timer(seconds or 0, self.kill, (group,))
        reader = threading.Thread(target=lambda: told.__setitem__(0, errors.read()))
        try:
            if seconds:
                timer.start()
            with out, errors:
                reader.start()
                printed = out.read()
                reader.join()
            status, is_late, used = self.reap(group)
        finally:
            timer.cancel()
        wall = time.perf_counter() - begun
        return Run(
            None if is_late else status, printed, told[0], wall, used.ru_utime + used.ru_stime, 1024 * used.ru_maxrss
        )


def run(words: Sequence[str], stdin: bytes = b"", folder: str = ".", seconds: float | None = None) -> Run:
    """Runs a program to its end."""
    return Runs().run(words, stdin, folder, seconds)


def best_of(made: Sequence[Run]) -> Run:
    """Of some runs of one command the least times and the most memory, with what the last one printed."""
    last = made[-1]
    wall, seconds = min(it.wall for it in made), min(it.seconds for it in made)
    return Run(last.status, last.printed, last.told, wall, seconds, max(it.peak for it in made))


def best(words: Sequence[str], count: int, stdin: bytes = b"", folder: str = ".") -> Run:
    """The best of so many runs."""
    return best_of([run(words, stdin, folder) for _ in range(count)])


def best_in_turn(commands: Sequence[Sequence[str]], count: int) -> list[Run]:
    """The best of so many runs of each command. They take turns, so that what else the machine does falls on all."""
    return [best_of(made) for made in zip(*([run(words) for words in commands] for _ in range(count)))]
