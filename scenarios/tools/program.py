"""Runs of a program: whole, a byte at a time, with input that ends or fails, with output that fails."""
from __future__ import annotations

import os
import resource
import signal
import socket
import subprocess
import tempfile
import threading
from dataclasses import dataclass
from typing import IO, Any, Callable, Iterable, Optional, Union

SECONDS = 60.0
Handle = Union[int, IO[Any]]


@dataclass(frozen=True)
class Outcome:
    """What a run wrote, and its status; None where it gave no answer in time."""

    out: bytes
    error: bytes
    status: Optional[int]


@dataclass
class Program:
    """A built program; it counts its runs."""

    path: str
    runs: int = 0

    def started(self, words: list[str], stdin: Handle, out: Handle, error: Handle,
                prepare: Optional[Callable[[], None]] = None) -> subprocess.Popen[bytes]:
        """A run that has begun. Writes that fail are told by their error, as a shell's child would see them."""
        self.runs += 1
        return subprocess.Popen([self.path, *words], stdin=stdin, stdout=out, stderr=error,
                                restore_signals=False, preexec_fn=prepare)

    def fed(self, words: list[str], stdin: Handle, feed: Callable[[], None], out: Optional[Handle] = None,
            error: Optional[Handle] = None, prepare: Optional[Callable[[], None]] = None) -> Outcome:
        """A run whose input is fed while it goes; where it takes more than a minute it is ended."""
        heard, telling = os.pipe2(os.O_CLOEXEC)
        with tempfile.TemporaryFile() as own_out, open(heard, "rb") as report:
            run = self.started(words, stdin, own_out if out is None else out,
                               telling if error is None else error, prepare)
            os.close(telling)
            late = threading.Timer(SECONDS, run.kill)
            late.start()
            try:
                feed()
                run.wait()
            finally:
                late.cancel()
            own_out.seek(0)
            status = None if run.returncode == -signal.SIGKILL else run.returncode
            return Outcome(own_out.read(), report.read(), status)

    def whole(self, words: list[str], stream: bytes, out: Optional[Handle] = None, error: Optional[Handle] = None,
              prepare: Optional[Callable[[], None]] = None) -> Outcome:
        """The stream as a file."""
        with tempfile.TemporaryFile() as stdin:
            stdin.write(stream)
            stdin.seek(0)
            return self.fed(words, stdin, lambda: None, out, error, prepare)

    def pieced(self, words: list[str], pieces: Iterable[bytes]) -> Outcome:
        """The stream through a pipe, each piece a read of its own."""
        reading, writing = os.pipe2(os.O_DIRECT | os.O_CLOEXEC)

        def feed() -> None:
            os.close(reading)
            try:
                for piece in pieces:
                    os.write(writing, piece)
            except BrokenPipeError:
                pass  # it stopped before the end
            os.close(writing)
        return self.fed(words, reading, feed)

    def broken(self, words: list[str], front: bytes) -> Outcome:
        """These bytes, and then a read that fails: a socket is closed with something in it that nobody read."""
        ours, theirs = socket.socketpair()
        theirs.send(b"unread")

        def feed() -> None:
            theirs.close()
            with ours:
                try:
                    ours.sendall(front)
                except (BrokenPipeError, ConnectionResetError):
                    pass  # it stopped before the end
        return self.fed(words, theirs.fileno(), feed)

    def without_input(self, words: list[str]) -> Outcome:
        """A folder as standard input, which can't be read."""
        folder = os.open("/", os.O_RDONLY | os.O_CLOEXEC)
        try:
            return self.fed(words, folder, lambda: None)
        finally:
            os.close(folder)

    def limited(self, words: list[str], stream: bytes, room: int) -> Outcome:
        """A file as output that takes so many bytes and then fails."""
        return self.whole(words, stream, prepare=lambda: resource.setrlimit(resource.RLIMIT_FSIZE, (room, room)))

    def into_full(self, words: list[str], stream: bytes) -> Outcome:
        """A device without room as output."""
        with open("/dev/full", "wb", buffering=0) as full:
            return self.whole(words, stream, out=full)

    def into_nobody(self, words: list[str], stream: bytes) -> Outcome:
        """A pipe as output that nobody reads any more."""
        reading, writing = os.pipe2(os.O_CLOEXEC)
        os.close(reading)
        try:
            return self.whole(words, stream, out=writing)
        finally:
            os.close(writing)

    def into_nothing(self, words: list[str], stream: bytes) -> Outcome:
        """No output at all: it is closed."""
        return self.whole(words, stream, prepare=lambda: os.close(1))

    def unheard(self, words: list[str], stream: bytes) -> Outcome:
        """A device without room as standard error."""
        with open("/dev/full", "wb", buffering=0) as full:
            return self.whole(words, stream, error=full)
