"""A page: its head, its events, and the lines that stand under each."""
from __future__ import annotations

import shlex
from dataclasses import dataclass, field
from pathlib import Path
from typing import Iterator, Optional

from .chains import name_block
from .events import event_frame, line_frame
from .head import Head, read_head
from .lines import error_text, line_text
from .repeats import Spot, unrolled
from .values import BadText, Names, data


@dataclass(frozen=True)
class Line:
    """A line `> text` of a page, and where it stands."""

    spot: Spot
    text: bytes


@dataclass
class Event:
    """A frame of the stream, and the lines under it."""

    spot: Spot
    frame: bytes
    lines: list[Line] = field(default_factory=list)


@dataclass
class Page:
    """All that a page says."""

    name: str
    head: Head
    first: list[Line] = field(default_factory=list)  # lines above every event
    events: list[Event] = field(default_factory=list)
    rest: bytes = b""
    names: Names = field(default_factory=dict)
    last: Optional[Spot] = None

    @property
    def words(self) -> list[str]:
        """The words of the command line."""
        return shlex.split(self.head.words.text)

    @property
    def is_audit(self) -> bool:
        """Whether the lines of the page are frames of the stream and not what the program writes."""
        return "audit" in self.words

    @property
    def stream(self) -> bytes:
        """The bytes that the program reads."""
        lined = self.with_lines() if self.is_audit else [event.frame for event in self.events]
        return b"".join(lined) + self.rest

    def with_lines(self) -> list[bytes]:
        """The frames with those of the lines behind each."""
        frames = [line_frame(line.text) for line in self.first]
        for event in self.events:
            frames.append(event.frame)
            frames += [line_frame(line.text) for line in event.lines]
        return frames

    @property
    def lines(self) -> list[Line]:
        """What the program is to write."""
        if self.is_audit:
            return [Line(said.spot, said.text.encode()) for said in self.head.output]
        return self.first + [line for event in self.events for line in event.lines]

    @property
    def error(self) -> bytes:
        """What the program is to write on standard error, with the byte at its end."""
        said = self.head.error
        return error_text(said.text, self.names) + b"\n" if said else b""

    def read(self, spot: Spot, text: str) -> None:
        """Takes one line of the page behind its head."""
        words = text.split()
        if self.rest:
            raise BadText("nothing stands behind 'rest'")
        if words[0] == ">":
            under = self.events[-1].lines if self.events else self.first
            under.append(Line(spot, line_text(words[1:], self.names)))
        elif words[0] == "name":
            name_block(words, self.names)
        elif words[0] == "rest":
            self.rest = data(words[1:], self.names)
        else:
            self.events.append(Event(spot, event_frame(words, self.names)))
        self.last = spot


def without_comment(text: str) -> str:
    """The part of a line that isn't for people."""
    return text.partition("#")[0].strip()


def numbered(path: Path, skip: int) -> Iterator[tuple[int, str]]:
    """The lines behind the head that say something, with their numbers."""
    for at, text in enumerate(path.read_text().splitlines()[skip:], skip + 1):
        said = without_comment(text)
        if said:
            yield at, said


def read_page(path: Path) -> Page:
    """Reads a page; what it can't be read for is told as `file:line: reason`."""
    head, height = read_head(path)
    page = Page(path.stem, head)
    for spot, text in unrolled(path, list(numbered(path, height))):
        try:
            page.read(spot, text)
        except BadText as reason:
            raise BadText(f"{spot}: {reason}") from None
    return page
