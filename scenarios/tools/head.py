"""The head of a page: lines `#! WORD TEXT` above everything else."""
from __future__ import annotations

import re
from dataclasses import dataclass, field
from pathlib import Path
from typing import Optional

from .repeats import Spot
from .values import BadText

TRIAL = re.compile(r"([0-9]+)(?: to ([0-9]+))?: status ([0-9]+), ([0-9]+) lines?(?:, (.+))?")
TRIALS = ("input-ends", "reading-fails", "writing-fails")


@dataclass(frozen=True)
class Said:
    """What a line of the head says, and where it stands."""

    spot: Spot
    text: str


@dataclass(frozen=True)
class Trial:
    """The page's stream once more, behind whose first bytes something ends or fails."""

    spot: Spot
    kind: str
    places: range
    status: int
    lines: int
    error: bytes


@dataclass
class Head:
    """What the head says of a run."""

    words: Said
    status: Said
    shows: Said
    error: Optional[Said] = None
    stream: Optional[Said] = None
    output: list[Said] = field(default_factory=list)
    trials: list[Trial] = field(default_factory=list)


def read_trial(kind: str, said: Said) -> Trial:
    """`input-ends 1 to 69: status 3, 0 lines, LINE ON STANDARD ERROR`."""
    parts = TRIAL.fullmatch(said.text)
    if not parts:
        raise BadText(f"{said.spot}: a trial is: {kind} 1 to 69: status 3, 0 lines, what standard error says")
    error = parts[5].encode() + b"\n" if parts[5] else b""
    places = range(int(parts[1]), int(parts[2] or parts[1]) + 1)
    return Trial(said.spot, kind, places, int(parts[3]), int(parts[4]), error)


def head_lines(path: Path) -> tuple[list[tuple[str, Said]], int]:
    """The words of the head with what stands behind them, and how many lines they take."""
    found: list[tuple[str, Said]] = []
    at = 0
    for at, text in enumerate(path.read_text().splitlines() + [""]):
        if not text.startswith("#!"):
            break
        word, _, rest = text[2:].strip().partition(" ")
        found.append((word, Said(Spot(path, at + 1), rest.strip())))
    return found, at


def read_head(path: Path) -> tuple[Head, int]:
    """The head of a page, and how many lines it takes."""
    found, height = head_lines(path)
    single = {word: said for word, said in found if word not in TRIALS + ("output",)}
    for word in ("words", "status", "shows"):
        if word not in single:
            raise BadText(f"{path}:1: the head has no line '#! {word}'")
    head = Head(single["words"], single["status"], single["shows"], single.get("error"), single.get("stream"))
    for word, said in found:
        if word in TRIALS:
            head.trials.append(read_trial(word, said))
        elif word == "output":
            head.output.append(said)
        elif word not in ("words", "status", "shows", "error", "stream") or single[word] is not said:
            raise BadText(f"{said.spot}: '#! {word}' is no word of a head, or stands twice")
    if not head.status.text.isdecimal():
        raise BadText(f"{head.status.spot}: a status is a number")
    return head, height
