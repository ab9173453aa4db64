"""What a run of the program was to give, and the first place of a page from which it differs."""
from __future__ import annotations

from dataclasses import dataclass
from typing import Optional

from .page import Line
from .program import Outcome
from .repeats import Spot

SHOWN = 150


@dataclass(frozen=True)
class Wanted:
    """The lines, the line on standard error and the status that are wanted, and where each stands."""

    lines: list[Line]
    error: bytes
    status: int
    error_spot: Spot
    status_spot: Spot
    end: Spot

    @property
    def out(self) -> bytes:
        """The bytes of the lines."""
        return b"".join(line.text + b"\n" for line in self.lines)


def shown(text: bytes) -> str:
    """Bytes for a message."""
    return repr(text.decode("latin-1"))[1:-1][:SHOWN]


def line_difference(wanted: Wanted, out: bytes) -> Optional[str]:
    """The first line that differs."""
    if out == wanted.out:
        return None
    found = out.split(b"\n")
    for line, text in zip(wanted.lines, found[:-1]):
        if line.text != text:
            return f"{line.spot}: wanted '{shown(line.text)}', and the program wrote '{shown(text)}'"
    if len(found) - 1 < len(wanted.lines):
        line = wanted.lines[len(found) - 1]
        return f"{line.spot}: wanted '{shown(line.text)}', and the program wrote nothing more"
    behind = wanted.lines[-1].spot if wanted.lines else wanted.end
    more = found[len(wanted.lines)]
    return f"{behind}: behind this the program wrote '{shown(more)}' too"


def difference(wanted: Wanted, found: Outcome) -> Optional[str]:
    """The first thing in which a run differs; None where it gave what was wanted."""
    if found.status is None:
        return f"{wanted.status_spot}: no answer within a minute"
    told = line_difference(wanted, found.out)
    if told:
        return told
    if found.error != wanted.error:
        return f"{wanted.error_spot}: wanted '{shown(wanted.error)}' on standard error, and it is '{shown(found.error)}'"
    if found.status != wanted.status:
        return f"{wanted.status_spot}: wanted status {wanted.status}, and it is {found.status}"
    return None


def front_difference(wanted: Wanted, found: Outcome) -> Optional[str]:
    """As `difference`, where any front of the lines will do that has all of the wanted ones that are whole."""
    whole = Outcome(wanted.out, found.error, found.status)
    if not wanted.out.startswith(found.out):
        return line_difference(wanted, found.out)
    return difference(wanted, whole)
