"""`repeat i = 1 to 4096` .. `end`: lines of a page again and again."""
from __future__ import annotations

import re
from dataclasses import dataclass
from functools import lru_cache
from pathlib import Path
from typing import Iterator

from .values import BadText

REPEAT = re.compile(r"repeat ([a-z]) = ([0-9]+) (down )?to ([0-9]+)")
HOLE = re.compile(r"\{([^{}:]*)(?::([0-9]+))?\}")
TERM = re.compile(r"([+-]?)([a-z]|[0-9]+)")

Numbers = dict[str, int]
Lines = list[tuple[int, str]]


@dataclass(frozen=True)
class Spot:
    """Where something stands: the file, the line, and the numbers of the repeats around it."""

    file: Path
    line: int
    loops: tuple[tuple[str, int], ...] = ()

    def __str__(self) -> str:
        within = ", ".join(f"{name} = {value}" for name, value in self.loops)
        return f"{self.file}:{self.line}" + (f" ({within})" if within else "")


@lru_cache(1024)
def terms_of(text: str) -> tuple[tuple[int, str, int], ...]:
    """The terms of a sum: which sign, and the name of a repeat or else a number."""
    terms = TERM.findall(text)
    if not terms or "".join(sign + term for sign, term in terms) != text:
        raise BadText(f"'{text}' is no sum")
    return tuple((-1 if sign == "-" else 1, term if term.isalpha() else "", int(term) if term.isdigit() else 0)
                 for sign, term in terms)


def summed(text: str, values: Numbers) -> int:
    """A sum of numbers and names of repeats: `i`, `i-1`, `32771-i`."""
    total = 0
    for sign, name, value in terms_of(text):
        if name and name not in values:
            raise BadText(f"no repeat is named '{name}'")
        total += sign * (values[name] if name else value)
    if total < 0:
        raise BadText(f"'{text}' is below zero")
    return total


def filled(text: str, values: Numbers) -> str:
    """`{i}` as a decimal number, `{i:4}` as so many hexadecimal digits."""
    def spelled(hole: re.Match[str]) -> str:
        value = summed(hole[1], values)
        digits = f"{value:0{hole[2]}x}" if hole[2] else str(value)
        if hole[2] and len(digits) > int(hole[2]):
            raise BadText(f"{value} has more than {hole[2]} hexadecimal digits")
        return digits
    return HOLE.sub(spelled, text) if "{" in text else text


def body_of(lines: Lines, at: int) -> int:
    """The place of the `end` of the repeat at this place."""
    depth = 0
    for place in range(at, len(lines)):
        depth += lines[place][1].startswith("repeat ")
        depth -= lines[place][1] == "end"
        if depth == 0:
            return place
    raise BadText("a repeat has no end")


def turns(text: str) -> tuple[str, range]:
    """The name of a repeat and its numbers."""
    said = REPEAT.fullmatch(" ".join(text.split()))
    if not said:
        raise BadText("a repeat is: repeat i = 1 to 9, or: repeat i = 9 down to 1")
    first, last = int(said[2]), int(said[4])
    return said[1], range(first, last - 1, -1) if said[3] else range(first, last + 1)


def walked(file: Path, lines: Lines, loops: tuple[tuple[str, int], ...]) -> Iterator[tuple[Spot, str]]:
    """The lines of a body, one behind another, with repeats inside it unrolled."""
    at = 0
    values = dict(loops)
    while at < len(lines):
        number, text = lines[at]
        spot = Spot(file, number, loops)
        try:
            if text.startswith("repeat "):
                end = body_of(lines, at)
                name, numbers = turns(text)
                for value in numbers:
                    yield from walked(file, lines[at + 1:end], loops + ((name, value),))
                at = end
            else:
                yield spot, filled(text, values)
        except BadText as reason:
            raise reason if str(reason).startswith(f"{file}:") else BadText(f"{spot}: {reason}") from None
        at += 1


def unrolled(file: Path, lines: Lines) -> Iterator[tuple[Spot, str]]:
    """All lines of a page behind its head, as often as they stand."""
    return walked(file, lines, ())
