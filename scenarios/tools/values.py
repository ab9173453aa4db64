"""Words of a page that stand for numbers and bytes: `20`, `0*560`, `ff..`, `01*20`, `00*30+0001`, `$name`."""
from __future__ import annotations

import re
from dataclasses import dataclass
from functools import lru_cache

AGAIN = re.compile(r"([0-9a-f]{2})\*([0-9]+)")
DIGITS = re.compile(r"([0-9a-f]{2})+")
ID = 32
NODE = 20
MOST = 1 << 22  # times of one piece: a guard against a slip of the pen


class BadText(Exception):
    """A word or a line that says nothing; its text is the reason."""


@dataclass(frozen=True)
class Block:
    """A block that has a name: its bytes, and the identifier by which others speak of it."""

    data: bytes
    identifier: bytes


Names = dict[str, Block]


def number(text: str, size: int) -> bytes:
    """A decimal number as `size` bytes, the highest first."""
    if not re.fullmatch(r"[0-9]+", text) or int(text) >> (8 * size):
        raise BadText(f"'{text}' is no number of {size} bytes")
    return int(text).to_bytes(size, "big")


def named(text: str, names: Names) -> Block:
    """The block that `$name` stands for."""
    if text[1:] not in names:
        raise BadText(f"nothing has the name '{text[1:]}'")
    return names[text[1:]]


def piece(text: str) -> bytes:
    """Hexadecimal digits, or one byte again and again."""
    again = AGAIN.fullmatch(text)
    if again and int(again[2]) <= MOST:
        return bytes.fromhex(again[1]) * int(again[2])
    if not DIGITS.fullmatch(text):
        raise BadText(f"'{text}' is neither pairs of hexadecimal digits nor a byte again and again")
    return bytes.fromhex(text)


@lru_cache(4096)
def pieces(text: str) -> bytes:
    """One or more pieces with `+` between them."""
    return b"".join(piece(part) for part in text.split("+"))


def fixed(text: str, size: int, names: Names) -> bytes:
    """Exactly `size` bytes: `..` fills with zeros, and a name stands for its block's identifier."""
    if text.startswith("$"):
        value = named(text, names).identifier
    elif text.endswith(".."):
        value = pieces(text[:-2]).ljust(size, b"\0")
    else:
        value = pieces(text)
    if len(value) != size:
        raise BadText(f"'{text}' has {len(value)} bytes and not {size}")
    return value


def data(words: list[str], names: Names) -> bytes:
    """Bytes of any number: names and pieces one behind another, or `.` alone for none."""
    if words == ["."]:
        return b""
    if not words:
        raise BadText("bytes are wanting; '.' stands for none")
    return b"".join(named(word, names).data if word.startswith("$") else pieces(word) for word in words)


def numbers(words: list[str], size: int) -> list[bytes]:
    """Numbers of `size` bytes each; `0*560` is one again and again."""
    found: list[bytes] = []
    for word in words:
        value, again, times = word.partition("*")
        if again and (not re.fullmatch(r"[0-9]+", times) or int(times) > MOST):
            raise BadText(f"'{word}' doesn't say how often")
        found += [number(value, size)] * int(times or 1)
    return found
