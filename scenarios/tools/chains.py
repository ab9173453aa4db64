"""Blocks in the words of their chain."""
from __future__ import annotations

import hashlib
import re
from typing import Callable

from .values import ID, BadText, Block, Names, data, fixed, number

TRANSFER = re.compile(r"([0-9]+)>([0-9]+):([0-9]+)@([0-9]+)")


def behind(words: list[str], names: Names) -> bytes:
    """The bytes behind the fields of a block; there may be none."""
    return data(words, names) if words else b""


def plain(words: list[str], names: Names) -> Block:
    """`plain ID PARENT HEIGHT FLAG [BYTES]`."""
    identifier, parent, height, flag = need(words, 4)
    head = fixed(identifier, ID, names)
    rest = fixed(parent, ID, names) + number(height, 8) + number(flag, 1) + behind(words[4:], names)
    return Block(head + rest, head)


def tally(words: list[str], names: Names) -> Block:
    """`tally PARENT HEIGHT AMOUNT [BYTES]`; the identifier is the digest of the bytes."""
    parent, height, amount = need(words, 3)
    return digested(fixed(parent, ID, names) + number(height, 8) + number(amount, 8) + behind(words[3:], names))


def ledger(words: list[str], names: Names) -> Block:
    """`ledger PARENT HEIGHT FROM>TO:AMOUNT@SEQUENCE ..`; the identifier is the digest of the bytes."""
    parent, height = need(words, 2)
    transfers = [transfer(word) for word in words[2:]]
    count = number(str(len(transfers)), 2)
    return digested(fixed(parent, ID, names) + number(height, 8) + count + b"".join(transfers))


def transfer(word: str) -> bytes:
    """One transfer of a ledger's block: `0>1:7@0`."""
    parts = TRANSFER.fullmatch(word)
    if not parts:
        raise BadText(f"'{word}' is no transfer FROM>TO:AMOUNT@SEQUENCE")
    return b"".join(number(parts[i], size) for i, size in ((1, 2), (2, 2), (3, 8), (4, 8)))


def need(words: list[str], count: int) -> list[str]:
    """The first `count` words, which must be there."""
    if len(words) < count:
        raise BadText(f"a block has {count} fields or more, and here are {len(words)}")
    return words[:count]


def digested(bytes_: bytes) -> Block:
    """A block that is named by the digest of its bytes."""
    return Block(bytes_, hashlib.sha256(bytes_).digest())


CHAINS: dict[str, Callable[[list[str], Names], Block]] = {"plain": plain, "tally": tally, "ledger": ledger}


def block(words: list[str], names: Names) -> Block:
    """A block that gets a name: in the words of a chain alone, since others have no identifier."""
    if not words or words[0] not in CHAINS:
        raise BadText("a block is wanted here, in the words of its chain: " + ", ".join(CHAINS))
    return CHAINS[words[0]](words[1:], names)


def block_bytes(words: list[str], names: Names) -> bytes:
    """The bytes of a block: in the words of a chain, by name, or as they are."""
    return block(words, names).data if words and words[0] in CHAINS else data(words, names)


def name_block(words: list[str], names: Names) -> None:
    """`name NAME BLOCK`: gives a block a name that none has."""
    if len(words) < 3 or not re.fullmatch(r"[a-z][a-z0-9-]*", words[1]):
        raise BadText("a name is a small letter and then small letters, digits and '-', with a block behind it")
    if words[1] in names:
        raise BadText(f"the name '{words[1]}' is given twice")
    names[words[1]] = block(words[2:], names)
