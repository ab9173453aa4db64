"""Events of a page as frames of a stream."""
from __future__ import annotations

from typing import Callable

from .chains import block_bytes
from .values import ID, NODE, BadText, Names, data, fixed, number, numbers

Field = Callable[[list[str], Names], bytes]


def counted(items: list[bytes]) -> bytes:
    """A list of items behind their number."""
    return number(str(len(items)), 2) + b"".join(items)


def sized(bytes_: bytes) -> bytes:
    """Bytes behind their length."""
    return number(str(len(bytes_)), 4) + bytes_


def nodes(words: list[str], names: Names) -> bytes:
    """`NODE:WEIGHT,NODE:WEIGHT ..`, one word, or none."""
    if len(words) > 1:
        raise BadText("nodes are one word, with commas between them")
    pairs = [pair.partition(":") for pair in words[0].split(",")] if words else []
    return counted([fixed(node, NODE, names) + number(weight, 8) for node, _, weight in pairs])


def identifiers(words: list[str], names: Names) -> bytes:
    """Any number of identifiers."""
    return counted([fixed(word, ID, names) for word in words])


def random_words(words: list[str], _: Names) -> bytes:
    """Any number of numbers of 8 bytes."""
    return counted(numbers(words, 8))


def one_block(words: list[str], names: Names) -> bytes:
    """The bytes of one block."""
    return sized(block_bytes(words, names))


def blocks(words: list[str], names: Names) -> bytes:
    """Any number of blocks, with commas between them."""
    if not words:
        return counted([])
    listed = " ".join(words).split(",")
    return counted([sized(block_bytes(part.split(), names)) for part in listed])


def nothing(words: list[str], _: Names) -> bytes:
    """No more fields."""
    if words:
        raise BadText(f"nothing stands here any more, and not '{words[0]}'")
    return b""


def identifier(words: list[str], names: Names) -> bytes:
    """One identifier and nothing behind it."""
    if len(words) != 1:
        raise BadText("one identifier is wanted here")
    return fixed(words[0], ID, names)


def from_node(last: Field) -> Field:
    """A node and a request number, and then the last field."""
    def fields(words: list[str], names: Names) -> bytes:
        if len(words) < 2:
            raise BadText("a node and a request number are wanted here")
        return fixed(words[0], NODE, names) + number(words[1], 4) + last(words[2:], names)
    return fields


PARAMETERS = (("k", 4), ("alpha-preference", 4), ("alpha-confidence", 4), ("beta", 4), ("repolls", 4), ("boot", 1))


def start(words: list[str], names: Names) -> bytes:
    """The parameters, the last accepted block, its height, the state and the nodes, each `field=value`, in order."""
    given = {}
    for word in words:
        field, equals, value = word.partition("=")
        if not equals or field in given:
            raise BadText(f"'{word}' is no field=value, or stands twice")
        given[field] = value
    wanted = [field for field, _ in PARAMETERS] + ["last", "height"]
    if list(given) != wanted + [field for field in ("state", "nodes") if field in given]:
        raise BadText("a start has the fields " + ", ".join(wanted) + " and, where there are some, state and nodes, in this order")
    state = numbers(given["state"].split(","), 8) if "state" in given else []
    roster = nodes([given["nodes"]] if "nodes" in given else [], names)
    head = b"".join(number(given[field], size) for field, size in PARAMETERS)
    return head + fixed(given["last"], ID, names) + number(given["height"], 8) + counted(state) + roster


EVENTS: dict[str, tuple[int, Field]] = {
    "start": (1, start), "block": (2, from_node(one_block)), "poll": (3, identifiers), "words": (4, random_words),
    "chits": (5, from_node(identifier)), "timeout": (6, from_node(nothing)), "frontier": (7, from_node(identifier)),
    "accepted": (8, from_node(identifiers)), "ancestors": (9, from_node(blocks)), "stored": (10, one_block),
    "validators": (11, nodes), "ask-query": (12, from_node(nothing)), "ask-frontier": (13, from_node(nothing)),
    "ask-accepted": (14, from_node(identifiers)), "ask-ancestors": (15, from_node(identifier)),
    "ask-block": (16, from_node(identifier)),
}
LINE = 17


def frame(payload: bytes) -> bytes:
    """A payload behind its length word."""
    return sized(payload)


def line_frame(text: bytes) -> bytes:
    """A Line event with this text."""
    return frame(bytes([LINE]) + sized(text))


def event_frame(words: list[str], names: Names) -> bytes:
    """The frame that a line of a page stands for."""
    if words[0] == "frame":
        return frame(data(words[1:], names))
    if words[0] not in EVENTS:
        raise BadText(f"'{words[0]}' is no event")
    tag, fields = EVENTS[words[0]]
    return frame(bytes([tag]) + fields(words[1:], names))
