"""Frames, events and blocks of the tally chain, as docs/FORMATS.md lays them out.

Each function that is named after an event returns the bytes of its frame. A node is named by 20 bytes, a block by
the SHA-256 digest of its bytes.
"""

import hashlib
from typing import Iterable, NamedTuple, Optional, Sequence

Roster = Sequence[tuple[bytes, int]]
"""The nodes that a node samples, each with its weight."""

CAP = 1_000_000_000
"""No block may bring the sum of amounts above this."""


class Params(NamedTuple):
    """The parameters of the decision, as a Start gives them."""

    k: int
    alpha_preference: int
    alpha_confidence: int
    beta: int
    repolls: int


class Block(NamedTuple):
    """A block of the tally chain that could be read."""

    id: bytes
    parent: bytes
    height: int
    amount: int
    data: bytes


def _u16(number: int) -> bytes:
    return number.to_bytes(2, "big")


def _u32(number: int) -> bytes:
    return number.to_bytes(4, "big")


def _u64(number: int) -> bytes:
    return number.to_bytes(8, "big")


def _sized(data: bytes) -> bytes:
    return _u32(len(data)) + data


def _nodes(roster: Roster) -> bytes:
    return _u16(len(roster)) + b"".join(node + _u64(weight) for node, weight in roster)


def frame(payload: bytes) -> bytes:
    """A payload behind its length word."""
    return _sized(payload)


FENCE = frame(b"")
"""The empty frame: an event never, so it writes `skip N short` and changes nothing. Its line tells a host that the
lines of all frames before it are there."""


def start(params: Params, boot: bool, last: Block, total: int, roster: Roster) -> bytes:
    """The first frame of a stream: the parameters, what the node holds accepted, and whom it asks."""
    numbers = b"".join(map(_u32, params)) + bytes([boot])
    state = _u16(2) + _u64(total) + _u64(CAP)
    return frame(b"\x01" + numbers + last.id + _u64(last.height) + state + _nodes(roster))


def block(node: bytes, request: int, data: bytes) -> bytes:
    """A block from a node: the answer to a get, or, with request 0, unasked."""
    return frame(b"\x02" + node + _u32(request) + _sized(data))


def words(numbers: Sequence[int]) -> bytes:
    """Random words of 64 bits, from which queries draw nodes."""
    return frame(b"\x04" + _u16(len(numbers)) + b"".join(map(_u64, numbers)))


def chits(node: bytes, request: int, preference: bytes) -> bytes:
    """A node's reply to a query."""
    return frame(b"\x05" + node + _u32(request) + preference)


def timeout(node: bytes, request: int) -> bytes:
    """Nothing will come from this node to this request."""
    return frame(b"\x06" + node + _u32(request))


def frontier(node: bytes, request: int, last: bytes) -> bytes:
    """The block that a node accepted last."""
    return frame(b"\x07" + node + _u32(request) + last)


def accepted(node: bytes, request: int, ids: Sequence[bytes]) -> bytes:
    """Those of the named blocks that a node holds accepted."""
    return frame(b"\x08" + node + _u32(request) + _u16(len(ids)) + b"".join(ids))


def ancestors(node: bytes, request: int, blocks: Sequence[bytes]) -> bytes:
    """A block, its parent and so on."""
    return frame(b"\x09" + node + _u32(request) + _u16(len(blocks)) + b"".join(map(_sized, blocks)))


def validators(roster: Roster) -> bytes:
    """The nodes that are sampled from here on."""
    return frame(b"\x0b" + _nodes(roster))


def ask_query(node: bytes, request: int) -> bytes:
    """A peer asks for the preference."""
    return frame(b"\x0c" + node + _u32(request))


def ask_frontier(node: bytes, request: int) -> bytes:
    """A peer asks for the block accepted last."""
    return frame(b"\x0d" + node + _u32(request))


def ask_accepted(node: bytes, request: int, ids: Sequence[bytes]) -> bytes:
    """A peer asks which of these are accepted."""
    return frame(b"\x0e" + node + _u32(request) + _u16(len(ids)) + b"".join(ids))


def ask_ancestors(node: bytes, request: int, wanted: bytes) -> bytes:
    """A peer asks for a block with its ancestors."""
    return frame(b"\x0f" + node + _u32(request) + wanted)


def ask_block(node: bytes, request: int, wanted: bytes) -> bytes:
    """A peer asks for a block."""
    return frame(b"\x10" + node + _u32(request) + wanted)


def lines(texts: Iterable[str]) -> bytes:
    """Lines that a run wrote, each as the frame by which an audit reads it."""
    return b"".join(frame(b"\x11" + _sized(text.encode("ascii"))) for text in texts)


def tally_block(parent: bytes, height: int, amount: int, note: bytes) -> Block:
    """A block of the tally chain; the note makes its bytes, and so its identifier, its own."""
    data = parent + _u64(height) + _u64(amount) + note
    return Block(hashlib.sha256(data).digest(), parent, height, amount, data)


def read_block(data: bytes) -> Optional[Block]:
    """What the bytes of a block say; None where they are none of a block."""
    if not 48 <= len(data) <= 65_536:
        return None
    height = int.from_bytes(data[32:40], "big")
    amount = int.from_bytes(data[40:48], "big")
    return Block(hashlib.sha256(data).digest(), data[:32], height, amount, data)


GENESIS = tally_block(bytes(32), 0, 0, b"a network of nodes")
"""The block at height 0, which all nodes hold accepted from the beginning. It is a block with bytes, as any other: a
node that comes back asks for it where most of its peers have accepted nothing yet, and goes on asking until it came."""
