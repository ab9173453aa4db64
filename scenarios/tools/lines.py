"""Lines of the program, in which a page may use short forms."""
from __future__ import annotations

from .values import ID, NODE, Names, data, fixed

# the words behind the first one; the last kind stands for any number of them
KINDS = {
    "query": ("number", "id", "draw"), "get": ("number", "node", "id"), "accepted": ("number", "id"),
    "ancestors": ("number", "node", "id"), "accept": ("id",), "reject": ("id",), "prefer": ("id",),
    "drop": ("id", "why"), "bootstrapped": ("id", "number"), "to-chits": ("node", "number", "id", "id"),
    "to-frontier": ("node", "number", "id"), "to-accepted": ("node", "number", "id"),
    "to-ancestors": ("node", "number", "bytes"), "to-block": ("node", "number", "bytes"),
    "fork": ("id",), "refused": ("id",), "conflict": ("number", "id"),
}


def spelled(word: str, kind: str, names: Names) -> str:
    """A word as the program writes it."""
    if kind == "id":
        return fixed(word, ID, names).hex()
    if kind == "node":
        return fixed(word, NODE, names).hex()
    if kind == "draw":
        node, _, count = word.rpartition("*")
        return fixed(node, NODE, names).hex() + "*" + count
    if kind == "bytes" and word != ".":
        return data([word], names).hex()
    return word


def line_text(words: list[str], names: Names) -> bytes:
    """The text of a line, without the byte at its end."""
    kinds = KINDS.get(words[0], ("as it is",)) if words else ()
    behind = [spelled(word, kinds[min(i, len(kinds) - 1)], names) for i, word in enumerate(words[1:])]
    return " ".join(words[:1] + behind).encode()


def error_text(text: str, names: Names) -> bytes:
    """The line on standard error; behind `bootstrapping stopped:` its words may be short."""
    head, colon, stop = text.partition("bootstrapping stopped: ")
    return head.encode() + colon.encode() + line_text(stop.split(), names)
