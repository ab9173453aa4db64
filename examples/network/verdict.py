"""Whether honest nodes agree, and the table of what each did."""

from dataclasses import dataclass
from typing import Optional, Sequence

import frames
from history import percentile
from node import Node
from simulation import Result


@dataclass
class Disagreement:
    """A height at which two honest nodes accepted different blocks."""

    height: int
    one: int
    other: int

    def __str__(self) -> str:
        return f"nodes {self.one + 1} and {self.other + 1} accepted different blocks at height {self.height}"


def _broken_chain(node: Node) -> Optional[str]:
    """Whether a node's accepted blocks, over all its lives, aren't each the parent of the next one."""
    last = frames.GENESIS
    for block in node.store.blocks():
        if block.parent != last.id or block.height != last.height + 1:
            return f"node {node.index + 1} accepted a block at height {block.height} that isn't on the one before"
        last = block
    return None


def disagreements(nodes: Sequence[Node]) -> list[Disagreement]:
    """For each node the first height at which it parts from the first node that got there. Where there is none the
    accepted lists are fronts of one another: what a node accepted in an earlier life or while it bootstrapped
    belongs to its list."""
    found = []
    first_at: list[tuple[bytes, int]] = []
    for node in nodes:
        for place, block in enumerate(node.store.blocks()):
            if place == len(first_at):
                first_at.append((block.id, node.index))
            elif first_at[place][0] != block.id:
                found.append(Disagreement(block.height, first_at[place][1], node.index))
                break
    return found


def complaints(result: Result) -> list[str]:
    """All that went wrong but a disagreement: broken chains, processes that ended badly, heights not reached."""
    told = [text for text in map(_broken_chain, result.nodes) if text]
    told += [f"node {node.index + 1}'s process ended with {node.complaint}"
             for node in result.nodes if node.complaint]
    if not told and not result.finished:
        told.append(f"not all heights were accepted within {result.options.limit / 1000:g} s of simulated time")
    return told


def _milliseconds(value: Optional[int]) -> str:
    return "-" if value is None else str(value)


HEADINGS = ("node", "part", "height", "accepted", "rejected", "given up", "polls", "gets", "timeouts",
            "sent", "received", "median ms", "99 % ms")


def part(result: Result, index: int) -> str:
    """What a node is."""
    options = result.options
    if index in options.liar_nodes():
        return "lies"
    if index in options.late_nodes():
        return "late"
    return "killed" if index in options.killed_nodes() else "honest"


def rows(result: Result) -> list[tuple[str, ...]]:
    """The table's rows, one for each honest node."""
    table = []
    for node in result.nodes:
        tally, waited = node.tally, result.history.waiting_times(node.index)
        numbers = (node.store.last.height, tally.accepted, tally.rejected, tally.given_up, tally.polls, tally.gets,
                   tally.timeouts, tally.sent, tally.received)
        table.append((str(node.index + 1), part(result, node.index), *map(str, numbers),
                      _milliseconds(percentile(waited, 50)), _milliseconds(percentile(waited, 99))))
    return table


def table(result: Result) -> str:
    """The table as text."""
    lines = [HEADINGS, *rows(result)]
    widths = [max(len(line[column]) for line in lines) for column in range(len(HEADINGS))]
    return "\n".join("  ".join(word.rjust(width) for word, width in zip(line, widths)) for line in lines)
