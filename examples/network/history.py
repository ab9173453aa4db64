"""What happened in a run, for the table and the page."""

from dataclasses import dataclass, field
from typing import Optional

from frames import Block


@dataclass
class Proposal:
    """A block, who made it and when (in simulated milliseconds)."""

    block: Block
    proposer: int
    time: int


@dataclass
class Decision:
    """A node's decision on a block."""

    node: int
    id: bytes
    height: int
    time: int
    caught_up: bool
    """Whether the node accepted it while it bootstrapped, so that it isn't a decision of its own."""


@dataclass
class Tally:
    """What one node did, all its lives together."""

    accepted: int = 0
    rejected: int = 0
    given_up: int = 0
    polls: int = 0
    unsent: int = 0
    gets: int = 0
    sent: int = 0
    received: int = 0
    timeouts: int = 0
    late: int = 0


@dataclass
class Note:
    """Something that befell a node: it joined, was killed, came back, caught up."""

    time: int
    node: int
    text: str


@dataclass
class History:
    """All of it, in order of time."""

    proposals: dict[bytes, Proposal] = field(default_factory=dict)
    accepted: list[Decision] = field(default_factory=list)
    rejected: list[Decision] = field(default_factory=list)
    notes: list[Note] = field(default_factory=list)
    changes: list[int] = field(default_factory=list)
    """When nodes took the new validators."""

    def propose(self, block: Block, proposer: int, time: int) -> None:
        """A node made a block."""
        self.proposals.setdefault(block.id, Proposal(block, proposer, time))

    def waiting_times(self, node: Optional[int] = None) -> list[int]:
        """How long each block took from its making to a node's own decision, sorted; of one node or of all."""
        return sorted(d.time - self.proposals[d.id].time for d in self.accepted
                      if not d.caught_up and d.id in self.proposals and node in (None, d.node))


def percentile(values: list[int], share: int) -> Optional[int]:
    """The value below which so many of a hundred of the sorted values lie; None where there are none."""
    return values[min(len(values) - 1, len(values) * share // 100)] if values else None
