"""The messages that hosts send one another. How they are written on a wire is the transport's business."""

from enum import Enum
from typing import NamedTuple


class Kind(Enum):
    """Five questions, five answers. A BLOCK with request 0 wasn't asked for."""

    ASK_QUERY = "ask-query"
    ASK_FRONTIER = "ask-frontier"
    ASK_ACCEPTED = "ask-accepted"
    ASK_ANCESTORS = "ask-ancestors"
    ASK_BLOCK = "ask-block"
    CHITS = "chits"
    FRONTIER = "frontier"
    ACCEPTED = "accepted"
    ANCESTORS = "ancestors"
    BLOCK = "block"


ANSWER = {
    Kind.ASK_QUERY: Kind.CHITS,
    Kind.ASK_FRONTIER: Kind.FRONTIER,
    Kind.ASK_ACCEPTED: Kind.ACCEPTED,
    Kind.ASK_ANCESTORS: Kind.ANCESTORS,
    Kind.ASK_BLOCK: Kind.BLOCK,
}
"""Which answer belongs to which question."""


class Message(NamedTuple):
    """A message from a node to a node, both by their place in the network.

    `life` counts how often the asker was started. An engine numbers its requests from 1 in each life, so an answer
    to an earlier life could pass for one to the present: a host drops it by this number. Over sockets a new
    connection does the same.
    """

    kind: Kind
    source: int
    target: int
    life: int
    request: int
    ids: tuple[bytes, ...] = ()
    blocks: tuple[bytes, ...] = ()

    def answer(self, ids: tuple[bytes, ...] = (), blocks: tuple[bytes, ...] = ()) -> "Message":
        """The answer to this question."""
        return Message(ANSWER[self.kind], self.target, self.source, self.life, self.request, ids, blocks)
