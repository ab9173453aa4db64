"""Which message becomes which frame."""

import frames
from messages import Kind, Message


def question(message: Message, peer: bytes) -> bytes:
    """The frame of a peer's question."""
    if message.kind is Kind.ASK_QUERY:
        return frames.ask_query(peer, message.request)
    if message.kind is Kind.ASK_FRONTIER:
        return frames.ask_frontier(peer, message.request)
    if message.kind is Kind.ASK_ACCEPTED:
        return frames.ask_accepted(peer, message.request, message.ids)
    if message.kind is Kind.ASK_ANCESTORS:
        return frames.ask_ancestors(peer, message.request, message.ids[0])
    return frames.ask_block(peer, message.request, message.ids[0])


def answer(message: Message, peer: bytes) -> bytes:
    """The frame of a peer's answer."""
    if message.kind is Kind.CHITS:
        return frames.chits(peer, message.request, message.ids[0])
    if message.kind is Kind.FRONTIER:
        return frames.frontier(peer, message.request, message.ids[0])
    if message.kind is Kind.ACCEPTED:
        return frames.accepted(peer, message.request, message.ids)
    if message.kind is Kind.ANCESTORS:
        return frames.ancestors(peer, message.request, message.blocks)
    return frames.block(peer, message.request, message.blocks[0])
