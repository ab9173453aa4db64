"""The network between the hosts: it loses, delays and reorders messages, and it may be made faulty."""

import random
from typing import Callable, Protocol, Sequence

from messages import Kind, Message
from schedule import Schedule

Fault = Callable[[random.Random, Message], list[Message]]
"""What becomes of a message: the messages that are carried in its place."""

QUESTIONS = (Kind.ASK_QUERY, Kind.ASK_FRONTIER, Kind.ASK_ACCEPTED, Kind.ASK_ANCESTORS, Kind.ASK_BLOCK)


def twice(rng: random.Random, message: Message) -> list[Message]:
    """An answer is given twice."""
    return [message] if message.kind in QUESTIONS else [message, message]


def number(rng: random.Random, message: Message) -> list[Message]:
    """An answer names another request."""
    if message.kind in QUESTIONS or message.request == 0:
        return [message]
    return [message._replace(request=max(1, message.request + rng.choice((-2, -1, 1, 2))))]


def changed(rng: random.Random, message: Message) -> list[Message]:
    """A byte of a block changes on its way."""
    if not message.blocks:
        return [message]
    blocks = list(message.blocks)
    place = rng.randrange(len(blocks))
    data = bytearray(blocks[place])
    if data:
        data[rng.randrange(len(data))] ^= rng.randrange(1, 256)
    blocks[place] = bytes(data)
    return [message._replace(blocks=tuple(blocks))]


FAULTS: dict[str, Fault] = {"twice": twice, "number": number, "bytes": changed}


class Peer(Protocol):
    """Whoever takes messages."""

    def receive(self, message: Message) -> None:
        """Takes a message that came."""


class Router:
    """Carries messages between peers. What a node sends to itself comes at once and is never lost."""

    def __init__(self, schedule: Schedule, rng: random.Random, loss: float, delay: tuple[int, int],
                 faults: Sequence[str], fault_rate: float) -> None:
        self.peers: list[Peer] = []
        self.carried = 0
        self.lost = 0
        self.spoilt = 0
        self._schedule = schedule
        self._rng = rng
        self._loss = loss
        self._delay = delay
        self._faults = [FAULTS[name] for name in faults]
        self._fault_rate = fault_rate

    def send(self, message: Message) -> None:
        """Sends a message on its way."""
        receive = self.peers[message.target].receive
        if message.source == message.target:
            self._schedule.after(0, receive, message)
            return
        for carried in self._spoil(message):
            if self._rng.random() < self._loss:
                self.lost += 1
            else:
                self.carried += 1
                self._schedule.after(self._rng.randint(*self._delay), receive, carried)

    def _spoil(self, message: Message) -> list[Message]:
        if not self._faults or self._rng.random() >= self._fault_rate:
            return [message]
        carried = self._rng.choice(self._faults)(self._rng, message)
        self.spoilt += carried != [message]
        return carried
