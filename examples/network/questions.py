"""The questions that an engine asked and that aren't answered in full."""

from dataclasses import dataclass
from typing import Callable, Sequence

from messages import ANSWER, Kind, Message

Send = Callable[[Kind, int, int, tuple[bytes, ...]], None]
"""Sends a question of this kind to a peer under a number."""

Later = Callable[[int, Callable[[], None]], None]
"""Calls a function in so many milliseconds."""


@dataclass
class Request:
    """A question, who hasn't answered it, and how often it may still be sent."""

    kind: Kind
    ids: tuple[bytes, ...]
    waiting: list[int]
    tries: int


class Requests:
    """The open questions of one life, by number. Each peer is answered for at last, if only by giving it up: an
    engine has no clock, and waits for as long as it takes."""

    def __init__(self, tries: int, timeout: int, send: Send, later: Later,
                 give_up: Callable[[int, int], None]) -> None:
        self._open: dict[int, Request] = {}
        self._tries = tries
        self._timeout = timeout
        self._send = send
        self._later = later
        self._give_up = give_up

    def ask(self, number: int, kind: Kind, peers: Sequence[int], ids: tuple[bytes, ...] = ()) -> None:
        """Sends a question to peers."""
        self._open[number] = Request(kind, ids, list(peers), self._tries)
        self._try(number)

    def _try(self, number: int) -> None:
        """Asks those that haven't answered, and gives them up where that was tried often enough."""
        request = self._open.get(number)
        if not request:
            return
        if request.tries == 0:
            del self._open[number]
            for peer in request.waiting:
                self._give_up(peer, number)
            return
        request.tries -= 1
        for peer in request.waiting:
            self._send(request.kind, peer, number, request.ids)
        self._later(self._timeout, lambda: self._try(number))

    def close(self, message: Message) -> bool:
        """Notes that a peer answered, and returns whether its answer was awaited."""
        request = self._open.get(message.request)
        if not request or ANSWER[request.kind] is not message.kind or message.source not in request.waiting:
            return False
        request.waiting.remove(message.source)
        if not request.waiting:
            del self._open[message.request]
        return True

    def queries(self) -> int:
        """How many queries are open."""
        return sum(request.kind is Kind.ASK_QUERY for request in self._open.values())
