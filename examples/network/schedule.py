"""Simulated time."""

import heapq
from typing import Any, Callable

Item = tuple[Callable[[Any], None], Any]


class Schedule:
    """What is to happen when, in milliseconds. Things of one moment happen in the order in which they were put in.

    Moments are rounded up to whole steps, so that what comes to a node within a step is handed in at once.
    """

    def __init__(self, step: int) -> None:
        self.now = 0
        self._step = step
        self._moments: list[int] = []
        self._items: dict[int, list[Item]] = {}

    def after(self, delay: int, function: Callable[[Any], None], argument: Any) -> None:
        """Calls the function with the argument in so many milliseconds, but not in this step."""
        moment = max(-(-(self.now + delay) // self._step) * self._step, self.now + self._step)
        items = self._items.get(moment)
        if items is None:
            heapq.heappush(self._moments, moment)
            self._items[moment] = items = []
        items.append((function, argument))

    def run_next(self) -> None:
        """Goes on to the next moment at which something happens, and lets it happen."""
        self.now = heapq.heappop(self._moments)
        for function, argument in self._items.pop(self.now):
            function(argument)

    def __bool__(self) -> bool:
        return bool(self._moments)
