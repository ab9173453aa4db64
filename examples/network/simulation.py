"""A run of a network from its beginning to its end."""

import random
import time
from dataclasses import dataclass
from pathlib import Path
from typing import Callable

from engine import EngineEnded
from history import History, Note
from liar import Liar, Plot, Splitter
from node import Node
from options import Options
from router import Router
from schedule import Schedule
from world import World

PROGRESS = 1000


@dataclass
class Result:
    """What a run came to."""

    options: Options
    history: History
    nodes: list[Node]
    router: Router
    ended: int
    """The simulated time at the end, in milliseconds."""
    took: float
    """The time that it took, in seconds."""
    finished: bool
    """Whether every honest node accepted all heights before the limit."""


def _world(options: Options, folder: Path) -> World:
    schedule = Schedule(options.step)
    rng = random.Random(f"{options.seed}/router")
    router = Router(schedule, rng, options.loss, options.delay, options.faults, options.fault_rate)
    names = [(place + 1).to_bytes(2, "big") * 10 for place in range(options.nodes)]

    def roster(weights: list[int]) -> list[tuple[bytes, int]]:
        return [(name, weight) for name, weight in zip(names, weights) if weight]

    rosters = (roster(options.first_weights()), roster(options.second_weights()))
    change = max(1, options.heights // 2) if options.change else None
    return World(options, schedule, router, History(), names, rosters, change, folder)


class Simulation:
    """The nodes, what befalls them, and the loop that lets time pass."""

    def __init__(self, options: Options, folder: Path, tell: Callable[[str], None]) -> None:
        self._options = options
        self._world = _world(options, folder)
        self._tell = tell
        self._rng = random.Random(f"{options.seed}/scenario")
        self._waiting: list[tuple[Node, int, Callable[[Node], None]]] = []
        plot = Plot()
        liar = Splitter if options.lie == "split" else Liar
        self._liars = {place: liar(place, self._world, plot) for place in options.liar_nodes()}
        self._nodes = {place: Node(place, self._world)
                       for place in range(options.nodes) if place not in self._liars}
        self._world.router.peers = [self._liars.get(place) or self._nodes[place] for place in range(options.nodes)]

    # ------------------------------------------------------------ what befalls nodes

    def _begin(self) -> None:
        options = self._options
        for place, node in self._nodes.items():
            if place not in options.late_nodes():
                node.start(boot=False)
        self._waiting = [(self._nodes[place], max(1, options.heights // 3), self._join)
                         for place in options.late_nodes()]
        self._waiting += [(self._nodes[place], max(1, options.heights // 4), self._kill)
                          for place in options.killed_nodes()]
        self._world.schedule.after(options.interval, self._propose, None)
        self._world.schedule.after(PROGRESS, self._progress, None)

    def _note(self, node: Node, text: str) -> None:
        self._world.history.notes.append(Note(self._world.schedule.now, node.index, text))

    def _join(self, node: Node) -> None:
        self._note(node, "joined")
        node.start(boot=True)

    def _kill(self, node: Node) -> None:
        self._note(node, f"was killed at height {node.store.last.height}")
        node.kill()
        self._world.schedule.after(self._options.down, self._come_back, node)

    def _come_back(self, node: Node) -> None:
        self._note(node, f"came back at height {node.store.last.height}")
        node.start(boot=True)

    def _propose(self, _: None) -> None:
        """Lets a node make a block, and at times a second one, which doesn't know of the first."""
        makers = 1 + (self._rng.random() < self._options.conflicts)
        for place in self._rng.sample(range(self._options.nodes), min(makers, self._options.nodes)):
            (self._liars.get(place) or self._nodes[place]).propose()
        self._world.schedule.after(self._options.interval, self._propose, None)

    def _befall(self) -> None:
        """Does what waits for a height: a node is killed once it has got there itself, and one joins once another
        has."""
        highest = max(node.store.last.height for node in self._nodes.values())

        def is_due(node: Node, height: int) -> bool:
            return (node.store.last.height if node.life else highest) >= height

        due = [(node, act) for node, height, act in self._waiting if is_due(node, height)]
        if due:
            self._waiting = [entry for entry in self._waiting if not is_due(entry[0], entry[1])]
        for node, act in due:
            act(node)

    def _progress(self, _: None) -> None:
        running = [node for node in self._nodes.values() if node.running]
        heights = [node.store.last.height for node in running] or [0]
        queries = sum(node.open_queries() for node in running)
        self._tell(f"{self._world.schedule.now / 1000:8.1f} s   {len(running)} nodes run   heights {min(heights)} to "
                   f"{max(heights)}   queries open {queries}   messages {self._world.router.carried:,}")
        self._world.schedule.after(PROGRESS, self._progress, None)

    # ------------------------------------------------------------ time

    def _finished(self) -> bool:
        return all(node.store.last.height >= self._options.heights for node in self._nodes.values())

    def _step(self) -> None:
        """Lets one moment pass: messages come, all engines that got something work at once, and their lines are
        acted upon, node after node."""
        self._world.schedule.run_next()
        for node in [node for node in self._nodes.values() if node.flush()]:
            node.absorb()
        self._befall()

    def run(self) -> Result:
        """Runs until every honest node has accepted all heights, the limit is reached or a process ends by itself."""
        began = time.monotonic()
        try:
            self._begin()
            while not self._finished() and self._world.schedule.now < self._options.limit:
                self._step()
        except EngineEnded:
            pass  # closing the node tells how it ended
        finally:
            for node in self._nodes.values():
                node.close()
        return Result(self._options, self._world.history, list(self._nodes.values()), self._world.router,
                      self._world.schedule.now, time.monotonic() - began, self._finished())
