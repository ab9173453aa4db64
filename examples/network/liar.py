"""Nodes that lie. No process stands behind them: they answer what the others ask, and make blocks."""

import random
from dataclasses import dataclass, field
from typing import Optional

import frames
from frames import Block
from messages import Kind, Message
from world import World


@dataclass
class Plot:
    """What liars know together: the blocks that they saw, and, where they split the others, the two chains."""

    blocks: dict[bytes, Block] = field(default_factory=dict)
    newest: Optional[Block] = None
    half_of: dict[bytes, int] = field(default_factory=dict)
    tips: list[Block] = field(default_factory=lambda: [frames.GENESIS, frames.GENESIS])

    def see(self, block: Block) -> None:
        """Learns a block. A child of a block of one half's chain belongs to that chain; the highest is its tip."""
        self.blocks[block.id] = block
        if not self.newest or block.height > self.newest.height:
            self.newest = block
        half = self.half_of.get(block.parent)
        if half is not None and block.id not in self.half_of:
            self.half_of[block.id] = half
            if block.height > self.tips[half].height:
                self.tips[half] = block

    def split(self, block: Block, half: int) -> None:
        """Begins the chain that one half of the nodes is shown."""
        self.half_of[block.id] = half
        self.tips[half] = block

    def is_whole(self) -> bool:
        """Whether the nodes aren't split: they never were, or one half's chain stays behind."""
        return abs(self.tips[0].height - self.tips[1].height) > 2 or frames.GENESIS in self.tips


class Liar:
    """A node that lies at random: unknown blocks, old ones, the newest one, or no answer; and blocks that no
    honest node would make."""

    def __init__(self, index: int, world: World, plot: Plot) -> None:
        self.index = index
        self._world = world
        self._plot = plot
        self._rng = random.Random(f"{world.options.seed}/liar/{index}")

    def receive(self, message: Message) -> None:
        """Looks at a block that is shown; answers a question as it likes."""
        if message.kind is Kind.BLOCK:
            block = frames.read_block(message.blocks[0])
            if block:
                self._plot.see(block)
            return
        answer = self._answer(message)
        if answer:
            self._world.router.send(answer)

    def _some_id(self) -> bytes:
        known = list(self._plot.blocks)
        return self._rng.choice(known) if known and self._rng.random() < 0.5 else self._rng.randbytes(32)

    def _some_block(self) -> bytes:
        known = list(self._plot.blocks.values())
        return self._rng.choice(known).data if known and self._rng.random() < 0.5 else self._rng.randbytes(60)

    def _answer(self, message: Message) -> Optional[Message]:
        if self._rng.random() < 0.2:
            return None
        if message.kind in (Kind.ASK_QUERY, Kind.ASK_FRONTIER):
            return message.answer(ids=(self._some_id(), self._some_id()))
        if message.kind is Kind.ASK_ACCEPTED:
            named = [id for id in message.ids if self._rng.random() < 0.5]
            return message.answer(ids=(*named, self._rng.randbytes(32)))
        return message.answer(blocks=(self._some_block(),))

    def propose(self) -> None:
        """Makes a block of one of four kinds, and shows it to some: a rival of a known one, one above the cap, one
        at a wrong height, one without a parent."""
        known = self._plot.newest or frames.GENESIS
        note = self._world.names[self.index] + self._rng.randbytes(4)
        block = self._rng.choice((
            frames.tally_block(known.parent, known.height, 1, note),
            frames.tally_block(known.id, known.height + 1, frames.CAP + 1, note),
            frames.tally_block(known.id, known.height + 3, 1, note),
            frames.tally_block(self._rng.randbytes(32), known.height + 1, 1, note)))
        self._plot.see(block)
        self._world.history.propose(block, self.index, self._world.schedule.now)
        for peer in range(len(self._world.names)):
            if self._rng.random() < 0.5:
                self._show(block, peer)

    def _show(self, block: Block, peer: int) -> None:
        if peer != self.index:
            self._world.router.send(Message(Kind.BLOCK, self.index, peer, 0, 0, blocks=(block.data,)))


class Splitter(Liar):
    """A liar that shows one chain to the nodes at even places and another to those at odd ones."""

    def __init__(self, index: int, world: World, plot: Plot) -> None:
        super().__init__(index, world, plot)
        self._made = 0

    def propose(self) -> None:
        """Makes two blocks on the highest one, for the halves to build on, and again once one half follows no more."""
        if not self._plot.is_whole():
            return
        base = self._plot.newest or frames.GENESIS
        self._made += 1
        for half in (0, 1):
            note = self._world.names[self.index] + self._made.to_bytes(4, "big")
            block = frames.tally_block(base.id, base.height + 1, 1 + half, note)
            self._plot.see(block)
            self._plot.split(block, half)
            self._world.history.propose(block, self.index, self._world.schedule.now)
            for peer in range(half, len(self._world.names), 2):
                self._show(block, peer)

    def _answer(self, message: Message) -> Optional[Message]:
        tip = self._plot.tips[message.source % 2]
        if message.kind is Kind.ASK_BLOCK:
            block = self._plot.blocks.get(message.ids[0])
            return message.answer(blocks=(block.data,)) if block else None
        if message.kind is Kind.ASK_QUERY and tip is not frames.GENESIS:
            return message.answer(ids=(tip.id, tip.id))
        return None
