"""What a host keeps over a restart: the accepted blocks, in a file."""

from pathlib import Path
from typing import Optional

import frames
from frames import Block

MOST_BLOCKS = 64
MOST_BYTES = 524_288


class Store:
    """The accepted blocks of a node from height 1 upwards, each written to the file as it is accepted.

    What a Start needs is read from it: the last accepted block, its height, and the chain's state there. The engine
    writes no line of a chain's state, so a host works it out from the blocks, as here the sum of their amounts.
    """

    def __init__(self, path: Path) -> None:
        self._path = path
        self.last = frames.GENESIS
        self.total = 0
        self._blocks = {self.last.id: self.last}
        data = path.read_bytes() if path.exists() else b""
        while data:
            end = 4 + int.from_bytes(data[:4], "big")
            block = frames.read_block(data[4:end])
            assert block, "the store's file is damaged"
            self._take(block)
            data = data[end:]
        self._file = open(path, "ab", buffering=0)

    def _take(self, block: Block) -> None:
        self._blocks[block.id] = block
        self.last = block
        self.total += block.amount

    def accept(self, block: Block) -> None:
        """Keeps the next accepted block."""
        self._file.write(frames.frame(block.data))
        self._take(block)

    def reopened(self) -> "Store":
        """What a host finds after it was killed: the file's blocks and nothing else."""
        self._file.close()
        return Store(self._path)

    def close(self) -> None:
        """Lets the file go."""
        self._file.close()

    def holds(self, id: bytes) -> bool:
        """Whether the block is accepted."""
        return id in self._blocks

    def block(self, id: bytes) -> Optional[Block]:
        """An accepted block."""
        return self._blocks.get(id)

    def blocks(self) -> list[Block]:
        """The accepted blocks from height 1 upwards."""
        return list(self._blocks.values())[1:]

    def ancestors(self, id: bytes) -> tuple[bytes, ...]:
        """The bytes of an accepted block, its parent and so on, within what one answer may hold."""
        chain: list[bytes] = []
        room = MOST_BYTES
        block = self._blocks.get(id)
        while block and len(chain) < MOST_BLOCKS and len(block.data) <= room:
            chain.append(block.data)
            room -= len(block.data)
            block = self._blocks.get(block.parent)
        return tuple(chain)
