"""The pictures of a run: the tree of blocks, heights over time, decisions over time."""

from collections import Counter
from dataclasses import dataclass
from typing import Optional

import frames
import verdict
from drawing import Canvas, Plot
from frames import Block
from history import Decision, percentile
from simulation import Result

ROWS = 40
ROW = 26.0
BOX = (100.0, 18.0)
COLUMN = 112.0
WIDTH = 1080.0


def _seconds(time: int) -> float:
    return time / 1000


@dataclass
class Place:
    """A block in the tree's picture."""

    block: Block
    column: int
    accepted_by: int


class Tree:
    """Who made which block on which, and what became of it."""

    def __init__(self, result: Result) -> None:
        self._result = result
        self._nodes = len(result.nodes)
        self._accepted_by = Counter(decision.id for decision in result.history.accepted)
        rejected = {decision.id for decision in result.history.rejected}
        self._moments: dict[bytes, list[Decision]] = {}
        for decision in result.history.accepted:
            self._moments.setdefault(decision.id, []).append(decision)
        self.places: dict[bytes, Place] = {}
        self.rows: dict[int, list[bytes]] = {}
        for id, proposal in result.history.proposals.items():
            if id in self._accepted_by or id in rejected:
                self.rows.setdefault(proposal.block.height, []).append(id)
        for _, row in sorted(self.rows.items()):
            self._place(row)
        self._columns = 1 + max((place.column for place in self.places.values()), default=0)

    def _place(self, row: list[bytes]) -> None:
        """Puts the blocks of a height into columns: that which most nodes accepted into the first, each other below
        its parent, or into the first one that is free."""
        row.sort(key=lambda id: -self._accepted_by[id])
        free = list(range(1, len(row) + 1 + max((place.column for place in self.places.values()), default=0)))
        for place, id in enumerate(row):
            block = self._result.history.proposals[id].block
            parent = self.places.get(block.parent)
            column = 0 if place == 0 else parent.column if parent and parent.column in free else free[0]
            if column:
                free.remove(column)
            self.places[id] = Place(block, column, self._accepted_by[id])

    def pictures(self) -> list[str]:
        """The tree from height 1 upwards, so many heights a picture."""
        heights = sorted(self.rows)
        return [self._picture(heights[at:at + ROWS]) for at in range(0, len(heights), ROWS)]

    def _picture(self, heights: list[int]) -> str:
        wide = 48 + self._columns * COLUMN + 480
        canvas = Canvas(max(WIDTH, wide), ROW * len(heights) + 24, "tree of blocks")
        text = 48 + self._columns * COLUMN
        for x, name in ((0, "height"), (48, "block, maker"), (text, "first block made"), (text + 120, "accepted first"),
                        (text + 270, "accepted last")):
            canvas.text((x, 12), name, class_="head")
        for line, height in enumerate(heights):
            y = 24 + ROW * line
            for id in self.rows[height]:
                self._edge(canvas, self.places[id], y, line == 0)
        for line, height in enumerate(heights):
            y = 24 + ROW * line
            canvas.text((36, y + 13), str(height), text_anchor="end")
            for id in self.rows[height]:
                self._box(canvas, id, y)
            self._told(canvas, self.rows[height][0], text, y + 13)
        return canvas.svg()

    def _edge(self, canvas: Canvas, place: Place, y: float, first: bool) -> None:
        """The line from a block up to its parent in the row above."""
        parent = self.places.get(place.block.parent)
        if not parent and place.block.parent != frames.GENESIS.id:
            return
        x, above = 48 + place.column * COLUMN + BOX[0] / 2, 48 + (parent.column if parent else 0) * COLUMN + BOX[0] / 2
        start = y - ROW + BOX[1] if not first else y - 8
        canvas.path([(above, start), (above, start + 3), (x, y - 3), (x, y)],
                    class_="edge kept" if place.accepted_by else "edge")

    def _kind(self, place: Place) -> str:
        alone = sum(self._accepted_by[id] > 0 for id in self.rows[place.block.height]) == 1
        if not place.accepted_by:
            return "rejected"
        return "accepted" if alone else "split"

    def _box(self, canvas: Canvas, id: bytes, y: float) -> None:
        place, proposal = self.places[id], self._result.history.proposals[id]
        x = 48 + place.column * COLUMN
        title = (f"{id.hex()}\nmade by node {proposal.proposer + 1} at {_seconds(proposal.time):.2f} s\n"
                 f"accepted by {place.accepted_by} of {self._nodes} nodes")
        canvas.box((x, y), BOX, title, rx=4, class_=self._kind(place))
        canvas.text((x + 6, y + 13), id.hex()[:6], class_="id")
        lies = proposal.proposer in self._result.options.liar_nodes()
        canvas.text((x + BOX[0] - 6, y + 13), f"{proposal.proposer + 1}{' lies' if lies else ''}", text_anchor="end",
                    class_="maker")

    def _told(self, canvas: Canvas, id: bytes, x: float, y: float) -> None:
        """When the row's first block was made and accepted, as text."""
        canvas.text((x, y), f"{_seconds(self._result.history.proposals[id].time):.2f} s")
        moments = self._moments.get(id)
        if not moments:
            return
        first, last = (end(moments, key=lambda decision: decision.time) for end in (min, max))
        for shift, decision in ((120, first), (270, last)):
            how = ", catching up" if decision.caught_up else ""
            canvas.text((x + shift, y), f"{_seconds(decision.time):.2f} s by {decision.node + 1}{how}")


def _moments(result: Result, plot: Plot) -> None:
    """Marks what befell nodes, those of a kind within a moment as one."""
    marks: dict[tuple[int, str], list[int]] = {}
    for note in result.history.notes:
        what = " ".join(note.text.split(" ")[:2])
        marks.setdefault((note.time, what), []).append(note.node + 1)
    rows = [(time, f"{', '.join(map(str, nodes))} {what}") for (time, what), nodes in sorted(marks.items())]
    if result.history.changes:
        rows.append((result.history.changes[0], "first with new validators"))
    for row, (time, text) in enumerate(sorted(rows)):
        plot.mark(_seconds(time), text, row % 24)


def heights(result: Result) -> str:
    """Heights over time, a line for each node."""
    canvas = Canvas(WIDTH, 380, "heights over time")
    most = max((decision.height for decision in result.history.accepted), default=1)
    plot = Plot(canvas, _seconds(result.ended), most)
    plot.axes("simulated seconds", "last accepted height")
    for node in sorted(result.nodes, key=lambda node: verdict.part(result, node.index) != "honest"):
        points = [plot.at(0, 0)]
        height = 0
        for decision in result.history.accepted:
            if decision.node == node.index:
                points += [plot.at(_seconds(decision.time), height), plot.at(_seconds(decision.time), decision.height)]
                height = decision.height
        points.append(plot.at(_seconds(result.ended), height))
        canvas.path(points, class_=f"node {verdict.part(result, node.index)}")
    _moments(result, plot)
    return canvas.svg()


def decisions(result: Result) -> str:
    """How many blocks the nodes accepted and rejected, over time."""
    canvas = Canvas(WIDTH, 240, "decisions over time")
    end = max(1, result.ended)
    width = next(step for step in (100, 250, 500, 1000, 2500, 5000, 10**9) if end / step <= 60)
    taken = Counter(d.time // width for d in result.history.accepted if not d.caught_up)
    caught = Counter(d.time // width for d in result.history.accepted if d.caught_up)
    refused = Counter(d.time // width for d in result.history.rejected)
    most = max(((taken + caught + refused)[slot] for slot in range(end // width + 1)), default=1)
    plot = Plot(canvas, _seconds(result.ended), most)
    plot.axes("simulated seconds", f"blocks in {width / 1000:g} s")
    for slot in range(end // width + 1):
        below = 0
        for counts, kind in ((taken, "accepted"), (caught, "caught"), (refused, "rejected")):
            if counts[slot]:
                left, high = plot.at(_seconds(slot * width), below + counts[slot])
                right, low = plot.at(_seconds(min(end, (slot + 1) * width)), below)
                canvas.box((left + 0.5, high), (max(1.0, right - left - 1), low - high), class_=f"bar {kind}")
                below += counts[slot]
    return canvas.svg()


def _level(plot: Plot, value: Optional[int], name: str) -> None:
    if value is None:
        return
    plot.canvas.line(plot.at(0, _seconds(value)), plot.at(plot.most_x, _seconds(value)), class_="level")
    plot.canvas.text((plot.at(plot.most_x, 0)[0] - 4, plot.at(0, _seconds(value))[1] - 4),
                     f"{name} {_seconds(value):.2f} s", text_anchor="end", class_="note")


def waits(result: Result) -> str:
    """How long each node took to accept each block, by when it did."""
    canvas = Canvas(WIDTH, 260, "time to decide")
    waited = result.history.waiting_times()
    plot = Plot(canvas, _seconds(result.ended), _seconds(waited[-1]) * 1.05 if waited else 1)
    plot.axes("simulated seconds", "seconds to decide")
    for decision in result.history.accepted:
        proposal = result.history.proposals.get(decision.id)
        if proposal and not decision.caught_up:
            kind = verdict.part(result, decision.node)
            canvas.dot(plot.at(_seconds(decision.time), _seconds(decision.time - proposal.time)), 2.2,
                       class_=f"dot {kind}")
    _level(plot, percentile(waited, 50), "median")
    _level(plot, percentile(waited, 99), "99 of 100 within")
    return canvas.svg()
