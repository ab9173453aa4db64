"""Pictures as SVG that stands in a page."""

from dataclasses import dataclass, field
from html import escape
from typing import Sequence

Point = tuple[float, float]


def _number(value: float) -> str:
    return f"{value:.1f}".rstrip("0").rstrip(".")


def _attributes(given: dict[str, object]) -> str:
    parts = []
    for name, value in given.items():
        text = _number(value) if isinstance(value, float) else escape(str(value))
        parts.append(f' {name.rstrip("_").replace("_", "-")}="{text}"')
    return "".join(parts)


@dataclass
class Canvas:
    """A picture that grows shape by shape."""

    width: float
    height: float
    label: str
    _parts: list[str] = field(default_factory=list)

    def add(self, tag: str, attributes: dict[str, object], inside: str = "") -> None:
        """Adds a shape; `class_` and the like stand for names that are none in Python."""
        self._parts.append(f"<{tag}{_attributes(attributes)}>{inside}</{tag}>")

    def line(self, start: Point, end: Point, **attributes: object) -> None:
        """Adds a straight line."""
        ends = {"x1": start[0], "y1": start[1], "x2": end[0], "y2": end[1]}
        self.add("line", {**ends, **attributes})

    def text(self, place: Point, text: str, **attributes: object) -> None:
        """Adds a word or a line of text."""
        self.add("text", {"x": place[0], "y": place[1], **attributes}, escape(text))

    def box(self, corner: Point, size: Point, title: str = "", **attributes: object) -> None:
        """Adds a rectangle; the title shows where a pointer rests on it."""
        inside = f"<title>{escape(title)}</title>" if title else ""
        sides = {"x": corner[0], "y": corner[1], "width": size[0], "height": size[1]}
        self.add("rect", {**sides, **attributes}, inside)

    def dot(self, middle: Point, radius: float, **attributes: object) -> None:
        """Adds a filled circle."""
        self.add("circle", {"cx": middle[0], "cy": middle[1], "r": radius, **attributes})

    def path(self, points: Sequence[Point], **attributes: object) -> None:
        """Adds a line through points."""
        self.add("polyline", {"points": " ".join(f"{_number(x)},{_number(y)}" for x, y in points), **attributes})

    def svg(self) -> str:
        """The picture."""
        return (f'<svg viewBox="0 0 {_number(self.width)} {_number(self.height)}" role="img" '
                f'aria-label="{escape(self.label)}">{"".join(self._parts)}</svg>')


def ticks(most: float, about: int) -> list[float]:
    """Round numbers from 0 up to a value, about so many."""
    if most <= 0:
        return [0.0]
    step = 1e-3
    while most / step > about:
        for factor in (2, 2.5, 2):
            step *= factor
            if most / step <= about:
                break
    return [step * i for i in range(int(most / step) + 1)]


@dataclass
class Plot:
    """A picture with two axes, each from 0 up to a value."""

    canvas: Canvas
    most_x: float
    most_y: float
    left: float = 52
    right: float = 16
    top: float = 12
    bottom: float = 40

    def at(self, x: float, y: float) -> Point:
        """Where a value stands."""
        width = self.canvas.width - self.left - self.right
        height = self.canvas.height - self.top - self.bottom
        return (self.left + width * x / (self.most_x or 1),
                self.canvas.height - self.bottom - height * y / (self.most_y or 1))

    def axes(self, name_x: str, name_y: str) -> None:
        """Draws both axes with their numbers and names."""
        for x in ticks(self.most_x, 10):
            self.canvas.line(self.at(x, 0), self.at(x, self.most_y), class_="grid")
            self.canvas.text((self.at(x, 0)[0], self.canvas.height - self.bottom + 15), f"{x:g}",
                             text_anchor="middle")
        for y in ticks(self.most_y, 6):
            self.canvas.line(self.at(0, y), self.at(self.most_x, y), class_="grid")
            self.canvas.text((self.left - 6, self.at(0, y)[1] + 4), f"{y:g}", text_anchor="end")
        self.canvas.text((self.at(self.most_x / 2, 0)[0], self.canvas.height - 6), name_x, text_anchor="middle")
        middle = self.top + (self.canvas.height - self.top - self.bottom) / 2
        self.canvas.text((12, middle), name_y, text_anchor="middle", transform=f"rotate(-90 12 {_number(middle)})")

    def mark(self, x: float, text: str, row: int) -> None:
        """Draws a moment with its name."""
        top = self.at(x, self.most_y)
        self.canvas.line(self.at(x, 0), top, class_="moment")
        end = x > 0.8 * self.most_x
        self.canvas.text((top[0] + (-4 if end else 4), top[1] + 10 + 13 * row), text, class_="note",
                         text_anchor="end" if end else "start")
