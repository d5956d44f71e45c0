"""Where rows stand in a picture, and which of the painted rectangles and texts stand in each."""
from __future__ import annotations

import math
from dataclasses import dataclass, field
from typing import NamedTuple

from painted_paint import Paint, Rectangle, Text

ROW = 18
# Above the rows of a saved chart stand the sources, and then the axis.
LANES, AXIS = 22, 16
# What differs by less stands at the same place. What is narrower is not seen: an SVG has two digits behind the point.
TOUCH, UNSEEN = 0.01, 0.005


class Fault(NamedTuple):
    """The letters: (a) a box stands elsewhere, (b) a rectangle is no box's, (c) a label is not its box's, (d) a colour is another's,
    (e) something that is to be seen is not, (f) tip or status tell of something else."""
    letter: str
    text: str


class Layout(NamedTuple):
    """The top of the first place for a row, how many there are, whether the root has the lowest, how high what stands above is, the
    sources and the axis of a chart, and the first row of which anything is painted."""
    top: float
    rows: int
    below: bool
    above: int = 0
    first: int = 0

    @property
    def lanes(self) -> int:
        """Where the sources end and the axis begins."""
        return max(0, self.above - AXIS)

    def has(self, row: int) -> bool:
        return self.first <= row < self.rows

    def top_of(self, row: int) -> float:
        return self.top + (self.rows - 1 - row if self.below else row) * ROW

    def row_at(self, down: float) -> int:
        place = math.floor((down - self.top) / ROW)
        return self.rows - 1 - place if self.below else place


Ordered = tuple[int, Rectangle]
# What is wider is kept for so many pixels together.
SPAN = 32


@dataclass
class Strip:
    """What was painted in a row: the rectangles in order, and the texts."""
    rectangles: list[Ordered] = field(default_factory=list)
    texts: list[Text] = field(default_factory=list)
    narrow: dict[int, list[Ordered]] = field(default_factory=dict)
    wide: dict[int, list[Ordered]] = field(default_factory=dict)

    def add(self, order: int, rectangle: Rectangle) -> None:
        self.rectangles.append((order, rectangle))
        first, beyond = math.floor(rectangle.left), math.ceil(rectangle.right)
        if beyond - first < SPAN:
            for pixel in range(first, beyond):
                self.narrow.setdefault(pixel, []).append((order, rectangle))
        else:
            for span in range(first // SPAN, (beyond - 1) // SPAN + 1):
                self.wide.setdefault(span, []).append((order, rectangle))

    def about(self, pixel: int) -> list[Ordered]:
        """The rectangles that touch a pixel, in order."""
        wide = [each for each in self.wide.get(pixel // SPAN, []) if each[1].left < pixel + 1 and each[1].right > pixel]
        narrow = self.narrow.get(pixel, [])
        return sorted(wide + narrow) if wide and narrow else wide or narrow

    def at(self, across: float) -> list[Ordered]:
        """The rectangles over a point, the last painted first."""
        return [each for each in reversed(self.about(math.floor(across))) if each[1].left <= across < each[1].right]


class Sorted:
    """A paint, with its rectangles and texts given to their rows. `others` and `texts` stand in none."""

    def __init__(self, paint: Paint, layout: Layout):
        self.strips: dict[int, Strip] = {}
        self.others: list[Rectangle] = []
        self.texts: list[Text] = []
        for order, rectangle in enumerate(paint.rectangles):
            if min(rectangle.right, paint.width) - rectangle.left < UNSEEN:
                continue
            row = layout.row_at(rectangle.top + ROW / 2)
            is_of_row = abs(rectangle.top - layout.top_of(row)) < TOUCH and abs(rectangle.height - (ROW - 1)) < TOUCH
            if layout.has(row) and is_of_row:
                self.strip(row).add(order, rectangle)
            else:
                self.others.append(rectangle)
        for text in paint.texts:
            row = layout.row_at(text.middle)
            (self.strip(row).texts if layout.has(row) else self.texts).append(text)

    def strip(self, row: int) -> Strip:
        return self.strips.setdefault(row, Strip())
