"""The boxes of one drawing by rows, and where a box stands in what is looked at. Written from docs/PAGE-DATA.md and docs/OUTPUT.md;
nothing here is taken from the page's scripts.
"""
from __future__ import annotations

import bisect
from typing import Any, Iterator, NamedTuple

Data = dict[str, Any]


class Span(NamedTuple):
    """The part of a drawing that takes the whole width. Boxes of less than that depth lead to what is zoomed, which stands in that row."""
    begin: float
    end: float
    depth: int
    row: int


class Box(NamedTuple):
    """A box with its edges in pixels, cut to what is zoomed."""
    number: int
    left: float
    right: float

    @property
    def width(self) -> float:
        return self.right - self.left

    @property
    def middle(self) -> float:
        return (self.left + self.right) / 2


class Drawing:
    """The boxes of one drawing, and those of each row in their order. A box stands in the row of its depth."""

    def __init__(self, columns: Data, number: int):
        self.number = number
        self.depth: list[int] = columns['depth']
        self.name: list[int] = columns['name']
        self.own: list[int] = columns['own']
        self.start: list[int] = columns['start']
        self.weight: list[int] = columns['weight']
        self.other: list[int] | None = columns.get('other')
        self.total: int = columns['total']
        self.row: list[int] = columns.get('row', self.depth)
        self.rows: list[list[int]] = [[] for _ in range(max(self.row, default=-1) + 1)]
        for box, row in enumerate(self.row):
            self.rows[row].append(box)
        self.starts = [[self.start[box] for box in row] for row in self.rows]

    @property
    def count(self) -> int:
        return len(self.depth)

    def end(self, box: int) -> int:
        return self.start[box] + self.weight[box]

    def is_function(self, box: int) -> bool:
        """Whether a box is of a function, and not of all samples."""
        return self.depth[box] > 0

    def source_name(self, _box: int) -> str | None:
        """The source that stands beside others and of which a box is the root."""
        return None

    def is_caller(self, _box: int) -> bool:
        """Whether a box leads to a function whose callers are shown."""
        return False

    def seen(self, _row: int, span: Span) -> Span:
        """What is seen of a row where a part of the drawing is zoomed."""
        return span

    def parents(self) -> list[int]:
        """The box on which each stands, -1 of none."""
        parents, open_boxes = [], [-1]
        for box, depth in enumerate(self.depth):
            del open_boxes[depth + 1:]
            parents.append(open_boxes[-1])
            open_boxes.append(box)
        return parents

    def within(self, row: int, span: Span) -> Iterator[int]:
        """The boxes of a row that have a part in what is seen of it."""
        boxes, seen = self.rows[row], self.seen(row, span)
        first = bisect.bisect_right(self.starts[row], seen.begin)
        if first > 0 and self.end(boxes[first - 1]) > seen.begin:
            first -= 1
        for place in range(first, len(boxes)):
            if self.start[boxes[place]] >= seen.end:
                return
            yield boxes[place]

    def edges(self, row: int, span: Span, width: float) -> list[Box]:
        """The boxes of a row that are seen, from left to right. The numbers of the data are exact, so only the division rounds."""
        seen = self.seen(row, span)
        whole = seen.end - seen.begin
        return [Box(box, max(0.0, (self.start[box] - seen.begin) * width / whole), min(width, (self.end(box) - seen.begin) * width / whole))
                for box in self.within(row, span)]

    def rows_within(self, span: Span) -> tuple[int, int]:
        """The rows that have something to be seen: from one up to another."""
        rows = [row for row in range(len(self.rows)) if any(True for _ in self.within(row, span))]
        return (rows[0], rows[-1] + 1) if rows else (0, 0)

    def path(self, box: int) -> list[int]:
        """The boxes that lead to this one from the first of all."""
        path = [box]
        for each in range(box - 1, -1, -1):
            if self.depth[each] < self.depth[path[-1]]:
                path.append(each)
        return [each for each in reversed(path) if self.depth[each] > 0]
