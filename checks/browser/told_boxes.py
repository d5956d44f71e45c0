"""What the columns of a drawing tell, and the boxes that are read of them. Written from docs/PAGE-DATA.md; nothing here is taken from the
page's scripts.
"""
from __future__ import annotations

import itertools
from typing import Any, Iterable, NamedTuple

COLUMNS = ('gap', 'rest', 'tail', 'up')


class Box(NamedTuple):
    """Where a box is, and what it weighs."""
    depth: int
    start: int
    weight: int
    own: int

    @property
    def end(self) -> int:
        return self.start + self.weight


NONE = Box(0, 0, 0, 0)


def columns_of(boxes: Iterable[Box]) -> dict[str, list[int]]:
    """The columns that tell of boxes in their order."""
    columns: dict[str, list[int]] = {key: [] for key in COLUMNS}
    row = [NONE, *boxes]
    for place, (before, box) in enumerate(itertools.pairwise(row)):
        stands_on_it = box.depth == before.depth + 1
        carries_the_next = any(each.depth == box.depth + 1 for each in row[place + 2:place + 3])
        columns['up'].append(before.depth + 1 - box.depth)
        columns['gap'].append(box.start - (before.start if stands_on_it else before.end))
        columns['tail'].append(before.end - box.end if stands_on_it else box.weight)
        columns['rest'].append(box.own if carries_the_next else box.weight - box.own)
    return columns


def boxes_of(columns: dict[str, Any]) -> list[Box]:
    """The boxes of which the columns tell."""
    boxes: list[Box] = []
    before = NONE
    ups: list[int] = columns['up']
    for place, (gap, rest, tail, up) in enumerate(zip(*(columns[key] for key in COLUMNS))):
        if up == 0:
            start = before.start + gap
            weight = before.end - tail - start
        else:
            start = before.end + gap
            weight = tail
        carries_the_next = ups[place + 1:place + 2] == [0]
        before = Box(before.depth + 1 - up, start, weight, rest if carries_the_next else weight - rest)
        boxes.append(before)
    return boxes


def with_boxes(columns: dict[str, Any]) -> dict[str, Any]:
    """A drawing of a page with the numbers of its boxes one by one, in place of the columns that tell of them."""
    others = {key: value for key, value in columns.items() if key not in COLUMNS}
    return others | {key: [getattr(box, key) for box in boxes_of(columns)] for key in Box._fields}
