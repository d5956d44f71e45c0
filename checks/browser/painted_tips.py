"""What tip and status say over a place of the screen: that of the box which is painted there, or how many boxes are joined."""
from __future__ import annotations

import math
import random
from typing import Any, Iterator, NamedTuple

import painted_words as words
from painted_layout import ROW, Fault, Layout, Sorted
from painted_paint import Paint
from painted_places import Place, Sight
from painted_rows import Row

# A pointer stands so far inside of what it points to.
INSIDE, EDGE = 0.02, 0.1


class Pointed(NamedTuple):
    """A point of the picture, and the boxes that are painted there; none beside all boxes."""
    point: tuple[float, float]
    boxes: list[int]


def tip_places(drawn: random.Random, sight: Sight, paint: Paint, layout: Layout, count: int) -> list[Pointed]:
    """So many points at random: half of them in any rectangle, also at its edges, and the others anywhere in a row."""
    sorted_paint = Sorted(paint, layout)
    rows = [row for row in range(len(sight.drawing.rows)) if 0 <= layout.top_of(row) <= paint.height - ROW]
    chosen: list[Pointed] = []
    for row in {each: None for each in drawn.choices(rows, k=count)} if rows else []:
        strip = sorted_paint.strip(row)
        compared = Row(sight, row, strip, paint)
        places = sight.places(sight.drawing.edges(row, sight.span, paint.width))
        for _ in compared.faults(places):
            pass
        for _ in range(math.ceil(2 * count / len(rows))):
            across = drawn.uniform(0, paint.width)
            if strip.rectangles and drawn.random() < 0.5:
                rectangle = drawn.choice(strip.rectangles)[1]
                right = min(rectangle.right, paint.width)
                across = drawn.choice((rectangle.left + EDGE, drawn.uniform(rectangle.left, right), right - EDGE))
            boxes = boxes_at(compared, places, across)
            if boxes is not None:
                chosen.append(Pointed((across, layout.top_of(row) + ROW / 2), boxes))
    return drawn.sample(chosen, min(count, len(chosen)))


def boxes_at(row: Row, places: list[Place], across: float) -> list[int] | None:
    """The boxes for which the rectangle over a point stands; no boxes where none is near. None where it is open what is told, as on the
    line between two boxes."""
    for order, rectangle in row.strip.at(across)[:1]:
        place = row.explained.get(order)
        is_inside = rectangle.left + INSIDE <= across <= min(rectangle.right, row.width) - INSIDE
        return place.boxes if place and is_inside and not place.is_doubtful else None
    is_far = all(across < place.left - 1.5 or across > place.right + 1.5 for place in places)
    return [] if is_far else None


def tip_faults(sight: Sight, pointed: Pointed, told: dict[str, Any]) -> Iterator[Fault]:
    """What is wrong with the lines of the tip, and with the status."""
    at = f'at {pointed.point[0]:.2f}, {pointed.point[1]:.2f}'
    lines: list[str] = told['lines']
    if not pointed.boxes:
        if lines:
            yield Fault('f', f'{at}, where there is no box, the tip says {lines}')
        return
    for what, text, is_exact in (('tip', ' · '.join(lines), False), ('status', told['status'], True)):
        begin, parts = wanted(sight, pointed.boxes, is_exact)
        if not (text.startswith(begin) and all(part in text[len(begin):] for part in parts)):
            yield Fault('f', f'{at} is painted {begin!r} with {parts}, and the {what} says {text[:300]!r}')


def wanted(sight: Sight, boxes: list[int], is_exact: bool) -> tuple[str, list[str]]:
    """How a tip and a status begin, and what they tell then: the weight, its part of the whole, and of one box, but for a caller, its
    own. A status has the exact numbers."""
    drawing = sight.drawing

    def told(number: int) -> str:
        return f'{number:,}' if is_exact else words.weight(number, sight.document.unit)

    weight = sum(drawing.weight[box] for box in boxes)
    name = words.visible(sight.document.name(drawing, boxes[0])[:100]) or words.EMPTY
    parts = [told(weight), words.percent(weight, drawing.total)]
    if len(boxes) > 1:
        return words.joined(len(boxes)), parts
    return name, parts if drawing.is_caller(boxes[0]) else [*parts, told(drawing.own[boxes[0]])]
