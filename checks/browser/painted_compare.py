"""Compares a paint with what is to be seen: each row, and what else a picture has."""
from __future__ import annotations

from typing import Iterator

import painted_words as words
from painted_axis import Tick, axis_faults
from painted_colours import colour, is_same
from painted_labels import Labels, is_plain
from painted_layout import ROW, TOUCH, Fault, Layout, Sorted
from painted_paint import Paint, Rectangle
from painted_places import Sight
from painted_rows import OFF, Row


# How far a number is from its line.
TICK_PAD = 4


def faults_of(sight: Sight, paint: Paint, layout: Layout) -> list[Fault]:
    """All that a paint has wrong."""
    sorted_paint = Sorted(paint, layout)
    found = [Fault('e', text) for text in paint.faults]
    letter = max((text.width / len(text.text) for text in paint.texts if text.width and is_plain(text.text)), default=0.0)
    seen = [row for row in range(len(sight.drawing.rows)) if layout.has(row) and -ROW < layout.top_of(row) < paint.height]
    for number in seen:
        strip = sorted_paint.strip(number)
        boxes = sight.drawing.edges(number, sight.span, paint.width)
        found += Row(sight, number, strip, paint).faults(sight.places(boxes))
        found += Labels(sight, number, strip, layout.top_of(number) + ROW / 2, letter).faults(boxes, paint.width)
    found += [Fault('b', f'row {row} has {len(strip.rectangles)} rectangles, and is not to be seen')
              for row, strip in sorted_paint.strips.items() if row >= len(sight.drawing.rows)]
    return [*found, *heading_faults(sight, paint), *Margins(sight, paint, layout, sorted_paint).faults()]


def heading_faults(sight: Sight, paint: Paint) -> Iterator[Fault]:
    """The title of an SVG tells that of the page, and the total of the drawing."""
    callers = sight.view.callers
    centre = [] if callers is None or sight.drawing.count == 0 else [f'callers and callees of {words.visible(callers[:50])}']
    for wanted in (words.visible(sight.document.title[:100]), words.weight(sight.drawing.total, sight.document.unit), *centre):
        if paint.heading is not None and wanted not in paint.heading:
            yield Fault('e', f'the title {paint.heading!r} does not tell {wanted}')


class Margins:
    """What a picture has beside boxes: the paper under all, in a chart the line between two sources, and the lanes above what is saved."""

    def __init__(self, sight: Sight, paint: Paint, layout: Layout, sorted_paint: Sorted):
        self.sight, self.paint, self.layout, self.sorted = sight, paint, layout, sorted_paint

    def faults(self) -> Iterator[Fault]:
        others = self.sorted.others
        if not others or not self.is_paper(others[0]):
            yield Fault('e', 'there is no paper under the picture')
        rest = [each for each in others if not self.is_paper(each)]
        if self.sight.document.is_timeline(self.sight.view):
            lines = [each for each in rest if self.is_line(each)]
            rest = [each for each in rest if not self.is_line(each)]
            yield from self.line_faults(lines)
        if self.layout.above:
            ticks = [each for each in rest if self.is_tick(each)]
            rest = [each for each in rest if not self.is_tick(each)]
            yield from self.tick_faults(ticks)
            lanes = [each for each in rest if each.top + each.height <= self.layout.lanes]
            rest = [each for each in rest if each.top + each.height > self.layout.lanes]
            yield from self.lane_faults(lanes)
        for rectangle in rest:
            yield Fault('b', f'{rectangle} is no box\'s')

    def is_paper(self, rectangle: Rectangle) -> bool:
        return rectangle.width >= self.paint.width and is_same(rectangle.fill, colour(self.sight.palette.paper))

    def is_line(self, rectangle: Rectangle) -> bool:
        return rectangle.width == 1 and rectangle.height > ROW and is_same(rectangle.fill, colour(self.sight.palette.line))

    def is_tick(self, rectangle: Rectangle) -> bool:
        is_line = rectangle.width == 1 and is_same(rectangle.fill, colour(self.sight.palette.line))
        return is_line and self.layout.lanes <= rectangle.top and rectangle.top + rectangle.height <= self.layout.above

    def tick_faults(self, ticks: list[Rectangle]) -> Iterator[Fault]:
        """Each line of the axis has its number beside it."""
        numbers = [text for text in self.sorted.texts if text.middle > self.layout.lanes]
        if len(numbers) != len(ticks):
            yield Fault('e', f'there are {len(ticks)} lines on the axis, and {len(numbers)} numbers')
        for tick, number in zip(ticks, numbers):
            if abs(number.left - tick.left - TICK_PAD) > OFF:
                yield Fault('c', f'{number.text!r} stands at {number.left:.2f}, and its line at {tick.left:.2f}')
        yield from axis_faults(self.sight, [Tick(number.left - TICK_PAD, number.text) for number in numbers], self.paint.width)

    def across(self, weight: int) -> float:
        """Where a weight of the drawing stands."""
        span = self.sight.span
        return (weight - span.begin) * self.paint.width / (span.end - span.begin)

    def line_faults(self, lines: list[Rectangle]) -> Iterator[Fault]:
        sources = [] if self.sight.view.beside else self.sight.document.sources[1:]
        wanted = [self.across(begin) for _, begin, _ in sources if self.sight.span.begin < begin < self.sight.span.end]
        for edge in wanted:
            if not any(abs(line.left - edge) <= OFF for line in lines):
                yield Fault('e', f'there is no line at {edge:.2f}, where a source ends')
        for line in lines:
            is_high = line.top <= max(0.0, self.layout.top) + TOUCH and line.top + line.height >= self.paint.height - TOUCH
            if not is_high or not any(abs(line.left - edge) <= OFF for edge in wanted):
                yield Fault('b', f'the line {line} is where no source ends')

    def lane_faults(self, lanes: list[Rectangle]) -> Iterator[Fault]:
        """Each source that is seen has its lane, from edge to edge, with a front of its name."""
        seen = []
        for name, begin, end in [] if self.sight.view.beside else self.sight.document.sources:
            left, right = max(0.0, self.across(begin)), min(self.paint.width, self.across(end))
            if right > left:
                seen.append((name, left, right))
        if len(lanes) != len(seen):
            yield Fault('b', f'there are {len(lanes)} lanes, and {len(seen)} sources are seen')
        for lane, (name, left, right) in zip(lanes, seen):
            if abs(lane.left - left) > OFF or min(abs(lane.right - right), abs(lane.right + 1 - right)) > OFF:
                yield Fault('a', f'the lane of {name!r} from {left:.2f} to {right:.2f} is painted from {lane.left:.2f} to {lane.right:.2f}')
            if not is_same(lane.fill, colour(self.sight.palette.dim)):
                yield Fault('d', f'the lane of {name!r} is painted in {lane.fill}')
        for text in (each for each in self.sorted.texts if each.middle <= self.layout.lanes):
            names = [words.visible(name) for name, left, right in seen if left <= text.left < right]
            if not any(words.is_front(text.text, name) for name in names):
                yield Fault('c', f'{text.text!r} at {text.left:.2f} stands on the lane of {names}')
