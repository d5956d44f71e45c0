"""Compares the rectangles of a row with the boxes that are to be seen in it."""
from __future__ import annotations

import math
from typing import Iterator

import painted_words as words
from painted_colours import is_same
from painted_layout import TOUCH, Fault, Ordered, Strip
from painted_paint import Paint, Rectangle
from painted_places import DOUBT, WIDE, Place, Sight

# How far an edge may be off: of boxes that are wide, with the line of paper behind them; and of narrower ones, which are painted wide
# enough to be seen, and beside one another.
OFF, NARROW_OFF = 1 + DOUBT, 0.5 + TOUCH

# What is narrower may have no room between its neighbours. Then its pixels are still painted.
HARDLY = 0.05


def is_near(rectangle: Rectangle, place: Place) -> bool:
    """Whether a rectangle stands where a place does. A wide one leaves a pixel of paper behind it."""
    left, right = abs(rectangle.left - place.left), rectangle.right - place.right
    is_wide = place.width > WIDE - DOUBT and left <= OFF and abs(right + 1) <= OFF
    return is_wide or (place.width < WIDE + DOUBT and left <= NARROW_OFF and abs(right) <= NARROW_OFF)


def distance(rectangle: Rectangle, place: Place) -> float:
    return abs(rectangle.left - place.left) + abs(rectangle.right - place.right)


def has_colour(rectangle: Rectangle, place: Place) -> bool:
    return any(is_same(rectangle.fill, each) for each in place.colours)


class Row:
    """One row of a paint beside its places. `explained` has the place for which each rectangle stands."""

    def __init__(self, sight: Sight, number: int, strip: Strip, paint: Paint):
        self.sight, self.number, self.strip = sight, number, strip
        self.width, self.has_titles = paint.width, paint.heading is not None
        self.explained: dict[int, Place] = {}

    def faults(self, places: list[Place]) -> Iterator[Fault]:
        for place in places:
            if place.is_doubtful:
                self.explain(place)
            yield from self.place_faults(place)
            yield from self.pixel_faults(place)
        for order, rectangle in self.strip.rectangles:
            if order not in self.explained:
                yield self.fault('b', f'the rectangle from {rectangle.left:.2f} to {rectangle.right:.2f} in {rectangle.fill} is no box\'s')

    def fault(self, letter: str, text: str) -> Fault:
        return Fault(letter, f'row {self.number}: {text}')

    def called(self, place: Place) -> str:
        """A place as a fault names it."""
        name = self.sight.document.name(self.sight.drawing, place.boxes[0])
        first = f'{name[:40]!r} (box {place.boxes[0]}) from {place.left:.2f} to {place.right:.2f}'
        return first if len(place.boxes) == 1 else f'{len(place.boxes)} boxes, the first {first}'

    def about(self, place: Place) -> list[Ordered]:
        """The rectangles over the middle of a place, and the pixels beside it."""
        pixel = math.floor(place.middle)
        return list({each[0]: each for beside in (pixel - 1, pixel, pixel + 1) for each in self.strip.about(beside)}.values())

    def explain(self, place: Place) -> None:
        """Beside what is in doubt there may be more than one narrow rectangle."""
        self.explained.update((order, place) for order, rectangle in self.about(place)
                              if rectangle.width < WIDE and has_colour(rectangle, place))

    def painted(self, place: Place) -> Ordered | None:
        """The rectangle that stands for a place: the last painted over its middle. What is narrow may be painted beside its middle, for
        want of room: of what is near that of its colour is taken, and rather one that stands for nothing else."""
        over = self.strip.at(place.middle)
        if over and (place.width >= WIDE or self.preference(place, *over[0])[:2] == (False, False) and is_near(over[0][1], place)):
            return over[0]
        near = [each for each in self.about(place) if is_near(each[1], place)] or over
        return min(near, key=lambda each: self.preference(place, *each)) if near else None

    def preference(self, place: Place, order: int, rectangle: Rectangle) -> tuple[bool, bool, float, int]:
        return not has_colour(rectangle, place), order in self.explained, round(distance(rectangle, place), 3), -order

    def is_seen(self, rectangle: Rectangle, place: Place) -> bool:
        """Whether the rectangle lies over all others where its place is. Where it had to be painted beside its place, it may lie under
        others."""
        left, right = max(rectangle.left, place.left), min(rectangle.right, place.right)
        return right <= left or is_same(self.strip.at((left + right) / 2)[0][1].fill, rectangle.fill)

    def place_faults(self, place: Place) -> Iterator[Fault]:
        found = self.painted(place)
        if place.width < HARDLY and not (found and is_near(found[1], place) and has_colour(found[1], place)):
            return
        if found is None:
            yield self.fault('e', f'nothing is painted over {self.called(place)}')
            return
        order, rectangle = found
        self.explained[order] = place
        if not place.is_doubtful and not is_near(rectangle, place):
            yield self.fault('a', f'{self.called(place)} is painted from {rectangle.left:.2f} to {rectangle.right:.2f}')
        if not has_colour(rectangle, place):
            yield self.fault('d', f'{self.called(place)} is painted in {rectangle.fill}, not in {place.colours}')
        if place.width >= HARDLY and not self.is_seen(rectangle, place):
            yield self.fault('e', f'{self.called(place)} is painted over')
        if self.has_titles and not place.is_doubtful:
            yield from self.title_faults(rectangle.title or '', place)

    def pixel_faults(self, place: Place) -> Iterator[Fault]:
        """Each pixel is painted that something narrower than a pixel touches."""
        if place.width >= WIDE:
            return
        for pixel in range(math.floor(place.left), math.ceil(place.right)):
            if min(place.right, pixel + 1) - max(place.left, pixel) > TOUCH and not self.strip.about(pixel):
                yield self.fault('e', f'pixel {pixel} is not painted, which {self.called(place)} touches')

    def title_faults(self, title: str, place: Place) -> Iterator[Fault]:
        """A box of an SVG tells its name, its weight and its percent; a joined place how many boxes it has and what they weigh."""
        drawing, document = self.sight.drawing, self.sight.document
        weight = sum(drawing.weight[box] for box in place.boxes)
        name = words.visible(document.name(drawing, place.boxes[0])[:100]) or words.EMPTY
        begin = name if len(place.boxes) == 1 else words.joined(len(place.boxes))
        wanted = [begin, words.weight(weight, document.unit), words.percent(weight, drawing.total)]
        if not (title.startswith(begin) and all(part in title for part in wanted)):
            yield self.fault('c', f'{self.called(place)} has the title {title[:200]!r}, and not {wanted}')
