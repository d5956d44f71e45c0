"""What of a row is to be painted as one: a box that is a pixel wide or wider, a narrower one that begins alone in its pixel, or all
narrower ones that begin in one pixel, joined.
"""
from __future__ import annotations

import math
from dataclasses import dataclass, field

import painted_words as words
from painted_colours import Colour, Palette, colour, of_change, of_name, of_package
from painted_data import Document, View, matches_of
from painted_drawing import Box, Drawing, Span

# Nearer to a whole pixel than this an edge may be rounded either way.
DOUBT = 1e-6
WIDE = 3


@dataclass
class Place:
    """What is painted as one, with the colours that it may have. `is_doubtful` says that a neighbour may be joined with it or not."""
    left: float
    right: float
    boxes: list[int]
    colours: list[Colour]
    is_doubtful: bool = False

    @property
    def width(self) -> float:
        return self.right - self.left

    @property
    def middle(self) -> float:
        return (self.left + self.right) / 2


@dataclass
class Narrow:
    """The boxes narrower than a pixel that begin in each pixel; and those of which a rounding decides whether and where they do."""
    certain: dict[int, list[Box]] = field(default_factory=dict)
    doubtful: list[Box] = field(default_factory=list)
    loose: set[int] = field(default_factory=set)

    def add(self, box: Box) -> None:
        pixel = math.floor(box.left)
        nearest = round(box.left)
        if abs(box.width - 1) < DOUBT:
            self.doubtful.append(box)
            self.loose.add(pixel)
        elif box.left > 0 and abs(box.left - nearest) < DOUBT:
            self.doubtful.append(box)
            self.loose.update((nearest - 1, nearest))
        else:
            self.certain.setdefault(pixel, []).append(box)


class Sight:
    """The places of each row of what is looked at, and the colours of its boxes."""

    def __init__(self, document: Document, view: View, palette: Palette):
        self.document, self.view, self.palette = document, view, palette
        self.drawing: Drawing = document.drawing(view)
        self.span: Span = document.span(view)
        self.matching = matches_of(document, view)
        self.of_names: dict[int, Colour] = {}
        self.dim, self.match, self.joined, self.joined_match = map(
            colour, (palette.dim, palette.match, palette.joined, palette.joined_match))

    def is_match(self, box: int) -> bool:
        return self.matching is not None and self.drawing.is_function(box) and self.drawing.name[box] in self.matching

    def is_dim(self, box: int) -> bool:
        leads_on = self.drawing.depth[box] < self.drawing.seen(self.drawing.row[box], self.span).depth
        return not self.is_match(box) and (self.matching is not None or leads_on)

    def colours(self, box: int) -> list[Colour]:
        """The colours that the box may have."""
        drawing = self.drawing
        if self.is_match(box):
            return [self.match]
        if self.is_dim(box):
            return [self.dim]
        if drawing.other is not None:
            return of_change(self.palette, *self.document.before_and_after(drawing, box, self.view.share))
        if drawing.depth[box] == 0:
            return [colour(self.palette.root)]
        name = drawing.name[box]
        if name not in self.of_names:
            text = self.document.names[name]
            self.of_names[name] = of_name(self.palette, text) if self.view.by_name else of_package(self.palette, words.package(text), text)
        return [self.of_names[name]]

    def ink(self, box: int) -> Colour:
        inks = self.palette.match_ink if self.is_match(box) else self.palette.dim_ink if self.is_dim(box) else self.palette.ink
        return colour(inks)

    def joined_colour(self, boxes: list[int]) -> Colour:
        """The colour of boxes that are painted as one. While a search is on, that of matches where all match, that of what steps back
        where none does, and one of its own where some do."""
        if self.matching is None:
            return self.joined
        matching = sum(map(self.is_match, boxes))
        return self.match if matching == len(boxes) else self.joined_match if matching else self.dim

    def places(self, boxes: list[Box]) -> list[Place]:
        """The places of a row, of which these boxes are seen."""
        narrow, places = Narrow(), []
        for box in boxes:
            if box.width < 1 + DOUBT:
                narrow.add(box)
            else:
                places.append(Place(box.left, box.right, [box.number], self.colours(box.number)))
        for pixel, group in narrow.certain.items():
            numbers = [box.number for box in group]
            colours = [self.joined_colour(numbers)] if len(group) > 1 else self.colours(numbers[0])
            places.append(Place(group[0].left, group[-1].right, numbers, colours))
            if pixel in narrow.loose:
                self.doubt(places[-1])
        for box in narrow.doubtful:
            places.append(Place(box.left, box.right, [box.number], self.colours(box.number)))
            self.doubt(places[-1])
        return places

    def doubt(self, place: Place) -> None:
        """A neighbour may be joined with it, whatever that is."""
        place.is_doubtful = True
        place.colours = [*place.colours, *([self.joined] if self.matching is None else [self.match, self.joined_match, self.dim])]
