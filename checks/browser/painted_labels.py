"""Compares the labels of a row with the names of the boxes under them."""
from __future__ import annotations

import bisect
from typing import Iterator

import painted_words as words
from painted_colours import is_same
from painted_drawing import Box
from painted_layout import TOUCH, Fault, Strip
from painted_paint import Text
from painted_places import WIDE, Sight

# A box that is so wide has a label; and one with so much more room than its text takes has the whole of it.
LABELLED, SPARE = 40, 16
# How far a label stands from the left edge of its box.
PAD = 4


def is_plain(text: str) -> bool:
    """Whether each letter is as wide as any other."""
    return text != '' and text.isascii() and text.isprintable()


class Labels:
    """The labels of one row, with the middle of the row. `letter` is how wide a plain letter is, 0 where that is not known."""

    def __init__(self, sight: Sight, number: int, strip: Strip, middle: float, letter: float):
        self.sight, self.number, self.strip, self.middle, self.letter = sight, number, strip, middle, letter

    def faults(self, boxes: list[Box], width: float) -> Iterator[Fault]:
        source = self.sight.drawing.source_name(self.sight.drawing.rows[self.number][0])
        if source is not None:
            yield from self.source_faults(words.visible(source), width)
            return
        lefts = [box.left for box in boxes]
        labels: dict[int, str] = {}
        for text in self.strip.texts:
            place = bisect.bisect_right(lefts, text.left) - 1
            if place < 0 or boxes[place].width < WIDE or text.left >= boxes[place].right:
                yield Fault('c', f'row {self.number}: {text.text!r} at {text.left:.2f} stands on no box')
                continue
            labels[boxes[place].number] = text.text
            yield from self.label_faults(boxes[place], text)
        for box in boxes:
            if box.width >= LABELLED:
                yield from self.missing(box, labels.get(box.number))

    def source_faults(self, name: str, width: float) -> Iterator[Fault]:
        """The row of the root of a source that stands beside others has its name, from the left edge on, whatever is seen of the source."""
        called = f'row {self.number}: the name {name[:60]!r} of a source'
        if len(self.strip.texts) != 1:
            yield Fault('c', f'{called} stands there {len(self.strip.texts)} times')
        for text in self.strip.texts:
            if not words.is_front(text.text, name):
                yield Fault('c', f'{called} is {text.text!r}')
            if abs(text.middle - self.middle) + abs(text.left - PAD) > 1 + TOUCH or text.left + (text.width or 0) > width:
                yield Fault('c', f'{called} stands at {text.left:.2f}, {text.middle:.2f}')
            if text.text != name and self.letter and is_plain(name) and len(name) * self.letter + SPARE < width:
                yield Fault('e', f'{called} is only {text.text!r}')
            if not is_same(text.ink, self.sight.ink(self.sight.drawing.rows[self.number][0])):
                yield Fault('d', f'{called} is written in {text.ink}')
            if any(order >= text.after for order, _ in self.strip.at(text.left)):
                yield Fault('e', f'{called} is painted over')

    def wanted(self, box: Box) -> list[str]:
        """The labels that the box may have where nothing is cut, from the longest to the shortest: in a comparison the name with its
        change, and the name and its shorter forms."""
        drawing, document = self.sight.drawing, self.sight.document
        forms = words.forms(document.name(drawing, box.number))
        if drawing.other is None:
            return [*forms]
        return [f'{forms[0]} {words.change(*document.before_and_after(drawing, box.number, self.sight.view.share))}', *forms]

    def label_faults(self, box: Box, text: Text) -> Iterator[Fault]:
        wanted = self.wanted(box)
        called = f'row {self.number}: {text.text!r} on {wanted[0][:60]!r} (box {box.number}) from {box.left:.2f} to {box.right:.2f}'
        off = abs(text.middle - self.middle) + abs(text.left - box.left - PAD)
        if off > 1 + TOUCH:
            yield Fault('c', f'{called} stands {off:.2f} pixels from its place')
        if text.text not in wanted and not words.is_front(text.text, wanted[-1]):
            yield Fault('c', f'{called} is another name')
        if text.width is not None and text.left + text.width > box.right + TOUCH:
            yield Fault('c', f'{called} goes on to {text.left + text.width:.2f}')
        if not is_same(text.ink, self.sight.ink(box.number)):
            yield Fault('d', f'{called} is written in {text.ink}, not in {self.sight.ink(box.number)}')
        if any(order >= text.after for order, _ in self.strip.at(text.left)):
            yield Fault('e', f'{called} is painted over')

    def missing(self, box: Box, label: str | None) -> Iterator[Fault]:
        wanted = self.wanted(box)
        called = f'row {self.number}: {wanted[0][:60]!r} (box {box.number}), {box.width:.2f} wide,'
        if label is None:
            if self.sight.document.name(self.sight.drawing, box.number) != '':
                yield Fault('e', f'{called} has no label')
            return
        longer = wanted[:wanted.index(label)] if label in wanted else wanted
        if self.letter and any(is_plain(each) and len(each) * self.letter + SPARE < box.width for each in longer):
            yield Fault('e', f'{called} has only the label {label!r}')
