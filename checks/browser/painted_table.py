"""What the table of functions has to have, of the data of a page. Written from docs/OUTPUT.md; nothing here is taken from the page's
scripts."""
from __future__ import annotations

from collections import Counter
from fractions import Fraction
from typing import NamedTuple

import painted_words as words
from painted_data import Document, View, matches_of
from painted_drawing import Drawing, Span

KINDS = ('own', 'total')
COLUMNS = ('before', 'after', 'change')
INFINITE = Fraction(10 ** 30)


class Part(NamedTuple):
    """What is zoomed of a drawing: what all of it weighs, and by the places of names their own and their total weights there."""
    whole: int
    own: Counter[int]
    total: Counter[int]


NOTHING = Part(0, Counter(), Counter())


def part_of(drawing: Drawing, span: Span) -> Part:
    """The sums of what lies in a span, from one whole weight to another, without the callers of what is zoomed, recursion counted once."""
    begin, end = int(span.begin), int(span.end)
    inside = [max(0, min(drawing.end(box), end) - max(drawing.start[box], begin)) for box in range(drawing.count)]
    parents = drawing.parents()
    standing: Counter[int] = Counter()
    for box, parent in enumerate(parents):
        standing[parent] += inside[box]
    top = max(1, span.depth)
    part = Part(end - begin, Counter(), Counter())
    for box in range(drawing.count):
        if inside[box] == 0 or drawing.depth[box] < top:
            continue
        name = drawing.name[box]
        is_whole = inside[box] == drawing.weight[box]
        part.own[name] += drawing.own[box] if is_whole else min(drawing.own[box], inside[box] - standing[box])
        callers, each = [], parents[box]
        while each >= 0 and drawing.depth[each] >= top:
            callers.append(drawing.name[each])
            each = parents[each]
        if name not in callers:
            part.total[name] += inside[box]
    return part


def box_of(document: Document, drawing: Drawing, path: list[str]) -> int | None:
    """The box of a path of names, if a drawing has it."""
    found = [box for box in range(drawing.count)
             if [document.names[drawing.name[each]] for each in drawing.path(box) if each or box] == path]
    return found[0] if found else None


class Table:
    """The table of what is looked at: of the callers of a function it is that of all."""

    def __init__(self, document: Document, view: View):
        self.document = document
        self.share = view.share
        self.matching = matches_of(document, view) if view.by != 'name' else None
        self.view = view if view.callers is None else View(view.drawing, share=view.share)
        self.drawing = document.drawing(self.view)
        self.is_comparison = document.kind == 'compare'
        here = part_of(self.drawing, document.span(self.view)) if self.drawing.count else NOTHING
        self.parts = [here if number == view.drawing else self.there(number) for number in range(2)] if self.is_comparison else [here]

    def there(self, number: int) -> Part:
        """What the other profile has of what is zoomed: nothing, where it does not have its path."""
        drawing, box = self.document.drawings[number], self.view.box
        path = [self.document.names[self.drawing.name[each]] for each in self.drawing.path(box)] if box else []
        found = box_of(self.document, drawing, path)
        if found is None:
            return NOTHING
        return part_of(drawing, Span(drawing.start[found], drawing.end(found), drawing.depth[found], drawing.row[found]))

    def names(self) -> list[int]:
        """The places of the names that are shown."""
        return [name for name in range(len(self.document.names))
                if any(part.total[name] > 0 for part in self.parts) and (self.matching is None or name in self.matching)]

    def weights(self, name: int, kind: str) -> list[int]:
        """The weights of a function: one, or those in both profiles."""
        return [(part.own if kind == 'own' else part.total)[name] for part in self.parts]

    def shares(self, name: int, kind: str) -> list[Fraction]:
        """What is compared: weights, or parts of all of each profile."""
        wholes = [drawing.total for drawing in self.document.drawings] if self.share else [1, 1]
        weights = self.weights(name, kind)
        return [Fraction(weight, whole) for weight, whole in zip(weights, wholes if all(wholes) else [1, 1])]

    def row(self, name: int) -> list[str]:
        """The texts of a row behind the name: of a comparison with both lines of a cell in one."""
        unit = self.document.unit
        cells = []
        for kind in KINDS:
            weights = self.weights(name, kind)
            if not self.is_comparison:
                cells += [words.weight(weights[0], unit), words.percent(weights[0], self.parts[0].whole)]
                continue
            before, after = self.shares(name, kind)
            wholes = [drawing.total if self.share else part.whole for drawing, part in zip(self.document.drawings, self.parts)]
            cells += [f'{words.weight(weight, unit)} {words.percent(weight, whole)}' for weight, whole in zip(weights, wholes)]
            sign = '+' if after > before else words.MINUS if after < before else ''
            change = abs(after - before)
            much = words.percent(change.numerator, change.denominator) if self.share else words.weight(int(change), unit)
            cells.append(f'{sign}{much} {words.change(*self.scaled(before, after))}')
        return cells

    @staticmethod
    def scaled(before: Fraction, after: Fraction) -> tuple[int, int]:
        """Whole numbers that are to each other as these."""
        factor = before.denominator * after.denominator
        return int(before * factor), int(after * factor)

    def rows(self) -> dict[str, list[str]]:
        """What is written of each name that is shown."""
        return {words.visible(self.document.names[name]) or words.EMPTY: self.row(name) for name in self.names()}

    def value(self, name: int, key: str) -> Fraction:
        """The number by which a column is sorted."""
        kind, _, column = key.partition('-')
        if not self.is_comparison:
            return Fraction(self.weights(name, kind)[0])
        before, after = self.shares(name, kind)
        if column in ('before', 'after'):
            return before if column == 'before' else after
        if column == 'change' or after == before:
            return after - before
        return (after - before) / before if before else INFINITE

    def order(self, key: str, is_rising: bool) -> list[str]:
        """The names in their order by a column. Of the same number they stand as in the data."""
        names = [self.document.names[name]
                 for name in sorted(self.names(), key=lambda name: self.value(name, key) * (1 if is_rising else -1))]
        if key == 'name':
            names.sort(key=lambda name: name.encode('utf-16-be', 'surrogatepass'), reverse=not is_rising)
        return [words.visible(name) or words.EMPTY for name in names]
