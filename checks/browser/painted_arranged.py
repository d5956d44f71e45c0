"""Other arrangements of a drawing's boxes: the callers and callees of a function, and heavy boxes first. Written from docs/OUTPUT.md."""
from __future__ import annotations

from dataclasses import dataclass, field
from typing import Iterator

from painted_drawing import Data, Drawing, Span


@dataclass
class Way:
    """What leads up or down from a function: the weight of the samples that go there, that of those which end there, and what comes
    next."""
    weight: int = 0
    own: int = 0
    steps: dict[int, Way] = field(default_factory=dict)

    def step(self, name: int, weight: int, own: int) -> Way:
        """The way that goes on to a name, with so much more."""
        way = self.steps.setdefault(name, Way())
        way.weight += weight
        way.own += own
        return way


def ways_of(drawing: Drawing, name: int) -> tuple[Way, Way]:
    """The ways up and down from the first frame with that name in each stack. Both begin with the function."""
    up, down = Way(), Way()
    parents = drawing.parents()
    is_inside = [False] * drawing.count
    open_ways: list[Way] = []
    base = 0
    for box, parent in enumerate(parents):
        if parent < 0:
            continue
        is_first = not is_inside[parent] and drawing.name[box] == name
        is_inside[box] = is_inside[parent] or is_first
        if is_first:
            base, open_ways = drawing.depth[box], [down]
            way, each = up, box
            while parents[each] >= 0:
                way, each = way.step(drawing.name[each], drawing.weight[box], 0), parents[each]
        if is_inside[box]:
            del open_ways[drawing.depth[box] - base + 1:]
            open_ways.append(open_ways[-1].step(drawing.name[box], drawing.weight[box], drawing.own[box]))
    return up, down


class Columns:
    """Columns to which boxes are added one by one."""

    def __init__(self, is_compared: bool):
        self.columns: Data = {key: [] for key in ('depth', 'name', 'own', 'row', 'start', 'weight', *(['other'] if is_compared else []))}

    def add(self, **box: int) -> None:
        for key, column in self.columns.items():
            column.append(box[key])


def laid_out(way: Way, other: Way | None) -> Iterator[tuple[int, int, int, Way, Way | None]]:
    """The ways that begin with one: of each its depth, its name and its start, and what the other profile has of it. The heaviest come
    first."""
    waiting = [(0, name, 0, each, other and other.steps.get(name)) for name, each in way.steps.items()]
    while waiting:
        depth, _, start, each, there = chosen = waiting.pop()
        yield chosen
        steps = []
        for name, step in sorted(each.steps.items(), key=lambda item: -item[1].weight):
            steps.append((depth + 1, name, start, step, there and there.steps.get(name)))
            start += step.weight
        waiting += reversed(steps)


class Callers(Drawing):
    """The callers and callees of a function: it stands in the row `centre`, what calls it in those before, and what it calls in those
    behind."""

    def __init__(self, columns: Data, number: int, centre: int):
        super().__init__(columns, number)
        self.centre = centre

    def is_function(self, box: int) -> bool:
        return True

    def is_caller(self, box: int) -> bool:
        return self.row[box] < self.centre

    def seen(self, row: int, span: Span) -> Span:
        """What is zoomed of the callers leaves the callees as they are, and the other way round."""
        is_zoomed = row < self.centre and span.row < self.centre or row > self.centre and span.row > self.centre
        return span if is_zoomed or self.count == 0 else Span(0, self.weight[0], 0, self.centre)


def callers_of(drawing: Drawing, there: Drawing | None, name: int) -> Drawing:
    """What calls a function and what it calls, in all samples with it. Its box is the first; then come its callers, and then its
    callees."""
    up, down = ways_of(drawing, name)
    other_up, other_down = ways_of(there, name) if there else (None, None)
    above, below = list(laid_out(up, other_up)), list(laid_out(down, other_down))
    centre = max((depth for depth, *_ in above), default=0)
    made = Columns(there is not None)
    for sign, ways in ((1, below[:1]), (-1, above[1:]), (1, below[1:])):
        for depth, its_name, start, way, other in ways:
            made.add(depth=depth, name=its_name, own=way.own, row=centre + sign * depth, start=start, weight=way.weight,
                     other=other.weight if other else 0)
    return Callers(made.columns | {'total': drawing.total}, drawing.number, centre)


def left_heavy(drawing: Drawing) -> Drawing:
    """The same boxes: of those that stand on one the heaviest comes first, from the left edge on."""
    standing: dict[int, list[int]] = {}
    for box, parent in enumerate(drawing.parents()):
        standing.setdefault(parent, []).append(box)
    made = Columns(drawing.other is not None)
    waiting = [(box, 0) for box in standing.get(-1, [])]
    while waiting:
        box, start = waiting.pop()
        depth = drawing.depth[box]
        made.add(depth=depth, name=drawing.name[box], own=drawing.own[box], row=depth, start=start, weight=drawing.weight[box],
                 other=drawing.other[box] if drawing.other is not None else 0)
        on = []
        for each in sorted(standing.get(box, []), key=lambda one: -drawing.weight[one]):
            on.append((each, start))
            start += drawing.weight[each]
        waiting += reversed(on)
    return Drawing(made.columns | {'total': drawing.total}, drawing.number)
