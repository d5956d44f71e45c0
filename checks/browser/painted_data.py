"""What the data of a page says: its drawings, and what is looked at. Written from docs/PAGE-DATA.md; nothing here is taken from the page's
scripts.
"""
from __future__ import annotations

import functools
import re
from dataclasses import dataclass, replace
from typing import Any, Callable

from painted_arranged import callers_of, left_heavy
from painted_beside import Beside, beside
from painted_drawing import Data, Drawing, Span
from told_boxes import with_boxes


@dataclass(frozen=True)
class View:
    """What is looked at: a drawing, the zoomed box or source or a part of a chart, a search, where the root stands, whether shares are
    compared, the function whose callers and callees are shown, whether heavy boxes come first, whether the sources of a chart stand side
    by side, and whether colours are by package."""
    drawing: int
    box: int = 0
    source: int = -1
    find: str = ''
    by: str = 'text'
    below: bool = False
    share: bool = False
    callers: str | None = None
    part: tuple[float, float] | None = None
    heavy: bool = False
    beside: bool = False
    by_name: bool = False

    def at(self, **changed: Any) -> View:
        return replace(self, **changed)


class Document:
    """The data of a page, with the places of its sources in a chart."""

    def __init__(self, data: Data):
        self.kind: str = data['view']
        self.title: str = data['title']
        self.opens_below: bool = data.get('root_below', False)
        self.opens_by_shares: bool = data.get('share', False)
        self.names: list[str] = data['names']
        # What the check looks at has one unit: plain numbers, or nanoseconds.
        self.unit: str = data['sources'][0]['unit']
        self.drawings = [Drawing(with_boxes(columns), number) for number, columns in enumerate(data['drawings'])]
        self.arranged: dict[tuple[int, str | None, bool, bool], Drawing] = {}
        self.sources: list[tuple[str, int, int]] = []
        begin = 0
        for source in data['sources']:
            self.sources.append((source['name'], begin, begin + source['weight']))
            begin += source['weight']

    def drawing(self, view: View) -> Drawing:
        """The drawing that is looked at, as it is arranged."""
        key = (view.drawing, view.callers, view.heavy, view.beside)
        if key not in self.arranged:
            self.arranged[key] = self.arrange(view)
        return self.arranged[key]

    def arrange(self, view: View) -> Drawing:
        base = self.drawings[view.drawing]
        if view.callers is None:
            return beside(base, self.sources) if view.beside else left_heavy(base) if view.heavy else base
        there = self.drawings[1 - view.drawing] if self.kind == 'compare' else None
        return callers_of(base, there, self.names.index(view.callers))

    def is_timeline(self, view: View) -> bool:
        return self.kind == 'chart' and view.callers is None

    def name(self, drawing: Drawing, box: int) -> str:
        source = drawing.source_name(box)
        return self.names[drawing.name[box]] if source is None else source

    def span(self, view: View) -> Span:
        """What is zoomed. A drawing without boxes has nothing to divide."""
        drawing = self.drawing(view)
        if isinstance(drawing, Beside):
            return drawing.span_of(view.source, view.part, view.box)
        if view.source >= 0:
            _, begin, end = self.sources[view.source]
            return Span(begin, end, 0, 0)
        if drawing.count == 0:
            return Span(0, 1, 0, 0)
        if view.part:
            return Span(*view.part, 0, 0)
        return Span(drawing.start[view.box], drawing.end(view.box), drawing.depth[view.box], drawing.row[view.box])

    def before_and_after(self, drawing: Drawing, box: int, share: bool) -> tuple[int, int]:
        """What is compared of a box's path in both profiles: the weights, or what is to each other as their shares of both wholes are."""
        assert drawing.other is not None
        here, there = drawing.weight[box], drawing.other[box]
        before, after = (here, there) if drawing.number == 0 else (there, here)
        wholes = [each.total for each in self.drawings]
        return (before * wholes[1], after * wholes[0]) if share and all(wholes) else (before, after)


@functools.lru_cache(maxsize=64)
def name_test(find: str, by: str) -> Callable[[str], bool]:
    """Whether a name matches a search. Text without capital letters matches either case."""
    if by == 'name':
        return lambda name: name == find
    if by == 'regexp':
        return lambda name: re.search(find, name) is not None
    flags = re.IGNORECASE if find == find.lower() else re.NOFLAG
    return lambda name: re.search(re.escape(find), name, flags) is not None


def matches_of(document: Document, view: View) -> set[int] | None:
    """The places of the names that match, or None without a search."""
    if view.find == '':
        return None
    test = name_test(view.find, view.by)
    return {place for place, name in enumerate(document.names) if test(name)}
