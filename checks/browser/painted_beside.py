"""The sources of a chart side by side. Written from docs/OUTPUT.md."""
from __future__ import annotations

from typing import NamedTuple

from painted_drawing import Data, Drawing, Span

Source = tuple[str, int, int]


class Band(NamedTuple):
    """The rows of one source: its number, its name, its weight, and from which row up to which it stands."""
    source: int
    name: str
    weight: int
    row: int
    beyond: int


class Beside(Drawing):
    """Each source from 0 on, in rows of its own. The root of each has its name."""

    def __init__(self, columns: Data, number: int, bands: list[Band]):
        super().__init__(columns, number)
        self.bands = bands
        self.longest = max((band.weight for band in bands), default=0)

    def band(self, row: int) -> Band | None:
        """The source that has a row."""
        return next((band for band in self.bands if band.row <= row < band.beyond), None)

    def source_of(self, box: int) -> Band | None:
        return self.band(self.row[box]) if self.depth[box] == 0 else None

    def source_name(self, box: int) -> str | None:
        band = self.source_of(box)
        return band.name if band else None

    def seen(self, row: int, span: Span) -> Span:
        """The same part is seen of each source. What leads to what is zoomed stands in the same."""
        return span if self.band(row) == self.band(span.row) else span._replace(depth=0)

    def rows_within(self, span: Span) -> tuple[int, int]:
        """Of a source in which something is zoomed its own rows."""
        band = self.band(span.row)
        rows = [row for row in range(len(self.rows))
                if any(True for _ in self.within(row, span)) and (band is None or self.band(row) == band)]
        return (rows[0], rows[-1] + 1) if rows else (0, 0)

    def span_of(self, source: int, part: tuple[float, float] | None, box: int) -> Span:
        """What is zoomed. A part is one of all sources, and so is all."""
        for band in self.bands:
            if band.source == source:
                return Span(0, band.weight, 0, band.row)
        if part or box == 0:
            begin, end = part or (0, self.longest)
            return Span(begin, end, 0, -1)
        return Span(self.start[box], self.end(box), self.depth[box], self.row[box])


def beside(chart: Drawing, sources: list[Source]) -> Beside:
    """What lies of each box in each source, counted from where that begins."""
    columns: Data = {key: [] for key in ('depth', 'name', 'own', 'row', 'start', 'weight')}
    parents = chart.parents()
    bands: list[Band] = []
    row = 0
    for number, (name, begin, end) in enumerate(sources):
        lengths = {box: min(end, chart.end(box)) - max(begin, chart.start[box]) for box in range(chart.count)}
        inside = [box for box in lengths if lengths[box] > 0]
        standing = dict.fromkeys(inside, 0)
        for box in inside:
            if parents[box] >= 0:
                standing[parents[box]] += lengths[box]
        for box in sorted(inside, key=lambda each: (max(begin, chart.start[each]), chart.depth[each])):
            is_whole = lengths[box] == chart.weight[box]
            own = chart.own[box] if is_whole else min(chart.own[box], lengths[box] - standing[box])
            piece = {'depth': chart.depth[box], 'name': chart.name[box], 'own': own, 'row': row + chart.depth[box],
                     'start': max(0, chart.start[box] - begin), 'weight': lengths[box]}
            for key, value in piece.items():
                columns[key].append(value)
        beyond = row + max((chart.depth[box] + 1 for box in inside), default=0)
        if inside:
            bands.append(Band(number, name, end - begin, row, beyond))
        row = beyond
    return Beside(columns | {'total': chart.total}, chart.number, bands)
