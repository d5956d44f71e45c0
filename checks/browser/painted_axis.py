"""Compares the ticks of an axis with what stands under them."""
from __future__ import annotations

import re
from typing import Iterator, NamedTuple

from painted_layout import Fault
from painted_places import Sight

# So many pixels have room for a tick at least, whatever its number: the next round step may be two and a half times as wide as is needed.
TICKED = 550
# A tick stands on a whole pixel.
OFF = 1


class Tick(NamedTuple):
    """Where a tick stands, and its number."""
    left: float
    text: str


def axis_faults(sight: Sight, ticks: list[Tick], width: float) -> Iterator[Fault]:
    """A chart without units has numbers in order, each at the weight that it tells; what goes by no time has none."""
    if not sight.document.is_timeline(sight.view):
        if ticks:
            yield Fault('b', f'there are ticks {ticks} where nothing goes by time')
        return
    span = sight.span
    for tick in ticks:
        if not re.fullmatch(r'[0-9,]+(\.[0-9]+)?', tick.text):
            yield Fault('c', f'{tick.text!r} at {tick.left:.2f} is no number')
            continue
        weight = float(tick.text.replace(',', ''))
        wanted = (weight - span.begin) * width / (span.end - span.begin)
        if abs(tick.left - wanted) > OFF:
            yield Fault('c', f'the tick {tick.text} stands at {tick.left:.2f}, and not at {wanted:.2f}')
    if sight.drawing.count > 0 and span.end - span.begin > 2 and len(ticks) < width // TICKED:
        yield Fault('e', f'there are {len(ticks)} ticks from {span.begin} to {span.end}')
