"""An open page that is watched: what it paints on the screen, into an SVG and a PNG, and for paper, each compared with its data."""
from __future__ import annotations

import json
import pathlib
import random
import urllib.parse
from typing import Any, Iterator, NamedTuple

import chromium
from painted_axis import Tick, axis_faults
from painted_colours import DARK, LIGHT, Palette
from painted_beside import Beside
from painted_compare import faults_of
from painted_data import Document, View
from painted_layout import AXIS, LANES, ROW, Fault, Layout
from painted_paint import Paint, of_canvas, of_svg
from painted_places import WIDE, Sight
from painted_tips import tip_faults, tip_places

HERE = pathlib.Path(__file__).resolve().parent
# No picture that is higher has to become a PNG: not every browser has so high a canvas.
HIGHEST_PNG = 16384
# High enough for rows above and below what is seen, and no higher: each look waits until the browser has painted all of the window.
HEIGHT = 500


class Setting(NamedTuple):
    """How a page is opened: the window's width, dots a pixel, dark or light, and where the root stands."""
    width: int
    dots: int
    scheme: str
    below: bool

    @property
    def palette(self) -> Palette:
        return DARK if self.scheme == 'dark' else LIGHT

    def __str__(self) -> str:
        return f'a window of {self.width}, {self.dots} dots a pixel, {self.scheme}, root {"below" if self.below else "above"}'


class Watched:
    """A page with the recorder in it. With `bend` the recorder bends what the page paints, as a fault of the page would."""

    def __init__(self, browser: chromium.Browser, document: Document, path: pathlib.Path, setting: Setting, bend: str = ''):
        self.browser, self.document, self.setting = browser, document, setting
        self.view = View(len(document.drawings) - 1, below=setting.below, share=document.opens_by_shares)
        recorder = (HERE / 'recorder.js').read_text(encoding='utf-8')
        if bend:
            recorder += (HERE / 'faults.js').read_text(encoding='utf-8').replace('{fault}', bend)
        added = browser.send('Page.addScriptToEvaluateOnNewDocument', source=recorder)
        try:
            self.open(path)
        finally:
            browser.send('Page.removeScriptToEvaluateOnNewDocument', identifier=added['identifier'])

    def open(self, path: pathlib.Path) -> None:
        width, dots, scheme, below = self.setting
        self.browser.send('Emulation.setDeviceMetricsOverride', width=width, height=HEIGHT, deviceScaleFactor=dots, mobile=False)
        self.browser.send('Emulation.setEmulatedMedia', media='', features=[{'name': 'prefers-color-scheme', 'value': scheme}])
        self.browser.go(path, '#'.join(['', *self.root_words(below)]))
        self.browser.value("new Promise((done) => { if (document.readyState === 'complete') done();"
                           " else window.addEventListener('load', done); }).then(() => recorder.after(() => {}))")

    def after(self, action: str) -> dict[str, Any]:
        """What is seen after an action."""
        seen: dict[str, Any] = self.browser.value(f'recorder.after(() => {action})')
        return seen

    def seen(self) -> dict[str, Any]:
        """What is seen now."""
        seen: dict[str, Any] = self.browser.value('recorder.seen()')
        return seen

    def go(self, view: View) -> list[Fault]:
        """Looks at something by its address, and compares."""
        self.view = view
        return self.compare(self.after(f'recorder.go({json.dumps(self.fragment(view))})'))

    def fragment(self, view: View) -> str:
        """The address of a view: a source, a path, or where that would be long the number of a box."""
        drawing = self.document.drawing(view)
        path = '/'.join(urllib.parse.quote(self.document.name(drawing, box), safe='') for box in drawing.path(view.box)) if view.box else ''
        parts = [f'callers={urllib.parse.quote(view.callers, safe="")}'] if view.callers is not None else []
        if view.source >= 0:
            parts.append(f'source={view.source}')
        elif view.part:
            parts.append('from={:.15g}&to={:.15g}'.format(*view.part))
        elif view.box and (self.document.is_timeline(view) or len(path) > 2000):
            parts.append(f'box={view.box}')
        elif view.box:
            parts.append(f'{"up" if drawing.is_caller(view.box) else "zoom"}={path}')
        if view.find:
            parts += [f'find={urllib.parse.quote(view.find, safe="")}', f'by={view.by}']
        switches = [f'{name}=1' for name in ('heavy', 'beside') if getattr(view, name)]
        switches += [] if view.share == self.document.opens_by_shares else [f'share={int(view.share)}']
        switches += ['colours=name'] if view.by_name else []
        return '#' + '&'.join([*parts, f'drawing={view.drawing}', *self.root_words(view.below), *switches])

    def root_words(self, below: bool) -> list[str]:
        """What an address says of the root: nothing where that stands as it does on the page when it opens."""
        return [] if below == self.document.opens_below else [f'root={"below" if below else "above"}']

    def scroll(self, part: float) -> list[Fault]:
        """Scrolls to a part of all rows, and compares."""
        return self.compare(self.after(f'{{ const picture = document.getElementById("picture");'
                                       f' picture.scrollTop = {part} * picture.scrollHeight; }}'))

    def sight(self, palette: Palette | None = None) -> Sight:
        return Sight(self.document, self.view, palette or self.setting.palette)

    def screen(self, seen: dict[str, Any]) -> Layout:
        return Layout(-seen['scrolled'], len(self.document.drawing(self.view).rows), self.view.below)

    def compare(self, seen: dict[str, Any]) -> list[Fault]:
        sight = self.sight()
        axis = [Tick(left, text) for left, text in seen['axis']]
        found = [*canvas_faults(seen), *axis_faults(sight, axis, seen['room'][0])]
        return self.named('the screen', [*found, *faults_of(sight, of_canvas(seen), self.screen(seen))])

    def named(self, where: str, faults: list[Fault]) -> list[Fault]:
        return [Fault(letter, f'{where} at {self.fragment(self.view)[:200]}, {self.setting}: {text}') for letter, text in faults]

    def compare_tips(self, drawn: random.Random, count: int) -> list[Fault]:
        """What tip and status say over places chosen at random."""
        seen = self.seen()
        places = tip_places(drawn, self.sight(), of_canvas(seen), self.screen(seen), count)
        told = self.browser.value(f'recorder.tips({json.dumps([place.point for place in places])})')
        return self.named('the tip', [fault for place, said in zip(places, told) for fault in tip_faults(self.sight(), place, said)])

    def click(self, drawn: random.Random) -> list[Fault]:
        """Clicks the middle of a wide box that is seen, and compares what is zoomed then."""
        seen = self.seen()
        layout, sight = self.screen(seen), self.sight()
        rows = [row for row in range(layout.rows) if 0 <= layout.top_of(row) <= seen['room'][1] - ROW]
        boxes = [(row, box) for row in rows for box in sight.drawing.edges(row, sight.span, seen['room'][0]) if box.width >= WIDE]
        if not boxes:
            return []
        row, box = drawn.choice(boxes)
        self.view = self.zoomed_to(box.number)
        return self.compare(self.after(f'recorder.click({json.dumps([box.middle, layout.top_of(row) + ROW / 2])})'))

    def zoomed_to(self, box: int) -> View:
        """What a click on a box shows. The root of a source that stands beside others shows all of that, and then all of all."""
        drawing = self.document.drawing(self.view)
        band = drawing.source_of(box) if isinstance(drawing, Beside) else None
        if band is None:
            return self.view.at(box=box, source=-1, part=None)
        return self.view.at(box=0, source=-1 if band.source == self.view.source else band.source, part=None)

    def compare_saved(self) -> list[Fault]:
        """Compares the SVG, the PNG and the picture for paper, which is light."""
        # Nobody points at paper, so nothing there needs a title.
        paper = of_svg(self.browser.value('recorder.printed()'))._replace(heading=None)
        return self.compare_svg() + self.saved(paper, LIGHT, 'the paper') + self.compare_png()

    def compare_svg(self) -> list[Fault]:
        return self.saved(of_svg(self.browser.value("recorder.saved('svg')")), self.setting.palette, 'the SVG')

    def compare_png(self) -> list[Fault]:
        record = self.browser.value("recorder.saved('png')")
        if record:
            return self.saved(of_canvas(record), self.setting.palette, 'the PNG')
        is_told = 'too large' in self.browser.value('document.body.innerText')
        first, end = self.rows_seen()
        is_high = (end - first) * ROW > HIGHEST_PNG
        return [] if is_told and is_high else [Fault('e', f'there is no PNG of {end - first} rows')]

    def saved(self, paint: Paint, palette: Palette, where: str) -> list[Fault]:
        """A saved picture has all rows of what is zoomed, whatever is scrolled into view."""
        above = 0 if not self.document.is_timeline(self.view) else AXIS if self.view.beside else LANES + AXIS
        rows = round((paint.height - above) / ROW)
        first, _ = self.rows_seen()
        layout = Layout(above if self.view.below else above - first * ROW, first + rows, self.view.below, above, first)
        found = faults_of(self.sight(palette), paint, layout)
        if first + rows < self.rows_seen()[1]:
            found.append(Fault('e', f'has {rows} rows, and what is zoomed has those of {self.rows_seen()}'))
        return self.named(where, found)

    def rows_seen(self) -> tuple[int, int]:
        return self.document.drawing(self.view).rows_within(self.document.span(self.view))


def canvas_faults(seen: dict[str, Any]) -> Iterator[Fault]:
    """The canvas is as large as what is seen of the picture, with as many dots a pixel as the screen has."""
    for side, room, shown in zip(('width', 'height'), seen['room'], seen['shown']):
        if abs(seen[side] - room * seen['dots']) > 1 or abs(shown - room) > 1 or room > 4096:
            yield Fault('e', f'the canvas has a {side} of {seen[side]} dots and is shown on {shown}, where {room} are seen')
    if seen['scale'] != seen['dots']:
        yield Fault('e', f'the canvas has {seen["scale"]} dots a pixel, and the screen {seen["dots"]}')
