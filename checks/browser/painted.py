"""Tests that what a page paints is what its data says, by code that shares nothing with the page's.

recorder.js keeps each rectangle and each text of a canvas while the page paints it; painted_paint.py reads them, and those of an SVG.
painted_data.py, painted_places.py, painted_colours.py and painted_words.py say of the document's data what has to be painted.
painted_compare.py compares them, and painted_tips.py what tip and status tell. painted_pages.py makes the pages, and painted_faults.py puts
faults in, all of which have to be found. The letters of faults are said in painted_layout.py.
"""
from __future__ import annotations

import itertools
import json
import random
from typing import Any, Iterator

import documents
from painted_data import Document, View
from painted_faults import faults_are_found
from painted_layout import Fault
from painted_looks import Setting, Watched
from painted_pages import PAGES

# The windows in which the picture is 368, 588, 1182 and 1912 pixels wide; in a comparison, whose lists are wider, it is narrower in the
# last two.
WINDOWS = (390, 610, 1663, 2560)
ZOOMS, SEARCHES, TIPS, CALLERS = 10, 3, 30, 2
MOST_TOLD = 5

# With `checks/page --painted all` each page is tried in each setting.
everything = False


def settings() -> list[Setting]:
    """All settings, shuffled, so that those dealt to the pages in turn cover each and meet each page in different ones."""
    mixed = [Setting(*each) for each in itertools.product(WINDOWS, (1, 2), ('light', 'dark'), (False, True))]
    random.Random(1).shuffle(mixed)
    return mixed


def plan() -> Iterator[tuple[Any, Setting]]:
    """The pages with the settings in which they are tried: two for each, together all that there are."""
    dealt = itertools.cycle(settings())
    for page in PAGES:
        for setting in settings() if everything else [next(dealt), next(dealt)]:
            yield page, setting


def boxes_to_zoom(drawn: random.Random, document: Document, view: View) -> int:
    """A box at random: among all, or among the heaviest."""
    drawing = document.drawing(view)
    if drawn.random() < 0.5:
        return drawn.randrange(drawing.count)
    heaviest = sorted(range(drawing.count), key=lambda box: -drawing.weight[box])
    return drawn.choice(heaviest[:60])


def part_of(drawn: random.Random, total: int) -> tuple[float, float]:
    """A part of a chart, to thousandths of a weight."""
    begin = drawn.randrange(int(0.9 * total)) + drawn.randrange(1000) / 1000
    return begin, min(total, round(begin + 1 + total * drawn.random() ** 4, 3))


def zooms(drawn: random.Random, watched: Watched) -> Iterator[list[Fault]]:
    """Looks at ten parts: most by their address, some by a click, in a chart some sources, and in a comparison every other by shares."""
    document = watched.document
    for number in range(ZOOMS):
        view = View(drawn.randrange(len(document.drawings)), below=watched.setting.below,
                    share=document.kind == 'compare' and number % 2 == 0)
        if document.drawing(view).count == 0:
            continue
        if document.kind == 'chart' and number % 3 == 0:
            yield watched.go(view.at(source=drawn.choice([each for each, (_, begin, end) in enumerate(document.sources) if end > begin])))
        elif document.kind == 'chart' and number % 3 == 2:
            yield watched.go(view.at(part=part_of(drawn, document.drawing(view).total)))
        elif number % 3 == 1:
            yield watched.click(drawn)
        else:
            yield watched.go(view.at(box=boxes_to_zoom(drawn, document, view)))
        yield watched.scroll(drawn.random())


def searches(drawn: random.Random, watched: Watched) -> Iterator[list[Fault]]:
    """Searches a part of a name, a whole name, and either of two beginnings by a regular expression."""
    names = [name for name in watched.document.names if name.isascii() and name.isprintable()] or ['all']
    part, first, other = (drawn.choice(names) for _ in range(SEARCHES))
    begin = drawn.randrange(max(1, len(part) - 2))
    ends = [''.join(filter(str.isalnum, name))[:3] for name in (first, other)]
    whole = drawn.choice(watched.document.names or ['all'])
    for find, by in ((part[begin:begin + 3], 'text'), (whole, 'name'), ('^' + '|'.join(ends), 'regexp')):
        yield watched.go(watched.view.at(find=find, by=by))


def walk(watched: Watched, seed: str) -> Iterator[list[Fault]]:
    """Looks at a page from all sides."""
    drawn = random.Random(seed)
    yield watched.compare(watched.seen())
    yield watched.compare_tips(drawn, TIPS)
    yield watched.compare_saved()
    yield from zooms(drawn, watched)
    yield watched.compare_tips(drawn, TIPS)
    yield from searches(drawn, watched)
    yield watched.compare_tips(drawn, TIPS)
    yield watched.compare_saved()
    yield from arrangements(drawn, watched)


def arrangements(drawn: random.Random, watched: Watched) -> Iterator[list[Fault]]:
    """Looks at the callers and callees of functions, whole and zoomed on either side, and at heavy boxes first."""
    document = watched.document
    drawing = document.drawings[-1]
    for number in range(CALLERS if drawing.count > 1 else 0):
        name = document.name(drawing, max(1, boxes_to_zoom(drawn, document, View(drawing.number))))
        view = View(drawing.number, below=watched.setting.below, callers=name, share=document.kind == 'compare' and number % 2 == 0)
        yield watched.go(view)
        yield watched.scroll(drawn.random())
        yield watched.compare_tips(drawn, TIPS)
        yield watched.click(drawn)
        yield watched.go(view.at(box=boxes_to_zoom(drawn, document, view), find=name[:3], by='text'))
        yield watched.go(watched.view.at(find=''))
    if drawing.count > 1:
        yield watched.compare_saved()
    if document.kind != 'compare':
        yield watched.go(View(drawing.number, below=watched.setting.below, by_name=True))
        yield watched.compare_saved()
    if document.kind == 'chart' and drawing.count > 1:
        yield from sources_beside(drawn, watched)
    if drawing.count > 1 and document.kind != 'chart':
        yield watched.go(View(drawing.number, below=watched.setting.below, heavy=True))
        yield watched.click(drawn)
        yield watched.compare_tips(drawn, TIPS)


def sources_beside(drawn: random.Random, watched: Watched) -> Iterator[list[Fault]]:
    """Looks at the sources of a chart side by side: at all, and at a source, a part of each and boxes, some by clicks."""
    document, view = watched.document, View(0, below=watched.setting.below, beside=True)
    sources = [number for number, (_, begin, end) in enumerate(document.sources) if end > begin]
    longest = max(end - begin for _, begin, end in document.sources)
    boxes = [boxes_to_zoom(drawn, document, view) for _ in range(CALLERS)]
    looks = [view, view.at(source=drawn.choice(sources)), view.at(part=part_of(drawn, longest)), *(view.at(box=box) for box in boxes)]
    for look in looks:
        drawing = document.drawing(view)
        yield watched.go(look if drawing.depth[look.box] > 0 else look.at(box=0))
        yield watched.scroll(drawn.random())
        yield watched.compare_tips(drawn, TIPS)
        yield watched.compare_saved()
        yield watched.click(drawn)
        yield watched.go(watched.view.at(find=drawn.choice(document.names)[:3], by='text'))


def refuse(found: list[Fault], what: str) -> None:
    told = ''.join(f'\n  ({letter}) {text}' for letter, text in found[:MOST_TOLD])
    assert not found, f'{what}: {len(found)} faults{told}'


def painted(check: Any) -> None:
    """Each page, in some windows or in all, shows what its data says."""
    documents_of = {page: page(check) for page in PAGES}
    for page, setting in plan():
        data = json.loads(documents.raw_data_in(documents_of[page]))
        path = check.place(documents_of[page])
        watched = Watched(check.browser, Document(data), path, setting)
        found = [*itertools.chain.from_iterable(walk(watched, f'{page.__name__} {setting}'))]
        if found:
            check.screenshot('painted')
        refuse(found, page.__name__)


TESTS = [painted, faults_are_found]
