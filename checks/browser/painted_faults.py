"""Faults of pages, each put back once, which the comparison has to find: one that finds nothing there would say nothing elsewhere."""
from __future__ import annotations

import copy
import itertools
import json
import random
from typing import Any, Callable, Iterator, NamedTuple

import documents
from painted_data import Document
from painted_drawing import Data
from painted_layout import Fault
from painted_looks import Setting, Watched
from painted_pages import chart_made, comparison, comparison_made, deep, like_go, of_data, random_tree
from painted_trees import data_of

SETTING = Setting(1600, 1, 'light', False)
PLACES = 40


class PutBack(NamedTuple):
    """A fault, by which letters it must be found, and a page that shows it. `bend` is its name in faults.js; other faults are put into the
    data that the page gets, while it is compared with the right ones."""
    what: str
    letters: str
    bend: str = ''
    page: Callable[[Any], bytes] | None = None
    data: Callable[[Data], Data] | None = None


def narrow_before_wide(data: Data) -> Data:
    """A wide box with a narrow one before it in the same pixel has the name of that one, and so its colour and its label."""
    changed = copy.deepcopy(data)
    for columns, drawing in zip(changed['drawings'], Document(data).drawings):
        pixel = drawing.total / 1000
        for row in drawing.rows:
            for before, box in itertools.pairwise(row):
                if drawing.weight[before] < pixel < drawing.weight[box] and drawing.end(before) == drawing.start[box]:
                    columns['name'][box] = drawing.name[before]
    return changed


def small(check: Any) -> bytes:
    """A page that has something of all that can be painted wrong."""
    return of_data(data_of(random_tree(30, 3, 40)))


FAULTS = [
    PutBack('a wide box is painted as the narrow one before it', 'cd', data=narrow_before_wide),
    PutBack('boxes stand two pixels to the right', 'a', 'edges_off'),
    PutBack('wide boxes are two pixels wider', 'a', 'widths_off'),
    PutBack('rectangles stand on wide boxes that are none of them', 'b', 'rectangles_of_no_box'),
    PutBack('labels are those of the box before', 'c', 'labels_of_the_box_before'),
    PutBack('names are cut at their end where a shorter form has room', 'c', 'labels_cut_at_their_end', like_go),
    PutBack('names are shorter than their boxes need', 'e', 'labels_shorter_than_they_could_be', like_go),
    PutBack('changes have the other sign', 'c', 'changes_turned', comparison_made),
    PutBack('changes are those of weights where shares are compared', 'cd', 'shares_as_weights', comparison),
    PutBack('a part of a chart begins elsewhere', 'a', 'parts_begin_elsewhere', chart_made),
    PutBack('numbers of an axis stand beside their ticks', 'c', 'numbers_beside_their_ticks', chart_made),
    PutBack('heavy boxes stand in their usual order', 'a', 'heavy_boxes_in_their_order'),
    PutBack('sources stand one after another', 'a', 'sources_one_after_another', chart_made),
    PutBack('a source that stands beside others has the name of the next', 'c', 'sources_with_the_next_name', chart_made),
    PutBack('an SVG of what is zoomed in a source has the rows of others', 'b', 'saved_with_other_sources', chart_made),
    PutBack('callers are those of another function', 'c', 'callers_of_another'),
    PutBack('callers stand below what they call', 'c', 'callers_below_callees'),
    PutBack('what is joined has the colour of a box', 'd', 'joined_as_the_first'),
    PutBack('what is joined and matches in part has the colour of what is joined without a search', 'd', 'joined_matches_as_joined'),
    PutBack('colours are by package where they are to be by name', 'd', 'names_as_packages', like_go),
    PutBack('colours are those of the box before', 'd', 'colours_of_the_box_before'),
    PutBack('matches have the colour of what does not match', 'd', 'matches_as_the_others'),
    PutBack('a row is left out', 'e', 'a_row_left_out'),
    PutBack('what is narrower than a pixel is left out', 'e', 'narrow_ones_left_out'),
    PutBack('each third label is left out', 'e', 'labels_left_out'),
    PutBack('tips are those of a neighbour', 'f', 'tips_of_the_neighbour'),
    PutBack('titles of an SVG are those of the box before', 'c', 'titles_of_the_box_before'),
    PutBack('an SVG has only some of the rows', 'e', 'saved_as_it_is_scrolled', deep),
]


def looks(watched: Watched) -> Iterator[list[Fault]]:
    """Enough looks for each fault to be seen."""
    drawn = random.Random(1)
    yield watched.compare(watched.seen())
    yield watched.compare_tips(drawn, PLACES)
    yield watched.compare_svg()
    yield watched.go(watched.view.at(find='s'))
    if watched.document.kind == 'compare':
        yield watched.go(watched.view.at(find='', share=True))
    if watched.document.kind == 'chart':
        total = watched.document.drawings[0].total
        yield watched.go(watched.view.at(find='', part=(total // 5, total // 2)))
        yield watched.go(watched.view.at(part=None, beside=True))
        yield watched.go(watched.view.at(source=len(watched.document.sources) - 1))
        yield watched.compare_svg()
        yield watched.go(watched.view.at(source=-1, beside=False))
    if watched.document.kind != 'compare':
        yield watched.go(watched.view.at(find='', by_name=True))
    drawing = watched.document.drawing(watched.view)
    heaviest = max((box for box in range(drawing.count) if drawing.depth[box] == 2), key=lambda box: drawing.weight[box])
    yield watched.go(watched.view.at(find='', callers=watched.document.name(drawing, heaviest)))
    yield watched.go(watched.view.at(callers=None, heavy=True))


def found(check: Any, fault: PutBack) -> str:
    """The letters by which a fault is found."""
    document = (fault.page or small)(check)
    data = json.loads(documents.raw_data_in(document))
    shown = fault.data(data) if fault.data else data
    watched = Watched(check.browser, Document(data), check.place(of_data(shown)), SETTING, fault.bend)
    letters = {each.letter for each in itertools.chain.from_iterable(looks(watched))}
    is_put = shown != data or check.browser.value('recorder.bend.changed') > 0
    assert is_put or not (fault.data or fault.bend), f'it was not put in that {fault.what}'
    return ''.join(sorted(letters))


def faults_are_found(check: Any) -> None:
    """Each fault is found by its letters, and nothing where none was put in."""
    letters = found(check, PutBack('nothing is wrong', ''))
    assert letters == '', f'where nothing was put in, there are faults of the letters {letters}'
    for fault in FAULTS:
        letters = found(check, fault)
        assert set(fault.letters) <= set(letters), f'that {fault.what} is found by {letters or "nothing"}, and not by {fault.letters}'
