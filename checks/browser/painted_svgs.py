"""Looks at the SVG that the program writes as the browser lays it out: rectangles, labels and colours, compared with the line of JSON of
the same samples. Where rectangles stand and what titles tell is compared as checks/pictures does, which reads the same SVG as XML. The
letters of faults are said in painted_layout.py.
"""
from __future__ import annotations

import itertools
import json
import random
import re
from typing import Any, Callable, Iterator, NamedTuple

import painted_words as words
import svg_pictures
from painted_colours import LIGHT, Colour, colour, is_same, of_change, of_name
from painted_labels import LABELLED, PAD, SPARE
from painted_layout import TOUCH, Fault
from painted_trees import LANGUAGES, like_profile, text_of
from svg_pictures import Box, Drawn, How, Line, Tile, Wholes

WIDTHS = (368, 1182)
# The window has room for each picture: what is outside of it is seen nowhere.
WINDOW = (1200, 1200)
INK = (0, 0, 0)
# What the browser made of the picture: the groups in order, what stands beside them, and how many elements of each kind there are.
# `isOnTop` says whether the rectangle of a group, or a text of the same group, is what is seen in its middle.
LAID_OUT = '''(() => {
    const round = (number) => Math.round(number * 1000) / 1000;
    const shown = (element) => {
        const { left, top, width, height } = element.getBoundingClientRect();
        const sides = [left, top, width, height].map(round);
        return { kind: element.localName, sides, fill: getComputedStyle(element).fill, text: element.textContent };
    };
    const isOnTop = (group) => {
        const { left, top, width, height } = group.querySelector('rect').getBoundingClientRect();
        return group.contains(document.elementFromPoint(left + width / 2, top + height / 2));
    };
    const visible = (parent) => [...parent.children].filter((each) => !['g', 'title'].includes(each.localName));
    const root = document.documentElement;
    const groups = [...root.querySelectorAll('g')];
    return {
        groups: groups.map((group) => (
            { title: group.querySelector('title').textContent, parts: visible(group).map(shown), isOnTop: isOnTop(group) })),
        others: visible(root).map(shown),
        count: root.querySelectorAll('*').length,
    };
})()'''


class Part(NamedTuple):
    """A rectangle or a text, as it is laid out."""
    kind: str
    sides: tuple[float, float, float, float]
    fill: Colour
    text: str

    @property
    def right(self) -> float:
        return self.sides[0] + self.sides[2]


def part_of(shown: dict[str, Any]) -> Part:
    red, green, blue = (int(number) for number in re.findall('[0-9]+', shown['fill'])[:3])
    left, top, width, height = shown['sides']
    return Part(shown['kind'], (left, top, width, height), (red, green, blue), shown['text'])


def colours_of(box: Box, wholes: Wholes) -> list[Colour]:
    """The colours that a box may have."""
    if 'before' in box:
        before, after = wholes or (1, 1)
        return of_change(LIGHT, box['before'] * max(1, after), box['weight'] * max(1, before))
    return [colour(LIGHT.root) if box['depth'] == 0 else of_name(LIGHT, box['name'])]


def change_of(box: Box, wholes: Wholes) -> str:
    return words.change(box['before'], box['weight']) if wholes is None else svg_pictures.points_of(box, wholes)


def label_faults(box: Box, label: Part | None, wholes: Wholes) -> Iterator[Fault]:
    """A label is the name, with the change where there is one, or a front of the name; it stays inside of its box."""
    name = words.visible(box['name'])
    whole = f'{name} {change_of(box, wholes)}' if 'before' in box else name
    width = box['right'] - box['left']
    if label is None:
        if width >= LABELLED and name:
            yield Fault('e', f'{box} has no label')
        return
    if label.text not in (name, whole) and not words.is_front(label.text, name):
        yield Fault('c', f'{label.text!r} is the label of {box}')
    if abs(label.sides[0] - box['left'] - PAD) > TOUCH or label.right > box['right'] + TOUCH:
        yield Fault('c', f'{label.text!r} goes from {label.sides[0]} to {label.right} in {box}')
    if label.text != whole and label.sides[2] / max(1, len(label.text)) * len(whole) + SPARE < width and whole.isascii():
        yield Fault('e', f'{box} has only the label {label.text!r}')
    if label.fill != INK:
        yield Fault('d', f'{label.text!r} is written in {label.fill}')


def box_faults(box: Box, group: dict[str, Any], wholes: Wholes) -> Iterator[Fault]:
    """What is wrong with the colour, the title, the label and the order of a box."""
    rectangle, *labels = map(part_of, group['parts'])
    if not any(is_same(rectangle.fill, each) for each in colours_of(box, wholes)):
        yield Fault('d', f'{box} is painted in {rectangle.fill}')
    if not group['title'].startswith(f'{words.visible(box["name"])}: '):
        yield Fault('c', f'the title {group["title"]!r} is that of {box}')
    if [each.kind for each in labels] not in ([], ['text']):
        yield Fault('b', f'{box} has {labels}')
    if not group['isOnTop']:
        yield Fault('e', f'something lies over {box}')
    yield from label_faults(box, labels[0] if labels else None, wholes)


def faults_of(laid_out: dict[str, Any], line: Line, how: How) -> Iterator[Fault]:
    """All that a picture has wrong."""
    groups, boxes = laid_out['groups'], svg_pictures.boxes_drawn(line)
    others = sorted(map(part_of, laid_out['others']), key=lambda part: part.kind)
    if [each.kind for each in others] != ['rect', 'text', 'text']:
        yield Fault('b', f'beside boxes there are {others}')
        return
    paper, _, foot = others
    if not is_same(paper.fill, colour(LIGHT.paper)) or paper.sides[:3] != (0, 0, line['width']):
        yield Fault('e', f'the paper is {paper}')
    tiles = [Tile(*part_of(group['parts'][0]).sides, title=group['title']) for group in groups]
    for text in svg_pictures.faults(tiles, foot.text, line, how):
        yield Fault('a' if len(groups) == len(boxes) else 'b' if len(groups) > len(boxes) else 'e', text)
    if len(groups) == len(boxes):
        wholes = itertools.repeat(svg_pictures.wholes_of(line, how))
        yield from itertools.chain.from_iterable(map(box_faults, boxes, groups, wholes))
    if laid_out['count'] != len(others) + 1 + sum(2 + len(group['parts']) for group in groups):
        yield Fault('b', f'there are {laid_out["count"]} elements')


def look(check: Any, drawn: Drawn, svg: bytes) -> list[Fault]:
    """Opens a picture, and compares it."""
    check.browser.resize(*WINDOW)
    check.browser.go(check.folder / check.write('drawn.svg', svg))
    check.browser.wait_for("document.readyState === 'complete' && document.documentElement.localName === 'svg'")
    return [*faults_of(check.browser.value(LAID_OUT), json.loads(drawn.line), drawn.how)]


def pictures_drawn(check: Any) -> Iterator[tuple[str, Drawn]]:
    """Pictures of graphs, charts and comparisons, these also by shares, of both widths and with the root above and below."""
    rng = random.Random(13)
    kinds = (('graph', False), ('chart', False), ('compare', False), ('compare', True))
    for (command, is_share), width, is_below in itertools.product(kinds, WIDTHS, (False, True)):
        how = How(command, width, is_below, is_share=is_share)
        for texts in (svg_pictures.hostile(rng), likely(rng)):
            yield str(how), svg_pictures.draw(check.program, check.folder, how, texts)


def likely(rng: random.Random) -> list[bytes]:
    """Two files like those of a profiler, of which the second weighs many stacks otherwise."""
    before = like_profile(rng, rng.choice([*LANGUAGES.values()]), 200, 100)
    after = [(stack, int(weight * rng.choice((0, 0.5, 1, 1.1, 3)))) for stack, weight in before]
    return [text_of(stacks).encode() for stacks in (before, after)]


def svgs(check: Any) -> None:
    """Each picture of the program shows what the line of JSON says."""
    tried = 0
    for what, drawn in pictures_drawn(check):
        found = look(check, drawn, drawn.svg)
        told = ''.join(f'\n  ({letter}) {text}' for letter, text in found[:5])
        assert not found, f'{what}: {len(found)} faults{told}'
        tried += len(svg_pictures.boxes_drawn(json.loads(drawn.line)))
    assert tried > 1000, f'{tried} boxes were looked at'


def in_box(pattern: str, made: Callable[[re.Match[str]], str] | str) -> Callable[[str, str], str]:
    """Changes something in the line of a box."""
    return lambda svg, line: svg.replace(line, re.sub(pattern, made, line))


def further(much: int) -> Callable[[re.Match[str]], str]:
    return lambda number: str(int(number[0]) + much)


# Faults that are put into the text of a picture: what is wrong, the letter by which it is found, and how the text is changed in which
# that is the line of a box.
FAULTS: list[tuple[str, str, Callable[[str, str], str]]] = [
    ('a box is a pixel further right', 'a', in_box('(?<=<rect x=")[0-9]+', further(1))),
    ('a rectangle is no box\'s', 'b', lambda svg, line: svg.replace(line, f'{line}\n<rect x="9" y="36" width="9" height="17"/>')),
    ('a box stands there twice', 'b', lambda svg, line: svg.replace(line, f'{line}\n{line}')),
    ('a label is another\'s', 'c', in_box('(?<=">)[^<>]+(?=</text>)', 'other')),
    ('a label reaches out of its box', 'c', in_box('…(?=</text>)', 'long_…')),
    ('a title is another\'s', 'c', in_box('<title>', '<title>other')),
    ('a colour is another\'s', 'd', in_box('(?<=fill=")[^"]*', 'hsl(10, 48%, 74%)')),
    ('a label is white', 'd', in_box('<text', '<text fill="white"')),
    ('a box is left out', 'e', in_box('.+', '')),
    ('a label is left out', 'e', in_box('<text.*</text>', '')),
    ('the paper lies over all', 'e', lambda svg, line: re.sub('(<rect width[^\n]*)(.*)</svg>', r'\2\1</svg>', svg, flags=re.DOTALL)),
]


def svg_faults_are_found(check: Any) -> None:
    """Each fault that is put into a picture is found by its letter."""
    text = 'main;a_function_with_a_long_name 5\nmain;other 3\n'
    drawn = svg_pictures.draw(check.program, check.folder, How('graph', 200, False), [text.encode()])
    svg = drawn.svg.decode()
    line = next(each for each in svg.split('\n') if 'a_function' in each and '…' in each)
    assert not look(check, drawn, drawn.svg), 'there are faults where none was put in'
    for what, letter, change in FAULTS:
        changed = change(svg, line)
        assert changed != svg, f'it was not put in that {what}'
        letters = {fault.letter for fault in look(check, drawn, changed.encode())}
        assert letter in letters, f'that {what} is found by {letters or "nothing"}, and not by {letter}'


TESTS = [svgs, svg_faults_are_found]
