"""What was painted, as the recorder kept it of a canvas, or as it stands in an SVG: rectangles and texts, in pixels."""
from __future__ import annotations

import xml.etree.ElementTree
from typing import Any, NamedTuple

from painted_colours import Colour, colour

SVG = '{http://www.w3.org/2000/svg}'
# A browser paints nothing on a canvas that is larger.
LONGEST_SIDE = 65535
LARGEST_CANVAS = 2 ** 28
STYLE = ('12px ', '; middle; ', '; start; ltr')
# The baseline of a text of an SVG is so far below its middle.
BASELINE = 4


class Rectangle(NamedTuple):
    left: float
    top: float
    width: float
    height: float
    fill: Colour
    title: str | None

    @property
    def right(self) -> float:
        return self.left + self.width


class Text(NamedTuple):
    """A text, and how many rectangles were painted before it. Its width is known on a canvas."""
    text: str
    left: float
    middle: float
    width: float | None
    ink: Colour
    after: int


class Paint(NamedTuple):
    """The rectangles and texts in order, and what else is wrong. An SVG has a heading, its title, and titles of its boxes."""
    width: float
    height: float
    rectangles: list[Rectangle]
    texts: list[Text]
    faults: list[str]
    heading: str | None


def of_canvas(record: dict[str, Any]) -> Paint:
    """The last paint of a canvas."""
    scale = record['scale']
    colours = [colour(text) for text in record['colours']]
    numbers = record['rectangles']
    rectangles = [
        Rectangle(numbers[at] / scale, numbers[at + 1] / scale, numbers[at + 2] / scale, numbers[at + 3] / scale,
                  colours[numbers[at + 4]], None)
        for at in range(0, len(numbers), 5)]
    texts = [Text(each['text'], each['left'] / scale, each['middle'] / scale, each['width'] / scale, colour(each['ink']), each['after'])
             for each in record['texts']]
    faults = [f'the page paints by {other}, which the check does not know' for other in sorted(set(record['others']))]
    faults += [f'a text is painted as {style}' for style in sorted({each['style'] for each in record['texts']}) if not is_known(style)]
    width, height = record['width'], record['height']
    if max(width, height) > LONGEST_SIDE or width * height > LARGEST_CANVAS:
        faults.append(f'a canvas of {width} by {height} dots is larger than a browser paints')
    return Paint(width / scale, height / scale, rectangles, texts, faults, None)


def is_known(style: str) -> bool:
    begin, part, end = STYLE
    return style.startswith(begin) and part in style and style.endswith(end)


def of_svg(text: str) -> Paint:
    """The rectangles and texts of an SVG, in the order in which it paints them."""
    root = xml.etree.ElementTree.fromstring(text)
    rectangles: list[Rectangle] = []
    texts: list[Text] = []
    parents = {child: parent for parent in root.iter() for child in parent}
    for element in root.iter():
        if element.tag == f'{SVG}rect':
            sides = [float(element.get(side, '0')) for side in ('x', 'y', 'width', 'height')]
            rectangles.append(Rectangle(sides[0], sides[1], sides[2], sides[3], colour(element.get('fill', '')),
                                        title_of(element, parents)))
        elif element.tag == f'{SVG}text':
            left, baseline = float(element.get('x', '0')), float(element.get('y', '0'))
            texts.append(Text(element.text or '', left, baseline - BASELINE, None, colour(element.get('fill', '')), len(rectangles)))
    return Paint(float(root.get('width', '0')), float(root.get('height', '0')), rectangles, texts, svg_faults(root),
                 root.findtext(f'{SVG}title', ''))


def title_of(element: xml.etree.ElementTree.Element, parents: dict[Any, Any]) -> str | None:
    """The title of an element, or of the group that it stands in."""
    own = element.find(f'{SVG}title')
    if own is None and parents[element].tag == f'{SVG}g':
        own = parents[element].find(f'{SVG}title')
    return None if own is None else own.text or ''


def svg_faults(root: xml.etree.ElementTree.Element) -> list[str]:
    """What an SVG may not have: the comparison would not see it, or it would move what it sees."""
    known = {f'{SVG}{name}' for name in ('svg', 'g', 'title', 'rect', 'text')}
    faults = [f'the SVG has a {element.tag}' for element in root.iter() if element.tag not in known]
    faults += ['the SVG moves an element' for element in root.iter() if element.get('transform') or element.get('style')]
    size = f'0 0 {root.get("width")} {root.get("height")}'
    return faults + ([] if root.get('viewBox') == size else [f'the SVG shows {root.get("viewBox")} of {size}'])
