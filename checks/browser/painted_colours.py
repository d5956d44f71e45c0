"""The colours of a page, as a table of the check's own, and how the colour of a box follows from the data."""
from __future__ import annotations

import colorsys
import math
import re
from fractions import Fraction
from typing import NamedTuple

Colour = tuple[int, int, int]

PLAIN_COLOURS = 108
HUES = 36
CHANGE_STEPS = 10


class Palette(NamedTuple):
    """Light or dark. Of plain boxes and of changes: saturation and lightness, in percent."""
    paper: str
    ink: str
    line: str
    root: str
    dim: str
    dim_ink: str
    match: str
    match_ink: str
    joined: str
    joined_match: str
    plain: tuple[int, int]
    changes: tuple[int, int, int]


LIGHT = Palette(paper='#fbfbf9', ink='#1f2226', line='#80868f', root='hsl(220, 8%, 82%)', dim='hsl(220, 8%, 90%)', dim_ink='#555b64',
                match='hsl(285, 48%, 45%)', match_ink='#ffffff', joined='#9aa0a8', joined_match='#a982bb', plain=(48, 74),
                changes=(74, 88, 68))
DARK = Palette(paper='#1b1d20', ink='#eef0f2', line='#7c828b', root='hsl(220, 6%, 34%)', dim='hsl(220, 6%, 22%)', dim_ink='#a9afb8',
               match='hsl(285, 50%, 68%)', match_ink='#17121a', joined='#5d646e', joined_match='#8c589d', plain=(26, 25),
               changes=(52, 30, 38))


def hsl(hue: float, saturation: float, lightness: float) -> Colour:
    """The colour of a hue in degrees, and a saturation and a lightness in percent."""
    red, green, blue = colorsys.hls_to_rgb(hue / 360, lightness / 100, saturation / 100)
    return round(red * 255), round(green * 255), round(blue * 255)


def colour(text: str) -> Colour:
    """The colour that CSS writes so: `#rrggbb` or `hsl(hue, saturation%, lightness%)`."""
    if found := re.fullmatch('#([0-9a-f]{2})([0-9a-f]{2})([0-9a-f]{2})', text):
        return int(found[1], 16), int(found[2], 16), int(found[3], 16)
    found = re.fullmatch(r'hsl\(([0-9.]+), ([0-9.]+)%, ([0-9.]+)%\)', text)
    if not found:
        raise ValueError(f'{text!r} is no colour that this check knows')
    return hsl(float(found[1]), float(found[2]), float(found[3]))


def is_same(one: Colour, other: Colour) -> bool:
    """A browser may round each part another way."""
    return all(abs(each - its) <= 1 for each, its in zip(one, other))


def name_number(name: str) -> int:
    """The number of a name's colour among the plain ones, of the bytes of its UTF-8."""
    value = 0
    for byte in name.encode('utf-8'):
        value = (value * 31 + byte) % 2 ** 32
    return value * 2654435769 % 2 ** 32 // 65536 % PLAIN_COLOURS


def of_name(palette: Palette, name: str) -> Colour:
    number = name_number(name)
    saturation, lightest = palette.plain
    return hsl(number % HUES * 360 / HUES, saturation, lightest + number // HUES * 4)


def of_package(palette: Palette, package: str, name: str) -> Colour:
    """The hue is that which the package, or the name where it has none, would have as a name, and the step of lightness that of the
    name."""
    saturation, lightest = palette.plain
    return hsl(name_number(package or name) % HUES * 360 / HUES, saturation, lightest + name_number(name) // HUES * 4)


def of_step(palette: Palette, step: int, is_more: bool) -> Colour:
    """The colour of a change by so many tenths of the larger weight: from grey to blue where it is less, and to red where it is more."""
    saturation, still, full = palette.changes
    much = step / CHANGE_STEPS
    used = round(saturation * (0.35 + 0.65 * much), 1) if step else 0
    return hsl(6 if is_more else 213, used, round(still + (full - still) * much, 1))


def of_change(palette: Palette, before: int, after: int) -> list[Colour]:
    """The colours that a change may have: one, or two where it is exactly between two of them and a division may round either way."""
    if before == after:
        return [of_step(palette, 0, False)]
    tenths = Fraction(CHANGE_STEPS * abs(after - before), max(before, after))
    steps = {math.ceil(tenths)}
    if tenths.denominator == 1 and tenths < CHANGE_STEPS:
        steps.add(int(tenths) + 1)
    return [of_step(palette, step, after > before) for step in sorted(steps)]
