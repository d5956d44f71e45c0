"""Random samples, what the program draws of them as an SVG and as a line of JSON, and what of its boxes differs between the two.
checks/pictures reads an SVG as XML, and painted_svgs.py as a browser lays it out.
"""
from __future__ import annotations

import math
import pathlib
import random
import re
import shlex
import subprocess
from collections.abc import Iterator
from fractions import Fraction
from typing import Any, NamedTuple

TOP = pathlib.Path(__file__).resolve().parents[2]
# The SVG that README shows, and its page.
SHOWN = TOP / 'docs' / 'graph.svg'
PAGE = TOP / 'docs' / 'graph.html'
ROW = 18
LETTERS = [chr(code) for code in range(1, 127) if chr(code) not in ';\n'] + list('é漢\u200b\ufffe\u2028😀&<>"\'')

Box = dict[str, Any]
Line = dict[str, Any]
# What both profiles weigh, where shares of that are compared.
Wholes = tuple[int, int] | None


class Tile(NamedTuple):
    """A box of a picture: its rectangle in pixels, and its title."""
    left: float
    top: float
    width: float
    height: float
    title: str


class How(NamedTuple):
    """How a picture is drawn: a comparison also by shares."""
    command: str
    width: int
    is_below: bool
    title: str = 'a title'
    is_share: bool = False


class Drawn(NamedTuple):
    """What the program answers with one command: the text of an SVG and how it is drawn, and the line of JSON of the same samples."""
    svg: bytes
    how: How
    line: bytes


class Refused(Exception):
    """The program ended with another status than 0."""


def name_of(rng: random.Random, longest: int) -> str:
    return ''.join(rng.choice(LETTERS) for _ in range(rng.randint(0, longest)))


def names_of(rng: random.Random) -> list[str]:
    """Names that end in a letter, so that none is taken for a second count."""
    return [name_of(rng, 12) + 'x' for _ in range(rng.choice((3, 8, 30)))]


def samples(rng: random.Random, names: list[str]) -> bytes:
    """Folded lines of these names."""
    lines = [
        f'{";".join(rng.choice(names) for _ in range(rng.randint(0, 6)))} {rng.choice((0, 1, 1, 2, 50, 10 ** rng.randint(0, 12)))}\n'
        for _ in range(rng.choice((1, 5, 60, 400)))
    ]
    return ''.join(lines).encode()


def answer(program: pathlib.Path, words: list[str], folder: pathlib.Path | None = None) -> bytes:
    """What the program writes, run in this folder."""
    ended = subprocess.run([program, *words], cwd=folder, stdin=subprocess.DEVNULL, capture_output=True, check=False)
    if ended.returncode:
        raise Refused(f'status {ended.returncode} with {words}: {ended.stderr.decode(errors="replace")[:200]}')
    return ended.stdout


def hostile(rng: random.Random) -> list[bytes]:
    """Two files of samples that are chosen at random, of the same names."""
    names = names_of(rng)
    return [samples(rng, names) for _ in range(2)]


def draw(program: pathlib.Path, folder: pathlib.Path, how: How, texts: list[bytes]) -> Drawn:
    """Has the program draw the samples of two files if it compares, else those of the first."""
    paths = [folder / f'{number}.folded' for number, _ in enumerate(texts)][:2 if how.command == 'compare' else 1]
    for path, text in zip(paths, texts):
        path.write_bytes(text)
    words = [how.command, '--width', str(how.width), *map(str, paths)]
    flags = [flag for flag, is_set in (('--root-below', how.is_below), ('--share', how.is_share)) if is_set]
    svg = answer(program, [*words, '--svg', f'--title={how.title}', *flags])
    return Drawn(svg, how, answer(program, [*words, *(['--boxes'] if how.command == 'compare' else [])]))


def of_readme(program: pathlib.Path) -> dict[pathlib.Path, bytes]:
    """What the program writes by the words that README has for its SVG, and for the page of that."""
    readme = ' '.join((TOP / 'README.md').read_text(encoding='utf-8').split())
    made = {}
    for place, words in zip((SHOWN, PAGE), re.findall('`(graph --(?:svg|page) --title [^`]*)`', readme)):
        made[place] = answer(program, shlex.split(words), TOP)
    if len(made) != 2:
        raise Refused('README says no words that make its SVG and its page')
    return made


def boxes_drawn(line: Line) -> list[Box]:
    """The boxes that are a pixel wide or wider, whose edges differ."""
    return [box for box in line['boxes'] if box['left'] < box['right']]


def top_of(line: Line, box: Box, is_below: bool) -> int:
    """The top of the row of a box that is drawn. Above all rows stands the heading."""
    depths: list[int] = [each['depth'] for each in boxes_drawn(line)]
    depth: int = box['depth']
    return ROW * (max(depths) + 1 - depth if is_below else depth + 1)


def separated(number: int) -> str:
    return format(number, ',')


def wholes_of(line: Line, how: How) -> Wholes:
    """What both profiles weigh is what the root does."""
    return (line['boxes'][0]['before'], line['total']) if how.is_share and line['boxes'] else None


def hundredths(weight: int, whole: int) -> int:
    """Hundredths of a percent, of two equally near the greater. Of nothing, each part is nothing."""
    return math.floor(Fraction(10000 * weight, max(1, whole)) + Fraction(1, 2))


def percent(parts: int) -> str:
    return f'{parts // 100}.{parts % 100:02}%'


def points_of(box: Box, wholes: tuple[int, int]) -> str:
    """By how much the share of a path grew, as both shares are written."""
    grown = hundredths(box['weight'], wholes[1]) - hundredths(box['before'], wholes[0])
    return f'{"+" if grown > 0 else "-" if grown < 0 else ""}{percent(abs(grown))}'


def weights_of(box: Box, wholes: Wholes) -> str:
    """How a title tells the weight of a box, and in a comparison both weights, and by shares also what part of their whole they are."""
    weight = separated(box['weight'])
    if 'before' not in box:
        return weight
    if wholes is None:
        return f'before {separated(box["before"])}, after {weight}'
    before, after = (percent(hundredths(*each)) for each in zip((box['before'], box['weight']), wholes))
    return f'before {separated(box["before"])}, {before}, after {weight}, {after}, points {points_of(box, wholes)}'


def foot_of(line: Line) -> str:
    left_out = [box for box in line['boxes'] if box['left'] == box['right']]
    if not left_out:
        return f'total {separated(line["total"])}'
    boxes = '1 narrower box' if len(left_out) == 1 else f'{len(left_out)} narrower boxes'
    ends = separated(sum(box['own'] for box in left_out))
    return f'total {separated(line["total"])} · {boxes} left out, in which {ends} ends'


def faults(tiles: list[Tile], foot: str, line: Line, how: How) -> Iterator[str]:
    """What differs between the boxes of a picture, in order, with the text at its foot, and those of a line of JSON."""
    boxes = boxes_drawn(line)
    if len(tiles) != len(boxes):
        yield f'{len(tiles)} rectangles of {len(boxes)} boxes'
        return
    for tile, box in zip(tiles, boxes):
        if tile[:4] != (box['left'], top_of(line, box, how.is_below), box['right'] - box['left'], ROW - 1):
            yield f'the rectangle {tile[:4]} of {box}'
        if f': {weights_of(box, wholes_of(line, how))}, ' not in tile.title or not tile.title.endswith(f'own {separated(box["own"])}'):
            yield f'the title {tile.title!r} of {box}'
    if foot != foot_of(line):
        yield f'the foot {foot!r} in place of {foot_of(line)!r}'
