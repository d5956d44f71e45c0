"""Texts cut into ranges of bytes: every line is in one range, and what is said of ranges is what one run says of the text."""
import importlib
import pathlib
import random
import subprocess
import sys
from typing import Any

from fleet_hosts import TOP, Wrong, same
from fleet_inputs import ODD

sys.path.insert(0, str(TOP / 'share' / 'fleet'))
parts: Any = importlib.import_module('fleet_parts')
plan: Any = importlib.import_module('fleet_plan')

LINES = [*ODD.split(b'\n'), b'a;b 1\r', b'a', b'\x1f\x8b 3', b'\x1f', b'', b'x' * 50 + b' 4', b'\xff\xfe;b 2']
FAULTS = [b'b 1.5', b'c 1 2', b'd;' * 4097 + b'd 1', b'e 72057594037927936']


def drawn(chance: random.Random, spoilt: bool) -> bytes:
    lines = chance.choices(LINES, k=chance.randrange(1, 20))
    if spoilt:
        lines.insert(chance.randrange(len(lines) + 1), chance.choice(FAULTS))
    return b'\n'.join(lines) + b'\n' * chance.randrange(2)


def cut(path: pathlib.Path, text: bytes, most: int) -> None:
    """The lines of the ranges are those of the text, each begins where a line does, and little is read twice."""
    pieces = [b''.join(parts.lines_in(path, part.start, part.end)) for part in plan.ranges(str(path), len(text), most)]
    same(b''.join(pieces), text, f'{text!r} cut at {most} bytes')
    for piece in pieces[:-1]:
        if piece and not piece.endswith(b'\n') and not text.endswith(piece):
            raise Wrong(f'{text!r} cut at {most} bytes: a range ends inside a line: {piece!r}')


def folded(task: Any, path: pathlib.Path, text: bytes, most: int) -> None:
    """The folds of the ranges fold to the fold of the text, or say its fault as one run does."""
    one = subprocess.run([task.program, 'fold', *task.options, path.name], cwd=task.folder, capture_output=True, check=False)
    [group] = plan.groups(task, [path.name], most)
    folds = [parts.fold(task, part) for part in group]
    notes = parts.joined(folds)
    what = f'{text[:300]!r} cut at {most} bytes with {task.options}'
    same(''.join(f'{note}\n' for note in notes), one.stderr.decode(), what)
    same(max((note.status for note in notes), default=0), one.returncode, what)
    if one.returncode == 0:
        same(parts.meet(task, [fold.text for fold in folds]), one.stdout, what)


def try_cuts(program: pathlib.Path, folder: pathlib.Path, chance: random.Random) -> str:
    path = folder / 'cut.folded'
    for text in (b'a 1\nbb 2\n\nccc 3', b'\n\n\n', b'one line 1', b'a 1\r\n\r\nb 2\n', *(drawn(chance, False) for _ in range(20))):
        path.write_bytes(text)
        for most in range(1, len(text) + 2):
            cut(path, text, most)
    plain, strict = (parts.Task(str(program), str(folder), options) for options in ((), ('--strict',)))
    for at in range(60):
        text = drawn(chance, at % 3 > 0)
        path.write_bytes(text)
        for task in (plain, strict):
            folded(task, path, text, max(1, len(text) // chance.randrange(1, 6)))
    return 'texts are cut at line ends, and ranges fold to the whole'
