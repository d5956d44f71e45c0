"""Which parts the files of a fleet's work are, which folds meet, and what its words say. Only who spreads the work needs it."""
from __future__ import annotations

import argparse
import dataclasses
import os
import pathlib
import stat
from collections.abc import Iterable, Iterator, Sequence

from fleet_parts import Part, Task

MOST_FILES = 64
# What meets in one fold is in memory, and in files, before it is read.
MOST_TOGETHER = 2**30
BATCH = 2**27
PROFILES = ('.pb', '.pprof', '.prof')
EPILOG = '''Options of the program stand behind --. Those that say how sources are read (--type, --format, --focus, --hide, --from, --omit,
--lines, --strict, --ring) go to each fold, and the others to the last run.'''


class Refused(ValueError):
    """The words are none that a fleet takes."""


# ---- which parts there are


def is_text(path: str, form: str | None) -> bool:
    return form == 'folded' if form else not path.endswith(PROFILES)


def size_of(path: pathlib.Path) -> int:
    """A plain file's size. What is missing has none: the program says so."""
    try:
        found = path.stat()
    except OSError:
        return 0
    if not stat.S_ISREG(found.st_mode) and not stat.S_ISDIR(found.st_mode):
        raise Refused(f'{path}: is no plain file')
    return found.st_size


def ranges(path: str, size: int, most: int) -> list[Part]:
    """A text cut by its length alone."""
    count = -(-size // most)
    return [Part((path,), size * at // count, size * (at + 1) // count) for at in range(count)]


def groups(task: Task, files: Iterable[str], most: int, form: str | None = None) -> Iterator[list[Part]]:
    """The parts of these files, none of more than `most` bytes where it can be cut. Those of a group stand or fall together: they are the
    ranges of one text, or there is one, of whole files."""
    batch: list[str] = []
    room = most
    for path in files:
        try:
            path.encode()
        except UnicodeEncodeError:
            raise Refused(f'{path!r} is no UTF-8 text') from None
        size = size_of(pathlib.Path(task.folder, path))
        if size > most and is_text(path, form):
            yield ranges(path, size, most)
            continue
        if batch and (len(batch) == MOST_FILES or size > room):
            yield [Part(tuple(batch))]
            batch, room = [], most
        batch.append(path)
        room -= size
    if batch:
        yield [Part(tuple(batch))]


# ---- which folds meet


def that_meet(sizes: Sequence[int]) -> int:
    """How many of these meet in one fold, of sizes that grow: none where two are too many."""
    room, count = MOST_TOGETHER, 0
    while count < min(len(sizes), MOST_FILES) and sizes[count] <= room:
        room -= sizes[count]
        count += 1
    return count if count > 1 else 0


# ---- the words


@dataclasses.dataclass(frozen=True)
class Given:
    """What is asked for: how each part is folded, the words of the last run, where the work is spread, and the files."""

    task: Task
    words: list[str]
    place: str
    files: list[str]
    batch: int
    form: str | None

    def groups(self) -> list[list[Part]]:
        return list(groups(self.task, self.files, self.batch, self.form))


def split(options: Sequence[str]) -> tuple[argparse.Namespace, list[str]]:
    """The options behind `--`: those of each fold, and those of the last run."""
    words = argparse.ArgumentParser(add_help=False, allow_abbrev=False)
    for name in ('--type', '--format', '--from', '--ring'):
        words.add_argument(name)
    for name in ('--focus', '--hide', '--omit'):
        words.add_argument(name, action='append')
    for name in ('--lines', '--strict'):
        words.add_argument(name, action='store_true')
    return words.parse_known_args(options)


def spelled(reading: argparse.Namespace) -> Iterator[str]:
    for name, value in vars(reading).items():
        if value is True:
            yield f'--{name}'
        elif value:
            yield from (f'--{name}={each}' for each in (value if isinstance(value, list) else [value]))


def given_by(line: Sequence[str], about: str | None, place: str, what: str) -> Given:
    """What a command line asks for, whose first file is preceded by a place."""
    words = argparse.ArgumentParser(description=about, epilog=EPILOG, allow_abbrev=False)
    commands = words.add_subparsers(dest='command', required=True)
    for name in ('fold', 'top', 'graph'):
        command = commands.add_parser(name, allow_abbrev=False, epilog=EPILOG)
        if name == 'graph':
            command.add_argument('--page', action='store_true', help='a page for browsers in place of JSON')
        command.add_argument('--program', default='flamecollect', help='the program, where work is done; flamecollect unless set')
        command.add_argument('--batch', type=int, default=BATCH, metavar='BYTES', help=f'how much is folded at once; {BATCH} unless set')
        command.add_argument('place', metavar=place, help=what)
        command.add_argument('files', metavar='FILE', nargs='+', help='a profile or a text, as it is called where work is done')
    end = line.index('--') if '--' in line else len(line)
    found = words.parse_args(line[:end])
    reading, rest = split(line[end + 1:])
    if not 0 < found.batch <= MOST_TOGETHER:
        words.error(f'a batch has 1 to {MOST_TOGETHER} bytes')
    if any(word.startswith(('-o', '--output')) for word in rest):
        words.error('the answer goes to standard output')
    page = ['--page'] * (found.command == 'graph' and found.page)
    task = Task(found.program, os.getcwd(), tuple(spelled(reading)))
    return Given(task, [found.command, *page, *rest], found.place, found.files, found.batch, reading.format)
