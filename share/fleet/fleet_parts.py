"""Parts of many profiles and long texts, and the folds of them: what a host of a fleet does, whatever engine sends it work.

A part is a batch of whole files, or the lines of one text that begin in a range of its bytes. Its fold depends on nothing but these bytes
and leaves nothing behind, so it may be done again, on another host. Nothing here knows an engine.
"""
from __future__ import annotations

import dataclasses
import os
import pathlib
import re
import subprocess
import tempfile
from collections.abc import Iterable, Iterator, Sequence

CHUNK = 2**20
SAID = re.compile(r'(?:(?P<ignored>ignored) (?P<lines>\d+)|(?P<fault>\w+) at (?P<place>\d+)|(?P<failure>cannot be read|too large))\n')
# A line of a fold whose last name ends in a number: read again it would have two counts, but for a `;` behind that name.
TWO_COUNTS = re.compile(rb'([ \t][0-9]+(?:\.[0-9]*)?) ([0-9]+)$', re.M)


class Failed(RuntimeError):
    """The program did not do its work, for no reason that lies in a file."""


@dataclasses.dataclass(frozen=True)
class Task:
    """What is the same for all parts: the program, the folder in which paths are looked up, and how sources are read."""

    program: str
    folder: str
    options: tuple[str, ...] = ()


@dataclasses.dataclass(frozen=True)
class Part:
    """Files, or of one file the lines that begin in a range of bytes, where it has an end."""

    files: tuple[str, ...]
    start: int = 0
    end: int = 0


@dataclasses.dataclass(frozen=True)
class Note:
    """What the program says of a file: its fault, how many lines it ignored, or that it can't be read."""

    path: str
    kind: str
    number: int | None = None

    @property
    def status(self) -> int:
        return 0 if self.kind == 'ignored' else 3 if self.number is None else 1

    def __str__(self) -> str:
        between = '' if self.number is None else ' ' if self.kind == 'ignored' else ' at '
        return f'flamecollect: {self.path}: {self.kind}{between}{"" if self.number is None else self.number}'


@dataclasses.dataclass(frozen=True)
class Folded:
    """The fold of a part without its faulty files, what is said of its files, and of a range how many lines end in it."""

    text: bytes
    notes: tuple[Note, ...] = ()
    lines: int = 0


@dataclasses.dataclass(frozen=True)
class Ran:
    status: int
    out: bytes
    err: str


# ---- the program


def run(task: Task, words: Sequence[str], given: Iterable[bytes] = ()) -> Ran:
    """A run over what is given to its standard input, piece by piece."""
    with tempfile.TemporaryFile() as out, tempfile.TemporaryFile() as err:
        with subprocess.Popen([task.program, *words], cwd=task.folder, stdin=subprocess.PIPE, stdout=out, stderr=err) as process:
            assert process.stdin
            try:
                for piece in given:
                    process.stdin.write(piece)
                process.stdin.close()
            except BrokenPipeError:
                pass
        texts = []
        for file in (out, err):
            file.seek(0)
            texts.append(file.read())
    return Ran(process.returncode, texts[0], texts[1].decode('utf-8', 'surrogateescape'))


def notes_of(ran: Ran, files: Sequence[str]) -> list[Note]:
    """What a run said of these files, in their order."""
    notes, at = [], 0
    for path in files:
        head = f'flamecollect: {path}: '
        said = SAID.match(ran.err, at + len(head)) if ran.err.startswith(head, at) else None
        if said:
            number = said['lines'] or said['place']
            notes.append(Note(path, said['ignored'] or said['fault'] or said['failure'], int(number) if number else None))
            at = said.end()
    if at != len(ran.err) or ran.status != max((note.status for note in notes), default=0):
        raise Failed(f'status {ran.status} of {files[0]}, the first of {len(files)}: {ran.err.strip()}')
    return notes


def fold_files(task: Task, files: Sequence[str]) -> Folded:
    """The fold of those of these files that have no fault: where some have one, the others are folded once more."""
    spoilt: dict[int, Note] = {}
    while True:
        left = [at for at in range(len(files)) if at not in spoilt]
        paths = [files[at] for at in left]
        ran = run(task, ['fold', *task.options, '--', *paths]) if left else Ran(0, b'', '')
        notes = notes_of(ran, paths) if left else []
        if ran.status == 0:
            said = {**dict(zip_notes(left, paths, notes)), **spoilt}
            return Folded(ran.out, tuple(said[at] for at in sorted(said)))
        spoilt.update((at, note) for at, note in zip_notes(left, paths, notes) if note.status)


def zip_notes(places: Sequence[int], paths: Sequence[str], notes: Sequence[Note]) -> Iterator[tuple[int, Note]]:
    """Each note with the place of its file, of which some may be the same."""
    waiting = list(notes)
    for place, path in zip(places, paths):
        if waiting and waiting[0].path == path:
            yield place, waiting.pop(0)


# ---- a range of a text


def lines_in(path: pathlib.Path, start: int, end: int) -> Iterator[bytes]:
    """The lines that begin in this range of bytes, in pieces. Before them the end of one line is read, and nothing behind."""
    with open(path, 'rb') as file:
        if start:
            file.seek(start - 1)
            start -= 1
            while start < end and (rest := file.readline(CHUNK)):
                start += len(rest)
                if rest.endswith(b'\n'):
                    break
        last = b'\n'
        while start < end and (piece := file.read(min(CHUNK, end - start))):
            start += len(piece)
            last = piece[-1:]
            yield piece
        while last != b'\n' and (piece := file.readline(CHUNK)):
            last = piece[-1:]
            yield piece


class Lines:
    """Pieces of lines on their way, and how many line feeds they had. A line in the middle of a file that begins as gzip does gets one
    without weight before it, since it is no start of a file."""

    def __init__(self, pieces: Iterator[bytes], inside: bool) -> None:
        self.pieces, self.count, self.added = pieces, 0, 0
        self.first = next(pieces, b'')
        if inside and len(self.first) == 1:
            self.first += next(pieces, b'')
        if inside and self.first.startswith(b'\x1f\x8b'):
            self.added = 1

    def __iter__(self) -> Iterator[bytes]:
        if self.added:
            yield b' 0\n'
        self.count += self.first.count(b'\n')
        yield self.first
        for piece in self.pieces:
            self.count += piece.count(b'\n')
            yield piece


def fold_range(task: Task, path: str, start: int, end: int) -> Folded:
    """The fold of the lines that begin in a range, and what is wrong with them, at the lines of the range."""
    try:
        lines = Lines(lines_in(pathlib.Path(task.folder, path), start, end), start > 0)
        if not lines.first:
            return Folded(b'')
        ran = run(task, ['fold', *task.options], lines)
    except OSError as fault:
        if fault.filename == task.program:
            raise Failed(f'{task.program}: {fault.strerror}') from None
        return Folded(b'', (Note(path, 'cannot be read'),))
    notes = notes_of(ran, ['-'])
    return Folded(ran.out, tuple(Note(path, it.kind, (it.number or 0) - it.status * lines.added) for it in notes), lines.count)


def joined(folds: Sequence[Folded]) -> tuple[Note, ...]:
    """What is said of the files of a batch, or of a text by what is said of its ranges: its first fault, or how many lines it ignored."""
    if len(folds) == 1:
        return folds[0].notes
    before = ignored = 0
    path = ''
    for folded in folds:
        for note in folded.notes:
            if note.number is None:
                return (note,)
            if note.status:
                return (dataclasses.replace(note, number=before + note.number),)
            path, ignored = note.path, ignored + note.number
        before += folded.lines
    return (Note(path, 'ignored', ignored),) if ignored else ()


# ---- what is done with parts


def refused(task: Task, words: Sequence[str]) -> str:
    """What the program says of words that it refuses, of nothing to read."""
    for line in (['fold', *task.options], words):
        ran = run(task, line)
        if ran.status == 2:
            return ran.err
    return ''


def fold(task: Task, part: Part) -> Folded:
    try:
        return fold_range(task, part.files[0], part.start, part.end) if part.end else fold_files(task, part.files)
    except FileNotFoundError as fault:
        raise Failed(f'{fault.filename}: {fault.strerror}') from None


def with_one_count(text: bytes) -> bytes:
    """The same fold, in which no line ends in two counts: an empty name behind the last one is dropped."""
    return TWO_COUNTS.sub(rb'\1; \2', text)


def show(task: Task, words: Sequence[str], text: bytes) -> Ran:
    """What the program writes of one folded text on its standard input."""
    ran = run(task, words, pieces_of(text))
    if ran.status == 1 and ran.err.startswith('flamecollect: -: TwoColumns at '):
        ran = run(task, words, pieces_of(with_one_count(text)))
    return ran


def pieces_of(text: bytes) -> Iterator[memoryview]:
    for at in range(0, len(text), CHUNK):
        yield memoryview(text)[at:at + CHUNK]


def meet(task: Task, texts: Sequence[bytes]) -> bytes:
    """The fold of folds, at most 64. What is read from them weighs at most 2^56-1 each, or it fails."""
    ran = fold_texts(task, texts)
    if ran.status == 1 and ': TwoColumns at ' in ran.err:
        ran = fold_texts(task, [with_one_count(text) for text in texts])
    if ran.status or ran.err:
        raise Failed(f'folds do not meet: status {ran.status}: {ran.err.strip()}')
    return ran.out


def fold_texts(task: Task, texts: Sequence[bytes]) -> Ran:
    with tempfile.TemporaryDirectory(prefix='fleet-') as name:
        paths = [os.path.join(name, f'{at}.folded') for at in range(len(texts))]
        for path, text in zip(paths, texts):
            pathlib.Path(path).write_bytes(text)
        return run(task, ['fold', '--', *paths])
