#!/usr/bin/env -S python3 -B
"""The fold of folds as tasks of an array job, in a folder that all of them see.

    array.py plan fold|top|graph [--page] [--program P] [--batch BYTES] FOLDER FILE... [-- OPTION...]
    array.py fold FOLDER TASK
    array.py answer FOLDER

The plan is written to FOLDER, and how many tasks there are is printed with its path. Each task folds its share of the parts. The answer
does parts again that no task has done, folds the folds, and writes what was asked for to FOLDER/answer.
"""
from __future__ import annotations

import dataclasses
import json
import pathlib
import shutil
import sys
from collections.abc import Callable, Sequence
from typing import Any

from fleet_parts import Failed, Folded, Note, Part, Task, fold, joined, meet, refused, show
from fleet_plan import MOST_TOGETHER, Refused, given_by, that_meet

# Slurm's arrays have at most 1,001 tasks unless it is set up for more. A task may have several parts.
MOST_TASKS = 1000


def place(path: pathlib.Path, data: bytes) -> None:
    """A file that is there when it is whole."""
    part = path.with_name(f'{path.name}.part')
    part.write_bytes(data)
    part.replace(path)


class Plan:
    """What stands in a folder: the parts by number, which of them stand or fall together, and the folds of those that were done."""

    def __init__(self, folder: pathlib.Path) -> None:
        self.folder = folder
        said: dict[str, Any] = json.loads((folder / 'plan').read_bytes())
        self.words: list[str] = said['words']
        self.task = Task(said['program'], said['folder'], tuple(said['options']))
        self.groups = [[Part(tuple(files), start, end) for files, start, end in group] for group in said['groups']]
        self.parts = [part for group in self.groups for part in group]

    @property
    def tasks(self) -> int:
        return min(len(self.parts), MOST_TASKS)

    def do(self, number: int) -> None:
        """Folds a part. What is said of it is there once its fold is."""
        folded = fold(self.task, self.parts[number])
        place(self.folder / f'{number}.folded', folded.text)
        said = {'lines': folded.lines, 'notes': [dataclasses.astuple(note) for note in folded.notes]}
        place(self.folder / f'{number}.said', json.dumps(said).encode())

    def is_done(self, number: int) -> bool:
        return (self.folder / f'{number}.said').exists()

    def said_of(self, number: int) -> Folded:
        """What is said of a part, without its fold."""
        said = json.loads((self.folder / f'{number}.said').read_bytes())
        return Folded(b'', tuple(Note(*note) for note in said['notes']), said['lines'])


def planned(line: Sequence[str]) -> int:
    given = given_by(line, __doc__, 'FOLDER', 'a new folder, which all nodes see')
    said = {
        'words': given.words, 'program': given.task.program, 'folder': given.task.folder, 'options': given.task.options,
        'groups': [[(part.files, part.start, part.end) for part in group] for group in given.groups()],
    }
    if shutil.which(given.task.program) and (refusal := refused(given.task, given.words)):
        print(refusal, end='', file=sys.stderr)
        return 2
    folder = pathlib.Path(given.place).absolute()
    folder.mkdir()
    place(folder / 'plan', json.dumps(said).encode())
    print(Plan(folder).tasks, folder)
    return 0


def share(folder: str, task: str) -> int:
    plan = Plan(pathlib.Path(folder))
    for number in range(int(task), len(plan.parts), plan.tasks):
        if not plan.is_done(number):
            plan.do(number)
    return 0


def sound(plan: Plan) -> tuple[list[pathlib.Path], int]:
    """The folds that stay, and the status. Tells what is said of the files, in their order."""
    folds, status, first = [], 0, 0
    for group in plan.groups:
        numbers = range(first, first + len(group))
        first += len(group)
        notes = joined([plan.said_of(number) for number in numbers])
        for note in notes:
            print(note, file=sys.stderr)
            status = max(status, note.status)
        if len(group) == 1 or not any(note.status for note in notes):
            folds += [plan.folder / f'{number}.folded' for number in numbers]
    return folds, status


def all_met(plan: Plan, waiting: list[pathlib.Path]) -> bytes:
    """The fold of all folds, the smallest first."""
    for number in range(len(waiting)):
        if len(waiting) < 2:
            break
        waiting.sort(key=lambda path: path.stat().st_size)
        count = that_meet([path.stat().st_size for path in waiting])
        if not count:
            raise Failed(f'two folds have more than {MOST_TOGETHER} bytes together')
        met = plan.folder / f'met-{number}.folded'
        place(met, meet(plan.task, [path.read_bytes() for path in waiting[:count]]))
        waiting = [*waiting[count:], met]
    return waiting[0].read_bytes() if waiting else b''


def answered(folder: str) -> int:
    plan = Plan(pathlib.Path(folder))
    for number in range(len(plan.parts)):
        if not plan.is_done(number):
            print(f'array.py: no task did part {number}, so it is done now', file=sys.stderr, flush=True)
            plan.do(number)
    folds, status = sound(plan)
    out = all_met(plan, folds)
    if plan.words != ['fold']:
        shown = show(plan.task, plan.words, out)
        print(shown.err, end='', file=sys.stderr)
        if shown.status:
            return shown.status
        out = shown.out
    place(plan.folder / 'answer', out)
    return status


def main() -> int:
    given = sys.argv[1:]
    commands: dict[str, Callable[[], int]] = {
        'plan': lambda: planned(given[1:]), 'fold': lambda: share(*given[1:]), 'answer': lambda: answered(*given[1:]),
    }
    if not given or given[0] not in commands or len(given) != {'fold': 3, 'answer': 2}.get(given[0], len(given)):
        print(__doc__, file=sys.stderr)
        return 2
    try:
        return commands[given[0]]()
    except Refused as fault:
        print(f'array.py: {fault}', file=sys.stderr)
        return 2
    except (OSError, Failed) as fault:
        print(f'array.py: {fault}', file=sys.stderr)
        return 3


if __name__ == '__main__':
    sys.exit(main())
