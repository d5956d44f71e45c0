#!/usr/bin/env -S python3 -B
"""Folds many profiles and long texts on the workers of a Dask scheduler, and writes the fold of all, or what top or graph show of it."""
from __future__ import annotations

import concurrent.futures
import hashlib
import importlib
import logging
import pathlib
import sys
from collections.abc import Sequence
from typing import Any

import fleet_parts
from fleet_parts import Failed, Folded, Note, Part, Ran, Task, fold, joined, meet, refused, show
from fleet_plan import MOST_TOGETHER, Given, Refused, given_by, that_meet

# Where so many folds wait they meet, so that few wait.
MEETING = 16
# How many seconds the scheduler and a worker are waited for.
PATIENCE = 60
# Of what stands outside, so that types are looked at where it is not installed, too.
distributed: Any = importlib.import_module('distributed')


# ---- what workers do: they get these by value, and fleet_parts as a file


def meet_all(task: Task, *folds: Folded) -> Folded:
    return Folded(meet(task, [each.text for each in folds]))


def said_of(folded: Folded) -> tuple[int, tuple[Note, ...], int]:
    """What is known of a fold where its text is not."""
    return len(folded.text), folded.notes, folded.lines


def show_of(task: Task, words: Sequence[str], folded: Folded) -> Ran:
    return show(task, words, folded.text)


# ---- all parts


class Progress:
    """One line on a terminal."""

    def __init__(self) -> None:
        self.shown = sys.stderr.isatty()

    def say(self, text: str) -> None:
        if self.shown:
            print(f'\r\x1b[K{text}', end='', file=sys.stderr, flush=True)

    def clear(self) -> None:
        self.say('')


class Group:
    """The parts of one text, or a batch: how many have not come, and what has."""

    def __init__(self, count: int) -> None:
        self.left = count
        self.come: dict[int, tuple[Any, int, Folded]] = {}

    @property
    def notes(self) -> tuple[Note, ...]:
        return joined([self.come[at][2] for at in sorted(self.come)])

    @property
    def folds(self) -> list[tuple[int, Any]]:
        """Those that stay, with their sizes: none of a text that has a fault in one of its ranges."""
        if len(self.come) > 1 and any(note.status for note in self.notes):
            return []
        return [(size, fold) for fold, size, _ in self.come.values() if size]


class Folding:
    """All parts on their way to one fold. The engine does again what a lost worker had done or had to do."""

    def __init__(self, client: Any, task: Task, groups: Sequence[Sequence[Part]], progress: Progress) -> None:
        self.client, self.task, self.progress = client, task, progress
        self.groups = [Group(len(group)) for group in groups]
        self.running: dict[Any, tuple[Any, int, int]] = {}
        self.waiting: list[tuple[int, Any]] = []
        self.told = self.status = self.done = self.met = 0
        self.coming = distributed.as_completed()
        for number, group in enumerate(groups):
            for at, part in enumerate(group):
                self.start(number, at, fold, part)

    def start(self, number: int, at: int, function: Any, *given: Any) -> None:
        result = self.client.submit(function, self.task, *given, pure=False, retries=2)
        facts = self.client.submit(said_of, result, pure=False, retries=2)
        self.running[facts] = (result, number, at)
        self.coming.add(facts)

    def all(self) -> Any:
        """The fold of all, or None where nothing has weight. What is said of files is told in their order, as soon as it is known."""
        for facts in self.coming:
            size, notes, lines = facts.result()
            result, number, at = self.running.pop(facts)
            if number < 0:
                self.met += 1
                self.waiting.append((size, result))
            else:
                self.take(number, at, result, size, Folded(b'', notes, lines))
            while folds := self.next_folds():
                self.start(-1, 0, meet_all, *folds)
            self.progress.say(f'flamecollect: {self.done} parts folded and {len(self.running)} on their way, {self.met} folds of folds')
        self.progress.clear()
        return self.waiting[0][1] if self.waiting else None

    def take(self, number: int, at: int, result: Any, size: int, said: Folded) -> None:
        group = self.groups[number]
        group.come[at] = (result, size, said)
        group.left -= 1
        self.done += 1
        if group.left == 0:
            self.waiting += group.folds
        while self.told < len(self.groups) and self.groups[self.told].left == 0:
            for note in self.groups[self.told].notes:
                self.progress.clear()
                print(note, file=sys.stderr, flush=True)
                self.status = max(self.status, note.status)
            self.groups[self.told].come.clear()
            self.told += 1

    def next_folds(self) -> list[Any]:
        """Folds that meet: the smallest of those that wait, where they are many or are all."""
        self.waiting.sort(key=lambda each: each[0])
        count = that_meet([size for size, _ in self.waiting])
        if count < 2 <= len(self.waiting) and not self.running:
            raise Failed(f'two folds have more than {MOST_TOGETHER} bytes together')
        if self.running and count < MEETING and count == len(self.waiting):
            return []
        folds = [result for _, result in self.waiting[:count]]
        del self.waiting[:count]
        return folds


def is_known(name: str, dask_scheduler: Any) -> bool:
    return name in dask_scheduler.worker_plugins


def hand_out(client: Any) -> None:
    """Workers get the module that they need, also those that come later, but not twice: that would load it anew under what runs."""
    data = pathlib.Path(fleet_parts.__file__).read_bytes()
    name = f'fleet_parts {hashlib.sha256(data).hexdigest()}'
    if not client.run_on_scheduler(is_known, name):
        client.register_worker_plugin(distributed.diagnostics.plugin.UploadFile(fleet_parts.__file__), name=name)


def answer(client: Any, given: Given) -> int:
    """Writes what is asked for, and answers the status."""
    client.wait_for_workers(1, timeout=PATIENCE)
    if said := client.submit(refused, given.task, given.words, pure=False, retries=2).result():
        print(said, end='', file=sys.stderr)
        return 2
    folding = Folding(client, given.task, given.groups(), Progress())
    result = folding.all()
    if given.words == ['fold']:
        out = result.result().text if result else b''
    else:
        shown = client.submit(show_of, given.task, given.words, result or Folded(b''), pure=False, retries=2).result()
        print(shown.err, end='', file=sys.stderr)
        if shown.status:
            return int(shown.status)
        out = shown.out
    sys.stdout.buffer.write(out)
    sys.stdout.buffer.flush()
    return folding.status


def main() -> int:
    given = given_by(sys.argv[1:], __doc__, 'SCHEDULER', 'its address, as HOST:8786')
    logging.disable()
    try:
        with distributed.Client(given.place, timeout=PATIENCE) as client:
            hand_out(client)
            return answer(client, given)
    except Refused as fault:
        print(f'fleet.py: {fault}', file=sys.stderr)
        return 2
    except concurrent.futures.CancelledError:
        print('fleet.py: the scheduler was lost', file=sys.stderr)
        return 3
    except Exception as fault:
        print(f'fleet.py: {type(fault).__name__}: {fault}', file=sys.stderr)
        return 3
    except KeyboardInterrupt:
        return 130


if __name__ == '__main__':
    sys.exit(main())
