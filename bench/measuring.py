"""Builds programs and inputs, and runs commands turn about."""
import filecmp
import functools
import os
import pathlib
import shutil
import subprocess
from collections.abc import Sequence
from dataclasses import dataclass

BENCH = pathlib.Path(__file__).resolve().parent
TOP = BENCH.parent
OUT = BENCH / 'out'
# a folder that the system keeps in memory
MEMORY = pathlib.Path('/dev/shm')
# seconds, and KiB or MiB
Measured = tuple[float, float]


def program(name: str) -> pathlib.Path | None:
    """The built program of a crate, or None where there is none."""
    path = TOP / 'crates' / name / 'out' / name
    if not path.exists():
        print(f'  {path.relative_to(TOP)} is missing: build it first (bench/README.md)')
        return None
    return path


@functools.cache
def plain(name: str) -> pathlib.Path:
    """A plain Rust program of this folder, built where it is not up to date."""
    source, target = BENCH / f'{name}.rs', OUT / name
    changed = max(path.stat().st_mtime for path in BENCH.glob('*.rs'))
    if not target.exists() or target.stat().st_mtime < changed:
        OUT.mkdir(exist_ok=True)
        # a module that several programs share has parts that one of them leaves out
        options = ['--edition', '2021', '-C', 'opt-level=3', '-A', 'dead_code']
        subprocess.run(['rustc', *options, '-o', target, source], check=True)
    return target


@dataclass(frozen=True)
class Input:
    """The file that a generator writes for these words, made when it is first wanted."""

    maker: str
    words: tuple[str, ...]
    ending: str = 'folded'

    def path(self) -> pathlib.Path:
        maker = plain(self.maker)
        path = OUT / '.'.join([self.maker, *self.words, self.ending])
        if not path.exists() or path.stat().st_mtime < maker.stat().st_mtime:
            begun = path.with_suffix('.part')
            with open(begun, 'wb') as out:
                subprocess.run([maker, *self.words], stdout=out, check=True)
            begun.rename(path)
        return path


# A word of a command line, and a command line.
Word = str | pathlib.Path | Input
Command = Sequence[Word]


class Failed(Exception):
    """A command failed, or two outputs differ."""


def resolved(command: Command) -> list[str | pathlib.Path]:
    """The words of a command, whose inputs are made."""
    return [word.path() if isinstance(word, Input) else word for word in command]


def measured(command: Sequence[str | pathlib.Path], answer: pathlib.Path, given: str | pathlib.Path = os.devnull) -> tuple[float, int]:
    """Seconds and peak KiB of one run, whose output goes to the end of the file `answer`."""
    with open(given, 'rb') as source, open(answer, 'ab') as out:
        ran = subprocess.run([plain('launch'), *command], stdin=source, stdout=out, stderr=subprocess.PIPE)
    if ran.returncode != 0:
        told = ran.stderr.decode(errors='replace').splitlines()[:1]
        raise Failed(f"{' '.join(map(str, command))} ended with status {ran.returncode}: {' '.join(told)}")
    seconds, peak = ran.stderr.split(b'\n')[-2].split()
    return float(seconds), int(peak)


def measure_all(commands: Sequence[Sequence[str | pathlib.Path]], answer: pathlib.Path,
                given: str | pathlib.Path = os.devnull) -> tuple[float, int]:
    """The seconds of these commands one after another, and the greatest of their peaks."""
    answer.unlink(missing_ok=True)
    runs = [measured(command, answer, given) for command in commands]
    return sum(seconds for seconds, _ in runs), max(peak for _, peak in runs)


def turn_about(sides: Sequence[Sequence[Command]], turns: int, given: str | pathlib.Path = os.devnull) -> list[Measured]:
    """Runs the sides, each some commands, in turn: the least seconds and the greatest MiB of each. Their answers stay."""
    ready = [[resolved(command) for command in commands] for commands in sides]
    runs: list[list[tuple[float, int]]] = [[] for _ in ready]
    for _ in range(turns):
        for at, commands in enumerate(ready):
            runs[at].append(measure_all(commands, answer(at), given))
    return [(min(s for s, _ in of), max(k for _, k in of) / 1024) for of in runs]


def answer(at: int) -> pathlib.Path:
    """Where the output of a side goes: into memory where it can, or else the disk is measured too."""
    return (MEMORY if MEMORY.is_dir() else OUT) / f'flamecollect-answer.{at}'


def same(one: int, other: int) -> None:
    """Refuses two sides that wrote something else, and keeps what they wrote."""
    if not filecmp.cmp(answer(one), answer(other), shallow=False):
        kept = [shutil.move(answer(at), OUT / f'answer.{at}') for at in (one, other)]
        raise Failed(f'the outputs differ: {kept[0]} and {kept[1]}')


def forget_answers() -> None:
    """Takes away what the last row's sides wrote."""
    for at in range(3):
        answer(at).unlink(missing_ok=True)


def heading(ours: str, theirs: str) -> None:
    seconds, peaks = [[f'{side} {unit}' for side in [ours, theirs]] for unit in ['s', 'MiB']]
    print(f"{'':26} {seconds[0]:>11} {seconds[1]:>11}  ratio   bar {peaks[0]:>12} {peaks[1]:>12}  ratio   bar")


def show(name: str, ours: Measured, theirs: Measured, bars: tuple[float | None, float | None] = (None, None)) -> bool:
    """A line of a table. Answers whether a bar was missed."""
    ratios = [one / other for one, other in zip(ours, theirs)]
    missed = any(bar is not None and ratio > bar for ratio, bar in zip(ratios, bars))
    of = ['' if bar is None else f'{bar:.2f}' for bar in bars]
    print(
        f'{name:26} {ours[0]:11.3f} {theirs[0]:11.3f} {ratios[0]:6.2f} {of[0]:>5}'
        f" {ours[1]:12.1f} {theirs[1]:12.1f} {ratios[1]:6.2f} {of[1]:>5}{'  MISSED' if missed else ''}",
        flush=True,
    )
    return missed
