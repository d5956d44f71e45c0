"""Profiles and texts for a fleet, drawn from a seed, and what the fold of them must be: sums by stack, which no program of ours counts."""
import collections
import dataclasses
import importlib
import pathlib
import random
import re
import sys
from collections.abc import Iterable, Sequence
from typing import Any

TOP = pathlib.Path(__file__).resolve().parents[1]
sys.path.insert(0, str(TOP / 'checks' / 'browser'))
profiles: Any = importlib.import_module('profiles')

Sums = collections.Counter[tuple[bytes, ...]]
KINDS = [('samples', 'count'), ('cpu', 'nanoseconds')]
LINE = re.compile(rb'(.*)[ \t]([0-9]+)', re.S)
BLOCK = 2**20
# Names that are odd, of which one makes a line of a fold that can't be read again as it stands.
ODD = b'a 1; 2\nmain;;x 3\r\nmain;caf\xc3\xa9;operator new 4\nno count\n;inner 5\nlast;;; 6\n7\n\n 8\n' \
    b'a 1 2; 9\nx\ty 1.5; 10\nzero 0\nx 1;y 11\n\x1f\x8bx 12'


@dataclasses.dataclass
class Input:
    """A file: the sums of its samples by stack, of each of its types, and how many of its lines are none; or what is wrong with it."""

    name: str
    sums: Sequence[Sums]
    ignored: int = 0
    fault: str = ''
    status: int = 0

    @property
    def message(self) -> str:
        said = self.fault or f'ignored {self.ignored}' * (self.ignored > 0)
        return f'flamecollect: {self.name}: {said}\n' * bool(said)


def names_of(head: bytes) -> tuple[bytes, ...]:
    names = head.decode('utf-8', 'replace').encode().split(b';')
    while names and not names[-1]:
        names.pop()
    return tuple(names)


def sums_of(lines: 'collections.Counter[bytes]') -> tuple[Sums, int]:
    """The sums by stack of lines of folded text and how many are none, from how often each line stands there."""
    sums: Sums = collections.Counter()
    ignored = 0
    for line, count in lines.items():
        found = LINE.fullmatch(line.removesuffix(b'\r'))
        if found:
            sums[names_of(found[1])] += count * int(found[2])
        else:
            ignored += count
    return sums, ignored


def fold_of(inputs: Iterable[Input]) -> bytes:
    """What the program must write of these, without those that have a fault."""
    sums: Sums = collections.Counter()
    for each in inputs:
        if not each.status:
            sums.update(each.sums[-1])
    return b''.join(b'%b %d\n' % (b';'.join(stack), sums[stack]) for stack in sorted(sums) if sums[stack])


class Maker:
    """Makes files in a folder."""

    def __init__(self, folder: pathlib.Path, seed: int) -> None:
        self.folder, self.chance = folder, random.Random(seed)
        self.frames = [f'{module}.{name}'.encode() for module in ('net', 'os.file', 'parse/tree', 'main') for name in range(40)]
        self.stacks = [b';'.join(self.chance.choices(self.frames, k=self.chance.randrange(1, 12))) for _ in range(4000)]

    def profile(self, name: str) -> Input:
        """Of two types of samples, whose last is the default."""
        drawn = [(stack.decode().split(';'), [self.chance.randrange(1, 9), self.chance.randrange(10**7)])
                 for stack in self.chance.choices(self.stacks, k=self.chance.randrange(5, 40))]
        drawn.append(([f'of {name}'], [1, self.chance.randrange(1, 99)]))
        (self.folder / name).write_bytes(profiles.profile(KINDS, drawn))
        sums: list[Sums] = [collections.Counter(), collections.Counter()]
        for stack, values in drawn:
            for of_kind, value in zip(sums, values):
                of_kind[tuple(frame.encode() for frame in stack)] += value
        return Input(name, sums)

    def spoilt_profile(self, name: str) -> Input:
        self.profile(name)
        path = self.folder / name
        path.write_bytes(b'\x0b' + path.read_bytes())
        return Input(name, [], fault='BadWireType at 0', status=1)

    def text(self, name: str, size: int, spoilt: bool = False) -> Input:
        """Blocks of lines in any order. Before each stands a line that stands nowhere else, and in a spoilt one a fault in the middle."""
        blocks = [self.block() for _ in range(4)]
        lines: collections.Counter[bytes] = collections.Counter()
        used: collections.Counter[bytes] = collections.Counter()
        fault, count, written = '', 0, 0
        with open(self.folder / name, 'wb') as file:
            while written < size:
                own, block = b'of %b;%d 1\n' % (name.encode(), written), self.chance.choice(blocks)
                if spoilt and not fault and written > size // 2:
                    own += b'main;spoilt 1.5\n'
                    fault = f'DecimalWeight at {count + 2}'
                lines[own[:-1]] += 1
                used[block] += 1
                count += (own + block).count(b'\n')
                written += file.write(own + block)
        for block, times in used.items():
            for line in block.split(b'\n')[:-1]:
                lines[line] += times
        sums, ignored = sums_of(lines)
        return Input(name, [sums], ignored, fault, int(spoilt))

    def block(self) -> bytes:
        lines, size = [], 0
        while size < BLOCK:
            lines.append(b'%b %d' % (self.chance.choice(self.stacks), self.chance.randrange(1000)))
            size += len(lines[-1]) + 1
        for at in self.chance.sample(range(len(lines)), 3):
            lines[at] = self.chance.choice([b'no count', b'', lines[at] + b'\r', b';'.join(self.frames * 20) + b' 5'])
        return b'\n'.join(lines) + b'\n'

    def odd(self, name: str) -> Input:
        (self.folder / name).write_bytes(ODD)
        sums, ignored = sums_of(collections.Counter(ODD.split(b'\n')))
        return Input(name, [sums], ignored)
