"""Looks at `live` on a terminal."""
import pathlib
import random
import subprocess
from collections.abc import Callable, Sequence

from live_lines import Sample, fault_in, random_sample, text_of
from live_runs import Streams, same
from live_tables import CLEAR, Terminal, frame, last, screen

# Names that would act on a terminal, and one that is longer than its lines.
ACTING = ('\x1b[2J', '\x07', 'a\rb', '\x7f', '\x9b31m', '\x85', '\t', 'é', 'long' * 100)


class TerminalLooks:
    """Looks at runs of a program in folders of their own."""

    def __init__(self, program: pathlib.Path, own_folder: Callable[[], pathlib.Path], chance: random.Random) -> None:
        self.program, self.own_folder, self.chance = program, own_folder, chance

    def all_looks(self) -> list[Callable[[], None]]:
        return [self.frames, self.frames_in_turns, self.acting_names, self.messages_behind, self.file_beside]

    def top(self, folder: pathlib.Path, samples: Sequence[Sample]) -> bytes:
        """The table that `top` writes of these samples."""
        (folder / 'all').write_bytes(b''.join(text_of(sample) + b'\n' for sample in samples))
        return subprocess.run([self.program, 'top', 'all'], cwd=folder, capture_output=True, check=True).stdout

    def frames(self) -> None:
        """Nothing more is given before a frame has come. Each takes the place of the one before, and the table that of the last."""
        for count, every in ((1, 1), (1, 7), (3, 20), (64, 100)):
            folder = self.own_folder()
            streams = Streams(folder, count)
            with Terminal(self.program, folder, ['--every', str(every), *streams.names]) as run:
                for turn in range(5):
                    for _ in range(every):
                        streams.give(self.chance.randrange(count), random_sample(self.chance))
                    wanted = frame(streams.samples, count, turn == 0)
                    same(run.come(len(wanted)), wanted, f'frame {turn} of {count} streams, one after every {every}')
                for _ in range(every - 1):
                    streams.give(self.chance.randrange(count), random_sample(self.chance))
                streams.end()
                same(run.rest(), last(streams.samples, False), 'the last table')
                same(run.ended(), (0, ''), 'status and messages')
            same(screen(run.text), [*last(streams.samples, True).decode().split('\n')], 'what stands on the terminal')

    def frames_in_turns(self) -> None:
        """Streams take turns by chance: there are so many frames, and the table is that of `top` of the same bytes."""
        for _ in range(20):
            folder, every = self.own_folder(), self.chance.randint(1, 50)
            streams = Streams(folder, 8)
            with Terminal(self.program, folder, ['--every', str(every), *streams.names]) as run:
                for _ in range(self.chance.randrange(300)):
                    stack, weight = random_sample(self.chance)
                    streams.give(self.chance.randrange(8), (tuple(name for name in stack if name != '\t'), weight))
                streams.end()
                text, count = run.rest(), len(streams.samples)
                same(run.ended(), (0, ''), 'status and messages')
            same(text.count(CLEAR), count // every, f'frames and a table of {count} samples, one after every {every}')
            same('\n'.join(screen(text)).encode(), self.top(folder, streams.samples), 'what stands on the terminal')

    def acting_names(self) -> None:
        """No name acts: each control character is shown as a mark, and frames have long names whole."""
        folder = self.own_folder()
        streams = Streams(folder, 1)
        with Terminal(self.program, folder, ['--every', '1', *streams.names]) as run:
            for at, name in enumerate(ACTING):
                streams.give(0, (('main', name), 5))
                wanted = frame(streams.samples, 1, at == 0)
                same(run.come(len(wanted)), wanted, f'the frame of {name!r}')
            streams.end()
            same(run.rest(), last(streams.samples, False), 'the last table')
            same(run.ended(), (0, ''), 'status and messages')

    def messages_behind(self) -> None:
        """What is said of streams stands behind the table."""
        folder = self.own_folder()
        streams = Streams(folder, 2)
        with Terminal(self.program, folder, ['--every', '2', *streams.names], with_messages=True) as run:
            for at in range(5):
                streams.give(at % 2, random_sample(self.chance))
            streams.stream(0).give(b'# ignored\n')
            streams.stream(1).give(b'a;b 1.5\n')
            streams.end()
            text = run.rest()
            same(run.ended()[0], 1, 'the status')
        said = ['flamecollect: stream0: ignored 1', 'flamecollect: stream1: DecimalWeight at 3', '']
        same(screen(text), [*last(streams.samples, True).decode().split('\n')[:-1], *said], 'what stands on the terminal')

    def file_beside(self) -> None:
        """With -o the lines go to the file, and nothing to the terminal."""
        folder = self.own_folder()
        streams = Streams(folder, 2)
        with Terminal(self.program, folder, ['--every', '3', '-o', 'lines', *streams.names]) as run:
            for at in range(20):
                streams.give(at % 2, random_sample(self.chance))
            streams.end()
            same(run.rest(), b'', 'what stands on the terminal')
            same(run.ended(), (0, ''), 'status and messages')
        same(fault_in((folder / 'lines').read_bytes().splitlines(keepends=True), streams.given, 3, 1200), None, 'lines in a file')
