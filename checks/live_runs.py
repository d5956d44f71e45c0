"""Runs of `live`, and streams that are written to while it reads them."""
import contextlib
import os
import pathlib
import queue
import subprocess
import threading
from collections.abc import Callable
from types import TracebackType

from live_lines import Sample, text_of

# What has not come by then is taken for lost. Nothing else goes by time.
PATIENCE = 60


class Lost(Exception):
    """Something has not come."""


class Wrong(Exception):
    """What came is not what must come."""


def same(found: object, wanted: object, what: str) -> None:
    if found != wanted:
        raise Wrong(f'{what}: {str(found)[:400]} in place of {str(wanted)[:400]}')


class Stream:
    """A stream, and a thread that writes to it what it is given, once its reader has opened it."""

    def __init__(self, opened: Callable[[], int]) -> None:
        self.opened = opened
        self.pieces: queue.SimpleQueue[bytes] = queue.SimpleQueue()
        self.thread = threading.Thread(target=self.write, daemon=True)
        self.thread.start()

    def write(self) -> None:
        end = self.opened()
        # a reader may have ended before
        with contextlib.suppress(BrokenPipeError):
            while piece := self.pieces.get():
                rest = memoryview(piece)
                while rest:
                    rest = rest[os.write(end, rest):]
        os.close(end)

    def give(self, *pieces: bytes) -> None:
        for piece in filter(None, pieces):
            self.pieces.put(piece)

    def end(self) -> None:
        self.pieces.put(b'')

    def wait(self) -> None:
        """Waits until all was read, or nobody reads it."""
        self.thread.join(PATIENCE)
        if self.thread.is_alive():
            raise Lost(f'a stream was not read to its end, nor closed, in {PATIENCE} seconds')


def fifo(path: pathlib.Path) -> Stream:
    return Stream(lambda: os.open(path, os.O_WRONLY))


def pipe() -> tuple[int, Stream]:
    """The end of a pipe that is read, and a stream to the other one."""
    source, end = os.pipe()
    return source, Stream(lambda: end)


class Streams:
    """FIFOs, and the samples that each of them was given. Some are opened later."""

    def __init__(self, folder: pathlib.Path, count: int, late: int = 0) -> None:
        self.folder, self.late = folder, late
        self.names = [f'stream{at}' for at in range(count)]
        for name in self.names:
            os.mkfifo(folder / name)
        self.streams = [fifo(folder / name) for name in self.names[late:]]
        self.given: list[list[Sample]] = [[] for _ in range(count)]

    def open_late(self) -> None:
        self.streams = [fifo(self.folder / name) for name in self.names[:self.late]] + self.streams
        self.late = 0

    def stream(self, at: int) -> Stream:
        return self.streams[at - self.late]

    def give(self, at: int, sample: Sample) -> None:
        self.given[at].append(sample)
        self.stream(at).give(text_of(sample) + b'\n')

    def end(self) -> None:
        for stream in self.streams:
            stream.end()

    @property
    def counts(self) -> list[int]:
        return [len(samples) for samples in self.given]

    @property
    def samples(self) -> list[Sample]:
        return [sample for samples in self.given for sample in samples]


def lines_of(output: int) -> queue.SimpleQueue[bytes]:
    """The lines of what comes there, as they come, and nothing at the end."""
    found: queue.SimpleQueue[bytes] = queue.SimpleQueue()

    def read() -> None:
        with open(output, 'rb') as lines:
            for line in lines:
                found.put(line)
        found.put(b'')

    threading.Thread(target=read, daemon=True).start()
    return found


def next_of(lines: queue.SimpleQueue[bytes], what: str) -> bytes:
    try:
        return lines.get(timeout=PATIENCE)
    except queue.Empty:
        raise Lost(f'no {what} came in {PATIENCE} seconds') from None


class Run:
    """A run, whose lines are there as they come. Its output may go through another command."""

    def __init__(self, program: pathlib.Path, folder: pathlib.Path, words: list[str], source: int = subprocess.DEVNULL,
                 through: tuple[str, ...] = ()) -> None:
        output, end = os.pipe()
        errors, error_end = os.pipe()
        self.process = subprocess.Popen([program, 'live', *words], cwd=folder, stdin=source, stdout=end, stderr=error_end)
        self.started = [self.process]
        given = [end, error_end] if source == subprocess.DEVNULL else [end, error_end, source]
        if through:
            given.append(output)
            output, end = os.pipe()
            self.started.append(subprocess.Popen(through, stdin=given[-1], stdout=end))
            given.append(end)
        for each in given:
            os.close(each)
        self.lines = lines_of(output)
        self.messages = lines_of(errors)
        self.said: list[str] = []

    def line(self) -> bytes:
        """The next line, or nothing at the end."""
        return next_of(self.lines, 'line')

    def rest(self) -> list[bytes]:
        return list(iter(self.line, b''))

    def message(self) -> str:
        """The next line of what it says, or nothing at the end."""
        message = next_of(self.messages, 'message').decode(errors='replace')
        self.said.append(message)
        return message

    def is_over(self, seconds: float) -> bool:
        try:
            self.process.wait(seconds)
        except subprocess.TimeoutExpired:
            return False
        return True

    def end(self) -> tuple[int, str]:
        """Its status, and all that it said."""
        if not self.is_over(PATIENCE):
            raise Lost(f'it has not ended in {PATIENCE} seconds')
        while self.message():
            pass
        return self.process.returncode, ''.join(self.said)

    def __enter__(self) -> 'Run':
        return self

    def __exit__(self, kind: type[BaseException] | None, fault: BaseException | None, trace: TracebackType | None) -> None:
        for process in self.started:
            process.kill()
            process.wait()
