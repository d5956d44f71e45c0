"""What `live` must write on a terminal, by docs/OUTPUT.md alone, and runs of it there."""
import contextlib
import os
import pathlib
import pty
import re
import select
import subprocess
import tempfile
import time
import tty
from collections.abc import Iterator, Sequence
from types import TracebackType

from live_lines import Sample
from live_runs import PATIENCE, Lost

ROWS, HEIGHT = 10, 13
CLEAR, CUT, WRAP = b'\r\x1b[13A\x1b[J', b'\x1b[?7l', b'\x1b[?7h'


def percent(weight: int, whole: int) -> str:
    """What part of the whole a weight is: hundredths of a percent, rounded to the nearest, and a half up."""
    part = (weight * 20_000 + whole) // (2 * whole) if whole else 0
    return f'{part // 100}.{part % 100:02}%'


def said(weight: int) -> str:
    """With a comma between thousands, where it has more than three digits."""
    return f'{weight:,}'


def table(samples: Sequence[Sample]) -> list[str]:
    """The lines of the table of `top`."""
    own, total = dict[str, int](), dict[str, int]()
    whole = sum(weight for _, weight in samples)
    for stack, weight in samples:
        for name in {*stack} if weight else ():
            total[name] = total.get(name, 0) + weight
        if stack and weight:
            own[stack[-1]] = own.get(stack[-1], 0) + weight
    names = sorted(total, key=lambda name: (-own.get(name, 0), name))[:ROWS]
    rows, until = [('own', 'own%', 'sum%', 'total', 'total%')], 0
    for name in names:
        until += own.get(name, 0)
        rows.append((said(own.get(name, 0)), percent(own.get(name, 0), whole), percent(until, whole),
                     said(total[name]), percent(total[name], whole)))
    widths = [max(len(row[at]) for row in rows) for at in range(5)]
    lines = [''.join(f'{entry:>{width}}  ' for entry, width in zip(row, widths)) + name for row, name in zip(rows, ['name', *names])]
    return [f'Showing {len(names)} of {len(total)} functions, total {said(whole)}', *lines]


def plain(line: str) -> str:
    """Control characters are marks."""
    return re.sub('[\x80-\x9f]', '¿', re.sub('[\x00-\x1f\x7f]', '?', line))


def text_of_lines(lines: Sequence[str]) -> bytes:
    return ''.join(plain(line) + '\n' for line in lines).encode()


def frame(samples: Sequence[Sample], sources: int, is_first: bool) -> bytes:
    count = f'{said(len(samples))} sample{"" if len(samples) == 1 else "s"}'
    lines = [f'{count} of {sources} source{"s" if sources > 1 else ""}', *table(samples)]
    return (b'' if is_first else CLEAR) + CUT + text_of_lines([*lines, *[''] * (HEIGHT - len(lines))]) + WRAP


def last(samples: Sequence[Sample], is_first: bool) -> bytes:
    return (b'' if is_first else CLEAR) + text_of_lines(table(samples))


def screen(text: bytes) -> list[str]:
    """The lines that stand on a terminal in the end, of which the cursor is at the first place of the last."""
    lines, at = [''], 0
    for part in re.findall('\x1b\\[[?0-9]*[A-Za-z]|\r?\n|\r|[^\x1b\r\n]+', text.decode()):
        if part.endswith('\n'):
            at += 1
            lines += [''] * (at + 1 - len(lines))
        elif part.endswith('A'):
            at -= int(part[2:-1])
            if at < 0:
                raise Lost('the cursor went above what was written')
        elif part == '\x1b[J':
            del lines[at:]
            lines.append('')
        elif part not in ('\r', CUT.decode(), WRAP.decode()):
            lines[at] += part
    return lines


class Terminal:
    """A run of `live` on a terminal, where its messages go, too, if they are asked for."""

    def __init__(self, program: pathlib.Path, folder: pathlib.Path, words: list[str], with_messages: bool = False) -> None:
        self.errors = tempfile.TemporaryFile()
        self.seen, self.text = 0, b''
        self.end, terminal = pty.openpty()
        tty.setraw(terminal)
        messages = terminal if with_messages else self.errors.fileno()
        self.process = subprocess.Popen([program, 'live', *words], cwd=folder, stdin=subprocess.DEVNULL, stdout=terminal, stderr=messages)
        os.close(terminal)

    def pieces(self) -> Iterator[bytes]:
        until = time.monotonic() + PATIENCE
        while time.monotonic() < until:
            if select.select([self.end], [], [], 1)[0]:
                # once nobody has the terminal it can't be read
                with contextlib.suppress(OSError):
                    yield os.read(self.end, 1 << 16)
                    continue
                return
        raise Lost(f'nothing came in {PATIENCE} seconds')

    def come(self, count: int) -> bytes:
        """The next bytes, so many."""
        pieces = self.pieces()
        while len(self.text) < self.seen + count and (piece := next(pieces, b'')):
            self.text += piece
        self.seen += count
        return self.text[self.seen - count:self.seen]

    def rest(self) -> bytes:
        """What comes until the end."""
        for piece in self.pieces():
            if not piece:
                break
            self.text += piece
        seen, self.seen = self.seen, len(self.text)
        return self.text[seen:]

    def ended(self) -> tuple[int, str]:
        """Its status, and what it said elsewhere."""
        status = self.process.wait(PATIENCE)
        self.errors.seek(0)
        return status, self.errors.read().decode(errors='replace')

    def __enter__(self) -> 'Terminal':
        return self

    def __exit__(self, kind: type[BaseException] | None, fault: BaseException | None, trace: TracebackType | None) -> None:
        self.process.kill()
        self.process.wait()
        os.close(self.end)
        self.errors.close()
