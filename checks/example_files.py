"""Reads the examples of checks/program. checks/examples/README.md says how they are written."""
import dataclasses
import pathlib
import re
import subprocess
import sys

TOP = pathlib.Path(__file__).resolve().parents[1]
EXAMPLES = TOP / 'checks' / 'examples'
LETTERS = {b'n': b'\n', b'r': b'\r', b't': b'\t', b'e': b'\x1b', b'\\': b'\\'}
REPEATED = rb'\\\((?P<part>.*?)\*(?P<times>\d+)\)'
ESCAPE = re.compile(REPEATED + rb'|\\(?:x(?P<code>[0-9a-f]{2})|(?P<version><version>)|(?P<letter>.?))', re.S)


class Misspelled(Exception):
    """A line that can't be read."""


@dataclasses.dataclass
class Answer:
    """What must come: all of a stream, of standard error perhaps with its lines in any order, or parts of it; the status; what neither
    stream has; and what the counts of each line sum to."""

    out: bytes = b''
    err: bytes = b''
    status: int = 0
    out_has: list[bytes] = dataclasses.field(default_factory=list)
    err_has: list[bytes] = dataclasses.field(default_factory=list)
    lacks: list[bytes] = dataclasses.field(default_factory=list)
    counts: list[str] = dataclasses.field(default_factory=list)
    is_any_order: bool = False


@dataclasses.dataclass
class Example:
    """A run: the line where it stands, as it is written there; its words, its streams that lead elsewhere, what stands before its `$`,
    and what must come."""

    line: int
    written: str
    words: list[bytes]
    streams: dict[str, str]
    mark: str
    answer: Answer


@dataclasses.dataclass
class Item:
    """What is placed before examples, a file, a folder or a pipe, or bytes with a name: its parts are the lines below it."""

    kind: str
    name: str
    parts: list[tuple[str, bytes]]


class Texts:
    """How lines spell bytes."""

    def __init__(self, head: bytes, tail: bytes) -> None:
        self.head, self.tail = head, tail
        newest = re.search(r'^## (\S+ \(\S+)\)$', (TOP / 'CHANGELOG.md').read_text(), re.M)
        toolchain = subprocess.run(['rt', 'version'], capture_output=True, text=True, check=True).stdout.strip()
        self.version = f'{newest[1]}, {toolchain})'.encode() if newest else b''
        self.named: dict[str, bytes] = {}

    def of_text(self, text: bytes) -> bytes:
        return ESCAPE.sub(self.value, text)

    def value(self, escape: re.Match[bytes]) -> bytes:
        if escape['times']:
            return self.of_text(escape['part']) * int(escape['times'])
        if escape['code']:
            return bytes([int(escape['code'], 16)])
        if escape['version']:
            return self.version
        if escape['letter'] not in LETTERS:
            raise Misspelled(f'no escape: {escape[0].decode()}')
        return LETTERS[escape['letter']]

    def of_line(self, line: bytes) -> bytes:
        """A line with its end, which a backslash in the last place takes away."""
        is_open = (len(line) - len(line.rstrip(b'\\'))) % 2
        return self.of_text(line[:-1] if is_open else line + b'\n')

    def of_hex(self, line: bytes) -> bytes:
        digits = re.sub(r'#.*', '', line.decode())
        digits = re.sub(r'\{(\w+)\}', lambda part: self.named[part[1]].hex(), digits)
        return bytes.fromhex(re.sub(r'\(([^)]*)\)\*(\d+)', lambda part: part[1] * int(part[2]), digits))

    def words_of(self, line: bytes) -> tuple[list[bytes], dict[str, str]]:
        """The words of a run, and its streams that lead elsewhere."""
        words: list[bytes] = []
        streams: dict[str, str] = {}
        line = re.sub(REPEATED, lambda part: part['part'] * int(part['times']), line)
        tokens = iter(re.findall(rb"'[^']*'|\S+", line))
        for token in tokens:
            if token in (b'<', b'>', b'2>'):
                streams[token.decode()] = next(tokens, b'').decode()
            else:
                words.append(self.of_text(token.strip(b"'")))
        return words, streams

    def add_to(self, answer: Answer, mark: str, rest: bytes) -> None:
        """What a line below a run says of its answer."""
        match mark:
            case '|':
                answer.out += self.of_line(rest)
            case '!' | '!?':
                answer.err += self.of_line(rest)
                answer.is_any_order |= mark == '!?'
            case '|~':
                answer.out_has.append(self.of_text(rest))
            case '!~':
                answer.err_has.append(self.of_text(rest))
            case 'no':
                answer.lacks.append(self.of_text(rest))
            case 'page':
                data = answer.out.removeprefix(self.head).removesuffix(self.tail) + self.of_text(rest)
                answer.out = self.head + data + self.tail
            case 'counts':
                answer.counts = rest.decode().split()
            case '=':
                answer.status = int(rest)
            case _:
                raise Misspelled(f'no mark of an answer: {mark}')


class Topic:
    """A file of examples: what is placed, and what is run, in order."""

    def __init__(self, path: pathlib.Path, texts: Texts) -> None:
        self.name, self.texts = path.stem, texts
        self.items: list[Item | Example] = []
        # the runs that the lines below them are about, once there are such
        self.runs: list[Example] = []
        self.is_answered = True
        for number, line in enumerate([*path.read_bytes().splitlines(), b''], 1):
            try:
                self.read(number, line)
            except (Misspelled, ValueError, KeyError) as why:
                sys.exit(f'{path.relative_to(TOP)}:{number}: {why}')

    def read(self, number: int, line: bytes) -> None:
        if line.startswith(b'  '):
            mark, _, rest = line[2:].partition(b' ')
            self.read_below(mark.decode(), rest)
        elif run := re.fullmatch(rb'(terminal|refused|)\$ flamecollect *(.*)', line):
            self.read_run(number, run[2], run[1].decode())
        elif not line.startswith(b'#'):
            if not self.is_answered:
                raise Misspelled('nothing stands below the run before')
            kind, _, name = line.decode().partition(' ')
            if line and (kind not in ('file', 'folder', 'pipe', 'bytes') or not name):
                raise Misspelled('neither a file, a folder, a pipe, bytes nor a run')
            self.runs = []
            if line:
                self.items.append(Item(kind, name, []))

    def read_run(self, number: int, line: bytes, mark: str) -> None:
        """Runs that stand one below another have the same answer."""
        if self.is_answered:
            self.runs, self.is_answered = [], False
        run = Example(number, line.decode(), *self.texts.words_of(line), mark, Answer())
        self.runs.append(run)
        self.items.append(run)

    def read_below(self, mark: str, rest: bytes) -> None:
        last = self.items[-1] if self.items else None
        if isinstance(last, Item):
            last.parts.append((mark, rest))
        elif not self.runs:
            raise Misspelled('it stands below nothing')
        self.is_answered = True
        for run in self.runs:
            self.texts.add_to(run.answer, mark, rest)


def topics_of(head: bytes, tail: bytes) -> list[Topic]:
    """All topics, which share the named bytes of profiles.txt and the head and the tail of a page."""
    texts = Texts(head, tail)
    for item in Topic(EXAMPLES / 'profiles.txt', texts).items:
        if isinstance(item, Item) and item.kind == 'bytes':
            texts.named[item.name] = b''.join(texts.of_hex(rest) for _, rest in item.parts)
    return [Topic(path, texts) for path in sorted(EXAMPLES.glob('*.txt')) if path.stem != 'profiles']
