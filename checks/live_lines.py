"""The lines that `live` must write of samples, by docs/OUTPUT.md alone, and folded text of samples, by docs/FORMATS.md."""
import dataclasses
import json
import random
from collections.abc import Iterable, Sequence

Sample = tuple[tuple[str, ...], int]

NAMES = ('main', 'parse', 'read', 'a', 'a b', 'ä', '🔥', '"', '\\', '\t', 'std::vector<int>', '(x)', 'a.b', '')
# Lines that are no samples, and odd ones that are.
IGNORED = (b'', b'# comment', b'a;b', b'a;b c', b'1', b'a -1', b'a;b 1x', b'a 1\r')
ODD = (b';;a 3', b'a;; 4', b' 7', b'\t8', b'a\t9', b'a  2', b'; 5', b'a;b;;c 007', b'\xff\xfe;b 3', b'a\rb 6', b'\xe2\x82;\xf0 1', b'0 0')


@dataclasses.dataclass
class Box:
    """A call path: the sum of the weights before it, the weight of all samples through it, and of those that end there."""

    start: int
    weight: int = 0
    own: int = 0


def boxes(samples: Iterable[Sample], width: int) -> list[dict[str, int | str]]:
    """The boxes of the flame graph of these samples."""
    at, found = 0, dict[tuple[str, ...], Box]()
    total = sum(weight for _, weight in samples)
    # names of text stand by their code points as their bytes do
    for stack, weight in sorted(it for it in samples if it[1]):
        for depth in range(len(stack) + 1):
            found.setdefault(stack[:depth], Box(at)).weight += weight
        found[stack].own += weight
        at += weight
    return [
        {'depth': len(path), 'left': box.start * width // total, 'name': path[-1] if path else 'all', 'own': box.own,
         'right': (box.start + box.weight) * width // total, 'start': box.start, 'weight': box.weight}
        for path, box in sorted(found.items(), key=lambda it: (it[1].start, len(it[0])))
    ]


def line_of(told: dict[str, object]) -> bytes:
    return json.dumps(told, ensure_ascii=False, separators=(',', ':'), sort_keys=True).encode() + b'\n'


def graph_line(samples: Sequence[Sample], width: int) -> bytes:
    """The last line."""
    return line_of({'boxes': boxes(samples, width), 'total': sum(weight for _, weight in samples), 'view': 'graph', 'width': width})


def snapshot_line(sources: Sequence[Sequence[Sample]], counts: Sequence[int], width: int) -> bytes:
    """The line of a snapshot of so many samples of each source."""
    samples = [sample for source, count in zip(sources, counts) for sample in source[:count]]
    total = sum(weight for _, weight in samples)
    told = {'at': len(samples), 'boxes': boxes(samples, width), 'counts': [*counts], 'total': total, 'view': 'snapshot', 'width': width}
    return line_of(told)


def fault_in(lines: Sequence[bytes], sources: Sequence[Sequence[Sample]], every: int, width: int) -> str | None:
    """What is wrong with all lines of a run, whatever the interleaving of its sources."""
    samples = [sample for source in sources for sample in source]
    if len(lines) != len(samples) // every + 1:
        return f'{len(lines)} lines of {len(samples)} samples, one after every {every}'
    before = [0] * len(sources)
    for at, line in enumerate(lines[:-1], 1):
        counts = json.loads(line).get('counts', [])
        if sum(counts) != at * every or len(counts) != len(sources):
            return f'line {at} has the counts {counts}'
        if not all(less <= count <= len(source) for less, count, source in zip(before, counts, sources)):
            return f'line {at} has the counts {counts} behind {before}'
        if line != snapshot_line(sources, counts, width):
            return f'line {at} is no graph of the first {counts} samples'
        before = counts
    return None if lines[-1] == graph_line(samples, width) else 'the last line is not the graph of all samples'


def random_sample(chance: random.Random) -> Sample:
    """A sample whose line reads back: no last name is empty, or ends in a number."""
    names = chance.choices(NAMES, k=chance.randrange(6))
    return (*names, chance.choice(NAMES[:-1])) if names or chance.randrange(9) else (), chance.choice((0, 1, 1, 2, 3, 10, 10**6))


def text_of(sample: Sample) -> bytes:
    """A sample's line, without its end."""
    stack, weight = sample
    return b'%s %d' % (';'.join(stack).encode(), weight)


def random_line(chance: random.Random) -> bytes:
    kinds = [text_of(random_sample(chance)), chance.choice(IGNORED), chance.choice(ODD)]
    return chance.choices(kinds, (8, 1, 1))[0] + chance.choice((b'\n', b'\n', b'\r\n'))


def random_text(chance: random.Random, lines: int) -> bytes:
    """Lines of all kinds but faults, with both line ends, and sometimes without a last one."""
    text = b''.join(random_line(chance) for _ in range(lines))
    return text.rstrip(b'\r\n') if chance.randrange(2) else text


def random_strict(chance: random.Random) -> tuple[list[Sample], bytes, str]:
    """A text, its samples before its first ignored line, and what is wrong with it where it is read strictly, if anything is."""
    samples = [random_sample(chance) for _ in range(chance.choice((0, 0, 1, 5, 200)))]
    text = b''.join(text_of(sample) + chance.choice((b'\n', b'\r\n')) for sample in samples)
    if chance.randrange(2):
        text += chance.choice(IGNORED[:-1]) + b'\n' + random_text(chance, chance.randrange(100))
        return samples, text, f'NoCount at {len(samples) + 1}'
    return samples, text, '' if samples else 'NoSamples at 0'


def pieces_of(chance: random.Random, text: bytes) -> list[bytes]:
    """The text in pieces of all sizes."""
    pieces, at = [], 0
    while at < len(text):
        size = chance.randint(1, chance.choice((1, 3, 40, 4096, 70_000)))
        pieces.append(text[at:at + size])
        at += size
    return pieces
