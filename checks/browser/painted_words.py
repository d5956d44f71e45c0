"""What a page writes of names and weights, recomputed: what is shown of a name, a change, a percent."""
from __future__ import annotations

import decimal
import functools
import itertools
import re
import unicodedata
from typing import NamedTuple

JOINERS = '\u200c\u200d'
# These are no characters at all.
NONE = '\ufffe\uffff'
UNSEEN_CATEGORIES = ('Cc', 'Cf', 'Zl', 'Zp')
MINUS = '\u2212'
ELLIPSIS = '\u2026'
EMPTY = '(empty name)'


@functools.lru_cache(maxsize=100_000)
def visible(text: str) -> str:
    """The text with its number in the place of each character that is not seen, or that turns the text around it."""
    def shown(character: str) -> str:
        is_unseen = unicodedata.category(character) in UNSEEN_CATEGORIES and character not in JOINERS or character in NONE
        return f'[U+{ord(character):04X}]' if is_unseen else character
    return ''.join(map(shown, text))


def digits(number: float | decimal.Decimal, most: int) -> str:
    """The number rounded to so many digits, halves away from zero, without the zeros at the end."""
    value = decimal.Decimal(number)
    if value == 0:
        return '0'
    last = decimal.Decimal(1).scaleb(value.adjusted() - most + 1)
    rounded = value.quantize(last, rounding=decimal.ROUND_HALF_UP)
    text = f'{rounded:,f}'
    return text.rstrip('0').rstrip('.') if '.' in text else text


def whole(number: float | decimal.Decimal) -> str:
    """The number rounded to a whole one, with commas."""
    return f'{decimal.Decimal(number).quantize(decimal.Decimal(1), rounding=decimal.ROUND_HALF_UP):,f}'


TIMES = (('s', 10 ** 9), ('ms', 10 ** 6), ('µs', 1000), ('ns', 1))


def weight(number: int, unit: str) -> str:
    """A weight at a glance: a plain number, or nanoseconds in the largest step that they reach, to three digits."""
    if unit != 'nanoseconds':
        return f'{number:,}'
    sign, size = next((each for each in TIMES if number >= each[1] * 0.9995), TIMES[-1])
    value = decimal.Decimal(number) / size
    return f'{digits(value, 3) if value < 999.5 else whole(value)} {sign}'


def percent(part: int, of: int) -> str:
    """A part of the whole in percent: three digits, or two below one percent."""
    if of <= 0:
        return '0%'
    value = 100 * part / of
    return f'{digits(value, 2 if value < 1 else 3)}%'


def change(before: int, after: int) -> str:
    """How much more there is after than before."""
    if before == after:
        return '±0%'
    if before == 0:
        return 'new'
    if after == 0:
        return 'gone'
    value = 100 * (after - before) / before
    much = digits(abs(value), 3) if abs(value) < 999.5 else whole(abs(value))
    return f'{"+" if value > 0 else MINUS}{much}%'


def joined(count: int) -> str:
    """What is told of boxes that are painted as one."""
    return f'{count:,} boxes, each narrower than a pixel'


# Stands in the place of each character in brackets.
BRACKETED = '\uf8ff'
GROUP = re.compile(r'\([^][(){}<>]*\)|\[[^][(){}<>]*\]|\{[^][(){}<>]*\}|<[^][(){}<>]*>')
NO_NAME = re.compile(r'|[0-9]+|func[0-9]+|gowrap[0-9]+|deferwrap[0-9]+|cold|part|isra|constprop|llvm|h[0-9a-f]{16}|\{.*', re.DOTALL)


def without_groups(text: str) -> str:
    """The text with a mark in the place of each character in brackets, from the innermost out. Arrows are no brackets."""
    masked, last = re.sub('[-=]>', '--', text), ''
    while masked != last:
        last, masked = masked, GROUP.sub(lambda group: BRACKETED * len(group[0]), masked)
    return masked


class Parts(NamedTuple):
    """A name without where it stands in a file: where each part begins, each without brackets, what stands between them, and which of
    them are names of their own, unlike numbers."""
    head: str
    begins: list[int]
    bare: list[str]
    between: list[str]
    own: list[int]

    def written(self, first: int, beyond: int) -> str:
        """Some parts without brackets."""
        return (''.join(self.bare[first:first + 1] + [*itertools.chain(*zip(self.between[first:], self.bare[first + 1:beyond]))])
                if first < beyond else '')


def parts_of(name: str) -> Parts | None:
    """The parts of a name, by its characters alone; None where its brackets do not match, or it is very long."""
    head = re.sub(r' (\([^()]*\)|\[[^][]*\]|[^ ]+:[0-9]+)\Z', '', name) or name
    masked = without_groups(head)
    if re.search(r'[][(){}<>]', masked) or len(name) > 5000:
        return None
    ends = [(found.start(), found.end()) for found in re.finditer(rf'::|[/.]| (?=.*({BRACKETED}|::|[/.]))', masked, re.DOTALL)]
    begins = [0, *(end for _, end in ends)]
    parts = [head[begin:end] for begin, end in zip(begins, [*(start for start, _ in ends), len(head)])]
    own = [at for at, part in enumerate(parts) if at == 0 or not NO_NAME.fullmatch(part)]
    bare = [re.sub(rf'^({BRACKETED}*[^{BRACKETED}]*).*', lambda kept: part[:len(kept[1])], masked[begin:begin + len(part)],
                   flags=re.DOTALL).rstrip()
            for begin, part in zip(begins, parts)]
    return Parts(head, begins, bare, [head[start:end] for start, end in ends], own)


@functools.lru_cache(maxsize=100_000)
def forms(name: str) -> tuple[str, ...]:
    """What is shown of a name, and of what a box with less room may have of it, from the longest to the shortest: without where it stands
    in a file, without one after another part of its path until two are left, these without brackets, and so the last alone. All that by
    characters alone. Of what is no name of its own, such as a number, nothing is left alone."""
    parts = parts_of(name)
    if parts is None:
        return (visible(name),)
    whole = [parts.head[parts.begins[at]:] for at in parts.own[1:-1]]
    found = [name, parts.head, *whole, *(parts.written(at, len(parts.bare)) for at in parts.own[-2:])]
    return tuple(map(visible, [name, *(form for before, form in itertools.pairwise(found) if form not in ('', before))]))


def package(name: str) -> str:
    """The package of a name: the file where it stands; else what stands before the last part that is a name of its own, from behind a
    space on."""
    parts = parts_of(name)
    if parts is None:
        return ''
    if found := re.search(r' (?:\((?P<inside>[^()]*)\)|(?P<bare>[^ ]+:[0-9]+))\Z', name):
        place = found['inside'] or found['bare'] or ''
        file = re.sub(r'(:[0-9]+)+\Z', '', place)
        if file and (file != place or '/' in file or '.' in file):
            return file
    last = parts.own[-1]
    first = max([0, *(at for at in range(1, last + 1) if parts.between[at - 1] == ' ')])
    return parts.written(first, last)


def is_label(label: str, name: str) -> bool:
    """Whether a label is one of the forms of a name, or a front of the shortest, with an ellipsis."""
    return label in forms(name) or is_front(label, forms(name)[-1])


def is_front(label: str, name: str) -> bool:
    """Whether a label is what is shown of a name, or a part of its beginning with an ellipsis."""
    return label == name or (len(label) > 1 and label[-1] == ELLIPSIS and name.startswith(label[:-1]) and len(label) <= len(name))
