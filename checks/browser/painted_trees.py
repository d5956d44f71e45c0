"""Random trees of calls, and what becomes of them: columns of a page, or folded text. All with fixed seeds."""
from __future__ import annotations

import random
from dataclasses import dataclass, field
from typing import Callable

from painted_drawing import Data
from told_boxes import Box, columns_of

WORDS = ('read', 'parse', 'next', 'encode', 'Row', 'List', 'hash', 'poll', 'flush', 'visit', 'Tree', 'scan', 'merge', 'lock', 'send', 'map')
ODD_NAMES = ('', '<', '&amp;', '"quoted"', "it's", 'Vec<Box<dyn Fn(&str) -> bool>>', '</script><script>', 'été', '你好世界',
             '😀 👩‍💻', 'מה שלומך', 'tab\there', 'a\u200eb', 'line\u2028end', '[U+0000]', 'x' * 1500, 'ab' * 40,
             '%', 'a/b', '#&=', '…', ' lead')


@dataclass
class Node:
    """A call path: its name, its own weight, and what it calls."""
    name: str
    own: int = 0
    calls: list[Node] = field(default_factory=list)

    @property
    def weight(self) -> int:
        return self.own + sum(call.weight for call in self.calls)


def name_of(drawn: random.Random) -> str:
    if drawn.random() < 0.1:
        return drawn.choice(ODD_NAMES)
    return ''.join(drawn.choice(WORDS) for _ in range(drawn.randint(1, 5))) + str(drawn.randint(0, 999))


def siblings(drawn: random.Random, depth: int, weight: int, narrow: int) -> list[Node]:
    """Wide calls, and before, between and behind them up to so many narrow ones."""
    calls: list[Node] = []
    rest = weight * 9 // 10
    for _ in range(drawn.randint(1, 4)):
        calls += narrow_calls(drawn, drawn.randint(0, narrow), max(1, weight // 40000))
        wide = Node(name_of(drawn), drawn.randint(0, max(1, rest // 8)))
        if depth > 1:
            wide.calls = siblings(drawn, depth - 1, rest // 2, narrow)
        else:
            wide.own += rest // 3
        rest -= rest // 2
        calls.append(wide)
    return calls + narrow_calls(drawn, drawn.randint(0, narrow), max(1, weight // 20000))


def narrow_calls(drawn: random.Random, count: int, most: int) -> list[Node]:
    """Calls of which most are much narrower than a pixel, and some are about as wide as one."""
    calls = [Node(name_of(drawn), drawn.randint(1, most)) for _ in range(count)]
    for call in calls:
        if drawn.random() < 0.05:
            call.own *= drawn.randint(5, 60)
        if drawn.random() < 0.2:
            call.calls = [Node(name_of(drawn), drawn.randint(1, most)) for _ in range(drawn.randint(1, 3))]
    return calls


def columns(root: Node, other: Callable[[int], int] | None = None) -> tuple[Data, list[str]]:
    """The drawing of a tree as a page has it, and its names."""
    places: dict[str, int] = {}
    boxes: list[Box] = []
    name: list[int] = []

    def add(node: Node, depth: int, start: int) -> None:
        boxes.append(Box(depth, start, node.weight, node.own))
        name.append(places.setdefault(node.name, len(places)))
        taken: set[str] = set()
        for call in node.calls:
            add(Node(unused(call.name, taken), call.own, call.calls), depth + 1, start)
            start += call.weight

    add(root, 0, 0)
    made: Data = columns_of(boxes) | {'name': name}
    if other:
        made['other'] = [other(box.weight) for box in boxes]
    return made | {'least': 0, 'left_out': {'boxes': 0, 'weight': 0}, 'total': root.weight}, list(places)


def unused(name: str, taken: set[str]) -> str:
    """The name, or where it is taken the name with a number: what one path calls has different names."""
    number, made = 2, name
    while made in taken:
        number, made = number + 1, f'{name}{number}'
    taken.add(made)
    return made


def data_of(root: Node, view: str = 'graph', cuts: tuple[float, ...] = ()) -> Data:
    """The data of a graph, or of a chart whose sources end at these parts of the whole."""
    drawing, names = columns(root)
    ends = [*(int(root.weight * cut) for cut in cuts), root.weight]
    sources = [{'name': f'part-{number}.folded', 'type': '', 'unit': '', 'weight': end - begin}
               for number, (begin, end) in enumerate(zip([0, *ends], ends))]
    return {'drawings': [drawing], 'names': names, 'sources': sources, 'title': 'Random', 'view': view, 'whole': root.weight}


def folded(root: Node) -> str:
    """The folded text of a tree, but for its root. A name has no line break, and no semicolon."""
    lines: list[str] = []

    def add(node: Node, path: str) -> None:
        if node.own:
            lines.append(f'{path} {node.own}\n')
        for call in node.calls:
            add(call, f'{path};{plain(call.name)}' if path else plain(call.name))

    for call in root.calls:
        add(call, plain(call.name))
    return ''.join(lines)


def plain(name: str) -> str:
    return ''.join(character for character in name if character not in ';\n\r').strip() or 'empty'


@dataclass
class Language:
    """How names of a language's profiles look, and how deep its stacks are."""
    packages: tuple[str, ...]
    shapes: tuple[str, ...]
    deepest: int


LANGUAGES = {
    'go': Language(('runtime', 'net/http', 'encoding/json', 'main', 'sync', 'reflect', 'testing'),
                   ('{0}.{1}', '{0}.(*{1}).{2}', '{0}.{1}.func{3}', '{0}.{1}[go.shape.int].{2}'), 30),
    'java': Language(('java.util.concurrent', 'java.lang', 'org.example.server', 'com.sun.proxy', 'io.netty.channel'),
                     ('{0}.{1}.{2}', '{0}.{1}.<init>', '{0}.{1}$Worker.{2}', '{0}.{1}.lambda${2}${3}'), 45),
    'python': Language(('app/views.py', 'django/db/models.py', 'json/decoder.py', 'site.py'),
                       ('{1} ({0}:{3})', '<module> ({0}:{3})', '<listcomp> ({0}:{3})', '<lambda> ({0}:{3})', '{2} ({0}:{3})'), 25),
}


def like_profile(drawn: random.Random, language: Language, stacks: int, functions: int = 3000) -> list[tuple[list[str], int]]:
    """Stacks with weights, as a profile has them: few heavy paths, many light ones, and names that come again and again."""
    names = [drawn.choice(language.shapes).format(drawn.choice(language.packages), drawn.choice(WORDS).capitalize(), drawn.choice(WORDS),
                                                  drawn.randint(1, 900)) for _ in range(functions)]
    stack: list[str] = []
    made = []
    for _ in range(stacks):
        stack = stack[:int(len(stack) * drawn.random() ** 0.4)]
        while len(stack) < 3 or (len(stack) < language.deepest and drawn.random() < 0.85):
            stack.append(names[min(len(names) - 1, int(drawn.paretovariate(0.4)) - 1)])
        made.append((list(stack), int(10_000 * drawn.paretovariate(0.7)) % 10 ** 9))
    return made


def text_of(stacks: list[tuple[list[str], int]]) -> str:
    return ''.join(f'{";".join(map(plain, stack))} {weight}\n' for stack, weight in stacks)
