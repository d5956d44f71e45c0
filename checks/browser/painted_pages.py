"""The pages that the check looks at. Some are what the program writes of folded text or of pprof profiles; others are columns that were
made here and put between the head and the tail, which have their boxes in any order and of any weight.
"""
from __future__ import annotations

import random
from typing import Any, Callable

import documents
import profiles
from painted_drawing import Data
from painted_trees import LANGUAGES, ODD_NAMES, Node, columns, data_of, folded, like_profile, siblings, text_of

# What a page is made with: see checks/page.
Check = Any
DEEPEST = 4000


def of_program(check: Check, *words: str) -> bytes:
    """The page that the program writes."""
    document: bytes = documents.page(check.program, [words[0], '--page', *words[1:]])
    return document


def of_data(data: Data) -> bytes:
    """The page with these data."""
    document: bytes = documents.joined(data)
    return document


def smallest(check: Check) -> bytes:
    """A box that is much narrower than a pixel, before one that is nearly as wide as the picture."""
    return of_program(check, 'graph', check.write('two.folded', 'main;aardvark 1\nmain;work;parse 10000\nmain;work;print 5000\n'))


def random_tree(seed: int, depth: int = 4, narrow: int = 250) -> Node:
    drawn = random.Random(seed)
    root = Node('all', drawn.randint(0, 10 ** 6), siblings(drawn, depth, 10 ** 9, narrow))
    # Thousands beside one another.
    root.calls[1:1] = [Node(drawn.choice(ODD_NAMES), drawn.randint(1, 40000)) for _ in range(3000)]
    return root


def siblings_made(check: Check) -> bytes:
    return of_data(data_of(random_tree(1)))


def siblings_folded(check: Check) -> bytes:
    return of_program(check, 'graph', '--least', '0', check.write('siblings.folded', folded(random_tree(2))))


def exact_edges(check: Check) -> bytes:
    """Many boxes whose edges fall on those of pixels, or just beside them."""
    drawn = random.Random(3)
    calls = [Node(f'f{number % 97}', drawn.choice((1, 1, 1, 2, 3, 6))) for number in range(5000)]
    root = Node('all', 0, [Node('main', 0, calls)])
    root.own = -root.weight % (368 * 588 // 4)
    return of_data(data_of(root))


def heavy(check: Check) -> bytes:
    """Weights near the largest that JavaScript has exactly."""
    drawn = random.Random(4)
    root = Node('all', 0, siblings(drawn, 4, 2 ** 52, 60))
    return of_data(data_of(root))


def deep(check: Check) -> bytes:
    names = [f'f{number}' for number in range(DEEPEST)]
    return of_program(check, 'graph', check.write('deep.folded', f'{";".join(names)} 3\n{";".join(names[:2500])};x 2\na 1\n'))


def chart(check: Check) -> bytes:
    paths = []
    for number in range(3):
        stacks = like_profile(random.Random(10 + number), LANGUAGES['go'], 500, 300)
        paths.append(check.write(f'chart-{number}.folded', text_of(stacks)))
    return of_program(check, 'chart', '--least', '0', *paths)


def chart_made(check: Check) -> bytes:
    """Boxes that go on from one source to the next, and sources that are narrower than a pixel. It opens with the root below."""
    return of_data(data_of(random_tree(5, 4, 80), 'chart', (0.3, 0.30001, 0.30002, 0.7)) | {'root_below': True})


def comparison(check: Check) -> bytes:
    drawn = random.Random(6)
    before = like_profile(drawn, LANGUAGES['java'], 700, 800)
    after = [(stack, int(weight * drawn.choice((0.5, 1, 1, 1.1, 3)))) for stack, weight in before if drawn.random() < 0.8]
    after += like_profile(drawn, LANGUAGES['java'], 100, 800)
    paths = [check.write(f'{name}.folded', text_of(stacks)) for name, stacks in (('old', before), ('new', after))]
    return of_program(check, 'compare', '--least', '0', *paths)


def comparison_made(check: Check) -> bytes:
    """The same path with weights of which many are at the edge between two colours. It opens by shares."""
    drawn = random.Random(7)
    root = random_tree(7, 4, 60)
    data = data_of(root, 'compare')
    after, names = columns(root, lambda weight: drawn.choice((0, 1, weight, weight * 9 // 10, weight // 2, weight * 2, weight + 1)))
    before, _ = columns(root, lambda weight: drawn.choice((0, weight, weight * 3 // 10, weight * 4)))
    sources = [data['sources'][0] | {'name': name} for name in ('before.folded', 'after.folded')]
    return of_data(data | {'drawings': [before, after], 'names': names, 'share': True, 'sources': sources, 'whole': 2 * root.weight})


def snapshots(check: Check) -> bytes:
    stacks = like_profile(random.Random(8), LANGUAGES['python'], 400, 500)
    return of_program(check, 'graph', '--least', '0', '--every', '100', check.write('snapshots.folded', text_of(stacks)))


def filtered(check: Check) -> bytes:
    stacks = like_profile(random.Random(9), LANGUAGES['go'], 1000)
    path = check.write('filtered.folded', text_of(stacks))
    return of_program(check, 'graph', '--least', '0', '--focus', 'Encode', '--hide', 'Scan', path)


def like_go(check: Check) -> bytes:
    stacks = like_profile(random.Random(20), LANGUAGES['go'], 1500)
    profile = profiles.profile([('cpu', 'nanoseconds')], [(stack, [weight]) for stack, weight in stacks])
    return of_program(check, 'graph', '--least', '0', check.write('go.pb', profile))


def like_java(check: Check) -> bytes:
    return of_program(check, 'graph', check.write('java.folded', text_of(like_profile(random.Random(21), LANGUAGES['java'], 1500))))


def like_python(check: Check) -> bytes:
    stacks = like_profile(random.Random(22), LANGUAGES['python'], 1500)
    return of_program(check, 'graph', '--least', '0', check.write('python.folded', text_of(stacks)))


def odd_names(check: Check) -> bytes:
    """Names that would be markup, that are not seen, that are empty or long; each in a wide box and in narrow ones."""
    drawn = random.Random(23)
    calls = [Node(name, drawn.randint(1, 30), [Node(each, 10 ** drawn.randint(0, 4)) for each in ODD_NAMES]) for name in ODD_NAMES]
    return of_data(data_of(Node('all', 0, calls)))


def nothing(check: Check) -> bytes:
    return of_program(check, 'graph', check.write('nothing.folded', ''))


PAGES: list[Callable[[Check], bytes]] = [
    smallest, siblings_made, siblings_folded, exact_edges, heavy, deep, chart, chart_made, comparison, comparison_made, snapshots, filtered,
    like_go, like_java, like_python, odd_names, nothing]
