"""The rows of the program's benchmark, and how it is meant to stand beside what."""
from collections.abc import Iterator
from dataclasses import dataclass

from measuring import Command, Input, Measured

VIEWS = ['fold', 'graph', 'chart']
SIZES = {'1e4': 10_000, '1e5': 100_000, '1e6': 1_000_000}
# The greatest ratios of time and memory of fold and graph, by the form of the source, its stacks and its size, and those of chart.
TWO_BARS: dict[tuple[str, str, str], tuple[float, float]] = {
    ('folded', 'repeated', '1e5'): (0.5, 0.3),
    ('folded', 'timed', '1e5'): (0.4, 0.3),
    ('folded', 'new', '1e5'): (0.35, 0.3),
    ('folded', 'repeated', '1e6'): (0.35, 0.2),
    ('folded', 'timed', '1e6'): (0.3, 0.15),
    ('folded', 'new', '1e6'): (0.3, 0.35),
    ('pb', 'repeated', '1e5'): (1.1, 1.6),
    ('pb', 'timed', '1e5'): (1.1, 1.6),
    ('pb', 'new', '1e5'): (0.6, 1.6),
    ('pb', 'repeated', '1e6'): (0.7, 1.5),
    ('pb', 'timed', '1e6'): (0.65, 0.8),
    ('pb', 'new', '1e6'): (0.4, 1.0),
}
SHORT_BARS: dict[str, tuple[float, float]] = {'folded': (0.9, 1.0), 'pb': (1.5, 1.3)}
CHART_BARS: dict[str, tuple[float, float]] = {'1e5': (0.5, 1.2), '1e6': (0.25, 0.25)}
FOUR = {'repeated': 0.4, 'new': 0.55, 'pb': 0.55}
GROWTH = (12, 11)
Bars = tuple[float | None, float | None]


@dataclass
class Row:
    """The commands of our side beside those of another, each side's run one after another. A command begins with "program", "plain",
    "flamegraph" or "pprof"."""

    name: str
    part: str
    ours: list[Command]
    beside: list[Command]
    # the greatest ratios of time and memory
    bars: Bars = (None, None)
    # the plain program's command for the same output, where it is not the other side, and whether the bar of the memory is beside it
    plain: Command | None = None
    plain_memory: bool = False
    # whether both sides write the same
    is_alike: bool = True


def folded(scale: int, size: int, *words: str) -> Input:
    return Input('make_folded', (str(max(1, size // scale)), *words))


def profile(scale: int, size: int, *words: str) -> Input:
    return Input('make_profile', (str(max(1, size // scale)), *words), 'pb')


def beside_plain(name: str, part: str, words: Command, bars: Bars = (None, None)) -> Row:
    return Row(name, part, [['program', *words]], [['plain', *words]], bars)


def bars_of(view: str, kind: str, ending: str, size: str) -> Bars:
    if size == '1e4':
        return SHORT_BARS[ending]
    return CHART_BARS[size] if view == 'chart' else TWO_BARS[ending, kind, size]


def views(scale: int) -> list[Row]:
    """fold, graph and chart of one source. 10^4 lines show what a start costs."""
    rows = []
    kinds = [(kind, folded, 'folded') for kind in ['repeated', 'timed', 'new']]
    kinds += [(kind, profile, 'pb') for kind in ['repeated', 'timed', 'new']]
    for kind, make, ending in kinds:
        for size, lines in SIZES.items():
            for view in VIEWS:
                bars = bars_of(view, kind, ending, size)
                rows.append(beside_plain(f'{view}-{kind}-{ending}-{size}', ending, [view, make(scale, lines, kind)], bars))
    for view in VIEWS:
        rows.append(beside_plain(f'{view}-deep-2e4', 'deep', [view, folded(scale, 20_000, 'deep')]))
    return rows


def comparisons(scale: int) -> list[Row]:
    pairs = {
        '1e5': [folded(scale, 100_000), folded(scale, 100_000, 'seed1')],
        'deep': [folded(scale, 21_000, 'deep'), folded(scale, 22_000, 'deep', 'seed1')],
    }
    rows = []
    for label, pair in pairs.items():
        for name, words in ('lines', ()), ('boxes', ('--boxes',)):
            rows.append(beside_plain(f'compare-{name}-{label}', 'compare', ['compare', *words, *pair], (0.5, 0.3)))
    return rows


def together(name: str, view: str, files: list[Input], bars: Bars) -> Row:
    """Sources at once, beside the same in turn; their memory beside that of the plain program over all."""
    in_turn: list[Command] = [['program', view, file] for file in files]
    return Row(name, 'sources', [['program', view, *files]], in_turn, bars, ['plain', view, *files], True)


def sources(scale: int) -> list[Row]:
    rows = []
    for kind, time in FOUR.items():
        make = profile if kind == 'pb' else folded
        words = ['repeated'] if kind == 'pb' else [kind]
        files = [make(scale, 250_000, *words, f'seed{at}') for at in range(4)]
        rows += [together(f'{view}-4-sources-{kind}', view, files, (time, None)) for view in VIEWS]
    files = [folded(scale, 20_000, f'seed{at}') for at in range(64)]
    rows += [together(f'{view}-64-sources', view, files, (0.4, 1.5)) for view in VIEWS]
    files = [folded(1, 100, 'timed', f'seed{at}') for at in range(max(1, 1_000 // scale))]
    both: list[list[Command]] = [[[name, 'fold', file] for file in files] for name in ['program', 'plain']]
    rows.append(Row('fold-1000-short-files', 'sources', both[0], both[1]))
    return rows


def snapshots(scale: int) -> list[Row]:
    rows = []
    for kind in ['repeated', 'timed']:
        file, every = folded(scale, 100_000, kind), ['graph', '--every', str(max(1, 1_000 // scale))]
        graph: Command = ['program', 'graph', file]
        rows.append(Row(f'graph-every-{kind}', 'every', [['program', *every, file]], [graph], (3, 3), ['plain', *every, file]))
    return rows


def colliding(scale: int) -> list[Row]:
    names = str(40_000 // scale)
    made, others = Input('make_colliding', (names,)), Input('make_colliding', (names, 'others'))
    beside: Command = ['program', 'fold', others]
    return [Row('fold-colliding-names', 'colliding', [['program', 'fold', made]], [beside], (3, None), ['plain', 'fold', made])]


def pictures(scale: int) -> list[Row]:
    """The SVG of a million boxes, most of which are narrower than a pixel."""
    file = folded(scale, 1_000_000, 'wide')
    beside: Command = ['flamegraph', file]
    return [Row('graph-svg-1e6-boxes', 'svg', [['program', 'graph', '--svg', file]], [beside], (1, 1), is_alike=False)]


def tables(scale: int) -> list[Row]:
    """The table of the functions of a profile."""
    rows = []
    for kind in ['repeated', 'timed', 'new']:
        file = profile(scale, 1_000_000, kind)
        beside: Command = ['pprof', 'tool', 'pprof', '-top', '-nodecount=10', file]
        rows.append(Row(f'top-{kind}-pb-1e6', 'tables', [['program', 'top', file]], [beside], (1, 1), is_alike=False))
    return rows


def all_rows(scale: int) -> list[Row]:
    return views(scale) + comparisons(scale) + sources(scale) + snapshots(scale) + colliding(scale) + pictures(scale) + tables(scale)


def growths(measured: dict[str, Measured]) -> Iterator[tuple[str, Measured, Measured]]:
    """What was measured of each row of 10^6 samples, and of the same row of 10^5."""
    for name, large in measured.items():
        stem = name.removesuffix('-1e6')
        if stem != name and f'{stem}-1e5' in measured:
            yield f'growth-{stem}', large, measured[f'{stem}-1e5']
