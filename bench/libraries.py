"""The parts of the benchmark that measure programs of the crates below the program."""
import pathlib
from collections.abc import Sequence

from measuring import Command, Input, Measured, heading, plain, program, same, show, turn_about


def compared(commands: Sequence[Command], given: pathlib.Path, turns: int) -> list[Measured]:
    """What the commands took over the same input, whose outputs must be the same."""
    measured = turn_about([[command] for command in commands], turns, given)
    for at in range(1, len(commands)):
        same(0, at)
    return measured


def profile(turns: int, scale: int) -> None:
    print('profile: reading the samples of a pprof profile')
    if found := program('bench_profile'):
        size = 1_000_000 // scale
        heading('program', 'plain')
        path = Input('make_profile', (str(size),), 'pb').path()
        show(f'{size} samples', *compared([[found], [plain('drain_profile')]], path, turns))


def tree(turns: int, scale: int) -> None:
    print("tree: samples of 30 frames into a list and a tree, the tree's graph, and the chart of the list")
    if not (found := program('bench_tree')):
        return
    size, more = 1_000_000 // scale, 4
    path = Input('make_folded', (str(size), '30')).path()
    both = [[found], [plain('grow_tree')]]
    heading('program', 'plain')
    show(f'{size} samples', *compared(both, path, turns))
    print(f'tree: one add of a stack of 30 frames, from what {more} more trees cost')
    again: list[Command] = [[*command, *words] for command in both for words in ((), (str(more),))]
    times = [seconds for seconds, _ in compared(again, path, turns)]
    adds = [(after - before) / (more * size) * 1e6 for before, after in zip(times[::2], times[1::2])]
    print(f"{'program':26} {adds[0]:11.3f} microseconds\n{'plain':26} {adds[1]:11.3f} microseconds")
    print('tree: children of one node, from their lines to their boxes')
    heading('program', 'plain')
    for size in [100_000 // scale, 1_000_000 // scale]:
        ours, theirs = compared(both, Input('make_folded', (str(size), 'wide')).path(), turns)
        show(f'{size} children', ours, theirs)
        print(f"{'each':26} {ours[0] / size * 1e6:11.3f} {theirs[0] / size * 1e6:11.3f} microseconds")


def rings(turns: int, scale: int) -> None:
    print('rings: sources of stacks of 30 frames through rings, beside one thread')
    if found := program('bench_rings'):
        path = Input('make_folded', (str(200_000 // scale), '30', 'short')).path()
        heading('rings', 'thread')
        for sources in [1, 4, 16]:
            sizes = [0, 1, 64, 1024]
            one_thread, *others = compared([[found, str(sources), str(size)] for size in sizes], path, turns)
            for size, ours in zip(sizes[1:], others):
                show(f'{sources} sources, ring {size}', ours, one_thread)


PARTS = {'profile': profile, 'tree': tree, 'rings': rings}
