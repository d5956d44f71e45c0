"""Looks at the pages of `live`. Their data are worked out from the samples that were written, by docs/PAGE-DATA.md and
browser/told_boxes.py, which is written from it.
"""
import json
import os
import pathlib
import random
import re
import shutil
import sys
import time
from collections.abc import Callable, Sequence

from live_lines import Sample, boxes, random_sample
from live_runs import PATIENCE, Lost, Run, Streams, Wrong, same

sys.path.append(str(pathlib.Path(__file__).parent / 'browser'))
from told_boxes import Box, columns_of  # noqa: E402

PAGE = re.compile(rb'<!doctype html>.*<script type="application/json" id="data">([^<]*)</script>.*</html>\n', re.DOTALL)
# What stood at a page's place before.
BEFORE = b'before'
FAILED = 'flamecollect: output failed\n'


def data_of(samples: Sequence[Sample], has_more: bool) -> dict[str, object]:
    """The data of the page of these samples, whose boxes are all kept, since they are few."""
    found = boxes(samples, 1)
    names = list(dict.fromkeys(box['name'] for box in found))
    told = columns_of(Box(*(int(box[key]) for key in Box._fields)) for box in found)
    total = sum(weight for _, weight in samples)
    numbers = [names.index(box['name']) for box in found]
    drawing = {**told, 'least': total // 1_200_000, 'left_out': {'boxes': 0, 'weight': 0}, 'name': numbers, 'total': total}
    more = {'more': True} if has_more else {}
    return {'drawings': [drawing], **more, 'names': names, 'sources': [], 'title': 'flamecollect live', 'view': 'graph', 'whole': total}


def data_in(page: bytes) -> object:
    """The data of a page, which is whole whenever it is read."""
    found = PAGE.fullmatch(page)
    if not found:
        raise Wrong(f'no whole page: {page[:100]!r} .. {page[-100:]!r}')
    return json.loads(found[1])


def small_sample(chance: random.Random) -> Sample:
    """None weighs so much that a box beside it would be left out."""
    stack, weight = random_sample(chance)
    return stack, min(weight, 10)


class PageLooks:
    """Looks at runs of a program in folders of their own."""

    def __init__(self, program: pathlib.Path, own_folder: Callable[[], pathlib.Path], chance: random.Random) -> None:
        self.program, self.own_folder, self.chance = program, own_folder, chance

    def all_looks(self) -> list[Callable[[], None]]:
        return [self.pages, self.pages_before_a_fault, self.page_links, self.pages_without_a_place, self.pages_of_nothing]

    @staticmethod
    def wait_for(path: pathlib.Path, wanted: object, what: str) -> None:
        """Waits until a page has these data. Each that is read before is whole, too."""
        found: object = None
        until = time.monotonic() + PATIENCE
        while found != wanted:
            if time.monotonic() > until:
                raise Lost(f'{what}: {str(found)[:300]} in place of {str(wanted)[:300]}')
            if path.exists() and (page := path.read_bytes()) != BEFORE:
                found = data_in(page)

    def renew(self, path: pathlib.Path, streams: Streams, among: Sequence[int], every: int, pages: int) -> None:
        """Gives streams so many samples that a page is due, and nothing more before it stands there, for so many pages."""
        for _ in range(pages):
            for _ in range(every):
                streams.give(self.chance.choice(among), small_sample(self.chance))
            self.wait_for(path, data_of(streams.samples, True), f'the page after {sum(streams.counts)} samples')

    def pages(self) -> None:
        """Nothing more is given before the page of all so far stands in its place. The last one says nothing of more."""
        for count, every in ((1, 1), (3, 7), (64, 100)):
            folder = self.own_folder()
            page = folder / 'live.html'
            streams = Streams(folder, count)
            with Run(self.program, folder, ['--every', str(every), '--page', page.name, *streams.names]) as run:
                self.renew(page, streams, range(count), every, 5)
                for _ in range(every - 1):
                    streams.give(self.chance.randrange(count), small_sample(self.chance))
                streams.end()
                same(run.rest(), [], 'standard output')
                same(run.end(), (0, ''), 'status and messages')
            same(data_in(page.read_bytes()), data_of(streams.samples, False), 'the last page')
            same(sorted(it.name for it in folder.iterdir()), sorted([page.name, *streams.names]), 'the files')

    def pages_before_a_fault(self) -> None:
        """The samples before a fault are on the pages, and the other streams go on."""
        folder = self.own_folder()
        streams = Streams(folder, 2)
        page = folder / 'live.html'
        with Run(self.program, folder, ['--every', '3', '--page', page.name, *streams.names]) as run:
            self.renew(page, streams, (0,), 3, 1)
            streams.stream(0).give(b'a 1.5\n', *[b'a 1\n' * 1000] * 1000)
            streams.stream(0).wait()
            self.renew(page, streams, (1,), 3, 3)
            streams.end()
            same(run.end(), (1, 'flamecollect: stream0: DecimalWeight at 4\n'), 'status and messages')
        same(data_in(page.read_bytes()), data_of(streams.samples, False), 'the last page')

    def page_links(self) -> None:
        """A link stays one, and the page that it leads to keeps who may read it. One where a page is written first is not followed."""
        folder = self.own_folder()
        (folder / 'real.html').write_bytes(BEFORE)
        (folder / 'real.html').chmod(0o640)
        (folder / 'live.html').symlink_to('real.html')
        (folder / 'other.html').write_bytes(BEFORE)
        (folder / 'real.html.part').symlink_to('other.html')
        streams = Streams(folder, 1)
        with Run(self.program, folder, ['--every', '2', '--page', 'live.html', *streams.names]) as run:
            same((folder / 'real.html').read_bytes(), BEFORE, 'what stood there')
            self.renew(folder / 'real.html', streams, (0,), 2, 1)
            streams.end()
            same(run.end(), (0, ''), 'status and messages')
        same((folder / 'live.html').is_symlink(), True, 'the link')
        same((folder / 'other.html').read_bytes(), BEFORE, 'what the other link leads to')
        same(oct((folder / 'real.html').stat().st_mode & 0o777), oct(0o640), 'who may read it')

    def pages_without_a_place(self) -> None:
        """Where the file can't be made nothing is read; where its place is gone, the run ends once the next page is due."""
        folder = self.own_folder()
        os.mkfifo(folder / 'unopened')
        with Run(self.program, folder, ['--page', 'no/live.html', 'unopened']) as run:
            same(run.end(), (3, FAILED), 'status and messages')
        folder = self.own_folder()
        streams = Streams(folder, 1)
        (folder / 'place').mkdir()
        with Run(self.program, folder, ['--every', '2', '--page', 'place/live.html', *streams.names]) as run:
            self.renew(folder / 'place' / 'live.html', streams, (0,), 2, 2)
            shutil.rmtree(folder / 'place')
            for _ in range(200):
                streams.give(0, small_sample(self.chance))
                if run.is_over(0.06):
                    break
            same(run.end(), (3, FAILED), 'status and messages')

    def pages_of_nothing(self) -> None:
        """Of no sample there is a page without boxes. Where no stream can be opened, what stood there stays."""
        folder = self.own_folder()
        (folder / 'live.html').write_bytes(BEFORE)
        with Run(self.program, folder, ['--page', 'live.html', 'missing']) as run:
            same(run.end(), (3, 'flamecollect: missing: cannot be read\n'), 'status and messages')
        same({it.name: it.read_bytes() for it in folder.iterdir()}, {'live.html': BEFORE}, 'the files')
        (folder / 'empty').write_bytes(b'')
        with Run(self.program, folder, ['--page', 'live.html', 'empty']) as run:
            same(run.end(), (0, ''), 'status and messages')
        same(data_in((folder / 'live.html').read_bytes()), data_of([], False), 'the page of no sample')
