"""What the parts of checks/fleet share: the inputs, a program that can be held up on a host, and what an answer must be."""
import dataclasses
import functools
import os
import pathlib
import subprocess
import time
from collections.abc import Sequence

from fleet_hosts import Wrong, same
from fleet_inputs import Input, fold_of

WORKERS = ('one', 'two', 'three', 'four')
# Notes on which host it began. On the host that is to be lost a run waits once so many others began there, until `never` is opened.
WRAPPER = '''#!/bin/sh
echo "$FLEET_HOST" >> '{folder}/begun'
read -r doomed after < '{folder}/doomed'
if [ "$FLEET_HOST" = "$doomed" ] && [ "$(grep -c "^$FLEET_HOST$" '{folder}/begun')" -gt "$after" ]; then
    echo $$ > '{folder}/waits.'$$
    mv '{folder}/waits.'$$ '{folder}/waits'
    read -r _ < '{folder}/never'
fi
exec '{program}' "$@"
'''


@dataclasses.dataclass
class Answer:
    status: int
    out: bytes
    err: str
    seconds: float


class Ground:
    """The program, the folder of the inputs, how much is folded at once, and how long a run may take."""

    def __init__(self, program: pathlib.Path, folder: pathlib.Path, inputs: list[Input], is_full: bool) -> None:
        self.program, self.folder, self.inputs, self.is_full = program, folder, inputs, is_full
        self.batch, self.patience = (2**27, 3600.0) if is_full else (2**24, 300.0)
        self.wrapper = folder / 'wrapper'
        self.wrapper.write_text(WRAPPER.format(folder=folder, program=program))
        self.wrapper.chmod(0o755)
        os.mkfifo(folder / 'never')
        self.doom('', 0)

    @functools.cached_property
    def good(self) -> list[Input]:
        return [each for each in self.inputs if not each.status]

    @functools.cached_property
    def some(self) -> list[Input]:
        """As many as one run takes, without the long text."""
        short = [each for each in self.good if each.name != 'big.folded']
        odd = next(at for at, each in enumerate(short) if each.name == 'odd.folded')
        return short[odd - 31:odd + 33]

    def doom(self, host: str, after: int) -> None:
        """The next run waits that begins on this host behind so many others."""
        (self.folder / 'waits').unlink(missing_ok=True)
        (self.folder / 'begun').write_text('')
        (self.folder / 'doomed.part').write_text(f'{host} {after}\n')
        (self.folder / 'doomed.part').rename(self.folder / 'doomed')

    @property
    def waits(self) -> bool:
        return (self.folder / 'waits').exists()

    def one_run(self, words: Sequence[str], given: bytes = b'') -> Answer:
        begin = time.monotonic()
        ran = subprocess.run([self.program, *words], cwd=self.folder, input=given, capture_output=True, check=False)
        return Answer(ran.returncode, ran.stdout, ran.stderr.decode(), time.monotonic() - begin)


def is_fold(found: bytes, inputs: Sequence[Input], what: str) -> None:
    wanted = fold_of(inputs)
    if found != wanted:
        raise Wrong(f'{what}: not the sums of the samples: {len(found)} bytes in place of {len(wanted)}')


def is_answer(found: Answer, inputs: Sequence[Input], what: str) -> None:
    """The fold of those that have no fault, each message once, in order, and the status that says so."""
    same(found.err, ''.join(each.message for each in inputs), f'{what}: messages')
    same(found.status, max(each.status for each in inputs), f'{what}: status')
    is_fold(found.out, inputs, what)


def shows_of(ground: Ground, words: Sequence[str]) -> Answer:
    """What one run writes of the fold of some. Some of its last names end in numbers, so it is given with a `;` before the counts."""
    heads = (line.rpartition(b' ') for line in fold_of(ground.some).split(b'\n')[:-1])
    return ground.one_run(words, b''.join(b'%b; %b\n' % (head, count) for head, _, count in heads))
