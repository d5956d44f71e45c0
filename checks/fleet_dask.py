"""The fold of folds on a Dask scheduler and four workers, one of which is lost."""
import concurrent.futures
import json
import subprocess
import sys
import time
from collections.abc import Sequence

from fleet_ground import WORKERS, Answer, Ground, is_answer, shows_of
from fleet_hosts import TOP, Hosts, Lost, Missing, chromium, same, wait
from fleet_inputs import Input

FLEET = TOP / 'share' / 'fleet' / 'fleet.py'


def interpreter() -> str:
    """A Python that has Dask. Debian's own has it where the package is installed."""
    for attempt in range(2):
        for path in (sys.executable, '/usr/bin/python3'):
            if subprocess.run([path, '-c', 'import distributed'], check=False, capture_output=True).returncode == 0:
                return path
        if attempt == 0:
            for words in (['update'], ['install', '-y', '--no-install-recommends', 'python3-distributed']):
                chromium.apt_get(words)
    raise Missing('python3-distributed cannot be had')


class Dask:
    """A scheduler and workers on hosts."""

    def __init__(self, hosts: Hosts, ground: Ground) -> None:
        self.hosts, self.ground, self.python = hosts, ground, interpreter()
        place = ground.folder / 'scheduler.json'
        cli = [self.python, '-m']
        hosts.start('head', [*cli, 'distributed.cli.dask_scheduler', '--host', hosts.address('head'), '--port', '0', '--no-dashboard',
                             '--scheduler-file', place])
        wait(place.exists, 'a scheduler')
        for name in WORKERS:
            hosts.start(name, [*cli, 'distributed.cli.dask_worker', '--scheduler-file', place, '--host', hosts.address(name),
                               '--nthreads', '1', '--no-nanny', '--no-dashboard', '--local-directory', ground.folder / f'of-{name}'])
        for name in WORKERS:
            wait(lambda: 'Registered to' in (ground.folder / f'{name}.log').read_text(), f'worker {name}')
        self.address = json.loads(place.read_text())['address']

    def start(self, command: Sequence[str], inputs: Sequence[Input], rest: Sequence[str] = ()) -> 'Run':
        program = [] if '--program' in command else ['--program', str(self.ground.wrapper)]
        return Run(self, [*command, *program, '--batch', str(self.ground.batch), self.address,
                          *(each.name for each in inputs), *(['--', *rest] if rest else [])])

    def run(self, command: Sequence[str], inputs: Sequence[Input], *rest: str) -> Answer:
        return self.start(command, inputs, rest).answer()


class Run:
    """A run of fleet.py. Several go at the same time."""

    def __init__(self, dask: Dask, words: Sequence[str]) -> None:
        self.ground, self.begin = dask.ground, time.monotonic()
        self.out, self.err = (dask.ground.folder / f'answer-{id(self)}.{name}' for name in ('out', 'err'))
        with open(self.out, 'wb') as out, open(self.err, 'wb') as err:
            self.process = dask.hosts.start('head', [dask.python, '-B', FLEET, *words], out, err)

    def answer(self) -> Answer:
        wait(lambda: self.process.poll() is not None, 'an answer', self.ground.patience)
        found = Answer(self.process.returncode, self.out.read_bytes(), self.err.read_text(), time.monotonic() - self.begin)
        self.out.unlink()
        self.err.unlink()
        return found


def lose_one(dask: Dask) -> Answer:
    """All inputs, while a worker is lost that has done some of the work, and is at some."""
    ground = dask.ground
    ground.doom('one', 3)
    run = dask.start(['fold'], ground.inputs)
    wait(lambda: ground.waits or run.process.poll() is not None, 'host one at work', ground.patience)
    if run.process.poll() is not None:
        raise Lost(f'the work ended before host one had a share: {run.answer().err[-2000:]}')
    dask.hosts.lose('one')
    ground.doom('', 0)
    found = run.answer()
    is_answer(found, ground.inputs, 'with a lost worker')
    return found


def one_run_writes(dask: Dask, options: Sequence[str]) -> None:
    """What one run can take is what one run writes."""
    some = dask.ground.some
    found, one = dask.run(['fold'], some, *options), dask.ground.one_run(['fold', *options, *(each.name for each in some)])
    same((found.status, found.err, found.out), (one.status, one.err, one.out), f'fold {options}')


def shown(dask: Dask, command: Sequence[str], options: Sequence[str]) -> None:
    """The last run is one over the fold."""
    found, one = dask.run(command, dask.ground.some, *options), shows_of(dask.ground, [*command, *options])
    same((found.status, found.out), (0, one.out), f'{command} {options}')


def refusal(dask: Dask, words: Sequence[str], status: int, said: str) -> None:
    found = dask.run(['top', *words], dask.ground.some[:3], '--nope')
    same((found.status, found.out, said in found.err), (status, b'', True), found.err)


def left_out(dask: Dask, bad: Sequence[Input], *options: str) -> None:
    is_answer(dask.run(['fold'], bad, *options), bad, f'with files that are left out {options}')


def try_dask(ground: Ground, hosts: Hosts) -> str:
    dask = Dask(hosts, ground)
    missing, large = (Input(name, [], fault=fault, status=3) for name, fault in (('no.pb', 'cannot be read'), ('large.pb', 'too large')))
    with open(ground.folder / large.name, 'wb') as file:
        file.truncate(2**30 + 1)
    with concurrent.futures.ThreadPoolExecutor(4) as pool:
        for done in concurrent.futures.as_completed([
            pool.submit(refusal, dask, [], 2, "unexpected argument '--nope'"),
            pool.submit(refusal, dask, ['--program', 'no-program'], 3, 'no-program'),
            pool.submit(left_out, dask, [ground.some[0], missing, *ground.some[-9:], large, ground.some[1], missing]),
            pool.submit(left_out, dask, [ground.some[0], Input('odd.folded', [], fault='NoCount at 4', status=1)], '--strict'),
            pool.submit(one_run_writes, dask, []),
            pool.submit(one_run_writes, dask, ['--type', 'samples', '--focus', 'os.file', '--omit', 'main.3']),
            pool.submit(shown, dask, ['top'], ['-n', '20', '--unit', 'nanoseconds']),
            pool.submit(shown, dask, ['graph'], ['--width=700']),
            pool.submit(shown, dask, ['graph', '--page'], ['--title', 'a fleet', '--least', '0']),
        ]):
            done.result()
    sound = ''
    if ground.is_full:
        found = dask.run(['fold'], ground.good)
        is_answer(found, ground.good, 'all that is sound')
        sound = f'{found.seconds:.1f} s, and '
    lost = lose_one(dask)
    return f'Dask on {len(WORKERS)} hosts: {sound}with one lost on the way and spoilt files {lost.seconds:.1f} s'
