"""Hosts of a fleet: network namespaces that a bridge joins where the system allows them, else processes of this host on its loopback."""
import importlib
import os
import pathlib
import shutil
import signal
import subprocess
import sys
import time
from collections.abc import Callable, Mapping, Sequence
from typing import IO, Any

TOP = pathlib.Path(__file__).resolve().parents[1]
sys.path.insert(0, str(TOP / 'checks' / 'browser'))
chromium: Any = importlib.import_module('chromium')

PATIENCE = 120


class Lost(Exception):
    """What has to come did not come in time."""


class Wrong(Exception):
    """What came is not what must come."""


class Missing(Exception):
    """What a part of the check needs can't be had here. That is no fault of a fleet."""


def wait(holds: Callable[[], object], what: str, patience: float = PATIENCE) -> None:
    until = time.monotonic() + patience
    while not holds():
        if time.monotonic() > until:
            raise Lost(what)
        time.sleep(0.02)


def same(found: object, wanted: object, what: str) -> None:
    if found != wanted:
        raise Wrong(f'{what}: {str(found)[:600]} in place of {str(wanted)[:600]}')


def need(commands: Mapping[str, str]) -> None:
    """Installs the packages of Debian whose commands are missing."""
    path = os.environ.get('PATH', '') + ':/usr/sbin:/sbin'
    missing = sorted({package for command, package in commands.items() if not shutil.which(command, path=path)})
    if missing and shutil.which('apt-get'):
        for words in (['update'], ['install', '-y', '--no-install-recommends', *missing]):
            chromium.apt_get(words)
    if lacking := [command for command in commands if not shutil.which(command, path=path)]:
        raise Missing(f'{", ".join(lacking)} cannot be had')


def tree_of(root: int) -> list[int]:
    """A process and those that it and they started."""
    parents: dict[int, list[int]] = {}
    for entry in pathlib.Path('/proc').iterdir():
        if entry.name.isdigit():
            try:
                parent = int((entry / 'stat').read_text().rpartition(')')[2].split()[1])
            except (OSError, ValueError):
                continue
            parents.setdefault(parent, []).append(int(entry.name))
    found = [root]
    for process in found:
        found += parents.get(process, [])
    return found


def end(root: int, how: signal.Signals = signal.SIGKILL) -> None:
    for process in tree_of(root):
        try:
            os.kill(process, how)
        except ProcessLookupError:
            pass


class Hosts:
    """Hosts by their names, and the processes that were started on them, which end with it."""

    def __init__(self, names: Sequence[str], folder: pathlib.Path) -> None:
        self.names, self.folder = list(names), folder
        self.mark = f'fleet-{os.getpid()}'
        self.spaces: list[str] = []
        self.running: dict[str, list[subprocess.Popen[bytes]]] = {name: [] for name in names}
        try:
            self.join()
        except (OSError, subprocess.CalledProcessError):
            self.leave()
            print('fleet: network namespaces are refused here, so all hosts are this one', file=sys.stderr)

    def ip(self, *words: str) -> None:
        subprocess.run(['ip', *words], check=True, stdin=subprocess.DEVNULL, capture_output=True)

    def join(self) -> None:
        """A namespace for each host, and one with the bridge."""
        switch = f'{self.mark}-switch'
        for space in (switch, *(f'{self.mark}-{name}' for name in self.names)):
            self.ip('netns', 'add', space)
            self.spaces.append(space)
            self.ip('-n', space, 'link', 'set', 'lo', 'up')
            self.ip('netns', 'exec', space, 'true')
        self.ip('-n', switch, 'link', 'add', 'bridge', 'type', 'bridge')
        self.ip('-n', switch, 'link', 'set', 'bridge', 'up')
        for at, name in enumerate(self.names):
            space = f'{self.mark}-{name}'
            self.ip('-n', switch, 'link', 'add', f'to{at}', 'type', 'veth', 'peer', 'name', 'eth0', 'netns', space)
            self.ip('-n', switch, 'link', 'set', f'to{at}', 'master', 'bridge', 'up')
            self.ip('-n', space, 'addr', 'add', f'10.77.0.{at + 1}/24', 'dev', 'eth0')
            self.ip('-n', space, 'link', 'set', 'eth0', 'up')

    def address(self, name: str) -> str:
        return f'10.77.0.{self.names.index(name) + 1}' if self.spaces else '127.0.0.1'

    def start(self, name: str, words: Sequence[str | pathlib.Path], out: IO[bytes] | None = None, err: IO[bytes] | None = None,
              **more: str) -> subprocess.Popen[bytes]:
        """A process on a host. What it says goes to the host's log unless it goes elsewhere."""
        before = ['ip', 'netns', 'exec', f'{self.mark}-{name}'] if self.spaces else []
        with open(self.folder / f'{name}.log', 'ab') as log:
            process = subprocess.Popen([*before, *words], cwd=self.folder, stdin=subprocess.DEVNULL, stdout=out or log, stderr=err or log,
                                       env={**os.environ, 'FLEET_HOST': name, **more}, start_new_session=True)
        self.running[name].append(process)
        return process

    def lose(self, name: str) -> None:
        """All that runs on a host is killed."""
        for process in self.running[name]:
            if process.poll() is None:
                end(process.pid)
                process.wait()
        self.running[name].clear()

    def leave(self) -> None:
        for name in self.names:
            self.lose(name)
        for space in self.spaces:
            subprocess.run(['ip', 'netns', 'del', space], check=False, capture_output=True)
        self.spaces.clear()

    def __enter__(self) -> 'Hosts':
        return self

    def __exit__(self, *_: object) -> None:
        self.leave()
