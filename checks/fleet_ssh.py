"""The fold of folds by GNU parallel over ssh, with a host that is lost on the way."""
import os
import socket
import subprocess
import time
from collections.abc import Sequence

from fleet_ground import WORKERS, Answer, Ground, is_fold
from fleet_hosts import TOP, Hosts, Lost, Wrong, need, same, wait

SCRIPTS = TOP / 'share' / 'fleet'
DAEMON = '''Port {port}
ListenAddress {address}
HostKey {folder}/host
AuthorizedKeysFile {folder}/user.pub
StrictModes no
UsePAM no
PidFile none
MaxStartups 200
SetEnv FLEET_HOST={name} TMPDIR={folder}/tmp-{name}
'''
CLIENT = '''Host {name}
  HostName {address}
  Port {port}
  IdentityFile {folder}/user
  IdentitiesOnly yes
  StrictHostKeyChecking no
  UserKnownHostsFile /dev/null
  LogLevel ERROR
  BatchMode yes
'''


def free_port() -> int:
    with socket.create_server(('127.0.0.1', 0)) as server:
        return int(server.getsockname()[1])


class Ssh:
    """Hosts on which a daemon listens, and what clients have to know of them."""

    def __init__(self, hosts: Hosts, ground: Ground) -> None:
        need({'parallel': 'parallel', 'sshd': 'openssh-server', 'ssh': 'openssh-client', 'rsync': 'rsync'})
        self.hosts, self.ground = hosts, ground
        if os.geteuid() == 0:
            os.makedirs('/run/sshd', exist_ok=True)
        for key in ('host', 'user'):
            subprocess.run(['ssh-keygen', '-q', '-t', 'ed25519', '-N', '', '-f', ground.folder / key], check=True)
        places = []
        for name in WORKERS:
            words = {'name': name, 'address': hosts.address(name), 'port': free_port(), 'folder': ground.folder}
            (ground.folder / f'{name}.sshd').write_text(DAEMON.format(**words))
            places.append(CLIENT.format(**words))
            (ground.folder / f'{name}.ssh').touch()
            (ground.folder / f'tmp-{name}').mkdir()
            hosts.start(name, ['/usr/sbin/sshd', '-D', '-f', ground.folder / f'{name}.sshd', '-E', ground.folder / f'{name}.ssh'])
        (ground.folder / 'places').write_text(''.join(places))
        for name in WORKERS:
            wait(lambda: 'Server listening' in (ground.folder / f'{name}.ssh').read_text(), f'sshd of {name}')

    def start(self, script: str, words: Sequence[str]) -> subprocess.Popen[bytes]:
        folder = self.ground.folder
        with open(folder / 'ssh.out', 'wb') as out, open(folder / 'ssh.err', 'wb') as err:
            return self.hosts.start('head', [SCRIPTS / script, ','.join(WORKERS), *words], out, err, BLOCK=str(self.ground.batch),
                                    FLAMECOLLECT=str(self.ground.wrapper), WORKDIR=str(folder / 'sent'), PARALLEL='--jobs 1',
                                    PARALLEL_HOME=str(folder / 'parallel'), PARALLEL_SSH=f'ssh -F {folder / "places"}')

    def answer(self, process: subprocess.Popen[bytes], begin: float) -> Answer:
        wait(lambda: process.poll() is not None, 'an answer by ssh', self.ground.patience)
        folder = self.ground.folder
        return Answer(process.returncode, (folder / 'ssh.out').read_bytes(), (folder / 'ssh.err').read_text(), time.monotonic() - begin)

    def run(self, script: str, *words: str) -> Answer:
        return self.answer(self.start(script, words), time.monotonic())

    def run_and_lose(self, name: str, after: int, script: str, *words: str) -> Answer:
        """A run, in the midst of which a host is lost, where so many runs began before."""
        self.ground.doom(name, after)
        begin = time.monotonic()
        process = self.start(script, words)
        wait(lambda: self.ground.waits or process.poll() is not None, f'host {name} at work', self.ground.patience)
        if process.poll() is not None:
            raise Lost(f'the work ended before host {name} had a share: {self.answer(process, begin).err[-2000:]}')
        self.hosts.lose(name)
        self.ground.doom('', 0)
        return self.answer(process, begin)


def told_in(err: str) -> str:
    """What the program says, without what ssh and parallel say of a host that is lost."""
    return ''.join(line for line in err.splitlines(keepends=True) if line.startswith('flamecollect: '))


def try_ssh(ground: Ground, hosts: Hosts) -> str:
    ssh = Ssh(hosts, ground)
    found = ssh.run('parallel-text', 'spoilt.folded')
    same((found.status, found.out, found.err.count('spoilt.folded, part ') > 0, found.err.count(': DecimalWeight at ')), (1, b'', True, 1),
         f'a spoilt text: {found.err}')
    same(ssh.run('parallel-text', 'big.folded', '--nope').status, 2, 'a refused word')
    files = [each for each in ground.inputs if each.name not in ('big.folded', 'spoilt.folded')]
    lost = ssh.run_and_lose('one', 1, 'parallel-files', '--', *(each.name for each in files))
    same(told_in(lost.err), ''.join(each.message for each in files), 'files, with a lost host: messages')
    same(lost.status, 1, f'files, with a lost host: {lost.err}')
    is_fold(lost.out, files, 'files, with a lost host')
    big = [each for each in ground.inputs if each.name == 'big.folded']
    cut = ssh.run_and_lose('two', 1, 'parallel-text', 'big.folded')
    same(cut.status, 0, f'a long text, with a lost host: {cut.err}')
    is_fold(cut.out, big, 'a long text, with a lost host')
    told = sum(int(line.rpartition(' ')[2]) for line in told_in(cut.err).splitlines())
    if told != big[0].ignored:
        raise Wrong(f'a long text, with a lost host: {told} ignored lines in place of {big[0].ignored}: {cut.err}')
    left = [path.name for name in WORKERS[2:] for path in (ground.folder / f'tmp-{name}').iterdir()]
    same(left, [], 'what is left on hosts')
    return f'GNU parallel on {len(WORKERS)} hosts, with one lost on the way: files {lost.seconds:.1f} s, a text {cut.seconds:.1f} s'
