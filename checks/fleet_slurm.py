"""The fold of folds as an array job of Slurm on one node, which is this host, with a task that is killed on the way."""
import contextlib
import getpass
import os
import pathlib
import signal
import socket
import subprocess
import time
from collections.abc import Iterator

from fleet_ground import Answer, Ground, is_answer, shows_of
from fleet_hosts import TOP, Lost, Missing, Wrong, end, need, same, wait
from fleet_inputs import Input

SCRIPT = TOP / 'share' / 'fleet' / 'slurm-fold'
# A controller that takes longer than this to answer can't be started here.
PATIENCE = 60
CONFIGURATION = '''ClusterName=fleet
SlurmctldHost={host}(127.0.0.1)
SlurmUser={user}
SlurmdUser={user}
AuthType=auth/munge
AuthInfo=socket={folder}/munge.socket
CryptoType=crypto/munge
SlurmctldPort={port}
SlurmdPort={node_port}
StateSaveLocation={folder}/state
SlurmdSpoolDir={folder}/spool
SlurmctldPidFile={folder}/slurmctld.pid
SlurmdPidFile={folder}/slurmd.pid
SlurmctldLogFile={folder}/slurmctld.log
SlurmdLogFile={folder}/slurmd.log
ProctrackType=proctrack/linuxproc
TaskPlugin=task/none
SelectType=select/cons_tres
SelectTypeParameters=CR_Core
JobAcctGatherType=jobacct_gather/none
AccountingStorageType=accounting_storage/none
MpiDefault=none
SchedulerParameters=sched_interval=1
NodeName=node NodeAddr=127.0.0.1 CPUs=4 State=UNKNOWN
PartitionName=all Nodes=node Default=YES MaxTime=INFINITE State=UP
'''


def free_port() -> int:
    with socket.create_server(('127.0.0.1', 0)) as server:
        return int(server.getsockname()[1])


class Slurm:
    """A controller and a node, and the daemon by which they know each other."""

    def __init__(self, ground: Ground, folder: pathlib.Path) -> None:
        self.ground, self.folder = ground, folder
        self.environment = {**os.environ, 'SLURM_CONF': str(folder / 'slurm.conf'), 'FLEET_HOST': 'node'}
        self.daemons: list[subprocess.Popen[bytes]] = []
        for name in ('state', 'spool'):
            (folder / name).mkdir()
        (folder / 'munge.key').write_bytes(os.urandom(128))
        (folder / 'munge.key').chmod(0o400)
        (folder / 'slurm.conf').write_text(CONFIGURATION.format(
            host=socket.gethostname().partition('.')[0], user=getpass.getuser(), folder=folder, port=free_port(),
            node_port=free_port()))

    def daemon(self, name: str, *words: str) -> None:
        with open(self.folder / f'{name}.said', 'wb') as said:
            self.daemons.append(subprocess.Popen([f'/usr/sbin/{name}', *words], stdin=subprocess.DEVNULL, stdout=said, stderr=said,
                                                 env=self.environment, start_new_session=True))

    def start(self) -> None:
        at = self.folder
        self.daemon('munged', '--foreground', '--force', f'--key-file={at}/munge.key', f'--socket={at}/munge.socket',
                    f'--pid-file={at}/munged.pid', f'--log-file={at}/munged.log', f'--seed-file={at}/munged.seed')
        wait((at / 'munge.socket').exists, 'munged', PATIENCE)
        self.daemon('slurmctld', '-D')
        self.daemon('slurmd', '-D', '-N', 'node')
        wait(lambda: b'idle' in self.asked('sinfo', '--noheader', '--format=%T'), 'a node that is idle', PATIENCE)

    def asked(self, *words: str) -> bytes:
        return subprocess.run(words, env=self.environment, capture_output=True, check=False).stdout

    def stop(self) -> None:
        """Ends jobs and daemons, and what these started that is no child of theirs any more."""
        self.asked('scancel', '--signal=KILL', '--full', f'--user={getpass.getuser()}')
        for daemon in self.daemons:
            end(daemon.pid)
            daemon.wait()
        for place in pathlib.Path('/proc').glob('[0-9]*/environ'):
            with contextlib.suppress(OSError):
                if f'SLURM_CONF={self.folder}/'.encode() in place.read_bytes():
                    end(int(place.parent.name))

    def run(self, job: str, command: str, inputs: list[Input], *rest: str) -> 'Run':
        return Run(self, [SCRIPT, command, '--program', self.ground.wrapper, '--batch', str(self.ground.batch), self.folder / job,
                          *(each.name for each in inputs), *(['--', *rest] if rest else [])])


class Run:
    """A run of slurm-fold."""

    def __init__(self, slurm: Slurm, words: list[str | pathlib.Path]) -> None:
        self.begin, self.ground = time.monotonic(), slurm.ground
        self.out, self.err = (slurm.folder / name for name in ('answer.out', 'answer.err'))
        with open(self.out, 'wb') as out, open(self.err, 'wb') as err:
            self.process = subprocess.Popen(words, cwd=slurm.ground.folder, stdin=subprocess.DEVNULL, stdout=out, stderr=err,
                                            env=slurm.environment, start_new_session=True)

    def answer(self) -> Answer:
        wait(lambda: self.process.poll() is not None, 'an answer of Slurm', self.ground.patience)
        return Answer(self.process.returncode, self.out.read_bytes(), self.err.read_text(), time.monotonic() - self.begin)


@contextlib.contextmanager
def cluster(ground: Ground) -> Iterator[Slurm]:
    need({'sbatch': 'slurm-client', 'slurmctld': 'slurmctld', 'slurmd': 'slurmd', 'munged': 'munge'})
    folder = ground.folder / 'slurm'
    folder.mkdir()
    slurm = Slurm(ground, folder)
    try:
        try:
            slurm.start()
        except Lost as fault:
            raise Missing(f'Slurm does not start here: {fault}') from None
        yield slurm
    finally:
        slurm.stop()


def killed(slurm: Slurm) -> Answer:
    """All inputs, while a task is killed that is at work. The answer does its part again, and says so."""
    ground = slurm.ground
    ground.doom('node', 5)
    run = slurm.run('job', 'fold', ground.inputs)
    wait(lambda: ground.waits or run.process.poll() is not None, 'a task at work', ground.patience)
    if run.process.poll() is not None:
        raise Lost(f'the work ended before a task was held: {run.answer().err[-2000:]}')
    held = int((ground.folder / 'waits').read_text())
    ground.doom('', 0)
    task = int(pathlib.Path(f'/proc/{held}/stat').read_text().rpartition(')')[2].split()[1])
    end(task, signal.SIGKILL)
    # Others may wait, too. A writer is an end of waiting.
    wait(lambda: released(ground) or run.process.poll() is not None, 'an answer of Slurm', ground.patience)
    found = run.answer()
    again: list[str] = []
    rest: list[str] = []
    for line in found.err.splitlines(keepends=True):
        (rest if line.startswith('flamecollect: ') else again).append(line)
    if len([line for line in again if line.startswith('array.py: no task did part ')]) != 1:
        logs = ''.join(path.read_text() for path in sorted((slurm.folder / 'job').glob('log.*')))
        raise Wrong(f'a killed task: {found.err}{logs}')
    found.err = ''.join(rest)
    is_answer(found, ground.inputs, 'with a killed task')
    return found


def released(ground: Ground) -> bool:
    """Lets those go on that wait, and is never done."""
    with contextlib.suppress(OSError):
        os.close(os.open(ground.folder / 'never', os.O_WRONLY | os.O_NONBLOCK))
    return False


def try_slurm(ground: Ground) -> str:
    with cluster(ground) as slurm:
        found = slurm.run('refused', 'top', ground.some[:2], '--nope').answer()
        same((found.status, found.out, "unexpected argument '--nope'" in found.err), (2, b'', True), f'a refused word: {found.err}')
        words = ['-n', '7', '--unit=bytes']
        same(slurm.run('shown', 'top', ground.some, *words).answer().out, shows_of(ground, ['top', *words]).out, 'top')
        found = killed(slurm)
    return f'Slurm on one node, with a task that is killed: {found.seconds:.1f} s'
