"""Places what stands before the examples of checks/program, and runs the program on them."""
import contextlib
import os
import pathlib
import pty
import signal
import subprocess
import sys
import tempfile
import termios
import threading
from collections.abc import Iterator, Mapping

from example_files import TOP, Answer, Example, Item, Topic, topics_of

Pipes = list[tuple[pathlib.Path, bytes]]

# The seconds after which a run is ended, which fails it. Examples have GiB of zeros and slow machines.
LONGEST = 600


def content_of(item: Item, folder: pathlib.Path, topic: Topic) -> bytes:
    """What the lines below a file or a pipe say."""
    content = b''
    for mark, rest in item.parts:
        if mark == '|':
            content += topic.texts.of_line(rest)
        elif mark == ':':
            content += topic.texts.of_hex(rest)
        elif mark == 'as':
            content += (folder / rest.decode()).read_bytes()
        elif mark == 'first':
            count, _, name = rest.decode().partition(' of ')
            content += (folder / name).read_bytes()[:int(count)]
        elif mark != 'zeros':
            sys.exit(f'{topic.name}: {item.name}: no mark of a file: {mark}')
    return content


def place(item: Item, folder: pathlib.Path, topic: Topic) -> None:
    path = folder / item.name
    if item.kind == 'folder':
        path.mkdir()
    elif item.kind == 'pipe':
        os.mkfifo(path)
    elif item.kind == 'file':
        content = content_of(item, folder, topic)
        path.unlink(missing_ok=True)
        path.write_bytes(content)
        os.truncate(path, len(content) + sum(int(rest) for mark, rest in item.parts if mark == 'zeros'))


@contextlib.contextmanager
def written(pipes: Pipes) -> Iterator[None]:
    """Meanwhile the pipes are written to, each once the one before was read, or has room for the rest."""
    if not pipes:
        yield
        return
    writer = os.fork()
    if writer == 0:
        for path, content in pipes:
            path.write_bytes(content)
        os._exit(0)
    try:
        yield
    finally:
        os.kill(writer, signal.SIGKILL)
        os.waitpid(writer, 0)


def opened(example: Example, folder: pathlib.Path, stack: contextlib.ExitStack) -> dict[str, int]:
    """The streams that lead elsewhere. What is called `closed` is a pipe that nobody reads."""
    streams = {}
    given = example.streams.get('<', 'input')
    if given != 'input' or (folder / given).exists():
        streams['<'] = os.open(folder / given, os.O_RDONLY)
    for sign in ('>', '2>'):
        name = example.streams.get(sign)
        if name == 'closed':
            end, streams[sign] = os.pipe()
            os.close(end)
        elif name:
            streams[sign] = os.open(folder / name, os.O_WRONLY | os.O_CREAT | os.O_TRUNC)
    for stream in streams.values():
        stack.callback(os.close, stream)
    return streams


def plain_run(command: list[str | bytes], streams: dict[str, int], folder: pathlib.Path, more: Mapping[str, str]) -> Answer:
    pipe = subprocess.PIPE
    try:
        ran = subprocess.run(command, cwd=folder, stdin=streams.get('<', subprocess.DEVNULL), stdout=streams.get('>', pipe),
                             stderr=streams.get('2>', pipe), env={**os.environ, **more}, timeout=LONGEST)
    except subprocess.TimeoutExpired as ended:
        return Answer(ended.stdout or b'', ended.stderr or b'', -signal.SIGKILL)
    return Answer(ran.stdout or b'', ran.stderr or b'', ran.returncode)


def terminal_run(command: list[str | bytes], streams: dict[str, int], folder: pathlib.Path) -> Answer:
    """A run whose streams are a terminal, but for those that lead elsewhere. The file `input` is typed there, and then Ctrl-D."""
    screen, terminal = pty.openpty()
    mode = termios.tcgetattr(terminal)
    mode[1] &= ~termios.OPOST
    mode[3] &= ~termios.ECHO
    termios.tcsetattr(terminal, termios.TCSANOW, mode)
    typed = os.read(streams['<'], 1024) if '<' in streams else b''
    os.write(screen, typed + b'\x04')
    ran = subprocess.Popen(command, cwd=folder, stdin=terminal, stdout=streams.get('>', terminal), stderr=streams.get('2>', terminal),
                           start_new_session=True)
    os.close(terminal)
    limit = threading.Timer(LONGEST, ran.kill)
    limit.start()
    shown = b''
    # once no program has the terminal, reading fails
    with contextlib.suppress(OSError):
        while more := os.read(screen, 65536):
            shown += more
    os.close(screen)
    status = ran.wait()
    limit.cancel()
    return Answer(shown, b'', status)


def run(program: pathlib.Path, example: Example, folder: pathlib.Path, pipes: Pipes, more: Mapping[str, str] = {}) -> Answer:
    """Runs the program on an example, with more in its environment."""
    with contextlib.ExitStack() as stack:
        stack.enter_context(written(pipes))
        streams = opened(example, folder, stack)
        command: list[str | bytes] = [str(program), *example.words]
        is_on_terminal = example.mark == 'terminal'
        found = terminal_run(command, streams, folder) if is_on_terminal else plain_run(command, streams, folder, more)
    if name := example.streams.get('2>'):
        found.err = (folder / name).read_bytes()
    return found


def placed(topic: Topic) -> Iterator[tuple[Example, pathlib.Path, Pipes]]:
    """The examples of a topic, each with the folder where all stands that was placed above it, and the pipes there."""
    pipes: Pipes = []
    with tempfile.TemporaryDirectory() as name:
        folder = pathlib.Path(name)
        for item in topic.items:
            if isinstance(item, Example):
                yield item, folder, pipes
                continue
            place(item, folder, topic)
            if item.kind == 'pipe':
                pipes.append((folder / item.name, content_of(item, folder, topic)))


def all_topics() -> list[Topic]:
    joined = subprocess.run([TOP / 'page' / 'join', '--split'], capture_output=True, check=True).stdout
    head, _, tail = joined.partition(b'\0')
    return topics_of(head, tail)
