"""What the program tells of its command line: its help texts, and what it says where words are refused."""
import re
import subprocess
import sys

NAME = 'flamecollect'


class Entry:
    """A command, an option or an argument of a list in a help text."""

    def __init__(self, spelling: str, text: str) -> None:
        self.spelling = spelling
        self.text = text
        self.flags = re.findall(r'(?<![\w-])--?[A-Za-z][\w-]*', spelling)
        self.value = next(iter(re.findall(r'<([^>]+)>', spelling)), '') if self.flags else ''

    @property
    def long(self) -> str:
        return next((it for it in self.flags if it.startswith('--')), '')

    @property
    def short(self) -> str:
        return next((it for it in self.flags if not it.startswith('--')), '')


class Help:
    """A help text: what it is about, how it is used, its lists of entries, and what stands below them."""

    def __init__(self, text: str) -> None:
        self.about, self.usage = '', ''
        self.lists: list[tuple[str, list[Entry]]] = []
        self.notes: list[str] = []
        heading: tuple[str, list[Entry]] | None = None
        for line in text.splitlines():
            entry = re.match(r' {2,}(\S.*?)(?: {2,}(\S.*))?$', line)
            if line.startswith('Usage: '):
                self.usage = line[len('Usage: '):]
            elif not self.usage:
                self.about = self.about or line
            elif re.match(r'\S.*:$', line) and not self.notes and line != 'Formats:':
                heading = (line[:-1], [])
                self.lists.append(heading)
            elif entry and heading and not self.notes:
                self.add(heading[1], line, entry)
            elif line or self.notes:
                heading = None
                self.notes.append(line)

    @staticmethod
    def add(entries: list[Entry], line: str, entry: re.Match[str]) -> None:
        # A text that stands alone below its entry belongs to it.
        if line.startswith(' ' * 10) and entries and not entries[-1].text:
            entries[-1].text = line.strip()
        else:
            entries.append(Entry(entry.group(1), entry.group(2) or ''))

    def entries(self, *headings: str) -> list[Entry]:
        return [it for heading, found in self.lists if heading in headings for it in found]

    @property
    def options(self) -> list[Entry]:
        return [it for heading, found in self.lists if heading not in ('Commands', 'Arguments') for it in found]


def run(program: str, *words: str) -> subprocess.CompletedProcess[str]:
    return subprocess.run([program, *words], stdin=subprocess.DEVNULL, capture_output=True, text=True)


def help_of(program: str, *words: str) -> Help:
    ran = run(program, *words, '--help')
    if ran.returncode or not ran.stdout:
        sys.exit(f"checks/manual: {' '.join(words)} --help ended with status {ran.returncode}\n{ran.stderr}")
    return Help(ran.stdout)


def values_of(program: str, command: str, option: Entry) -> list[str]:
    """The values that an option can have, where the program tells them to whoever gives another one."""
    if not option.value or option.value == 'N':
        return []
    told = re.search(r'\[possible values: ([^\]]*)\]', run(program, command, option.long, '?', '-', '-').stderr)
    return told.group(1).split(', ') if told else []


def is_repeated(program: str, command: str, option: Entry) -> bool:
    """Whether the program takes an option several times."""
    return bool(option.value) and not run(program, command, option.long, '1', option.long, '1').returncode


class Commands:
    """The whole command line, as the program tells it."""

    def __init__(self, program: str) -> None:
        # the number, and its day
        self.version, self.day = re.findall(r' ([0-9.]+) \((\S+),', run(program, '--version').stdout)[0]
        self.top = help_of(program)
        names = [it.spelling for it in self.top.entries('Commands')]
        self.names = [it for it in names if it != 'help']
        self.abouts = {it.spelling: it.text for it in self.top.entries('Commands')}
        self.helps = {it: help_of(program, it) for it in self.names}
        self.values: dict[str, list[str]] = {}
        self.repeated: set[str] = set()
        for name in self.names:
            for option in self.helps[name].options:
                self.values[option.long] = self.values.get(option.long) or values_of(program, name, option)
                if is_repeated(program, name, option):
                    self.repeated.add(option.long)
