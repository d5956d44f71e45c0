"""What the sources of the crates say: their types and traits, and their functions with the clauses of their contracts."""
import dataclasses
import functools
import pathlib
import re
from collections.abc import Iterator

TOP = pathlib.Path(__file__).resolve().parents[1]
STRINGS = re.compile(r'''r(#*)".*?"\1|"(?:\\.|[^"\\])*"|'(?:\\.|[^'\\])'|//[^\n]*''', re.S)
HEAD = re.compile(r'^[ \t]*(?P<visible>pub(?:\([\w ]+\))? )?(?:unsafe )?(?P<kind>struct|enum|trait|impl|fn)\b', re.M)
CLAUSE = re.compile(r'\s*(?P<kind>requires|ensures)\*?\s*(?P<name>\w*)\s*\{')
BODY = re.compile(r'\n\s*(?:requires|ensures|ghost)\b|[{;()\[\]]')


@functools.cache
def below() -> dict[str, list[str]]:
    """The crates of crates.txt, each after those that it stands on, with these."""
    lines = (TOP / 'crates.txt').read_text().splitlines()
    return {crate[1]: crate[2].split() for line in lines if (crate := re.match(r'(\w+)[^:#]*:(.*)', line))}


@functools.cache
def all_below(crate: str) -> frozenset[str]:
    """The crates on which a crate stands, itself or by others."""
    own = [it for it in below()[crate] if it in below()]
    return frozenset(own).union(*map(all_below, own))


def top_of(crate: str) -> str:
    """The last crate on the way down from this one, on which at each step one of the crates below stands on all the others."""
    while True:
        own = [it for it in below()[crate] if it in below()]
        highest = [it for it in own if {*own} <= {it} | all_below(it)]
        if not highest:
            return crate
        crate = highest[0]


def is_of_tests(crate: str) -> bool:
    return crate.endswith('_tests') or crate == 'end_to_end'


def libraries() -> list[str]:
    return [crate for crate in below() if (TOP / 'crates' / crate / 'src' / 'lib.rt').exists() and not is_of_tests(crate)]


def behind(text: str, start: int) -> int:
    """The place behind the bracket that closes the one at `start`."""
    depth = 0
    for bracket in re.finditer(r'[{}]', text[start:]):
        depth += 1 if bracket[0] == '{' else -1
        if depth == 0:
            return start + bracket.end()
    raise ValueError(f'no bracket closes {text[start:start + 40]}')


def signed_up_to(text: str, start: int) -> int:
    """Where the signature of a function ends that begins at `start`."""
    depth = 0
    for found in BODY.finditer(text, start):
        depth += (found[0] in '([') - (found[0] in ')]')
        if depth == 0 and found[0] not in ')]':
            return found.start()
    return len(text)


@dataclasses.dataclass
class Clause:
    """What a function requires or ensures. One that is alone may have no name."""

    kind: str
    name: str
    text: str


@dataclasses.dataclass
class Function:
    """A function, and the type or the trait that it belongs to."""

    owner: str
    name: str
    is_public: bool
    signature: str
    clauses: list[Clause]
    is_test: bool
    body: str


@dataclasses.dataclass
class Type:
    """A type or a trait: the text that says what a value of it is, which is that of its Model where it has one."""

    name: str
    is_trait: bool
    text: str
    model: str = ''


class Module:
    """A file of a crate's sources."""

    def __init__(self, crate: str, path: str, text: str) -> None:
        self.crate, self.path = crate, path
        # without comments and the content of strings, of which spaces stand in the place
        self.text = STRINGS.sub(lambda found: re.sub(r'[^\n]', ' ', found[0]), text)
        self.whole = text
        self.functions: list[Function] = []
        self.types: dict[str, Type] = {}
        self.ghost_uses = re.findall(r'ghost (use [^;]+);', self.text)
        self.uses = dict(self.used(r'pub(?:\([\w ]+\))? |'))
        self.passed = dict(self.used('pub '))
        self.read(0, len(self.text), '', False)

    def used(self, visible: str) -> Iterator[tuple[str, list[str]]]:
        """The names that the file takes from elsewhere, with their paths, where its `use` is so visible."""
        for use in re.findall(rf'^\s*(?:{visible})use ([^;]+);', self.text, re.M):
            for path in spread(re.sub(r'\s+', ' ', use)):
                path, _, alias = path.partition(' as ')
                yield alias or path.split('::')[-1], path.split('::')

    def read(self, start: int, end: int, owner: str, is_open: bool) -> None:
        """The items of a part of the text: those of the type or trait `owner`, or of the file."""
        while head := HEAD.search(self.text, start, end):
            start = head.end()
            if head['kind'] == 'fn':
                start = self.read_function(head, owner, is_open)
                continue
            opening = re.compile(r'[{;(]').search(self.text, start)
            if not opening:
                return
            said = re.sub(r'<[^<>]*>', '', re.sub(r'<[^<>]*>', '', self.text[start:opening.start()]))
            name = re.search(r'^(?:.*\bfor\s+)?\W*(?:\w+::)*(\w+)', said.strip(), re.S)
            closed = behind(self.text, opening.start()) if opening[0] == '{' else self.text.index(';', opening.start()) + 1
            if name and head['kind'] == 'impl':
                self.read_impl(said, name[1], opening.start() + 1, closed)
            elif name:
                self.read_type(head, name[1], opening.start(), closed)
            start = closed

    def read_impl(self, said: str, name: str, start: int, end: int) -> None:
        if re.match(r'\s*Model for', said) and (value := re.compile(r'ghost Value = \{').search(self.text, start, end)):
            self.types.setdefault(name, Type(name, False, '')).model = self.text[value.start():behind(self.text, value.end() - 1)]
        self.read(start, end, name, ' for ' in said)

    def read_type(self, head: re.Match[str], name: str, start: int, end: int) -> None:
        is_trait = head['kind'] == 'trait'
        self.types.setdefault(name, Type(name, is_trait, '')).text = self.text[start:end]
        if is_trait:
            self.types[name].is_trait = True
            self.read(start + 1, end, name, head['visible'] == 'pub ')

    def read_function(self, head: re.Match[str], owner: str, is_open: bool) -> int:
        name = re.match(r'\s*(\w+)', self.text[head.end():])
        at = start = signed_up_to(self.text, head.end())
        if not name:
            return at
        clauses = []
        while clause := CLAUSE.match(self.text, at):
            at = behind(self.text, clause.end() - 1)
            clauses.append(Clause(clause['kind'], clause['name'], self.text[clause.end():at - 1]))
        opening = re.compile(r'\s*\{').match(self.text, at)
        end = behind(self.text, opening.end() - 1) if opening else at
        is_public = is_open or head['visible'] == 'pub '
        is_test = self.text[:head.start()].rstrip().endswith('#[test]')
        signature = self.text[head.end():start]
        self.functions.append(Function(owner, name[1], is_public, signature, clauses, is_test, self.whole[at:end]))
        return end


def spread(use: str) -> Iterator[str]:
    """The paths of a `use`, of which some share a front."""
    front, opening, rest = use.partition('{')
    if not opening:
        yield use.strip()
        return
    depth, part = 0, ''
    for letter in rest[:rest.rindex('}')] + ',':
        depth += (letter == '{') - (letter == '}')
        if letter == ',' and depth == 0:
            if part.strip():
                yield from (front.strip() + it for it in spread(part))
            part = ''
        else:
            part += letter


@functools.cache
def modules(crate: str) -> dict[str, Module]:
    """The modules of a crate, by their paths. That of lib.rt is empty."""
    source = TOP / 'crates' / crate / 'src'
    found = {}
    for path in sorted(source.rglob('*.rt')):
        parts = path.relative_to(source).with_suffix('').parts
        name = '' if parts == ('lib',) else '::'.join(parts)
        found[name] = Module(crate, name, path.read_text())
    return found


# ---- what names of the code stand for


def found_at(crate: str, module: str, name: str) -> tuple[Module, str] | None:
    """The module that has the type or the function that a name stands for in a module, and its name there."""
    here = modules(crate).get(module)
    if not here:
        return None
    if name in here.types or any(function.name == name and not function.owner for function in here.functions):
        return here, name
    path = here.uses.get(name)
    return at_path(crate, module, path) if path else None


def within(module: str, name: str) -> str:
    """The path of a module in a module."""
    return f'{module}::{name}' if module else name


def at_path(crate: str, module: str, path: list[str]) -> tuple[Module, str] | None:
    first, *rest = path
    if within(module, first) in modules(crate):
        rest = path
    elif first in ('crate', *below()):
        crate, module = crate if first == 'crate' else first, ''
    elif first == 'super':
        module = module.rpartition('::')[0]
    elif first != 'self':
        return None
    for part in rest[:-1]:
        module = within(module, part)
    return found_at(crate, module, rest[-1]) if rest else None


@functools.cache
def public(crate: str) -> frozenset[tuple[str, str]]:
    """The types and functions of the crate that its users can name, each with its module."""
    found: set[tuple[str, str]] = set()

    def add(path: str) -> None:
        module = modules(crate)[path]
        for name in module.passed:
            at = found_at(crate, path, name)
            if at and at[0].crate == crate:
                found.add((at[0].path, at[1]))
        for name in re.findall(r'^pub mod (\w+);', module.text, re.M):
            inner = within(path, name)
            found.update((inner, function.name) for function in modules(crate)[inner].functions if not function.owner)
            found.update((inner, it) for it in modules(crate)[inner].types)
            add(inner)

    add('')
    return frozenset(found)


def calls(crate: str) -> Iterator[tuple[Module, Function]]:
    """The public functions of a crate."""
    for path, module in modules(crate).items():
        for function in module.functions:
            if function.is_public and (path, function.owner or function.name) in public(crate):
                yield module, function
