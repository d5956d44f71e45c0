"""What stands in specs/ of the crates: the definitions, and what each of them cites.

A name is cited where it stands alone or in front of a dot. What a binder, a field or a pattern names is a variable there, even where a
definition has the same name.
"""
import dataclasses
import functools
import re
from collections.abc import Iterator

import sources

TOP = sources.TOP
WORD = r'[^\s(){}\[\],;.:]+'
KEYWORDS = r'(?:abbrev|unfoldable|pub|axiom|record|data)'
SIGNED = re.compile(rf'(?:{KEYWORDS} )+(?P<name>[^\s:({{]+)\s*[:({{]|(?P<plain>\S+) :')
BLOCK = re.compile(r'(?:abbrev )?mutual$|module .* where$')
USE = re.compile(r'(?P<pub>pub )?use Rattle\.(?P<path>[\w.]+?)(?:\.\{(?P<items>[^}]*)\})?(?: as (?P<alias>\S+))?$')
BINDERS = [re.compile(r'λ ([^.]*)\.'), re.compile(rf'[({{]((?:{WORD} )+): '), re.compile(r'\blet (\S+) [:=]')]
LABEL = re.compile(rf'([{{;]\s*){WORD} =')


@dataclasses.dataclass(frozen=True)
class Definition:
    """A definition: its crate, its file below specs/ with dots for slashes, its name, and its text without comments."""

    crate: str
    file: str
    name: str
    text: str = dataclasses.field(compare=False, repr=False)

    @property
    def is_checked(self) -> bool:
        """Whether nobody has to believe it."""
        return self.file.startswith('checked.')

    @property
    def size(self) -> int:
        return len(self.text.splitlines())


@dataclasses.dataclass(frozen=True)
class Coded:
    """A type or a trait of the code."""

    crate: str
    module: str
    name: str


Target = Definition | Coded


class File:
    """A file of definitions."""

    def __init__(self, crate: str, name: str, text: str) -> None:
        self.crate, self.name = crate, name
        self.definitions: dict[str, Definition] = {}
        # which definition each constructor belongs to
        self.constructors: dict[str, str] = {}
        lines = [re.sub(r'(^|\s)--(\s.*)?$', '', line).rstrip() for line in text.splitlines()]
        lines = [line for line in lines if line]
        self.uses = [line for line in lines if re.match(r'(pub )?use ', line)]
        lines = [line for line in lines if not re.match(r'(pub )?(use|mod) ', line)]
        starts = list(self.starts(lines))
        for (start, found), (end, _) in zip(starts, [*starts[1:], (len(lines), '')]):
            self.definitions[found] = Definition(crate, name, found, '\n'.join(lines[start:end]))
            if re.match(r'(?:pub )?data ', lines[start]):
                self.constructors |= {it: found for line in lines[start + 1:end] for it in re.findall(rf'^ +({WORD}) :', line)}

    @staticmethod
    def starts(lines: list[str]) -> Iterator[tuple[int, str]]:
        """Where the definitions begin, with their names. A block of them begins with its first."""
        block, is_inside = None, False
        for at, line in enumerate(lines):
            if BLOCK.match(line) or line.startswith('infix'):
                block, is_inside = at, not line.startswith('infix')
            elif signed := SIGNED.match(line.removeprefix('  ') if is_inside else line):
                is_inside = is_inside and line.startswith(' ')
                yield at if block is None else block, (signed['name'] or signed['plain']).strip('◌')
                block = None


@functools.cache
def files(crate: str) -> dict[str, File]:
    """The files of a crate's specs, by their names."""
    specs = TOP / 'crates' / crate / 'specs'
    found = {}
    for path in sorted(specs.rglob('*.antt')):
        name = '.'.join(path.relative_to(specs).with_suffix('').parts)
        found[name] = File(crate, name, path.read_text())
    return found


# ---- what names stand for


def item_of(crate: str, file: str, name: str) -> Target | None:
    """What the name stands for, of what a file has or passes on."""
    found = files(crate).get(file)
    if not found:
        return None
    name = name.strip('◌')
    name = found.constructors.get(name, name)
    return found.definitions.get(name) or scope_of(tuple(use for use in found.uses if use.startswith('pub '))).get(name)


def place_of(path: str) -> tuple[str, str] | None:
    """The crate and the file that a path behind `Rattle.` stands for. Some crates pass on files of others."""
    crate, _, file = path.partition('.specs.')
    if file in files(crate):
        return crate, file
    for use in files(crate)['Lib'].uses if 'Lib' in files(crate) else []:
        passed = USE.match(use)
        if passed and passed['pub'] and passed['path'].endswith(f'.{file}'):
            return place_of(passed['path'])
    return None


def coded_of(path: str) -> Coded | None:
    """The type of the code that a path behind `Rattle.` stands for."""
    crate, _, rest = path.partition('.specs.declared.')
    parts = rest.removesuffix('.TheVariants').split('.')
    is_type = rest and parts[-1] != 'TheConstants' and crate in sources.below()
    return Coded(crate, '::'.join(parts[:-1]), parts[-1]) if is_type else None


@functools.cache
def scope_of(uses: tuple[str, ...]) -> dict[str, Target]:
    """What each name stands for that these lines import. A file that is imported as a whole has a dot between its name and theirs."""
    found: dict[str, Target] = {}
    for line in uses:
        use = USE.match(line.strip())
        if not use or use['path'].partition('.')[0] not in sources.below():
            continue
        coded, place = coded_of(use['path']), place_of(use['path'])
        if use['items'] is None:
            name = use['alias'] or use['path'].rpartition('.')[2]
            if coded:
                found[name] = coded
            elif place:
                found |= {f'{name}.{it}': target for it in files(place[0])[place[1]].definitions if (target := item_of(*place, it))}
            continue
        for item in use['items'].split(','):
            item, _, alias = item.strip().partition(' as ')
            target = coded or (item_of(*place, item) if place else None)
            if target:
                found[(alias or item).strip('◌')] = target
    return found


def cited(text: str, scope: dict[str, Target], bound: set[str]) -> set[Target]:
    """What a text cites, of what is in scope and is no variable."""
    text = LABEL.sub(r'\1=', text)
    bound = bound | {name for binder in BINDERS for found in binder.findall(text) for name in re.findall(WORD, found)}
    found = set()
    for chain in re.findall(rf'(?<![\w.\])}}])({WORD}(?:\.{WORD})*)', text):
        first, _, rest = chain.partition('.')
        of_file = f'{first}.{rest.partition(".")[0]}'
        if first not in bound and (target := scope.get(of_file) or scope.get(first)):
            found.add(target)
    return found


@functools.cache
def cited_by(definition: Definition) -> frozenset[Target]:
    """What a definition cites."""
    file = files(definition.crate)[definition.file]
    own = {name: item_of(file.crate, file.name, name) for name in [*file.definitions, *file.constructors]}
    scope = scope_of(tuple(file.uses)) | {name: target for name, target in own.items() if target}
    return frozenset(cited(definition.text, scope, set(variables(definition, scope))) - {definition})


def variables(definition: Definition, scope: dict[str, Target]) -> Iterator[str]:
    """What the patterns of a definition and its fields name, where a definition in scope has the same name."""
    lines = definition.text.splitlines()
    if re.match(r'(?:pub )?record ', lines[0]):
        yield from re.findall(rf'^ +(?:pub )?({WORD}) :', definition.text, re.M)
    for line in lines[1:]:
        head, equals, _ = line.partition(' =')
        names = re.findall(WORD, head)
        if equals and definition.name in names and ' : ' not in head:
            for name in names:
                target = scope.get(name)
                if isinstance(target, Definition) and target.name == name != definition.name:
                    yield name
