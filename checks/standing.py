"""What a call stands on: the definitions that its clauses cite, and what these cite in turn.

Beside what a clause names, it is about values: of the parameters that it names, of the result, of `self`. Of a value's type it stands on
what says what a value of it is: the `Value` of its Model, or else the types of its fields. Of a trait that a type parameter has, it stands
on the ghost members and the clauses of the trait.
"""
import functools
import re
from collections.abc import Iterable, Iterator

import sources
from definition_files import Coded, Definition, Target, cited, cited_by, files, scope_of
from sources import Function, Module


def types_in(module: Module, text: str) -> set[Target]:
    """The types and traits of the repository that a text of a module names."""
    found: set[Target] = set()
    for name in set(re.findall(r'\b[A-Z]\w*', text)):
        at = sources.found_at(module.crate, module.path, name)
        if at and at[1] in at[0].types:
            found.add(Coded(at[0].crate, at[0].path, at[1]))
    return found


def split(text: str) -> Iterator[str]:
    """The parts between the commas that no bracket holds."""
    depth, part = 0, ''
    for before, letter in zip(' ' + text, text + ','):
        depth += (letter in '(<[') - (letter in ')]' or letter == '>' and before != '-')
        if letter == ',' and depth == 0:
            yield part.strip()
            part = ''
        else:
            part += letter


def cited_in(module: Module, text: str, bound: set[str]) -> set[Target]:
    """What a text of antt in a module cites. Variants stand behind the name that Rust has for their type."""
    return cited(text, scope_of(tuple(module.ghost_uses)), bound) | types_in(module, ' '.join(re.findall(r'\b[A-Z]\w*(?=\.[A-Z])', text)))


def stands_on(module: Module, function: Function, clauses: Iterable[str] | None = None) -> set[Target]:
    """What these clauses of a function, or all, cite, with what it requires."""
    texts = [it.text for it in function.clauses if clauses is None or it.kind == 'requires' or it.name in clauses]
    generics, _, rest = function.signature.partition('(')
    given, _, result = rest.rpartition(')')
    parameters = [(name.split()[-1], kind) for name, _, kind in (it.partition(':') for it in split(given)) if name]
    found: set[Target] = set()
    for text in texts:
        found |= cited_in(module, text, {name for name, _ in parameters})
        for name, kind in [*parameters, ('result', result)]:
            if re.search(rf'(?<![\w.]){name}\b', text):
                found |= types_in(module, function.owner if name.endswith('self') else kind)
        for parameter in split(generics.partition('<')[2].rpartition('>')[0]):
            name, _, bounds = parameter.partition(':')
            if re.search(rf'\b{name.strip()}\.', text):
                found |= types_in(module, bounds)
    return found


@functools.cache
def of_coded(coded: Coded) -> frozenset[Target]:
    """What says what a value of a type is, or what a type with this trait has."""
    module = sources.modules(coded.crate)[coded.module]
    found: set[Target] = set()
    kind = module.types[coded.name]
    if kind.is_trait:
        for member in re.finditer(r'ghost \w+:\s*\{', kind.text):
            found |= cited_in(module, kind.text[member.end():sources.behind(kind.text, member.end() - 1)], set())
        for function in module.functions:
            if function.owner == coded.name:
                found |= stands_on(module, function)
    elif kind.model:
        found |= cited_in(module, kind.model, set())
    else:
        found |= types_in(module, kind.text)
    return frozenset(found)


def all_of(targets: Iterable[Target]) -> set[Definition]:
    """The definitions among these and among what they stand on."""
    seen: set[Target] = set()
    left = list(targets)
    while left:
        target = left.pop()
        if target not in seen:
            seen.add(target)
            left += cited_by(target) if isinstance(target, Definition) else of_coded(target)
    return {target for target in seen if isinstance(target, Definition)}


@functools.cache
def order(crate: str) -> tuple[str, ...]:
    """The files of a crate's specs, each after those that it cites."""
    found: list[str] = []
    begun: set[str] = set()

    def add(file: str) -> None:
        if file in begun:
            return
        begun.add(file)
        for definition in files(crate)[file].definitions.values():
            for target in cited_by(definition):
                if isinstance(target, Definition) and target.crate == crate:
                    add(target.file)
        found.append(file)

    for file in files(crate):
        add(file)
    return tuple(found)


def in_order(definitions: Iterable[Definition]) -> list[Definition]:
    """These definitions, each after those that it cites."""
    crates = list(sources.below())

    def place(definition: Definition) -> tuple[int, int, int]:
        names = list(files(definition.crate)[definition.file].definitions)
        return crates.index(definition.crate), order(definition.crate).index(definition.file), names.index(definition.name)

    return sorted(definitions, key=place)
