#!/usr/bin/env python3
"""What a yes rests on: prints each definition that can be reached from the clauses of the top call, `run`.

  rests_on.py

A contract says no more than the definitions that it cites, and those that these cite in turn. For each: the file and
its lines, the name, and the sentence above it. Types of code that definitions speak of stand among them, and the traits
of the outside. At the end come the words of the kit's libraries that are used, by module: their statements are the
kit's.

docs/DEFINITIONS.md has the same without numbers of lines (tools/pages/definitions_page.py).

A name is followed where a definition's text has it, so a variable that is named as a definition counts as that
definition: the list may have a few too many, and leaves none out.
"""
import argparse
import os
import re
import sys
from collections.abc import Iterator
from dataclasses import dataclass, field

TOP = os.path.normpath(os.path.join(os.path.dirname(os.path.abspath(__file__)), "..", ".."))
ROOT = ("crates/cm_cli/src/commands.rt", "run")
OUTSIDE = (("crates/cm_io/src/shelf.rt", "Shelf"), ("crates/cm_io/src/sink.rt", "Sink"))

HEAD = re.compile(r"(?:abbrev |unfoldable |opaque )?(?:pub )?(?:(record|data) )?([^\s:(]+)\s*[:(]")
WORD = re.compile(r"[^\W\d][\w']*(?:\.[^\W\d][\w']*)*|◌[^\s(){},;]+◌")
USE = re.compile(r"^(pub )?use Rattle\.([\w.]+?)(?:\.\{([^}]*)\})?(?: as (\w+))?$")
NAMED = re.compile(r"pattern abbrev (?:pub )?(\w+) : (?:.* → )?(\w+)$")
CODE_ITEM = re.compile(r"^\s*pub(?:\([^)]*\))? (?:enum|struct|trait) (\w+)")


@dataclass(frozen=True, order=True)
class Place:
    """A definition: its file, from the top of the repository, and its name."""
    path: str
    name: str


@dataclass(frozen=True, order=True)
class KitWord:
    """A word of a library of the kit: the library's module and the name."""
    module: str
    name: str


Reached = Place | KitWord


@dataclass
class Definition:
    """A definition's lines, from 1, its text, and the sentence above it."""
    first: int
    last: int
    text: str
    sentence: str


@dataclass
class Module:
    """A file of definitions: what it defines, and what it takes from others."""
    path: str
    definitions: dict[str, Definition] = field(default_factory=dict)
    parts: dict[str, str] = field(default_factory=dict)             # a constructor, a name of values, a field: its type
    names: dict[str, tuple[str, str]] = field(default_factory=dict)  # a name here, and the module and name that it is
    modules: dict[str, str] = field(default_factory=dict)           # a name for a module, and its path


# ---- reading files


def lines_of(path: str) -> list[str]:
    """The lines of a file below the top of the repository."""
    with open(os.path.join(TOP, path), encoding="utf-8") as file:
        return file.read().splitlines()


def imported(module: Module, line: str) -> None:
    """Takes in a line that brings names, or a whole module, in."""
    match = USE.match(line)
    if not match:
        return
    _, path, names, other = match.groups()
    if names is None:
        module.modules[other or path.rsplit(".", 1)[-1]] = path
        return
    for word in names.split(","):
        name, _, renamed = word.strip().partition(" as ")
        module.names[renamed.strip() or name] = (path, name)


def sentence_above(lines: list[str], first: int) -> str:
    """The comment that stands right above the line of that place, as one text."""
    above: list[str] = []
    place = first - 1
    if lines[place].startswith("infix"):
        place -= 1
    while place >= 0 and lines[place].startswith("--") and not lines[place].startswith("-- ----"):
        above.insert(0, lines[place].lstrip("- ").strip())
        place -= 1
    return " ".join(above)


def is_head(line: str) -> bool:
    """A definition begins with this line: it has a word that says so, and no equation goes on in it."""
    begins = re.match(r"(abbrev|unfoldable|opaque|pub|record|data) ", line)
    return bool(begins) and not line.startswith(("pub use", "pub mod"))


def definitions_of(module: Module, lines: list[str]) -> None:
    """Fills in what the file's lines define."""
    heads = [place for place, line in enumerate(lines) if is_head(line)]
    for place, after in zip(heads, heads[1:] + [len(lines)]):
        match = HEAD.match(lines[place])
        if not match:
            continue
        kind, name = match.groups()
        last = after - 1
        while last > place and (not lines[last].strip() or lines[last].startswith("--")):
            last -= 1
        body = [line for line in lines[place:last + 1] if not line.lstrip().startswith("--")]
        module.definitions[name] = Definition(place + 1, last + 1, "\n".join(body), sentence_above(lines, place))
        if kind:
            for line in body[1:]:
                part = re.match(r"\s+(?:pub )?(\w+)\s*:", line)
                if part:
                    module.parts.setdefault(part.group(1), name)
    module.parts.update((match[1], match[2]) for match in map(NAMED.match, lines) if match)


def modules_of_specs() -> dict[str, Module]:
    """Each file of definitions of the repository, by the path that imports give it."""
    found: dict[str, Module] = {}
    for crate in sorted(os.listdir(os.path.join(TOP, "crates"))):
        folder = f"crates/{crate}/specs"
        if not os.path.isdir(os.path.join(TOP, folder)):
            continue
        for name in sorted(os.listdir(os.path.join(TOP, folder))):
            if not name.endswith(".antt"):
                continue
            path = f"{folder}/{name}"
            lines = lines_of(path)
            module = Module(path)
            for line in lines:
                imported(module, line)
            definitions_of(module, lines)
            found[f"{crate}.specs.{name[:-len('.antt')]}"] = module
    return found


# ---- from a word to what it names


def code_type(path: str, name: str) -> Place | None:
    """The type of code behind a path such as cm_base.specs.declared.status.Status."""
    crate, _, rest = path.partition(".specs.declared.")
    parts = [part for part in rest.split(".") if part != "TheVariants"]
    if name not in parts and len(parts) > 1:
        name = parts[-1]
    for depth in range(len(parts), 0, -1):
        file = f"crates/{crate}/src/{'/'.join(parts[:depth])}.rt"
        if os.path.exists(os.path.join(TOP, file)):
            return Place(file, name)
    file = f"crates/{crate}/src/lib.rt"
    return Place(file, name) if os.path.exists(os.path.join(TOP, file)) else None


def found_in(specs: dict[str, Module], path: str, name: str, seen: frozenset[str] = frozenset()) -> Reached | None:
    """What a name of the module of that path is; through modules that only show it again."""
    if ".specs.declared." in path:
        return code_type(path, name)
    module = specs.get(path)
    if module is None:
        return None if path.split(".")[0] in {key.split(".")[0] for key in specs} else KitWord(path, name)
    if name in module.definitions:
        return Place(module.path, name)
    if name in module.parts:
        return Place(module.path, module.parts[name])
    if name in module.names and path not in seen:
        other, there = module.names[name]
        return found_in(specs, other, there, seen | {path})
    return None


def resolved(specs: dict[str, Module], module: Module, word: str) -> Reached | None:
    """What a word in a module's text names, if it names a definition."""
    if word in module.definitions:
        return Place(module.path, word)
    if word in module.names:
        path, name = module.names[word]
        return found_in(specs, path, name)
    if word in module.parts:
        return Place(module.path, module.parts[word])
    front, _, rest = word.partition(".")
    if rest and front in module.modules:
        return found_in(specs, module.modules[front], rest.split(".")[0])
    if rest and front in module.names:
        path, name = module.names[front]
        return found_in(specs, path, name)
    if rest and front in module.definitions:
        return Place(module.path, front)
    return None


def words_of(text: str) -> Iterator[str]:
    """The words of a text that may name definitions: not what stands in quotes, nor a field behind a dot."""
    for match in WORD.finditer(re.sub(r'"[^"]*"', '""', text)):
        if match.start() and text[match.start() - 1] == ".":
            continue
        yield match.group()


# ---- the clauses of the top call


def root_module(specs: dict[str, Module]) -> tuple[Module, str]:
    """The clauses of the top call, with the names that their file brings in."""
    path, name = ROOT
    lines = lines_of(path)
    module = Module(path)
    for line in lines:
        if line.startswith("ghost use "):
            imported(module, line[len("ghost "):].rstrip(";"))
    first = next(place for place, line in enumerate(lines) if line.startswith(f"pub fn {name}<"))
    last = next(place for place in range(first, len(lines)) if lines[place].startswith("{"))
    return module, "\n".join(line for line in lines[first:last] if not line.strip().startswith("//"))


def code_definition(place: Place) -> Definition | None:
    """A type or a trait of code: from its line to the closing brace, and its docstring."""
    lines = lines_of(place.path)
    for first, line in enumerate(lines):
        match = CODE_ITEM.match(line)
        if match and match.group(1) == place.name:
            last = first
            while last + 1 < len(lines) and not lines[last].startswith("}") and not lines[last].endswith(");"):
                last += 1
            told: list[str] = []
            above = first - 1
            while above >= 0 and lines[above].lstrip().startswith(("///", "#[")):
                if lines[above].lstrip().startswith("///"):
                    told.insert(0, lines[above].lstrip().lstrip("/").strip())
                above -= 1
            return Definition(first + 1, last + 1, "\n".join(lines[first:last + 1]), " ".join(told))
    return None


def reached_from_root(specs: dict[str, Module]) -> set[Reached]:
    """All that can be reached from the clauses of the top call."""
    by_path = {module.path: module for module in specs.values()}
    root, clauses = root_module(specs)
    waiting: list[tuple[Module, str]] = [(root, clauses)]
    found: set[Reached] = {Place(path, name) for path, name in OUTSIDE}
    for path, name in OUTSIDE:
        trait = Module(path)
        for line in lines_of(path):
            if line.startswith("ghost use "):
                imported(trait, line[len("ghost "):].rstrip(";"))
        definition = code_definition(Place(path, name))
        if definition:
            waiting.append((trait, definition.text))
    while waiting:
        module, text = waiting.pop()
        for word in words_of(text):
            place = resolved(specs, module, word)
            if place is None or place in found:
                continue
            found.add(place)
            if isinstance(place, Place) and place.path in by_path:
                there = by_path[place.path]
                waiting.append((there, there.definitions[place.name].text))
    return found


# ---- printing


def definition_at(specs: dict[str, Module], place: Place) -> Definition | None:
    """The definition or the type of code at a place."""
    for module in specs.values():
        if module.path == place.path:
            return module.definitions.get(place.name)
    return code_definition(place)


def brief(sentence: str) -> str:
    """A comment's first sentence, which says what the definition is."""
    text = re.sub(r"\s+", " ", sentence).strip()
    match = re.match(r"(.+?[.:;])(?: |$)", text)
    return (match.group(1) if match else text).rstrip(".:;")


@dataclass(frozen=True)
class Row:
    """A row of the list: where, what, and in a sentence."""
    path: str
    first: int
    last: int
    name: str
    sentence: str


def rows() -> list[Row]:
    """The definitions and types that are reached, by file and line."""
    specs = modules_of_specs()
    told: list[Row] = []
    for place in reached_from_root(specs):
        if isinstance(place, Place):
            definition = definition_at(specs, place)
            if definition:
                told.append(Row(place.path, definition.first, definition.last, place.name, brief(definition.sentence)))
    return sorted(told, key=lambda row: (row.path, row.first))


def kit_words() -> dict[str, list[str]]:
    """The words of the kit's libraries that are used, by module."""
    found: dict[str, list[str]] = {}
    for place in reached_from_root(modules_of_specs()):
        if isinstance(place, KitWord):
            found.setdefault(place.module, []).append(place.name)
    return {module: sorted(names) for module, names in sorted(found.items())}


def main() -> int:
    """Prints the list."""
    argparse.ArgumentParser(description="prints what the clauses of the top call rest on").parse_args()
    listed = rows()
    for row in listed:
        print(f"{row.path}:{row.first}-{row.last}: {row.name}: {row.sentence}")
    for module, names in kit_words().items():
        print(f"{module} (kit): {', '.join(names)}")
    print(f"{len(listed)} definitions and types", file=sys.stderr)
    return 0


if __name__ == "__main__":
    sys.exit(main())
