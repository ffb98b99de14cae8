"""What is wrong with a world that the program refuses: the key, its line, and what to write there.

The program says which row has which fault (`bad world TABLE ROW: WORD`, docs/FORMATS.md). This looks for the key to
which that word applies; it judges no world by itself.
"""
import difflib
import re
import tomllib
from collections.abc import Iterator
from dataclasses import dataclass, field
from typing import Any

from ..command_line.printable import quoted
from ..doubts.findings import WORLD, Finding
from ..formats.toml_places import WHOLE, Places, places
from .hints import included_hint
from .toml_faults import toml_fault
from .value_faults import KINDS, Bad
from .world_keys import KEYS, MEANT, REQUIRED, TABLES

BAD_WORLD = re.compile(r"bad world (\w+) (\d+): (\w+)")
Row = dict[str, Any]


@dataclass
class Context:
    """A world's table, and the row that is looked at."""
    world: Row
    table: str
    number: int
    text: list[str] = field(default_factory=list)
    places: Places = field(default_factory=Places)

    def row(self) -> Row:
        """The row that the program named, empty where it is no table."""
        if self.table == WHOLE:
            return self.world
        if self.table == "filter":
            return as_row(self.world.get("filter"))
        rows = self.world.get(self.table)
        return as_row(rows[self.number - 1]) if isinstance(rows, list) and self.number <= len(rows) else {}

    def earlier(self, table: str, key: str) -> list[Any]:
        """The values of a key in the rows before this one; in all rows of another table."""
        rows = self.world.get(table)
        kept = rows if isinstance(rows, list) else []
        return [row.get(key) for row in (kept[:self.number - 1] if table == self.table else kept)
                if isinstance(row, dict)]

    def source(self, key: str) -> str:
        """The line on which a key stands."""
        line = self.places.line(self.table, self.number, key)
        return self.text[line - 1] if line is not None and line <= len(self.text) else ""


def as_row(value: object) -> Row:
    """A value as a row, empty where it is no table."""
    return value if isinstance(value, dict) else {}


def key_hint(table: str, key: str) -> str:
    """What may be meant by a key that the table doesn't have."""
    meant = MEANT.get(table, {}).get(key)
    if meant is not None:
        return f"write {meant}"
    near = difflib.get_close_matches(key.lower(), KEYS[table], 1, 0.7)
    return f"{near[0]}?" if near else f"the keys of {table} are: {', '.join(KEYS[table])}"


def unknown_bad(context: Context, row: Row) -> Iterator[tuple[str, Bad]]:
    """The keys that the table doesn't have."""
    for key in row:
        if key in KEYS[context.table]:
            continue
        hint = key_hint(context.table, key)
        if key == "log" and context.table != WHOLE:
            hint = "log stands at the front, before the first row"
        elif context.table == WHOLE and key in KEYS["process"]:
            hint = "the head of its row, such as [[process]], is missing before it"
        yield key, ("UnknownKey", f"{quoted(key)} is no key of {where(context.table)}", hint)


def where(table: str) -> str:
    """A table, as a message names it."""
    return "the world" if table == WHOLE else f"[{table}]" if table == "filter" else f"[[{table}]]"


def missing_bad(context: Context, row: Row) -> Iterator[tuple[str, Bad]]:
    """The keys that are missing."""
    for key in REQUIRED[context.table]:
        if key not in row:
            yield key, ("MissingKey", f"{key} is missing", missing_hint(context, key))
    for one, other in (("uid_map", "gid_map"), ("gid_map", "uid_map")):
        if context.table == "mount" and one in row and other not in row:
            yield other, ("MissingKey", f"{other} is missing", f"an idmapped mount has both maps: {other} beside {one}")


def missing_hint(context: Context, key: str) -> str:
    """What to write for a key that is missing."""
    below = [table for table in (*TABLES, "filter") for row in rows_of(context.world, table) if key in row]
    if key == "log" and below:
        return f"it stands below [[{below[0]}]], and so belongs to that row: move it to the front"
    hints = {"log": 'log = "strace" for what strace wrote, else log = "script", at the front',
             "parent": 'parent = "init" for one right below the initial namespace',
             "owner": "owner = the user id of its creator", "mode": 'mode = "0755"',
             "pid": "pid = the number that the log has"}
    return hints.get(key, f"add {key}")


def rows_of(world: Row, table: str) -> list[Row]:
    """The rows of a table."""
    value = world.get(table, [])
    return [as_row(each) for each in (value if isinstance(value, list) else [value])]


def reference_bad(context: Context, row: Row) -> Iterator[tuple[str, Bad]]:
    """Names and numbers that have to stand in other rows."""
    table = context.table
    spaces = ["init", *context.earlier("space", "name")]
    if "parent" in row and table in ("space", "process"):
        earlier = spaces if table == "space" else context.earlier("process", "pid")
        if row["parent"] not in earlier:
            later = row["parent"] in [each.get("name" if table == "space" else "pid")
                                      for each in rows_of(context.world, table)]
            yield "parent", ("NoSuchParent", f"no earlier row is {quoted(str(row['parent']))}",
                             "put the parent's row before this one" if later
                             else "declare it before this row, or leave parent out"
                             if table == "process" else 'declare it before this row, or parent = "init"')
    if "space" in row and row["space"] not in spaces:
        yield "space", ("NoSuchSpace", f"no [[space]] is called {quoted(str(row['space']))}", declared(spaces, "space"))
    mounts = ["root", *context.earlier("mount", "name")]
    if "mount" in row and row["mount"] not in mounts:
        yield "mount", ("NoSuchMount", f"no [[mount]] is called {quoted(str(row['mount']))}", declared(mounts, "mount"))
    if "interpreter" in row:
        yield from interpreter_bad(context, row)


def declared(names: list[Any], table: str) -> str:
    """Which names are declared."""
    return f"declared are: {', '.join(map(str, names))}; or add a [[{table}]]"


def interpreter_bad(context: Context, row: Row) -> Iterator[tuple[str, Bad]]:
    """What is wrong with the interpreter of a script."""
    before = [each for each in rows_of(context.world, "file")[:context.number - 1]
              if each.get("path") == row["interpreter"]]
    if not before:
        yield "interpreter", ("NoInterpreter", f"no earlier row has the path {quoted(str(row['interpreter']))}",
                              "declare the interpreter, by its path without arguments, before the script")
    elif "interpreter" in before[0]:
        yield "interpreter", ("NoInterpreter", "that row is a script itself", "name the program that runs in the end")


def twice_bad(context: Context, row: Row) -> Iterator[tuple[str, Bad]]:
    """What an earlier row has too."""
    key = {"space": "name", "mount": "name", "file": "path", "process": "pid"}.get(context.table)
    if key is None or key not in row:
        return
    if context.table == "mount" and row[key] == "root":
        yield key, ("TwiceNamed", "the mount root always stands",
                    "choose another name, or leave `mount` of its files out")
    elif row[key] in context.earlier(context.table, key):
        yield key, ("TwiceNamed", f"an earlier row has the same {key}", "let each stand once")


def others_bad(context: Context, row: Row) -> Iterator[tuple[str, Bad]]:
    """What a row as a whole can have wrong."""
    declared_set = next((key for key in ("ambient", "effective", "permitted", "uid") if key in row), "effective")
    yield declared_set, ("NotIncluded", "the sets aren't within one another", included_hint(row))
    yield from (("uid_map" if key == "uid_map" else "gid_map",
                 ("NotMapped", f"a range of {key} lies in no range of the parent's map",
                  "the outside numbers are ids as the parent has them; give the parent a map, or cut the range"))
                for key in ("uid_map", "gid_map") if context.table == "space" and key in row)
    yield "parent", ("TooDeep", "it would have level 33", "at most 32 namespaces within one another")


def all_bad(context: Context) -> Iterator[tuple[str, Bad]]:
    """All that is wrong with the row, by key."""
    row = context.row()
    yield from unknown_bad(context, row)
    yield from missing_bad(context, row)
    for key, kind in KEYS[context.table].items():
        if key in row:
            yield from ((key, bad) for bad in KINDS[kind](key, row[key]))
    yield from twice_bad(context, row)
    yield from reference_bad(context, row)
    yield from others_bad(context, row)


def faults(told: str, data: bytes) -> list[Finding]:
    """The keys to which the program's refusal applies. Where none is found, its row."""
    found = BAD_WORLD.fullmatch(told)
    if found is None:
        return []
    table, number, word = found.group(1), int(found.group(2)), found.group(3)
    if word == "Toml":
        return [toml_fault(data)]
    text = data.decode("utf-8", "replace").removeprefix("\ufeff")
    where_it_is = places(text)
    try:
        world = tomllib.loads(text)
    except (tomllib.TOMLDecodeError, RecursionError):
        return [Finding(WORLD, where_it_is.line(table, number), f"row {number} of {table}: {word}",
                        "docs/FORMATS.md tells the rule")]
    context = Context(world, table, number, text.split("\n"), where_it_is)
    return applying(context, word)


def applying(context: Context, word: str) -> list[Finding]:
    """The findings to which the program's word applies; one of the row alone where none is known."""
    made = [Finding(WORLD, context.places.line(context.table, context.number, key), why, hint, key)
            for key, (told, why, hint) in all_bad(context) if told == word]
    if word == "WrongType" and not made and context.table != WHOLE and not context.row():
        made = [Finding(WORLD, context.places.line(WHOLE, 0, context.table), f"a row of {context.table} is no table",
                        f"each row begins with [[{context.table}]]")]
    return made or [Finding(WORLD, context.places.line(context.table, context.number),
                            f"row {context.number} of {context.table}: {word}", "docs/FORMATS.md tells the rule")]
