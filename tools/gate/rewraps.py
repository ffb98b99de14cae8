#!/usr/bin/env python3
"""Lists where code hands a result on by hand, in place of `?` or the plain call.

  rewraps.py [FOLDER]

In FOLDER, or in this repository: each `let v = f()?;` that `Ok(v)` follows, and each arm `Err(why) => Err(why)`, with
or without `return`, whatever the names. Tests are passed. Of each the file, its line and the function are told.
"""
import glob
import os
import re
import sys
from collections.abc import Iterator
from dataclasses import dataclass

TOP = os.path.normpath(os.path.join(os.path.dirname(os.path.abspath(__file__)), "..", ".."))
LET = re.compile(r"\blet (?:mut )?(\w+)(?:: [^=;]+)? =\s")
GIVEN = re.compile(r"\s*(?:return )?Ok\((\w+)\)")
ARM = re.compile(r"\bErr\(([\w:]+)\) => (?:return )?Err\(\1\)")
FUNCTION = re.compile(r"\bfn (\w+)")
UNREAD = re.compile(r"""//[^\n]*|"(?:\\.|[^"\\])*"|'(?:\\.|[^'\\])'""", re.DOTALL)
TESTS = re.compile(r"(^|/)tests?(/.*)?\.rt$")


@dataclass(frozen=True)
class Rewrap:
    """A place in a file, whose path is one below crates/."""
    file: str
    line: int
    function: str

    @property
    def name(self) -> str:
        """The function behind its crate and file, as docs/DECISIONS.md names it."""
        crate, file = self.file.removesuffix(".rt").split("/src/")
        return "::".join([crate, *file.split("/"), self.function])


def code_of(text: str) -> str:
    """The text without remarks, texts and characters; its lines stay."""
    return UNREAD.sub(lambda unread: "\n" * unread[0].count("\n"), text)


def statement_end(code: str, begin: int) -> int:
    """Where the statement ends that goes on at `begin`: the semicolon that no bracket encloses."""
    depth = 0
    for at in range(begin, len(code)):
        depth += (code[at] in "([{") - (code[at] in ")]}")
        if depth < 0 or not depth and code[at] == ";":
            return at
    return len(code)


def places_in(code: str) -> Iterator[int]:
    """Where the places begin."""
    for let in LET.finditer(code):
        end = statement_end(code, let.end())
        given = GIVEN.match(code, end + 1)
        if code[end - 1:end + 1] == "?;" and given and given[1] == let[1]:
            yield let.start()
    yield from (arm.start() for arm in ARM.finditer(code))


def rewraps_in(file: str, text: str) -> list[Rewrap]:
    """The places in the text of a file."""
    code = code_of(text)
    return [Rewrap(file, code.count("\n", 0, begin) + 1, FUNCTION.findall(code, 0, begin)[-1])
            for begin in sorted(places_in(code))]


def rewraps(top: str = TOP) -> list[Rewrap]:
    """The places in the crates, by file and line."""
    crates, found = os.path.join(top, "crates"), list[Rewrap]()
    for path in sorted(glob.glob(os.path.join(crates, "*", "src", "**", "*.rt"), recursive=True)):
        if not TESTS.search(path):
            with open(path, encoding="utf-8") as file:
                found += rewraps_in(os.path.relpath(path, crates), file.read())
    return found


def main() -> None:
    """Writes them."""
    found = rewraps(sys.argv[1] if sys.argv[1:] else TOP)
    for place in found:
        print(f"crates/{place.file}:{place.line} {place.function}")
    print(f"{len(found)} in all")


if __name__ == "__main__":
    main()
