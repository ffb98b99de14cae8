#!/usr/bin/env python3
"""Writes the table of docs/PREMISES.md, which is that of credaudit_tools/evidence/premises.py.

  premises_page.py            writes it anew
  premises_page.py --check    says by its status whether it is as it would be written
"""
import os
import sys
from collections.abc import Iterator, Sequence

import tools_path
from credaudit_tools.evidence.premises import TABLE, Premise

PAGE = os.path.join(tools_path.TOP, "docs", "PREMISES.md")
HEAD = "| Premise | What must be so | What establishes it | What takes it away | Rights |"
KINDS = {"uid": "user ids", "gid": "group ids", "cap": "capabilities"}


def rights(row: Premise) -> str:
    """Which rights a row touches, in words."""
    return "all" if set(row.kinds) == set(KINDS) else ", ".join(KINDS[kind] for kind in row.kinds)


def table() -> Iterator[str]:
    """The lines of the table."""
    yield HEAD
    yield "|---|---|---|---|---|"
    for row in TABLE:
        yield f"| `{row.name}` | {row.holds} | {row.by} | {row.lost} | {rights(row)} |"


def made(page: str) -> str:
    """The page with the table in the place of the one that stands there."""
    front, _, rest = page.partition(HEAD + "\n")
    after = rest.split("\n")
    while after and after[0].startswith("|"):
        after.pop(0)
    return front + "\n".join([*table(), *after])


def main(words: Sequence[str]) -> int:
    """The whole."""
    with open(PAGE, encoding="utf-8") as file:
        page = file.read()
    if words == ["--check"]:
        return int(made(page) != page)
    with open(PAGE, "w", encoding="utf-8") as file:
        file.write(made(page))
    return 0


if __name__ == "__main__":
    sys.exit(main(sys.argv[1:]))
