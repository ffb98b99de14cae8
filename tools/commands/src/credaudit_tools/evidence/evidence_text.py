"""Evidence as keys of TOML, in recording.toml and in the file beside a captured world:

  [established]   for each premise that was established what did it
  [seen]          what is compared with other evidence: times, mount namespaces (scan_fits.py); may be missing
  [[doubt]]       a doubt: its premise, and why
  [sums]          the SHA-256 sums of the files that it goes with; its last line is the sum of all lines above

The sums notice accidents. Who alters a file on purpose can work them out anew.
"""
import os
from collections.abc import Mapping
from typing import Any

from ..command_line.command import Failure
from ..command_line.files import read_regular
from ..formats import worlds
from .evidence import Evidence
from .premises import RECORDING

SUMS = "sums"


def sum_of(data: bytes) -> str:
    """The SHA-256 sum."""
    import hashlib          # once there is something to be written or read
    return hashlib.sha256(data).hexdigest()


def pair(key: str, told: str) -> str:
    """A line of TOML."""
    return f"{worlds.text(key)} = {worlds.text(told)}"


def evidence_lines(evidence: Evidence) -> list[str]:
    """What is established, what was seen, and the doubts."""
    lines = ["", "[established]", *(pair(premise, by) for premise, by in evidence.established.items())]
    if evidence.seen:
        lines += ["", "[seen]", *(pair(key, told) for key, told in evidence.seen.items())]
    for each in evidence.doubts:
        lines += ["", "[[doubt]]", f"premise = {worlds.text(each.premise)}", f"why = {worlds.text(each.why)}"]
    return lines


def sealed(lines: list[str], name: str, sums: Mapping[str, str]) -> bytes:
    """A text with the sums of the files beside it, and as its last line that of itself."""
    above = "".join(line + "\n" for line in [*lines, "", f"[{SUMS}]", *(pair(*each) for each in sums.items())])
    return (above + pair(name, sum_of(above.encode())) + "\n").encode()


def is_whole(data: bytes, name: str) -> bool:
    """Whether the last line of a text is the sum of the lines above."""
    above, _, last = data.removesuffix(b"\n").rpartition(b"\n")
    return last.decode("ascii", "replace") == pair(name, sum_of(above + b"\n"))


def evidence_of(table: Mapping[str, Any]) -> Evidence:
    """The evidence of a table. KeyError or TypeError where it has none, or names a premise that isn't known."""
    found = Evidence()
    for premise, by in table["established"].items():
        found.establish(premise, str(by))
    for key, told in table.get("seen", {}).items():
        found.seen[key] = str(told)
    for each in table.get("doubt", []):
        found.doubt(each["premise"], str(each["why"]))
    return found


# ---- beside a world --------------------------------------------------------------------------------------------------


def beside(path: str) -> str:
    """Where the evidence of a captured world is."""
    return path + ".evidence"


def of_world(data: bytes, world: bytes, path: str) -> Evidence:
    """The evidence of a captured world by the bytes of both. Fails where it isn't as it was written, or the world
    isn't."""
    import tomllib          # a recording reads none
    try:
        table = tomllib.loads(data.decode())
        found, sums = evidence_of(table), {str(each) for each in table[SUMS].values()}
    except (KeyError, ValueError, TypeError, AttributeError) as error:
        raise Failure(f"{path} can't be read: {error}") from error
    whole = is_whole(data, "evidence")
    if not whole or sum_of(world) not in sums:
        raise Failure(f"{path if not whole else 'the world beside ' + path} isn't as it was written: its sum differs",
                      "capture it anew")
    found.establish(RECORDING, "the sum beside the world fits it")
    return found


def world_text(evidence: Evidence, world: bytes) -> bytes:
    """The text of the file beside a captured world."""
    return sealed(["format = 1", *evidence_lines(evidence)], "evidence", {"world": sum_of(world)})


def read_beside(path: str, world: bytes) -> Evidence | None:
    """The evidence of a captured world; None where none stands beside it."""
    place = beside(path)
    return of_world(read_regular(place, follow=True), world, place) if os.path.exists(place) else None
