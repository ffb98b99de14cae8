#!/usr/bin/env python3
"""The drill beside plain Python: `credaudit drill N` must write the five lines that plain/drill.py works out, and
`credaudit replay`, of the drill's world and of its events as a log, must show these events and end with `end N`.

  drill_witness.py PROGRAM [N ..]     asks PROGRAM of each N: as many as are named, else 0 to 300 and three larger ones

What differs is told, then how many did. Status 1: one differs.
"""
import re
import subprocess
import sys
import tempfile
from pathlib import Path

import tools_path  # noqa: F401
from plain.drill import WORLD, drill

LARGER = (1000, 4096, 20000)


def ran(*words: str) -> tuple[int, bytes]:
    """The status of a command, and what it writes."""
    done = subprocess.run(words, stdout=subprocess.PIPE, check=False)
    return done.returncode, done.stdout


def differs(program: str, count: int, folder: Path) -> str | None:
    """What the program says otherwise of the drill of so many events; None where nothing."""
    made = drill(count)
    wanted = "".join(line + "\n" for line in made.report())
    status, text = ran(program, "drill", str(count))
    if (status, text) != (0, wanted.encode()):
        return f"drill {count}: status {status}\n{text.decode('latin-1')}and not\n{wanted}"
    world, log = folder / "world", folder / "log"
    world.write_bytes(WORLD)
    log.write_bytes(made.log())
    status, text = ran(program, "replay", str(world), str(log))
    events = [line.split(b": ", 1)[1] for line in text.splitlines() if re.match(rb"\d+: ", line)]
    if status or events != made.log().splitlines() or not text.endswith(b"\nend %d\n" % count):
        return f"replay of the log of {count} events: status {status}, {text[-200:].decode('latin-1')}"
    return None


def main() -> None:
    """Compares all that is asked for."""
    program, *numbers = sys.argv[1:] or [""]
    if not program or program.startswith("-") or not all(number.isdigit() for number in numbers):
        sys.exit(__doc__)
    counts = [int(number) for number in numbers] or [*range(301), *LARGER]
    with tempfile.TemporaryDirectory() as folder:
        told = [differs(program, count, Path(folder)) for count in counts]
    wrong = [one for one in told if one is not None]
    print(*wrong, f"{len(counts)} drills, {len(wrong)} differ", sep="\n")
    sys.exit(1 if wrong else 0)


if __name__ == "__main__":
    main()
