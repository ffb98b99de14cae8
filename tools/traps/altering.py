"""Changes of a recording, or of a scan, after it was made: each would turn a doubt, or a right that can be had, into a
right that is gone. They are accidents, as a line that is lost."""
import os
import re

DOUBTS = re.compile(r"^\[\[doubt\]\]\n(?:.+\n)*\n?", re.MULTILINE)
FILE = re.compile(r"^\[\[file\]\]\n(?:.+\n)*\n?", re.MULTILINE)
FILTER = '\n[filter]\nexclude = ["setuid", "setreuid", "setresuid", "setgid", "setregid", "setresgid"]\n'


def changed(path: str, take: re.Pattern[str] | None = None, add: str = "") -> None:
    """Takes what fits out of a file, and adds to it. Fails where nothing changes."""
    with open(path, encoding="utf-8") as file:
        text = file.read()
    other = (take.sub("", text) if take else text) + add
    if other == text:
        raise SystemExit(f"{path}: nothing to alter")
    with open(path, "w", encoding="utf-8") as file:
        file.write(other)


def alter(kind: str, recording: str, scan: str) -> None:
    """Makes one of the changes: `doubts` of the recording are taken out, `world` declares a filter that nobody has,
    `scan` loses its programs."""
    if kind == "doubts":
        changed(os.path.join(recording, "recording.toml"), DOUBTS)
    elif kind == "world":
        changed(os.path.join(recording, "world.toml"), add=FILTER)
    else:
        changed(scan, FILE)
