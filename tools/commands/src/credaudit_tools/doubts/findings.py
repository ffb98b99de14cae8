"""What a lint tells: where, what, and what to do."""
from dataclasses import dataclass

WORLD, LOG, RECORDING = "world", "log", "recording"


@dataclass(frozen=True)
class Finding:
    """Something found in a file, on a line where it has one. `refused` says that the program refuses it; all else is a
    doubt about what the program accepts, or, with `note`, what is to be known of it and needn't be odd. `scan` says
    that it is the scan that lacks."""
    file: str
    line: int | None
    why: str
    hint: str = ""
    key: str | None = None
    refused: bool = True
    note: bool = False
    scan: bool = False


def doubt(file: str, line: int | None, why: str, hint: str = "") -> Finding:
    """A finding about something that the program accepts."""
    return Finding(file, line, why, hint, refused=False)


def note(file: str, line: int | None, why: str, hint: str = "", scan: bool = False) -> Finding:
    """What is to be known of something that the program accepts."""
    return Finding(file, line, why, hint, refused=False, note=True, scan=scan)
