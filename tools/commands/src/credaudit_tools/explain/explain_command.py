"""credaudit-explain: a report or a certificate in words, and as a drawing."""
import os
import sys
from collections.abc import Sequence

from ..command_line import command, schemas
from ..command_line.command import GOOD, Failure
from ..command_line.files import MOST, read_regular, write_new
from ..command_line.printable import quoted, shown
from ..evidence import evidence_text
from ..evidence.premises import SCAN
from ..formats import worlds
from . import explain
from .drawing import svg_of, text_of

NAME = "credaudit-explain"
SAYS = """Tells in words what credaudit wrote: FILE is a report, or a certificate, and without FILE, or with -, standard
input is. Each call of a run has a comment; of each row of bounds it is told what members may still hold; and a drawing
shows user namespaces with who stands in them."""
AFTER = """exit status:
  0  it is told
  2  the words are wrong
  3  it can't be told: no report and no certificate, or another world's; the reason is told"""


def data_of(name: str) -> bytes:
    """The bytes of the file, or of standard input."""
    if name != "-":
        return read_regular(name, follow=True)
    data = sys.stdin.buffer.read(MOST + 1)
    if len(data) > MOST:
        raise Failure(f"standard input has more than {MOST} bytes")
    return data


def put_svg(path: str, text: str) -> None:
    """Writes the drawing. Fails where the path names a folder."""
    folder, name = os.path.split(path)
    if os.path.isdir(path) or not name:
        raise Failure(f"{quoted(path)} is a folder", "name a file")
    write_new(folder or ".", name, text.encode("ascii"))


def is_scanned(path: str, text: bytes) -> bool:
    """Whether the evidence beside a world says that all files were looked for."""
    evidence = evidence_text.read_beside(path, text)
    return evidence is not None and SCAN in evidence.established


def main(given: Sequence[str]) -> int:
    """The whole command."""
    ask = command.parser(NAME, SAYS, AFTER)
    ask.add_argument("file", nargs="?", default="-", metavar="FILE", help="a report or a certificate")
    ask.add_argument("--world", metavar="WORLD", help="the world of the report: names, maps, files")
    ask.add_argument("--events", action="store_true", help="tell each call of the log too")
    ask.add_argument("--draw", action="store_true", help="draw in text")
    ask.add_argument("--svg", metavar="SVG", help="draw into this file, as SVG")
    ask.add_argument("--json", action="store_true", help="write JSON instead of words")
    asked = ask.parse_args(given)
    text = None if asked.world is None else read_regular(asked.world, follow=True)
    made = explain.explained(data_of(asked.file), None if text is None else worlds.read(text), asked.events)
    made.scanned = None if text is None else is_scanned(asked.world, text)
    box = explain.drawing(made)
    if asked.svg is not None:
        put_svg(asked.svg, svg_of(box))
    if asked.json:
        print(schemas.written(explain.document(made)))
        return GOOD
    for line in explain.lines(made):
        print(shown(line))
    if asked.draw:
        print("\n" + "\n".join(text_of(box)))
    return GOOD


def script() -> None:
    """The whole of the command."""
    command.run(NAME, main)
