"""Why a text is no TOML, and what people mean by it."""
import re
import tomllib

from ..command_line.printable import quoted
from ..doubts.findings import WORLD, Finding
from ..formats.strace_lines import PID
from .log_faults import COMPRESSED, UNPACK

AT = re.compile(r" \(at line (\d+), column (\d+)\)$")
KEY = r"^\s*[A-Za-z0-9_\"'.-]+\s*"
# What a line looks like that TOML refuses, and what to write.
MEANT = (
    (KEY + r":\s", "TOML writes `key = value`"),
    (KEY + r"=\s*0[0-7]+\s*(#.*)?$", 'a number has no leading zero; a mode is a text: mode = "4755"'),
    (KEY + r"=\s*(True|False|TRUE|FALSE|yes|no|Yes|No|on|off)\s*(#.*)?$",
     "a boolean is true or false, in small letters"),
    (KEY + r"=\s*[-+]?[0-9]+[A-Za-z]", "a number has digits alone"),
    (r"^\s*([ug]id|owner|groups)\s*=\s*(\[[^\]]*)?[A-Za-z_]", "an id is a number; `id -u NAME` and `getent group NAME`"
     " tell it"),
    (KEY + r"=\s*\[\s*[0-9]+ +[0-9]", "a comma stands between two values: [24, 27]"),
    (KEY + r"=\s*(\[\s*)?[A-Za-z_/]", "a text stands between double quotes"),
    (r"[\u201c\u201d\u2018\u2019\u00ab\u00bb]", "plain quotes: \""),
    (r"^\s*(//|;|--)", "a remark begins with #"),
    (r"^\s*\{", "a world is TOML, and no JSON: `key = value`, a line each"),
    (r"^\s*\[\[?[^\]]*$", "the head of a row ends with ]]"),
    (r"^\s*\[\[[a-z]+\](\s|$)", "the head of a row ends with ]]"),
    (r"^\s*\[[a-z]+\]\]", "the head of a row begins with [["),
    (r'=\s*"[^"]*$', "the text has no closing quote"),
    (r"=\s*'[^']*$", "the text has no closing quote"),
    (r"=\s*$", "the value is missing"),
    (r"=.*;\s*$", "no semicolon at the end"),
    (r"=\s*\S+\s*,\s*$", "no comma at the end"),
    (KEY + r"$", "`= VALUE` is missing"),
)


def toml_fault(data: bytes) -> Finding:
    """The place and the reason."""
    try:
        text = data.removeprefix(b"\xef\xbb\xbf").decode("utf-8")
    except UnicodeDecodeError as error:
        return Finding(WORLD, data[:error.start].count(b"\n") + 1, "the text isn't UTF-8", encoding_hint(data))
    lines = text.split("\n")
    try:
        tomllib.loads(text)
    except tomllib.TOMLDecodeError as error:
        return refused(str(error), lines)
    except RecursionError:
        return Finding(WORLD, None, "arrays stand within one another more than 80 deep", "a world needs three")
    return too_large(lines)


def encoding_hint(data: bytes) -> str:
    """How to save bytes that are no UTF-8, or to unpack them."""
    if re.match(COMPRESSED, data):
        return "it is compressed: " + UNPACK[1]
    if data[:2] in (b"\xff\xfe", b"\xfe\xff"):
        return "it is UTF-16: save it as UTF-8"
    return "a byte that is no text, such as one of Latin-1: save it as UTF-8"


def refused(told: str, lines: list[str]) -> Finding:
    """The finding for what Python's TOML reader tells, with what was meant where it is known."""
    found = AT.search(told)
    number = int(found.group(1)) if found else len(lines)
    why = AT.sub("", told).removesuffix(" (at end of document)")
    line = lines[number - 1] if number <= len(lines) else ""
    if PID.match(lines[0].encode()) and "=" not in lines[0].split()[:2]:
        return Finding(WORLD, 1, "this looks like a log", "WORLD stands before LOG")
    if "Cannot overwrite" in why or "Cannot declare" in why or "Cannot mutate" in why:
        return Finding(WORLD, number, f"a key or a table stands twice: {quoted(line.strip())}",
                       "each key stands once in its row, and a new row begins with its head")
    for pattern, hint in MEANT:
        if re.search(pattern, line):
            return Finding(WORLD, number, f"{why}: {quoted(line.strip())}", hint)
    return Finding(WORLD, number, f"{why}: {quoted(line.strip())}",
                   "texts between quotes, closed brackets, a row a line")


def too_large(lines: list[str]) -> Finding:
    """A text that this reader takes and the program doesn't."""
    for number, line in enumerate(lines, 1):
        if re.search(r"[0-9_]{19,}", line) and '"' not in line:
            return Finding(WORLD, number, "a whole number has at most 64 bits",
                           "write it as a text where a text is asked for, such as a set of capabilities")
    return Finding(WORLD, None, "the program's reader of TOML refuses it", "docs/FORMATS.md, \"World\"")
