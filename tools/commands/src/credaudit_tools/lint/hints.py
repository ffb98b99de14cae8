"""What people paste into worlds where a world wants another spelling, and how it is written there.

Each function gives a hint, or None where the text is none that it knows.
"""
import re

from ..formats.kernel_names import NUMBERS, capability_names

LETTERS = {"e": 1, "p": 2, "i": 4}
GETCAP = re.compile(r"(?:\S+\s+(?:= ?)?)?((?:[a-z_0-9,]+|)[=+][eip]+(?: +(?:[a-z_0-9,]+|)[=+-][eip]+)*)$", re.I)
LS = re.compile(r"[-dlbcps]?([-r][-w][-xsS])([-r][-w][-xsS])([-r][-w][-xtT])[.+@]?$")
CLAUSE = re.compile(r"([^=+-]*)([=+-])([eip]*)", re.I)
EFFECTIVE = 1


def attribute(permitted: int, inheritable: int, effective: bool) -> str:
    """The attribute of version 2 with these sets, in hexadecimal digits (linux/capability.h)."""
    words = [0x02000000 | (EFFECTIVE if effective else 0), permitted & 0xffffffff, inheritable & 0xffffffff,
             permitted >> 32, inheritable >> 32]
    return b"".join(word.to_bytes(4, "little") for word in words).hex()


def getcap_sets(text: str) -> tuple[int, int, bool] | None:
    """Permitted, inheritable, effective of a text as getcap(8) writes it (cap_from_text(3)), with or without its
    path."""
    found = GETCAP.fullmatch(text.strip())
    if found is None:
        return None
    sets = {"e": 0, "p": 0, "i": 0}
    for clause in found.group(1).split():
        parts = CLAUSE.fullmatch(clause)
        if parts is None:
            return None
        names, sign, flags = parts.groups()
        bits = 0
        for name in names.upper().split(",") if names and names.lower() != "all" else NUMBERS:
            if name not in NUMBERS:
                return None
            bits |= 1 << NUMBERS[name]
        for flag in sets:
            if sign == "=":
                sets[flag] &= ~bits
            if flag in flags.lower():
                sets[flag] = sets[flag] & ~bits if sign == "-" else sets[flag] | bits
    return sets["p"], sets["i"], bool(sets["e"])


def attribute_hint(text: str) -> str | None:
    """For `caps` of a file."""
    plain = text.strip()
    if re.fullmatch("0x[0-9a-fA-F]+", plain):
        return f'leave out 0x: caps = "{plain[2:]}"'
    if plain.startswith("0s"):
        return base64_hint(plain[2:])
    if re.fullmatch(r"(?:security\.capability=)(0x)?[0-9a-fA-F]+", plain):
        return f'the digits alone: caps = "{re.sub("^.*=(0x)?", "", plain)}"'
    if re.fullmatch("[0-9a-fA-F :]+", plain) and re.search("[ :]", plain):
        return f'leave out what parts the digits: caps = "{re.sub("[ :]", "", plain)}"'
    sets = getcap_sets(plain)
    if sets is not None:
        return f"that is getcap's text; the attribute's bytes are wanted: caps = \"{attribute(*sets)}\""
    if re.fullmatch("[0-9a-fA-F]+", plain):
        return f"{len(plain)} digits: an attribute has 40 (version 2) or 48 (version 3)"
    return "take what `getfattr -n security.capability -e hex FILE` shows behind 0x"


def base64_hint(text: str) -> str:
    """Of what stands behind 0s, where getfattr(1) writes base64: the hexadecimal digits."""
    import base64
    try:
        return f'that is base64; caps = "{base64.b64decode(text, validate=True).hex()}"'
    except ValueError:
        return "take what `getfattr -n security.capability -e hex FILE` shows behind 0x"


def set_hint(text: str) -> str:
    """For a set of a process."""
    plain = text.strip()
    if plain == "":
        return 'the empty set is "none"'
    digits = plain.removeprefix("0x").removeprefix("0X")
    if re.fullmatch("[0-9a-fA-F]{1,16}", digits) and (plain != digits or re.search("[0-9]", digits)):
        return f'16 hexadecimal digits without 0x: "{int(digits, 16):016x}"'
    sets = getcap_sets(plain)
    if sets is not None and re.search("[=+]", plain):
        return f'names alone: "{capability_names(sets[0])}"'
    names = [name.upper() for name in re.split(r"[\s,|+]+", plain) if name]
    full = ["CAP_" + name.removeprefix("CAP_") for name in names]
    if names in (["ALL"], ["FULL"], ["*"]):
        return 'all of them are "all"'
    if names in (["EMPTY"], ["0"]):
        return 'the empty set is "none"'
    unknown = [name for name in full if name not in NUMBERS]
    if unknown:
        return f"{unknown[0]} is no capability of capabilities(7) up to CAP_CHECKPOINT_RESTORE"
    return f'capital letters, CAP_ in front, commas without blanks: "{",".join(full)}"'


def mode_hint(text: str) -> str:
    """For `mode` of a file."""
    plain = text.strip()
    found = LS.fullmatch(plain)
    if found is not None:
        return f'octal digits: mode = "{ls_mode(found)}"'
    digits = re.fullmatch("(?:0o|0)?([0-7]{1,4})", plain)
    if digits is not None:
        return f'1 to 4 octal digits: mode = "{digits.group(1)}"'
    if re.fullmatch("[0-7]{5,6}", plain):
        return f'without the kind of the file: mode = "{plain[-4:]}"'
    if re.search("[89]", plain):
        return "octal digits go from 0 to 7"
    return "octal digits as `stat -c %a FILE` shows them, such as \"4755\""


def ls_mode(found: re.Match[str]) -> str:
    """The mode of what ls -l shows."""
    bits = 0
    for part, letters, special in zip((6, 3, 0), found.groups(), (0o4000, 0o2000, 0o1000)):
        own = (4 if letters[0] == "r" else 0) + (2 if letters[1] == "w" else 0) + (1 if letters[2] in "xst" else 0)
        bits |= own << part | (special if letters[2] in "sStT" else 0)
    return f"{bits:04o}"


def included_hint(row: dict[str, object]) -> str:
    """For sets that aren't within one another."""
    ids = row.get("uid", 0)
    root = ids == 0 or (isinstance(ids, list) and ids[1:2] == [0])
    if "effective" not in row and "permitted" in row and root:
        return "effective is still `all`, its default for the effective user id 0: declare it as well"
    if "permitted" not in row and "effective" in row:
        return "permitted is still `none`, its default for other effective user ids than 0: declare it as well"
    if "ambient" in row and "inheritable" not in row:
        return "what is ambient has to be inheritable too: declare inheritable"
    return "effective has to be within permitted, ambient within permitted and inheritable"
