"""What the kernel reads of a text that it took as a map or as a setgroups word (user_namespaces(7); map_write and
proc_setgroups_write of its user_namespace.c): as plain lines, which every reader takes for the same.

The kernel parts numbers by whatever blanks there are, cuts them to 32 bits, and passes over leading zeros and what
follows a zero byte. A text that is plain already stays as it is.
"""
import re

BLANKS = b" \t\v\f\r\xa0"
PLAIN_LINE = re.compile(rb"[ \t]*(?:0|[1-9][0-9]*)(?:[ \t]+(?:0|[1-9][0-9]*)){2}[ \t]*")
PLAIN_WORD = re.compile(rb"(?:allow|deny)\n?")
WORD = re.compile(rb"(allow|deny)[ \t\n\v\f\r\xa0]*")
MOST = (1 << 32) - 1


def is_plain(text: bytes) -> bool:
    """Whether a text of a map is as a log's reader takes it (docs/STRACE.md)."""
    found = text.removesuffix(b"\n").split(b"\n")
    return text == b"" or all(PLAIN_LINE.fullmatch(line) and all(int(word) <= MOST for word in line.split())
                              for line in found)


def plain_map(text: bytes) -> bytes | None:
    """The lines of a map that the kernel took; None where it can't have."""
    if is_plain(text):
        return text
    found = []
    for line in text.removesuffix(b"\n").split(b"\n"):
        words = line.translate(bytes.maketrans(BLANKS, b" " * len(BLANKS))).split()
        if len(words) != 3 or not all(word.isdigit() for word in words):
            return None
        found.append(b" ".join(b"%d" % (int(word) & MOST) for word in words) + b"\n")
    return b"".join(found)


def plain_word(text: bytes) -> bytes | None:
    """The setgroups word that the kernel took; None where it can't have."""
    found = WORD.fullmatch(text)
    return text if PLAIN_WORD.fullmatch(text) else found.group(1) if found else None


def plain(name: bytes, text: bytes) -> bytes | None:
    """The text of a map file of this name that the kernel took, as far as it read it; None where it can't have taken
    it."""
    read = text.partition(b"\0")[0]
    return plain_word(read) if name == b"setgroups" else plain_map(read)
