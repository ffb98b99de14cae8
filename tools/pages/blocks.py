"""The blocks of a document: between lines of three backticks. In one that begins with `$ ` each such line is a command,
and what stands below it is what the command writes. Before another one a remark may stand that the page doesn't show,
`<!-- .. -->`: what holds the block, or why nothing does.
"""
import re
from typing import NamedTuple

BLOCK = re.compile(r"^(?:<!-- (?P<mark>[^\n]*) -->\n)?```\n(?P<text>.*?)^```$", re.MULTILINE | re.DOTALL)
PROMPT = "$ "
# The documents whose commands can be pasted, at the top of a checkout or in the folder of the installed documents; in
# this order, since later ones ask what earlier ones recorded.
PASTED = ("README.md", "docs/TUTORIAL.md", "docs/COOKBOOK.md", "docs/CHECKER.md", "docs/CERTIFICATE.md")
MANY_QUESTIONS = ("docs/COOKBOOK.md",)      # which take the program itself, and not its stored answers
# Words of progress, which a slow machine shows beside what is told.
PROGRESS = re.compile(r"^credaudit-[a-z]+: .*?\d+ (?:of \d+|lines of strace, \d+ kept)\n", re.MULTILINE)


class Block(NamedTuple):
    """A block: its text, and the remark before it."""

    text: str
    mark: str | None

    def commands(self) -> list[tuple[str, str]]:
        """The commands, each with what it writes; none in a block of another kind."""
        if not self.text.startswith(PROMPT):
            return []
        parts = re.split(r"^\$ ", self.text, flags=re.MULTILINE)[1:]
        return [(part.split("\n", 1)[0], part.split("\n", 1)[1]) for part in parts]


def blocks(text: str) -> list[Block]:
    """The blocks of a document."""
    return [Block(found["text"], found["mark"]) for found in BLOCK.finditer(text)]
