"""All traps, by danger, and the page docs/TESTING-traps.md."""
import textwrap

from . import call_rows, files_rows, process_rows, wait_rows
from .row import Trap

TRAPS: tuple[Trap, ...] = (*process_rows.TRAPS, *files_rows.TRAPS, *wait_rows.TRAPS, *call_rows.TRAPS)
FRONT = """# Traps, danger by danger

For whoever asks which ways to record or judge wrongly are tried, and what tells each. `tools/traps/try_traps.py --page`
writes this page; TESTING-tools.md says how the cases are run: {cases} cases of {dangers} dangers.

Behind each spelling stands the name of its case; at the end what tells the danger. There `right` says that the recorder
finds no difference; `doubt NAME` is a doubt of the premise of this name (PREMISES.md), `difference` what isn't as the
kernel showed it, `stopped` a recording that ends at a line, `refused` one that isn't made, `told` any of these but the
first, `altered` a summary that names a file which isn't as it was written; a right with a class is what the summary
calls it.
"""


def paragraph(text: str) -> str:
    """A text in lines of at most 120 columns."""
    return textwrap.fill(text, 120, break_on_hyphens=False, break_long_words=False)


def document() -> str:
    """The page: a section for each danger, with its spellings, and what tells it."""
    dangers = list(dict.fromkeys(each.danger for each in TRAPS))
    parts = [FRONT.format(cases=len(TRAPS), dangers=len(dangers))]
    for danger in dangers:
        rows = [each for each in TRAPS if each.danger == danger]
        told = "; ".join(dict.fromkeys(", ".join(each.told) for each in rows))
        spellings = "; ".join(f"{each.spelling} (`{each.name}`)" for each in rows)
        parts += [f"## {danger[0].upper()}{danger[1:]}\n", paragraph(f"{spellings}.") + "\n",
                  paragraph(f"{len(rows)} case{'s' * (len(rows) != 1)}, told by: {told}.") + "\n"]
    return "\n".join(parts)
