"""Items of lists in pages that scripts write."""
import textwrap

WIDTH = 120


def item(text: str) -> list[str]:
    """An item of a list, in lines of at most 120 columns."""
    return textwrap.wrap(text, WIDTH, initial_indent="- ", subsequent_indent="  ", break_on_hyphens=False,
                         break_long_words=False)
