"""Reads a page of HTML into its elements, as the tests of pages look at it."""
import html.parser
from dataclasses import dataclass, field

EMPTY = ("meta", "br")


@dataclass
class Element:
    """An element of a page: its tag, its attributes, what is in it, and its own text."""
    name: str
    attributes: dict[str, str]
    inside: list["Element"] = field(default_factory=list)
    text: str = ""

    def every(self, name: str, kind: str = "") -> list["Element"]:
        """The elements of that tag, and of that class, in their order."""
        own = [self] if self.name == name and kind in ["", *self.attributes.get("class", "").split()] else []
        return own + [found for each in self.inside for found in each.every(name, kind)]

    def words(self) -> str:
        """All text of it."""
        return self.text + "".join(each.words() for each in self.inside)


class Reader(html.parser.HTMLParser):
    """Reads a page. Fails where a tag is closed that isn't open."""

    def __init__(self, data: str) -> None:
        super().__init__()
        self.open = [Element("", {})]
        self.feed(data)
        self.close()
        assert len(self.open) == 1, [each.name for each in self.open]

    def handle_starttag(self, tag: str, attrs: list[tuple[str, str | None]]) -> None:
        made = Element(tag, {name: told or "" for name, told in attrs})
        self.open[-1].inside.append(made)
        if tag not in EMPTY:
            self.open.append(made)

    def handle_endtag(self, tag: str) -> None:
        assert self.open.pop().name == tag

    def handle_data(self, data: str) -> None:
        self.open[-1].text += data


def flat(top: Element) -> list[Element]:
    """An element and all in it."""
    return [top, *(found for each in top.inside for found in flat(each))]
