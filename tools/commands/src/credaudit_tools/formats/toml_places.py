"""Where in a world's text a row and a key stand: readers of TOML don't tell."""
import re
from dataclasses import dataclass, field

TOKEN = re.compile(
    r'"""(?:\\.|[^\\])*?"""|\'\'\'.*?\'\'\'|"(?:\\.|[^"\\\n])*"|\'[^\'\n]*\'|#[^\n]*|\n'
    r'|[\[\]{}=,.]|[A-Za-z0-9_-]+|[ \t\r]+|.',
    re.S)
KEY = re.compile(r'"[^"\n]*"|\'[^\'\n]*\'|[A-Za-z0-9_-]+')
WHOLE = "whole"


@dataclass
class Places:
    """By table and number of the row (0 for the whole, and for a table that stands once) the line of its head, and by
    key too the line of the key."""
    rows: dict[tuple[str, int], int] = field(default_factory=dict)
    keys: dict[tuple[str, int, str], int] = field(default_factory=dict)

    def line(self, table: str, row: int, key: str | None = None) -> int | None:
        """The line of a key, else of its row."""
        if key is not None and (table, row, key) in self.keys:
            return self.keys[table, row, key]
        if table == WHOLE and key is not None:
            return self.rows.get((key, 1), self.rows.get((key, 0)))
        return self.rows.get((table, row))


@dataclass
class Reader:
    """The text's tokens, read one after another."""
    tokens: list[tuple[str, int]]
    places: Places = field(default_factory=Places)
    at: int = 0
    table: str = WHOLE
    row: int = 0
    counts: dict[str, int] = field(default_factory=dict)

    def peek(self, ahead: int = 0) -> str:
        """The word that comes, or one further ahead; a line feed at the end."""
        return self.tokens[self.at + ahead][0] if self.at + ahead < len(self.tokens) else "\n"

    def read(self) -> Places:
        """The places of all rows and keys."""
        while self.at < len(self.tokens):
            word, line = self.tokens[self.at]
            if word == "[":
                self.head(line)
            elif KEY.fullmatch(word):
                self.key(self.table, self.row, word, line)
            else:
                self.at += 1
        return self.places

    def head(self, line: int) -> None:
        """`[NAME]` or `[[NAME]]`."""
        many = self.peek(1) == "["
        self.at += 2 if many else 1
        self.table = plain(self.peek())
        self.row = self.next_row(self.table) if many else 0
        self.places.rows.setdefault((self.table, self.row), line)
        self.to_end_of_line()

    def next_row(self, table: str) -> int:
        """The number of the row of a table that begins."""
        self.counts[table] = self.counts.get(table, 0) + 1
        return self.counts[table]

    def to_end_of_line(self) -> None:
        """Passes over the rest of the line."""
        while self.at < len(self.tokens) and self.peek() != "\n":
            self.at += 1

    def key(self, table: str, row: int, word: str, line: int) -> None:
        """`NAME = VALUE`; of a value that is a list of tables, each is a row."""
        name = plain(word)
        self.places.keys.setdefault((table, row, name), line)
        self.at += 1
        while self.at < len(self.tokens) and self.peek() not in ("=", "\n"):
            self.at += 1
        if self.peek() == "=":
            self.at += 1
            self.value(name if table == WHOLE else None)

    def value(self, name: str | None) -> None:
        """Passes over a value; `name` is that of a table, where its value may be rows."""
        depth = 0
        while self.at < len(self.tokens):
            word, line = self.tokens[self.at]
            if word == "\n" and depth == 0 or word in ("]", "}", ",") and depth == 0:
                return
            self.at += 1
            depth += {"[": 1, "{": 1, "]": -1, "}": -1}.get(word, 0)
            if word == "{" and name is not None and depth <= 2:
                row = self.next_row(name) if depth == 2 else 0
                self.places.rows.setdefault((name, row), line)
                self.inner(name, row)
                depth -= 1

    def inner(self, table: str, row: int) -> None:
        """The keys of a table between braces, up to the brace that closes it."""
        while self.at < len(self.tokens):
            word, line = self.tokens[self.at]
            if word == "}":
                self.at += 1
                return
            if KEY.fullmatch(word):
                self.key(table, row, word, line)
            else:
                self.at += 1


def plain(word: str) -> str:
    """A word without its quotes."""
    return word[1:-1] if word[:1] in ('"', "'") else word


def places(text: str) -> Places:
    """The places of a world's text, good or not."""
    tokens, line = [], 1
    for found in TOKEN.finditer(text):
        word = found.group()
        if word == "\n" or not (word.isspace() or word.startswith("#")):
            tokens.append((word, line))
        line += word.count("\n")
    return Reader(tokens).read()
