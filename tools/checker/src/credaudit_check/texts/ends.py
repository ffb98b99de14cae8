"""How a judgement ends: one line and a status."""


class Ended(Exception):
    """The judgement is over: a line, or none, and the status."""

    def __init__(self, line: str | None, status: int) -> None:
        super().__init__(line)
        self.line = line
        self.status = status


def not_judged(why: str) -> Ended:
    """What this checker doesn't know exactly, and so leaves alone."""
    return Ended(f"not judged: {why}", 14)


def limit(name: str, number: int) -> Ended:
    """A size is exceeded."""
    return Ended(f"limit {name} {number}", 9)
