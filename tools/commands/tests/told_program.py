"""A program whose answers are told by a test, from the formats and by hand (docs/FORMATS.md): it judges nothing."""
import os
from collections.abc import Callable

from credaudit_tools.formats import worlds
from credaudit_tools.formats.credential import SETS, field_text
from credaudit_tools.formats.report import Report, read
from credaudit_tools.replay.program import Program

from . import support

EMPTY = '"b":"0000000000000000","eg":[],"eu":[],"fg":[],"fu":[],"g":[],"i":"0000000000000000","k":false,"mg":[],' \
        '"mu":[],"n":true,"p":"0000000000000000","r":false,"s":[],"u":[]'
CERTIFICATE = f'{{"format":1,"rows":[{{{EMPTY}}},{{{EMPTY}}}]}}'
YES = f"yes\n{CERTIFICATE}\n"
Answers = dict[tuple[str, str], str]        # by the world's name and the right what stands below `end N`


def no(holder: int, *run: str) -> str:
    """The lines of a `no`."""
    return "".join(f"{line}\n" for line in (f"no {len(run)}", *run, f"holder {holder}"))


def standing_lines(world: worlds.World) -> str:
    """The credential lines of a world's processes, in the form of a report."""
    lines = []
    for each in sorted(world.processes, key=lambda row: row.pid):
        own = each.credential
        fields = [f"{name}={field_text(name, getattr(own, name))}" for name in ("uid", "gid", "groups")]
        fields += [f"{name}={getattr(own, name):016x}" for name in SETS]
        fields += [f"sec={own.sec or 0:02x}", f"nnp={int(bool(own.nnp))}"]
        lines.append(" ".join([">", str(each.pid), each.space, *fields]) + "\n")
    return "".join(lines)


class Told(Program):
    """Answers audits by the names of their worlds: `own`, `if-0` and their like, else `real`. A replay is the told one,
    or, where none is, that of the stored answers. A run is confirmed where `confirms` says who holds the right then; a
    certificate holds where `holds` says so."""

    def __init__(self, replay: str | None, answers: Answers, default: str = YES,
                 confirms: Callable[[str, list[str]], int | None] = lambda *_: None, holds: bool = True) -> None:
        super().__init__("told")
        self.report, self.answers, self.default = replay, answers, default
        self.confirms, self.sound = confirms, holds
        self.asked: list[tuple[str, str, str]] = []
        self.worlds: dict[str, worlds.World] = {}

    def run(self, *words: str) -> Report:
        with open(words[1], "rb") as file:
            world = worlds.read(file.read())
        if self.report is None:
            return read(*Program(support.STORED).answer(*words))
        if os.path.basename(words[1]) == "end.toml":
            return read(standing_lines(world) + "end 0\n", 0)
        return read(self.report, 0 if "\nend " in "\n" + self.report else 3)

    def tail(self, *words: str) -> tuple[bytes, int]:
        name = os.path.basename(words[1]).removesuffix(".toml")
        kind = name if name == "own" or name.startswith("if-") else "real"
        if kind not in self.worlds:
            with open(words[1], "rb") as file:
                self.worlds[kind] = worlds.read(file.read())
        self.asked.append((words[0], kind, words[4]))
        if words[0] in ("check", "confirm"):
            return self.judged(words)
        text = self.answers.get((kind, words[4]), self.default)
        status = {"y": 0, "n": 1, "u": 2, "b": 12}[text[0]]
        return b"end 0\n" + text.encode(), status

    def judged(self, words: tuple[str, ...]) -> tuple[bytes, int]:
        """Check and confirm."""
        with open(words[5], encoding="ascii") as file:
            text = file.read()
        if words[0] == "check":
            name = os.path.basename(words[1]).removesuffix(".toml")
            kind = name if name == "own" or name.startswith("if-") else "real"
            gone = self.answers.get((kind, words[4]), self.default).startswith("yes")
            return (b"holds\n", 0) if self.sound and gone else (b"refused json\n", 11)
        holder = self.confirms(words[4], text.split("\n")[:-1])
        return (f"confirmed {holder}\n".encode(), 0) if holder is not None else (b"refused end\n", 11)
