"""Fs ids that aren't among the effective ones: what files of such an id can give isn't called gone. By hand, from
setfsuid(2), chmod(2) and execve(2); the program is asked what a file of the id gives."""
import json
from unittest import mock

from credaudit_tools.command_line.command import GOOD
from credaudit_tools.formats.rights import parse
from credaudit_tools.judge import acting_caps, classes
from credaudit_tools.judge.classify import Judge
from credaudit_tools.summary import summary, summary_command

from .. import support
from ..told_rows import space_row

ASKED = ["uid:0", "uid:1000", "gid:0", "gid:7", "cap:CAP_CHOWN@init"]
BOX = space_row("box", 1000, [[0, 1000, 1]], [[0, 1000, 1]])
# Keys of the process, more rows, more rights that are asked about, and the rights that are doubted.
ROWS: list[tuple[str, str, list[str], set[str]]] = [
    ("uid = [33, 33, 33, 33]", "", [], set()),
    ("uid = [33, 33, 33, 0]", "", [], set(ASKED)),                          # root's files give anything
    ("uid = [33, 33, 33, 0]\nno_new_privs = true", "", [], set()),          # and nothing to who executes without gain
    ("uid = [33, 33, 33, 1000]", "", [], {"uid:1000"}),
    ("uid = [33, 33, 33, 1000]", BOX, ["cap:CAP_KILL@box"], {"uid:1000", "cap:CAP_KILL@box"}),
    ("gid = [33, 33, 33, 7]", "", [], {"gid:7"}),
    ("gid = [33, 33, 33, 7]\ngroups = [7]", "", [], set()),
    ("gid = [33, 33, 33, 0]\ngroups = [7]", "", [], {"gid:0"})]


class FsIds(support.Case):
    def doubted(self, keys: str, more: str, rights: list[str]) -> set[str]:
        """The rights of which this row is a doubt, of a process without capabilities."""
        ids = "" if keys.startswith("uid") else "uid = 33\n"
        ids += "" if keys.startswith("gid") else "gid = 33\n"
        world = f'log = "script"\n{more}[[process]]\npid = 100\n{keys}\n{ids}permitted = "none"\neffective = "none"\n'
        names = self.put("world.toml", world.encode()), self.put("log")
        asked = [right for text in [*ASKED, *rights] if (right := parse(text)) is not None]
        # As few questions as go: each answer of the program is stored.
        with mock.patch.object(summary, "rights_had", lambda *_: asked), \
                mock.patch.object(acting_caps, "RIGHTS", acting_caps.RIGHTS[:1]), \
                mock.patch.object(Judge, "settled", lambda _, outcome: outcome), \
                mock.patch.object(Judge, "what_ifs", lambda *_: []):
            status, out, errors = self.told(summary_command.main, *names, "100", "--json")
        self.assertEqual(status, GOOD, errors)
        return {each["right"] for each in json.loads(out)["answers"][0]["rights"] if each["class"] == classes.DOUBTED
                and any(why.startswith("fs-ids: process 100 has the fs ") for why in each["reasons"])}

    def test_rows(self) -> None:
        for keys, more, rights, wanted in ROWS:
            with self.subTest(keys, more=more):
                self.assertEqual(self.doubted(keys, more, rights), wanted)
