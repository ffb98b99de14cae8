"""What credaudit-summary says of another start, beside what it says once the family starts so: the counts are one."""
import json
from dataclasses import replace
from unittest import mock

from credaudit_tools.command_line.command import GOOD
from credaudit_tools.formats.credential import Credential
from credaudit_tools.formats.worlds import File, Process, World
from credaudit_tools.judge.classes import GONE
from credaudit_tools.summary import summary_command

from .. import support
from ..plain_program import Plain

SU, GROUP = File("/usr/bin/su", 0, 0, 0o4755), File("/usr/bin/wall", 0, 5, 0o2755)
NOBODY = Credential(uid=(33,) * 4, gid=(33,) * 4, groups=frozenset(), inh=0, prm=0, eff=0, bnd=(1 << 41) - 1, amb=0,
                    sec=0, nnp=False)
ASKED = ["uid:0", "uid:7", "gid:0", "gid:5", "cap:CAP_CHOWN@init"]
# A member, the declared files, whether the scan has a doubt, and how many of how many would be gone with no_new_privs.
ROWS: list[tuple[str, Credential, list[File], list[str], int, int]] = [
    ("su is left", NOBODY, [SU], [], 5, 5),
    ("two programs are left", NOBODY, [SU, GROUP], [], 5, 5),
    ("the real user id is root's, and comes back", replace(NOBODY, uid=(0, 33, 33, 33)), [SU], [], 4, 5),
    ("the scan has a doubt", NOBODY, [SU], ["/srv can't be read"], 0, 5),
    ("the fs user id is root's, and set-id bits of its files don't count", replace(NOBODY, uid=(33, 33, 33, 0)), [SU],
     [], 5, 5)]


class WhatIfs(support.Case):
    """Captured worlds of one process, which have no log."""

    def answer(self, own: Credential, files: list[File], doubts: list[str]) -> tuple[dict[str, str], int, int]:
        """By right its class; and of no_new_privs how many of how many would be gone."""
        scan = self.put_scan("world.toml", World("script", files=files, processes=[Process(100, own)]), *doubts)
        asked = [word for right in ASKED for word in ("--right", right)]
        with mock.patch.object(summary_command, "Program", Plain):
            status, out, errors = self.told(summary_command.main, "--json", *asked, scan, self.put("empty"), "100")
        self.assertEqual(status, GOOD, errors)
        [told] = json.loads(out)["answers"]
        return ({each["right"]: each["class"] for each in told["rights"]}, told["what_ifs"][0]["gone"],
                told["what_ifs"][0]["of"])

    def test_what_would_be_is_what_is_then(self) -> None:
        for title, own, files, doubts, gone, of in ROWS:
            with self.subTest(title):
                now, *counts = self.answer(own, files, doubts)
                self.assertEqual(counts, [gone, of])
                then, *_ = self.answer(replace(own, nnp=True), files, doubts)
                left = [right for right, kind in now.items() if kind in ("own-calls", "program", "open")]
                self.assertEqual((len(left), [then[right] for right in left].count(GONE)), (of, gone), (now, then))
