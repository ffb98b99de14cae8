"""credaudit-audit: the answer of the program and its status come through as they are, and where it refuses, words say
why. The program is the stored one."""
import os
import signal
import subprocess
import sys
import unittest

from credaudit_tools.audit import audit_command, word_faults
from credaudit_tools.command_line import users
from credaudit_tools.command_line.command import GOOD

from .. import stored_program, support

COMMAND = os.path.join(support.HERE, "..", "..", "credaudit-audit")
WORLD = 'log = "script"\n\n[[process]]\npid = 100\n'
LOG = "100 setresuid 33 33 -1 = 0\n"


class Case(support.Case):
    """A daemon that forgot its saved user id, in world.toml and log."""

    def setUp(self) -> None:
        super().setUp()
        self.put("world.toml", WORLD.encode())
        self.put("log", LOG.encode())

    def called(self, *words: str, program: str = support.STORED) -> tuple[int, str, str]:
        """The command, as a shell would run it in the folder."""
        done = subprocess.run([sys.executable, COMMAND, *words], cwd=self.work, capture_output=True, text=True,
                              check=False, env={**os.environ, "CREDAUDIT": program})
        return done.returncode, done.stdout, done.stderr


class Whole(Case):
    def test_the_answer_is_the_programs(self) -> None:
        os.chdir(self.work)
        self.addCleanup(os.chdir, support.HERE)
        for words, status in ((["world.toml", "log", "100", "uid:0"], 1),
                              (["audit", "world.toml", "log", "100", "uid:0"], 1),
                              (["replay", "world.toml", "log"], 0)):
            with self.subTest(words):
                full = words if words[0] in word_faults.FORMS else ["audit", *words]
                told = stored_program.answer(full)
                self.assertEqual(self.called(*words), (status, told[1].decode(), ""))
                self.assertEqual(status, told[0])

    def test_what_is_refused_has_words(self) -> None:
        self.put("cut", b"100 jump = 0\n")
        self.put("cert", b"{}\n")
        for words, status, why, hint in (
                ("world.toml log 100 uid:root", 12, "'uid:root' is no right: the program takes ids alone", "uid:0, as"),
                ("log world.toml 100 uid:0", 4, "log:1: refused: ", "WORLD stands before LOG"),
                ("wrold.toml log 100 uid:0", 7, "'wrold.toml' can't be read: No such file", "'world.toml' beside it"),
                ("world.toml none 100 uid:0", 7, "'none' can't be read: No such file", "has no such file"),
                ("world.toml log uid:0 100", 12, "'uid:0' is no pid", "RIGHT: 100 uid:0"),
                ("world.toml log 7 uid:0", 12, "process 7 doesn't live at the log's end", "end: 100"),
                ("world.toml log 100 cap_net_raw", 12, "'cap_net_raw' is no right", "cap:CAP_NET_RAW@init"),
                ("world.toml log 100 cap:CAP_KILL@box", 12, "no user namespace 'box'", "these stand: init"),
                ("audit world.toml log 100", 6, "audit takes WORLD LOG PID RIGHT, and there are 3", "RIGHT is missing"),
                ("adit world.toml log 100 uid:0", 6, "'adit' is none of replay, audit, check", "audit is one"),
                ("world.toml cut 100 uid:0", 5, "cut:1: refused: ", ""),
                ("check world.toml log 100 uid:0 cert", 11, "The certificate is refused: ", "")):
            with self.subTest(words):
                found, out, errors = self.called(*words.split())
                self.assertEqual(found, status, errors)
                self.assertTrue(out or status == 7)
                first, *rest = errors.split("\n")
                self.assertIn(why, first)
                self.assertIn(hint, rest[0])

    def test_a_signal_comes_through(self) -> None:
        killed = self.put("killed", b"#!/bin/sh\nkill -9 $$\n", 0o755)
        self.assertEqual(self.called("world.toml", "log", "100", "uid:0", program=killed)[0], -signal.SIGKILL)

    def test_no_program(self) -> None:
        for program in (os.path.join(self.work, "none"), self.put("odd", b"#!/nowhere\n", 0o755)):
            status, out, errors = self.called("world.toml", "log", "100", "uid:0", program=program)
            self.assertEqual((status, out), (127, ""))
            self.assertIn("credaudit-audit: ", errors)

    def test_its_own_words(self) -> None:
        for word in ("--help", "--version"):
            status, out, _ = self.told(audit_command.main, word)
            self.assertEqual(status, GOOD)
            self.assertIn("credaudit-audit", out)


class Words(unittest.TestCase):
    """What each fault of a word is called, and what is to be written."""

    def test_rights(self) -> None:
        known = {("uid", "root"): 0, ("gid", "adm"): 4}
        for word, hint in (("gid:adm", "gid:4"), ("uid:nobody-has-this", "write its number"), ("CAP_KILL", "@init"),
                           ("cap:CAP_KILL", "cap:CAP_KILL@init"), ("cap:cap_kill@box", "cap:CAP_KILL@box"),
                           ("CAP_NET_ADMINN", "cap:CAP_NET_ADMIN@init"), ("0", "uid:0 is a user id"),
                           ("x", "uid:N"), ("user:0", "uid:N")):
            words = word_faults.right_words(word, "100", lambda kind, name: known.get((kind, name)))
            self.assertIn(hint, words[1], word)

    def test_forms(self) -> None:
        rows: list[tuple[list[str], str]] = [
            (["audit", "w", "l", "1", "uid:0", "x"], "'x' is one too many"),
            ([], "credaudit-audit WORLD LOG PID RIGHT"), (["drill", "x"], "100000"),
            (["audit", "\udcff", "l", "1", "uid:0"], "symbolic link"), (["replay"], "WORLD is missing")]
        for words, said in rows:
            self.assertIn(said, word_faults.form_words(words)[1])

    def test_names_of_the_machine(self) -> None:
        self.assertIn("uid:0, as", word_faults.right_words("uid:root", "100", users.on_machine)[1])


if __name__ == "__main__":
    unittest.main()
