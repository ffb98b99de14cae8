"""drill_witness.py beside stand-ins for the program: one that answers as plain Python does, and some that don't."""
import os
import subprocess
import sys
import unittest

from commands.tests import support

TOOLS = os.path.normpath(os.path.join(support.HERE, "..", ".."))
# Answers by plain Python; the word of a command says what is changed in its answer by sed(1).
PROGRAM = """#!/bin/sh
case $1 in
drill) {python} {tools}/plain/drill.py "$2" | sed '{drill}' ;;
replay) {python} {tools}/plain/report.py "$2" "$3" | sed '{replay}' ;;
esac
"""


class Witness(support.Case):
    def witness(self, *numbers: str, drill: str = "", replay: str = "") -> tuple[int, str]:
        """The status of the witness beside a stand-in, and what it tells."""
        text = PROGRAM.format(python=sys.executable, tools=TOOLS, drill=drill, replay=replay)
        program = self.put("program", text.encode(), 0o755)
        done = subprocess.run([sys.executable, os.path.join(TOOLS, "witness", "drill_witness.py"), program, *numbers],
                              capture_output=True, text=True, check=False)
        self.assertEqual(done.stderr, "")
        return done.returncode, done.stdout

    def test_the_same(self) -> None:
        self.assertEqual(self.witness("0", "7", "60"), (0, "3 drills, 0 differ\n"))

    def test_what_differs_is_told(self) -> None:
        drills, replays = ("s/^verdict yes/verdict no/", "s/^live /live 1/", "$d"), ("s/^9: .*/9: 1 fork = 2/", "$d")
        changes = [("drill 60: ", {"drill": change}) for change in drills]
        changes += [("replay of the log of 60 ", {"replay": change}) for change in (*replays, "/^9: /d")]
        for front, change in changes:
            with self.subTest(change):
                status, told = self.witness("60", **change)
                self.assertEqual((status, told[:len(front)]), (1, front), told)
                self.assertTrue(told.endswith("\n1 drills, 1 differ\n"), told)

    def test_words(self) -> None:
        for words in ((), ("--help",), ("program", "x")):
            done = subprocess.run([sys.executable, os.path.join(TOOLS, "witness", "drill_witness.py"), *words],
                                  capture_output=True, text=True, check=False)
            self.assertEqual((done.returncode, done.stdout), (1, ""))
            self.assertIn("PROGRAM [N ..]", done.stderr)


if __name__ == "__main__":
    unittest.main()
