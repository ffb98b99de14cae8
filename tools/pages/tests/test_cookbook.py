"""The recipes of docs/COOKBOOK.md: each is run by bash as it stands, with stand-ins for what needs root (stand_in.py).
It passes for a daemon that drops rightly, and fails for one that forgot its saved user id."""
import os
import re
import shutil
import subprocess
import sys
import unittest

from commands.tests import support

PAGE = os.path.join(support.EXAMPLES, "..", "docs", "COOKBOOK.md")
TOOLS = os.path.normpath(os.path.join(support.HERE, "..", ".."))
TITLES = ("A job in a container", "A job in a virtual machine", "A unit")
MOST = 10
STAND_INS = {
    "sudo": 'exec "$@"', "apt-get": "exit 0", "capsh": '[ "$1" = --has-p=cap_sys_ptrace ]', "chown": "exit 0",
    "systemctl": '[ "$1" != show ] || echo 100',
    "setpriv": '[ "$1" = --groups ] || exit 9; export COOKBOOK_GROUPS="$2"; shift 2; exec "$@"',
    **{name: f'exec {sys.executable} -m pages.tests.stand_in {name} "$@"' for name in
       ("credaudit-trace", "credaudit-capture", "credaudit-unit", "credaudit-summary")}}
UNIT = b"[Service]\nExecStart=/usr/sbin/mydaemon\nUser=www-data\nNoNewPrivileges=yes\nCapabilityBoundingSet=\n"


def recipes() -> dict[str, str]:
    """By title the commands of each recipe."""
    with open(PAGE, encoding="utf-8") as file:
        found = re.findall(r"^## (A .*)\n(?:(?!```|## ).*\n)*```\n((?:(?!```).*\n)*)```$", file.read(), re.MULTILINE)
    return dict(found)


class Recipes(support.Case):
    def setUp(self) -> None:
        super().setUp()
        for name, text in STAND_INS.items():
            self.put(f"bin/{name}", f"#!/bin/sh\n{text}\n".encode(), 0o755)
        self.put("root/lib/systemd/system/mydaemon.service", UNIT)
        self.put("root/etc/passwd", b"root:x:0:0::/:/x\nwww-data:x:33:33::/:/x\n")
        self.put("root/etc/group", b"root:x:0:\nwww-data:x:33:\n")

    def run_recipe(self, title: str, recorded: str) -> tuple[int, str, str]:
        """A recipe in a folder of its own, with a stored recording: the status, its output and the folder."""
        folder = os.path.join(self.work, f"{title} {recorded}")
        os.mkdir(folder)
        environment = {**os.environ, "PATH": os.path.join(self.work, "bin") + ":" + os.environ["PATH"], "USER": "x",
                       "PYTHONPATH": f"{TOOLS}:{TOOLS}/commands/src", "COOKBOOK_ROOT": os.path.join(self.work, "root"),
                       "COOKBOOK_RECORDING": os.path.join(support.EXAMPLES, "first_try", recorded)}
        done = subprocess.run(["bash", "-e", "-c", recipes()[title]], cwd=folder, env=environment, text=True,
                              stdout=subprocess.PIPE, stderr=subprocess.STDOUT, check=False)
        return done.returncode, done.stdout, folder

    def test_there_are_three_of_ten_lines(self) -> None:
        self.assertEqual(tuple(recipes()), TITLES)
        for title, text in recipes().items():
            self.assertLessEqual(text.count("\n"), MOST, title)
            for word in ("credaudit-capture", "credaudit-trace", "--expect"):
                self.assertIn(word, text)

    @unittest.skipIf(shutil.which("prove") is None or shutil.which("xmllint") is None, "prove or xmllint isn't there")
    def test_each_passes_and_fails(self) -> None:
        for title in TITLES:
            with self.subTest(title):
                status, out, folder = self.run_recipe(title, "recording-fixed")
                self.assertEqual(status, 0, out)
                self.assertTrue({"rights.tap", "rights.xml"} & set(os.listdir(folder)))
                status, out, folder = self.run_recipe(title, "recording")
                self.assertEqual(status, 1, out)
                self.assertIn("uid:0 is own-calls, and expected is gone", out)


if __name__ == "__main__":
    unittest.main()
