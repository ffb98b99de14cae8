"""Recordings as earlier versions of credaudit-trace wrote them, kept as they were: each is read, its files are as they
were recorded, and its replay is what the kernel showed. What they don't tell counts as not established.
"""
import os
import shutil
from unittest import mock

from credaudit_tools.replay import recording
from credaudit_tools.verify import verify_command

from ..plain_program import Plain
from ..support import DATA, Case

OLDER = os.path.join(DATA, "older")
# By folder its format, None where nothing tells one; how many processes the kernel showed at the end; and what is told
# of what it lacks.
FORMATS = {"without_a_format": (None, 1, "there is no recording.toml"), "format_1": (1, 2, "of an older form")}


class Older(Case):
    def test_each_is_read(self) -> None:
        self.assertEqual(set(os.listdir(OLDER)), set(FORMATS))
        for name, (number, count, _) in FORMATS.items():
            with self.subTest(name):
                kept = recording.read(os.path.join(OLDER, name))
                self.assertEqual((kept.made.format if kept.made else None, len(kept.statuses)), (number, count))
                self.assertEqual(recording.altered(kept), [])
                self.assertEqual(kept.made.evidence.established if kept.made else {}, {})

    def test_an_altered_one_is_told(self) -> None:
        folder = os.path.join(self.work, "altered")
        shutil.copytree(os.path.join(OLDER, "format_1"), folder)
        with open(os.path.join(folder, "log"), "ab") as file:
            file.write(b"101 setuid(2001) = 0\n")
        [told] = recording.altered(recording.read(folder))
        self.assertTrue(told.startswith("log isn't as it was recorded"), told)

    def test_the_kernel_showed_the_same(self) -> None:
        for name, (_, count, lacks) in FORMATS.items():
            with self.subTest(name), mock.patch.object(verify_command, "Program", Plain):
                status, told, errors = self.told(verify_command.main, os.path.join(OLDER, name))
                self.assertEqual((status, errors.count("\n")), (0, 1), errors)
                self.assertIn(lacks, errors)
                self.assertRegex(told, rf": {count} process(es)?, 1 answer compared: no difference\n\Z")
