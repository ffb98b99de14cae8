"""The programs of tools/traps, without running them: the table beside their sources and beside docs/TESTING-traps.md;
what is called wrong of what was seen.
"""
import glob
import os
import re
import tempfile
import unittest
from dataclasses import replace

from commands.tests import support
from credaudit_tools.evidence import premises

from .. import altering, judging, table
from ..inside import collect
from ..judging import Seen, faults
from ..row import ALL, Trap, slowed

TOOLS = os.path.dirname(os.path.dirname(support.HERE))
SOURCES = {os.path.basename(path)[:-2]: path for path in glob.glob(os.path.join(TOOLS, "traps", "*.c"))}
TELLS = "tell"              # the program that others execute
CASE = re.compile(r'\{"([a-z0-9_-]+)", ')
PLAIN = {"right", "difference", "stopped", "refused", "told", "no change", "no secret", "altered"}
KINDS = {"held", "own-calls", "program", "gone", "gone-by-own-calls", "doubted", "open"}


def source(name: str) -> str:
    """The text of a program."""
    with open(SOURCES[name], encoding="ascii") as file:
        return file.read()


def page(name: str) -> str:
    """A page of docs/."""
    with open(os.path.join(TOOLS, "..", "docs", name), encoding="utf-8") as file:
        return file.read()


class Table(unittest.TestCase):
    def test_each_case_of_a_program_has_a_row(self) -> None:
        for name in SOURCES.keys() - {TELLS}:
            cases = CASE.findall(source(name)[source(name).rindex("TRAPS("):])
            self.assertEqual(set(cases), {each.case for each in table.TRAPS if each.program == name}, name)
            self.assertEqual(len(cases), len(set(cases)), name)
        self.assertLessEqual({each.program for each in table.TRAPS}, SOURCES.keys())

    def test_names_and_spellings_are_of_one_case_each(self) -> None:
        names = [each.name for each in table.TRAPS]
        self.assertEqual(len(names), len(set(names)))
        spellings = [(each.danger, each.spelling) for each in table.TRAPS]
        self.assertEqual(len(spellings), len(set(spellings)))

    def test_a_source_says_its_danger_and_its_manual_page(self) -> None:
        for name in SOURCES.keys() - {TELLS}:
            text = source(name)
            first = text[:text.index("*/")]
            self.assertTrue(text.startswith("/* "), name)
            self.assertIn("danger", first, name)
            self.assertRegex(first, r"\w\(\d", name)

    def test_no_place_of_a_machine(self) -> None:
        for name in SOURCES:
            self.assertNotRegex(source(name), r"/(work|home|root|var|tmp|usr)\b", name)

    def test_what_must_be_seen_is_known(self) -> None:
        names = {f"doubt {each.name}" for each in premises.TABLE}
        for trap in table.TRAPS:
            for word in (word for each in trap.told for word in each.split(" or ")):
                self.assertTrue(word in PLAIN | names or word.partition(" ")[2] in KINDS, (trap.name, word))

    def test_the_page_is_what_is_made(self) -> None:
        self.assertEqual(page("TESTING-traps.md"), table.document(), "run tools/traps/try_traps.py --page")

    def test_the_page_of_the_tools_has_the_counts(self) -> None:
        dangers = len({each.danger for each in table.TRAPS})
        self.assertIn(f"{len(table.TRAPS)} cases of {dangers} dangers", page("TESTING-tools.md"))


class Judging(unittest.TestCase):
    def setUp(self) -> None:
        self.trap = Trap("program", "case", "a danger", "a spelling", ("doubt filters or difference",))
        self.seen = Seen(danger=True, shown="so", ended=True, status=1, doubts=["filters"],
                         classes={"uid:0": ["doubted"]})

    def test_what_is_told_passes(self) -> None:
        self.assertEqual(faults(self.trap, self.seen), [])
        other = replace(self.seen, doubts=[], said="recording: 1 process compared: 2 differences\n")
        self.assertEqual(faults(self.trap, other), [])

    def test_what_is_wrong(self) -> None:
        for seen, told in [
                (replace(self.seen, danger=False), "its danger doesn't happen"),
                (replace(self.seen, ended=False), "didn't end within 60 s"),
                (replace(self.seen, left=["process 7 (x) is stopped"]), "process 7 (x) is stopped after the end"),
                (replace(self.seen, doubts=["answers"]), "not seen: doubt filters or difference"),
                (replace(self.seen, classes={"uid:0": ["doubted"], "gid:0": ["gone"]}), "called gone: gid:0")]:
            self.assertIn(told, "; ".join(faults(self.trap, seen)), told)

    def test_more_time(self) -> None:
        given = slowed(replace(self.trap, options=("--until", "3", "--for", "2"), go=0.5), 4)
        self.assertEqual((given.options, given.limit, given.go), (("--until", "3", "--for", "8"), 240, 2))
        self.assertEqual(slowed(self.trap, 1), self.trap)

    def test_what_may_be_gone(self) -> None:
        seen = replace(self.seen, classes={"uid:0": ["held"], "gid:0": ["gone"]})
        self.assertEqual(faults(replace(self.trap, gone=ALL), seen), [])
        self.assertEqual(faults(replace(self.trap, gone="gid:.*"), seen), [])
        self.assertEqual(len(faults(replace(self.trap, gone="uid:.*"), seen)), 1)

    def test_words(self) -> None:
        right = Seen(status=0, said="recording: 1 process compared: no difference\n")
        for seen, word, so in [
                (right, "right", True), (right, "told", False), (self.seen, "right", False), (self.seen, "told", True),
                (Seen(status=0, end="stopped"), "stopped", True), (Seen(status=3), "refused", True),
                (self.seen, "uid:0 doubted", True), (self.seen, "uid:0 gone", False),
                (Seen(status=0, broken="the world w isn't as it was written: its sum differs"), "altered", True),
                (Seen(what_ifs=[("no_new_privs", 0, 41)]), "no change", True),
                (Seen(what_ifs=[("no_new_privs", 41, 41)]), "no change", False)]:
            self.assertEqual(seen.has(word), so, word)
        self.assertIn("1 doubted", judging.words(self.seen))

    def test_what_is_altered(self) -> None:
        """Each change takes out what it is to take out, and no more; where there is nothing, it fails."""
        doubts = 'end = "time"\n\n[[doubt]]\npremise = "answers"\nwhy = "a filter"\n\n[sums]\nlog = "0"\n'
        with tempfile.TemporaryDirectory() as folder:
            for name, text in (("recording.toml", doubts), ("world.toml", "[[process]]\npid = 1\n"),
                               ("scan", 'log = "script"\n\n[[file]]\npath = "/x"\n\n[[process]]\npid = 1\n')):
                with open(os.path.join(folder, name), "w", encoding="utf-8") as file:
                    file.write(text)
            scan = os.path.join(folder, "scan")
            for kind, name, told in (("doubts", "recording.toml", 'end = "time"\n\n[sums]\nlog = "0"\n'),
                                     ("world", "world.toml", "[[process]]\npid = 1\n" + altering.FILTER),
                                     ("scan", "scan", 'log = "script"\n\n[[process]]\npid = 1\n')):
                altering.alter(kind, folder, scan)
                with open(os.path.join(folder, name), encoding="utf-8") as file:
                    self.assertEqual(file.read(), told)
            with self.assertRaises(SystemExit):
                altering.alter("doubts", folder, scan)

    def test_what_a_summary_tells(self) -> None:
        """Of one process, and of several."""
        one = {"rights": [{"right": "uid:0", "class": "doubted", "reasons": ["filters: it is so", "of the rest"]},
                          {"right": "gid:0", "class": "gone", "reasons": []}],
               "what_ifs": [{"with": "no_new_privs", "gone": 2, "of": 3}],
               "unexpected": [{"right": "uid:0", "class": "doubted", "expected": ["gone"]}]}
        for told in (one, [one], {"processes": [one]}):
            seen = Seen()
            collect(told, seen)
            self.assertEqual((seen.classes, seen.doubts, seen.what_ifs),
                             ({"uid:0": ["doubted"], "gid:0": ["gone"]}, ["filters"], [("no_new_privs", 2, 3)]))


if __name__ == "__main__":
    unittest.main()
