"""The places of a call, a key, a rule, a form are counted as they stand, and docs/MAP.md names each."""
import os
import re

from commands.tests.support import Case

from .. import places

TEXT = """
// KeepCaps and others
use crate::CallKind::KeepCaps;
    ghost use Rattle.cm_filter.specs.Kinds.{KeepCaps};
fn name(kind: CallKind) -> &'static str {
    match kind {
        CallKind::KeepCaps => "keepcaps",
        CallKind::KeepCapsLocked => keep_caps(),
        CallKind::SecureBits
        | CallKind::KeepCaps
            if b"keepcaps".len() == 8 => "one place",
    }
}
"""
CALL = places.PROBES["call"]
ROW = "\n### a call\n\n`cm_filter`: `Kinds` (its `name`), `model_laws/proofs`: `in/Keeping`, `cm_filter`:\n`kind::as`\n"


class Places(Case):
    def lay(self, *paths: str, row: str = ROW) -> None:
        """A repository whose files each have two places, and whose page has that row."""
        self.put("docs/MAP.md", row.encode())
        for path in paths:
            self.put(f"crates/{path}", b"KeepCaps\n\n8 keepcaps 1 = 0\n")

    def said(self, *words: str) -> tuple[int, str]:
        """The status, and what was printed, of the probe of a call."""
        status, text, _ = self.told(places.main, *words, "--in", self.work, "call")
        return status, text

    def test_lines_that_follow_one_another_are_a_place(self) -> None:
        self.assertEqual(places.places_in(CALL, TEXT), [7, 10])

    def test_other_files_are_passed(self) -> None:
        self.lay("cm_filter/src/kind.rt", "model_laws/proofs/in/Keeping.antt", "cm_filter/src/tests.rt",
                 "cm_filter/src/tests/of.rt", "model_laws/proofs/KeptCases.antt", "cm_filter/must-fail/kept.edit",
                 "model_strace/specs/Calls.antt", "cm_drill/src/draws.rt", "call_cases/src/main.rt",
                 "cm_filter/src/owner_tests.rt")
        self.assertEqual(self.said("--list"), (0, """\
crates/cm_filter/src/kind.rt:1
crates/cm_filter/src/kind.rt:3
crates/model_laws/proofs/in/Keeping.antt:1
crates/model_laws/proofs/in/Keeping.antt:3
call: 4 places in 2 files
"""))

    def test_too_many_are_refused(self) -> None:
        names = [f"cm_filter/src/kind{number}.rt" for number in range(11)]
        row = "\n### a call\n\n`cm_filter`: " + ", ".join(f"`kind{number}`" for number in range(11)) + "\n"
        self.lay(*names[:10], row=row)
        self.assertEqual(self.said(), (0, "call: 20 places in 10 files\n"))
        self.lay(names[10], row=row)
        self.assertEqual(self.said(), (1, "call: 22 places in 11 files\n"))

    def test_a_file_that_the_row_does_not_name_is_told(self) -> None:
        self.lay("cm_filter/src/kind.rt", "cm_filter/proofs/kind/name/Answers.antt", "model_laws/proofs/Kinds.antt")
        self.assertEqual(self.said(), (1, "call: 6 places in 3 files\n"
                                          "docs/MAP.md doesn't name crates/model_laws/proofs/Kinds.antt\n"))

    def test_a_row_that_is_not_there_names_nothing(self) -> None:
        self.lay("cm_filter/src/kind.rt", row="\n### a cell\n\n`cm_filter`: `kind`\n")
        self.assertEqual(self.said()[0], 1)

    def test_the_map_names_all_and_has_the_figures(self) -> None:
        status, text, _ = self.told(places.main)
        self.assertEqual(status, 0, text)
        with open(os.path.join(places.TOP, "docs", "MAP.md"), encoding="utf-8") as file:
            page = file.read()
        told = next((line for line in page.split("\n") if "`places.py`" in line), "")
        figures = re.findall(r"`(\w+)` (\d+ places in \d+ files)", told)
        self.assertEqual([f"{name}: {figure}" for name, figure in figures], text.splitlines())
        self.assertIn("`call` may have at most 20 in 15", page)
