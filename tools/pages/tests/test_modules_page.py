"""docs/MODULES.md is what modules_page.py makes, and what that reads: in a small tree, by hand."""
from commands.tests.support import Case

from .. import modules_page

TREE = {
    "crates.txt": b"# Below: what the others\n# stand on.\nlow: toml\nmodel_low: low\n\n# Programs.\nhigh: low\n",
    "crates/low/src/lib.rt": b"//! The small\n//! values. They stay.\n#![tactic(auto)]\n// no words\n",
    "crates/low/src/one.rt": b"// What one is: a thing of `it`. More.\n\n// no words\n",
    "crates/low/src/deep/two.rt": b"// Two of them\n", "crates/low/src/bare.rt": b"use x;\n// late\n",
    "crates/low/src/tests.rt": b"// Tests.\n", "crates/low/src/one_tests.rt": b"// Tests.\n",
    "crates/low/src/tests/of.rt": b"// Tests.\n", "crates/low/specs/One.antt": b"-- Left out.\n",
    "crates/model_low/src/lib.rt": b"//! Definitions.\n", "crates/model_low/specs/Lib.antt": b"-- No.\n",
    "crates/model_low/specs/Row.antt": b"-- Rows: what is\n-- held. And more.\nuse x\n",
    "crates/high/src/main.rt": b"//! The program.\n",
}
TOLD = """
## Below: what the others stand on

### `low`

The small values. They stay.

- `deep/two`: Two of them.
- `one`: What one is: a thing of `it`.

### `model_low`

Definitions.

- `Row`: Rows: what is held.

## Programs

### `high`

The program.
"""


class Page(Case):
    def test_the_page_is_what_is_made(self) -> None:
        with open(modules_page.PAGE, encoding="utf-8") as file:
            told, wanted = file.read().split("\n"), modules_page.page().split("\n")
        self.assertEqual([line for line in told if line not in wanted], [], "run tools/pages/modules_page.py")
        self.assertEqual(told, wanted)

    def test_what_is_read(self) -> None:
        for name, text in TREE.items():
            self.put(name, text)
        self.assertEqual(modules_page.page(self.work), modules_page.FRONT + TOLD)

    def test_each_crate_and_module_says_something(self) -> None:
        for part in modules_page.page().split("\n### `")[1:]:
            name, said = part.split("`\n\n", 1)
            self.assertRegex(said, r"^[A-Z`]", name)
