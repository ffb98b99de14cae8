"""Entries of binfmt_misc, as the kernel writes them (Documentation/admin-guide/binfmt-misc)."""
from credaudit_tools.evidence.evidence import Evidence
from credaudit_tools.evidence.premises import BINFMT
from credaudit_tools.system import binfmt
from credaudit_tools.system.binfmt import doubts, kinds, tell

from .. import support

ENTRY = "enabled\ninterpreter /usr/bin/tool\nflags: {}\noffset 0\nmagic 7f454c46\n"


class Entries(support.Case):
    def test_flags(self) -> None:
        for flags, told in (("", 0), ("P", 0), ("O", 0), ("OC", 1), ("F", 1), ("POCF", 2)):
            found = doubts({"tool": ENTRY.format(flags), "status": "enabled\n"})
            self.assertEqual(len(found), told, flags)
            self.assertTrue(all("the entry 'tool' of binfmt_misc has the flag " in why for why in found))
        self.assertEqual(len(doubts({"tool": ENTRY.replace("enabled", "disabled").format("C")})), 1)
        self.assertEqual(doubts({"status": "enabled\n", "odd": "\n"}), [])

    def test_evidence(self) -> None:
        def fails() -> dict[str, str]:
            raise OSError(1, "Operation not permitted")

        for read, holds in ((dict[str, str], True), (lambda: {"tool": ENTRY.format("P")}, True),
                            (lambda: {"tool": ENTRY.format("C")}, False), (fails, False)):
            evidence = Evidence()
            notes = tell(evidence, read)
            self.assertEqual((evidence.holds(BINFMT), bool(notes)), (holds, read is fails))

    def test_kinds(self) -> None:
        self.assertEqual(kinds(b"nodev\tproc\n\text4\nnodev\tbinfmt_misc\n"), {b"proc", b"ext4", b"binfmt_misc"})

    def test_the_running_kernel(self) -> None:
        """Root can read them wherever they are mounted; nobody else sees more than what is mounted here."""
        try:
            found = binfmt.entries()
        except OSError as error:
            self.assertIn(error.errno, (1, 13, 38))
        else:
            self.assertTrue(all(isinstance(text, str) for text in found.values()))
