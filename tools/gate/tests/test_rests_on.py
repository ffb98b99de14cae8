"""Each definition on which the clauses of the top call rest has a sentence, and those that it must reach are there."""
import unittest

from commands.tests.support import Case

from .. import rests_on


class RestsOn(Case):
    def test_each_has_a_sentence(self) -> None:
        self.assertEqual([f"{row.path}: {row.name}" for row in rests_on.rows() if not row.sentence], [])

    def test_it_reaches_what_it_should(self) -> None:
        names = {row.name for row in rests_on.rows()}
        for name in ("Step", "LaterRun", "process_holds", "world_text", "script_line", "Shelf", "Sink", "Status",
                     "family", "Settled", "Meets", "ClosedAt", "Covers"):
            self.assertIn(name, names)
        self.assertGreater(len(names), 1000)


if __name__ == "__main__":
    unittest.main()
