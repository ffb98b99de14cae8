"""The clauses that keep account of a shelf or a sink are counted as they stand."""
import os
import re
import unittest

from commands.tests.support import Case

from .. import account_clauses

TEXT = """
// ensures remark { H.faults shelf.old }
fn read<H: Shelf>(shelf: &mut H) -> u8
    requires { H.reads shelf.old ≡ 0 }
    ensures held { H.held shelf.new ≡ H.held shelf.old }
    ensures { IfSome (H.held shelf.old) (λ files. result ≡ 1) }
    ensures* after { taken (record { n = H.taken
        shelf.new }) } // held shelf.new
{
    2
}

fn give(out: &mut Vec<u8>)
    ensures cause { faults_of out.new ≡ 0 }
    ensures cause { WriteFaults (K.faults out.old) }
{
}
"""


class AccountClauses(Case):
    def test_each_is_counted_once(self) -> None:
        self.assertEqual(account_clauses.counted_in(TEXT), {"read": 2, "give": 1})

    def test_what_is_promised_stands_apart(self) -> None:
        rows = [account_clauses.Clauses("cm_io", "real.rt", "read_at", 6),
                account_clauses.Clauses("cm_cli", "commands.rt", "run", 9),
                account_clauses.Clauses("cm_io", "whole.rt", "read_whole", 6)]
        self.assertEqual([row.promised for row in rows], [True, True, False])

    def test_the_crates_have_as_many_as_the_map_tells(self) -> None:
        rows = account_clauses.counted(account_clauses.TOP)
        with open(os.path.join(account_clauses.TOP, "docs", "MAP.md"), encoding="utf-8") as file:
            told = re.search(r"of (\d+) in `cm_io`, `cm_replay` and `cm_cli` (\d+) stand elsewhere", file.read())
        self.assertEqual([int(number) for number in told.groups()] if told else [],
                         [sum(row.count for row in rows), sum(row.count for row in rows if not row.promised)])

    def test_few_stand_elsewhere(self) -> None:
        rows = account_clauses.counted(account_clauses.TOP)
        self.assertLessEqual(sum(row.count for row in rows if not row.promised), 45)


if __name__ == "__main__":
    unittest.main()
