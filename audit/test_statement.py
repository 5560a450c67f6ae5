"""audit/statement.py takes for named what a field of the statement is said of, and does
not pass over what it cannot read."""

import sys
import unittest

sys.dont_write_bytecode = True

from terms import Unreadable
from planted import InFolder, replaced
from stated import state
from statement import LINE, STATEMENT, THEOREM, is_proved, named

LABELS, INVERSES = "code::labels", "field::table::inverses_from"
BOTH = {LABELS: "Table0", INVERSES: "Table1"}
FIELD = "  pub table_1 : Table1 (λ r. r ≡ worked_out 1)\n"
IMPORT = "use Rattle.field.proofs.Constants.{Table1}\n"
TABLE = "Table1 P = (κs : Lifetimes.Lfts 0) (a : World.ArgsD of_1.signature κs)\n"
LEARNT = "    → reads_1.Learnt κs a r s → P r\n"


class Statement(InFolder):
    def setUp(self):
        super().setUp()
        state(self.crates, [LABELS, INVERSES])

    def edit(self, old, new, file=STATEMENT):
        replaced(self.crates / file, old, new)

    def names(self, *edits):
        """What is named after an edit."""
        for edit in edits:
            self.edit(*edit)
        return named(self.crates)


class Named(Statement):
    def test_each(self):
        self.assertEqual(self.names(), BOTH)

    def test_field_of_several_lines(self):
        self.assertEqual(self.names((FIELD, "  pub table_1 :\n    Table1\n    -- so\n"
                                            "\n      (λ r. r ≡ 1)\n")), BOTH)

    def test_field_of_two(self):
        self.assertEqual(self.names((FIELD, ""), ("Table0 (", "Table1 Table0 (")), BOTH)

    def test_not_by_a_comment(self):
        self.assertEqual(self.names((FIELD, "--" + FIELD)), {LABELS: "Table0"})

    def test_not_behind_a_field(self):
        self.assertEqual(self.names((FIELD, "  pub table_1 : ℕ  -- Table1 (λ r. r)\n")),
                         {LABELS: "Table0"})

    def test_not_by_an_import(self):
        self.assertEqual(self.names((FIELD, "")), {LABELS: "Table0"})

    def test_not_by_the_name_of_a_field(self):
        self.assertEqual(self.names((FIELD, "  pub Table1 : ℕ\n")), {LABELS: "Table0"})

    def test_not_by_a_longer_name(self):
        self.assertEqual(self.names((FIELD, "  pub a : Table1-not\n")),
                         {LABELS: "Table0"})

    def test_not_beside_the_record(self):
        self.assertEqual(self.names((FIELD, "\nabbrev pub Other : Type 0\n"
                                            "Other = Table1 (λ r. r ≡ 1)\n")),
                         {LABELS: "Table0"})

    def test_not_without_an_import(self):
        self.assertEqual(self.names((IMPORT, "--" + IMPORT)), {LABELS: "Table0"})

    def test_import_by_another_name(self):
        self.assertEqual(self.names((IMPORT, IMPORT.replace("1", "1 as Inverses")),
                                    (FIELD, FIELD.replace("Table1", "Inverses"))),
                         {LABELS: "Table0", INVERSES: "Inverses"})

    def test_import_of_two(self):
        self.edit(None, "\nabbrev pub Other : Type 0\nOther = ℕ\n",
                  "field/proofs/Constants.antt")
        self.assertEqual(self.names((IMPORT, IMPORT.replace("{", "{Other,\n  "))), BOTH)

    def test_name_that_says_nothing_learnt(self):
        for line in ("  → P 0 0\n", "--" + LEARNT, LEARNT.replace("reads", "of"),
                     LEARNT.replace("Learnt", "Learnt_not")):
            with self.subTest(line):
                self.setUp()
                self.edit(LEARNT, line, "field/proofs/Constants.antt")
                self.assertEqual(self.names(), {LABELS: "Table0"})

    def test_name_of_another_function(self):
        self.edit("inverses_from.Reads", "other.Reads", "field/proofs/Constants.antt")
        self.assertEqual(self.names(),
                         {LABELS: "Table0", "field::table::other": "Table1"})

    def test_texts(self):
        self.assertEqual(self.names((FIELD, '  pub a : ascii "Table1 -- \\" {-"\n')),
                         {LABELS: "Table0"})


class Unread(Statement):
    def refused(self, about, *edits):
        with self.assertRaisesRegex(Unreadable, about):
            self.names(*edits)

    def test_no_statement(self):
        (self.crates / STATEMENT).unlink()
        self.refused("crates/constants/specs/EveryTable.antt is not there")

    def test_no_tables_of_a_crate(self):
        (self.crates / "field/proofs/Constants.antt").unlink()
        self.refused("crates/field/proofs/Constants.antt is not there")

    def test_no_record(self):
        self.refused("no record EveryTable", ("record EveryTable", "record Other"))

    def test_record_in_a_comment(self):
        self.refused("no record EveryTable", ("pub record", "-- pub record"))

    def test_two_records(self):
        self.refused("no record EveryTable",
                     (None, "\npub record EveryTable : Type 0 where\n  pub a : ℕ\n"))

    def test_no_field(self):
        for line in ("  table_1 : Table1 (λ r. r)\n", "  pub mod Table1\n"):
            with self.subTest(line):
                self.setUp()
                self.refused("no field", (FIELD, line))

    def test_line_that_is_not_so_far_in(self):
        self.refused("not so far in", (FIELD, " pub a : Table1\n"))

    def test_comment_in_braces(self):
        for begins in ("{-\n", "{--\n"):
            with self.subTest(begins):
                self.setUp()
                self.refused("a comment in braces", (FIELD, begins + FIELD + "-}\n"))

    def test_name_that_is_not_there(self):
        self.edit(TABLE, TABLE.replace("Table1", "Other"),
                  "field/proofs/Constants.antt")
        self.refused("crates/field/proofs/Constants.antt: no Table1")


class Theorem(Statement):
    def test_it_is_there(self):
        self.assertTrue(is_proved(self.crates))

    def test_it_is_not(self):
        for line in ("", f"-- {LINE}", f"{LINE} → ℕ", f"  {LINE}", LINE[4:]):
            with self.subTest(line):
                self.setUp()
                self.edit(LINE, line, THEOREM)
                self.assertFalse(is_proved(self.crates))

    def test_no_file(self):
        (self.crates / THEOREM).unlink()
        with self.assertRaisesRegex(Unreadable, "proofs/EveryTable.antt is not there"):
            is_proved(self.crates)


if __name__ == "__main__":
    unittest.main()
