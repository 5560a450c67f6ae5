"""audit/tables.py takes for a table what is filled with constants and then only read."""

import sys
import unittest

sys.dont_write_bytecode = True

from lowered import Function
from tables import tables
from terms import Printed, term

U8 = ["ty_int", "w8"]
WHOLE = ["ty_array", U8, "45"]
MADE = '(call (fn "t::made" tnil dnil) [] (place 0 []))'
COPIED = "(assign (place 1 []) (rv_opd (copy (place 0 []))))"


class Tables(unittest.TestCase):
    """Values 0 and 1 are arrays, 2 and 3 pointers, 4 and 5 references that read and
    write, 6 a byte and 7 a struct; t::made makes a table."""

    def found(self, *steps, name="t::user", handed=0):
        values = [WHOLE, WHOLE, "ty_ptr", "ty_ptr", ["ty_ref", "imm", U8],
                  ["ty_ref", "mut", U8], U8, ["ty_named", "t::S", ["list"]]]
        body = "return"
        for step in reversed(steps):
            body = ["seq", Printed("").plain(term(step)), body]
        return tables(Function(name, values, handed, body), {0, 1}, {"t::made"})

    def test_made(self):
        self.assertEqual(self.found(MADE), {0})
        self.assertEqual(self.found(MADE, COPIED), {0, 1})

    def test_made_by_another(self):
        self.assertEqual(self.found(MADE.replace("made", "other"), COPIED), set())

    def test_made_twice(self):
        self.assertEqual(self.found(MADE, MADE), {0})
        self.assertEqual(self.found(MADE, MADE.replace("made", "other")), set())

    def test_never_made(self):
        self.assertEqual(self.found(), set())
        self.assertEqual(self.found(COPIED), set())

    def test_parameter(self):
        self.assertEqual(self.found(MADE, COPIED, handed=1), {0})

    def test_constants(self):
        for filled in ("(aggregate (◌∷◌ (int w8 1) (◌∷◌ (int w8 2) [])))",
                       "(repeat (int w8 7) 45)"):
            step = f"(assign (place 0 []) {filled})"
            self.assertEqual(self.found(step, name="t::made"), {0})
            self.assertEqual(self.found(step), set())

    def test_no_constants(self):
        for filled in ("(aggregate (◌∷◌ (int w8 1) (◌∷◌ (copy (place 6 [])) [])))",
                       "(repeat (copy (place 6 [])) 45)",
                       "(op2 bit_xor (int w8 1) (int w8 2))"):
            step = f"(assign (place 0 []) {filled})"
            self.assertEqual(self.found(step, name="t::made"), set())

    def test_numbers_of_copies(self):
        for filled in ("(repeat (copy (place 0 [])) 5)", "(rv_opd (int w8 1))"):
            self.assertEqual(self.found(MADE, f"(assign (place 1 []) {filled})"), {0})

    def test_part_of_it_written(self):
        part = "(assign (place 0 (◌∷◌ (field 1) [])) (rv_opd (copy (place 1 []))))"
        self.assertEqual(self.found(MADE, COPIED, part), set())

    def test_part_of_another_written(self):
        part = "(assign (place 7 (◌∷◌ (field 1) [])) (int w8 1))"
        self.assertEqual(self.found(MADE, *self.POINTED, part), {0})

    def test_part_of_another_copied(self):
        part = COPIED.replace("(place 0 [])", "(place 0 (◌∷◌ (field 1) []))")
        self.assertEqual(self.found(MADE, part), {0})

    def test_lent(self):
        for to, kept in ((4, {0}), (5, set()), (6, set()), (7, set())):
            lent = f"(assign (place {to} []) (addr_of (place 0 [])))"
            self.assertEqual(self.found(MADE, lent), kept, to)

    def test_lent_into_a_part(self):
        for to in (2, 4):
            lent = (f"(assign (place {to} (◌∷◌ (field 0) [])) (addr_of (place 0 [])))")
            self.assertEqual(self.found(MADE, lent), set())

    POINTED = ("(assign (place 2 []) (addr_of (place 0 [])))",
               "(assign (place 3 []) (op2 offset (copy (place 2 [])) (int w64 8)))")
    BEHIND = "(place 3 (◌∷◌ (deref (ty_int w8)) []))"

    def test_read_by_a_pointer(self):
        read = f"(assign (place 6 []) (rv_opd (copy {self.BEHIND})))"
        lent = f"(assign (place 4 []) (addr_of {self.BEHIND}))"
        self.assertEqual(self.found(MADE, *self.POINTED, read, lent), {0})

    def test_written_by_a_pointer(self):
        for step in (f"(assign {self.BEHIND} (int w8 1))",
                     f'(call (fn "t::byte" tnil dnil) [] {self.BEHIND})',
                     f"(assign (place 5 []) (addr_of {self.BEHIND}))"):
            self.assertEqual(self.found(MADE, *self.POINTED, step), set(), step)
            # The order in which it is written down makes no difference.
            self.assertEqual(self.found(step, *reversed(self.POINTED), MADE), set(), step)

    def test_pointer_handed_on(self):
        for step in ("(assign (place 7 []) (rv_opd (copy (place 3 []))))",
                     "(assign (place 7 []) (op2 new (copy (place 3 [])) (int w64 1)))",
                     "(assign (place 7 []) (aggregate (◌∷◌ (copy (place 3 [])) [])))",
                     '(call (fn "t::take" tnil dnil) (◌∷◌ (copy (place 3 [])) []) '
                     "(place 6 []))"):
            self.assertEqual(self.found(MADE, *self.POINTED, step), set(), step)


if __name__ == "__main__":
    unittest.main()
