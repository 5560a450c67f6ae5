"""What audit/known.py does not understand it does not pass over.  What it finds is seen
by the forms of test_constants.py."""

import sys
import unittest

sys.dont_write_bytecode = True

from known import LONGEST, Walk
from lowered import Function, Program
from terms import Printed, Unreadable, term


def walk(text):
    """A walk through this, in a function of two bytes."""
    done = Walk(Program({}, {}), Function("a::b", [["ty_int", "w8"]] * 2, 1))
    done.walk(Printed("").plain(term(text)))
    return done


class Unknown(unittest.TestCase):
    def refused(self, about, text):
        with self.assertRaisesRegex(Unreadable, about):
            walk(text)

    def test_step(self):
        self.refused("the step jump", "(seq skip (jump 1))")

    def test_value(self):
        self.refused("the value op3", "(assign (place 0 []) (op3 max (int w8 1)))")

    def test_operand(self):
        self.refused("the operand other", "(assign (place 0 []) (rv_opd (other 1)))")

    def test_way(self):
        self.refused("the way index",
                     "(assign (place 0 []) "
                     "(rv_opd (copy (place 1 (◌∷◌ (index 1) [])))))")


    def test_constant(self):
        self.refused("the constant c_new", "(lend_static (place 0 []) ty_unit (c_new 1))")


class Constants(unittest.TestCase):
    """What is lent of the source."""

    def lent(self, constant):
        return walk(f"(lend_static (place 0 []) ty_unit {constant})")

    def test_arrays_are_written_out(self):
        byte = "(c_int w8 7)"
        for constant, values in (
                ("(c_ints w8 (◌∷◌ 1 (◌∷◌ 2 [])))", (1, 2)), (f"(c_repeat {byte} 3)", (7, 7, 7)),
                (f"(c_parts (ccons {byte} (ccons (c_parts (ccons {byte} cnil)) cnil)))",
                 (7, (7,)))):
            self.assertEqual([values for *_, values in self.lent(constant).made], [values])

    def test_others_are_not(self):
        for constant in ("(c_int w8 7)", "(c_bool true)", "(c_float binary64 7)", "c_unit"):
            self.assertEqual(self.lent(constant).made, [])

    def test_it_is_known_behind_its_address(self):
        two = "(lend_static (place 0 []) ty_unit (c_int w8 7))"
        read = "(rv_opd (copy (place 0 (◌∷◌ (deref (ty_int w8)) []))))"
        self.assertEqual(walk(f"(seq {two} (assign (place 1 []) {read}))").known[1], 7)


class Texts(unittest.TestCase):
    def test_long_ones_are_new(self):
        walk = Walk(Program({}, {}), None)
        self.assertEqual(walk.text("a", 1), "(a 1)")
        self.assertEqual(walk.text("a" * LONGEST), "?1")
        self.assertEqual(walk.text("a" * LONGEST), "?2")


if __name__ == "__main__":
    unittest.main()
