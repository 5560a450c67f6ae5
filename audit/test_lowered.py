"""What audit/lowered.py does not understand it does not pass over."""

import sys
import unittest

sys.dont_write_bytecode = True

from buffers import refusals
from lowered import Function, Program, called, program
from terms import EMPTY, Printed, Unreadable, term


def function(kind, body="return", types=""):
    """A module with the code of a function that has one value."""
    locals_ = f"◌∷◌ (Syntax.local {kind} Syntax.value_local) List.[]"
    return (f"use a.b.C\n\nabbrev pub function : Syntax.Fn\nfunction = record {{\n"
            f"  ty_params = List.[];\n  params = 0;\n  locals = {locals_};\n"
            f"  body = {body};\n}}\n{types}")


def of(kind, body="return", name="a::b"):
    return program({name: function(kind, body)})


U8 = ["ty_int", "w8"]
PAIR = ["ty_named", "a::S", EMPTY]
NOTHING = Program({}, {})


def slice_of(mut):
    """A slice of bytes: where it begins, and its length."""
    return ["ty_struct", "&[]", [*EMPTY, ["ty_ref", mut, U8], ["ty_int", "w64"]]]


def plain(text):
    return Printed("").plain(term(text))


class Types(unittest.TestCase):
    def test_as_the_source_writes_them(self):
        for kind, written in ((U8, "u8"), (["ty_float", "binary64"], "f64"),
                              ("ty_bool", "bool"), (["ty_array", U8, "9"], "[u8; 9]"),
                              (["ty_ref", "imm", U8], "&u8"),
                              (["ty_ref", "mut", U8], "&mut u8"),
                              (slice_of("imm"), "&[u8]"), (slice_of("mut"), "&mut [u8]"),
                              (PAIR, "a::S"),
                              ([*PAIR[:2], [*EMPTY, U8, ["ty_const", "4"]]], "a::S<u8, 4>")):
            self.assertEqual(NOTHING.written(kind), written)

    def test_references_hold_nothing(self):
        for kind in ("ty_ptr", ["ty_ref", "mut", U8], slice_of("imm")):
            self.assertEqual((NOTHING.size(kind), NOTHING.array_bytes(kind)), (0, 0))
            self.assertTrue(NOTHING.refers(kind))
            self.assertTrue(NOTHING.refers(["ty_array", kind, "2"]))

    def test_others_refer_to_nothing(self):
        for kind, size in (("ty_unit", 0), ("ty_bool", 1), (U8, 1),
                           (["ty_float", "binary32"], 4), (["ty_array", U8, "9"], 9)):
            self.assertEqual(NOTHING.size(kind), size)
            self.assertFalse(NOTHING.refers(kind))

    def test_struct_at_a_type(self):
        made = Program({}, {"a::S": ["fields", [*EMPTY, U8, ["ty_param", "0"]]]})
        kind = [*PAIR[:2], [*EMPTY, ["ty_array", U8, "9"]]]
        self.assertEqual((made.size(kind), made.array_bytes(kind)), (10, 9))

    def test_enum(self):
        made = Program({}, {"a::S": ["variants", [*EMPTY, EMPTY, [*EMPTY, U8, U8]]]})
        self.assertEqual(made.size(PAIR), 3)


class Unknown(unittest.TestCase):
    def size(self, made):
        made.size(made.functions["a::b"].values[0])

    def test_type(self):
        with self.assertRaisesRegex(Unreadable, "ty_new"):
            self.size(of("(Syntax.ty_new 3)"))

    def test_type_that_is_not_declared(self):
        for made in (Program({}, {}), Program({}, {"a::S": ["union", EMPTY]})):
            with self.assertRaisesRegex(Unreadable, "a::S"):
                made.size(PAIR)

    def test_type_to_write(self):
        with self.assertRaisesRegex(Unreadable, "ty_new"):
            NOTHING.written(["ty_new", "3"])

    def test_two_types_of_a_name(self):
        with self.assertRaisesRegex(Unreadable, "a::S is two types"):
            NOTHING.declare([("a::S", ["fields", EMPTY]), ("a::S", ["variants", EMPTY])])

    def test_step(self):
        with self.assertRaisesRegex(Unreadable, "the step jump"):
            of("Syntax.ty_bool", "Syntax.seq Syntax.skip (Syntax.jump 1)")

    def test_length(self):
        with self.assertRaisesRegex(Unreadable, "ty_array_p"):
            self.size(of("(Syntax.ty_array_p (Syntax.ty_int Syntax.w8) 3)"))

    def test_call_of_no_function_by_name(self):
        for callee in ("(Syntax.prim Syntax.loaded)", "(Syntax.forked Syntax.tnil C.name)"):
            with self.assertRaisesRegex(Unreadable, "by name"):
                of("Syntax.ty_bool", f"Syntax.call {callee} List.[] (Syntax.place 0 List.[])")
        with self.assertRaisesRegex(Unreadable, "the step call_v"):
            of("Syntax.ty_bool", "Syntax.call_v Syntax.opd_unit 1 List.[] 1")

    def test_function_without_a_body(self):
        call = '(call (fn "c::d" tnil dnil) [] (place 0 []))'
        made = Program({"a::b": Function("a::b", ["ty_bool"], 0, plain(call))}, {}, True)
        with self.assertRaisesRegex(Unreadable, "c::d is called, and has no body"):
            made.reached(["a::b"])

    def test_call_that_is_not_there(self):
        with self.assertRaisesRegex(Unreadable, "block::read"):
            refusals(of("Syntax.ty_bool"))


CALL = "(call {} (◌∷◌ opd_unit []) (place 0 []))"
FILL = '(fn "a::fill" (tcons (ty_int w8) tnil) {})'
IMPL = '(impl (◌∷◌ "a::one" (◌∷◌ "a::other" [])) (tcons (ty_int w16) tnil) dnil)'


class Calls(unittest.TestCase):
    """a::fill is for any type, and calls a method of what it is handed; a::other is one,
    for any type, too."""

    def program(self, dictionary):
        method = "(method (given 0) 1 (tuple tnil dnil))"
        kinds = [["ty_array", ["ty_param", "0"], "2"]]
        bodies = {"a::start": CALL.format(FILL.format(f"(dcons {dictionary} dnil)")),
                  "a::fill": CALL.format(method), "a::one": "return", "a::other": "return"}
        return Program({name: Function(name, kinds if name != "a::start" else ["ty_unit"], 0,
                                       plain(body.replace("(tuple tnil dnil)", "(tnil, dnil)")))
                        for name, body in bodies.items()}, {})

    def test_what_is_reached_at_its_types(self):
        made = self.program(IMPL)
        found = made.reached(["a::start"])
        self.assertEqual([function.name for function in found],
                         ["a::start", "a::fill<u8>", "a::other<u16>"])
        self.assertEqual([made.size(function.values[0]) for function in found], [0, 2, 4])
        self.assertEqual([function.name for function in
                          made.reached(["a::start"], {"a::fill<u8>"})], ["a::start"])

    def test_what_is_mentioned(self):
        self.assertEqual(self.program(IMPL).mentioned(["a::start"]),
                         {"a::start", "a::fill", "a::one", "a::other"})
        self.assertEqual(self.program(IMPL).mentioned(["a::fill"]), {"a::fill"})

    def test_method_of_something_handed_in(self):
        with self.assertRaisesRegex(Unreadable, "a method of"):
            self.program("(given 0)").reached(["a::fill"])
        with self.assertRaisesRegex(Unreadable, "a parameter 0 without"):
            self.program(IMPL).reached([plain(FILL.format("dnil"))])

    def test_what_is_called(self):
        for callee, name in ((FILL.format("dnil"), "a::fill"),
                             ("(method (given 0) 1 (tnil, dnil))", "method 1 of 0")):
            self.assertEqual(called(plain(CALL.format(callee))), name)


class OfTheKit(unittest.TestCase):
    def test_copy(self):
        made = Program({}, {}, True)
        copy = plain('(fn "core::slice::edits::slice+T::copy_from_slice" '
                     "(tcons (ty_int w8) tnil) (dcons (impl (◌∷◌ "
                     '"core::clone::U8Clone::clone" []) tnil dnil) dnil))')
        found = made.reached([copy])
        self.assertEqual(found[0].name, "core::slice::edits::slice+T::copy_from_slice<u8>")
        self.assertEqual([made.written(kind) for kind in found[0].parameters],
                         ["&mut [u8]", "&[u8]"])
        self.assertGreater(len(found), 3)
        self.assertTrue(all(function.name.startswith("core::") for function in found))


if __name__ == "__main__":
    unittest.main()
