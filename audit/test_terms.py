"""audit/terms.py reads code as the compiler prints it, and as a library of the kit has it,
into the same terms; what it does not understand it does not pass over."""

import sys
import unittest

sys.dont_write_bytecode = True

from terms import EMPTY, Held, Printed, Unreadable, at, items, parts, term

MODULE = """-- the `use` lines below are this print's own: the module states none of them
use Rattle.a.proofs.in.twice.Symbol
use Rattle.core.proofs.slice.slice+T.swap.Symbol as Symbol'
use Rattle.a.specs.contracts.again.Key
use mathlib.Core.List
use mir.Syntax

abbrev pub by_name-locals : List.List Syntax.Local
by_name-locals = List.◌∷◌ (Syntax.local (Syntax.ty_named (
  List.◌∷◌ 97 (List.◌∷◌ 58 (List.◌∷◌ 58 (List.◌∷◌ 83 List.[]))),
  List.[],
) Syntax.tnil) Syntax.value_local)
    (List.◌∷◌
    (Syntax.local
    (Syntax.ty_ref (Syntax.named 0) Syntax.mut (Syntax.ty_int Syntax.w8))
    Syntax.value_local)
    List.[])

abbrev pub by_name-s-1 : Syntax.Body
by_name-s-1 =
    Syntax.call Symbol.name (List.◌∷◌ (Syntax.int_neg Syntax.w8 1) List.[]) (Syntax.place 0 List.[])

abbrev pub by_name-s-2 : Syntax.Body
by_name-s-2 = Syntax.call (Symbol'.name (
      Syntax.tcons (Syntax.ty_int Syntax.w8) Syntax.tnil,
      Syntax.dcons (Syntax.impl (List.◌∷◌ "core::clone::U8Clone::clone" List.[]) Syntax.tnil Syntax.dnil) Syntax.dnil,
    )) List.[] (Syntax.place 0 (List.◌∷◌ (Syntax.deref (Syntax.ty_int Syntax.w8)) List.[]))

abbrev pub by_name-t-1 : Syntax.Body
by_name-t-1 = Syntax.seq by_name-s-1 (Syntax.seq by_name-s-2 (Syntax.call Key.name List.[] (Syntax.place 0 List.[])))

abbrev pub by_name : Syntax.Fn
by_name = record {
  params = 1;
  locals = by_name-locals;
  body = by_name-t-1;
}

abbrev pub table : Table.Table
table = List.◌∷◌ (
  List.◌∷◌ 97 (List.◌∷◌ 58 (List.◌∷◌ 58 (List.◌∷◌ 83 List.[]))),
  List.[],
  Table.fields (Syntax.tcons (Syntax.ty_int Syntax.w8) Syntax.tnil),
) List.[]

abbrev pub function : Syntax.Fn
function = MapTy.spell_fn table by_name
"""

U8 = ["ty_int", "w8"]
PLACE = ["place", "0", EMPTY]


class Terms(unittest.TestCase):
    def test_text(self):
        self.assertEqual(term("a (b, c d) {x = e; y = f g;}"),
                         ["a", ["tuple", "b", ["c", "d"]], {"x": "e", "y": ["f", "g"]}])
        self.assertEqual(term("Syntax.copy (List'.◌∷◌ 1 List.[])"), ["copy", ["◌∷◌", "1", "[]"]])

    def test_what_is_no_text(self):
        for text in ("", "a (", "a )", "(a }", "a ()"):
            with self.subTest(text), self.assertRaises(Unreadable):
                term(text)

    def test_lists(self):
        self.assertEqual(items(["list", "a", "b"]), ["a", "b"])
        for other in ("a", ["pair", "a"], []):
            with self.subTest(other), self.assertRaisesRegex(Unreadable, "no list"):
                items(other)

    def test_parts(self):
        self.assertEqual(list(parts(["a", ["b"], "c", ["d", ["e"]]])),
                         [["a", ["b"], "c", ["d", ["e"]]], ["b"], ["d", ["e"]], ["e"]])


class Modules(unittest.TestCase):
    def test_function(self):
        code, types = Printed(MODULE).function()
        self.assertEqual(code["params"], "1")
        self.assertEqual([local[1] for local in items(code["locals"])],
                         [["ty_named", "a::S", EMPTY], ["ty_ref", "mut", U8]])
        self.assertEqual(types, [("a::S", ["fields", [*EMPTY, U8]])])

    def test_calls(self):
        _, first, (_, second, third) = Printed(MODULE).function()[0]["body"]
        self.assertEqual(first, ["call", ["fn", "a::in::twice", EMPTY, EMPTY],
                                 [*EMPTY, ["int", "w8", "255"]], PLACE])
        impl = ["impl", [*EMPTY, "core::clone::U8Clone::clone"], EMPTY, EMPTY]
        self.assertEqual(second[1], ["fn", "core::slice::slice+T::swap", [*EMPTY, U8],
                                     [*EMPTY, impl]])
        self.assertEqual(third[1], ["fn", "a::again", EMPTY, EMPTY])

    def test_other_ways_to_a_name(self):
        for old, new in (("Rattle.core.", "Rattle.io.below.core."),
                         ("Rattle.a.proofs.", "Rattle.copies.proofs.copy12.a."),
                         ("Rattle.a.specs.contracts.", "Rattle.copies.specs.contracts.copy1.a.")):
            self.assertIn(old, MODULE)
            self.assertEqual(Printed(MODULE.replace(old, new)).function(),
                             Printed(MODULE).function())

    def test_without_types(self):
        text = "abbrev pub function : Syntax.Fn\nfunction = record {\n  params = 0;\n}\n"
        self.assertEqual(Printed(text).function(), ({"params": "0"}, []))

    def test_others(self):
        for text in ("", "abbrev pub other : Syntax.Fn\nother = record { }\n",
                     MODULE.replace("pub table :", "pub tables :")):
            with self.subTest(text), self.assertRaises(Unreadable):
                Printed(text).function()

    def test_tail_that_is_no_list(self):
        with self.assertRaisesRegex(Unreadable, "no list"):
            Printed("").plain(term("◌∷◌ a b"))

    def test_method_and_numbers(self):
        self.assertEqual(Printed("").plain(term("method (given 0) 1 (tnil, dnil)")),
                         ["method", ["given", "0"], "1", EMPTY, EMPTY])
        self.assertEqual(Printed("").plain(term("int_big w16 4096")), ["int", "w16", "4096"])


COPY = {"Copy": {"local": 1, "steps": [{"Field": 0}, {"Deref": {"Param": 0}}]}}
IMPL = {"name": "a::Impl", "methods": ["a::Impl::one"]}


class OfTheKit(unittest.TestCase):
    def held(self, *body, types=(), locals_=({"Int": 8},)):
        return Held({"params": 1, "types": list(types), "body": list(body),
                     "generics": {"types": [{"const_bits": None}, {"const_bits": 64}],
                                  "bounds": [{}], "impls": [IMPL]},
                     "locals": [{"ty": kind, "home": "ValueLocal"} for kind in locals_]})

    def read(self, *body):
        return self.held(*body).function()["body"]

    def test_types(self):
        for held, kind in (
                ("Unit", "ty_unit"), ("Ptr", "ty_ptr"), ({"Int": 8}, U8),
                ({"Param": 1}, ["ty_param", "1"]), ({"Array": [{"Int": 8}, {"Lit": 9}]},
                                                    ["ty_array", U8, "9"]),
                ({"Array": [{"Int": 8}, {"Param": 1}]}, ["ty_array_p", U8, "1"]),
                ({"Ref": ["Erased", "Mut", {"Int": 8}]}, ["ty_ref", "mut", U8]),
                ({"Struct": ["&[]", [{"Int": 8}]]}, ["ty_struct", "&[]", [*EMPTY, U8]]),
                ({"Named": [{"name": "a::S"}, ["Unit"]]}, ["ty_named", "a::S",
                                                           [*EMPTY, "ty_unit"]])):
            read = self.held("Return", locals_=[held]).function()
            self.assertEqual(items(read["locals"])[0][1], kind)
        self.assertEqual(read["ty_params"], [*EMPTY, "a_type", "a_number"])

    def test_declared(self):
        types = [{"name": "a::S", "shape": {"Fields": [{"Int": 8}]}},
                 {"name": "a::E", "shape": {"Variants": [[], ["Unit"]]}}]
        self.assertEqual(list(self.held("Return", types=types).types()),
                         [("a::S", ["fields", [*EMPTY, U8]]),
                          ("a::E", ["variants", [*EMPTY, EMPTY, [*EMPTY, "ty_unit"]]])])

    def test_body(self):
        copy = ["copy", ["place", "1", [*EMPTY, ["field", "0"],
                                        ["deref", ["ty_param", "0"]]]]]
        place = {"local": 0, "steps": []}
        call = {"Call": [{"Method": [{"Impl": ["a::Impl", [], []]}, 0,
                                     {"types": ["Unit"], "dicts": [{"Given": 0}]}]},
                         [COPY, "True"], place]}
        self.assertEqual(
            self.read("Seq", call, "Loop", {"If": COPY}, {"Exit": 1}, "Return"),
            ["seq", ["call", ["method", ["impl", [*EMPTY, "a::Impl::one"], EMPTY, EMPTY], "0",
                              [*EMPTY, "ty_unit"], [*EMPTY, ["given", "0"]]],
                     [*EMPTY, copy, "opd_true"], PLACE],
             ["loop", ["cond", copy, ["exit", "1"], "return"]]])
        lower = {"Op2": [{"Lt": "Unsigned"}, COPY, {"Int": {"width": 8, "value": 3}}]}
        self.assertEqual(self.read({"Assign": [place, lower]}),
                         ["assign", PLACE, ["op2", ["lt", "unsigned"], copy,
                                            ["int", "w8", "3"]]])

    def test_switch(self):
        arms = ["arm", [*EMPTY, "0"], "skip", ["arm", [*EMPTY, "1", "2"], "return", "{}"]]
        for has_default, last in ((True, ["default", "unreachable"]), (False, "no_default")):
            read = self.read({"Switch": ["Unit", [[0], [1, 2]], has_default]}, "Skip", "Return",
                             *["Unreachable"] * has_default)
            arms[3][3] = last
            self.assertEqual(read, ["switch", "opd_unit", arms])

    def test_others(self):
        place = {"local": 0, "steps": []}
        for body in ({"LendStatic": [place, "Unit", "Unit"]}, {"Jump": 1}, 7,
                     {"Call": [{"Prim": "Load"}, [], place]},
                     {"Assign": [place, {"Select": []}]},
                     {"Assign": [place, {"Opd": {"Float": {"width": 32, "bits": 0}}}]}):
            with self.subTest(body), self.assertRaises(Unreadable):
                self.read(body)
        with self.assertRaisesRegex(Unreadable, "the type Vector"):
            self.held("Return", locals_=[{"Vector": []}]).function()


class AtTypes(unittest.TestCase):
    def test_filled(self):
        for generic, found in ((["ty_param", "1"], ["ty_const", "4"]), (["given", "0"], "d"),
                               (["ty_array_p", ["ty_param", "0"], "1"], ["ty_array", U8, "4"]),
                               (["repeat_p", "opd_unit", "1"], ["repeat", "opd_unit", "4"]),
                               (["a", ["b", ["ty_param", "0"]]], ["a", ["b", U8]])):
            self.assertEqual(at(generic, [U8, ["ty_const", "4"]], ["d"]), found)
        self.assertEqual(at(["ty_param", "0"], [], []), ["ty_param", "0"])

    def test_not_filled(self):
        for generic, about in ((["ty_param", "2"], "without its argument"),
                               (["given", "0"], "without its argument"),
                               (["ty_array_p", U8, "0"], "a length that is no number")):
            with self.assertRaisesRegex(Unreadable, about):
                at(generic, [U8, ["ty_const", "4"]], [])


if __name__ == "__main__":
    unittest.main()
