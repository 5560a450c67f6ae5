"""audit/source.py leaves out contracts and nothing else, and knows on what the code of a
function depends: the compiler takes that much alone."""

import sys
import unittest
from pathlib import Path

sys.dont_write_bytecode = True

from planted import InFolder, planted
from plants import ARRAYS, before, behind
from source import (ROOT, Source, Unread, code_of, end, has_closure, has_code, imports, items, leaves, listed,
                    needs, renamed, root, told, with_modules, without_contracts)

CONTRACTS = '''// No requires { here }.
#![tactic(auto)]
ghost use a.b.{c, d};

#[tactic(auto, unfolding(a))]
pub fn f<'a>(x: &'a [u8; 3]) -> u8
    requires low { x.now ≡ { a } }
    ensures* { "}" }
{
    let ensured = '{'; // ghost {
    g(x, b"requires { \\" }")
}

pub trait T {
    ghost empty: { Self };
    fn m(self) -> u8
        ensures { a };
}
'''

CODE = '''// No requires { here }.




pub fn f<'a>(x: &'a [u8; 3]) -> u8


{
    let ensured = '{'; // ghost {
    g(x, b"requires { \\" }")
}

pub trait T {

    fn m(self) -> u8
                     ;
}
'''


class Contracts(unittest.TestCase):
    def test_they_are_left_out(self):
        left = without_contracts(CONTRACTS).split("\n")
        self.assertEqual([line.rstrip() for line in left], CODE.split("\n"))

    def test_in_the_source_nothing_else_goes(self):
        seen = 0
        for path in (ROOT / "crates").glob("*/src/**/*.rt"):
            text = path.read_text()
            code = without_contracts(text)
            self.assertEqual(len(code), len(text))
            for one, other in zip(text.split("\n"), code.split("\n"), strict=True):
                if one != other:
                    seen += 1
                    self.assertRegex(one, r"^\s*(requires|ensures|ghost use|#!?\[tactic|\S.*)")
            self.assertNotRegex(code_of(code), r"\b(requires|ensures|ghost)\b")
            self.assertEqual(code_of(text).count(" fn "), code_of(code).count(" fn "))
        self.assertGreater(seen, 300)

    def test_what_is_told(self):
        self.assertEqual(told('a // b\n  "c  d" /* e */ f\n\ng'), 'a "c  d" f g')

    def test_brackets_that_do_not_match(self):
        for code in ("a ) b", "( a", "requires { a"):
            with self.subTest(code), self.assertRaises(Unread):
                end(code, 0, ";")


class Items(unittest.TestCase):
    def test_kinds(self):
        text = ("use a::b;\nmod c;\n#[derive(Clone, Copy)]\npub struct S { x: [u8; 3] }\n"
                "struct T(u8);\nenum E { A { x: u8 }, B }\nconst N: [u8; 1] = [{ 3 }];\n"
                "type A = [u8; N];\npub(crate) fn f() -> u8 { { 1 }; 2 }\n"
                '#[unsafe(no_mangle)]\npub extern "C" fn g() {}\n// the end\n')
        found = items(text)
        self.assertEqual([(item.kind, item.name) for item in found],
                         [("use", "b"), ("mod", "c"), ("struct", "S"), ("struct", "T"),
                          ("enum", "E"), ("const", "N"), ("type", "A"), ("fn", "f"), ("fn", "g")])
        self.assertEqual(found[7].head + "|" + found[7].body,
                         "pub(crate) fn f() -> u8 |{ { 1 }; 2 }")
        self.assertEqual(found[2].text, "#[derive(Clone, Copy)]\npub struct S { x: [u8; 3] }")
        for item in found[1:]:
            self.assertTrue(text[item.begins:].startswith(item.text))

    def test_what_is_not_plain(self):
        for text in ("impl S { fn f( }", "mod a { fn f() {} }", "fn broken( {", "let x = 1;",
                     "trait T {}", "fn f() {} }"):
            with self.subTest(text), self.assertRaises(Unread):
                items(text)

    def test_methods(self):
        text = ("impl<'a> S<'a> {\n    pub fn f(self) {}\n\n    // fn g\n    fn h(self) {}\n}\n"
                "impl From<R> for S<'_> { fn from(r: R) -> S { S(r) } }\nfn i() {}\n")
        found = items(text)
        self.assertEqual([item.functions for item in found],
                         [["S::f", "S::h"], ["SFromR::from"], ["i"]])
        self.assertEqual([item.name for item in found], ["S", "S", "i"])
        for item in found:
            self.assertTrue(text[item.begins:].startswith(item.text))

    def test_closures(self):
        for text in ("f(|x| x)", "f(a, || b)", "let f = move |x| x;"):
            self.assertTrue(has_closure(text), text)
        for text in ("a || b", "x |= y", "match x { 1 | 2 => 3 }", "// f(|x| x)"):
            self.assertFalse(has_closure(text), text)

    def test_imports(self):
        self.assertEqual(leaves("a::{b, c::{d as e, self}, f}"),
                         ["a::b", "a::c::d as e", "a::c", "a::f"])
        self.assertEqual([(item.name, item.head) for item in
                          imports(0, "pub use a::{b,\n    c as d};")],
                         [("b", "pub use a::b;"), ("d", "pub use a::c as d;")])


class Crates(InFolder):
    def written(self, **files):
        """Whether a crate of these files has code."""
        (self.crates / "src").mkdir(exist_ok=True)
        for name, text in files.items():
            (self.crates / "src" / f"{name}.rt").write_text(text)
        return has_code(self.crates)

    def test_code(self):
        self.assertTrue(self.written())     # the compiler says that there is no file
        self.assertFalse(self.written(
            lib="// Statements.\n#![tactic(auto)]\nghost use a.{b};\n\n  // No code.\n"))
        self.assertTrue(self.written(more="fn f() {}\n"))

    def test_root(self):
        self.written(lib="")
        self.assertEqual(root(self.crates).name, "lib.rt")
        self.written(main="")
        self.assertEqual(root(self.crates).name, "main.rt")

    def test_needs(self):
        own, theirs = needs()
        self.assertIn("capi", own)
        self.assertNotIn("cabinet", own)
        self.assertEqual(theirs, ["std"])
        self.assertIn("io", needs(["cabinet"])[1])


class Depends(InFolder):
    """Which functions have another key after an edit."""

    def keys(self, *edits):
        planted(edits, self.crates, listed())
        own = [name for name in listed() if has_code(self.crates / name)]
        source = Source(self.crates, own)
        return {name: source.key(name, "the kit") for name in source.functions}

    def changed(self, *edits):
        before_them = self.keys()
        self.setUp()
        after = self.keys(*edits)
        return {name for name in after if after[name] != before_them.get(name)}

    def test_body(self):
        self.assertEqual(self.changed(*ARRAYS["array in read"].edits), {"block::read"})

    def test_comment_of_another(self):
        self.assertEqual(self.changed(behind("block", "// nothing\n")), set())

    def test_contract(self):
        self.assertEqual(self.changed(
            ("block", "lib", "    ensures { cause_number result ≡ lengths_cause n o }\n", "")), set())

    def test_new_item(self):
        self.assertEqual(self.changed(behind("block", "\nfn new() {}\n")), {"block::new"})

    def test_head(self):
        found = self.changed(("block", "lib", "fn was_corrected(r:", "fn was_corrected(x:"),
                             ("block", "lib", "    r.is_ok()\n", "    x.is_ok()\n"))
        self.assertEqual(found, {"block::was_corrected", "block::record_part"})

    def test_constant(self):
        self.assertEqual(self.changed(("code", "lib", "const LABELS: [u8; 45] = [",
                                       "const LABELS: [u8; 45] = [0 + ")), {"code::labels"})

    def test_type_in_another_crate(self):
        found = self.changed(("sums", "lib", "    pub squared: u8,\n",
                              "    pub squared: u8,\n    pub more: u8,\n"))
        self.assertLessEqual({"sums::of_block", "decode::decode", "decode::no_marks",
                              "block::read", "store::write"}, found)
        self.assertFalse({"field::mul", "marks::mark", "text::Text::put"} & found)

    def test_import(self):
        found = self.changed(("capi", "encode", "use answer::{Refusal, Totals};",
                              "use answer::{Refusal as Other, Totals};"))
        self.assertIn("capi::encode::of_outcome", found)
        self.assertFalse({"capi::livomashen_report", "capi::encode::of_totals"} & found)

    def test_the_kit(self):
        source = Source(ROOT / "crates", ["code"])
        self.assertNotEqual(source.key("code::labels", "one"), source.key("code::labels", "other"))

    def test_pruned(self):
        found = self.whole().pruned(["block::copy_sixteen"])
        self.assertEqual([list(files) for files in found.values()], [[Path("lib.rt")]])
        text = found["block"][Path("lib.rt")]
        self.assertIn("fn copy_sixteen(from: &[u8; 45], to: &mut [u8; 45], start: usize)", text)
        self.assertIn("piece.copy_from_slice", text)
        self.assertEqual(text.count("{ loop {} }"), text.count("fn ") - 1)
        self.assertNotIn("four_unclean", text)
        whole = (ROOT / "crates" / "block" / "src" / "lib.rt").read_text().split("\n")
        for number, line in enumerate(text.split("\n")):
            self.assertTrue(not line.strip() or "loop" in line
                            or line.rstrip() == whole[number].rstrip(), line)

    def test_module(self):
        text = self.whole().module(["capi::encode::of_outcome", "sums::is_zero"], "crate::at")
        said = told(text)
        self.assertRegex(said, r"pub mod answer \{.*\} pub mod sums \{.*\} pub mod capi \{.*\}$")
        self.assertRegex(said, r"mod encode \{ ?use crate::at::answer::Refusal; .*fn of_outcome\(")
        self.assertNotIn("use answer::", said)

    def whole(self):
        return Source(ROOT / "crates",
                      [name for name in listed() if has_code(ROOT / "crates" / name)])


class Modules(unittest.TestCase):
    def test_in_one_another(self):
        files = {Path("main.rt"): "pub mod a; fn f() {}", Path("a.rt"): "mod b;",
                 Path("a/b.rt"): "mod c;", Path("a/b/c.rt"): "fn g() {}"}
        self.assertEqual(with_modules(Path("main.rt"), files),
                         "pub mod a {mod b {mod c {fn g() {}}}} fn f() {}")

    def test_names_of_crates(self):
        self.assertEqual(renamed('a::b(a, c::a::d, ab::c, "a::b", e::f) // a::b',
                                 ["a", "e"], "z", "z::y"),
                         'z::a::b(a, c::a::d, ab::c, "a::b", z::e::f) // a::b')
        self.assertEqual(renamed("a::b", [], "z", "z::y"), "a::b")
        self.assertEqual(renamed("use crate::a::b; crate::c(a::crate_d)", ["a"], "z", "z::y"),
                         "use z::y::a::b; z::y::c(z::a::crate_d)")

    def test_exports(self):
        self.assertEqual(renamed('#[unsafe(no_mangle)]\npub extern "C" fn f()', [], "z", "z::y"),
                         "\npub fn f()")


if __name__ == "__main__":
    unittest.main()
