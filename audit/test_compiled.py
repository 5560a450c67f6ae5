"""audit/compiled.py has the compiler print what is new, keeps it, and takes what it kept."""

import sys
import unittest
from pathlib import Path
from unittest import mock

sys.dont_write_bytecode = True

import compiled
import plants
from compiled import Copy, name_of, together
from planted import InFolder, planted, replaced
from plants import ARRAYS
from source import listed
from terms import Unreadable


class Names(unittest.TestCase):
    def test_functions(self):
        for path, name in (("Rattle-a-proofs/f/Code/Mir.antt", "a::f"),
                           ("Rattle-a-proofs/b/f/Code/Mir.antt", "a::b::f"),
                           ("Rattle-a-proofs/b/+turns/Code/+f.antt", "a::b::f")):
            self.assertEqual(name_of(Path(path)), name)

    def test_others(self):
        for path in ("Rattle-a-specs/f/Code/Mir.antt", "Rattle-a-proofs/f/Code/Other.antt",
                     "Rattle-a-proofs/f/Code/+g.antt", "Rattle-a/proofs/f/Code/Mir.antt"):
            self.assertIsNone(name_of(Path(path)))


class Complaints(unittest.TestCase):
    def test_errors_alone(self):
        said = "warning: a\nb/src/lib.rt:1:2: error[name]: c\n  more\nb/src/lib.rt:3:4: error: d"
        self.assertEqual(compiled.complaint(said), "b/src/lib.rt:1:2: error[name]: c\n"
                                                   "b/src/lib.rt:3:4: error: d")

    def test_no_error(self):
        self.assertEqual(compiled.complaint("ended\nby a signal"), "ended\nby a signal")

    def test_no_more_than_is_of_use(self):
        found = compiled.complaint("\n".join([f"a: error {'b' * 999}"] * 99))
        self.assertEqual((found.count("\n") + 1, max(map(len, found.splitlines()))),
                         (compiled.MOST, compiled.LONGEST))


class Kept(InFolder):
    """In a folder of its own, with a compiler that prints names."""

    def setUp(self):
        super().setUp()
        self.asked = []
        for name, value in (("KEPT", self.crates / "kept"), ("printed", self.printed),
                            ("kit", lambda: self.crates)):
            change = mock.patch.object(compiled, name, value)
            change.start()
            self.addCleanup(change.stop)
        (self.crates / "KIT-ID").write_text("one")
        planted([], self.crates, listed())

    def printed(self, files, theirs, starts=()):
        self.asked.append(list(starts))
        if self.refuses in starts:
            raise Unreadable("no")
        names = [f"copies::{name}" for name in starts] or self.every
        return {name: f"code of {name}" for name in names}

    refuses = "copy0::block::mend"

    def found(self, every=None):
        """What is found, and for which functions the compiler was asked."""
        copy = Copy(self.crates, ["block"])
        self.every = every or list(copy.keys)
        self.asked.clear()
        return copy.code(), self.asked

    def edit(self, name):
        for crate, file, old, new in ARRAYS[name].edits:
            replaced(self.crates / crate / "src" / f"{file}.rt", old, new)

    def test_at_first_all_are_printed(self):
        found, asked = self.found()
        self.assertEqual(asked, [[], []])   # the other for the closures of marks
        self.assertGreater(len(found), compiled.FEW)
        self.assertEqual(found["block::read"], "code of block::read")

    def test_and_then_none(self):
        first, _ = self.found()
        self.assertEqual(self.found(), (first, []))

    def test_what_has_changed(self):
        self.found()
        self.edit("array in read")
        found, asked = self.found()
        self.assertEqual((found["block::read"], asked),
                         ("code of copies::copy0::block::read", [["copy0::block::read"]]))
        self.assertEqual(self.found(), (found, []))

    def test_what_is_not_taken_by_itself(self):
        self.found()
        replaced(self.crates / "block/src/lib.rt", plants.MEND, f"    let a = 1;\n{plants.MEND}")
        found, asked = self.found()
        self.assertEqual((found["block::mend"], asked),
                         ("code of block::mend", [["copy0::block::mend"], []]))

    def test_several_at_once(self):
        self.found()
        copies, alone = [], Copy(self.crates, ["block"])
        for name in ("array in read", "array without a name"):
            self.edit(name)
            copies.append(Copy(self.crates, ["block"]))
        self.asked.clear()
        for _ in range(2):
            together([alone, *copies])
            self.assertEqual(self.asked, [["copy0::block::read", "copy1::block::read",
                                           "copy1::block::first_of"]])
        self.assertEqual([copy.missing for copy in copies], [[], []])

    def test_another_kit(self):
        self.found()
        (self.crates / "KIT-ID").write_text("other")
        self.assertEqual(self.found()[1], [[], []])

    def test_source_that_is_not_plain(self):
        self.found()
        replaced(self.crates / "block/src/lib.rt", None, "\ntrait T {}\n")
        for _ in range(2):
            self.assertEqual(self.found(["a::b"]), ({"a::b": "code of a::b"}, [[]]))

    def test_code_that_is_not_printed(self):
        with self.assertRaisesRegex(Unreadable, "prints no code of"):
            self.found(["block::read"])


if __name__ == "__main__":
    unittest.main()
