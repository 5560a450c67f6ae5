"""The second program of order 12, its options; the manual page's examples; and the
comparison of the tables, which finds each planted difference, in the program, in the
file and in how it is started."""

import re
import subprocess
import sys
import tempfile
import unittest
from contextlib import redirect_stdout
from io import StringIO
from pathlib import Path
from unittest import mock

sys.dont_write_bytecode = True
HERE = Path(__file__).resolve().parent
sys.path.insert(0, str(HERE))

import compare_tables    # noqa: E402
import tables            # noqa: E402

TEXT = tables.text()
LINES = TEXT.splitlines(keepends=True)
NO_LINE = "(no such line)"


def instead(at, *lines):
    """The text with these lines in place of line `at`."""
    return "".join((*LINES[:at - 1], *lines, *LINES[at:]))


# The text with one mistake, the line of it, and how that line is shown.
ANOTHER_NUMBER = {
    "first power": (instead(2, "2\n"), 2, r"'2\n'"),
    "a power": (instead(102, "9\n"), 102, r"'9\n'"),
    "a logarithm": (instead(300, "254\n"), 300, r"'254\n'"),
    "last label": (instead(558, "31\n"), 558, r"'31\n'"),
}
ANOTHER_FORM = {
    "a line missing": (instead(257), 257, r"'0\n'"),
    "the last line missing": (instead(558), 558, NO_LINE),
    "a line too many": (TEXT + "1\n", 559, r"'1\n'"),
    "an empty line at the end": (TEXT + "\n", 559, r"'\n'"),
    "a number twice": (instead(256, LINES[255], LINES[255]), 257, r"'142\n'"),
    "no newline at the end": (TEXT[:-1], 558, "'30'"),
    "the first heading missing": (instead(1), 1, r"'1\n'"),
    "the last heading missing": (instead(513), 513, r"'1\n'"),
    "another heading": (instead(257, "logarithms\n"), 257, r"'logarithms\n'"),
    "a leading zero": (instead(2, "01\n"), 2, r"'01\n'"),
    "a zero in front of 0": (instead(258, "00\n"), 258, r"'00\n'"),
    "a sign": (instead(2, "+1\n"), 2, r"'+1\n'"),
    "a letter": (instead(10, "1d\n"), 10, r"'1d\n'"),
    "a space": (instead(258, "0 \n"), 258, r"'0 \n'"),
    "CRLF": (TEXT.replace("\n", "\r\n"), 1, r"'powers\r\n'"),
    "one CRLF": (instead(558, "30\r\n"), 558, r"'30\r\n'"),
    "a byte beyond ASCII": (instead(2, "\xb9\n"), 2, r"'\\xc2\\xb9\n'"),
    "nothing": ("", 1, NO_LINE),
}
ALL = {**ANOTHER_NUMBER, **ANOTHER_FORM}

# A program that prints the right text, but fails or minds how it is started: its
# lines before it prints, and what is said of it.
ODD = {
    "fails": ("trap 'exit 3' EXIT", "line 559 differs, standard input empty", "exit 3"),
    "complains": ("echo oh >&2", "line 559 differs, standard input empty", "exit 0"),
    "wants an input": ("[ -e /dev/stdin ] || exit 1",
                       "line 1 differs, standard input closed", "exit 1"),
    "reads": ("read -r line 2>/dev/null",
              "line 559 differs, standard input a file", "bytes read"),
    "says how it is used": ('[ "$1" != --help ] || exit 0',
                            "line 1 differs, arguments ('--help',)", NO_LINE),
    "counts its arguments": ("[ $# -lt 2 ] || echo $#",
                             "line 1 differs, arguments ('', '-1', ", "'5"),
}


def run(name, *options):
    return subprocess.run([sys.executable, "-B", HERE / name, *map(str, options)],
                          capture_output=True, text=True)


class Second(unittest.TestCase):
    def test_what_it_prints(self):
        done = run("tables.py")
        self.assertEqual((done.returncode, done.stdout, done.stderr), (0, TEXT, ""))

    def test_its_options(self):
        self.assertIn("Print the powers of g", run("tables.py", "--help").stdout)
        for option in ("labels", "--labels"):
            done = run("tables.py", option)
            self.assertEqual((done.returncode, done.stdout), (2, ""))


class Manual(unittest.TestCase):
    def test_examples(self):
        page = (compare_tables.ROOT / "docs" / "tables.1").read_text()
        examples = re.findall(r"^\.EX\n\$ tables \| (.*)\n((?:.*\n)*?)\.EE$", page, re.M)
        self.assertEqual(len(examples), 2)
        for command, printed in examples:
            done = subprocess.run(["sh", "-c", command.replace("\\-", "-")], input=TEXT,
                                  capture_output=True, text=True)
            self.assertEqual(done.stdout, printed)


class Compared(unittest.TestCase):
    def setUp(self):
        folder = tempfile.TemporaryDirectory()
        self.addCleanup(folder.cleanup)
        self.folder = Path(folder.name).resolve()
        self.program, self.printed = self.folder / "program", self.folder / "printed"
        self.options = "--program", str(self.program), "--printed", str(self.printed)
        self.make_program(TEXT)
        self.printed.write_text(TEXT)

    def make_program(self, text, first=""):
        """A program that does this first, and then prints the text."""
        says = self.folder / "says"
        says.write_bytes(text.encode())
        self.program.write_text(f"#!/bin/sh\n{first}\ncat '{says}'\n")
        self.program.chmod(0o755)

    def compare(self, second=TEXT):
        """(exit, what is said) where the second program prints this."""
        with redirect_stdout(StringIO()) as out, \
                mock.patch.object(sys, "argv", ["compare_tables.py", *self.options]), \
                mock.patch.object(tables, "text", lambda: second):
            return compare_tables.main(), out.getvalue()

    def test_no_difference(self):
        done = run("compare_tables.py", *self.options)
        said = f"tables: 558 lines, program, second program and {self.printed} agree\n"
        self.assertEqual((done.returncode, done.stdout, done.stderr), (0, said, ""))

    def test_in_the_program(self):
        for what, (text, at, line) in ALL.items():
            with self.subTest(what):
                self.make_program(text)
                self.assertEqual(self.compare(), (1, self.said(
                    at, ", standard input empty", self.program, line)))

    def test_in_the_file(self):
        for what, (text, at, line) in ALL.items():
            with self.subTest(what):
                self.printed.write_bytes(text.encode())
                self.assertEqual(self.compare(), (1, self.said(
                    at, "", self.printed, line)))

    def said(self, at, how, path, line):
        other = repr(LINES[at - 1]) if at <= len(LINES) else NO_LINE
        return (f"line {at} differs{how}\n{path}: {line}\n"
                f"second/tables.py: {other}\n")

    def test_in_the_second_program(self):
        for what, (text, at, _) in ALL.items():
            with self.subTest(what):
                code, said = self.compare(text)
                self.assertEqual((code, said.split(" differs")[0]), (1, f"line {at}"))

    def test_a_form_that_all_of_them_have(self):
        for what, (text, _, _) in ANOTHER_FORM.items():
            with self.subTest(what):
                self.assertRaises(compare_tables.Difference,
                                  compare_tables.must_have_the_form, text.encode())
        text, at, line = ANOTHER_FORM["a leading zero"]
        self.make_program(text)
        self.printed.write_text(text)
        self.assertEqual(self.compare(text), (
            1, f"line {at} is not as order 12 has it: {line}\n"))

    def test_how_the_program_is_started(self):
        for what, (first, where, line) in ODD.items():
            with self.subTest(what):
                self.make_program(TEXT, first)
                code, said = self.compare()
                self.assertEqual((code, said[:len(where)]), (1, where))
                self.assertIn(line, said)

    def test_a_program_that_waits_for_bytes(self):
        self.make_program(TEXT, "[ ! -p /dev/stdin ] || read -r line")
        with mock.patch.object(compare_tables, "SECONDS", 0.3):
            code, said = self.compare()
        self.assertEqual(code, 1)
        self.assertIn("(no end within 0.3 s)", said)

    def test_what_is_missing(self):
        self.printed.unlink()
        code, said = self.compare()
        self.assertEqual((code, said.split(";")[0]), (2, f"no file {self.printed}"))
        for spoil in (lambda: self.program.chmod(0o644), self.program.unlink):
            spoil()
            self.assertEqual(self.compare(), (
                2, f"no program {self.program}; build it by: rt run, in crates/tables\n"))

    def test_names_in_the_project(self):
        path = compare_tables.ROOT / "docs" / "TABLES.txt"
        self.assertEqual(compare_tables.name_of(path), "docs/TABLES.txt")


if __name__ == "__main__":
    unittest.main()
