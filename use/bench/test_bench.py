"""The benchmark: its program's answers, its tables, and every option of run."""

import re
import shutil
import sys
import unittest
from pathlib import Path

HERE = Path(__file__).resolve().parent
sys.path[:0] = [str(HERE), str(HERE.parent)]

import table                                                  # noqa: E402
from kit import KIT, ROOT, InFolder, needs, run, try_run      # noqa: E402

# As many digits as the codecs take: libfec's are what it took for a card.
LONGEST = {"livomashen": (9_998, 9_999), "plain": (9_998, 9_999),
           "words": (998, 9_999), "fec": (212_854, 275_544)}


class Tables(unittest.TestCase):
    taken = {(case, codec): 20_392.4 for case in table.CASES for codec in table.CODECS}
    counted = {(case, codec): LONGEST[codec] for case, codec in taken}

    def test_within_eighty_columns(self):
        page = table.page(self.taken, self.counted, ["a note"])
        for line in page.splitlines():
            self.assertLessEqual(len(line), 80, line)
        self.assertTrue(page.endswith("A note.\n"))

    def test_one_column_a_codec_and_one_row_a_case(self):
        for made, columns, cases in (
                (table.instruction_table(self.counted), 6, table.CASES),
                (table.time_table(self.taken), 5, table.CASES),
                (table.speed_table(self.taken), 5, table.FULL_BANK)):
            rows = made.splitlines()
            self.assertEqual(len(rows), 2 + len(cases))
            self.assertEqual({row.count("|") for row in rows}, {columns + 1})

    @staticmethod
    def cells(made):
        """The cells after each row's first, by it."""
        rows = (re.split(r"\s*\|\s*", row)[1:-1] for row in made.splitlines())
        return {first: others for first, *others in rows}

    def test_cells(self):
        counted = {("store", "plain"): (837.6, 838.4),
                   ("read-chip", "plain"): (7, 9), ("read-chip", "words"): (6, 8),
                   ("read-chip", "fec"): (1000, 2000)}
        cells = self.cells(table.instruction_table(counted))
        self.assertEqual(cells["case"], ["livomashen", "plain Rust", "in words",
                                         "libfec", "to reach"])
        self.assertEqual(cells["store"], ["-", "838", "-", "-", "240"])
        self.assertEqual(cells["put"], ["-", "-", "-", "-", "-"])
        self.assertEqual(cells["bad chip"], ["-", "7/9", "6/8", "1,000", "550"])
        self.assertEqual(cells["any damage"], ["-", "-", "-", "-", "960/2,180"])

    def test_speeds(self):
        # A block of 45 bytes in 45 ns is 1 GB/s.
        taken = {("patrol-1024", "words"): 45.0, ("report-1024", "words"): 10.0,
                 ("report-1024", "fec"): 450.0, ("report-256", "plain"): 45.0}
        cells = self.cells(table.speed_table(taken))
        self.assertEqual(cells["patrol"], ["-", "-", "1,000", "-"])
        self.assertEqual(cells["report"], ["-", "-", "4,500", "100"])

    def test_above_what_is_to_reach(self):
        # Where only the mean is set, any input may take more.
        reached = {(case, "livomashen"): (*limit, 9_999)[:2]
                   for case, (_, limit) in table.CASES.items()}
        self.assertIn("no case", table.above_line(reached))
        reached["store", "livomashen"] = (240.4, 9_999)
        reached["read-any", "livomashen"] = (960, 2_180.4)
        self.assertEqual(table.above(reached), [])
        reached["store", "livomashen"] = (241, 241)
        reached["read-any", "livomashen"] = (960, 2_181)
        self.assertEqual(table.above(reached), ["store", "any damage"])
        reached["read-any", "livomashen"] = (961, 2_180)
        self.assertEqual(table.above(reached), ["store", "any damage"])
        self.assertIn("not counted", table.above_line({}))


class Program(InFolder):
    def compiled(self, *options):
        made = self.folder / "bench"
        run("rustc", "-O", "-D", "warnings", "--edition", "2021",
            "--check-cfg", "cfg(library)", "--check-cfg", "cfg(libfec)",
            "--cfg", "library", *options, "-o", made, HERE / "bench.rs")
        return made

    @needs("rustc")
    def test_it_compiles_with_libfec_which_need_not_be_there(self):
        self.compiled("--cfg", "libfec", "--emit=metadata")

    @needs("rustc")
    def test_every_case_is_right_and_in_the_tables(self):
        made = self.compiled("-L", f"native={KIT}", "-l", "static=livomashen")
        # The program checks every answer before it takes a time.
        lines = [line.split() for line in run(made, "times").splitlines()]
        lacking = {("get-register", "plain"), ("get-register", "words"),
                   ("propose", "words"), ("write-slip", "words"),
                   ("read-slip", "words")}
        self.assertEqual({(case, codec) for case, codec, _ in lines},
                         {(case, codec) for case in table.CASES
                          for codec in table.CODECS if codec != "fec"} - lacking)
        listed = [line.split()[0] for line in run(made, "list").splitlines()]
        self.assertEqual(list(dict.fromkeys(listed)), list(table.CASES))
        run(made, "count", "read-none", "livomashen")


class Options(InFolder):
    """use/bench/run in a copy of the tree, with programs that only play their
    parts: rustc notes its words, and what it makes prints one time."""

    FAKES = {
        "rustc": """#!/bin/sh
            if [ "$1" = --version ]; then echo 'rustc 9'; exit; fi
            echo "$@" >>"$NOTES"
            while [ "$1" != -o ]; do shift; done
            printf '#!/bin/sh\\n[ $1 = list ] || echo store plain 5.0\\n' >"$2"
            chmod +x "$2"
            """,
        "apt-get": '#!/bin/sh\necho "apt-get $*" >>"$NOTES"\n',
        # None of these headers and archives is at hand, wherever this runs.
        "gcc": "#!/bin/sh\necho nowhere\n",
    }

    def setUp(self):
        super().setUp()
        self.tree, self.bin = self.folder / "tree", self.folder / "bin"
        for part in ("use", "docs"):
            shutil.copytree(ROOT / part, self.tree / part)
        self.bin.mkdir()
        for name, text in self.FAKES.items():
            (self.bin / name).write_text(text)
            (self.bin / name).chmod(0o755)
        self.page = self.tree / "docs" / "BENCHMARK.md"
        self.before = self.page.read_text()

    def bench(self, *options):
        """(what is printed, the words that the fakes noted)"""
        notes = self.folder / "notes"
        notes.write_text("")
        done = try_run(self.tree / "use" / "bench" / "run", *options,
                       PATH=f"{self.bin}:{Path(sys.executable).parent}:/usr/bin:/bin",
                       NOTES=str(notes))
        self.assertEqual(done.returncode, 0, done.stderr)
        return done.stdout, notes.read_text()

    def test_without_options(self):
        said, noted = self.bench()
        self.assertRegex(said, r"\n\| store +\| +- \| +5 \| +- \| +- \|\n")
        self.assertIn("Livomashen: library not built (use/build builds it).\n", said)
        self.assertIn("Libfec: not installed", said)
        self.assertNotIn("--cfg library", noted)
        self.assertNotIn("--cfg libfec", noted)
        self.assertNotIn("apt-get", noted)
        self.assertEqual(self.page.read_text(), self.before)

    def test_write(self):
        said, _ = self.bench("--write")
        self.assertEqual(self.page.read_text(), said)

    def test_the_default_library(self):
        shutil.copytree(KIT, self.tree / "built" / "livomashen")
        said, noted = self.bench()
        self.assertIn("--cfg library", noted)
        self.assertNotIn("library not built", said)

    def test_library(self):
        other = shutil.copy(KIT / "liblivomashen.a", self.folder / "other.a")
        said, noted = self.bench("--library", other)
        self.assertIn("--cfg library", noted)
        self.assertIn("the archive given by --library, other.a", said)

    def test_libfec(self):
        folder = self.folder / "unpacked"
        folder.mkdir()
        for name in ("fec.h", "libfec.a"):
            (folder / name).write_text("")
        said, noted = self.bench("--libfec", folder)
        self.assertIn("--cfg libfec", noted)
        self.assertNotIn("Libfec: not installed", said)

    def test_install_libfec(self):
        _, noted = self.bench("--install-libfec")
        self.assertIn("apt-get install -y libfec-dev\n", noted)

    def test_help_and_nonsense(self):
        self.assertIn("--install-libfec", self.bench("--help")[0])
        self.assertEqual(try_run(HERE / "run", "--nonsense").returncode, 2)


if __name__ == "__main__":
    unittest.main(verbosity=2)
