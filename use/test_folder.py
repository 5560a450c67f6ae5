"""use/build and what it gathers: each option, and each way to use the folder."""

import re
import shutil
import stat
import unittest

from kit import ARCHIVE, C_FLAGS, KIT, ROOT, InFolder, needs, run, try_run

WHOLE = {"liblivomashen.a", "livomashen.h", "livomashen.pc", "livomashen.3",
         "cabinet.1", "inspect.1", "tables.1", "DATA-SHEET.md", "TABLES.txt",
         "example.c", "registers.c",
         "Cargo.toml", "build.rs", "src/lib.rs", "src/livomashen.rs",
         *(f"src/livomashen/{part}.rs"
           for part in ("raw", "refusal", "registers", "slips", "window"))}


def version():
    header = (KIT / "livomashen.h").read_text()
    parts = [re.search(rf"VERSION_{name} (\d+)$", header, re.M)[1]
             for name in ("MAJOR", "MINOR", "PATCH")]
    return ".".join(parts)


def names(folder):
    return {path.relative_to(folder).as_posix() for path in folder.rglob("*")
            if path.is_file()}


class Folder(InFolder):
    def setUp(self):
        super().setUp()
        # Copied, since the folder must not lean on the place it was made in.
        self.kit = self.folder / "copied"
        shutil.copytree(KIT, self.kit)

    def test_whole(self):
        self.assertEqual(names(self.kit), WHOLE)

    def test_one_version(self):
        header = (self.kit / "livomashen.h").read_text()
        self.assertIn(f'#define LIVOMASHEN_VERSION "{version()}"\n', header)
        self.assertIn(f"\nVersion: {version()}\n",
                      (self.kit / "livomashen.pc").read_text())
        self.assertIn(f'\nversion = "{version()}"\n',
                      (self.kit / "Cargo.toml").read_text())

    @needs("gcc")
    def test_the_examples_where_they_lie(self):
        for name, line in (("example", "chip 31 is proposed"),
                           ("registers", "report: clean 300 of 300")):
            run("gcc", *C_FLAGS, "-I.", f"{name}.c", "-L.", "-llivomashen", "-o",
                name, cwd=self.kit)
            self.assertIn(line, run(f"./{name}", cwd=self.kit))

    @needs("gcc", "pkg-config")
    def test_pkg_config(self):
        prefix = self.folder / "prefix"
        run(ROOT / "use" / "build", "--library", ARCHIVE, "--into",
            self.folder / "other", "--prefix", prefix)
        for place in (self.kit, prefix / "lib" / "pkgconfig"):
            made = self.folder / "example"
            flags = run("pkg-config", "--cflags", "--libs", "livomashen",
                        PKG_CONFIG_PATH=str(place)).split()
            # The example includes the header as "livomashen.h", and none lies
            # beside it: it comes from the flags.
            alone = shutil.copy(self.kit / "example.c", self.folder)
            run("gcc", *C_FLAGS, alone, *flags, "-o", made)
            self.assertIn("card 1, 9 bytes changed", run(made))
            said = run("pkg-config", "--modversion", "livomashen",
                       PKG_CONFIG_PATH=str(place))
            self.assertEqual(said.strip(), version())

    @needs("cargo")
    def test_a_path_dependency(self):
        project = shutil.copytree(ROOT / "use" / "rust" / "project",
                                  self.folder / "project")
        manifest = project / "Cargo.toml"
        text = manifest.read_text()
        self.assertEqual(text.count("../../../built/livomashen"), 1)
        manifest.write_text(text.replace("../../../built/livomashen", str(self.kit)))
        said = run("cargo", "run", "--offline", "--quiet", cwd=project,
                   CARGO_TARGET_DIR=str(self.folder / "target"),
                   RUSTFLAGS="-D warnings")
        self.assertEqual(said, "4 of 4 clean\nchip 31 is proposed after 4 times\n")


class Installed(InFolder):
    def test_prefix(self):
        prefix, into = self.folder / "prefix", self.folder / "into"
        said = run(ROOT / "use" / "build", "--library", ARCHIVE, "--into", into,
                   "--prefix", prefix)
        found = names(prefix)
        self.assertIn(str(prefix), said)
        self.assertLessEqual({"lib/liblivomashen.a", "lib/pkgconfig/livomashen.pc",
                              "include/livomashen.h",
                              "share/man/man3/livomashen.3",
                              "share/doc/livomashen/DATA-SHEET.md",
                              "share/doc/livomashen/TABLES.txt",
                              "share/doc/livomashen/example.c",
                              "share/doc/livomashen/registers.c"}, found)
        self.assertEqual((prefix / "lib/liblivomashen.a").read_bytes(),
                         ARCHIVE.read_bytes())
        pages = {name for name in found if re.search(r"man3/livomashen_\w+\.3$", name)}
        self.assertEqual(len(pages), 18)
        self.assertEqual(names(into), WHOLE)

    @needs("man")
    def test_a_page_for_each_call(self):
        prefix = self.folder / "prefix"
        run(ROOT / "use" / "build", "--library", ARCHIVE, "--into",
            self.folder / "into", "--prefix", prefix)
        for call in ("livomashen_patrol", "livomashen_write_register",
                     "livomashen_clear_window", "livomashen_propose",
                     "livomashen_read_slip"):
            said = run("man", "-M", prefix / "share" / "man", call)
            self.assertIn("five memory cards", " ".join(said.split()))


class Building(InFolder):
    """use/build in a copy of the tree, with an rt that only plays its part: it
    prints lines as rt lib does, and takes an archive that is there."""

    RT = """#!/bin/sh
    [ "$*" = "lib --cpu=x86-64" ] || {{ echo "asked for: $*"; exit 2; }}
    [ "$(basename "$PWD")" = capi ] || {{ echo "in $PWD"; exit 2; }}
    echo "fn field::add: proved"
    echo "crate field: modules loaded=92 checked=60"
    {end}
    mkdir -p out && cp "{archive}" out/libcapi.a
    echo "rt: out/libcapi.a has the functions of capi"
    """

    def build(self, end, *options):
        tree, bin_ = self.folder / "tree", self.folder / "bin"
        if not tree.exists():
            for part in ("use", "docs"):
                shutil.copytree(ROOT / part, tree / part)
            (tree / "crates" / "capi").mkdir(parents=True)
            bin_.mkdir()
        fake = bin_ / "rt"
        fake.write_text(self.RT.format(end=end, archive=ARCHIVE))
        fake.chmod(fake.stat().st_mode | stat.S_IXUSR)
        return tree, try_run(tree / "use" / "build", *options,
                             PATH=f"{bin_}:/usr/bin:/bin")

    def test_progress_and_the_default_folder(self):
        tree, done = self.build("")
        self.assertEqual(done.returncode, 0, done.stderr)
        lines = done.stdout.splitlines()
        self.assertIn("some minutes", lines[0])
        self.assertEqual(lines[1:3], [
            "crate field: modules loaded=92 checked=60",
            "rt: out/libcapi.a has the functions of capi"])
        self.assertNotIn("fn field::add", done.stdout)
        self.assertEqual(names(tree / "built" / "livomashen"), WHOLE)

    def test_a_proof_that_fails(self):
        tree, done = self.build("echo 'this is why'; exit 1")
        self.assertEqual(done.returncode, 1)
        self.assertIn("this is why", done.stderr)
        self.assertIn("rt lib in crates/capi failed", done.stderr)
        self.assertFalse((tree / "built").exists())

    def test_refused(self):
        for words in (("--nonsense",), ("--into",), ("--prefix",), ("--library",)):
            tree, done = self.build("", *words)
            self.assertEqual((done.returncode, done.stdout), (2, ""), words)
            self.assertIn("use/build [--into DIR]", done.stderr)
        tree, done = self.build("", "--library", self.folder / "none.a")
        self.assertEqual(done.returncode, 1)
        self.assertIn("none.a is not there", done.stderr)
        self.assertFalse((tree / "built").exists())

    def test_help(self):
        for script in ("build", "test"):
            for word in ("-h", "--help"):
                said = run(ROOT / "use" / script, word)
                self.assertIn("--library FILE", said)
        self.assertEqual(try_run(ROOT / "use" / "test", "--nonsense").returncode, 2)


if __name__ == "__main__":
    unittest.main(verbosity=2)
