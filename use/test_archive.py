"""The archive is what livomashen(3) says of it: symbols, instructions, size, the
stack of each call, and a program without a C library."""

import re
import unittest
from collections import Counter

from kit import ARCHIVE, C_FLAGS, KIT, PAGE, ROOT, InFolder, needs, run

# Registers and instructions beyond the page: x87, MMX, AVX, thread-local
# storage, what came after SSE2 (pextrw only where it writes memory), and ways
# into a system.
BEYOND = re.compile(
    r"%st\b|%mm\d|%[yz]mm|%fs:|%gs:|\tv[a-z]+|\tf[a-z]+ |"
    r"\t(?:pshufb|palignr|pabs|phadd|phsub|psign|pmadd|pmull[dq]|pmov[sz]x|"
    r"pextr[bdq]|pinsr[bdq]|ptest|pblend|blend|round|dpp|insertps|extractps|"
    r"pclmul|aes|gf2p8|crc32|popcnt|lzcnt|tzcnt|andn|bextr|bls|mulx|rorx|sarx|"
    r"shlx|shrx|pdep|pext[lq]?\b|pextrw .*\(|adcx|adox|movbe|lddqu|movddup|cmpxchg16b|"
    r"syscall|sysenter|int\b|in\b|out\b|lock|xbegin|rdtsc|cpuid)")


def limits(name):
    """The figures of the table in the manual page that is marked so."""
    table = PAGE.read_text().split(f'.\\" {name}:', 1)[1].split(".TE", 1)[0]
    rows = re.findall(r"^([a-z ]+);([\d,]+)$", table, re.M)
    return {key: int(figure.replace(",", "")) for key, figure in rows}


def symbols(kinds):
    """The outside symbols of these of nm's letters, sorted."""
    listed = run("nm", "--portability", "--extern-only", ARCHIVE)
    return sorted(re.findall(rf"^(\S+) [{kinds}]\b", listed, re.M))


def section_sizes():
    """Bytes of code, constants and writable data, over all sections."""
    sizes = Counter({"code": 0, "constants": 0, "writable data": 0})
    for section, size in re.findall(r"^(\.\S+)\s+(\d+)\s", run("size", "-A", ARCHIVE),
                                    re.M):
        for start, kind in ((".text", "code"), (".rodata", "constants"),
                            (".data", "writable data"), (".bss", "writable data"),
                            (".tdata", "writable data"), (".tbss", "writable data")):
            if section.startswith(start):
                sizes[kind] += int(size)
    return sizes


class Archive(InFolder):
    @needs("nm")
    def test_memset_is_all_it_wants(self):
        self.assertEqual(symbols("U"), ["memset"])

    @needs("nm")
    def test_it_has_the_header_s_calls_and_no_more(self):
        header = (KIT / "livomashen.h").read_text()
        wanted = re.findall(r"^uint\d+_t (livomashen_\w+)\(", header, re.M)
        self.assertEqual(len(wanted), 18)
        self.assertEqual(symbols("A-TV-Z"), sorted(wanted))

    @needs("objdump")
    def test_nothing_beyond_sse2(self):
        code = run("objdump", "-d", "--no-show-raw-insn", ARCHIVE)
        lines = [line for line in code.splitlines() if BEYOND.search(line)]
        self.assertEqual(lines, [])
        self.assertGreater(code.count("\n"), 1000)

    @needs("size")
    def test_size(self):
        found, most = section_sizes(), limits("size")
        print(dict(found), end=" ")
        self.assertEqual(set(found), set(most))
        for kind, size in found.items():
            self.assertLessEqual(size, most[kind], kind)
        self.assertEqual(found["writable data"], 0)
        self.assertGreater(found["code"], 0)


class Programs(InFolder):
    @needs("gcc", "valgrind")
    def test_memory_never_written(self):
        made = self.folder / "unwritten"
        run("gcc", *C_FLAGS, "-g", "-I", KIT, ROOT / "use" / "c" / "unwritten.c",
            "-L", KIT, "-llivomashen", "-o", made)
        run("valgrind", "--quiet", "--error-exitcode=99", "--track-origins=yes", made)

    def compiled(self, source, *options):
        """use/c/source, with a memset of its own."""
        memset, made = self.folder / "memset.o", self.folder / source
        run("gcc", *C_FLAGS, "-ffreestanding", "-fno-tree-loop-distribute-patterns",
            "-c", ROOT / "use" / "c" / "memset.c", "-o", memset)
        run("gcc", *C_FLAGS, "-I", KIT, *options, ROOT / "use" / "c" / f"{source}.c",
            memset, "-L", KIT, "-llivomashen", "-o", made)
        return made

    @needs("gcc")
    def test_without_a_c_library(self):
        made = self.compiled("bare", "-nostdlib", "-static", "-ffreestanding",
                             "-fno-stack-protector")
        run(made)

    @needs("gcc")
    def test_stack_of_each_call(self):
        said = run(self.compiled("stack"))
        print(said.replace("\n", ", "), end="")
        most = limits("stack")
        found = {name.replace("_", " "): int(taken) for name, taken in
                 (line.split() for line in said.splitlines())}
        self.assertEqual(set(found), set(most))
        above = {name: taken for name, taken in found.items() if taken > most[name]}
        self.assertEqual(above, {}, f"livomashen(3) says {most}, measured {found}")


if __name__ == "__main__":
    unittest.main(verbosity=2)
