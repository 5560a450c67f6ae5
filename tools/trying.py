"""What the tests of the tools share: a folder of their own, damaged banks, and
runs of a tool.  The archive is the environment's LIVOMASHEN_LIBRARY, or the one
that use/build makes.
"""

import os
import random
import subprocess
import sys
import tempfile
import unittest
from collections import namedtuple
from pathlib import Path

sys.dont_write_bytecode = True

from readings import ROOT, library  # noqa: E402
import damage                       # noqa: E402
import reference as ref             # noqa: E402

ARCHIVE = Path(os.environ.get("LIVOMASHEN_LIBRARY", library.ARCHIVE))
INSPECT = ROOT / "tools" / "inspect"
PICTURE = ROOT / "tools" / "picture.py"

Run = namedtuple("Run", "status out err")


def run_words(words, given=b""):
    done = subprocess.run([str(word) for word in words], input=given,
                          capture_output=True)
    return Run(done.returncode, done.stdout.decode(), done.stderr.decode())


def run(tool, *arguments, given=b""):
    return run_words([sys.executable, tool, *arguments], given)


def run_shell(line):
    return run_words(["sh", "-c", line])


def block(*pairs):
    """45 zeros with some bytes set."""
    made = bytearray(ref.BLOCK)
    for place, value in pairs:
        made[place] = value
    return bytes(made)


def marks(card=255, *chips):
    return ref.close_marks(ref.Marks(None if card == 255 else card, chips))


def damaged(seed, blocks, record, kind=None):
    return damage.damaged_bank(random.Random(seed), record, blocks, kind)


# Document 01's blocks: what each reads as with nothing marked.
CLEAN = block()
CHIPS = block((20, 7))
CARD = block((0, 1), (1, 1))
NONE = block((0, 1), (9, 1))
SEVERAL = block((0, 8), (1, 6), (2, 1))
FIVE = CLEAN + CHIPS + CARD + NONE + SEVERAL


class InFolder(unittest.TestCase):
    """A test with a folder of its own, and `inspect` on a dump in it."""

    def setUp(self):
        folder = tempfile.TemporaryDirectory()
        self.addCleanup(folder.cleanup)
        self.folder = Path(folder.name)

    def file(self, name, content):
        path = self.folder / name
        path.write_bytes(content)
        return path

    def inspect(self, bank, *options):
        dump = self.file("dump", bank) if isinstance(bank, bytes) else bank
        return run(INSPECT, dump, "--library", ARCHIVE, *options)

    def names(self):
        return sorted(path.name for path in self.folder.iterdir())
