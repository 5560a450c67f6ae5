"""What the tests of the built folder share.  The folder is the environment's
LIVOMASHEN_KIT, or the one that use/build makes."""

import os
import shutil
import subprocess
import sys
import tempfile
import unittest
from pathlib import Path

sys.dont_write_bytecode = True

ROOT = Path(__file__).resolve().parent.parent
KIT = Path(os.environ.get("LIVOMASHEN_KIT", ROOT / "built" / "livomashen")).resolve()
ARCHIVE = KIT / "liblivomashen.a"
PAGE = ROOT / "docs" / "livomashen.3"
C_FLAGS = ("-std=c99 -O2 -Wall -Wextra -Wpedantic -Wconversion -Wshadow "
           "-Werror").split()


def needs(*programs):
    """Leaves a test out, and says so, where a program isn't installed."""
    for program in programs:
        if not shutil.which(program):
            return unittest.skip(f"{program} is not installed")
    return lambda test: test


def run(*words, cwd=None, **more):
    """A command that must succeed: what it prints."""
    done = try_run(*words, cwd=cwd, **more)
    if done.returncode:
        raise AssertionError(f"{words}: exit {done.returncode}\n"
                             f"{done.stdout}{done.stderr}")
    return done.stdout


def try_run(*words, cwd=None, **more):
    """Any command; words after its own are put into the environment."""
    return subprocess.run([str(word) for word in words], cwd=cwd, text=True,
                          capture_output=True, env={**os.environ, **more})


class InFolder(unittest.TestCase):
    def setUp(self):
        folder = tempfile.TemporaryDirectory()
        self.addCleanup(folder.cleanup)
        self.folder = Path(folder.name)
