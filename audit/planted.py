"""Copies of the source in a folder of their own, with something planted, and tests that
see what is said of them."""

import os
import shutil
import tempfile
import unittest
from concurrent.futures import ThreadPoolExecutor
from pathlib import Path

from compiled import Copy, together
from source import ROOT, needs


def replaced(path, old, new):
    """Puts a text where another stands once in a file; where none does: at its end."""
    text = path.read_text()
    if old is None:
        path.write_text(text + new)
        return
    if text.count(old) != 1:
        raise AssertionError(f"{path.name} has {text.count(old)} times: {old}")
    path.write_text(text.replace(old, new))


def planted(edits, folder, crates):
    """The source of these crates in a folder, with these edits."""
    for crate in crates:
        shutil.copytree(ROOT / "crates" / crate / "src", folder / crate / "src")
    for crate, file, old, new in edits:
        replaced(folder / crate / "src" / f"{file}.rt", old, new)


class InFolder(unittest.TestCase):
    def setUp(self):
        folder = tempfile.TemporaryDirectory()
        self.addCleanup(folder.cleanup)
        self.crates = Path(folder.name)


class Planted(unittest.TestCase):
    """What is said of each plant, in a copy of what `starts` are made of.  The compiler
    looks at several copies at once, and in several processes."""

    TOGETHER = 6

    @classmethod
    def setUpClass(cls):
        Copy(ROOT / "crates", cls.starts).code()    # what the copies have in common is kept
        folder = tempfile.TemporaryDirectory()
        cls.addClassCleanup(folder.cleanup)
        cls.folders, copies = {}, []
        for name, plant in cls.plants.items():
            cls.folders[name] = Path(folder.name) / str(len(cls.folders))
            cls.folders[name].mkdir()
            planted(plant.edits, cls.folders[name], needs(cls.starts)[0])
            copies.append(Copy(cls.folders[name], cls.starts))
        groups = [copies[at:at + cls.TOGETHER] for at in range(0, len(copies), cls.TOGETHER)]
        with ThreadPoolExecutor(len(os.sched_getaffinity(0))) as pool:
            list(pool.map(together, groups))


def planting(name, plant):
    def test(self):
        found = self.said(self.folders[name])
        for begins in plant.says:
            self.assertTrue(any(line.startswith(begins) for line in found), found)
        if not plant.and_more:
            more = [line for line in found if not line.startswith(plant.says)]
            self.assertEqual(more, [])
    return test


def tests_of(plants, case):
    """Makes a test of each plant, in a class that has `starts` and `said`."""
    case.plants = plants
    for number, (name, plant) in enumerate(plants.items(), 1):
        setattr(case, f"test_{number:02}_{name.replace(' ', '_')}", planting(name, plant))
