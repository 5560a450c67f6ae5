"""Tests of .ci/gate, by an rt that only plays its part: what it says and how it ends is planted."""
import os
import stat
import subprocess
import tempfile
import unittest
from pathlib import Path

ROOT = Path(__file__).resolve().parent.parent
OK = "rt: ok; handles allowed: none; must-fail edits: 98 refused; done in this run: all"
LAST = "125 passed, 0 failed"


class Gate(unittest.TestCase):
    def gate(self, lines, status=0):
        """How the gate ends, what it shows, and what it keeps as the last line."""
        with tempfile.TemporaryDirectory() as folder:
            said, fake, kept = (Path(folder) / name for name in ("said", "rt", "kept"))
            said.write_text("".join(f"{line}\n" for line in lines))
            fake.write_text(f'#!/bin/sh\n[ "$*" = ci ] || exit 7\ncat "{said}"\nexit {status}\n')
            fake.chmod(fake.stat().st_mode | stat.S_IXUSR)
            done = subprocess.run(
                [ROOT / ".ci" / "gate", kept], capture_output=True, text=True, check=False,
                env=os.environ | {"PATH": f"{folder}:/usr/bin:/bin"})
            return done.returncode, done.stdout.splitlines(), kept.read_text().splitlines()

    def test_all_well(self):
        self.assertEqual(self.gate(["rt: base proved", OK, LAST]),
                         (0, ["rt: base proved", OK], [LAST]))

    def test_rt_fails(self):
        for status in (1, 2, 3):
            code, shown, _ = self.gate([OK, "124 passed, 1 failed"], status)
            self.assertEqual((code, shown[-1]), (status, "124 passed, 1 failed"))

    def test_an_edit_that_can_t_be_read(self):
        code, shown, _ = self.gate([OK.replace("98 refused", "97 refused, 1 bad"), LAST])
        self.assertEqual(code, 1)
        self.assertNotIn(LAST, shown)

    def test_it_doesn_t_say_that_all_is_well(self):
        self.assertEqual(self.gate(["rt: base proved", LAST])[0], 1)

    def test_another_last_line(self):
        for last in ("124 passed, 1 failed", "125 passed, 0 failed (base alone: not the gate)", ""):
            self.assertEqual(self.gate([OK, last])[0], 1, last)


if __name__ == "__main__":
    unittest.main()
