#!/usr/bin/env python3
"""Tests of .ci/run, with stand-ins for all that it calls: it tells each part and how long it took, and whichever part fails,
the gate fails and names it."""
import os
import shutil
import subprocess
import sys
import tempfile
import unittest

sys.dont_write_bytecode = True
from kit import TOP, text_of, write

# Each part, and what stands in for it: a program that fails where it is the one that is to.
PARTS = {
    "rt ci": "bin/rt",
    "tools/tests": "tools/tests",
    "tools/checks": "tools/checks",
    "peers/check": "peers/check",
    "tools/edits (beside these)": "tools/edits",
}
STAND_IN = """#!/bin/sh
[ "${1-}" != --build ] || exit 0
echo "%s"
[ "%s" != "$FAILING" ]
"""
HELPERS = {
    "tools/gate-times": '#!/bin/sh\n[ "$1" = table ] || exec sleep 30\n',
    "tools/progress": '#!/bin/sh\n[ "${1-}" = --at ] || exec cat\necho none\n',
}


class Gate(unittest.TestCase):
    def setUp(self):
        self.room = tempfile.mkdtemp(prefix="smd-gate-test-")
        self.addCleanup(shutil.rmtree, self.room)
        for file in (".ci/run", "peers/packages.sh"):
            os.makedirs(os.path.dirname(f"{self.room}/{file}"), exist_ok=True)
            shutil.copy(f"{TOP}/{file}", f"{self.room}/{file}")
        for name, file in PARTS.items():
            write(f"{self.room}/{file}", STAND_IN % (f"says {name}", name), 0o755)
        for file, text in HELPERS.items():
            write(f"{self.room}/{file}", text, 0o755)

    def run_gate(self, failing):
        """Runs the gate in which this part fails, and returns its status, all that it printed but its last line, and that line."""
        env = {**os.environ, "PATH": f"{self.room}/bin:{os.environ['PATH']}", "FAILING": failing}
        # Into a file: what waits for the next minute holds it open for a moment behind the gate's end.
        with open(f"{self.room}/said", "w", encoding="utf-8") as said:
            ran = subprocess.run(["bash", f"{self.room}/.ci/run"], env=env, stdin=subprocess.DEVNULL, stdout=said, timeout=120)
        *others, last = text_of(f"{self.room}/said").splitlines()
        return ran.returncode, others, last

    def test_a_gate_in_which_all_passes(self):
        status, others, last = self.run_gate("none")
        self.assertEqual(status, 0)
        self.assertNotIn("FAILED", last)
        for name in PARTS:
            self.assertIn(f"says {name}", others)
            self.assertRegex(last, f" {name.replace('(', '.').replace(')', '.')} [0-9]+,")

    def test_each_part_fails_the_gate(self):
        for name in PARTS:
            with self.subTest(name):
                status, others, last = self.run_gate(name)
                self.assertEqual(status, 1)
                self.assertIn(f"{name} (FAILED) ", last)
                self.assertEqual(last.count("FAILED"), 1)
                self.assertEqual([part for part in PARTS if f"says {part}" not in others], [])


if __name__ == "__main__":
    unittest.main()
