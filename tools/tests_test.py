#!/usr/bin/env python3
"""Tests of what tools/tests keeps: that a program is taken for the sum that it was built for, and for no other."""
import os
import shutil
import sys
import tempfile
import unittest

sys.dont_write_bytecode = True
from kit import program_at

HERE = os.path.dirname(os.path.abspath(__file__))


class Kept(unittest.TestCase):
    def setUp(self):
        self.room = tempfile.mkdtemp(prefix="smd-tests-test-")
        self.addCleanup(shutil.rmtree, self.room)
        self.tests = program_at(f"{HERE}/tests")
        self.tests.KEPT = f"{self.room}/kept"
        self.built = 0

    def build(self):
        self.built += 1
        with open(f"{self.room}/made", "w", encoding="utf-8") as file:
            file.write(f"build {self.built}")
        return f"{self.room}/made", "said"

    def brought(self, key):
        """Returns the text of the program of this sum, and whether it had been kept."""
        program, _, was_kept = self.tests.kept(key, f"{self.room}/program", self.build)
        return self.tests.text_of(program), was_kept

    def test_a_program_is_built_once(self):
        self.assertEqual([self.brought("one"), self.brought("one")], [("build 1", False), ("build 1", True)])

    def test_another_sum_is_built(self):
        self.assertEqual([self.brought("one"), self.brought("two")], [("build 1", False), ("build 2", False)])

    def test_what_failed_is_not_kept(self):
        self.assertEqual(self.tests.kept("one", f"{self.room}/program", lambda: (None, "why")), (None, "why", False))
        self.assertEqual(self.brought("one"), ("build 1", False))

    def test_what_others_may_write_is_not_taken(self):
        self.brought("one")
        os.chmod(f"{self.room}/kept/one", 0o666)
        self.assertEqual(self.brought("one"), ("build 2", False))

    def test_the_last_ones_are_left(self):
        for number in range(self.tests.MOST + 2):
            self.brought(str(number))
            os.utime(f"{self.room}/kept/{number}", (number, number))
        self.brought("last")
        self.assertTrue(self.brought("last")[1])
        self.assertEqual(len([name for name in os.listdir(f"{self.room}/kept") if not name.endswith(".lock")]), self.tests.MOST)

    def test_without_a_place_it_is_built(self):
        with open(f"{self.room}/kept", "w", encoding="utf-8"):
            pass
        self.assertEqual([self.brought("one"), self.brought("one")], [("build 1", False), ("build 2", False)])


class Sums(unittest.TestCase):
    def test_each_file_counts(self):
        tests, room = program_at(f"{HERE}/tests"), tempfile.mkdtemp(prefix="smd-tests-test-")
        self.addCleanup(shutil.rmtree, room)
        kit = type("Kit", (), {"kit_sum": staticmethod(lambda: "kit")})
        tests.write(f"{room}/crates/a/src/lib.rt", "one")
        first = tests.sum_of(kit, room, "tests_checked")
        self.assertEqual(first, tests.sum_of(kit, room, "tests_checked"))
        self.assertNotEqual(first, tests.sum_of(kit, room, "tests_optimised"))
        tests.write(f"{room}/crates/a/src/lib.rt", "two")
        self.assertNotEqual(first, tests.sum_of(kit, room, "tests_checked"))


if __name__ == "__main__":
    unittest.main()
