#!/usr/bin/env python3
"""Tests of tools/release: that a release is made only of what is committed, dated and proved, and that one which isn't whole is found."""
import os
import shutil
import subprocess
import sys
import tempfile
import unittest

sys.dont_write_bytecode = True
from kit import TOP, text_of, write
from package_test import PROGRAMS, ran

GIT = {"GIT_AUTHOR_NAME": "a", "GIT_AUTHOR_EMAIL": "a@example.org", "GIT_COMMITTER_NAME": "a", "GIT_COMMITTER_EMAIL": "a@example.org"}


class Checked(unittest.TestCase):
    """A folder that was given to others."""

    def setUp(self):
        self.room = tempfile.mkdtemp(prefix="smd-release-test-")
        self.addCleanup(shutil.rmtree, self.room)
        self.dist = f"{self.room}/dist"
        for name in ("smd_0_amd64.deb", "CHANGELOG.md", "README.md"):
            write(f"{self.dist}/{name}", name)
        write(f"{self.dist}/SHA256SUMS", ran("sha256sum", *sorted(os.listdir(self.dist)), cwd=self.dist).stdout)

    def status(self):
        return ran(f"{TOP}/tools/release", "check", self.dist).returncode

    def test_a_whole_one_is_well_and_so_is_none(self):
        self.assertEqual(self.status(), 0)
        shutil.rmtree(self.dist)
        self.assertEqual(self.status(), 0)

    def test_each_other_byte_is_found(self):
        for name in os.listdir(self.dist):
            text = text_of(f"{self.dist}/{name}")
            write(f"{self.dist}/{name}", ("0" if text[0] != "0" else "1") + text[1:])
            self.assertEqual(self.status(), 1, name)
            write(f"{self.dist}/{name}", text)
        self.assertEqual(self.status(), 0)

    def test_a_file_that_went_is_found(self):
        for name in os.listdir(self.dist):
            os.rename(f"{self.dist}/{name}", f"{self.room}/gone")
            self.assertEqual(self.status(), 1, name)
            os.rename(f"{self.room}/gone", f"{self.dist}/{name}")

    def test_a_file_without_a_sum_is_found(self):
        write(f"{self.dist}/more", "more")
        self.assertEqual(self.status(), 1)

    def test_a_package_that_is_neither_there_nor_listed_is_found(self):
        os.remove(f"{self.dist}/smd_0_amd64.deb")
        write(f"{self.dist}/SHA256SUMS", ran("sha256sum", "CHANGELOG.md", "README.md", cwd=self.dist).stdout)
        self.assertEqual(self.status(), 1)


@unittest.skipUnless(shutil.which("dpkg-deb"), "no dpkg-deb is here")
class Made(unittest.TestCase):
    def setUp(self):
        self.top = tempfile.mkdtemp(prefix="smd-release-test-")
        self.addCleanup(shutil.rmtree, self.top)
        for name in ("tools", "desktop", "docs", "examples", "crates"):
            shutil.copytree(f"{TOP}/{name}", f"{self.top}/{name}", ignore=shutil.ignore_patterns("out", "edits"))
        for name in ("HANDLES", "crates.txt", "README.md", "CHANGELOG.md", ".gitignore"):
            shutil.copy(f"{TOP}/{name}", self.top)
        for name in PROGRAMS:
            os.makedirs(f"{self.top}/crates/{name}/out")
            shutil.copy(f"{TOP}/crates/{name}/out/{name}", f"{self.top}/crates/{name}/out")
        version = next(line for line in text_of(f"{TOP}/crates/program_texts/src/versions.rt").splitlines() if 'concat!($program, " ' in line)
        self.version = version.split('" ')[1].split(",")[0]
        write(f"{self.top}/CHANGELOG.md", f"# What has changed\n\n## Towards {self.version}\n\n- All.\n")
        self.git("init", "-q")
        self.commit()

    def git(self, *words):
        subprocess.run(["git", "-C", self.top, *words], env={**os.environ, **GIT}, check=True, stdout=subprocess.DEVNULL)

    def commit(self):
        self.git("add", "-A")
        self.git("commit", "-qm", "all")
        # (a newer source would have them built anew)
        for name in PROGRAMS:
            os.utime(f"{self.top}/crates/{name}/out/{name}")

    def release(self, *words):
        told = ran(f"{self.top}/tools/release", *words)
        return told.returncode, told.stderr

    def test_one_is_made_once_it_is_dated_committed_and_proved(self):
        self.assertIn("doesn't begin with a day", self.release("make")[1])
        self.assertEqual(self.release("changelog", "2026-12-03"), (0, ""))
        self.assertIn(f"## {self.version}, 2026-12-03\n", text_of(f"{self.top}/CHANGELOG.md"))
        self.assertIn("something isn't committed", self.release("make")[1])
        self.commit()
        with open(f"{self.top}/crates/smrelay/out/smrelay", "ab") as file:
            file.write(b"\n")
        self.assertIn("a program isn't proved", self.release("make")[1])
        shutil.copy(f"{TOP}/crates/smrelay/out/smrelay", f"{self.top}/crates/smrelay/out")
        os.utime(f"{self.top}/crates/smrelay/out/smrelay")
        self.assertEqual(self.release("make"), (0, ""))
        self.assertEqual(self.release("check"), (0, ""))
        (package,) = [name for name in os.listdir(f"{self.top}/dist") if name.endswith(".deb")]
        self.assertTrue(package.startswith(f"smd_{self.version}_"))
        self.assertIn(package, text_of(f"{self.top}/dist/README.md"))
        with open(f"{self.top}/dist/{package}", "ab") as file:
            file.write(b"\n")
        self.assertEqual(self.release("check")[0], 1)


if __name__ == "__main__":
    unittest.main()
