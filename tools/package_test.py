#!/usr/bin/env python3
"""Tests of what tools/proved, tools/install and tools/package say and make of the built programs: that only what the kit proved of
these sources is called proved, and that the package is as Debian wants it. A package is made three times for it, once of a program
that nobody proved."""
import os
import re
import shutil
import subprocess
import sys
import tempfile
import unittest

sys.dont_write_bytecode = True
from kit import TOP, crates_of, program_at, rt_code, text_of, write

PROGRAMS = "smd smctl smtrace smclient smrelay smwrap smnest".split()
SCRIPTS = "smd-session smd-ask smd-logout smd-autostart".split()
# The one tag that lintian may have: the licence is the owner's to choose.
LICENCE = "copyright-without-copyright-notice"


def ran(*words, **how):
    return subprocess.run(words, stdin=subprocess.DEVNULL, stdout=subprocess.PIPE, stderr=subprocess.PIPE, text=True, errors="replace", **how)


def copy_of_programs(folder, altered=None):
    """Puts the built programs into a folder, with a byte more at the end of the altered one."""
    os.makedirs(folder)
    for name in PROGRAMS:
        shutil.copy(f"{TOP}/crates/{name}/out/{name}", folder)
    if altered:
        with open(f"{folder}/{altered}", "ab") as file:
            file.write(b"\n")
    return folder


class Rooms(unittest.TestCase):
    @classmethod
    def setUpClass(cls):
        cls.room = tempfile.mkdtemp(prefix="smd-package-test-")
        cls.addClassCleanup(shutil.rmtree, cls.room)


class Proofs(Rooms):
    """What is said of a copy of the repository, in which things are changed."""

    def setUp(self):
        self.top = tempfile.mkdtemp(prefix="repository-", dir=self.room)
        for name in ("tools", "desktop", "docs", "crates"):
            shutil.copytree(f"{TOP}/{name}", f"{self.top}/{name}", ignore=shutil.ignore_patterns("out", "edits"))
        for name in ("HANDLES", "crates.txt", "README.md", "CHANGELOG.md"):
            shutil.copy(f"{TOP}/{name}", self.top)
        for name in PROGRAMS:
            os.makedirs(f"{self.top}/crates/{name}/out")
            shutil.copy(f"{TOP}/crates/{name}/out/{name}", f"{self.top}/crates/{name}/out")

    def said(self, *names, **how):
        told = ran(f"{self.top}/tools/proved", *names, **how)
        lines = dict(re.findall(r"^(\w+) (proved|unproved): ", told.stdout, re.M))
        self.assertEqual(told.returncode, 0 if set(lines.values()) == {"proved"} else 1)
        return lines

    def test_what_the_kit_proved_is_called_so(self):
        self.assertEqual(self.said(), dict.fromkeys(PROGRAMS, "proved"))

    def test_a_program_newer_than_its_sources_is_not_enough(self):
        with open(f"{self.top}/crates/smrelay/out/smrelay", "ab") as file:
            file.write(b"\n")
        self.assertEqual(self.said("smrelay", "smd"), {"smrelay": "unproved", "smd": "proved"})

    def test_a_changed_source_below_counts(self):
        path = f"{self.top}/crates/program_texts/src/versions.rt"
        text = text_of(path)
        write(path, text + "\n")
        self.assertEqual(self.said(), dict.fromkeys(PROGRAMS, "unproved"))
        write(path, text)
        self.assertEqual(self.said("smctl"), {"smctl": "proved"})

    def test_a_changed_list_of_handles_counts(self):
        write(f"{self.top}/HANDLES", "Handles allowed: none.\n")
        self.assertEqual(self.said("smctl"), {"smctl": "unproved"})

    def test_nothing_is_proved_where_no_kit_is(self):
        kitless = {**os.environ, "PATH": f"{self.room}/kitless"}
        os.makedirs(kitless["PATH"], exist_ok=True)
        if not os.path.lexists(f"{self.room}/kitless/python3"):
            os.symlink(sys.executable, f"{self.room}/kitless/python3")
        self.assertEqual(self.said("smctl", "smd", env=kitless), {"smctl": "unproved", "smd": "unproved"})

    def test_what_rt_run_noted_counts_for_its_own_program_alone(self):
        proved = program_at(f"{TOP}/tools/proved")
        here = os.getcwd()
        self.addCleanup(os.chdir, here)
        os.chdir(self.top)
        rt = rt_code()
        crate = crates_of(rt, self.top)["smctl"]
        rt.read_files(crate)
        write(f"{self.top}/crates/smctl/out/smctl.stamp", crate.stamp() + "0" * 64)
        self.assertTrue(proved.noted_by_run(rt, crate, "0" * 64))
        self.assertFalse(proved.noted_by_run(rt, crate, "1" * 64))
        write(f"{self.top}/crates/control_lines/src/lib.rt", text_of(f"{self.top}/crates/control_lines/src/lib.rt") + "\n")
        self.assertFalse(proved.noted_by_run(rt, crate, "0" * 64))

    def test_an_installation_says_which_is_unproved_and_goes_again(self):
        with open(f"{self.top}/crates/smrelay/out/smrelay", "ab") as file:
            file.write(b"\n")
        # (else they would be built)
        for name in PROGRAMS:
            os.utime(f"{self.top}/crates/{name}/out/{name}")
        made = ran(f"{self.top}/tools/install", f"{self.top}/prefix")
        self.assertEqual((made.returncode, re.findall(r"^(\w+) is unproved", made.stderr, re.M)), (0, ["smrelay"]))
        self.assertIn("smrelay unproved: ", text_of(f"{self.top}/prefix/share/doc/smd/proof"))
        self.assertIn("smd proved: ", text_of(f"{self.top}/prefix/share/doc/smd/proof"))
        self.assertTrue(os.path.isfile(f"{self.top}/prefix/share/fish/vendor_completions.d/smctl.fish"))
        ran(f"{self.top}/tools/uninstall", f"{self.top}/prefix")
        self.assertEqual([it for _, _, names in os.walk(f"{self.top}/prefix") for it in names], [])


@unittest.skipUnless(shutil.which("dpkg-deb"), "no dpkg-deb is here")
class Package(Rooms):
    @classmethod
    def setUpClass(cls):
        super().setUpClass()
        env = {name: value for name, value in os.environ.items() if name not in ("SOURCE_DATE_EPOCH", "DEBFULLNAME", "DEBEMAIL", "SMD_HOMEPAGE")}
        cls.package = cls.made("one", copy_of_programs(f"{cls.room}/programs"), env)
        cls.again = cls.made("two", f"{cls.room}/programs", {**env, "TZ": "Asia/Tokyo", "HOME": cls.room}, 0o077)
        cls.unproved = cls.made("three", copy_of_programs(f"{cls.room}/altered", "smrelay"), env)
        cls.tree = f"{cls.room}/tree"
        ran("dpkg-deb", "-R", cls.package, cls.tree)

    @classmethod
    def made(cls, folder, programs, env, umask=0o022):
        made = ran(f"{TOP}/tools/package", f"{cls.room}/{folder}", programs, env=env, umask=umask)
        if made.returncode:
            raise RuntimeError(made.stderr)
        return made.stdout.strip()

    def field(self, name, package=None):
        return ran("dpkg-deb", "-f", package or self.package, name).stdout.strip()

    def test_of_proved_programs_it_is_smd(self):
        self.assertEqual((self.field("Package"), os.path.basename(self.package)), ("smd", f"smd_{self.field('Version')}_{self.field('Architecture')}.deb"))
        self.assertNotIn("unproved", self.field("Version") + self.field("Description"))
        self.assertIn("is proved", self.field("Description"))
        self.assertEqual(re.findall(r"^(\w+) proved: ", text_of(f"{self.tree}/usr/share/doc/smd/proof"), re.M), PROGRAMS)

    def test_of_one_that_nobody_proved_it_is_unproved(self):
        package = self.unproved
        self.assertEqual(self.field("Package", package), "smd-unproved")
        self.assertEqual(self.field("Version", package), self.field("Version") + "~unproved")
        self.assertIn("unproved", self.field("Description", package).splitlines()[0])
        self.assertIn("These programs are unproved", self.field("Description", package))
        self.assertNotIn("is proved", self.field("Description", package))
        self.assertIn("smd", self.field("Conflicts", package).split(", "))
        ran("dpkg-deb", "-x", package, f"{self.room}/unproved")
        self.assertIn("smrelay unproved: ", text_of(f"{self.room}/unproved/usr/share/doc/smd-unproved/proof"))

    def test_two_have_the_same_bytes(self):
        with open(self.package, "rb") as one, open(self.again, "rb") as two:
            self.assertTrue(one.read() == two.read(), "they differ")

    def test_it_depends_on_the_library_that_the_programs_want(self):
        wanted = "".join(ran("objdump", "-p", f"{self.tree}/usr/bin/{name}").stdout for name in PROGRAMS)
        self.assertEqual(set(re.findall(r"NEEDED +(\S+)", wanted)), {"libc.so.6"})
        newest = max(tuple(map(int, it.split("."))) for it in re.findall(r" GLIBC_([0-9.]+)$", wanted, re.M))
        self.assertEqual(self.field("Depends"), f"libc6 (>= {'.'.join(map(str, newest))})")

    def test_it_recommends_what_a_session_wants(self):
        groups = [set(it.split(" | ")) for it in self.field("Recommends").split(", ")]
        for wanted in ("x-terminal-emulator", "x-window-manager", "zenity", "dbus-session-bus"):
            self.assertTrue(any(wanted in it for it in groups), wanted)

    def test_nothing_is_told_of_people_and_places_that_nobody_told(self):
        self.assertEqual(self.field("Homepage"), "")
        env = {**os.environ, "DEBFULLNAME": "A Person", "DEBEMAIL": "person@example.org", "SMD_HOMEPAGE": "https://example.org/smd"}
        package = self.made("four", f"{self.room}/programs", env)
        self.assertEqual((self.field("Maintainer", package), self.field("Homepage", package)), ("A Person <person@example.org>", "https://example.org/smd"))

    def test_x_may_be_started_with_it_as_long_as_it_is_there(self):
        self.assertIn("x-session-manager", self.field("Provides").split(", "))
        write(f"{self.room}/bin/update-alternatives", '#!/bin/sh\necho "$@"\n', 0o755)
        env = {"PATH": f"{self.room}/bin:/usr/bin:/bin"}
        said = {words: ran(f"{self.tree}/DEBIAN/{words[0]}", *words[1:], env=env).stdout for words in (("postinst", "configure"), ("postinst", "abort-remove"), ("prerm", "remove"), ("prerm", "upgrade", "9"))}
        begun = said["postinst", "configure"].split()
        self.assertEqual(begun[:4], ["--install", "/usr/bin/x-session-manager", "x-session-manager", "/usr/bin/smd-session"])
        self.assertTrue(os.path.isfile(f"{self.tree}{begun[-1]}") and os.path.isfile(f"{self.tree}{begun[3]}"))
        self.assertEqual(said["prerm", "remove"], "--remove x-session-manager /usr/bin/smd-session\n")
        self.assertEqual((said["postinst", "abort-remove"], said["prerm", "upgrade", "9"]), ("", ""))

    def test_each_file_has_its_sum(self):
        self.assertEqual(ran("md5sum", "--quiet", "--strict", "-c", "DEBIAN/md5sums", cwd=self.tree).returncode, 0)
        there = [os.path.relpath(f"{at}/{name}", self.tree) for at, _, names in os.walk(f"{self.tree}/usr") for name in names]
        self.assertEqual([line[34:] for line in text_of(f"{self.tree}/DEBIAN/md5sums").splitlines()], sorted(there))

    def test_shells_find_what_completes(self):
        for name in PROGRAMS + SCRIPTS:
            self.assertTrue(os.path.isfile(f"{self.tree}/usr/share/bash-completion/completions/{name}"), name)
            self.assertTrue(os.path.isfile(f"{self.tree}/usr/share/fish/vendor_completions.d/{name}.fish"), name)
            self.assertRegex(text_of(f"{self.tree}/usr/share/zsh/vendor-completions/_smd").splitlines()[0], rf"^#compdef .*\b{name}\b")

    def test_its_pages_lead_to_what_it_has(self):
        self.assertEqual(ran(f"{TOP}/tools/links", f"{self.tree}/usr/share/doc/smd").stdout, "")
        self.assertTrue(os.path.isfile(f"{self.tree}/usr/share/doc/smd/docs/man/smd.md"))
        pages = "".join(ran("zcat", f"{self.tree}/usr/share/man/man1/{name}.1.gz").stdout for name in PROGRAMS + SCRIPTS)
        named = set(re.findall(r"/usr/share/doc/smd/[\w./-]*\w", pages))
        self.assertTrue(named)
        self.assertEqual([it for it in named if not os.path.exists(f"{self.tree}{it}")], [])

    def test_the_licence_is_left_to_the_owner(self):
        self.assertIn("the licence is the owner's to choose", text_of(f"{self.tree}/usr/share/doc/smd/copyright"))

    @unittest.skipUnless(shutil.which("lintian"), "no lintian is here")
    def test_lintian_misses_the_licence_alone(self):
        for package in (self.package, self.unproved):
            said = ran("lintian", "--pedantic", "--allow-root", package).stdout.splitlines()
            self.assertEqual([line for line in said if not line.startswith("N:") and line.split()[2] != LICENCE], [])


if __name__ == "__main__":
    unittest.main()
