#!/usr/bin/env python3
"""Tests of tools/pages and tools/links: that an example which prints something else, a page in markdown of another text, what mandoc
warns of and a link that leads nowhere are found."""
import os
import shutil
import sys
import tempfile
import unittest

sys.dont_write_bytecode = True
from kit import program_at, text_of, write
from package_test import ran

HERE = os.path.dirname(os.path.abspath(__file__))
PAGE = r""".Dd December 2, 2026
.Dt ONE 1
.Os
.Sh NAME
.Nm one
.Nd a page
.Sh EXAMPLES
.Bd -literal
$ printf '%s\en' a \e
>     b
a
b
$ true
.Ed
.Sh SEE ALSO
.Xr two 1
"""


class Rooms(unittest.TestCase):
    def setUp(self):
        self.room = tempfile.mkdtemp(prefix="smd-pages-test-")
        self.addCleanup(shutil.rmtree, self.room)


class Pages(Rooms):
    def setUp(self):
        super().setUp()
        self.pages = program_at(f"{HERE}/pages")
        self.pages.TOP = self.room
        os.makedirs(f"{self.room}/home")
        self.write(PAGE)
        write(f"{self.room}/docs/man/two.1", PAGE.replace("ONE", "TWO").replace("Nm one", "Nm two").replace("Xr two", "Xr one"))

    def write(self, text):
        write(f"{self.room}/docs/man/one.1", text)

    def lost(self):
        return self.pages.differences("one", self.room, {"PATH": "/usr/bin:/bin"})

    def test_the_examples_are_the_commands_with_what_they_print(self):
        self.assertEqual(self.pages.examples_of(PAGE), [("printf '%s\\n' a \\\n    b", ["a", "b"]), ("true", [])])

    def test_an_example_that_prints_what_stands_there_is_well(self):
        self.assertEqual(self.lost(), [])

    def test_each_other_line_is_found(self):
        for text in (PAGE.replace("\nb\n", "\nc\n"), PAGE.replace("\nb\n", "\n"), PAGE.replace("$ true", "$ echo more"), PAGE.replace("\nb\n", "\nb\nc\n")):
            self.write(text)
            self.assertNotEqual(self.lost(), [], text)

    def test_a_page_without_examples_is_found(self):
        self.write(PAGE.replace("EXAMPLES", "NOTES"))
        self.assertEqual(self.lost(), ["one(1) has no example"])

    @unittest.skipUnless(shutil.which("mandoc"), "no mandoc is here")
    def test_a_page_in_markdown_is_of_its_page(self):
        self.assertEqual(len(self.pages.markdown(True)), 2)
        self.pages.markdown(False)
        self.assertEqual(self.pages.markdown(True), [])
        self.assertIn("[two(1)](two.md)", text_of(f"{self.room}/docs/man/one.md"))
        self.write(PAGE.replace("a page", "another page"))
        self.assertEqual(len(self.pages.markdown(True)), 1)

    @unittest.skipUnless(shutil.which("mandoc"), "no mandoc is here")
    def test_what_mandoc_warns_of_is_found(self):
        self.assertEqual(self.pages.lint(), [])
        self.write(PAGE.replace(".Xr two 1", ".Xr two 1\n.Ed"))
        self.assertEqual(len(self.pages.lint()), 1)


class Links(Rooms):
    def said(self, text, *words):
        write(f"{self.room}/pages/page.md", text)
        write(f"{self.room}/pages/docs/other.md", "# A `heading`, with a comma\n")
        told = ran(f"{HERE}/links", *words, f"{self.room}/pages")
        self.assertEqual(told.returncode, 1 if told.stdout else 0, told.stderr)
        return [line.split(" by ")[1] for line in told.stdout.splitlines()]

    def test_what_is_there_is_well(self):
        text = "# Own\n[a](docs/other.md) [b](docs/other.md#a-heading-with-a-comma) [c](#own) [d](docs) [e](https://example.org/) `[f](g)`\n"
        self.assertEqual(self.said(text), [])

    def test_what_leads_nowhere_is_found(self):
        text = "[a](gone.md) [b `c`](docs/other.md#gone) [d](#gone) ![e](gone.png) [![f](gone.svg)](docs/other.md)\n"
        self.assertEqual(self.said(text), ["gone.md", "docs/other.md#gone", "#gone", "gone.png", "gone.svg"])

    def test_what_leads_to_no_file_becomes_its_text(self):
        self.assertEqual(self.said("[a `b`](gone.md#c), [d](docs/other.md), `[e](gone)`\n", "--drop"), [])
        self.assertEqual(text_of(f"{self.room}/pages/page.md"), "a `b`, [d](docs/other.md), `[e](gone)`\n")


if __name__ == "__main__":
    unittest.main()
