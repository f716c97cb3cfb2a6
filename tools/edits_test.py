#!/usr/bin/env python3
"""Tests of tools/edits, over a small repository of its own: that it writes a row for what was refused for a clause and for
nothing else, and that a row which isn't so is found. A few of them have the prover check three functions."""
import os
import shutil
import subprocess
import sys
import tempfile
import unittest

sys.dont_write_bytecode = True
from kit import program_at

HERE = os.path.dirname(os.path.abspath(__file__))
LOW = '//! Nothing.\n#![tactic(auto)]\n'
STEPS = '''//! Numbers that are handed on.
#![tactic(auto)]

ghost use Rattle.std.specs.Prelude.{◌≡◌};

/// The number itself.
pub fn same(number: u64) -> u64
    ensures same { result ≡ number }
{
    let kept = number;
    kept
}

/// The first of two numbers.
pub fn first(one: u64, other: u64) -> u64
    ensures first { result ≡ one }
{
    if one < other {
        return one;
    }
    one
}

/// The number, by another call.
pub fn relayed(number: u64) -> u64
    ensures relayed { result ≡ number }
{
    same(number)
}
'''
ANSWERS = '''use Rattle.steps.proofs.relayed.Goals as goal

pub returns : goal.returns
returns c = record { relayed = c.same.ensures.same }
'''
EDITS = {
    "another_number": ("let kept = number;", "let kept = 7;"),
    "nothing_is_changed": ("if one < other {", "if one <= other {"),
    "a_name_is_lost": ("    same(number)", "    number"),
}


class Room(unittest.TestCase):
    def setUp(self):
        self.top = tempfile.mkdtemp(prefix="smd-edits-test-")
        self.addCleanup(shutil.rmtree, self.top)
        for path, text in {"HANDLES": "Handles allowed: none.\n", "crates.txt": "low:\nsteps: low\n"}.items():
            self.write(path, text)
        for path, text in {"low/src/lib.rt": LOW, "steps/src/lib.rt": STEPS, "steps/proofs/relayed/Answers.antt": ANSWERS}.items():
            self.write(f"crates/{path}", text)
        self.write("tools/kept-libraries", "#!/bin/sh\n")
        os.chmod(f"{self.top}/tools/kept-libraries", 0o755)
        for words in (["init", "-q"], ["add", "-A"], ["-c", "user.name=a", "-c", "user.email=a@b", "commit", "-qm", "all"]):
            subprocess.run(["git", *words], cwd=self.top, check=True)

    def write(self, path, text):
        os.makedirs(os.path.dirname(f"{self.top}/{path}"), exist_ok=True)
        with open(f"{self.top}/{path}", "w", encoding="utf-8") as file:
            file.write(text)

    def edits(self, *names):
        for name in names:
            old, new = EDITS[name]
            self.write(f"crates/steps/edits/{name}.edit", f"file: src/lib.rt\nold: {old}\nnew: {new}\n")

    def rows(self):
        path = f"{self.top}/tools/edits.tried"
        if not os.path.isfile(path):
            return {}
        with open(path, encoding="utf-8") as file:
            return {line.split("\t")[0].split("/")[-1]: line.rstrip("\n").split("\t")[1:] for line in file}

    def run_edits(self, *words):
        """Runs the tool, and returns its status and what it printed."""
        ran = subprocess.run([f"{HERE}/edits", *words], env={**os.environ, "SMD_TOP": self.top}, stdout=subprocess.PIPE, stderr=subprocess.STDOUT, text=True)
        return ran.returncode, ran.stdout

    def module(self):
        """Returns the tool as a module that works here, and a ledger of it."""
        os.environ["SMD_TOP"] = self.top
        self.addCleanup(os.environ.pop, "SMD_TOP", None)
        self.addCleanup(os.chdir, os.getcwd())
        os.chdir(self.top)
        module = program_at(f"{HERE}/edits")
        rt = module.rt_code()
        return module, module.Ledger(module.crates_of(rt, self.top), ["steps"])

    def row_by_hand(self, name, function, clause):
        """Writes a row with the right sums for an edit that nobody tried."""
        module, ledger = self.module()
        edit = next(it for it in ledger.edits["steps"] if it.name.endswith(name))
        module.write_rows({edit.name: module.Row(*ledger.now[edit], "2026-01-01", function, clause)})


class Applied(Room):
    def test_an_edit_that_cannot_be_applied_fails(self):
        self.write("crates/steps/edits/gone.edit", "file: src/lib.rt\nold: no such text\nnew: another\n")
        status, said = self.run_edits()
        self.assertEqual((status, self.rows()), (1, {}))
        self.assertIn("steps/edits/gone: its old text stands 0 times", said)

    def test_a_text_of_two_lines_is_not_taken_for_its_first(self):
        self.write("crates/steps/edits/two.edit", "file: src/lib.rt\nold: let kept = number;\n    kept\nnew: let kept = number;\n    7\n")
        status, said = self.run_edits()
        self.assertEqual((status, self.rows()), (1, {}))
        self.assertIn("steps/edits/two: it has a line of no kind: kept", said)


class Tried(Room):
    def test_only_what_a_clause_refused_gets_a_row(self):
        self.edits(*EDITS)
        status, said = self.run_edits()
        self.assertEqual(status, 1)
        self.assertIn("failed: steps/edits/nothing_is_changed: missed", said)
        self.assertIn("failed: steps/edits/a_name_is_lost: lost", said)
        self.assertIn("1 passed, 2 failed", said)
        rows = self.rows()
        self.assertEqual({name: row[3:] for name, row in rows.items()}, {"another_number": ["same", "returns"]})

    def test_a_row_by_hand_is_found_by_the_sample(self):
        self.edits("nothing_is_changed")
        self.row_by_hand("nothing_is_changed", "first", "returns")
        self.assertEqual(self.run_edits()[0], 0)
        status, said = self.run_edits("--sample", "1")
        self.assertEqual((status, self.rows()), (1, {}))
        self.assertIn("nothing_is_changed: missed", said)


class Rows(Room):
    def setUp(self):
        super().setUp()
        self.edits("another_number")
        self.row_by_hand("another_number", "same", "returns")

    def test_a_fresh_row_is_not_tried(self):
        status, said = self.run_edits("--minutes", "0")
        self.assertEqual(status, 0)
        self.assertIn("tried 0; 0 wait", said)

    def test_an_edit_without_a_row_may_not_wait(self):
        self.edits("nothing_is_changed")
        status, said = self.run_edits("--minutes", "0")
        self.assertEqual(status, 1)
        self.assertIn("nothing_is_changed: no time was left", said)

    def test_one_that_was_never_tried_is_left_out_until_its_crate_is_named(self):
        self.edits("nothing_is_changed")
        self.write("tools/edits.untried", "steps/edits/nothing_is_changed\n")
        status, said = self.run_edits("--minutes", "0")
        self.assertEqual(status, 0)
        self.assertIn("1 were never tried", said)
        self.assertEqual(self.run_edits("--minutes", "0", "steps")[0], 1)

    def test_a_row_whose_own_sum_is_old_may_not_wait(self):
        self.write("crates/steps/src/lib.rt", STEPS.replace("handed on", "given back"))
        status, said = self.run_edits("--minutes", "0")
        self.assertEqual(status, 1)
        self.assertIn("another_number: no time was left", said)

    def test_a_row_may_wait_where_only_what_is_below_has_changed(self):
        self.write("crates/low/src/lib.rt", LOW.replace("Nothing", "Nothing at all"))
        for words in (["--minutes", "0"], ["--below", "0"]):
            status, said = self.run_edits(*words)
            self.assertEqual(status, 0)
            self.assertIn("tried 0; 1 wait", said)

    def test_what_may_not_wait_is_tried_where_the_others_wait(self):
        self.edits("nothing_is_changed")
        status, said = self.run_edits("--below", "0")
        self.assertEqual(status, 1)
        self.assertIn("nothing_is_changed: missed", said)

    def test_another_logic_makes_a_row_stale_that_may_wait(self):
        module, ledger = self.module()
        sums = module.Sums()
        sums.logic = "another"
        edit = ledger.edits["steps"][0]
        own, below = sums.of(ledger.crates["steps"], [edit])[edit]
        self.assertEqual(own, ledger.now[edit][0])
        self.assertNotEqual(below, ledger.now[edit][1])

    def test_a_row_whose_clause_is_gone_is_found(self):
        for function, clause in (("same", "returns-clause-gone"), ("gone", "returns")):
            self.row_by_hand("another_number", function, clause)
            self.assertEqual(self.run_edits("--rows")[0], 1)
            self.assertEqual(self.run_edits()[0], 1)
        self.row_by_hand("another_number", "same", "returns-clause-same")
        self.assertEqual(self.run_edits("--rows")[0], 0)

    def test_a_file_that_changes_meanwhile_gives_no_row(self):
        module, ledger = self.module()
        edit, crate = ledger.edits["steps"][0], ledger.crates["steps"]
        refused = module.sys.modules["refusals"].Outcome("refused", "same", "returns")
        ledger.keep(crate, {edit: refused})
        self.assertIn("another_number", self.rows())
        self.write("crates/low/src/lib.rt", LOW.replace("Nothing", "Nothing at all"))
        ledger.keep(crate, {edit: refused})
        self.assertEqual(self.rows(), {})


class Read(unittest.TestCase):
    def test_edits_of_one_function_stand_in_no_check_together(self):
        from wrong_bodies import functions

        found = {it.name: it for it in functions("src/lib.rt", STEPS)}
        self.assertEqual(list(found), ["same", "first", "relayed"])
        self.assertEqual(STEPS[found["same"].body : found["same"].end + 1], "{\n    let kept = number;\n    kept\n}")

    def test_a_refusal_of_another_function_is_not_taken(self):
        from refusals import Span, judged

        said = "note: src/lib.rt:12:5: it is not proved that what the function ensures holds when it returns (`returns`)\nfn steps::first: no proof: expected answers\n"
        self.assertEqual(judged(said, [Span("src/lib.rt", "first", "first", 10, 20)]).clause, "returns")
        self.assertEqual(judged(said, [Span("src/lib.rt", "same", "same", 1, 9)]).kind, "missed")

    def test_a_refusal_at_an_attribute_is_its_function_s(self):
        from refusals import spans

        found = spans("src/lib.rt", "fn one() {\n}\n\n/// Two.\n#[inline]\npub fn two() {\n}\n")
        self.assertEqual([(it.name, it.first, it.last) for it in found], [("one", 1, 2), ("two", 4, 7)])

    def test_a_method_is_known_by_its_type_wherever_it_stands(self):
        from refusals import judged, spans

        text = "impl Core {\n    fn leave(&mut self) {\n        self.gone();\n    }\n}\n"
        said = "./proofs/session_core/Core/leave/Answers.antt:19:52: error: `returns`: the two types differ\nfn one::session_core::Core::leave: not proved\n"
        found = judged(said, spans("src/connections.rt", text))
        self.assertEqual((found.kind, found.function, found.clause), ("refused", "connections::Core::leave", "returns"))


if __name__ == "__main__":
    sys.path.insert(0, HERE)
    unittest.main()
