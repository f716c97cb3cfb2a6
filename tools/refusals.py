"""Has the prover try wrong bodies, and reads what it says against each.

A function's proof rests on its own body and on the contracts of what it calls, and on no other body, but in a cycle of calls. So
edits in the bodies of different functions stand in one copy of the crate, and one check judges them all: each function's refusal
is its own edit's. Who isn't refused there is tried again alone, and an edit of a definition or a constant always is."""
import dataclasses
import os
import re
import shutil
import subprocess

from kit import text_of
from wrong_bodies import PARTS, CannotApply, applied, functions, functions_of, grouped

# What a check says of a name that an edit took away. Such a refusal says nothing of a clause.
LOST = re.compile(r"has no field|is not in scope|has no `|was not admitted")
# How a message begins; a line that begins otherwise goes on with the one before it.
BEGINS = re.compile(r"(note|help|fn|struct|impl|warning|logic|crate|library|statements)\b|(\./)?(src|specs|proofs)/\S+:\d+:\d+:")
IN_CODE = re.compile(r"(?:note: )?(?:\./)?(src/\S+?):(\d+):\d+: (.*)")
IN_ANSWERS = re.compile(r"(?:note: )?(?:\./)?proofs/(\S+?)/(?:Answers|Invariants|Proof)\.antt:\d+:\d+: (.*)")
IN_LOGIC = re.compile(r"(?:note: )?(?:\./)?((?:specs|proofs)/\S+?):\d+:\d+: (.*)")
GOAL = re.compile(r"\(`([\w.-]+)`\)|error: `([\w.-]+)`")
# The check came to its end and judged what it was to judge.
JUDGED = re.compile(r"^(only=\d+ proved=|logic=(not-)?proved)", re.M)
PROVED = re.compile(r"^(only=|logic=proved)", re.M)


@dataclasses.dataclass(frozen=True)
class Outcome:
    """What came of an edit: `refused`, `lost` for a name alone, `missed` by every clause, `bad` where it can't be applied or read,
    `unsure` where the check told nothing; the function that was refused; and the goal, or what was said."""

    kind: str
    function: str = ""
    clause: str = ""

    def is_refused(self):
        return self.kind == "refused"


@dataclasses.dataclass(frozen=True)
class Span:
    """Where a function stands in the changed text, by lines."""

    path: str
    name: str
    called: str
    first: int
    last: int


def first_line(text, function):
    """Returns the line in which a function begins, with the attributes and comments in front of it."""
    number = text.count("\n", 0, function.begin) + 1
    for line in reversed(text.split("\n")[: number - 1]):
        if not line.strip() or line.strip()[-1] in "{}":
            break
        number -= 1
    return number


def spans(path, text, wanted=None):
    """Returns where the functions of a file stand, or those with these numbers."""
    last = lambda it: text.count("\n", 0, it.end) + 1
    return [Span(path, it.name, it.called(), first_line(text, it), last(it)) for it in functions(path, text) if wanted is None or it.number in wanted]


def messages(said):
    """Returns the messages of a check, each with the lines that go on with it."""
    found = []
    for line in said.split("\n"):
        if not found or BEGINS.match(line):
            found.append(line)
        else:
            found[-1] += f" {line.strip()}"
    return found


def function_of(message, where):
    """Returns the name of the function that a message is about, or None."""
    if it := IN_CODE.match(message):
        return next((span.name for span in where if span.path == it[1] and span.first <= int(it[2]) <= span.last), None)
    if it := IN_ANSWERS.match(message):
        answered = it[1].replace("/", "::")
        return next((span.name for span in where if f"::{answered}".endswith(f"::{span.called}")), None)
    return None


def judged(said, where):
    """Reads from a check what came of an edit whose functions stand there."""
    unproved = set()
    for message in messages(said):
        if it := re.match(r"fn (\S+?): (no proof|not proved|could not tell)", message):
            unproved.update(re.split(r"\+|::", it[1]))
    about = [(function_of(message, where), message) for message in messages(said)]
    about = [(name, message) for name, message in about if name is not None]
    lost = [it for it in about if LOST.search(it[1])]
    for name, message in about:
        if (name, message) not in lost and name.rsplit("::", 1)[-1] in unproved:
            goal = GOAL.search(message)
            return Outcome("refused", name, goal[1] or goal[2] if goal else message[:160])
    if about:
        return Outcome("lost" if lost else "unsure", about[0][0], (lost or about)[0][1][:200])
    return Outcome("missed")


def judged_by_logic(said):
    """Reads from a check which definition or lemma refused an edit that no function did."""
    found = [(it[1], it[2]) for it in map(IN_LOGIC.match, messages(said)) if it]
    own = [it for it in found if not LOST.search(it[1])]
    if own:
        return Outcome("refused", "", f"{own[0][0]}: {own[0][1][:120]}")
    return Outcome("lost" if found else "unsure", "", found[0][1][:160] if found else said[-200:])


def unread(status, said):
    """What came of an edit over which the check didn't come to its end."""
    text = next((line for line in said.split("\n") if "error" in line), said[-200:])
    return Outcome("bad" if status == 1 else "unsure", "", text[:200])


class Prover:
    """Checks of one crate's text in a copy of its folder, over the libraries that are built in the repository."""

    def __init__(self, rt, crate, room, tell=lambda text: None):
        self.rt, self.crate, self.room, self.tell = rt, crate, room, tell
        self.took, self.checks, self.seed = 0.0, 0, None

    def begin(self):
        """Proves the crate as it stands, beginning with what rt check left of it; each later check begins with that. It returns
        whether the crate is proved: an edit of one that isn't says nothing."""
        seed, kept = f"{self.room}.seed", f"{self.crate.folder}/out/incremental"
        if os.path.isdir(kept):
            self.rt.linked(kept, seed)
        else:
            os.mkdir(seed)
        status, _ = self.check({}, [], seed, "as it stands")
        self.seed = seed
        return status == 0

    def over(self):
        """Returns a folder with what is proved of the crate. A check replaces a file there and changes none, so links suffice."""
        if not self.seed:
            return None
        over = f"{self.room}.over"
        shutil.rmtree(over, ignore_errors=True)
        self.rt.linked(self.seed, over)
        return over

    def try_texts(self, texts, only, what):
        """Checks the crate with these texts: without a seed these functions alone, where any are named."""
        return self.check(texts, [] if self.seed else only, self.over(), what)

    def check(self, texts, only, over, what):
        shutil.rmtree(self.room, ignore_errors=True)
        for part in PARTS:
            if os.path.isdir(f"{self.crate.folder}/{part}"):
                shutil.copytree(f"{self.crate.folder}/{part}", f"{self.room}/{part}")
        for path, text in texts.items():
            with open(f"{self.room}/{path}", "w", encoding="utf-8") as file:
                file.write(text)
        words = self.crate.words(["--jobs", "1", *(word for name in only for word in ("--only", name))], keeps=False)
        words += ["--incremental", over] if over else []
        how = {"stdin": subprocess.DEVNULL, "stdout": subprocess.PIPE, "stderr": subprocess.STDOUT, "errors": "replace"}
        ran = subprocess.Popen([self.rt.rtlib.RATTLE, "check", *words], cwd=self.room, **how)
        said = ran.stdout.read()
        _, status, use = os.wait4(ran.pid, 0)
        ran.returncode = os.waitstatus_to_exitcode(status)
        took = use.ru_utime + use.ru_stime
        self.took, self.checks = self.took + took, self.checks + 1
        self.tell(f"{self.crate.name}: {what}, {took:.0f} processor seconds")
        return ran.returncode, said


def try_together(prover, edits, is_only):
    """Tries edits of different functions in one check, and returns what came of them, and the groups that are to be tried yet, each
    with whether its functions are to be looked at alone."""
    try:
        texts = applied(edits)
    except CannotApply as why:
        return ({}, [([it], is_only) for it in edits]) if len(edits) > 1 else ({edits[0]: Outcome("bad", "", str(why))}, [])
    changed = {edit: edit.changed() for edit in edits}
    only = sorted({it.called() for own in changed.values() for it in own}) if is_only else []
    status, said = prover.try_texts(texts, only, f"{len(edits)} edits in one check")
    if not JUDGED.search(said):
        if is_only and status == 2:
            # A name that fits nothing, or several.
            return {}, [(edits, False)]
        half = (len(edits) + 1) // 2
        return ({}, [(edits[:half], is_only), (edits[half:], is_only)]) if len(edits) > 1 else ({edits[0]: unread(status, said)}, [])
    results, again = {}, []
    for edit, own in changed.items():
        where = [span for path in {it.path for it in own} for span in spans(path, texts[path], {it.number for it in own if it.path == path})]
        found = judged(said, where)
        is_open = found.kind != "lost" and is_only and not prover.seed
        if not found.is_refused() and (len(edits) > 1 or is_open):
            again.append(([edit], is_only and len(edits) > 1))
        else:
            results[edit] = found
    return results, again


def try_alone(prover, edit, last):
    """Tries an edit that changes more than bodies: first on the function that refused it the last time, and then on the crate."""
    try:
        texts = applied([edit])
    except CannotApply as why:
        return Outcome("bad", "", str(why))
    paths = dict.fromkeys(it.path for it in functions_of(prover.crate.folder))
    where = [span for path in paths for span in spans(path, texts.get(path) or text_of(f"{prover.crate.folder}/{path}"))]
    known = [span.called for span in where if span.name == last and not prover.seed]
    for only in (known, []) if known else ([],):
        status, said = prover.try_texts(texts, only, f"{edit.name.split('/')[-1]} alone{f' on {only[0]}' if only else ''}")
        found = judged(said, where)
        if found.is_refused():
            return found
    if not JUDGED.search(said):
        return unread(status, said)
    return found if PROVED.search(said) else judged_by_logic(said)


def try_crate(prover, edits, last):
    """Tries edits of a crate, and returns what came of each; last gives the function that refused one the last time."""
    together, alone = grouped(edits)
    results, waiting = {}, [(group, True) for group in together]
    while waiting:
        found, again = try_together(prover, *waiting.pop(0))
        results.update(found)
        waiting += again
    for edit in alone:
        results[edit] = try_alone(prover, edit, last(edit))
    return results


def wants_seed(edits, last):
    """Whether so many checks are to come that the crate is proved first, and each begins with that: one of a few functions from
    nothing costs less than proving the crate."""
    together, alone = grouped(edits)
    whole = sum(1 for it in alone if not last(it))
    return whole > 1 or len(together) + len(alone) > 2
