"""Reads the wrong bodies, crates/NAME/must-fail/*.edit and crates/NAME/edits/*.edit: which text each puts in the place of which,
and the bodies of which functions that changes. Of Rattle it knows how functions, impls and clauses begin and end, and no more:
where it errs, an edit is tried alone over its whole crate, which is slow, and right."""
import dataclasses
import glob
import os
import re

from kit import text_of

# What an edit may change, below its crate's folder.
PARTS = ("src", "specs", "proofs")
# A brace behind one of these words, with or without a name, holds a clause and no body.
CLAUSE = re.compile(r"(requires|ensures|decreases|invariant|ghost)\*?(\s+\w+)?\s*(:\s*)?$")
OWNER = re.compile(r"^(?:unsafe )?(?:impl\b(?:<[^{]*?>)?\s*(?P<impl>[^{]*?)|(?:pub(?:\(\w+\))? )?trait (?P<trait>\w+)[^{]*?)\s*\{", re.M)
UNREAD = re.compile(r'//[^\n]*|/\*.*?\*/|b?r#"(?:.|\n)*?"#|b?"(?:\\(?:.|\n)|[^"\\])*"|b?\'(?:\\x..|\\u\{\w+\}|\\.|[^\'\\])\'', re.S)


class CannotApply(Exception):
    """Why an edit can't be applied to the files as they are."""


# --- functions ---


@dataclasses.dataclass(frozen=True)
class Function:
    """A function with a body that stands in no other one: the file below its crate, which of that file's it is, its name with the
    module, the name without that, and where in the text it begins, its body begins, and its body ends. The prover calls a method
    by the module of its type, which may be another than that of the method."""

    path: str
    number: int
    name: str
    ending: str
    begin: int
    body: int
    end: int

    def place(self):
        return self.path, self.number

    def called(self):
        """Returns a name by which the prover finds the function, or several."""
        return self.ending if "::" in self.ending else self.name


def blanked(text):
    """Returns the text with blanks in the place of comments, strings and characters, of the same length and lines."""
    return UNREAD.sub(lambda it: re.sub(r"[^\n]", " ", it[0]), text)


def closing(text, at):
    """Returns where the brace that opens at this place is closed."""
    depth = 0
    for brace in re.finditer(r"[{}]", text[at:]):
        depth += 1 if brace[0] == "{" else -1
        if not depth:
            return at + brace.start()
    return len(text)


def body_of(text, head):
    """Returns where the body opens of the function whose name ends at this place, or None where it has none."""
    place = head
    while opened := re.compile(r"[{;]").search(text, place):
        if opened[0] == "{" and not CLAUSE.search(text, head, opened.start()):
            return opened.start()
        # A semicolon within an array's type doesn't end the function.
        if opened[0] == ";" and text.count("[", head, opened.start()) <= text.count("]", head, opened.start()):
            return None
        place = closing(text, opened.start()) + 1 if opened[0] == "{" else opened.end()
    return None


def owner_name(words):
    """Returns how the prover calls an impl or a trait: `impl From<NoMemory> for SetRefusal` is SetRefusalFromNoMemory."""
    words = re.split(r"\bwhere\b", words)[0].strip()
    names = [re.sub(r"<(\w+)>$", r"\1", it.strip()) for it in reversed(re.split(r"\bfor\b", words))]
    names[0] = re.sub(r"<.*", "", names[0], flags=re.S)
    return "".join(re.sub(r"<.*", "", it, flags=re.S).strip().split("::")[-1].lstrip("&").strip() for it in names)


def functions(path, text):
    """Returns the functions of a file of code."""
    text, found, at = blanked(text), [], 0
    owners = [(owner_name(it["impl"] or it["trait"]), it.end(), closing(text, it.end() - 1)) for it in OWNER.finditer(text)]
    module = re.sub(r"^src/|\.rt$", "", path).replace("/", "::")
    for head in re.finditer(r"\bfn\s+(\w+)", text):
        body = body_of(text, head.end()) if head.start() >= at else None
        if body is None:
            continue
        at = closing(text, body)
        owner = next((f"{name}::" for name, first, last in owners if first <= head.start() < last), "")
        front = "" if module in ("lib", "main") else f"{module}::"
        found.append(Function(path, len(found), f"{front}{owner}{head[1]}", f"{owner}{head[1]}", head.start(), body, at))
    return found


def functions_of(folder):
    """Returns the functions of a crate."""
    paths = sorted(os.path.relpath(it, folder) for it in glob.glob(f"{folder}/src/**/*.rt", recursive=True))
    return [function for path in paths for function in functions(path, text_of(f"{folder}/{path}"))]


def proof_of(text, function):
    """Returns what a function's proof is told apart by: functions of one cycle of calls have one proof."""
    cycle = re.search(r"#\[cycle\((\w+)\)\][^{};]*$", text[: function.begin])
    return cycle[1] if cycle else function.place()


# --- edits ---


class Edit:
    """An edit of a crate, and the pairs of which it is made: a file, the text that goes, the text that comes."""

    def __init__(self, folder, file):
        self.folder, self.file = folder, file
        self.name = f"{os.path.basename(folder)}/{os.path.basename(os.path.dirname(file))}/{os.path.basename(file)[:-5]}"
        path, old, self.pairs, self.unread = "", None, [], []
        for line in text_of(file).split("\n"):
            if line.startswith("file: "):
                path = line[6:].strip()
            elif line.startswith("old: "):
                old = line[5:]
            elif line.startswith("new:") and old is not None:
                self.pairs.append((path, old, line[4:].removeprefix(" ")))
                old = None
            elif line.strip():
                self.unread.append(line.strip())

    def changed(self):
        """Returns the functions whose bodies alone the edit changes, or None where it changes more."""
        found = {}
        for path, old, _ in self.pairs:
            text = text_of(f"{self.folder}/{path}") if path.endswith(".rt") and self.is_within(path) else ""
            at = text.find(old)
            own = [it for it in functions(path, text) if it.body < at and at + len(old) <= it.end + 1]
            # (who calls a const fn may rest on its body)
            if not own or re.search(r"\bconst\s+$", text[: own[0].begin]):
                return None
            found[own[0].place()] = own[0]
        return list(found.values()) or None

    def is_within(self, path):
        return path.split("/")[0] in PARTS and os.path.isfile(f"{self.folder}/{path}")


def edits_of(folder):
    """Returns the edits of a crate."""
    files = sorted(it for kind in ("edits", "must-fail") for it in glob.glob(f"{folder}/{kind}/*.edit"))
    return [Edit(folder, file) for file in files]


def applied(edits):
    """Returns the files of one crate that these edits change, as they are then; or raises CannotApply."""
    texts = {}
    for edit in edits:
        if edit.unread or not edit.pairs:
            raise CannotApply(f"it has a line of no kind: {edit.unread[0]}" if edit.unread else "it has no old and new text")
        for path, old, new in edit.pairs:
            if not edit.is_within(path):
                raise CannotApply(f"it names no text of a file below {', '.join(PARTS)}")
            text = texts.setdefault(path, text_of(f"{edit.folder}/{path}"))
            if text.count(old) != 1:
                raise CannotApply(f"its old text stands {text.count(old)} times in {path}: {old.strip()[:80]}")
            texts[path] = text.replace(old, new)
    return texts


def why_not(edit):
    """Returns why an edit can't be applied, or None."""
    try:
        applied([edit])
    except CannotApply as why:
        return str(why)
    return None


def grouped(edits):
    """Parts the edits of a crate into groups in which no proof comes twice, and those that change more than bodies."""
    groups, alone = [], []
    for edit in edits:
        changed = edit.changed()
        if changed is None:
            alone.append(edit)
            continue
        proofs = {proof_of(text_of(f"{edit.folder}/{it.path}"), it) for it in changed}
        fits = next((group for group in groups if not proofs & group[1]), None)
        if fits is None:
            fits = ([], set())
            groups.append(fits)
        fits[0].append(edit)
        fits[1].update(proofs)
    return [group for group, _ in groups], alone
