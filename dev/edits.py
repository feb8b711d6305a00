"""Wrong programs: the edits of crates/NAME/must-fail and crates/NAME/mutants. A module for dev/mutants.

An edit has a line `file: src/..` and then pairs of lines `old: TEXT` and `new: TEXT`; TEXT is one line, and the old one stands in the
file exactly once. More pairs, and more files, may follow. `rt help` has the form.
"""
import hashlib
import os
import re

from repository import ROOT

KINDS = ("must-fail", "mutants")

# The head of a function, and of what methods stand in.
FUNCTION = re.compile(r"^( *)(?:pub(?:\(\w+\))? )?(?:const )?fn (\w+)", re.M)
BLOCK = re.compile(r"^(?:pub(?:\(\w+\))? )?(impl|trait)\b(?:<[^>]*(?:<[^>]*>[^>]*)*>)? ?([^{]*)", re.M)


class Function:
    """A function of a crate: its file and place, and how the prover's lines name it."""

    def __init__(self, crate, file, text, head):
        self.file, self.begin = file, head.start()
        modules = [] if file in ("src/lib.rt", "src/main.rt") else file[len("src/") : -len(".rt")].split("/")
        owner = "" if not head[1] else owner_of(text[: head.start()])
        # A method is named by the module of its type, which may be another one.
        path = rf"{crate}::(?:\w+::)*{owner}" if owner else "::".join([crate, *modules])
        self.line = re.compile(rf"^fn ({path}::{head[2]}): (.*)$", re.M)

    def __eq__(self, other):
        return isinstance(other, Function) and (self.file, self.begin) == (other.file, other.begin)

    def __hash__(self):
        return hash((self.file, self.begin))


def owner_of(before):
    """Returns a pattern for how the prover names the `impl` or trait that the last method before here stands in."""
    kind, what = [(it[1], it[2]) for it in BLOCK.finditer(before)][-1]
    trait, _, of = what.partition(" for ")
    name = re.escape(re.match(r"&?(?:\w+::)*(\w+)", of or trait)[1])
    return rf"{name}\w+" if of and kind == "impl" else name


def function_at(crate, file, text, at):
    """Returns the function whose text a place lies in, or None."""
    heads = [it for it in FUNCTION.finditer(text) if it.start() <= at]
    if not heads:
        return None
    head = heads[-1]
    end = re.compile(rf"^{head[1]}\}}$", re.M).search(text, head.end())
    if not text[head.start() : text.find("\n", head.end())].endswith("}") and end and at > end.end():
        return None
    return Function(crate, file, text, head)


class Edit:
    """One wrong program."""

    def __init__(self, crate, kind, file):
        self.crate, self.label = crate, f"{crate}/{kind}/{file}"
        with open(f"{ROOT}/crates/{self.label}", encoding="utf-8") as given:
            text = given.read()
        self.sum = hashlib.sha256(text.encode()).hexdigest()
        self.pairs, self.wrong = pairs_of(text)
        self.functions = set() if self.wrong else self.find_functions()

    def find_functions(self):
        """Finds the functions that the edit changes, by hand-written answers too; none where it cannot be applied or changes something else too."""
        found, texts = set(), {}
        for file, old, new in self.pairs:
            text = texts.get(file) or text_of(self.crate, file)
            if text.count(old) != 1:
                self.wrong = f"an 'old:' text is in {file} {text.count(old)} times, and not once"
                return set()
            if not file.startswith("proofs/"):
                found.add(function_at(self.crate, file, text, text.index(old)) if file.startswith("src/") else None)
            texts[file] = text.replace(old, new)
        return set() if None in found else found


def text_of(crate, file):
    """Returns the text of a crate's file, none if there is no such file."""
    path = f"{ROOT}/crates/{crate}/{file}"
    if not os.path.isfile(path):
        return ""
    with open(path, encoding="utf-8") as given:
        return given.read()


def pairs_of(text):
    """Returns the pairs of an edit with their files, and what is wrong with its form."""
    file, old, pairs = "", "", []
    for line in text.split("\n"):
        if line.startswith("file: "):
            file = line[len("file: ") :].strip()
        elif line.startswith("old: "):
            old = line[len("old: ") :]
        elif line.startswith("new:"):
            if not file or not old:
                return [], "a 'new:' line stands before any 'file:' or 'old:' line"
            pairs.append((file, old, line[len("new: ") :]))
            old = ""
    return pairs, "" if pairs else "it has no 'old:' and 'new:' pair"


def edits_of(crate):
    """Returns the wrong programs of a crate, those of must-fail first."""
    found = []
    for kind in KINDS:
        folder = f"{ROOT}/crates/{crate}/{kind}"
        files = sorted(os.listdir(folder)) if os.path.isdir(folder) else []
        found += [Edit(crate, kind, it) for it in files if it.endswith(".edit")]
    return found
