"""Which crates a change touches: a module for dev/mutants.

A crate is touched where its own text has changed, or what it can cite of a crate below: definitions, lemmas, types, signatures and
contracts. The body of a function is cited by nobody, nor is the proof of one; and lines of comment mean nothing.
"""
import re
import subprocess

from repository import ROOT

PARTS = ("src", "specs", "proofs", "must-fail", "mutants")
HEAD = re.compile(r"^( *)(?:pub(?:\(\w+\))? )?(?:const )?fn \w+")


def git(*words):
    ran = subprocess.run(["git", "-C", ROOT, *words], capture_output=True, text=True, errors="replace", check=False)
    return ran.stdout if ran.returncode == 0 else ""


def without_bodies(text):
    """Returns a source file without the bodies of its functions, by the layout that `rt fmt` gives it."""
    kept, end, is_in_body = [], "", False
    for line in text.split("\n"):
        head = HEAD.match(line)
        if head and not end:
            end = f"{head[1]}}}"
        opens = end and (line == f"{end[:-1]}{{" or line.endswith(" {") and not re.match(r" +(ensures|requires)\b", line))
        if not is_in_body or line == end:
            kept.append(line)
        if line == end or end and not is_in_body and re.search(r"\{.*\}$", line) and head:
            end, is_in_body = "", False
        elif opens:
            is_in_body = True
    return "\n".join(kept)


def without_comments(file, text):
    """Returns a file without the lines that are comments alone."""
    mark = {".rt": "//", ".antt": "--"}.get(file[file.rfind(".") :])
    return "\n".join(it for it in text.split("\n") if not mark or not it.lstrip().startswith(mark))


def cited(file, text):
    """Returns of a crate's file what the crates above can cite."""
    part = file.split("/")[2]
    if part == "src":
        return without_bodies(text) if file.endswith(".rt") else text
    # A folder below proofs is a function's own.
    own = part in ("must-fail", "mutants") or part == "proofs" and len(file.split("/")) > 4
    return "" if own else text


def now(file):
    try:
        with open(f"{ROOT}/{file}", encoding="utf-8") as given:
            return given.read()
    except OSError:
        return ""


def lines_at(base):
    """Returns what crates.txt said of each crate."""
    found = {}
    for line in git("show", f"{base}:crates.txt").split("\n"):
        name, _, below = line.split("#")[0].partition(":")
        found[name.strip()] = below.split()
    return found


def changed_files(base):
    """Returns the files of crates that differ from a commit, those that git does not track too."""
    names = git("diff", "--name-only", "--no-renames", base, "--", "crates") + git("ls-files", "--others", "--exclude-standard", "--", "crates")
    return sorted({it for it in names.split("\n") if it.count("/") >= 3 and it.split("/")[2] in PARTS})


def touched(repository, base):
    """Returns the crates that a change touches, each with the reason: its own text, or the crates of which it can cite something else now."""
    own, told = set(), set()
    for file in changed_files(base):
        crate = file.split("/")[1]
        new, old = (without_comments(file, it) for it in (now(file), git("show", f"{base}:{file}")))
        if new != old:
            own.add(crate)
        if cited(file, new) != cited(file, old):
            told.add(crate)
    before = lines_at(base)
    own |= {it for it, below in repository.lines.items() if before.get(it) != below}
    found = {}
    for name in repository.lines:
        lower = [it for it in repository.needed(repository.below(name)) if it in told]
        if name in own:
            found[name] = "its own text"
        elif lower:
            found[name] = "what it can cite of " + ", ".join(lower)
    return found
