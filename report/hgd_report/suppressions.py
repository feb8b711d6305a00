"""Which pairs a user knows of already.

A line of the own form is `KEY PATTERN [and KEY PATTERN]..`: KEY is `function` (the innermost one), `frame` (any function of a stack), `file`,
`variable` or `lock`, PATTERN a glob. A pair is suppressed where each of them fits one of its two accesses, its memory or its locks. Of
Helgrind's and ThreadSanitizer's files is read what says the same. The rest is counted and told.
"""
from __future__ import annotations

import fnmatch
import re
from dataclasses import dataclass

KEYS = ("function", "frame", "file", "variable", "lock")


class BadSuppressions(Exception):
    pass


@dataclass(frozen=True)
class Suppression:
    """All of these patterns, each with its key, have to fit."""

    patterns: tuple[tuple[str, str], ...]

    def fits(self, facts: dict[str, set[str]]) -> bool:
        return all(any(fnmatch.fnmatchcase(fact, pattern) for key in keys.split("|") for fact in facts[key]) for keys, pattern in self.patterns)


def read_own(text: str) -> list[Suppression]:
    found = []
    for number, line in enumerate(text.splitlines(), 1):
        line = line.strip()
        if not line or line.startswith("#"):
            continue
        patterns = []
        for part in line.split(" and "):
            key, _, pattern = part.strip().partition(" ")
            if key not in KEYS or not pattern.strip():
                raise BadSuppressions(f"line {number}: a key ({', '.join(KEYS)}) and a pattern, and not `{part.strip()}`")
            patterns.append((key, pattern.strip()))
        found.append(Suppression(tuple(patterns)))
    return found


def read_valgrind(text: str) -> tuple[list[Suppression], int]:
    """Blocks `{ name, Helgrind:Race, fun:.., ..}`: one that names one function, in one frame, and no more."""
    found, unread = [], 0
    for block in re.findall(r"\{(.*?)\}", text, re.S):
        lines = [line.strip() for line in block.splitlines() if line.strip() and not line.strip().startswith("#")]
        frames = lines[2:]
        is_race = len(lines) > 2 and lines[1] == "Helgrind:Race"
        while frames and frames[-1] == "...":
            frames.pop()
        if is_race and len(frames) == 1 and frames[0].startswith("fun:"):
            found.append(Suppression((("function", demangled_pattern(frames[0][4:])),)))
        else:
            unread += 1
    return found, unread


def demangled_pattern(pattern: str) -> str:
    """Valgrind's patterns are of mangled names. Of `_ZL6workerv` and its like the plain name is taken."""
    plain = re.fullmatch(r"_ZL?\d+([A-Za-z_]\w*?)(?:v|P.*|i.*)?", pattern)
    return f"{plain.group(1)}*" if plain else pattern


def read_tsan(text: str) -> tuple[list[Suppression], int]:
    """Lines `race:PATTERN`: a part of a function's name, of a file's or of a variable's. `*`, `^` and `$` mean what they mean there."""
    found, unread = [], 0
    for line in text.splitlines():
        line = line.strip()
        if not line or line.startswith("#"):
            continue
        kind, _, pattern = line.partition(":")
        if kind not in ("race", "race_top") or not pattern:
            unread += 1
            continue
        glob = ("" if pattern.startswith("^") else "*") + pattern.strip("^$") + ("" if pattern.endswith("$") else "*")
        found.append(Suppression((("frame|file|variable" if kind == "race" else "function|file", glob),)))
    return found, unread


def read(text: str) -> tuple[list[Suppression], int]:
    """The suppressions of a file in one of the three forms, and how many of it could not be read."""
    if re.search(r"^\s*\{", text, re.M):
        return read_valgrind(text)
    if re.search(r"^\s*(race|race_top|thread|mutex|signal|deadlock|called_from_lib):", text, re.M):
        return read_tsan(text)
    return read_own(text), 0
