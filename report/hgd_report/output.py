"""The three forms of a report: text for people, JSON for scripts, SARIF 2.1.0 for code hosts."""
from __future__ import annotations

import hashlib
import json
import os
from dataclasses import dataclass
from pathlib import Path

from .pairs import Creation, Memory, Pair, Place, Side
from .verdicts import Verdict

BOLD, RED, PLAIN = "\033[1m", "\033[1;31m", "\033[0m"


# So many calls of a stack are shown; JSON has them all.
MOST_SHOWN = 12


@dataclass(frozen=True)
class Ordered:
    """How many places race only where the messages of the trace are left out, and their pairs where they are listed."""

    places: int
    pairs: list[Pair]


def shown(place: Place) -> str:
    if not place.line:
        return place.text or "a place that is not known"
    return f"{place.function} {place.file}:{place.line}"


def stack_text(place: Place) -> str:
    """A place with the calls that led there, a line each."""
    frames = [place, *place.callers]
    left = len(frames) - MOST_SHOWN
    return "\n".join([*(f"      {shown(it)}" for it in frames[:MOST_SHOWN]), *([f"      and {left} calls more"] if left > 0 else [])])


def locks_text(locks: tuple[str, ...]) -> str:
    return "no lock held" if not locks else "holding " + ", ".join(locks)


def side_text(side: Side) -> str:
    return f"{side.access.kind} by thread {side.access.thread}, event {side.access.event}, {locks_text(side.locks)}\n{stack_text(side.place)}"


def memory_text(memory: Memory) -> str:
    text = f"word {memory.word:#x}"
    if memory.variable:
        return f"{text}: variable {memory.variable}"
    block = memory.block
    if block is None:
        return f"{text}: memory that the trace does not allocate"
    what = "block" if block.kind == "alloc" else "memory that was given back, as a function's variables are at its end,"
    place = f"\n{stack_text(memory.place)}" if memory.place and memory.place.text != "the recorder's own" else ""
    made = f" allocated by thread {block.thread}" if block.kind == "alloc" else f" by thread {block.thread}"
    return f"{text}: {memory.word - block.address} bytes inside a {what} of {block.length} bytes{made}{place}"


def thread_text(thread: Creation) -> str:
    if thread.parent is None:
        return f"thread {thread.thread} is the first"
    place = f"\n{stack_text(thread.place)}" if thread.place else ""
    return f"thread {thread.thread} was created by thread {thread.parent}{place}"


def count_of(number: int, what: str) -> str:
    return f"{number} {what}" + ("" if number == 1 else "s")


class Text:
    def __init__(self, is_coloured: bool, generates: bool):
        self.red, self.bold, self.plain = (RED, BOLD, PLAIN) if is_coloured else ("", "", "")
        self.generates = generates

    def pair(self, name: str, pair: Pair, of: str = "`hgd check`") -> str:
        lines = [f"{self.red}{name}{self.plain}: {self.bold}{side_text(pair.racy)}{self.plain}"]
        if pair.other:
            lines.append(f"  conflicts with {side_text(pair.other)}")
        lines.append(f"  {memory_text(pair.memory)}")
        lines += [f"  {thread_text(thread)}" for thread in pair.threads]
        lines.append(f"  {count_of(pair.words, 'word')} and {count_of(pair.events, 'event')} of this pair; race {pair.races[0].number} of {of}")
        if self.generates:
            lines.append(f"  to suppress it: {suppression_of(pair)}")
        return "\n".join(lines) + "\n"

    def ordered(self, ordered: Ordered) -> tuple[list[str], str]:
        """The listed pairs that messages alone order, and a line that counts their places."""
        left = [pair for pair in ordered.pairs if not pair.is_suppressed]
        parts = [self.pair(f"ordered {number}", pair, "the trace without its messages") for number, pair in enumerate(left, 1)]
        if not ordered.places:
            return parts, ""
        how = "" if ordered.pairs else "; --all lists them"
        return parts, f"{count_of(ordered.places, 'place')} more, ordered in this run by a hand-over alone{how}\n"

    def whole(self, pairs: list[Pair], ordered: Ordered, verdict: Verdict) -> str:
        left = [pair for pair in pairs if not pair.is_suppressed]
        listed = sum(len(pair.races) for pair in pairs)
        more, count = self.ordered(ordered)
        parts = [*(self.pair(f"race {number}", pair) for number, pair in enumerate(left, 1)), *more]
        last = f"{count_of(len(left), 'pair')} of places, {count_of(sum(len(pair.races) for pair in left), 'race')}"
        if len(left) < len(pairs):
            last += f"; {count_of(len(pairs) - len(left), 'pair')} suppressed"
        if verdict.total > listed:
            last += f"; {verdict.total - listed} races more that `hgd check` counts and does not list"
        if verdict.status == 2:
            last += f"; the trace ends there: {verdict.last}"
        return "\n".join([*parts, last]) + "\n" + count


def suppression_of(pair: Pair) -> str:
    place = pair.racy.place
    parts = [f"function {place.function.partition('(')[0]}"] if place.function else []
    variable = (pair.memory.variable or "").partition("+")[0]
    if variable:
        parts.append(f"variable {variable}")
    elif place.file:
        parts.append(f"file {os.path.basename(place.file)}")
    return " and ".join(parts) or "no name is known"


def place_json(place: Place | None):
    if place is None or not place.text:
        return None
    return {"text": place.text, "function": place.function, "file": place.file, "line": place.line, "callers": [place_json(it) for it in place.callers]}


def side_json(side: Side | None):
    if side is None:
        return None
    access = side.access
    return {"kind": access.kind, "thread": access.thread, "event": access.event, "line": access.line, "locks": list(side.locks), "place": place_json(side.place)}


def pair_json(pair: Pair):
    memory, block = pair.memory, pair.memory.block
    return {
        "racy": side_json(pair.racy), "conflict": side_json(pair.other),
        "memory": {
            "word": f"{memory.word:#x}", "variable": memory.variable, "place": place_json(memory.place),
            "block": block and {"kind": block.kind, "address": f"{block.address:#x}", "length": block.length, "thread": block.thread, "event": block.event},
        },
        "threads": [{"thread": it.thread, "parent": it.parent, "place": place_json(it.place)} for it in pair.threads],
        "words": pair.words, "events": pair.events, "races": [race.number for race in pair.races], "suppressed": pair.is_suppressed,
    }


def as_json(pairs: list[Pair], ordered: Ordered, verdict: Verdict) -> str:
    whole = {"pairs": [pair_json(pair) for pair in pairs], "races": verdict.total, "listed": len(verdict.races), "end": verdict.last,
             "ordered_by_messages": {"places": ordered.places, "pairs": [pair_json(pair) for pair in ordered.pairs]}}
    return json.dumps(whole, indent=1) + "\n"


def location(place: Place, message: str):
    uri = Path(place.file).as_uri() if place.file.startswith("/") else place.file
    return {"physicalLocation": {"artifactLocation": {"uri": uri}, "region": {"startLine": max(place.line, 1)}},
            "logicalLocations": [{"fullyQualifiedName": place.function, "kind": "function"}], "message": {"text": message}}


def fingerprint(pair: Pair) -> str:
    """The same for the same pair of places in another run: no numbers of events, threads or words."""
    sides = [f"{side.access.kind} {side.place.function} {os.path.basename(side.place.file)}" for side in (pair.racy, pair.other) if side]
    return hashlib.sha256("\n".join([*sides, (pair.memory.variable or "").partition("+")[0]]).encode()).hexdigest()


def sarif_side(side: Side) -> str:
    return f"{side.access.kind} by thread {side.access.thread}, {locks_text(side.locks)}, in {shown(side.place)}"


def sarif_stack(place: Place, message: str):
    return {"message": {"text": message}, "frames": [{"location": location(it, it.function)} for it in (place, *place.callers) if it.file]}


def sarif_result(pair: Pair, is_ordered: bool = False):
    other = f" conflicts with {sarif_side(pair.other)}" if pair.other else ""
    what = "Ordered in this run by a hand-over alone" if is_ordered else "Data race"
    text = f"{what}: {sarif_side(pair.racy)}{other}; {memory_text(pair.memory).splitlines()[0]}"
    result = {"ruleId": "data-race", "ruleIndex": 0, "level": "note" if is_ordered else "error", "message": {"text": " ".join(text.split())},
              "partialFingerprints": {"pairOfPlaces/v1": fingerprint(pair)}}
    if pair.racy.place.file:
        result["locations"] = [location(pair.racy.place, "the access at which no common lock is left")]
    related = [(pair.other.place, "the access that it conflicts with")] if pair.other else []
    related += [(it.place, f"thread {it.thread} is created here") for it in pair.threads if it.place]
    related += [(pair.memory.place, "the memory is allocated here")] if pair.memory.place and not pair.memory.variable else []
    result["relatedLocations"] = [{"id": number, **location(place, said)} for number, (place, said) in enumerate(related) if place.file]
    result["stacks"] = [sarif_stack(side.place, f"{side.access.kind} by thread {side.access.thread}") for side in (pair.racy, pair.other) if side and side.place.file]
    if pair.is_suppressed:
        result["suppressions"] = [{"kind": "external"}]
    return result


RULE = {
    "id": "data-race", "name": "DataRace",
    "shortDescription": {"text": "Two threads access the same memory, at least one of them writes, and no lock is common to them."},
    "fullDescription": {"text": "From the moment at which a word is shared, the locks that all accesses to it hold are its candidates. A word that is written and has none left is reported, unless fork, join or memory that is new orders the accesses."},
    "defaultConfiguration": {"level": "error"},
}


def as_sarif(pairs: list[Pair], ordered: Ordered, verdict: Verdict) -> str:
    run = {"tool": {"driver": {"name": "hgd", "rules": [RULE]}}, "columnKind": "unicodeCodePoints",
           "results": [*(sarif_result(pair) for pair in pairs), *(sarif_result(pair, True) for pair in ordered.pairs)],
           "invocations": [{"executionSuccessful": verdict.status == 0}]}
    return json.dumps({"$schema": "https://json.schemastore.org/sarif-2.1.0.json", "version": "2.1.0", "runs": [run]}, indent=1) + "\n"
