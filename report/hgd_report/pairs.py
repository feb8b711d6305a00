"""The races of a trace as pairs of places: the reported access and the one that it conflicts with."""
from __future__ import annotations

import os
import re
from concurrent.futures import ThreadPoolExecutor
from dataclasses import dataclass

from .places import Codes, CodesFile, Places
from .trace import Block, Surroundings, look_round
from .verdicts import Access, Hgd, Race

PLACE = re.compile(r"(?P<function>.*) at (?P<file>\S.*):(?P<line>\d+|\?)")


@dataclass(frozen=True)
class Place:
    """A place in the source, as far as it is known, and the calls that led there, the innermost first. `text` is what is known where
    there is no line."""

    text: str
    function: str = ""
    file: str = ""
    line: int = 0
    callers: tuple[Place, ...] = ()

    @staticmethod
    def of(text: str, callers=()) -> Place:
        found, outer = PLACE.fullmatch(text), tuple(Place.of(it) for it in callers)
        if not found:
            return Place(text, callers=outer)
        line = found["line"]
        return Place(text, found["function"], found["file"], int(line) if line != "?" else 0, outer)


@dataclass(frozen=True)
class Side:
    """One of the two accesses."""

    access: Access
    place: Place
    locks: tuple[str, ...]


@dataclass(frozen=True)
class Creation:
    """How a thread came to be. Thread 0 was there from the beginning."""

    thread: int
    parent: int | None
    place: Place | None


@dataclass(frozen=True)
class Memory:
    """What the word is of: a variable with its offset, or a block with who made it and where."""

    word: int
    variable: str | None
    block: Block | None
    place: Place | None


@dataclass
class Pair:
    """One report. The races of it are those of one pair of places; `races[0]` is the one that is shown."""

    racy: Side
    other: Side | None
    memory: Memory
    threads: list[Creation]
    races: list[Race]
    is_suppressed: bool = False

    @property
    def words(self) -> int:
        return len({race.word for race in self.races})

    @property
    def events(self) -> int:
        return len({race.event for race in self.races})

    def facts(self) -> dict[str, set[str]]:
        """What suppressions look at."""
        sides = [side for side in (self.racy, self.other) if side]
        variable = (self.memory.variable or "").partition("+")[0]
        return {
            "function": {name for side in sides for name in names_of(side.place.function)},
            "frame": {name for side in sides for place in (side.place, *side.place.callers) for name in names_of(place.function)},
            "file": {name for side in sides for name in (side.place.file, os.path.basename(side.place.file)) if name},
            "variable": {variable} - {""},
            "lock": {name for side in sides for name in side.locks},
        }


def names_of(function: str) -> set[str]:
    """A function with its arguments, and its name alone."""
    return {function, function.partition("(")[0]} - {""}


class Source:
    """The places of events, by the codes of a run; without codes an event's place is not known."""

    def __init__(self, codes: str | None):
        self.codes = CodesFile(codes) if codes else None

    def addresses(self, events) -> dict[int, int]:
        return Codes(self.codes, set(events)).address if self.codes else {}

    def places(self, events, early: dict[int, tuple[str, ...]]) -> tuple[dict[int, Place], Places | None]:
        """The places of events, and of the code of what was allocated before all events."""
        if not self.codes:
            return {}, None
        codes = Codes(self.codes, set(events))
        for event, words in early.items():
            codes.note(event, words)
        names = Places(codes)
        stacks = names.stacks_of_events()
        return {event: Place.of(text, stacks[event]) for event, text in names.of_events().items()}, names


def group(races: list[Race], source: Source) -> list[list[Race]]:
    """The races of each place and kind of access. Without codes: of each kind, thread and set of threads."""
    address = source.addresses(race.event for race in races)
    groups: dict[tuple, list[Race]] = {}
    for race in races:
        key = (race.kind, address[race.event]) if race.event in address else (race.kind, race.thread, race.threads)
        groups.setdefault(key, []).append(race)
    return list(groups.values())


def find_pairs(hgd: Hgd, groups: list[list[Race]], last: str, source: Source, progress) -> tuple[list[Pair], Surroundings]:
    """A pair for each group of races, by the life of its first word, and what stands round them. Groups that turn out to be one pair of
    places are put together. `last` is the last line of `hgd check`."""
    with ThreadPoolExecutor(max(2, os.cpu_count() or 2)) as pool:
        lives = [pool.submit(hgd.life, races[0]) for races in groups]
        around = look_round(hgd.trace, (races[0].word for races in groups), last, lambda events: progress(f"{events} events read"))
        answers = []
        for done, life in enumerate(lives, 1):
            answers.append(life.result())
            progress(f"{done} of {len(groups)} places explained")
    events, early = {event for event, _ in around.forks.values()}, {}
    for life, races in zip(answers, groups):
        events |= {it.event for it in (life.racy, life.other) if it}
        block = around.block_at(races[0].word, life.racy.event)
        if block and block.event > 0:
            events.add(block.event)
        elif block:
            early[block.event] = block.code
    places, names = source.places(events, early)
    return merged([make_pair(life, races, around, places, names) for life, races in zip(answers, groups)]), around


def make_pair(life, races: list[Race], around: Surroundings, places: dict[int, Place], names: Places | None) -> Pair:
    word = races[0].word
    block = around.block_at(word, life.racy.event)
    variable = names.variable(word) if names else None
    memory = Memory(word, variable, None if variable else block, places.get(block.event) if block else None)
    sides = [Side(it, places.get(it.event, Place("")), tuple(lock_name(lock, around, names) for lock in it.locks)) if it else None for it in (life.racy, life.other)]
    threads = sorted({life.racy.thread} | ({life.other.thread} if life.other else set()))
    return Pair(sides[0], sides[1], memory, [creation(thread, around, places) for thread in threads], races)


def lock_name(number: int, around: Surroundings, names: Places | None) -> str:
    address = around.locks.get(number)
    name = names.variable(address) if names and address is not None else None
    return name or f"lock {number}"


def creation(thread: int, around: Surroundings, places: dict[int, Place]) -> Creation:
    event, parent = around.forks.get(thread, (0, None))
    return Creation(thread, parent, places.get(event))


def merged(pairs: list[Pair]) -> list[Pair]:
    """Two addresses of code may be one line of the source."""
    found: dict[tuple, Pair] = {}
    for pair in pairs:
        sides = (pair.racy, pair.other)
        if not pair.racy.place.line or (pair.other and not pair.other.place.line):
            found[id(pair),] = pair
            continue
        key = tuple((side.access.kind, side.place.file, side.place.line) if side else None for side in sides)
        if key in found:
            found[key].races = sorted(found[key].races + pair.races, key=lambda race: race.number)
        else:
            found[key] = pair
    return sorted(found.values(), key=lambda pair: pair.races[0].number)
