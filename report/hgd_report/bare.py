"""The trace without its messages, and the places that race in it alone: what only a hand-over of this run orders."""
from __future__ import annotations

import bisect
import os
import subprocess
from contextlib import contextmanager
from dataclasses import replace

from .pairs import Source, group
from .trace import lines_taken
from .verdicts import Hgd, Life, Race, Verdict

# A message becomes a comment, so that each line keeps its number.
WITHOUT_MESSAGES = "s/^(send|recv) .*/#/"
BYTES = {**os.environ, "LC_ALL": "C"}


class BareHgd(Hgd):
    """`hgd` over a trace without its messages, which are these events of it, as far as it took the whole: `last` is the last line of that.
    Events have the numbers of the whole trace; races are numbered by themselves."""

    def __init__(self, whole: Hgd, messages: list[int], last: str):
        super().__init__(whole.program, whole.trace, whole.tells_commands)
        taken = lines_taken(last)
        self.filter = ("sed", "-E", WITHOUT_MESSAGES if taken is None else f"{WITHOUT_MESSAGES};{taken}q")
        # of each message, how many events that are none stand before it
        self.before = [event - 1 - others for others, event in enumerate(messages)]

    def command(self, words) -> str:
        return f"sed -E '{self.filter[2]}' {self.trace} | {self.program} {' '.join(words)}"

    @contextmanager
    def input(self):
        with super().input() as given, subprocess.Popen(self.filter, stdin=given, stdout=subprocess.PIPE, env=BYTES) as filtered:
            yield filtered.stdout

    def event_of(self, event: int) -> int:
        """The number that an event has in the whole trace."""
        return event + bisect.bisect_left(self.before, event)

    def check(self) -> Verdict:
        verdict = super().check()
        return replace(verdict, races=[replace(race, event=self.event_of(race.event)) for race in verdict.races])

    def life(self, race: Race) -> Life:
        life = super().life(race)
        return Life(*(it and replace(it, event=self.event_of(it.event)) for it in (life.racy, life.other)))


def places_of(groups: list[list[Race]], source: Source) -> list[tuple]:
    """The place of each group's races: kind and source line, as far as the line is known; else kind and address of code."""
    places, _ = source.places({races[0].event for races in groups}, {})
    address = source.addresses(races[0].event for races in groups)
    found = []
    for first in (races[0] for races in groups):
        place = places.get(first.event)
        found.append((first.kind, place.file, place.line) if place and place.line else (first.kind, address[first.event]))
    return found


def ordered_by_messages(bare: list[Race], races: list[Race], source: Source) -> dict[tuple, list[list[Race]]]:
    """The groups of races that a trace has without its messages alone, by place. Without codes a place is not known, and each group of words
    that the whole trace has no race of stands for one."""
    if not source.codes:
        words = {race.word for race in races}
        return {(number,): [it] for number, it in enumerate(group([race for race in bare if race.word not in words], source))}
    known, found = set(places_of(group(races, source), source)), {}
    groups = group(bare, source)
    for place, some in zip(places_of(groups, source), groups):
        if place not in known:
            found.setdefault(place, []).append(some)
    return found
