"""What `hgd` says of a trace: the races by `hgd check`, and the life of a word by `hgd explain`. Every verdict is its own; nothing here
judges an access."""
from __future__ import annotations

import re
import subprocess
import sys
from contextlib import contextmanager
from dataclasses import dataclass

RACE = re.compile(r"race (\d+) event (\d+) (read|write) thread (\d+) word (0x[0-9a-f]+) threads ([\d,]+)")
ACCESS = re.compile(r"event (\d+) line (\d+) (read|write|alloc|free) thread (\d+) segment \d+(?: locks (\S+))?")
END = re.compile(r"end events (\d+) races (\d+) segments (\d+)")


class HgdFailed(Exception):
    """`hgd` could not be run, or ended by a fault."""


@dataclass(frozen=True)
class Race:
    """A line of `hgd check`: the access at which no common lock was left."""

    number: int
    event: int
    kind: str
    thread: int
    word: int
    threads: tuple[int, ...]


@dataclass(frozen=True)
class Access:
    """An access to a word, with the locks that count for it: all that the thread holds for a read, those in write mode for a write."""

    event: int
    line: int
    kind: str
    thread: int
    locks: tuple[int, ...]


@dataclass(frozen=True)
class Verdict:
    """All that `hgd check` prints of a trace. `last` is its last line, `total` counts races that are not listed too."""

    races: list[Race]
    total: int
    last: str
    status: int


@dataclass(frozen=True)
class Life:
    """The access that is reported, and the one before it that it conflicts with, if the life has one of another thread."""

    racy: Access
    other: Access | None


class Hgd:
    """The program `hgd`, and one trace."""

    def __init__(self, program: str, trace: str, tells_commands: bool = False):
        self.program, self.trace, self.tells_commands = program, trace, tells_commands

    def lines(self, *words: str):
        """The lines that a command prints of the trace, and its status behind them as the last item."""
        if self.tells_commands:
            print(f"hgd-report: {self.command(words)}", file=sys.stderr)
        try:
            with self.input() as given, \
                    subprocess.Popen([self.program, *words], stdin=given, stdout=subprocess.PIPE, stderr=subprocess.PIPE, text=True) as child:
                yield from (line.rstrip("\n") for line in child.stdout)
                told = child.stderr.read().strip()
        except OSError as fault:
            raise HgdFailed(f"{fault.filename}: {fault.strerror}") from fault
        if child.returncode not in (0, 2):
            raise HgdFailed(f"{self.program} {words[0]}: {told or f'status {child.returncode}'}")
        yield child.returncode

    def command(self, words) -> str:
        return f"{self.program} {' '.join(words)} < {self.trace}"

    @contextmanager
    def input(self):
        """What the program reads."""
        with open(self.trace, "rb") as given:
            yield given

    def check(self) -> Verdict:
        races, total, last, status = [], 0, "", 3
        for line in self.lines("check"):
            if isinstance(line, int):
                status = line
                continue
            last = line
            found = RACE.fullmatch(line)
            if found:
                number, event, kind, thread, word, threads = found.groups()
                races.append(Race(int(number), int(event), kind, int(thread), int(word, 16), tuple(map(int, threads.split(",")))))
        end = END.fullmatch(last)
        total = int(end.group(2)) if end else len(races)
        return Verdict(races, total, last, status)

    def life(self, race: Race) -> Life:
        """The reported access of a race's word, and its conflict by the accesses of the word since it was new."""
        since_new: dict[tuple[int, str, tuple[int, ...]], Access] = {}
        answer = None
        for line in self.lines("explain", "--all", f"{race.word:#x}"):
            found = ACCESS.match(line) if answer is None and isinstance(line, str) else None
            if not found:
                continue
            event, number, kind, thread, locks = found.groups()
            if kind in ("alloc", "free"):
                since_new.clear()
                continue
            held = () if locks in (None, "-") else tuple(map(int, locks.split(",")))
            access = Access(int(event), int(number), kind, int(thread), held)
            if line.endswith(f" ; race {race.number}"):
                answer = Life(access, conflict_of(access, since_new.values()))
            since_new[access.thread, kind, held] = access
        if answer is None:
            raise HgdFailed(f"{self.program} explain {race.word:#x} does not tell race {race.number}")
        return answer


def conflict_of(racy: Access, accesses) -> Access | None:
    """The latest access of another thread such that one of the two writes; one without a lock in common comes before one with."""
    others = [it for it in accesses if it.thread != racy.thread and "write" in (it.kind, racy.kind)]
    apart = [it for it in others if not set(it.locks) & set(racy.locks)]
    return max(apart or others, key=lambda it: it.event, default=None)
