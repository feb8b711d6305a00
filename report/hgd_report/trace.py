"""What stands round the races in a trace: where threads were created, in which block a word lies, which lock a number is."""
from __future__ import annotations

import bisect
import re
from dataclasses import dataclass, field

# a block of more bytes is written in parts of so many
SPLIT = 1 << 20

# How many bytes of a file are read at once, and up to the end of a line.
PIECE = 1 << 20

# The lines of a trace that are no access and no lock: what makes memory new or threads, messages, comments and empty lines.
TOLD = re.compile(rb"^(?:(?P<memory>[af][^\n]*)|(?P<message>(?:send|recv) [^\n]*)|(?P<comment>#[^\n]*)|[^\S\n]*(?=\n)|[^\S\n]+\Z)", re.MULTILINE)


def pieces_of(file):
    """The bytes of a file, in pieces of whole lines."""
    while piece := file.read(PIECE):
        yield piece + file.readline()

# `refused line N code C` and `bad line N`: what hgd took ends before that line.
ENDS_AT = re.compile(r"(?:refused|bad) line (\d+)")


def number_of(text: str) -> int:
    return int(text, 16 if text[:2] in ("0x", "0X") else 10)


@dataclass(frozen=True)
class Block:
    """Memory that an event made new, or gave back. The trace has parts of 1,048,576 bytes of a large one: they are one block here. One that
    was allocated before there was a second thread is no event: it has the event number 0 or less, and the words of its code."""

    kind: str
    event: int
    thread: int
    address: int
    length: int
    code: tuple[str, ...] = ()


@dataclass
class Surroundings:
    """Of each thread the event that created it and who did, of each lock where it lies, of each word asked for its blocks, and which events
    are of messages."""

    forks: dict[int, tuple[int, int]] = field(default_factory=dict)
    locks: dict[int, int] = field(default_factory=dict)
    blocks: dict[int, list[Block]] = field(default_factory=dict)
    # the events that send or receive a message
    messages: list[int] = field(default_factory=list)
    events: int = 0
    # how many blocks were allocated before there was a second thread
    early: int = 0

    def block_at(self, word: int, event: int) -> Block | None:
        """The block that a word lay in at an event."""
        before = [block for block in self.blocks.get(word, ()) if block.event < event]
        return before[-1] if before else None


class Blocks:
    """Puts the parts of a block together, and notes each block that has one of some words."""

    def __init__(self, words, out: dict[int, list[Block]]):
        self.words, self.out, self.open, self.next = sorted(words), out, None, None

    def part(self, kind: str, event: int, thread: int, address: int, length: int):
        """A part of a block: of the one before, where it is what comes `next` behind that."""
        if (kind, thread, event, address) == self.next:
            length += self.open[4]
            kind, event, thread, address = self.open[:4]
        else:
            self.close()
        self.open = kind, event, thread, address, length
        self.next = (kind, thread, event + length // SPLIT, address + length) if length % SPLIT == 0 else None

    def close(self):
        block, self.open = self.open, None
        if block is not None:
            at = bisect.bisect_left(self.words, block[3] - 3)
            if at < len(self.words) and self.words[at] < block[3] + block[4]:
                self.put(Block(*block))

    def put(self, block: Block):
        at = bisect.bisect_left(self.words, block.address - 3)
        while at < len(self.words) and self.words[at] < block.address + block.length:
            self.out.setdefault(self.words[at], []).append(block)
            at += 1


def lines_taken(last: str) -> int | None:
    """How many lines hgd took, where one was refused or bad; else it took all. `last` is the last line that it printed."""
    end = ENDS_AT.match(last)
    return int(end.group(1)) - 1 if end else None


def first_lines(pieces, most: int | None):
    """The first lines of some pieces."""
    for piece in pieces:
        if most is not None:
            count = piece.count(b"\n") + (not piece.endswith(b"\n"))
            if count > most:
                yield b"".join(line + b"\n" for line in piece.split(b"\n", most)[:most])
                return
            most -= count
        yield piece


def look_round(path: str, words, last: str, progress=None) -> Surroundings:
    """Reads a trace once, as far as hgd took it: `last` is the last line that `hgd check` printed."""
    found = Surroundings()
    blocks = Blocks(words, found.blocks)
    with open(path, "rb") as file:
        for piece in first_lines(pieces_of(file), lines_taken(last)):
            look_at(piece, found, blocks)
            if progress:
                progress(found.events)
    blocks.close()
    return found


def look_at(piece: bytes, found: Surroundings, blocks: Blocks):
    """Takes a piece of a trace. Each line that is not among those that tell something is an event."""
    at = 0
    for told in TOLD.finditer(piece):
        found.events += piece.count(b"\n", at, told.start())
        at = told.end() + 1
        if told.lastgroup == "comment":
            note_comment(told[0].decode("latin-1"), found, blocks)
        elif told.lastgroup:
            found.events += 1
            if told.lastgroup == "memory":
                note_event(told[0].decode("latin-1").split(), found, blocks)
            else:
                found.messages.append(found.events)
    found.events += piece.count(b"\n", at) + (at < len(piece) and not piece.endswith(b"\n"))


def note_comment(line: str, found: Surroundings, blocks: Blocks):
    note_lock(line, found)
    block = early_block(line, -found.early)
    if block:
        found.early += 1
        blocks.put(block)


def note_lock(line: str, found: Surroundings):
    """`# lock NUMBER ADDRESS` says where a lock lies. Any other comment is none of ours."""
    said = re.match(r"# lock (\d+) (0x[0-9a-f]+)$", line)
    if said:
        found.locks[int(said[1])] = int(said[2], 16)


def early_block(line: str, event: int) -> Block | None:
    """`# alloc THREAD ADDRESS LENGTH CODE [STACK]` is a block from before there was a second thread."""
    said = re.match(r"# alloc (\d+) (0x[0-9a-f]+) (\d+) (0x[0-9a-f]+(?: \d+)?)$", line)
    return Block("alloc", event, int(said[1]), int(said[2], 16), int(said[3]), tuple(said[4].split())) if said else None


def note_event(said: list[str], found: Surroundings, blocks: Blocks):
    numbers = [number_of(text) for text in said[1:]]
    if said[0] == "fork":
        found.forks[numbers[1]] = (found.events, numbers[0])
    else:
        blocks.part(said[0], found.events, *numbers)
