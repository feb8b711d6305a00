#!/usr/bin/env python3
"""What `hgd check`, `hgd graph` and `hgd explain` print, from the definitions and with no thought of speed.

    tests/reference.py check|graph < trace
    tests/reference.py explain ADDRESS [--all] [--stored] < trace

With `--stored` as `hgd explain ADDRESS DIR` does of a store that was fed with the trace: no line has `line N`, and the last one is `end`.

A program keeps a cell for each word, and tables beside it. This one keeps every access of every word
since the word was last new, and looks at the whole list once the trace has ended: where the word
became shared, who shared it, which locks they had in common, and where that became none. So it shares
no idea with the programs that it is compared with but the trace itself. It needs memory for the whole
trace; use it for some ten thousand events.
"""
import re
import sys
from dataclasses import dataclass, field

GREATEST_THREAD = 1023
GREATEST_ACCESS = 64
GREATEST_BLOCK = 1 << 20
MOST_HELD = 64
MOST_SEGMENTS = 1 << 20
MOST_SETS = 1 << 18
MOST_KEPT = 1 << 16
LONGEST_LINE = 256

# ------------------------------------------------------------------ trace text

NUMBER = re.compile(rb"0x[0-9a-fA-F]{1,16}|[0-9]{1,20}")
# for each verb the greatest value of each of its numbers
VERBS = {
    b"fork": (0xFFFF, 0xFFFF),
    b"join": (0xFFFF, 0xFFFF),
    b"lock": (0xFFFF, 0xFFFF),
    b"rdlock": (0xFFFF, 0xFFFF),
    b"unlock": (0xFFFF, 0xFFFF),
    b"read": (0xFFFF, (1 << 64) - 1, 0xFF),
    b"write": (0xFFFF, (1 << 64) - 1, 0xFF),
    b"alloc": (0xFFFF, (1 << 64) - 1, 0xFFFFFFFF),
    b"free": (0xFFFF, (1 << 64) - 1, 0xFFFFFFFF),
    b"send": (0xFFFF, 0xFFFFFFFF),
    b"recv": (0xFFFF, 0xFFFFFFFF),
}


def lines(text):
    """Yields the number and the bytes of each line that is neither empty nor a comment."""
    pieces = text.split(b"\n")
    if pieces[-1] == b"":
        pieces.pop()
    for number, line in enumerate(pieces, 1):
        if line.endswith(b"\r"):
            line = line[:-1]
        if line and not line.startswith(b"#"):
            yield number, line


def read_line(line):
    """Returns the event of a line, as its verb and its numbers, or None."""
    verb, *words = line.split(b" ")
    if len(line) > LONGEST_LINE or verb not in VERBS or len(words) != len(VERBS[verb]):
        return None
    if not all(NUMBER.fullmatch(word) for word in words):
        return None
    values = [int(word[2:], 16) if word.startswith(b"0x") else int(word) for word in words]
    if any(value > most for value, most in zip(values, VERBS[verb])):
        return None
    return verb.decode(), *values


# ------------------------------------------------------------------ the trace so far


@dataclass
class Access:
    """An access of a word: what the definitions need of it."""

    event: int
    thread: int
    segment: int
    writes: bool
    counted: frozenset


@dataclass
class Touch:
    """An access or a block: where it stands, who made it, and the words that it overlaps."""

    event: int
    line: int
    verb: str
    thread: int
    segment: int
    counted: list
    words: range


@dataclass
class Trace:
    """The accepted events, as far as later events and the reports look back on them."""

    events: int = 0
    line_of: list = field(default_factory=lambda: [0])
    segments: list = field(default_factory=lambda: [(0, [])])
    segments_before: list = field(default_factory=lambda: [1])
    forked: set = field(default_factory=lambda: {0})
    joined: set = field(default_factory=set)
    # for each thread that was used its greatest segment
    segment_of: dict = field(default_factory=lambda: {0: 0})
    # for each message that was sent the segment that its send ended, and the messages that were received
    sent_in: dict = field(default_factory=dict)
    received: set = field(default_factory=set)
    # for each receive the thread, the segments before and behind it, and the message
    receives: list = field(default_factory=list)
    # for each thread and lock the last of lock, rdlock and unlock
    last_of: dict = field(default_factory=dict)
    # the accesses of each word since its last alloc or free, and the lists that such an event ended
    history: dict = field(default_factory=dict)
    ended: list = field(default_factory=list)
    # each access and block, as it stood when it came
    touches: list = field(default_factory=list)

    def is_alive(self, thread):
        return thread in self.forked and thread not in self.joined

    def held(self, thread, modes=("lock", "rdlock")):
        return frozenset(lock for lock, verb in self.last_of.get(thread, {}).items() if verb in modes)

    def open_segment(self, thread, before):
        self.segment_of[thread] = len(self.segments)
        self.segments.append((thread, sorted(before)))

    def refusal(self, event):
        """Returns the code of the first cause to refuse the event, or None."""
        verb, thread, second, *length = event
        if thread > GREATEST_THREAD or verb in ("fork", "join") and second > GREATEST_THREAD:
            return 2
        if verb in ("read", "write") and not 1 <= length[0] <= GREATEST_ACCESS:
            return 3
        if verb in ("alloc", "free") and not 1 <= length[0] <= GREATEST_BLOCK:
            return 3
        if length and second + length[0] > 1 << 64:
            return 4
        if not self.is_alive(thread):
            return 5
        if verb == "fork":
            return 6 if second in self.forked else 16 if len(self.segments) + 2 > MOST_SEGMENTS else None
        if verb == "join":
            if second == thread:
                return 7
            if not self.is_alive(second):
                return 8
            if self.held(second):
                return 9
            return 16 if len(self.segments) + 1 > MOST_SEGMENTS else None
        if verb in ("lock", "rdlock"):
            holders = {t: verbs[second] for t, verbs in self.last_of.items() if verbs.get(second, "unlock") != "unlock"}
            if thread in holders:
                return 12
            if holders and (verb == "lock" or "lock" in holders.values()):
                return 13
            return 15 if len(self.held(thread)) == MOST_HELD else None
        if verb == "unlock":
            return None if second in self.held(thread) else 14
        if verb in ("send", "recv"):
            if verb == "send" and second in self.sent_in:
                return 23
            if verb == "recv" and second not in self.sent_in:
                return 24
            if verb == "recv" and second in self.received:
                return 25
            return 16 if len(self.segments) + 1 > MOST_SEGMENTS else None
        return None

    def accept(self, line, event):
        verb, thread, second, *length = event
        self.events += 1
        self.line_of.append(line)
        self.segments_before.append(len(self.segments))
        if verb == "fork":
            parent = self.segment_of[thread]
            self.forked.add(second)
            self.open_segment(second, [parent])
            self.open_segment(thread, [parent])
        elif verb == "join":
            self.joined.add(second)
            self.open_segment(thread, [self.segment_of[thread], self.segment_of[second]])
        elif verb == "send":
            self.sent_in[second] = self.segment_of[thread]
            self.open_segment(thread, [self.segment_of[thread]])
        elif verb == "recv":
            self.received.add(second)
            self.receives.append((thread, self.segment_of[thread], second))
            self.open_segment(thread, [self.segment_of[thread], self.sent_in[second]])
        elif verb in ("lock", "rdlock", "unlock"):
            self.last_of.setdefault(thread, {})[second] = verb
        else:
            words = range(second // 4 * 4, second + length[0], 4)
            modes = ("lock",) if verb == "write" else ("lock", "rdlock")
            touch = Touch(self.events, line, verb, thread, self.segment_of[thread], sorted(self.held(thread, modes)), words)
            self.touches.append(touch)
            if verb in ("alloc", "free"):
                accessed = words if len(words) < len(self.history) else sorted(self.history)
                self.ended += [(word, self.history.pop(word)) for word in accessed if word in words and word in self.history]
            else:
                counted = self.held(thread, ("lock",)) if verb == "write" else self.held(thread)
                it = Access(self.events, thread, self.segment_of[thread], verb == "write", counted)
                for word in words:
                    self.history.setdefault(word, []).append(it)

    def histories(self):
        return [*self.ended, *self.history.items()]


# ------------------------------------------------------------------ what the definitions say of it


def reaching(segments):
    """Returns for each segment the set of segments from which a path leads to it, as a number whose bit s stands for segment s."""
    from_which = []
    for number, (_, before) in enumerate(segments):
        those = 1 << number
        for it in before:
            those |= from_which[it]
        from_which.append(those)
    return from_which


def reaches(from_which, segment, other):
    return from_which[other] >> segment & 1 == 1


def sharing_point(history, from_which):
    """Returns the least place k > 0 whose access is not ordered after the one before it, or None."""
    for k in range(1, len(history)):
        if not reaches(from_which, history[k - 1].segment, history[k].segment):
            return k
    return None


@dataclass
class Shared:
    """A word after an access that left it shared."""

    event: int
    word: int
    access: Access
    threads: tuple
    lockset: tuple
    is_reported: bool


def shared_states(word, history, from_which):
    """Yields what the word is after each access from its sharing point on."""
    k = sharing_point(history, from_which)
    if k is None:
        return
    threads, lockset, is_written, was_racy = {history[k - 1].thread}, history[k].counted, False, False
    for it in history[k:]:
        threads.add(it.thread)
        lockset = lockset & it.counted
        is_written = is_written or it.writes
        is_racy = is_written and not lockset
        yield Shared(it.event, word, it, tuple(sorted(threads)), tuple(sorted(lockset)), is_racy and not was_racy)
        was_racy = is_racy


def judged(trace):
    """Returns the reports, and the event for which the table of sets had no room, if one came."""
    from_which = reaching(trace.segments)
    states = [it for word, history in trace.histories() for it in shared_states(word, history, from_which)]
    states.sort(key=lambda it: (it.event, it.word))
    sets, reports = {()}, []
    for it in states:
        sets.update([it.threads, it.lockset])
        if len(sets) > MOST_SETS:
            return [one for one in reports if one.event < it.event], it.event
        if it.is_reported:
            reports.append(it)
    return reports, None


# ------------------------------------------------------------------ the life of one word


def state_of(history, from_which):
    """Returns the kind of a word with this history, and its owner, or its threads and its candidate locks."""
    if not history:
        return ("new",)
    k = sharing_point(history, from_which)
    if k is None:
        return "exclusive", history[-1].segment
    threads = {it.thread for it in history[k - 1 :]}
    candidates = frozenset.intersection(*(frozenset(it.counted) for it in history[k:]))
    kind = "shared-modified" if any(it.writes for it in history[k:]) else "shared-read"
    return kind, tuple(sorted(threads)), tuple(sorted(candidates))


def members(numbers):
    return ",".join(map(str, numbers)) or "-"


def state_text(state):
    if state[0] == "new":
        return "new"
    if state[0] == "exclusive":
        return f"exclusive segment {state[1]}"
    return f"{state[0]} threads {members(state[1])} candidates {members(state[2])}"


def handed_by(trace, from_which, owner, segment):
    """Returns what an owner change says of the message by which the segment's thread came behind the owner: the one receive of the
    thread that has the owner behind its send, and not in the thread's own segment right before it."""
    thread = trace.segments[segment][0]
    for receiver, former, message in trace.receives:
        is_handed = from_which[trace.sent_in[message]] >> owner & 1
        if receiver == thread and former < segment and is_handed and not from_which[former] >> owner & 1:
            return f" by message {message}"
    return ""


def became(trace, from_which, before, after, segment):
    """Yields what became of a word."""
    shared = ("shared-read", "shared-modified")
    if after[0] == "new" and before[0] != "new":
        yield "new again"
    if before[0] == after[0] == "exclusive" and before != after:
        yield f"owner changes along {before[1]} -> {after[1]}{handed_by(trace, from_which, before[1], after[1])}"
    if before[0] == "exclusive" and after[0] in shared:
        yield f"shared from here on: segment {before[1]} does not reach segment {segment}"
    if after[0] in shared and not after[2] and not (before[0] in shared and not before[2]):
        yield "no common lock is left"


def life(trace, word, reports, last, every, told):
    """Yields the lines of a word's life, over the events up to the last one, with the lines of the text where they are told."""
    from_which = reaching(trace.segments)
    kept = {(it.event, it.word): k for k, it in enumerate(reports[:MOST_KEPT], 1)}
    history, state, hidden = [], ("new",), 0
    for it in trace.touches:
        if it.event > last or word not in it.words:
            continue
        if it.verb in ("alloc", "free"):
            history = []
        else:
            history.append(Access(it.event, it.thread, it.segment, it.verb == "write", frozenset(it.counted)))
        before, state = state, state_of(history, from_which)
        if not every and before == state:
            hidden += len(history) > 0
            continue
        if hidden:
            yield f"{hidden} more accesses"
            hidden = 0
        notes = [*became(trace, from_which, before, state, it.segment)]
        if (it.event, word) in kept:
            notes.append(f"race {kept[it.event, word]}")
        locks = "" if it.verb in ("alloc", "free") else f" locks {members(it.counted)}"
        place = f" line {it.line}" if told else ""
        who = f"event {it.event}{place} {it.verb} thread {it.thread} segment {it.segment}{locks}"
        yield f"{who} state {state_text(state)}{''.join(f' ; {note}' for note in notes)}"
    if hidden:
        yield f"{hidden} more accesses"


# ------------------------------------------------------------------ what is printed


def report_line(number, it):
    kind = "write" if it.access.writes else "read"
    threads = ",".join(map(str, it.threads))
    return f"race {number} event {it.event} {kind} thread {it.access.thread} word 0x{it.word:016x} threads {threads}"


def segment_line(number, thread, before):
    return f"segment {number} thread {thread} after {','.join(map(str, before)) or '-'}"


def run(command, text, address=0, every=False, is_stored=False):
    """Returns the lines that the command prints, and its status; of a store with the accepted events, where that is asked."""
    trace, end, status = Trace(), None, 0
    for number, line in lines(text):
        event = read_line(line)
        code = event and trace.refusal(event)
        if event is None or code:
            end, status = f"refused line {number} code {code}" if event else f"bad line {number}", 2
            break
        trace.accept(number, event)
    reports, full_at = judged(trace)
    segments = trace.segments
    if full_at:
        end, status = f"refused line {trace.line_of[full_at]} code 19", 2
        segments = segments[: trace.segments_before[full_at]]
    if is_stored:
        end, status = None, 0
    end_line = f"end events {trace.events} races {len(reports)} segments {len(segments)}"
    if command == "explain":
        word = address // 4 * 4
        out = [f"word 0x{word:016x}", *life(trace, word, reports, full_at - 1 if full_at else trace.events, every, not is_stored)]
        end = end or end_line
    elif command == "check":
        out = [report_line(k, it) for k, it in enumerate(reports[:MOST_KEPT], 1)]
        end = end or end_line
    else:
        out = [segment_line(k, *it) for k, it in enumerate(segments)]
    return out + ([end] if end else []), status


def main():
    command, *words = sys.argv[1:] or [""]
    flags = ("--all", "--stored") if command == "explain" else ()
    every, is_stored = (flag in flags and flag in words for flag in ("--all", "--stored"))
    addresses = [word for word in words if word not in flags]
    if command not in ("check", "graph", "explain") or len(addresses) != (command == "explain"):
        print("usage: reference.py check|graph|explain ADDRESS [--all] [--stored] < trace", file=sys.stderr)
        return 4
    out, status = run(command, sys.stdin.buffer.read(), int(addresses[0], 0) if addresses else 0, every, is_stored)
    sys.stdout.write("".join(f"{line}\n" for line in out))
    return status


if __name__ == "__main__":
    sys.exit(main())
