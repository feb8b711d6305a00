"""A reader of the two journals of a store, and of a journal of the former form, by docs/FORMATS.md alone."""
import os

OPEN, CLOSED = b"\xa5", b"\x5a"
HEADER, FORMER_HEADER = b"HGJRNL3\n", b"HGJRNL1\n"
BATCHES_AT = 17
MOST_BODY_BYTES = 25_600
MOST_BASE = 2**58
SPARE = "spare"

# The kinds of records: the verb, and how many bytes each number behind the thread has.
KINDS = {
    1: ("fork", 2), 2: ("join", 2), 3: ("lock", 2), 4: ("rdlock", 2), 5: ("unlock", 2), 6: ("read", 8, 1), 7: ("write", 8, 1),
    8: ("alloc", 8, 2), 9: ("free", 8, 2), 10: ("send", 4), 11: ("recv", 4), 12: ("alloc", 8, 4), 13: ("free", 8, 4),
}


def records_in(body):
    """The events of a body of records, each its source, its number in it, and the words of its line; or None where it has none, or other bytes."""
    at, found = 0, []

    def taken(size):
        nonlocal at
        at += size
        return int.from_bytes(body[at - size : at], "big") if at <= len(body) else None

    while at < len(body):
        source, number, kind, thread = (taken(size) for size in (2, 8, 1, 2))
        if thread is None or kind not in KINDS:
            return None
        verb, *sizes = KINDS[kind]
        values = [taken(size) for size in sizes]
        if None in values or kind in (12, 13) and values[-1] < 65_536:
            return None
        found.append((source, number, (verb, thread, *values)))
    return found or None


def events_from(at, data):
    """The events of the batches that begin at a place, or None where no closed gate ends them, or a batch is none."""
    found = []
    while at < len(data):
        if data[at : at + 1] != OPEN:
            return found
        size = int.from_bytes(data[at + 1 : at + 5], "big")
        body = data[at + 5 : at + 5 + size]
        events = records_in(body) if at + 5 <= len(data) and 1 <= size <= MOST_BODY_BYTES and len(body) == size else None
        if events is None:
            return None
        found += events
        at += 5 + size
    return None


def read_file(data):
    """What a journal file has: SPARE, or a base and the events behind it; None where it is neither."""
    if data[:1] != OPEN:
        return SPARE if data else None
    base, events = int.from_bytes(data[9:BATCHES_AT], "big"), events_from(BATCHES_AT, data)
    return (base, events) if data[1:9] == HEADER and base <= MOST_BASE and events is not None else None


def read_pair(one, other):
    """What two journal files keep together: a base and the events behind it; None where they keep nothing."""
    files = [read_file(one), read_file(other)]
    opened = sorted((it for it in files if it not in (None, SPARE)), key=lambda it: it[0])
    if None in files or not opened:
        return None
    if len(opened) == 2 and (opened[0][0] + len(opened[0][1]) != opened[1][0] or not opened[0][1]):
        return None
    base, events = opened[0][0], [event for file in opened for event in file[1]]
    return (base, events) if base + len(events) <= MOST_BASE else None


def read_former(data):
    """The events of a journal of the former form, or None where it is none."""
    return events_from(len(FORMER_HEADER), data) if data[:8] == FORMER_HEADER else None


def kept_in(store):
    """What the journals of a store's folder keep: a base and the events behind it."""
    files = []
    for name in ("journal0", "journal1"):
        with open(os.path.join(store, name), "rb") as file:
            files.append(file.read())
    return read_pair(*files)


def line_of(event):
    """The line of an event."""
    return " ".join(map(str, event[2]))
