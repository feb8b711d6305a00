#!/usr/bin/env python3
"""A reader and a writer of root bodies, root files and page slots, by docs/FORMATS.md alone. tests/formats compares `hg_test_trials roots` with it.

roots.py            checks itself: the worked roots and slot in both directions, 1,000 random contents there and back, each change of a byte
roots.py verdicts   prints, for each byte of the worked body and each other value, whether the change is a root's body
"""
import random
import sys

HEADER = b"HGROOT2\n"
# Roots with this header have no marks. They are read, and not written any more.
FORMER_HEADER = b"HGROOT1\n"
WORKED = bytes.fromhex(
    "A50000000000000064" "4847524F4F54320A" "0000000000000001" "0000000000000001"
    "00000003" "00000000" "0001010000000000" "0000010000000000"
    "0002" "0000010000000200" "0001010000000100"
    "000000010000" "000000000000000000000000" "0001" "00030000000000000001" "00000000")


# The same content as it was written with the former header.
FORMER = bytes.fromhex(
    "A50000000000000061" "4847524F4F54310A" "0000000000000001" "0000000000000001"
    "00000003" "000000" "00010100000000" "00000100000000"
    "0002" "0000010000000200" "0001010000000100"
    "000000010000" "000000000000000000000000" "0001" "00030000000000000001" "00000000")

# Page 4, of a root with three segments and these sets.
SLOT_BYTES = 3080
WORKED_SLOT = bytes.fromhex(
    "0000000000000004" "010000000000000200000000" "020000000000000100000002"
    "030100000000000100000000" "030000000000000100000002") + bytes(3024)
WORKED_SETS = [(), (0, 1), (5,)]

NEW, EXCLUSIVE, SHARED_READ, SHARED_MODIFIED = range(4)

# A mark is its kind and a message, which is 0 for PLAIN.
PLAIN, SENT, GOT = range(3)
UNMARKED = (PLAIN, 0)


class Damaged(Exception):
    pass


def want(test):
    if not test:
        raise Damaged()


class Reader:
    def __init__(self, data):
        self.data, self.at = data, 0

    def number(self, size):
        want(self.at + size <= len(self.data))
        value = int.from_bytes(self.data[self.at:self.at + size], "big")
        self.at += size
        return value


def rise(numbers):
    return all(a < b for a, b in zip(numbers, numbers[1:]))


def read_mark(r, thread, before, segments, messages):
    """The mark of a segment. `messages` has those that were sent, each with whether it was received."""
    kind = r.number(1)
    want(kind <= GOT)
    message = r.number(4) if kind != PLAIN else 0
    if kind == SENT:
        want(message not in messages and len(before) == 1 and segments[before[0]][0] == thread)
        messages[message] = False
    if kind == GOT:
        want(messages.get(message) is False)
        messages[message] = True
    return kind, message


def read_body(data):
    r = Reader(data)
    want(data[:8] in (HEADER, FORMER_HEADER))
    marked = data[:8] == HEADER
    r.at = 8
    root = {"number": r.number(8), "events": r.number(8)}
    want(1 <= root["number"] <= 2**58 and root["events"] <= 2**58)
    segments, last, messages = [], {}, {}
    count = r.number(4)
    want(1 <= count <= 1048576)
    for n in range(count):
        thread = r.number(2)
        before = [r.number(4) for _ in range(r.number(1))]
        want(thread <= 1023 and rise(before) and all(b < n for b in before))
        want(thread == 0 and not before if n == 0 else 1 <= len(before) <= 2)
        want(thread not in last or last[thread] in before)
        last[thread] = n
        segments.append((thread, before, read_mark(r, thread, before, segments, messages) if marked else UNMARKED))
    threads, modes = [], {}
    for _ in range(r.number(2)):
        thread, alive, own = r.number(2), r.number(1), r.number(4)
        held = [(r.number(2), r.number(1)) for _ in range(r.number(1))]
        want(alive <= 1 and last.get(thread) == own and len(held) <= 64 and (alive or not held))
        want(rise([lock for lock, _ in held]))
        for lock, mode in held:
            want(mode in (1, 2))
            modes.setdefault(lock, []).append(mode)
        threads.append((thread, alive, held))
    want([t for t, _, _ in threads] == sorted(last))
    want(all(1 not in held or len(held) == 1 for held in modes.values()))
    sets = []
    count = r.number(4)
    want(1 <= count <= 262144)
    for _ in range(count):
        sets.append(tuple(r.number(2) for _ in range(r.number(2))))
    want(sets[0] == () and all(rise(s) for s in sets) and len(set(sets)) == len(sets))
    total, kept = r.number(8), r.number(4)
    want(total <= 17 * root["events"] and kept == min(total, 65536))
    reports = []
    for _ in range(kept):
        event, word, thread, kind, threads_of = (r.number(n) for n in (8, 8, 2, 1, 4))
        want(1 <= event <= root["events"] and word % 4 == 0 and kind in (6, 7) and threads_of < len(sets))
        want(thread in sets[threads_of] and all(m <= 1023 for m in sets[threads_of]))
        reports.append((event, word, thread, kind, threads_of))
    want(rise([(event, word) for event, word, _, _, _ in reports]))
    sources = [(r.number(2), r.number(8)) for _ in range(r.number(2))]
    want(rise([s for s, _ in sources]) and all(s <= 1023 and n >= 1 for s, n in sources))
    want(sum(n for _, n in sources) == root["events"])
    pages = [(r.number(8), r.number(4)) for _ in range(r.number(4))]
    slots = [s for _, s in pages]
    want(rise([p for p, _ in pages]) and all(p < 2**54 and s < 1048576 for p, s in pages))
    want(len(set(slots)) == len(slots) and r.at == len(data))
    root.update(segments=segments, threads=threads, sets=sets, total=total, reports=reports, sources=sources, pages=pages)
    return root


def fields_of(root, former=False):
    """The fields of a body in order: of each a name, how many bytes it has, and its number."""
    last = {}
    header = FORMER_HEADER if former else HEADER
    out = [("header", 8, int.from_bytes(header, "big")), ("number", 8, root["number"]), ("events", 8, root["events"])]
    out.append(("segments", 4, len(root["segments"])))
    for n, (thread, before, (kind, message)) in enumerate(root["segments"]):
        out += [(f"segment {n} thread", 2, thread), (f"segment {n} count", 1, len(before))]
        out += [(f"segment {n} before {k}", 4, it) for k, it in enumerate(before)]
        if not former:
            out.append((f"segment {n} mark", 1, kind))
            out += [(f"segment {n} message", 4, message)] if kind != PLAIN else []
        last[thread] = n
    out.append(("threads", 2, len(root["threads"])))
    for n, (thread, alive, held) in enumerate(root["threads"]):
        out += [(f"thread {n} number", 2, thread), (f"thread {n} alive", 1, alive), (f"thread {n} last", 4, last.get(thread, 0))]
        out.append((f"thread {n} count", 1, len(held)))
        for k, (lock, mode) in enumerate(held):
            out += [(f"thread {n} lock {k}", 2, lock), (f"thread {n} mode {k}", 1, mode)]
    out.append(("sets", 4, len(root["sets"])))
    for n, members in enumerate(root["sets"]):
        out.append((f"set {n} count", 2, len(members)))
        out += [(f"set {n} member {k}", 2, it) for k, it in enumerate(members)]
    out += [("total", 8, root["total"]), ("kept", 4, len(root["reports"]))]
    for n, (event, word, thread, kind, threads) in enumerate(root["reports"]):
        out += [(f"report {n} event", 8, event), (f"report {n} word", 8, word), (f"report {n} thread", 2, thread)]
        out += [(f"report {n} kind", 1, kind), (f"report {n} set", 4, threads)]
    out.append(("sources", 2, len(root["sources"])))
    for n, (source, number) in enumerate(root["sources"]):
        out += [(f"source {n} number", 2, source), (f"source {n} last", 8, number)]
    out.append(("pages", 4, len(root["pages"])))
    for n, (page, slot) in enumerate(root["pages"]):
        out += [(f"page {n} number", 8, page), (f"page {n} slot", 4, slot)]
    return out


def spelled(fields):
    return b"".join(value.to_bytes(size, "big") for _, size, value in fields)


def write_body(root):
    return spelled(fields_of(root))


def write_former_body(root):
    """The body under the former header, of a content without marks."""
    return spelled(fields_of(root, former=True))


def write_file(body):
    return b"\xa5" + len(body).to_bytes(8, "big") + body


def read_file(data):
    """The body of a root file, or None where it is closed."""
    want(data)
    if data[0] != 0xA5:
        return None
    want(len(data) >= 9)
    size = int.from_bytes(data[1:9], "big")
    want(len(data) >= 9 + size)
    return data[9:9 + size]


def newest_of(one, other):
    """The newest root of two files, or None where both are closed."""
    bodies = [body for body in (read_file(one), read_file(other)) if body is not None]
    roots = sorted((read_body(body) for body in bodies), key=lambda root: root["number"])
    want(len({root["number"] for root in roots}) == len(roots))
    return roots[-1] if roots else None


def read_slot(data, page, segments, sets):
    """The 256 cells of a page, each its state and two numbers."""
    want(len(data) == SLOT_BYTES and page < 2**54 and int.from_bytes(data[:8], "big") == page)
    cells = []
    for at in range(8, SLOT_BYTES, 12):
        state, reported = data[at], data[at + 1]
        one, other = int.from_bytes(data[at + 4:at + 8], "big"), int.from_bytes(data[at + 8:at + 12], "big")
        want(state <= SHARED_MODIFIED and data[at + 2:at + 4] == b"\0\0")
        want(reported == (1 if state == SHARED_MODIFIED and other == 0 else 0))
        want(state != NEW or one == 0 and other == 0)
        want(state != EXCLUSIVE or one < segments and other == 0)
        if state in (SHARED_READ, SHARED_MODIFIED):
            want(one < len(sets) and other < len(sets))
            want(len(sets[one]) >= 2 and all(member <= 1023 for member in sets[one]))
        cells.append((state, one, other))
    return cells


def write_cell(cell):
    state, one, other = cell
    reported = 1 if state == SHARED_MODIFIED and other == 0 else 0
    return bytes([state, reported, 0, 0]) + one.to_bytes(4, "big") + other.to_bytes(4, "big")


def write_slot(page, cells):
    return page.to_bytes(8, "big") + b"".join(write_cell(cell) for cell in cells)


def is_root(data):
    try:
        read_body(data)
        return True
    except Damaged:
        return False


def random_mark(dice, own, messages):
    """A lawful mark. `own`: the segment has one predecessor, of its own thread. `messages`: as in read_mark."""
    waiting = [message for message, received in messages.items() if not received]
    draw = dice.random()
    if draw < 0.3 and own:
        message = dice.choice((0, 2**32 - 1, dice.randrange(2**32), dice.randrange(9)))
        if message not in messages:
            messages[message] = False
            return SENT, message
    if draw > 0.6 and waiting:
        message = dice.choice(waiting)
        messages[message] = True
        return GOT, message
    return UNMARKED


def random_segments(dice, most):
    segments, last, messages, marked = [(0, [], UNMARKED)], {0: 0}, {}, dice.random() < 0.7
    for n in range(1, dice.randint(1, most)):
        thread = dice.choice(list(last) + [dice.randint(0, 1023)])
        before = {last[thread]} if thread in last else {dice.randrange(n)}
        if dice.random() < 0.5:
            before.add(dice.randrange(n))
        own = thread in last and len(before) == 1
        segments.append((thread, sorted(before), random_mark(dice, own, messages) if marked else UNMARKED))
        last[thread] = n
    return segments


def random_threads(dice, segments, most):
    threads, modes = [], {}
    for thread in sorted({thread for thread, _, _ in segments}):
        alive, held = int(dice.random() < 0.7), []
        locks = dice.sample(range(65536), dice.randint(0, most)) + dice.sample(sorted(modes), min(2, len(modes)))
        for lock in sorted(set(locks))[:64] if alive else []:
            mode = modes.setdefault(lock, dice.randint(1, 2))
            if mode == 2 or all((lock, 1) not in other for _, _, other in threads):
                held.append((lock, mode))
        threads.append((thread, alive, held))
    return threads


def random_sets(dice, most):
    sets = {tuple(sorted(dice.sample(range(1024), dice.randint(1, 5)))) for _ in range(dice.randint(0, most))}
    sets |= {tuple(sorted(dice.sample(range(65536), dice.randint(1, 64)))) for _ in range(dice.randint(0, 3))}
    return [()] + dice.sample(sorted(sets), len(sets))


def random_reports(dice, events, sets, most):
    named = [n for n, members in enumerate(sets) if members and members[-1] <= 1023]
    if not events or not named:
        return []
    count = dice.randint(0, min(most, 17 * events))
    some = [dice.randint(1, events) for _ in range(3)]
    places = {(dice.choice(some), 4 * dice.randrange(2**62)) for _ in range(count)}
    reports = []
    for event, word in sorted(places):
        number = dice.choice(named)
        reports.append((event, word, dice.choice(sets[number]), dice.choice((6, 7)), number))
    return reports


def random_root(dice, most=20):
    """A content whose lists have some `most` entries."""
    segments, sets = random_segments(dice, most), random_sets(dice, most // 2)
    greatest = dice.choice((1, 50, 2**40, 2**48))
    sources = [(s, dice.randint(1, greatest)) for s in sorted(dice.sample(range(1024), dice.randint(0, min(most // 4, 1023))))]
    events = sum(n for _, n in sources)
    reports = random_reports(dice, events, sets, most)
    pages = sorted(dice.sample(range(2**54), dice.randint(0, most // 2)))
    slots = dice.sample(range(1048576), len(pages))
    return {"number": dice.choice((1, 2**58, dice.randint(1, 2**58))), "events": events, "segments": segments,
            "threads": random_threads(dice, segments, dice.choice((0, 4, 4, 64))), "sets": sets, "total": len(reports),
            "reports": reports, "sources": sources, "pages": list(zip(pages, slots))}


def random_cell(dice, segments, sets):
    shared = [n for n, members in enumerate(sets) if len(members) >= 2 and members[-1] <= 1023]
    state = dice.choice((NEW, EXCLUSIVE, SHARED_READ, SHARED_MODIFIED) if shared else (NEW, EXCLUSIVE))
    if state == NEW:
        return NEW, 0, 0
    if state == EXCLUSIVE:
        return EXCLUSIVE, dice.choice((0, segments - 1, dice.randrange(segments))), 0
    return state, dice.choice(shared), dice.choice((0, dice.randrange(len(sets))))


def random_page(dice):
    """A page, the number of segments, the sets, and the cells."""
    page, segments, sets = dice.choice((0, 2**54 - 1, dice.randrange(2**54))), dice.choice((1, 1048576, dice.randint(1, 1048576))), random_sets(dice, 6)
    cells, share = [], dice.choice((0, 0.02, 0.5, 1))
    for _ in range(256):
        cells.append(random_cell(dice, segments, sets) if dice.random() < share else (NEW, 0, 0))
    return page, segments, sets, cells


def main():
    body = WORKED[9:]
    assert len(WORKED) == 109 and int.from_bytes(WORKED[1:9], "big") == len(body) == 100
    assert write_body(read_body(body)) == body and write_file(body) == WORKED and read_file(WORKED + b"?") == body
    assert read_body(FORMER[9:]) == read_body(body) and write_file(write_former_body(read_body(body))) == FORMER and len(FORMER) == 106
    assert write_slot(4, read_slot(WORKED_SLOT, 4, 3, WORKED_SETS)) == WORKED_SLOT
    verdicts = []
    for at in range(len(body)):
        for value in range(256):
            if value != body[at]:
                changed = body[:at] + bytes([value]) + body[at + 1:]
                verdicts.append((at, value, is_root(changed)))
    if sys.argv[1:] == ["verdicts"]:
        for at, value, verdict in verdicts:
            print(at, value, "root" if verdict else "damaged")
        return
    dice = random.Random(1)
    for _ in range(1000):
        root = random_root(dice)
        assert read_body(write_body(root)) == root
        if all(mark == UNMARKED for _, _, mark in root["segments"]):
            assert read_body(write_former_body(root)) == root
        page, segments, known, cells = random_page(dice)
        assert read_slot(write_slot(page, cells), page, segments, known) == cells
    print("worked roots and slot read and written, 1000 random contents of each there and back,",
          sum(v for _, _, v in verdicts), "of", len(verdicts), "changed bytes are roots")


if __name__ == "__main__":
    main()
