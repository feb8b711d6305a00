"""Places in the source: from the addresses of code that `hgd-record --pcs` wrote to functions, files and lines, and from addresses of
memory to global variables. It asks binutils: readelf, addr2line, nm."""
import bisect
import os
import re
import subprocess

from .trace import pieces_of


class OtherRun(Exception):
    pass


# A line of a file of codes that is of no event: that of an event begins with 0.
OTHER = re.compile(rb"^(?!0)(?:[^\n]+\n?|\n)", re.MULTILINE)


class CodesFile:
    """A file of `hgd-record --pcs`, which is read through once: its run, where the program's files lay in memory, who called whom, and
    how many events stand before each of its pieces, so that one of them is found without those before."""

    def __init__(self, path):
        self.path, self.run, self.maps, self.frames, self.events = path, None, [], {}, 0
        self.places, self.before, at = [], [], 0
        with open(path, "rb") as file:
            for piece in pieces_of(file):
                others = OTHER.findall(piece)
                for line in others:
                    self.read(line.decode())
                self.places.append(at)
                self.before.append(self.events)
                self.events += piece.count(b"\n") + (not piece.endswith(b"\n")) - len(others)
                at += len(piece)
        self.maps.sort()

    def read(self, line):
        if line.startswith("run "):
            self.run = line.split()[1]
        elif line.startswith("map "):
            low, high, offset, name = line.split(maxsplit=4)[1:]
            self.maps.append((int(low, 0), int(high, 0), int(offset, 0), name.rstrip("\n")))
        elif line.startswith("stack "):
            stack, outer, caller = line.split()[1:]
            self.frames[int(stack)] = (int(outer), int(caller, 0))

    def lines(self, wanted):
        """Each event asked for that is there, with its line."""
        known = None
        with open(self.path, "rb") as file:
            for event in sorted(wanted):
                if not 1 <= event <= self.events:
                    continue
                piece = bisect.bisect_left(self.before, event) - 1
                if piece != known:
                    known = piece
                    file.seek(self.places[piece])
                    lines = [line for line in next(pieces_of(file)).split(b"\n") if line[:1] == b"0"]
                yield event, lines[event - 1 - self.before[piece]]


class Codes:
    """The addresses of the events asked for, and where the program's files lay in memory. A file that is asked several times is best read
    beforehand: `file` is one, or its path."""

    def __init__(self, file, wanted):
        file = file if isinstance(file, CodesFile) else CodesFile(file)
        self.address, self.stack, self.frames, self.maps, self.run = {}, {}, file.frames, file.maps, file.run
        for event, line in file.lines(wanted):
            self.note(event, line.split())
        if wanted and max(wanted) > file.events:
            raise OtherRun(f"{file.path} has {file.events} events, and not event {max(wanted)}: it is of another run")
        self.begins = [part[0] for part in self.maps]

    def note(self, event, words):
        """The code of an event, and the number of its stack where it has one."""
        self.address[event] = int(words[0], 0)
        self.stack[event] = int(words[1]) if len(words) > 1 else 0

    def callers(self, event):
        """The addresses behind the calls by which an event was come to, the innermost first."""
        stack, found = self.stack.get(event, 0), []
        while stack in self.frames:
            stack, caller = self.frames[stack]
            found.append(caller)
        return found

    def files(self):
        return {part[3] for part in self.maps}

    def part(self, address):
        """The name of the file that lies at an address."""
        at = bisect.bisect_right(self.begins, address) - 1
        return self.maps[at][3] if at >= 0 and address < self.maps[at][1] else None


class File:
    """A program or library: from places in memory to the addresses that its own tables have, which are less by `bias`."""

    def __init__(self, path, maps):
        self.path, self.loads, self.names = path, [], None
        if not os.path.exists(path):
            return
        headers = subprocess.run(["readelf", "-lW", path], capture_output=True, text=True).stdout
        for words in (line.split() for line in headers.splitlines()):
            if words and words[0] == "LOAD":
                self.loads.append((int(words[1], 16), int(words[2], 16), int(words[5], 16)))
        self.bias = self.find_bias([part for part in maps if part[3] == path])

    def find_bias(self, parts):
        for low, _, place, _ in parts:
            for offset, address, _ in self.loads:
                if place == offset & ~0xFFF:
                    return low - (address & ~0xFFF)
        self.loads = []
        return 0

    def own_address(self, address):
        own = address - self.bias if self.loads else 0
        return own if any(begin <= own < begin + size for _, begin, size in self.loads) else None

    def source_lines(self, addresses):
        """For each address `function at file:line`, and behind it the same of each function that this one was put into in line."""
        words = ["addr2line", "-a", "-f", "-i", "-C", "-e", self.path]
        # the address behind a call is that of the next line: one byte before it is the call
        given = "".join(f"{address - 1:#x}\n" for address in addresses)
        answer = subprocess.run(words, input=given, capture_output=True, text=True).stdout.splitlines()
        found, at = [], 0
        while at < len(answer):
            if re.fullmatch(r"0x[0-9a-f]+", answer[at]):
                found.append([])
                at += 1
            else:
                line = re.sub(r" .discriminator.*", "", answer[at + 1]) if at + 1 < len(answer) else "??:0"
                found[-1].append(f"{answer[at]} at {line}")
                at += 2
        return found

    def variable(self, address):
        """The global variable that has a byte of the word at an address, and how far behind its beginning the word is."""
        if self.names is None:
            table = subprocess.run(["nm", "-nSC", "--defined-only", self.path], capture_output=True, text=True).stdout
            rows = (line.split(maxsplit=3) for line in table.splitlines())
            self.names = [(int(row[0], 16), int(row[1], 16), row[3]) for row in rows if len(row) == 4 and row[2] in "bBdDvVuS"]
        at = bisect.bisect_right(self.names, (address, 0, "")) - 1
        for begin, size, name in self.names[max(at, 0) : at + 2]:
            if begin < address + 4 and address < begin + size:
                return name if address <= begin else f"{name}+{address - begin}"
        return None


# The recorder's own functions that call the first one of a thread.
BEGINNINGS = ("run_thread at ", "run_standard_thread at ")


def outer_part(frames):
    """What is worth telling of a stack: up to `main` or to the first function of a thread, and to the last call that has a line."""
    for at, text in enumerate(frames):
        if text.startswith(BEGINNINGS):
            return frames[:at]
        if text.startswith("main at "):
            return frames[: at + 1]
    while len(frames) > 1 and " at " not in frames[-1]:
        frames = frames[:-1]
    return frames


class Places:
    def __init__(self, codes):
        self.codes, self.files = codes, {}

    def file(self, name):
        if name not in self.files:
            self.files[name] = File(name, self.codes.maps)
        return self.files[name]

    def of_addresses(self, addresses):
        """The places of each address of code: more than one where functions were put into others in line, the innermost first."""
        by_file, places = {}, {}
        for address in addresses:
            name = self.codes.part(address)
            own = self.file(name).own_address(address) if name else None
            if own is None:
                places[address] = ["no source line" if address else "the recorder's own"]
            else:
                by_file.setdefault(name, []).append((address, own))
        for name, pairs in by_file.items():
            lines = self.file(name).source_lines([own for _, own in pairs])
            for (address, own), known in zip(pairs, lines):
                places[address] = [f"{name}+{own:#x}"] if not known or "??" in known[0] else known
        return places

    def of_events(self):
        """The place of each event, by its number."""
        places = self.of_addresses(set(self.codes.address.values()))
        return {event: places[address][0] for event, address in self.codes.address.items()}

    def stacks_of_events(self):
        """For each event the places of the calls that led to it, the innermost first."""
        stacks = {event: [address, *self.codes.callers(event)] for event, address in self.codes.address.items()}
        places = self.of_addresses({address for stack in stacks.values() for address in stack})
        return {event: outer_part([it for address in stack for it in places[address]])[1:] for event, stack in stacks.items()}

    def variable(self, word):
        for name in sorted(self.codes.files()):
            own = self.file(name).own_address(word)
            found = self.file(name).variable(own) if own is not None else None
            if found:
                return found
        return None


def run_of(path):
    """The number of the run that a trace is of, where its first lines tell it."""
    with open(path) as lines:
        for line, _ in zip(lines, range(100)):
            if line.startswith("# run "):
                return line.split()[2]
    return None
