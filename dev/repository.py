"""The crates of this repository, as crates.txt lists them: a module for the tools of dev/."""
import hashlib
import os

ROOT = os.path.dirname(os.path.dirname(os.path.abspath(__file__)))


class Repository:
    """The crates of crates.txt, and what each stands on."""

    def __init__(self):
        self.lines = {}
        with open(f"{ROOT}/crates.txt", encoding="utf-8") as given:
            for line in given:
                name, _, below = line.split("#")[0].partition(":")
                if name.strip():
                    self.lines[name.strip()] = below.split()

    def below(self, name):
        """Returns the crates of the repository that a crate's line names."""
        return [it for it in self.lines[name] if it in self.lines]

    def of_kit(self, name):
        """Returns the libraries of the kit that a crate may name."""
        return ["std", *(it for it in self.lines[name] if it not in self.lines)]

    def needed(self, names):
        """Returns the crates and all that they stand on, each behind what it stands on."""
        found = {}
        for name in names:
            for it in [*self.needed(self.below(name)), name]:
                found[it] = True
        return list(found)

    def files(self, name):
        """Returns the files that a crate's check reads."""
        found = []
        for part in ("src", "specs", "proofs"):
            for folder, _, files in os.walk(f"{ROOT}/crates/{name}/{part}"):
                found += [f"{folder}/{it}" for it in files]
        return sorted(found)

    def is_program(self, name):
        return os.path.isfile(f"{ROOT}/crates/{name}/src/main.rt")

    def chains(self, names):
        """Returns the lines of the longest chain from each crate upwards."""
        found = {}
        for name in reversed(names):
            own = sum(contents(it).count(b"\n") for it in self.files(name))
            found[name] = own + max((found[it] for it in names if it in found and name in self.below(it)), default=0)
        return found


def contents(file):
    with open(file, "rb") as given:
        return given.read()


def sum_of(path):
    """Returns a sum over a file, or over the names and the contents of all files of a folder."""
    total = hashlib.sha256()
    if os.path.isfile(path):
        return hashlib.sha256(contents(path)).hexdigest()
    for file in sorted(f"{folder}/{it}" for folder, _, files in os.walk(path) for it in files):
        total.update(f"{os.path.relpath(file, path)} {hashlib.sha256(contents(file)).hexdigest()}\n".encode())
    return total.hexdigest()
