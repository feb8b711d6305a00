"""How the tools of dev/ call the prover: a module for them.

Each crate is proved over what others can cite of those below, and of each library that is kept under build/proved.
"""
import hashlib
import os
import shutil
import signal
import subprocess

from repository import ROOT, contents, sum_of

LOGS = f"{ROOT}/build/log"
PROVED = f"{ROOT}/build/proved"


# What a program is made of.
PARTS = ("crates", "crates.txt")


def version_of(kit):
    """Returns what a program tells behind its version's number: the last commit that changed its text, and the kit that proves it."""
    how = {"cwd": ROOT, "capture_output": True, "text": True, "check": False}
    if not shutil.which("git") or not os.path.exists(f"{ROOT}/.git"):
        return f"commit unknown, proved by {kit}"
    commit = subprocess.run(["git", "log", "-1", "--format=%h", "--", *PARTS], **how).stdout.strip()
    changed = subprocess.run(["git", "status", "--porcelain", "--", *PARTS], **how).stdout
    return f"commit {commit or 'unknown'}{' with changes' if changed else ''}, proved by {kit}"


class Checks:
    """Commands that run meanwhile, each in a process group of its own, so that none is left behind."""

    def __init__(self):
        self.groups, self.are_over = set(), False

    def run(self, words, folder, log):
        """Runs a command to its end, or until all are ended. Returns whether it did what it should."""
        how = {"cwd": folder, "stdin": subprocess.DEVNULL, "stdout": log, "stderr": subprocess.STDOUT}
        if self.are_over:
            return False
        with subprocess.Popen(words, start_new_session=True, **how) as ran:
            self.groups.add(ran.pid)
            if self.are_over:
                self.end()
            status = ran.wait()
            self.groups.discard(ran.pid)
        return status == 0

    def end(self):
        """Ends those that run, and any that is begun from now on."""
        self.are_over = True
        for group in list(self.groups):
            try:
                os.killpg(group, signal.SIGKILL)
            except ProcessLookupError:
                pass


class Proving:
    """Proves crates, and keeps of each library what others can cite of it. What is made is written in a folder `room` first."""

    def __init__(self, repository, checks, room):
        self.repository, self.checks, self.room = repository, checks, room
        self.kit = os.path.dirname(subprocess.run(["rt", "doc"], capture_output=True, text=True, check=True).stdout.strip())
        self.identity = subprocess.run(["rt", "version"], capture_output=True, text=True, check=True).stdout
        self.version = version_of(self.identity.strip())

    def tells_version(self, name):
        return os.path.isfile(f"{ROOT}/crates/{name}/src/version.rt")

    def text(self, name):
        """Returns the folder that a crate is read from: for a program that tells its version a copy, which has all of it."""
        folder = f"{ROOT}/crates/{name}"
        if not self.tells_version(name):
            return folder
        copy = f"{self.room}/text/{name}"
        shutil.copytree(folder, copy, ignore=shutil.ignore_patterns("out"))
        number = contents(f"{copy}/src/version.rt").decode()
        with open(f"{copy}/src/version.rt", "w", encoding="utf-8") as file:
            file.write(number.replace('";', f' ({self.version})";'))
        return copy

    def made(self, name):
        """Returns where a crate's library or program is kept."""
        return f"{PROVED}/{name}" if self.repository.is_program(name) else f"{PROVED}/{name}.rlib"

    def key(self, name):
        """Returns a sum over all that a crate's check reads: its text, and what it can cite of the crates below."""
        parts = [self.identity, name, *self.repository.lines[name]]
        parts += [f"{os.path.relpath(it, ROOT)} {sum_of(it)}" for it in self.repository.files(name)]
        parts += [f"{it} {self.kept(it)[1]}" for it in self.repository.needed(self.repository.below(name))]
        parts += [self.version] if self.tells_version(name) else []
        return hashlib.sha256("\n".join(parts).encode()).hexdigest()

    def kept(self, name):
        """Returns the key of what is kept of a crate, and the sum over that."""
        try:
            key, total = contents(f"{PROVED}/{name}.sums").decode().split()
            return key, total
        except (OSError, ValueError):
            return "", ""

    def is_done(self, name):
        key, total = self.kept(name)
        return key == self.key(name) and os.path.exists(self.made(name)) and total == sum_of(self.made(name))

    def reads(self, name):
        """Returns the words for `rattle` that name what a check of a crate reads."""
        repository, kit = self.repository, self.kit
        words = ["--crate-name", name, "src/main.rt" if repository.is_program(name) else "src/lib.rt"]
        for it in repository.of_kit(name):
            words += ["--extern", f"{it}={kit}/rlibs/{it}.rlib"]
        for it in repository.below(name):
            words += ["--extern", f"{it}={self.made(it)}"]
        words += ["-L", f"dependency={PROVED}", "-L", f"dependency={kit}/rlibs"]
        return [*words, "--antt-project", f"{kit}/rattle/logic/antt-project.json", "--logic-built", f"{kit}/logic_built"]

    def words(self, name, jobs, made):
        words = [f"{self.kit}/bin/rattle", "build", *self.reads(name)]
        words += ["--toolchain", f"{self.kit}/toolchain"] if self.repository.is_program(name) else ["--statements"]
        return [*words, "--jobs", str(jobs), "-o", made]

    def link(self, name, made, log):
        words = [f"{self.kit}/bin/rattle-link", "--target", "x86_64-unknown-linux-gnu", "--toolchain", f"{self.kit}/toolchain"]
        words += ["-o", made, f"{made}.o", f"{self.kit}/c/libos_c.a", f"{self.kit}/c/liblibc_c.a"]
        return self.checks.run(words, ROOT, log)

    def build(self, name, jobs):
        """Proves a crate and keeps what it made. Returns whether it was proved."""
        key, folder, made = self.key(name), self.text(name), f"{self.room}/{name}"
        with open(f"{LOGS}/{name}", "wb") as log:
            if self.repository.is_program(name):
                well = self.checks.run(self.words(name, jobs, f"{made}.o"), folder, log) and self.link(name, made, log)
            else:
                well = self.checks.run(self.words(name, jobs, made), folder, log)
        # What was edited meanwhile is proved again by the next run.
        if not well or key != self.key(name):
            return well
        shutil.rmtree(self.made(name), ignore_errors=True)
        os.replace(made, self.made(name))
        with open(f"{PROVED}/{name}.sums", "w", encoding="ascii") as sums:
            sums.write(f"{key} {sum_of(self.made(name))}\n")
        return True

    def finish(self, names):
        """Leaves programs where `rt` leaves them too."""
        for name in filter(self.repository.is_program, names):
            out = f"{ROOT}/crates/{name}/out"
            os.makedirs(out, exist_ok=True)
            shutil.copy2(self.made(name), f"{out}/{name}.new")
            os.replace(f"{out}/{name}.new", f"{out}/{name}")
