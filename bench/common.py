"""What the scripts of this folder share: the shapes of traces, what make builds for them, and what a run took."""
import os
import re
import resource
import subprocess
import sys
from collections.abc import Sequence

ROOT = os.path.dirname(os.path.dirname(os.path.abspath(__file__)))
SHAPES = "private waves races scatter counters readers locksets thread-sets full-sets heap copies few queue large-blocks".split()


def build(target: str) -> str:
    """Has make build a file of build/ where it is missing or older than its sources. Returns its path."""
    subprocess.run(["make", "--quiet", "-C", ROOT, f"build/{target}"], check=True, stdout=sys.stderr)
    return f"{ROOT}/build/{target}"


def write_trace(path: str, shape: str, events: int, seed: int = 1, children: int = 1023) -> None:
    """Writes a trace of a shape, the same each time."""
    words = ["--shape", shape, "--events", str(events), "--seed", str(seed), "--children", str(children)]
    with open(path, "wb") as out:
        subprocess.run([build("bench/generate"), *words], stdout=out, check=True)


def instructions(words: Sequence[str], trace: str, seconds: float | None = None) -> tuple[int, bytes]:
    """Runs a command on a trace. Returns how many instructions valgrind counts, and what it printed."""
    counting = ["valgrind", "--tool=callgrind", "--callgrind-out-file=/dev/null", *words]
    with open(trace, "rb") as given:
        ran = subprocess.run(counting, stdin=given, capture_output=True, timeout=seconds, check=True)
    return int(re.search(rb"Collected : (\d+)", ran.stderr)[1]), ran.stdout


def processor_seconds(words: Sequence[str], trace: str, seconds: float | None = None) -> tuple[float, bytes]:
    """Runs a command on a trace. Returns its user and system time, and what it printed."""
    before = resource.getrusage(resource.RUSAGE_CHILDREN)
    with open(trace, "rb") as given:
        ran = subprocess.run(words, stdin=given, stdout=subprocess.PIPE, timeout=seconds, check=True)
    after = resource.getrusage(resource.RUSAGE_CHILDREN)
    return after.ru_utime + after.ru_stime - before.ru_utime - before.ru_stime, ran.stdout
