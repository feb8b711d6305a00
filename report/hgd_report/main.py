"""The command line of hgd-report."""
from __future__ import annotations

import argparse
import os
import sys

from . import output, suppressions
from .bare import BareHgd, ordered_by_messages
from .pairs import Pair, Source, find_pairs, group
from .places import CodesFile, OtherRun, run_of
from .progress import Progress
from .verdicts import Hgd, HgdFailed, Verdict

BAD_COMMAND_LINE, FAULT, REFUSED = 4, 3, 2


class Parser(argparse.ArgumentParser):
    def error(self, message):
        self.print_usage(sys.stderr)
        self.exit(BAD_COMMAND_LINE, f"{self.prog}: {message}\n")


def exit_code(text: str) -> int:
    number = int(text)
    if not 1 <= number <= 255:
        raise argparse.ArgumentTypeError("a status is 1 to 255")
    return number


def parser() -> Parser:
    made = Parser(
        prog="hgd-report",
        description="One report for each pair of places that race in a trace: both accesses, their locks, the memory and the threads.",
        epilog="The status is 0, or N of --error-exitcode where a pair is left that no suppression fits; 2 where hgd refuses a line of the "
               "trace, of which the part before it is reported; 3 where a file or hgd failed, 4 for a bad command line.")
    made.add_argument("trace", metavar="TRACE", help="a trace, as hgd-record writes it")
    made.add_argument("codes", metavar="CODES", nargs="?", help="the file of hgd-record --pcs of the same run, for places in the source")
    made.add_argument("--format", choices=("text", "json", "sarif"), default="text", help="text by default")
    made.add_argument("--all", action="store_true",
                      help="lists also the places that race only where the trace's messages are left out: a hand-over of this run alone orders them. "
                           "They are told as a count else, and never change the status")
    made.add_argument("--suppressions", metavar="FILE", action="append", default=[],
                      help="leaves out what FILE fits: lines `function GLOB and variable GLOB`, with the keys function, frame, file, variable and lock; "
                           "or a file of Helgrind or ThreadSanitizer, as far as it says the same")
    made.add_argument("--gen-suppressions", action="store_true", help="prints with each report the line that would suppress it")
    made.add_argument("--error-exitcode", metavar="N", type=exit_code, default=0, help="the status where races are reported (1 to 255)")
    made.add_argument("--colour", choices=("auto", "always", "never"), default="auto", help="auto: on a terminal where NO_COLOR is not set")
    made.add_argument("--hgd", metavar="PATH", default=os.environ.get("HGD") or "hgd", help="the hgd that judges (default: $HGD, or hgd of the path)")
    made.add_argument("-v", "--verbose", action="store_true", help="tells the commands that are run")
    made.add_argument("-q", "--quiet", action="store_true", help="shows no progress")
    return made


def is_coloured(choice: str) -> bool:
    return choice == "always" or choice == "auto" and sys.stdout.isatty() and not os.environ.get("NO_COLOR")


def read_suppressions(paths: list[str]) -> list[suppressions.Suppression]:
    found = []
    for path in paths:
        with open(path, encoding="utf-8") as file:
            text = file.read()
        try:
            some, unread = suppressions.read(text)
        except suppressions.BadSuppressions as fault:
            raise suppressions.BadSuppressions(f"{path}: {fault}") from fault
        found += some
        if unread:
            print(f"hgd-report: {path}: {unread} suppressions say what is not looked at here", file=sys.stderr)
    return found


def see_that_it_is_one_run(trace: str, codes: CodesFile):
    of_trace = run_of(trace)
    if of_trace != codes.run:
        raise OtherRun(f"{codes.path} is of run {codes.run or 'unknown'}, and {trace} of run {of_trace or 'unknown'}")


def report(options) -> int:
    known = read_suppressions(options.suppressions)
    source = Source(options.codes)
    if source.codes:
        see_that_it_is_one_run(options.trace, source.codes)
    progress = Progress(options.quiet)
    hgd = Hgd(options.hgd, options.trace, options.verbose)
    verdict = hgd.check()
    pairs, around = find_pairs(hgd, group(verdict.races, source), verdict.last, source, progress)
    ordered = find_ordered(BareHgd(hgd, around.messages, verdict.last), verdict, source, options.all, progress) if around.messages else output.Ordered(0, [])
    progress.end()
    for pair in (*pairs, *ordered.pairs):
        pair.is_suppressed = any(it.fits(pair.facts()) for it in known)
    sys.stdout.write(written(options, pairs, ordered, verdict))
    sys.stdout.flush()
    if verdict.status == REFUSED:
        return REFUSED
    return options.error_exitcode if any(not pair.is_suppressed for pair in pairs) else 0


def find_ordered(hgd: BareHgd, verdict: Verdict, source: Source, lists_all: bool, progress) -> output.Ordered:
    """What only the messages of the trace order: how many places, and their pairs where they are to be listed."""
    progress("judging without the messages")
    bare = hgd.check()
    places = ordered_by_messages(bare.races, verdict.races, source)
    if not lists_all:
        return output.Ordered(len(places), [])
    groups = [races for some in places.values() for races in some]
    # hgd took the same lines without the messages as with them
    return output.Ordered(len(places), find_pairs(hgd, groups, verdict.last, source, progress)[0])


def written(options, pairs: list[Pair], ordered: output.Ordered, verdict: Verdict) -> str:
    if options.format == "json":
        return output.as_json(pairs, ordered, verdict)
    if options.format == "sarif":
        return output.as_sarif(pairs, ordered, verdict)
    return output.Text(is_coloured(options.colour), options.gen_suppressions).whole(pairs, ordered, verdict)


def run():
    options = parser().parse_args()
    try:
        sys.exit(report(options))
    except BrokenPipeError:
        os.dup2(os.open(os.devnull, os.O_WRONLY), 1)
        sys.exit(1)
    except (OSError, OtherRun, HgdFailed, suppressions.BadSuppressions) as fault:
        print(f"hgd-report: {fault}", file=sys.stderr)
        sys.exit(FAULT)
    except KeyboardInterrupt:
        sys.exit(130)
