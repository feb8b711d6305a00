"""A line on standard error for work that takes longer than a second."""
import sys
import time


class Progress:
    def __init__(self, is_quiet: bool):
        self.begun, self.shown, self.is_shown = time.monotonic(), 0.0, not is_quiet and sys.stderr.isatty()
        self.has_line = False

    def __call__(self, text):
        now = time.monotonic()
        if self.is_shown and now - self.begun > 1 and now - self.shown > 0.1:
            self.shown, self.has_line = now, True
            print(f"\r\033[Khgd-report: {text}", end="", file=sys.stderr, flush=True)

    def end(self):
        if self.has_line:
            print("\r\033[K", end="", file=sys.stderr, flush=True)
