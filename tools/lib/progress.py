"""Progress on standard error: one line that changes on a terminal, and otherwise a line now and then."""

import sys
import time

from outputs import print_error

TERMINAL, ELSEWHERE = 0.1, 10  # seconds between two lines


class Progress:
    """How much of something is done. With `each`, every step has a line of its own where there is no terminal."""

    def __init__(self, what, total, each=False):
        self.what = what
        self.total = total
        self.start = self.last = time.monotonic()
        self.terminal = sys.stderr is not None and sys.stderr.isatty()
        self.pause = TERMINAL if self.terminal else 0 if each else ELSEWHERE
        self.open = False  # a line on the terminal has no end yet

    def step(self, done, detail=""):
        """Says how much is done, unless it has just been said."""
        now = time.monotonic()
        if now - self.last >= self.pause:
            self.last = now
            self.say(done, detail)

    def say(self, done, detail=""):
        text = f"{self.what}: {done:,} of {self.total:,}{detail}, {duration(time.monotonic() - self.start)}"
        if self.terminal:
            filled = 20 * done // max(self.total, 1)
            print_error(f"\r\x1b[K[{'#' * filled}{'.' * (20 - filled)}] {text}")
            self.open = True
        else:
            print_error(f"{text}\n")

    def close(self):
        """Removes the line from a terminal."""
        if self.open:
            print_error("\r\x1b[K")
            self.open = False


def duration(seconds):
    """Such as 5 s or 2 min 5 s."""
    minutes, rest = divmod(int(seconds), 60)
    return f"{minutes} min {rest} s" if minutes else f"{rest} s"
