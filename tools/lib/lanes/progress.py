"""What is done of long work, in a line on a terminal."""

import os
import sys
import time

MEGABYTE, SECONDS = 1 << 20, 0.5


class Progress:
    """What is done, in a line on a terminal."""

    def __init__(self, names):
        self.total, self.done, self.next = sum(os.path.getsize(name) for name in names), 0, time.monotonic() + SECONDS
        self.is_shown = sys.stderr is not None and sys.stderr.isatty()

    def add(self, count):
        self.done += count
        if self.is_shown and time.monotonic() >= self.next:
            self.next = time.monotonic() + SECONDS
            sys.stderr.write("\rlanes: %d of %d MB" % (self.done // MEGABYTE, self.total // MEGABYTE))
            sys.stderr.flush()

    def end(self):
        if self.is_shown:
            sys.stderr.write("\rlanes: %d MB are read\n" % (self.done // MEGABYTE))
