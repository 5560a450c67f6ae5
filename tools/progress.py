"""A progress bar for a terminal, shown once a task has taken a second."""

import time

WIDTH = 40
AFTER = 1.0          # seconds before anything is shown
AGAIN = 0.1          # seconds between two drawings


class Progress:
    """Called with the number done; a context that wipes its line at the end."""

    def __init__(self, total, what, stream, clock=time.monotonic):
        self.total, self.what = total, what
        self.stream, self.clock = stream, clock
        self.next = clock() + AFTER if stream.isatty() else None
        self.shown = False

    def __enter__(self):
        return self

    def __call__(self, done):
        if self.next is None or self.clock() < self.next:
            return
        self.next = self.clock() + AGAIN
        self.shown = True
        full = WIDTH * done // self.total
        self.stream.write(f"\r[{'#' * full}{'.' * (WIDTH - full)}] "
                          f"{done:,} of {self.total:,} {self.what}")
        self.stream.flush()

    def __exit__(self, *_):
        if self.shown:
            self.stream.write("\r\033[K")
            self.stream.flush()
