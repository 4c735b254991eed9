"""How far a long wait is."""
import os
import sys
import time

from . import streams


class Progress:
    """One line on a terminal that is written again and again, with the seconds; elsewhere nothing."""

    def __init__(self):
        self.shows = streams.on_terminal(sys.stderr)
        self.start, self.length = time.monotonic(), 0

    def show(self, text):
        if self.shows:
            room = os.get_terminal_size(streams.ERROR).columns or 80
            text = f"flashlist: {text}, {int(time.monotonic() - self.start)} s"[:room - 1]
            streams.tell(f"\r{text.ljust(self.length)}")
            self.length = len(text)

    def __enter__(self):
        return self

    def __exit__(self, *_):
        if self.length:
            streams.tell(f"\r{' ' * self.length}\r")
