"""Lines on standard error that say how far a long command has come."""
import sys
import time


class Steps:
    """So many steps of one command: each has a line, with its number, how many there are, and the time so far."""

    def __init__(self, what, count):
        self.what, self.count, self.done, self.begun = what, count, 0, time.monotonic()

    def time(self):
        minutes, seconds = divmod(int(time.monotonic() - self.begun), 60)
        return f'{minutes}:{seconds:02}'

    def tell(self, text):
        print(f'{self.what}, {self.time()}: {text}', file=sys.stderr, flush=True)

    def next(self, text):
        """Tells what begins, or has ended, now."""
        self.done += 1
        self.tell(f'{self.done} of {self.count}, {text}')
