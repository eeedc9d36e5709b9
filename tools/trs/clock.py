"""Time for a search."""
import time


class TimeUp(Exception):
    """The time of a search is over."""


class Clock:
    def __init__(self, seconds):
        self.until = time.monotonic() + seconds

    def left(self):
        return self.until - time.monotonic()

    def check(self):
        if self.left() <= 0:
            raise TimeUp()

    def part(self, seconds):
        """A clock that ends after so many seconds, or with this one."""
        return Clock(min(seconds, self.left()))
