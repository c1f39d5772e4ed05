"""Who looks on while a search works: what takes long is told on standard error, and what takes too long is stopped."""
import sys
import time

import search

QUIET = 2       # seconds before the first line, and between two lines


class Progress(search.Watch):
    """Tells where a search stands once it takes longer than two seconds, and stops it after `limit` seconds."""

    def __init__(self, limit=None, clock=time.monotonic):
        self.limit, self.clock, self.text = limit, clock, 'the search'
        self.start = clock()
        self.last = self.start

    def tell(self, text):
        """What the search does now."""
        self.text = text
        self.check()

    def check(self):
        """Tells or stops where it is time to."""
        now = self.clock()
        passed = now - self.start
        if self.limit is not None and passed > self.limit:
            raise search.OutOfTime(f'the limit of {self.limit:g} seconds has passed: {self.text}')
        if now - self.last >= QUIET:
            self.last = now
            print(f'certify: {self.text}, {passed:.0f} s', file=sys.stderr, flush=True)
