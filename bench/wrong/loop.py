"""Waits for sockets and for moments, whichever comes first, and goes on with what was to be done then."""
import heapq
import itertools
import select
import time


class Loop:
    def __init__(self):
        self.readers, self.writers = {}, {}
        self.moments, self.order = [], itertools.count()
        self.is_ended = False

    def after(self, seconds: float, step, *words) -> None:
        heapq.heappush(self.moments, (time.monotonic() + seconds, next(self.order), step, words))

    def forget_moments(self, step) -> None:
        """What was to be done by this step isn't done."""
        self.moments = [moment for moment in self.moments if moment[2] != step]
        heapq.heapify(self.moments)

    def forget(self, source) -> None:
        self.readers.pop(source, None)
        self.writers.pop(source, None)

    def run(self) -> None:
        while not self.is_ended:
            self.turn()

    def turn(self) -> None:
        wait = max(0.0, self.moments[0][0] - time.monotonic()) if self.moments else None
        readable, writable, _ = select.select(list(self.readers), list(self.writers), (), wait)
        for steps, sources in (self.readers, readable), (self.writers, writable):
            for source in sources:
                if source in steps:
                    steps[source]()
        now = time.monotonic()
        while self.moments and self.moments[0][0] <= now:
            _, _, step, words = heapq.heappop(self.moments)
            step(*words)
