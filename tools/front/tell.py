"""What is said on standard error beside the answer: complaints, and how far a long reading is."""

import sys
import time

EVERY = 5  # seconds


def complain(words):
    print(f'judge: {words}', file=sys.stderr, flush=True)


class Progress:
    """Told of bytes that were read, of so many in all, it says how far the work is, first after some seconds. What is read twice counts twice."""

    def __init__(self, what, size):
        self.what, self.size, self.done, self.next = what, size, 0, time.monotonic() + EVERY

    def __call__(self, count):
        self.done += count
        now = time.monotonic()
        if now >= self.next:
            self.next = now + EVERY
            complain(f'{self.what}: {100 * self.done // max(self.size, 1)} %')
