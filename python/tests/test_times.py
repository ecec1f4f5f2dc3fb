"""What calls cost, compared with the interpreter's codecs, or with other calls of the package. WITHOUT_TIMES=1 in the environment leaves
these tests out: while other programs run they say little."""
import itertools
import math
import os
import time
import unittest

from noddychest import faults, is_valid, undecided_len

import outside
from test_codecs import HANDLERS

# The number of runs of a call, which is one if that takes a second; and the most seconds for all of them.
TURNS, LONG, SECONDS = 5, 1, 30


def setUpModule():
    if os.environ.get("WITHOUT_TIMES"):
        raise unittest.SkipTest("other programs are running")


def taken(work):
    """Seconds of the clock. (CPU time can be too small on a virtual machine, and a minimum keeps what is too small.)"""
    begun = time.perf_counter()
    work()
    return time.perf_counter() - begun


def ratio(ours, theirs, most):
    """The least time of ours, divided by the least time of theirs. Both run in turn, until the ratio is at most `most` or the time is over: other
    programs only ever add to a time."""
    least, begun = (math.inf, math.inf), time.monotonic()
    for turn in itertools.count(1):
        least = tuple(min(it, taken(work)) for it, work in zip(least, (ours, theirs)))
        passed = time.monotonic() - begun
        if (turn >= TURNS or passed > LONG) and (least[0] <= most * least[1] or passed > SECONDS):
            return least[0] / least[1]


class OwnHandlers(unittest.TestCase):
    """Damaged text takes at most three times as long as with the interpreter's codec."""

    def check_time(self, data, errors):
        found = ratio(lambda: data.decode("noddychest-utf8", errors), lambda: data.decode("utf-8", errors), 3)
        self.assertLessEqual(found, 3, (data[:20], errors))

    def test_dense_faults(self):
        for data in outside.DENSE:
            for errors in (*HANDLERS, "surrogateescape"):
                self.check_time(data, errors)

    def test_sparse_faults(self):
        for line in ("the quick brown fox ", "съешь же ещё ", "我能吞下玻璃", "Größe 漢字 😀 and words "):
            for every in (2, 4, 10, 30, 100, 1000, 10_000):
                data = outside.damaged(line.encode(), every, 300_000)
                for errors in ("ignore", "replace", "backslashreplace", "surrogateescape"):
                    self.check_time(data, errors)


class Faults(unittest.TestCase):
    def test_time(self):
        """At most 1.1 times validation on valid text, and 1.5 times with a fault every 10 kB."""
        for line, wrong, most in (("é", 0, 1.1), ("漢 a", 0, 1.1), ("é", 10_000, 1.5), ("漢 a", 10_000, 1.5)):
            size = 16 << 20 if wrong else 4 << 20
            valid = (line * size)[:size // len(line.encode())].encode()
            data = valid
            if wrong:
                data = bytearray(valid)
                data[::wrong] = b"\xff" * len(data[::wrong])
                data = bytes(data)
            # (Where the bytes are the same they lie in the same memory, since memory in larger pages is read faster.)
            found = ratio(lambda: sum(1 for _ in faults(data)), lambda: is_valid(valid), most)
            self.assertLessEqual(found, most, (line, wrong))


class Undecided(unittest.TestCase):
    def test_long_ones_take_no_longer(self):
        long = b"a" * 50_000_000 + b"\xe2\x82"
        self.assertEqual(undecided_len(long), 2)
        self.assertLess(min(taken(lambda: undecided_len(long)) for _ in range(3)), 0.001)
