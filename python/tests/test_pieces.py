"""Pieces, from both ends, and the calls about whole bytes."""
import collections.abc
import gc
import itertools
import os
import pickle
import random
import re
import sys
import unittest
import weakref

import noddychest
from noddychest import (Decoder, Ends, FaultKind, Piece, boundary_before, char_count, faults, first_fault, is_valid, pieces, stream_faults,
                        stream_pieces)

import outside

try:
    import _testcapi
except ImportError:
    _testcapi = None

# Each kind of fault of UTF-8, by hand from RFC 3629: bytes and the errors of their faults.
KINDS = [
    (b"\xe2\x82", ["TOO_FEW_BYTES", "UNEXPECTED_CONTINUATION_BYTE"]),
    (b"\xf0\x9f\x98", ["TOO_FEW_BYTES", "UNEXPECTED_CONTINUATION_BYTE", "UNEXPECTED_CONTINUATION_BYTE"]),
    (b"\xc0\xc1\xf5\xff", ["NON_UTF8_BYTE"] * 4),
    (b"\x80\xbf", ["UNEXPECTED_CONTINUATION_BYTE"] * 2),
    (b"\xc3a", ["INTERRUPTED_SEQUENCE"]),
    (b"\xe0\x9f\xbf", ["OVERLONG_ENCODING", "UNEXPECTED_CONTINUATION_BYTE", "UNEXPECTED_CONTINUATION_BYTE"]),
    (b"\xed\xa0\x80", ["UTF16_RESERVED_CODEPOINT", "UNEXPECTED_CONTINUATION_BYTE", "UNEXPECTED_CONTINUATION_BYTE"]),
    (b"\xf4\x90\x80\x80", ["TOO_HIGH_CODEPOINT"] + ["UNEXPECTED_CONTINUATION_BYTE"] * 3),
]
NAMES = {kind.name.replace("_", "").lower(): kind for kind in FaultKind}


def named(fields):
    """A piece as the repository's vectors write it: '3 1 InterruptedSequence', '4 2 0005ff' or 'none'."""
    if fields == "none":
        return None
    offset, length, it = fields.split()
    error = NAMES.get(it.lower())
    return Piece(int(offset), None if error else chr(int(it, 16)), int(length), error)


class Cut(unittest.TestCase):
    def test_example(self):
        data = b"h\xc3\xa9\xe2\x82A\xf0\x9f\x98\x80"
        expected = [
            (0, "h", 1, None),
            (1, "é", 2, None),
            (3, None, 1, FaultKind.INTERRUPTED_SEQUENCE),
            (4, None, 1, FaultKind.UNEXPECTED_CONTINUATION_BYTE),
            (5, "A", 1, None),
            (6, "😀", 4, None),
        ]
        self.assertEqual(list(pieces(data)), expected)
        self.assertEqual(list(reversed(pieces(data))), expected[::-1])

    def test_kinds(self):
        for data, names in KINDS:
            with self.subTest(data=data):
                self.assertEqual([piece.error.name for piece in pieces(data) if piece.error], names)
                self.assertEqual(first_fault(data).error.name, names[0])

    def test_all_short_inputs(self):
        for size in range(3):
            for data in map(bytes, itertools.product(range(256), repeat=size)):
                self.assertEqual([it[:3] for it in pieces(data)], outside.cut(data))

    def test_every_character(self):
        text = "".join(chr(scalar) for scalar in range(0x110000) if not 0xD800 <= scalar < 0xE000)
        found = list(pieces(text.encode()))
        self.assertEqual("".join(piece.char for piece in found), text)
        self.assertEqual({piece.error for piece in found}, {None})
        self.assertTrue(all(len(piece.char.encode()) == piece.length for piece in found))

    def test_random_inputs(self):
        for data in outside.inputs(5000, 40, seed=2):
            forward, expected = list(pieces(data)), outside.cut(data)
            self.assertEqual([it[:3] for it in forward], expected, data)
            self.assertEqual(list(reversed(pieces(data))), forward[::-1], data)
            faults = [it for it in forward if it.error]
            self.assertEqual(first_fault(data), faults[0] if faults else None)
            self.assertEqual(is_valid(data), not faults)
            self.assertEqual(char_count(data), len(outside.shown(data)))
            starts = {it.offset for it in forward} | {len(data)}
            for at in range(len(data) + 3):
                self.assertEqual(boundary_before(data, at), max(it for it in starts if it <= at))

    def test_vectors(self):
        rows = outside.rows("bytes.txt")
        if rows is None:
            self.skipTest("the vectors are in the repository")
        for data, forward, _, word, walked in rows:
            data = bytes.fromhex(data)
            self.assertEqual(list(pieces(data)), [named(it) for it in forward.split(";") if it], data)
            ends = Ends(data)
            answers = [next(ends, None) if letter == "F" else ends.next_back() for letter in word]
            self.assertEqual(answers, [named(it) for it in walked.split(";") if it], data)


class Sequence(unittest.TestCase):
    DATA = "aé€😀".encode() * 150 + b"\xff\xe2\x82" + b"plain" * 40

    def test_is_a_sequence(self):
        cut, expected = pieces(self.DATA), list(pieces(self.DATA))
        self.assertIsInstance(cut, collections.abc.Sequence)
        self.assertEqual(len(cut), len(expected))
        for at in range(-len(expected), len(expected)):
            self.assertEqual(cut[at], expected[at])
        for at in (len(expected), -len(expected) - 1):
            self.assertRaises(IndexError, cut.__getitem__, at)
        self.assertRaises(TypeError, cut.__getitem__, "1")
        self.assertIn(expected[70], cut)
        self.assertEqual(cut.index(expected[70]), 70)
        self.assertEqual(cut.count(expected[70]), 1)
        self.assertEqual(repr(cut), f"<Pieces of {len(self.DATA)} bytes>")

    def test_slices(self):
        cut, expected, source = pieces(self.DATA), list(pieces(self.DATA)), random.Random(3)
        for _ in range(2000):
            ends = [source.choice([None, source.randint(-900, 900)]) for _ in range(2)]
            at = slice(*ends, source.choice([None, 1, 2, 7, 100, -1, -3]))
            self.assertEqual(cut[at], expected[at], at)

    def test_empty(self):
        self.assertEqual((list(pieces(b"")), len(pieces(b"")), bool(pieces(b"")), pieces(b"")[:]), ([], 0, False, []))
        self.assertTrue(pieces(b"a"))
        self.assertRaises(IndexError, pieces(b"").__getitem__, 0)

    def test_two_at_a_time(self):
        cut = pieces(self.DATA)
        first, second = iter(cut), iter(cut)
        self.assertTrue(all(a == b for a, b in zip(first, second)))


class Tuples(unittest.TestCase):
    """Iterators put a piece into a tuple that nobody has any more: one that somebody has must stay."""

    DATA = "aé€😀\udcff".encode("utf-8", "surrogateescape") * 400

    def test_kept_pieces_stay(self):
        for make in (iter, reversed):
            kept = list(make(pieces(self.DATA)))
            again = []
            for piece in make(pieces(self.DATA)):
                again.append(piece)
            self.assertEqual(kept, again)
            self.assertEqual(len({id(it) for it in kept}), len(kept))

    def test_some_are_kept(self):
        for every in (2, 3, 5):
            kept = [piece for at, piece in enumerate(pieces(self.DATA)) if at % every == 0]
            self.assertEqual(kept, list(pieces(self.DATA))[::every])

    def test_hash(self):
        for piece, expected in zip(pieces(self.DATA), list(pieces(self.DATA))):
            self.assertEqual(hash(piece), hash(expected))

    def test_named(self):
        piece = next(iter(pieces("é".encode())))
        self.assertIs(type(piece), Piece)
        self.assertEqual(piece._asdict(), {"offset": 0, "char": "é", "length": 2, "error": None})
        self.assertEqual(pickle.loads(pickle.dumps(piece)), piece)
        offset, char, length, error = next(iter(pieces(b"\xff")))
        self.assertEqual((offset, char, length, error), (0, None, 1, FaultKind.NON_UTF8_BYTE))

    def test_nothing_leaks(self):
        def work():
            for make in (iter, reversed, Ends, lambda it: reversed(Ends(it))):
                data = self.DATA if make not in (iter, reversed) else pieces(self.DATA)
                list(make(data))
                next(make(data))
            pieces(self.DATA)[3:900:7]
            self.DATA.decode("noddychest-utf8", "ignore")
            recoder = noddychest.Recoder("utf8", "utf16le", "strict")
            self.assertRaises(noddychest.FaultError, recoder.feed, self.DATA)

        for _ in range(3):
            work()
        before = sys.getallocatedblocks()
        for _ in range(20):
            work()
        self.assertLess(sys.getallocatedblocks() - before, 200)


class BothEnds(unittest.TestCase):
    def test_in_any_order(self):
        source = random.Random(4)
        for data in outside.inputs(3000, 20, seed=5):
            expected, ends, front, back = outside.cut(data), Ends(data), [], []
            while ends.start < ends.end:
                if source.random() < 0.5:
                    front.append(next(ends))
                else:
                    back.insert(0, ends.next_back())
                self.assertEqual(ends.start, sum(it.length for it in front))
                self.assertEqual(ends.end, len(data) - sum(it.length for it in back))
            self.assertEqual([it[:3] for it in front + back], expected)
            self.assertIsNone(next(ends, None))
            self.assertIsNone(ends.next_back())

    def test_judged_by_what_is_left(self):
        ends = Ends(b"\xe2\x82A")
        self.assertEqual(ends.next_back().char, "A")
        self.assertEqual(next(ends).error, FaultKind.TOO_FEW_BYTES)
        self.assertEqual(next(iter(pieces(b"\xe2\x82A"))).error, FaultKind.INTERRUPTED_SEQUENCE)

    def test_reversed_takes_from_the_same(self):
        ends = Ends(b"abcd")
        back = reversed(ends)
        self.assertEqual([next(ends).char, next(back).char, next(back).char, next(ends).char], list("adcb"))
        self.assertIsNone(next(back, None))


class WantOfMemory(unittest.TestCase):
    @unittest.skipIf(_testcapi is None, "this Python has no _testcapi")
    def test_no_piece_is_lost(self):
        """Each allocation of the second step fails in turn. The iterator goes on where it was."""
        data = b"\xff\xfe\xfd"
        ways = {"pieces": lambda: iter(pieces(data)), "reversed": lambda: reversed(pieces(data)), "faults": lambda: faults(data),
                "Ends": lambda: Ends(data), "from the back": lambda: reversed(Ends(data))}
        for name, make in ways.items():
            want, raised = [it.offset for it in make()], 0
            for number in range(6):
                it = make()
                found, second = [next(it)], None
                try:
                    _testcapi.set_nomemory(number, number + 1)
                    try:
                        second = next(it)
                    finally:
                        _testcapi.remove_mem_hooks()
                except MemoryError:
                    raised += 1
                found += [second] if second else []
                self.assertEqual([piece.offset for piece in [*found, *it]], want, (name, number))
            self.assertGreater(raised, 0, name)


class Circles(unittest.TestCase):
    def test_are_collected(self):
        """Bytes that have an iterator over their own pieces go away, once nobody else has them."""
        ways = {"pieces": lambda it: iter(pieces(it)), "reversed": lambda it: reversed(pieces(it)), "faults": faults, "Ends": Ends,
                "feed": lambda it: Decoder().feed(it), "feed_faults": lambda it: Decoder().feed_faults(it),
                "stream_pieces": lambda it: stream_pieces([it]), "stream_faults": lambda it: stream_faults([it])}
        for name, make in ways.items():
            for steps in (0, 1):
                data = Owner(b"\xff" * 500)
                data.mine = make(data)
                self.assertEqual(len([*itertools.islice(data.mine, steps)]), steps)
                seen = weakref.ref(data)
                del data
                gc.collect()
                self.assertIsNone(seen(), name)


class Owner(bytearray):
    pass


class Errors(unittest.TestCase):
    def test_are_an_enum(self):
        self.assertEqual([kind.value for kind in FaultKind], list(range(1, 11)))
        self.assertEqual(len({kind.reason for kind in FaultKind}), 10)

    def test_reasons_are_those_of_the_library(self):
        """The package has no sentences of its own: they are in the proved code, and come by its call."""
        path = os.path.join(outside.TOP, "crates", "c_api", "src", "kinds.rt")
        if not os.path.exists(path):
            self.skipTest("the sentences are in the repository")
        with open(path, encoding="utf-8") as file:
            texts = [it.replace("\\0", "") for it in re.findall(r'text: \*b"(.*)"', file.read())]
        names = [text.lower() for text in texts[:12]]
        self.assertEqual([kind.reason for kind in FaultKind], texts[12:][1:11])
        self.assertEqual([kind.name.replace("_", "").lower() for kind in FaultKind], names[1:11])


if __name__ == "__main__":
    unittest.main()
