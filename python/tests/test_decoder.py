"""Pieces of input in parts, compared with a merger of the tests' own; and what parts, threads, copies and buffers may do to a Decoder."""
import array
import copy
import ctypes
import doctest
import gc
import io
import itertools
import mmap
import os
import pickle
import random
import sys
import tempfile
import threading
import time
import tracemalloc
import unittest

from noddychest import Decoder, FaultKind, faults, pieces, stream_faults, stream_pieces

import outside
from test_threads import run_all

try:
    import _testcapi
except ImportError:
    _testcapi = None

FORMS = {"utf8": "utf-8", "utf16le": "utf-16-le", "utf16be": "utf-16-be"}
UNITS = bytes.fromhex("00d8dcdb41dfe9")


class Merger:
    """Pieces of input that comes in parts, by the definitions: a character where the bytes are its code, as the interpreter has it, and
    else a fault, whose kind is the first of the table that applies, once so many bytes are there that it is clear."""

    def __init__(self, encoding, offset=0):
        self.encoding, self.offset, self.held = encoding, offset, b""

    def feed(self, part):
        return self._told(self.held + bytes(part), False)

    def finish(self):
        return self._told(self.held, True)

    def _told(self, data, ended):
        found, at = [], 0
        first = first_of_utf8 if self.encoding == "utf-8" else first_of_units
        while at < len(data):
            it = first(data[at:at + 4], self.encoding, ended)
            if it is None:
                break
            found.append((self.offset + at, *it))
            at += it[1]
        self.offset, self.held = self.offset + at, data[at:]
        return found


def first_of_utf8(front, encoding, ended):
    lead = front[0]
    need = 1 if lead < 0x80 else 2 if 0xC2 <= lead <= 0xDF else 3 if 0xE0 <= lead <= 0xEF else 4 if 0xF0 <= lead <= 0xF4 else 0
    if need == 0:
        return None, 1, FaultKind.UNEXPECTED_CONTINUATION_BYTE if lead < 0xC0 else FaultKind.NON_UTF8_BYTE
    if any(not 0x80 <= it <= 0xBF for it in front[1:need]):
        return None, 1, FaultKind.INTERRUPTED_SEQUENCE
    if len(front) < need:
        return (None, 1, FaultKind.TOO_FEW_BYTES) if ended else None
    try:
        return front[:need].decode(encoding), need, None
    except UnicodeDecodeError:
        kinds = {0xED: FaultKind.UTF16_RESERVED_CODEPOINT, 0xF4: FaultKind.TOO_HIGH_CODEPOINT}
        return None, 1, kinds.get(lead, FaultKind.OVERLONG_ENCODING)


def first_of_units(front, encoding, ended):
    units = [int.from_bytes(front[at:at + 2], "little" if encoding == "utf-16-le" else "big") for at in (0, 2)]
    if len(front) < 2 or 0xD800 <= units[0] < 0xDC00 and len(front) < 4:
        return (None, min(len(front), 2), FaultKind.INCOMPLETE) if ended else None
    if 0xDC00 <= units[0] < 0xE000:
        return None, 2, FaultKind.UNEXPECTED_TRAILING_SURROGATE
    if 0xD800 <= units[0] < 0xDC00:
        pair = 0xDC00 <= units[1] < 0xE000
        return (front.decode(encoding), 4, None) if pair else (None, 2, FaultKind.UNMATCHED_LEADING_SURROGATE)
    return front[:2].decode(encoding), 2, None


def short_inputs():
    """Each word of up to three bytes near which the rules change, and some longer ones."""
    for size in (1, 2, 3):
        yield from (("utf8", bytes(it)) for it in itertools.product(b"A\x80\xa0\xbf\xc3\xe0\xe2\xed\xf0\xf4\xff", repeat=size))
    source = random.Random(30)
    for _ in range(500):
        yield "utf8", bytes(source.choice(b"A\x80\x80\x8f\x90\xa0\xc3\xe0\xe2\xed\xf0\xf4\xff") for _ in range(source.randint(4, 8)))
        yield source.choice(["utf16le", "utf16be"]), bytes(source.choice(UNITS) for _ in range(source.randint(1, 9)))


def parts_of(data, cuts):
    return [data[a:b] for a, b in zip([0, *cuts], [*cuts, len(data)])]


def random_parts(data, source):
    at = 0
    while at < len(data):
        size = source.choice([0, 1, 2, 3, 4, 5, 17, 255, 256, 257, 1024, 1025, 5000, 40_000])
        yield data[at:at + size]
        at += size


class InParts(unittest.TestCase):
    def check(self, form, parts, offset=0):
        """A decoder gives what the merger gives, part by part, and holds the same; so do one that is asked for faults, and one that is
        asked for one or the other or nothing."""
        merger, decoder, for_faults, mixed = Merger(FORMS[form], offset), *(Decoder(form, offset) for _ in range(3))
        for turn, part in enumerate(parts):
            want = merger.feed(part)
            wrong = [it for it in want if it[3]]
            self.assertEqual([*decoder.feed(part)], want, (form, parts))
            self.assertEqual([*for_faults.feed_faults(part)], wrong, (form, parts))
            if turn % 3 == 0:
                mixed.feed(part)
            elif turn % 3 == 1:
                self.assertEqual([*mixed.feed(part)], want, (form, parts))
            else:
                self.assertEqual([*mixed.feed_faults(part)], wrong, (form, parts))
            for it in (decoder, for_faults, mixed):
                self.assertEqual((it.offset, it.held), (merger.offset, merger.held), (form, parts))
        want = merger.finish()
        for it in (decoder, for_faults, mixed):
            self.assertEqual((it.finish(), it.offset, it.held, it.finish()), (want, merger.offset, b"", []), (form, parts))

    def test_each_cut_of_short_inputs(self):
        for form, data in short_inputs():
            for cuts in itertools.combinations_with_replacement(range(len(data) + 1), 2):
                self.check(form, parts_of(data, cuts))

    def test_byte_by_byte(self):
        for form, data in short_inputs():
            self.check(form, [data[at:at + 1] for at in range(len(data))])

    def test_random_parts_of_long_inputs(self):
        source = random.Random(31)
        for data in outside.inputs(30, 30_000, seed=32):
            for form in FORMS:
                self.check(form, list(random_parts(data, source)))
        for data in (b"\xff" * 3000, b"\xf0\x9f\x98" * 2000, b"\0\xd8" * 3001 + b"\0", bytes(range(256)) * 40):
            for form in FORMS:
                self.check(form, list(random_parts(data, source)))

    def test_as_pieces_of_the_whole(self):
        """But for one kind at the end: too few bytes are an interrupted sequence, if one of them is no continuation byte."""
        source, seen = random.Random(33), set()
        for form, data in itertools.chain(short_inputs(), (("utf8", it) for it in outside.inputs(300, 300, seed=34))):
            decoder, have = Decoder(form), []
            for part in random_parts(data, source):
                have += decoder.feed(part)
            for mine, whole in itertools.zip_longest(have + decoder.finish(), pieces(data, form)):
                self.assertEqual(mine[:3], whole[:3])
                if mine.error is not whole.error:
                    seen.add((mine.error, whole.error))
                    self.assertGreater(mine.offset + 4, len(data))
        self.assertEqual(seen, {(FaultKind.INTERRUPTED_SEQUENCE, FaultKind.TOO_FEW_BYTES)})

    def test_goes_on_after_the_end(self):
        decoder = Decoder()
        self.assertEqual([*decoder.feed(b"\xe2"), *decoder.finish()], [(0, None, 1, FaultKind.TOO_FEW_BYTES)])
        self.assertEqual([*decoder.feed(b"\x82")], [(1, None, 1, FaultKind.UNEXPECTED_CONTINUATION_BYTE)])
        self.assertEqual((decoder.offset, decoder.held), (2, b""))

    def test_encodings(self):
        for form, encoding in FORMS.items():
            for name in (form, encoding, encoding.upper()):
                self.assertEqual(Decoder(name).encoding, encoding)
                self.assertEqual("".join(it.char for it in Decoder(name).feed("né😀".encode(encoding))), "né😀")
        self.assertEqual([Decoder(*it).encoding for it in ([], ["UTF-16"], ["unicodefffe"])], ["utf-8", "utf-16-le", "utf-16-be"])
        for wrong in ("utf7", "", None, 8, b"utf8", [97]):
            for make in (Decoder, lambda it: stream_pieces([], it), lambda it: stream_faults([], it)):
                self.assertRaises(LookupError, make, wrong)
        for name in ("encoding", "offset", "held"):
            self.assertRaises(AttributeError, setattr, Decoder(), name, 1)


class Offsets(unittest.TestCase):
    def test_far_ones(self):
        for offset in (2**31 - 2, 2**32 - 2, 2**32 - 1, 2**53, 2**63 - 3, 2**64 - 9):
            for data in (b"a\xff\xe2\x82\xac\xf0\x9f", b"\xf0\x9f\x98\x80\xed\xa0\x80", b"\0\xd8\0\xdca"):
                for form in FORMS:
                    for cuts in ([3], [1, 4], range(1, len(data))):
                        InParts.check(self, form, parts_of(data, cuts), offset)
        self.assertEqual([it.offset for it in Decoder(offset=2**64 - 1).feed(b"ab\xff")], [2**64 - 1, 0, 1])

    def test_wrong_ones(self):
        for wrong in (-1, 2**64, -2**64, 10**30):
            self.assertRaises(ValueError, Decoder, "utf8", wrong)
        for wrong in (1.5, "1", None):
            self.assertRaises(TypeError, Decoder, "utf8", wrong)

    def test_so_many_bytes_are_fed(self):
        """More than 2**32 bytes in parts of 64 MB, with faults near each multiple of it."""
        size = 1 << 26
        decoder, zeros, far = Decoder(), bytes(size), 1 << 32
        for at in range(0, far - size, size):
            self.assertEqual(next(decoder.feed_faults(zeros) if at % 2**30 else decoder.feed(zeros), None) is None, bool(at % 2**30))
        self.assertEqual([*decoder.feed_faults(memoryview(zeros)[:-1])], [])
        self.assertEqual(decoder.offset, far - 1)
        found = [*decoder.feed_faults(b"\xe2\x82"), *decoder.feed(b"\xac\xff"), *decoder.feed_faults(b"a\xff\xf0")]
        wrong = [(far + at, None, 1, FaultKind.NON_UTF8_BYTE) for at in (2, 4)]
        self.assertEqual(found, [(far - 1, "€", 3, None), *wrong])
        self.assertEqual((decoder.finish(), decoder.offset), ([(far + 5, None, 1, FaultKind.TOO_FEW_BYTES)], far + 6))

    def test_one_part_of_so_many_bytes(self):
        size = (1 << 32) + 5
        try:
            zeros = mmap.mmap(-1, size, flags=mmap.MAP_PRIVATE | mmap.MAP_ANONYMOUS, prot=mmap.PROT_READ | mmap.PROT_WRITE)
        except OSError as error:
            self.skipTest(str(error))
        zeros[size - 4:size] = b"\xff\xff\xe2\x82"
        decoder, begun = Decoder(), time.process_time()
        later = decoder.feed(zeros)
        self.assertLess(time.process_time() - begun, 0.1, "feed itself reads only the end")
        self.assertEqual((decoder.offset, decoder.held), (size - 2, b"\xe2\x82"))
        self.assertEqual([*decoder.feed(b"\xac")], [(size - 2, "€", 3, None)])
        self.assertEqual([it.offset for it in itertools.islice(later, 3)], [0, 1, 2])
        del later
        zeros.close()


class Iterators(unittest.TestCase):
    """What becomes of an iterator that is left, kept, or asked for more."""

    def test_they_go_on_by_themselves(self):
        data = "aé€😀".encode() * 300 + b"\xff\xe2"
        for form in FORMS:
            merger, decoder = Merger(FORMS[form]), Decoder(form)
            parts = list(random_parts(data, random.Random(35))) + [data]
            want = [merger.feed(it) for it in parts]
            have = [decoder.feed(it) for it in parts]
            self.assertEqual(decoder.finish(), merger.finish())
            self.assertEqual([[*it] for it in reversed(have)], want[::-1])

    def test_one_that_is_left(self):
        decoder = Decoder()
        self.assertEqual(next(decoder.feed(b"abc\xe2")).char, "a")
        self.assertEqual([*decoder.feed(b"\x82\xacd")], [(3, "€", 3, None), (6, "d", 1, None)])

    def test_they_stay_ended(self):
        for it in (Decoder().feed(b"a\xe2"), Decoder().feed_faults(b"a\xff\xe2"), Decoder().feed(b""), Decoder().feed_faults(b"\xe2\x82")):
            list(it)
            self.assertEqual([next(it, None) for _ in range(3)], [None] * 3)

    def test_pieces_that_are_kept(self):
        """A piece is put into the tuple of an older one only where nobody has that any more."""
        data = "añ€😀".encode() * 100 + b"\xff\xe2A!"
        self.assertEqual([*Decoder().feed(data)], [*pieces(data)])
        kept = [it for at, it in enumerate(Decoder().feed(data)) if at % 3]
        self.assertEqual(kept, [it for at, it in enumerate(pieces(data)) if at % 3])

    def test_no_copies(self):
        for it in (Decoder().feed(b"a"), Decoder().feed_faults(b"\xff")):
            self.assertRaises(TypeError, copy.copy, it)
            self.assertRaises(TypeError, pickle.dumps, it)

    def test_wrong_calls_of_the_extension(self):
        from noddychest import Piece, _noddychest
        from noddychest._pieces import ERRORS

        part = _noddychest.Part(0, b"ab", Piece, ERRORS)
        self.assertEqual([*part], [])
        for wrong in ((0, 0, b""), (4, 0, b""), (1, -1, b""), (1, 0, b"ab"), (1, 0, b"\xe2\x82\xac"), (1, 2**64, b"")):
            self.assertRaises((ValueError, OverflowError), part.begin, *wrong)
        self.assertRaises(TypeError, part.begin, 1, "0", b"")
        self.assertRaises(TypeError, part.begin, 1, 0, bytearray(b"\xe2"))
        self.assertEqual((part.begin(1, 5, b"\xe2"), [*part][1]), ((8, b""), (6, "a", 1, None)))
        self.assertRaises(ValueError, part.begin, 1, 0, b"")
        self.assertRaises(TypeError, _noddychest.Part, 0, b"", int, ERRORS)
        self.assertRaises(TypeError, _noddychest.Part, 0, b"", Piece, ())
        self.assertRaises(ValueError, _noddychest.Part, 3, b"", Piece, ERRORS)


class Threads(unittest.TestCase):
    def test_one_call_at_a_time(self):
        decoder = Decoder()
        decoder.feed(b"a\xe2")
        decoder._turn.take(self.refuses, decoder)
        self.assertEqual([*decoder.feed(b"\x82\xac")], [(1, "€", 3, None)])

    def refuses(self, decoder):
        for call in (lambda: decoder.feed(b"b"), lambda: decoder.feed_faults(b"b"), decoder.finish):
            with self.assertRaisesRegex(RuntimeError, "in use by another call"):
                call()
        self.assertEqual((decoder.offset, decoder.held), (1, b"\xe2"))
        self.assertEqual(copy.copy(decoder).finish(), [(1, None, 1, FaultKind.TOO_FEW_BYTES)])

    def test_threads_that_share_a_decoder(self):
        """Each call reads all of its part, at an offset that no other has, or raises RuntimeError and reads nothing."""
        self.addCleanup(sys.setswitchinterval, sys.getswitchinterval())
        sys.setswitchinterval(1e-6)
        decoder, got, refused, end = Decoder(), [], [], time.monotonic() + 20

        def work():
            source = random.Random(threading.get_ident())
            while (len(refused) < 5 or len(got) < 2000) and time.monotonic() < end:
                part = "é".encode() * source.choice([1, 2, 100, 3000])
                try:
                    found = decoder.feed(part) if source.randrange(2) else decoder.feed_faults(part + b"\xff")
                    got.append([it.offset for it in found])
                except RuntimeError as error:
                    self.assertIn("in use by another call", str(error))
                    refused.append(1)

        run_all([work] * 4)
        offsets = sorted(itertools.chain.from_iterable(got))
        self.assertEqual(len(offsets), len(set(offsets)))
        self.assertEqual((decoder.held, decoder.offset >= offsets[-1] + 1), (b"", True))
        self.assertGreaterEqual(len(got), 2000)

    def test_threads_that_share_an_iterator(self):
        """No piece is lost, and none comes twice; while one looks for the next fault, others are rejected."""
        self.share(b"\xff" * 30_000)
        self.assertTrue(any(self.share((b"a" * 1_000_000 + b"\xff") * 30) for _ in range(100)))

    def share(self, data):
        found, refused, running = [], [], Decoder().feed_faults(data)

        def work():
            while True:
                try:
                    found.append(next(running).offset)
                except StopIteration:
                    return
                except RuntimeError as error:
                    self.assertIn("in use by another call", str(error))
                    refused.append(1)

        run_all([work] * 4)
        self.assertEqual(sorted(found), [it.offset for it in faults(data)])
        return refused

    @unittest.skipIf(sys.version_info < (3, 12), "__buffer__ is called from Python 3.12 on")
    def test_buffers_that_feed(self):
        for name in ("feed", "feed_faults"):
            decoder, inner = Decoder(), []
            feed = getattr(decoder, name)

            class Feeding:
                def __buffer__(self, flags):
                    inner.append([it.offset for it in feed(b"\xff\xc3")])
                    return memoryview(b"\xa9\xff")

                def __release_buffer__(self, view):
                    inner.append([it.offset for it in feed(b"\xff")])
                    inner.append(next(running, None))

            running = feed(Feeding())
            self.assertEqual([it.offset for it in running], [1, 3] if name == "feed" else [3])
            self.assertEqual((inner, decoder.offset), ([[0], [4], None], 5))

    @unittest.skipIf(sys.version_info < (3, 12), "__buffer__ is called from Python 3.12 on")
    def test_buffers_that_fail(self):
        class Failing:
            def __buffer__(self, flags):
                raise ZeroDivisionError

        decoder = Decoder()
        decoder.feed(b"\xc3")
        self.assertRaises(ZeroDivisionError, decoder.feed, Failing())
        self.assertRaises(ZeroDivisionError, decoder.feed_faults, Failing())
        self.assertEqual([*decoder.feed(b"\xa9")], [(0, "é", 2, None)])

    def test_collections_that_feed(self):
        """A collection of garbage may run code that goes on with the same iterator, or feeds the same decoder."""
        decoder, taken = Decoder(), []
        running = decoder.feed(b"a" * 3000)

        class Feeding:
            def __del__(self):
                for call in (lambda: taken.append(next(running)), lambda: taken.extend(decoder.feed(b"b"))):
                    try:
                        call()
                    except (RuntimeError, StopIteration):
                        pass

        for _ in range(200):
            it = Feeding()
            it.itself = it
        del it
        self.addCleanup(gc.set_threshold, *gc.get_threshold())
        gc.set_threshold(1)
        taken += running
        self.assertEqual(sorted(it.offset for it in taken if it.char == "a"), list(range(3000)))


class Copies(unittest.TestCase):
    def ways(self):
        pickled = [lambda it, at=at: pickle.loads(pickle.dumps(it, at)) for at in range(pickle.HIGHEST_PROTOCOL + 1)]
        return [copy.copy, copy.deepcopy, *pickled]

    def test_are_apart(self):
        for way in self.ways():
            decoder = Decoder("utf16be", 2**40)
            decoder.feed(b"\0a\xd8\x3d\xde")
            other = way(decoder)
            self.assertEqual((other.encoding, other.offset, other.held), ("utf-16-be", 2**40 + 2, b"\xd8\x3d\xde"))
            self.assertEqual([*decoder.feed(b"\0")], [(2**40 + 2, "😀", 4, None)])
            at = 2**40 + 2
            self.assertEqual(other.finish(), [(at, None, 2, FaultKind.INCOMPLETE), (at + 2, None, 1, FaultKind.INCOMPLETE)])

    def test_of_each_state(self):
        for held in (b"", b"\xc3", b"\xe0\x80", b"\xf4\x90\x80", b"\xf0\x9f\x98", b"\xed\xa0"):
            decoder = Decoder(offset=7)
            decoder.feed(b"ab" + held)
            for way in self.ways():
                other = way(decoder)
                self.assertEqual((other.offset, other.held), (9, held))
                self.assertEqual([*other.feed(b"\x80A"), *other.finish()], [*way(decoder).feed(b"\x80A")])

    def test_of_subclasses(self):
        decoder = Named()
        decoder.name = "one"
        decoder.feed(b"\xe2\x82")
        for way in self.ways():
            other = way(decoder)
            self.assertEqual((type(other), other.name, [*other.feed(b"\xac")]), (Named, "one", [(0, "€", 3, None)]))

    def test_wrong_states_are_refused(self):
        for form, offset, held in ((0, 0, b"a"), (0, 0, b"\xff"), (0, 0, b"\xe2\x82\xac"), (0, 0, b"\xf0\x9f\x98\x80"), (0, -1, b""),
                                   (0, 2**64, b""), (1, 0, b"ab"), (1, 0, b"\0\xd8ab"), (3, 0, b""), (-1, 0, b"")):
            with self.assertRaises(ValueError):
                Decoder.__new__(Decoder).__setstate__((form, offset, held, None))
        for wrong in ((0, "1", b"", None), (0, 0, "", None), ("utf8", 0, b"", None)):
            self.assertRaises(TypeError, Decoder.__new__(Decoder).__setstate__, wrong)
        for call in (lambda it: it.feed(b"a"), lambda it: it.finish(), lambda it: it.offset, copy.copy):
            self.assertRaises(AttributeError, call, Decoder.__new__(Decoder))


class Named(Decoder):
    name = ""


class Buffers(unittest.TestCase):
    def test_each_is_taken(self):
        data = "Größe: 4 €".encode() + b"\xff!"
        with tempfile.TemporaryFile() as file:
            file.write(data)
            file.flush()
            mapped = mmap.mmap(file.fileno(), len(data), access=mmap.ACCESS_READ)
            for it in (bytearray(data), memoryview(data), memoryview(bytearray(data)).toreadonly(), array.array("b", data),
                       (ctypes.c_char * len(data)).from_buffer_copy(data), mapped, memoryview(b"_" + data)[1:]):
                with self.subTest(type=type(it)):
                    self.assertEqual([*Decoder().feed(it)], [*pieces(data)])
                    self.assertEqual([*Decoder().feed_faults(it)], [*faults(data)])
            mapped.close()

    def test_wider_items_count_in_bytes(self):
        for code in "HILQd":
            wide = array.array(code, b"abcdefg\xff" * 4)
            for it in (wide, memoryview(wide), memoryview(bytes(wide)).cast(code)):
                self.assertEqual([*Decoder().feed(it)], [*pieces(bytes(wide))])
                self.assertEqual([it.offset for it in Decoder().feed_faults(it)], [7, 15, 23, 31])

    def test_empty_ones(self):
        for it in (b"", bytearray(), memoryview(b""), array.array("I"), memoryview(array.array("Q"))):
            decoder = Decoder()
            decoder.feed(b"\xc3")
            self.assertEqual(([*decoder.feed(it)], [*decoder.feed_faults(it)], decoder.held), ([], [], b"\xc3"))

    def test_others_are_refused_and_nothing_is_lost(self):
        decoder = Decoder()
        decoder.feed(b"\xc3")
        gone = memoryview(b"abc")
        gone.release()
        for feed in (decoder.feed, decoder.feed_faults):
            for it in ("text", "", 5, None, [97], object()):
                with self.subTest(it=it), self.assertRaisesRegex(TypeError, "bytes-like object"):
                    feed(it)
            for it in (memoryview(b"abcdef")[::2], memoryview(b"abcdef")[::-1]):
                with self.assertRaisesRegex(BufferError, "contiguous"):
                    feed(it)
            self.assertRaises(ValueError, feed, gone)
        self.assertEqual([*decoder.feed(b"\xa9")], [(0, "é", 2, None)])

    def test_bytes_cannot_go_away(self):
        for name in ("feed", "feed_faults"):
            data, decoder = bytearray(b"\xff" * 1000), Decoder()
            running = getattr(decoder, name)(data)
            next(running)
            self.assertRaises(BufferError, data.clear)
            self.assertEqual(len([*running]), 999)
            data.clear()  # (an iterator that has ended lets it go)
            data += b"\xff"
            left = getattr(decoder, name)(data)
            self.assertRaises(BufferError, data.clear)
            del left
            data.clear()
            mapped = mmap.mmap(-1, 1000)
            running = getattr(decoder, name)(mapped)
            self.assertRaises(BufferError, mapped.close)
            [*running]
            mapped.close()

    def test_temporary_bytes_live_on(self):
        running = Decoder().feed(bytes(bytearray(b"xyz" * 1000)))
        others = [bytes([at % 256]) * 3000 for at in range(200)]
        self.assertEqual("".join(it.char for it in running), "xyz" * 1000)
        del others

    def test_one_buffer_that_is_filled_again(self):
        data = "aé€😀".encode() * 500 + b"\xff"
        file, room, decoder, have = io.BytesIO(data), bytearray(101), Decoder(), []
        for size in iter(lambda: file.readinto(room), 0):
            have += decoder.feed(memoryview(room)[:size])
        self.assertEqual(have, [*pieces(data)])

    def test_bytes_that_change(self):
        """Of bytes that are changed before their pieces are asked for the pieces are of no use; those of the next parts are right."""
        source, size = random.Random(36), 50_000
        for form in FORMS:
            for text in (b"a", b"\xff", "€".encode(), b"\0\xd8", b"\xf0"):
                data, decoder = bytearray((text * size)[:size]), Decoder(form)
                found = [decoder.feed(data), decoder.feed_faults(data)]
                decoder.finish()
                for it in found:
                    for _ in range(100):
                        next(it, None)
                        at = source.randrange(size - 300)
                        data[at:at + 300] = bytes(source.choice(outside.EDGES) for _ in range(300))
                    data[:] = bytes(source.choice(outside.EDGES) for _ in range(size))
                    self.assertTrue(all(piece.offset < 2 * size for piece in it))
                self.assertEqual([it.offset for it in decoder.feed(b"\xff\xff")][0], 2 * size)


class Memory(unittest.TestCase):
    def test_pieces_are_made_when_they_are_asked_for(self):
        for data in (b"a\xff" * (4 << 20), bytearray(b"\xff" * (4 << 20))):
            for name in ("feed", "feed_faults"):
                decoder = Decoder()
                tracemalloc.start()
                count = sum(1 for _ in itertools.islice(getattr(decoder, name)(data), 200_000))
                peak = tracemalloc.get_traced_memory()[1]
                tracemalloc.stop()
                self.assertEqual((count, peak < 24_000), (200_000, True), (name, peak))

    @unittest.skipIf(_testcapi is None, "this Python has no _testcapi")
    def test_want_of_memory(self):
        """Each allocation fails in turn. A call that raises has read nothing, and an iterator goes on where it was."""
        data, merger = b"\xacn\xff" + "é😀".encode() + b"\xe2\x82", Merger("utf-8")
        want = merger.feed(b"\xe2\x82") + merger.feed(data)
        for it in (data, bytearray(data)):
            for name in ("feed", "feed_faults"):
                failed = [self.one_fails(name, it, want if name == "feed" else [it for it in want if it[3]], at) for at in range(40)]
                self.assertEqual((failed[0] > 1, failed[-1]), (True, 0))

    def one_fails(self, name, data, want, at):
        """In how many calls the allocation of this number failed."""
        decoder, found, failed = Decoder(), [], 0
        decoder.feed(b"\xe2\x82")
        running, which = self.again(lambda: getattr(decoder, name)(data), at)
        failed += which
        while True:
            piece, which = self.again(lambda: next(running, None), at)
            failed += which
            if piece is None:
                break
            found.append(piece)
        self.assertEqual((found, decoder.offset, decoder.held), (want, 11, b"\xe2\x82"), (name, at))
        last, which = self.again(decoder.finish, at)
        self.assertEqual(([it.offset for it in last], decoder.offset), ([11, 12], 13))
        return failed + which

    def again(self, call, at):
        """What a call returns, and whether its allocation had failed before."""
        for failed in (0, 1):
            try:
                if not failed:
                    _testcapi.set_nomemory(at, at + 1)
                try:
                    made = call()
                finally:
                    _testcapi.remove_mem_hooks()
                return made, failed
            except MemoryError:
                pass
        raise AssertionError("it failed twice")


class Streams(unittest.TestCase):
    def test_whatever_is_read(self):
        data = "aé€😀".encode() * 60_000 + b"\xff\xe2\x82"
        with tempfile.TemporaryDirectory() as folder:
            path = os.path.join(folder, "text")
            with open(path, "wb") as file:
                file.write(data)
            for make in (lambda: open(path, "rb"), lambda: open(path, "rb", buffering=0), lambda: open(path, "r+b"), lambda: io.BytesIO(data)):
                with make() as file:
                    self.assertEqual([*stream_pieces(file)], [*pieces(data)])
                with make() as file:
                    self.assertEqual([*stream_faults(file)], [*faults(data)])
            with open(path, "rb") as file, mmap.mmap(file.fileno(), 0, access=mmap.ACCESS_READ) as mapped:
                self.assertEqual([*stream_faults(mapped)], [*faults(data)])
        for parts in ([data], (bytearray(data[at:at + 7]) for at in range(0, len(data), 7)), random_parts(data, random.Random(37))):
            self.assertEqual([*stream_pieces(parts)], [*pieces(data)])
        for form, encoding in FORMS.items():
            parts = random_parts("aé😀".encode(encoding) * 900, random.Random(38))
            self.assertEqual("".join(it.char for it in stream_pieces(parts, form)), "aé😀" * 900)
        self.assertEqual(([*stream_pieces([])], [*stream_faults([b"", b""])], [*stream_pieces(io.BytesIO())]), ([], [], []))

    def test_what_is_there_is_given_at_once(self):
        reading, writing = os.pipe()
        with open(reading, "rb") as file, open(writing, "wb", buffering=0) as other:
            found = stream_pieces(file)
            wrong = (4, None, 1, FaultKind.INTERRUPTED_SEQUENCE)
            for part, want in ((b"a\xe2", (0, "a", 1, None)), (b"\x82\xac\xf0", (1, "€", 3, None)), (b"!", wrong)):
                other.write(part)
                self.assertEqual(next(found), want)
            other.close()
            self.assertEqual([*found], [(5, "!", 1, None)])

    def test_parts_are_asked_for_one_by_one(self):
        asked = []

        def parts():
            for part in (b"ab", b"c", b"d\xff"):
                asked.append(part)
                yield part

        found = stream_pieces(parts())
        for char, count in (("a", 1), ("b", 1), ("c", 2), ("d", 3)):
            self.assertEqual((next(found).char, len(asked)), (char, count))

    def test_what_is_raised(self):
        def failing():
            yield b"a"
            raise ZeroDivisionError

        for stream in (stream_pieces, stream_faults):
            self.assertRaises(ZeroDivisionError, list, stream(failing()))
            for wrong in (5, None):
                self.assertRaises(TypeError, stream, wrong)
            for wrong in (b"abc", ["text"], io.StringIO("text"), [97]):
                with self.assertRaisesRegex(TypeError, "bytes-like object"):
                    list(stream(wrong))


class OneStepAtATime(unittest.TestCase):
    """A stream whose step is asked for while another one goes on."""

    def test_file_that_asks_for_pieces(self):
        for stream in (stream_pieces, stream_faults):
            for last in (b"", None):
                file = Asking(last)
                file.pieces = stream(file)
                found = [*itertools.islice(file.pieces, 2)]
                self.assertEqual(([it.offset for it in found], file.refused), ([0, 1], 1))
                if last is None:
                    self.assertRaises(BlockingIOError, next, file.pieces)
                    file.left.append(b"")
                self.assertEqual(([*file.pieces], file.refused), ([], 2 if last is not None else 3))

    def test_parts_that_ask_for_pieces(self):
        def parts():
            for part in (b"a", b"b"):
                self.assertRaises(RuntimeError, next, found[0])
                yield part
            self.assertRaises(RuntimeError, list, found[0])

        found = []
        found.append(stream_pieces(parts()))
        self.assertEqual("".join(it.char for it in found[0]), "ab")

    def test_threads_that_share_one(self):
        """While one waits for the file, another one is rejected; no piece is lost, and none comes twice."""
        for stream in (stream_pieces, stream_faults):
            file = Waiting([b"\xff" * 5] * 20)
            found, offsets = stream(file), []

            def take():
                while True:
                    try:
                        piece = next(found, None)
                    except RuntimeError:
                        time.sleep(0)
                        continue
                    if piece is None:
                        return
                    offsets.append(piece.offset)

            run_all([take] * 4)
            self.assertEqual((sorted(offsets), file.most), ([*range(100)], 1))


class Asking:
    """A file that asks for a piece of its own text whenever it is read."""

    def __init__(self, last):
        self.left, self.refused = [b"\xff\xff", last], 0

    def read(self, _):
        try:
            next(self.pieces)
        except RuntimeError:
            self.refused += 1
        return self.left.pop(0)


class Waiting:
    """A file that takes its time, and counts how many read it concurrently."""

    def __init__(self, left):
        self.left, self.at_once, self.most = left, 0, 0

    def read(self, _):
        self.at_once += 1
        self.most = max(self.most, self.at_once)
        time.sleep(0.002)
        self.at_once -= 1
        return self.left.pop(0) if self.left else b""


class Examples(unittest.TestCase):
    def test_of_methods(self):
        """(Those of classes and functions are run with the modules.)"""
        names, runner = {"Decoder": Decoder}, doctest.DocTestRunner()
        for it in (Decoder.feed, Decoder.feed_faults):
            example, = doctest.DocTestFinder().find(it, it.__name__, globs=dict(names))
            self.assertEqual((runner.run(example).failed, len(example.examples) > 1), (0, True))


if __name__ == "__main__":
    unittest.main()
