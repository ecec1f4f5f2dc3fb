"""Lines and columns of invalid bytes: those of Python's own decoders, however the input is divided, and whoever asks."""
import array
import asyncio
import copy
import gc
import io
import pickle
import random
import sys
import threading
import unittest

from noddychest import Decoder, FaultKind, Located, faults, located, parallel, shards, stream_faults, stream_located

import outside

try:
    import _testcapi
except ImportError:
    _testcapi = None

FORMS = {"utf8": ("utf-8", "surrogateescape"), "utf16le": ("utf-16-le", "surrogatepass"), "utf16be": ("utf-16-be", "surrogatepass")}


def position(data, offset, form):
    """The line and the columns of an offset, by Python's decoder: it makes one surrogate of each invalid byte, and of each lone surrogate."""
    encoding, errors = FORMS[form]
    text = data[:offset].decode(encoding, errors)
    line = text[text.rfind("\n") + 1 :]
    return text.count("\n") + 1, len(line) + 1, len(line.encode(encoding, errors)) + 1


def expected(data, form, found):
    return [Located(it.offset, *position(data, it.offset, form), it.length, it.error) for it in found]


def with_lines(data, form, source):
    """Puts line feeds into data, at whole units."""
    feed = {"utf8": b"\n", "utf16le": b"\n\0", "utf16be": b"\0\n"}[form]
    made, at = bytearray(data), 0
    while at <= len(made):
        made[at:at] = feed
        at += len(feed) * (1 + source.randrange(9))
    return bytes(made)


class Positions(unittest.TestCase):
    def test_random_bytes(self):
        source = random.Random(91)
        for data in outside.inputs(1500, 40, seed=92):
            for form in FORMS:
                whole = with_lines(data, form, source)
                self.assertEqual(list(located(whole, form)), expected(whole, form, list(faults(whole, form))), (whole, form))

    def test_every_division(self):
        source = random.Random(93)
        for data in outside.inputs(300, 10, seed=94):
            for form in FORMS:
                whole = with_lines(data, form, source)
                wanted = expected(whole, form, list(stream_faults([whole], form)))
                for _ in range(6):
                    ends = sorted(source.randrange(len(whole) + 1) for _ in range(source.randrange(6)))
                    parts = [whole[a:b] for a, b in zip([0, *ends], [*ends, len(whole)])]
                    self.assertEqual(list(stream_located(parts, form)), wanted, (parts, form))
                self.assertEqual(list(stream_located([bytes([it]) for it in whole], form)), wanted)
                self.assertEqual(list(stream_located(io.BytesIO(whole), form)), wanted)

    def test_by_hand(self):
        data = "né\n\u20ac".encode() + b"\xff\r\n\xe2\x82A"
        self.assertEqual([(it.line, it.column, it.byte_column) for it in located(data)], [(2, 2, 4), (3, 1, 1), (3, 2, 2)])
        self.assertEqual(list(located(b"")), [])
        self.assertEqual(next(located(b"\xff")), Located(0, 1, 1, 1, 1, FaultKind.NON_UTF8_BYTE))
        pair = "a\n\U0001f600".encode("utf-16-be") + b"\xdc\x00"
        self.assertEqual([(it.offset, it.line, it.column, it.byte_column) for it in located(pair, "utf-16be")], [(8, 2, 2, 5)])

    def test_windows(self):
        """What is longer than one window, with few and with many faults."""
        for every in (100, 70_000, 1_500_000):
            data = bytearray("aé\n" * 400_000, "utf-8")
            data[every // 2 :: every] = b"\xff" * len(data[every // 2 :: every])
            for it in (bytes(data), data, memoryview(data)):
                found = list(located(it))
                self.assertEqual([(it.offset, it.error) for it in found], [(it.offset, it.error) for it in faults(bytes(data))])
                for each in found[:: max(len(found) // 20, 1)]:
                    self.assertEqual((each.line, each.column, each.byte_column), position(bytes(data), each.offset, "utf8"))
            self.assertEqual(list(stream_located(io.BytesIO(data))), found)

    def test_encodings_and_marks(self):
        data = "\ufeffa\n\U0001f600".encode("utf-16-le") + b"\x00\xd8"
        for size in range(1, len(data) + 1):
            parts = [data[at : at + size] for at in range(0, len(data), size)]
            self.assertEqual([(it.line, it.column) for it in stream_located(parts, "auto")], [(2, 2)])
        self.assertEqual([(it.line, it.column) for it in stream_located([b"\xfe"], "auto")], [(1, 1)])


class Gaps(unittest.TestCase):
    """Text between two faults, of every length near those at which it is passed in another way."""

    LENGTHS = [*range(140), *range(250, 260), *range(317, 324), *range(508, 516), *range(1020, 1028), 1279, 1280, 1281, 5000]

    def check_all(self, data):
        wanted = expected(data, "utf8", list(faults(data)))
        self.assertEqual(list(located(data)), wanted, data)
        self.assertEqual(list(located(bytearray(data))), wanted, data)
        for size in (1, 7, 64, 300):
            parts = [data[at : at + size] for at in range(0, len(data), size)]
            self.assertEqual([it[:4] for it in stream_located(parts)], [it[:4] for it in wanted], (data, size))

    def test_lengths(self):
        source = random.Random(97)
        for chars in ("ab\r\t", "aé", "\u010a\u0a0a\u008a", "我€", "\U0001f600\U0010a00a", "\n", "a\n", "aé我\U0001f600\n\n"):
            for length in self.LENGTHS:
                text = "".join(source.choice(chars) for _ in range(length)).encode()
                data = b"\xff".join([text, text[: len(text) // 2].decode("utf-8", "ignore").encode(), text, b""]) + text[:70]
                self.check_all(data if length < 140 else data[: len(text) + 9])

    def test_each_place_of_a_line_feed(self):
        for length in (1, 63, 64, 65, 127, 128, 129, 255, 256, 257, 320, 321, 600):
            for at in range(length):
                text = "é" * at + "\n" + "a" * (length - at - 1)
                self.assertEqual([it[1:4] for it in located(text.encode() + b"\xff")], [(2, length - at, length - at)], (length, at))

    def test_kinds_and_lengths_of_faults(self):
        """A fault is one column, whatever follows it."""
        for fault in (b"\xff", b"\x80", b"\xe2\x82", b"\xed\xa0\x80", b"\xf0\x9f\x98", b"\xc3", b"\xf4\x90\x80\x80"):
            for after in (b"", b"\n", b"a", b"\xc3\xa9\n", fault + b"\n", b"a" * 100 + b"\n" + b"b" * 100):
                self.check_all((fault + after) * 5)
        for unit in (b"\x00\xd8", b"\x00\xdc"):
            data = (unit + b"\n\0a\0" + unit + unit) * 60 + b"\n"
            self.assertEqual(list(located(data, "utf16le")), expected(data, "utf16le", list(faults(data, "utf16le"))))

    def test_long_lines(self):
        """Counts of lanes that overflow, and blocks with no line feed, or with nothing else."""
        for text in ("a" * 300_000, "é" * 100_000, "\n" * 300_000, ("a" * 70_000 + "\n") * 4, "a\n" * 100_000):
            data = text.encode() + b"\xff" + text.encode() + b"\xff"
            self.assertEqual(list(located(data)), expected(data, "utf8", list(faults(data))))
            self.assertEqual(list(stream_located([data])), list(located(data)))

    def test_nothing_after_the_text_is_read(self):
        """A line feed after the bytes that are given is not theirs."""
        whole = b"a\xff" + b"\n" * 200
        for size in range(2, 70):
            self.assertEqual([it[:4] for it in located(memoryview(whole)[1:size])], [(0, 1, 1, 1)])
            self.assertEqual(list(located(memoryview(b"a" * size + whole)[: size + 2]))[0][:4], (size + 1, 1, size + 2, size + 2))


class Numbers(unittest.TestCase):
    """Ints that several results share, and tuples that are used again, are never seen to change."""

    def test_some_are_kept(self):
        data = b"".join(b"a" * (it % 5) + b"\xff" + b"\n" * (it % 3 == 0) + "é".encode() * (it % 2) for it in range(2000))
        wanted = expected(data, "utf8", list(faults(data)))
        for every in (1, 2, 3, 5, 64):
            kept = [it for number, it in enumerate(located(data)) if number % every == 0]
            self.assertEqual(kept, wanted[::every])
            kept = [it for number, it in enumerate(stream_located([data])) if number % every == 0]
            self.assertEqual(kept, wanted[::every])
        for it, same in zip(located(data), wanted):
            self.assertEqual((it, tuple(it), hash(it), repr(it)), (same, tuple(same), hash(same), repr(same)))

    def test_copies(self):
        for it in located("é\n".encode() * 400 + b"a\xff"):
            for other in (copy.copy(it), copy.deepcopy(it), pickle.loads(pickle.dumps(it)), Located(*it), it._replace()):
                self.assertEqual((type(other), other), (Located, it))
            offset, line, column, byte_column, length, error = it
            self.assertEqual((offset, line, column, byte_column, length, error), (1201, 401, 2, 2, 1, FaultKind.NON_UTF8_BYTE))
            self.assertEqual([type(number) for number in it[:5]], [int] * 5)

    def test_large_offsets(self):
        for offset in (0, 255, 2**30 - 2, 2**30 - 1, 2**30, 2**31, 2**62, 2**63, 2**64 - 9):
            self.assertEqual([it.offset for it in Decoder("utf8", offset).feed(b"a\xffb")], [offset, offset + 1, offset + 2])

    @unittest.skipIf(_testcapi is None, "this Python has no _testcapi")
    def test_want_of_memory(self):
        """Each allocation of the second step fails in turn: no fault is lost, and none is counted twice."""
        data = ("é" * 300 + "\n").encode() * 300 + b"a\xff" + "é".encode() * 300 + b"\xff\n\xe2\x82" + b"a" * 700 + b"\xff"
        wanted = expected(data, "utf8", list(faults(data)))
        for make in (lambda: located(data), lambda: stream_located([data])):
            raised = 0
            for number in range(9):
                it = make()
                found, second = [next(it)], None
                try:
                    _testcapi.set_nomemory(number, number + 1)
                    try:
                        second = next(it)
                    finally:
                        _testcapi.remove_mem_hooks()
                except MemoryError:
                    raised += 1
                found += [second] if second else []
                self.assertEqual([*found, *it], wanted, number)
            self.assertGreater(raised, 2)


class Misuse(unittest.TestCase):
    def test_arguments(self):
        for wrong in ("text", None, 7, [b"a"]):
            self.assertRaises(TypeError, located, wrong)
        self.assertRaises(LookupError, located, b"", "latin-1")
        self.assertRaises(LookupError, stream_located, [b""], "latin-1")
        shard = next(iter(shards(memoryview(b"a\xff"), 2, "utf8")))
        self.assertRaises(TypeError, located, shard)
        self.assertRaises(TypeError, list, stream_located([b"a", "text"]))
        self.assertEqual([it.offset for it in located(array.array("H", [0xDC00]), "utf16le" if sys.byteorder == "little" else "utf16be")], [0])

    def test_reentrance(self):
        """The parts ask for the next fault of the same stream."""
        stream = None

        def parts():
            yield b"a\n"
            self.assertRaises(RuntimeError, next, stream)
            yield b"b\xff"

        stream = stream_located(parts())
        self.assertEqual([(it.line, it.column) for it in stream], [(2, 2)])

    def test_parts_that_raise(self):
        class Failing:
            def __init__(self):
                self.parts = [b"a\nb\xe2", OSError("now"), b"\x82", KeyError("then"), b"\xac\xff"]

            def __iter__(self):
                return self

            def __next__(self):
                if not self.parts:
                    raise StopIteration
                it = self.parts.pop(0)
                if isinstance(it, Exception):
                    raise it
                return it

        stream = stream_located(Failing())
        self.assertRaises(OSError, next, stream)
        self.assertRaises(KeyError, next, stream)
        self.assertEqual([(it.offset, it.line, it.column, it.byte_column) for it in stream], [(6, 2, 3, 5)])

    def test_threads(self):
        """One iterator in many threads: each fault comes once, or RuntimeError."""
        data = b"a\xff\n" * 20_000
        for make in (lambda: located(data), lambda: stream_located([data[at : at + 700] for at in range(0, len(data), 700)])):
            them, found, wrong = make(), [], []

            def take(them=them, found=found, wrong=wrong):
                while True:
                    try:
                        found.append(next(them))
                    except StopIteration:
                        return
                    except RuntimeError:
                        continue
                    except BaseException as error:
                        wrong.append(error)
                        return

            threads = [threading.Thread(target=take) for _ in range(4)]
            for it in threads:
                it.start()
            for it in threads:
                it.join()
            self.assertEqual(wrong, [])
            self.assertEqual(sorted(it.offset for it in found), list(range(1, len(data), 3)))
            self.assertTrue(all(it.line == it.offset // 3 + 1 and (it.column, it.byte_column) == (2, 2) for it in found))

    def test_kept_and_dropped(self):
        """Tuples that are kept do not change when the next one is made; those that are not, are made anew."""
        data = b"\xff\n\x80" * 1000
        kept = list(located(data))
        last = [it for it in located(data)][-1]
        for _ in located(data):
            pass
        self.assertEqual(kept[-1], last)
        self.assertEqual([it.offset for it in kept], [it.offset for it in faults(data)])
        self.assertFalse(any(gc.is_tracked(it) for it in kept))
        self.assertIsInstance(kept[0], Located)

    def test_awaited(self):
        async def parts():
            for it in (b"a\n\xe2", b"\x82", b"\xac\xff"):
                await asyncio.sleep(0)
                yield it

        async def run():
            return [(it.line, it.column, it.byte_column) async for it in stream_located(parts())]

        self.assertEqual(asyncio.run(run()), [(2, 2, 4)])


class Shards(unittest.TestCase):
    """Positions of a large text in threads, and on the workers of dask, are those of the whole."""

    def test_arrays(self):
        for form in FORMS:
            whole = with_lines(b"".join(outside.inputs(400, 30, seed=95)), form, random.Random(96))
            whole = whole[: len(whole) - len(whole) % 2]
            found = parallel.check(memoryview(whole * 60), form, jobs=3, positions=True)
            wanted = list(located(whole * 60, form))
            self.assertEqual(list(found.located()), wanted)
            self.assertEqual(found.places[::3].tolist(), [it.line for it in wanted])
            self.assertEqual(found[:3], parallel.check(memoryview(whole * 60), form, jobs=2))

    def test_lines_longer_than_a_shard(self):
        data = b"a\xff" * 900_000 + b"\n\xff"
        found = parallel.check(memoryview(data), positions=True, jobs=2)
        self.assertEqual((len(found.kinds), found.places[-3:].tolist()), (900_001, [2, 1, 1]))
        self.assertEqual(found.places[-6:-3].tolist(), [1, 1_800_000, 1_800_000])

    def test_none(self):
        self.assertEqual(parallel.check(memoryview(b""), positions=True).places.tolist(), [])
        self.assertEqual(list(parallel.check(memoryview(b"text"), positions=True).located()), [])
