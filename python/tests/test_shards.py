"""Shards: their results, put together, are those of the whole, for each encoding and size."""
import array
import ctypes
import itertools
import mmap
import os
import pathlib
import pickle
import random
import tempfile
import unittest

import noddychest
from noddychest import (ChangedError, Counts, FaultKind, FaultError, Shard, char_count, faults, faults_array, first_fault, is_valid, offsets,
                        parallel, pieces, recode, recoded_len, shards)

import outside

FORMS = {"utf8": "utf-8", "utf16le": "utf-16-le", "utf16be": "utf-16-be"}
BITS = [b"a", b"\n", "é".encode(), "€".encode(), "😀".encode(), "\ufffd".encode(), b"\xff", b"\xe2", b"\x82", b"\xf0\x9f", b"\x98", b"\xed\xa0\x80",
        b"\xc0", b"\xf4\x90", b"\x80\x80\x80\x80\x80"]
UNITS = [0x41, 0xA, 0xA00, 0xD83D, 0xDE00, 0x20AC, 0xDC00, 0xD800, 0xFFFD]
SIZES = (1, 2, 3, 4, 5, 7, 8, 13, 40)


def texts(count, seed):
    """Small damaged texts in each encoding."""
    source = random.Random(seed)
    for _ in range(count):
        yield "utf8", b"".join(source.choice(BITS) for _ in range(source.randrange(30)))
        for form, order in (("utf16le", "little"), ("utf16be", "big")):
            units = b"".join(source.choice(UNITS).to_bytes(2, order) for _ in range(source.randrange(16)))
            yield form, units + source.choice([b"", b"", b"\xd8", b"\0"])


def facts(data, form):
    """What is to come of all shards: pieces with an error, kinds, counts."""
    cut = list(pieces(data, form))
    wrong = [it for it in cut if it.error is not None]
    kinds = tuple(sum(it.error is kind for it in wrong) for kind in FaultKind)
    return wrong, Counts(len(data), len(cut) - len(wrong), sum(it.char == "\n" for it in cut), kinds)


class Joined(unittest.TestCase):
    def check(self, data, form, size):
        wrong, counts = facts(data, form)
        cut = shards(memoryview(data), size, form)
        self.assertEqual(b"".join(bytes(it.source)[it.start:it.end] for it in cut), data)
        self.assertEqual([piece for it in cut for piece in faults(it)], wrong)
        arrays = noddychest._shards.no_faults()
        for it in cut:
            arrays.extend(faults_array(it))
        self.assertEqual(list(arrays.pieces()), wrong)
        total = Counts()
        for it in cut:
            total = total.plus(it.counts())
        self.assertEqual(total, counts)
        self.assertEqual(sum(map(char_count, cut)), char_count(data, form))
        self.assertEqual(all(map(is_valid, cut)), is_valid(data, form))
        self.assertEqual(next((it for it in map(first_fault, cut) if it), None), first_fault(data, form))
        for to in FORMS:
            for errors in ("replace", "lossy"):
                self.assertEqual(b"".join(recode(it, form, to, errors) for it in cut), recode(data, form, to, errors), (data, form, size))
            self.assertEqual(sum(recoded_len(it, form, to) for it in cut), recoded_len(data, form, to))
        self.assertEqual(self.strict(cut, form), [(it.offset, it.error) for it in wrong[:1]])

    def strict(self, cut, form):
        """The offset and the kind of the first fault that strict transcoding meets, shard by shard."""
        for it in cut:
            try:
                recode(it, form, "utf8", "strict")
            except FaultError as fault:
                self.assertEqual(fault.object[fault.start:fault.end], bytes(it.source)[fault.offset:fault.offset + fault.end - fault.start])
                return [(fault.offset, fault.error)]
        return []

    def test_small_texts(self):
        source = random.Random(40)
        for form, data in texts(500, seed=41):
            for size in source.sample(SIZES, 2):
                self.check(data, form, size)

    def test_all_that_end_inside_of_a_character(self):
        for text in ("a😀b", "😀", "€€", "éa"):
            for form, encoding in FORMS.items():
                whole = text.encode(encoding)
                for end in range(len(whole) + 1):
                    for size in range(1, len(whole) + 2):
                        self.check(whole[:end], form, size)

    def test_all_inputs(self):
        """Python's own decoder over each shard gives the text of the whole, and so does each way to recode."""
        self.assertEqual([(it.start, it.end) for it in shards(memoryview(b"\xe2\x82A"), 1)], [(0, 2), (2, 3)])
        for form, encoding, most, some in (("utf8", "utf-8", 4, b"A\x80\xa0\xc3\xe0\xe2\xed\xf0\xf4"), ("utf16le", "utf-16-le", 5, b"\0A\xd8\xdc"),
                                           ("utf16be", "utf-16-be", 5, b"\0A\xd8\xdc")):
            for data in (bytes(it) for length in range(most + 1) for it in itertools.product(some, repeat=length)):
                for size in (1, 2, 3):
                    cut = shards(memoryview(data), size, form)
                    parts = [data[it.start:it.end] for it in cut]
                    self.assertEqual("".join(it.decode(encoding, "replace") for it in parts), data.decode(encoding, "replace"), (data, size))
                    for errors in ("replace", "lossy"):
                        self.assertEqual(b"".join(recode(it, form, "utf8", errors) for it in parts), recode(data, form, "utf8", errors), (data, size))
                    self.assertEqual(self.strict_of(parts, form), self.strict_of([data], form), (data, size))

    def strict_of(self, parts, form):
        """What comes of some parts up to the first invalid byte, and its offset, or the length."""
        out, offset = b"", 0
        for part in parts:
            try:
                out += recode(part, form, "utf8", "strict")
                offset += len(part)
            except FaultError as fault:
                return out + recode(part[:fault.start], form, "utf8"), offset + fault.start
        return out, offset

    def test_random_bytes(self):
        for data in outside.inputs(500, 40, seed=42):
            for form in FORMS:
                self.check(data, form, random.Random(data).choice(SIZES))

    def test_in_blocks(self):
        """A shard that is read in blocks of a few bytes: their ends are not to be seen."""
        before = noddychest._shards.Shard.blocks.__defaults__
        try:
            for size in (1, 7, 8, 13):
                noddychest._shards.Shard.blocks.__defaults__ = (size,)
                for form, data in texts(100, seed=43):
                    self.check(data, form, 20)
        finally:
            noddychest._shards.Shard.blocks.__defaults__ = before

    def test_long_texts(self):
        source = random.Random(44)
        for form, encoding in FORMS.items():
            text = "".join(source.choice(["plain words ", "Größe\n", "漢字", "😀"]) for _ in range(200_000)).encode(encoding)
            data = bytearray(text)
            for _ in range(300):
                data[source.randrange(len(data))] = source.choice(outside.EDGES)
            self.check(bytes(data), form, 700_001)

    def test_sizes(self):
        for form in FORMS:
            data = bytes(range(97, 123)) * 100
            for size in (1, 100, 2599, 2600, 2601, 10**30):
                cut = shards(memoryview(data), size, form)
                self.assertTrue(all(0 < it.end - it.start <= size + 3 for it in cut))
            self.assertEqual(shards(bytearray(), 5, form), [])
        for size in (0, -1):
            self.assertRaises(ValueError, shards, memoryview(b"abc"), size)
        self.assertRaises(TypeError, shards, memoryview(b"abc"), "5")
        self.assertRaises(LookupError, shards, memoryview(b"abc"), 5, "latin-1")
        self.assertRaises(TypeError, shards, 5, 5)


class Sources(unittest.TestCase):
    def setUp(self):
        folder = tempfile.TemporaryDirectory()
        self.addCleanup(folder.cleanup)
        self.path = os.path.join(folder.name, "text")

    def write(self, data, how="wb"):
        with open(self.path, how) as file:
            file.write(data)

    def test_files(self):
        for form, data in texts(60, seed=45):
            self.write(data)
            for size in (1, 3, 8):
                cut = shards(self.path, size, form)
                self.assertEqual(cut, pickle.loads(pickle.dumps(cut)))
                self.assertEqual(b"".join(it.recode("utf8") for it in cut), recode(data, form, "utf8"))
                self.assertEqual([piece for it in cut for piece in it.faults()], facts(data, form)[0])
        os.mkfifo(self.path + "-pipe")
        for path in (os.path.dirname(self.path), "/dev/null", self.path + "-none", self.path + "-pipe"):
            self.assertRaises(OSError, shards, path, 5)

    @unittest.skipUnless(os.path.exists("/proc/self/status"), "there is no /proc")
    def test_a_length_that_is_not_known(self):
        """A file in /proc has the length 0, and bytes. A file that is empty has no shards."""
        count = len(os.listdir("/proc/self/fd"))
        for call in (lambda path: shards(path, 5), parallel.check, parallel.count, lambda path: parallel.recode(path, self.path + "-out", "utf8", "utf8")):
            with self.assertRaisesRegex(OSError, "its length is not known"):
                call("/proc/self/status")
        self.assertEqual((os.path.exists(self.path + "-out"), len(os.listdir("/proc/self/fd"))), (False, count))
        self.write(b"")
        self.assertEqual(shards(self.path, 5), [])

    def test_buffers(self):
        data = b"a\xffb\xe2\x82" * 20
        mapped = mmap.mmap(-1, len(data))
        mapped[:] = data
        for it in (bytearray(data), memoryview(data), array.array("I", data), mapped, memoryview(b"_" + data)[1:]):
            cut = shards(it, 7)
            self.assertEqual(b"".join(shard.recode("utf8") for shard in cut), recode(data, "utf8", "utf8"))
            self.assertRaises(TypeError, pickle.dumps, cut[0])
        del cut, it
        self.assertRaises(BufferError, shards, memoryview(b"abcd")[::2], 5)
        for it in (bytearray(), memoryview(b""), array.array("I"), (ctypes.c_char * 0)(), (ctypes.c_char * 3 * 0)(), (ctypes.c_uint16 * 0 * 3)()):
            self.assertEqual((shards(it, 7), parallel.count(it).size), ([], 0))

    def test_paths(self):
        """A path is a str, bytes or a PathLike of either, as for open(); it is read, and not its letters."""
        class Named:
            def __init__(self, path):
                self.path = path

            def __fspath__(self):
                return self.path

        self.write(b"ab\xff")
        odd = os.path.join(os.fsencode(os.path.dirname(self.path)), b"\xff\n http:")
        os.mkdir(odd)
        with open(odd + b"/name", "wb") as file:
            file.write(b"c\xff\xff")
        for path, wanted in ((self.path, [2]), (odd + b"/name", [1, 2]), (odd + b"//name", [1, 2]), (odd + b"///name", [1, 2])):
            for it in (os.fsencode(path), Named(os.fsencode(path)), Named(os.fsdecode(path)), pathlib.Path(os.fsdecode(path))):
                self.assertEqual(parallel.check(it).offsets.tolist(), wanted)
                self.assertEqual((parallel.count(it).size, parallel.count(it).faults), (3, len(wanted)))
                self.assertEqual([found.offset for shard in pickle.loads(pickle.dumps(shards(it, 2))) for found in faults(shard)], wanted)
                for out in (odd + b"/out", os.fsdecode(odd + b"/out"), Named(odd + b"/out"), pathlib.Path(os.fsdecode(odd + b"/out"))):
                    for resume in (False, True):
                        made = parallel.recode(it, out, "utf8", "utf16le", resume=resume)
                        self.assertEqual((made.replaced, os.path.getsize(odd + b"/out"), sorted(os.listdir(odd))), (len(wanted), 6, [b"name", b"out"]))
                        os.remove(odd + b"/out")

    def test_bytes_that_are_no_path(self):
        """Text in memory is no path. It is rejected, and not looked for as a file, or read."""
        self.write(b"abc")
        for call in (parallel.check, parallel.count, lambda it: shards(it, 5)):
            self.assertRaises(FileNotFoundError, call, b"no such file")
            self.assertRaises(FileNotFoundError, call, b"")
            for it in (b"a\0b", b"text " * 10_000):
                self.assertRaisesRegex(ValueError, "memoryview", call, it)
        for out in (5, None, bytearray(b"out"), memoryview(b"out")):
            self.assertRaises(TypeError, parallel.recode, self.path, out, "utf8", "utf8")
        self.assertRaises(ValueError, parallel.recode, self.path, b"a\0", "utf8", "utf8")

    def test_changed_sources(self):
        calls = [lambda it: list(it.faults()), Shard.counts, Shard.char_count, lambda it: it.recode("utf16le"), Shard.faults_array,
                 lambda it: it.recoded_len("utf8"), lambda it: it.recode("utf8", "strict"), Shard.first_fault]
        for change in (lambda: self.write(b"more", "ab"), lambda: os.truncate(self.path, 3), lambda: os.utime(self.path, (5, 5)),
                       lambda: self.write(b"b" * 20)):
            self.write(b"a" * 20)
            os.utime(self.path, (1, 1))
            cut = shards(self.path, 8)
            change()
            for it in cut:
                for call in calls:
                    self.assertRaises(ChangedError, call, it)
        os.remove(self.path)
        for call in calls:
            self.assertRaises(OSError, call, cut[0])

    def test_changed_meanwhile(self):
        for change in (lambda: self.write(b"more", "ab"), lambda: os.truncate(self.path, 3_000_000), lambda: os.truncate(self.path, 0)):
            self.write(b"\xff" * 5_000_000)
            os.utime(self.path, (1, 1))
            found, = shards(self.path, 10**9)
            run = found.faults()
            next(run)
            change()
            with self.assertRaises(ChangedError):
                for _ in run:
                    pass

    def test_other_encodings_are_refused(self):
        it, = shards(memoryview(b"ab"), 5, "utf16le")
        self.assertRaises(ValueError, recode, it, "utf8", "utf8")
        self.assertRaises(ValueError, recoded_len, it, "utf16be", "utf8")
        self.assertEqual(recode(it, "UTF-16", "utf8"), "扡".encode())
        for call in (faults, first_fault, is_valid, char_count, lambda it: recode(it, "utf8", "utf8"), faults_array):
            self.assertRaises(TypeError, call, (1, 2))


class Arrays(unittest.TestCase):
    def test_as_pieces(self):
        for form, data in texts(500, seed=46):
            for it in (data, bytearray(data), memoryview(b"_" + data)[1:]):
                found = faults_array(it, form)
                self.assertEqual(list(found.pieces()), list(faults(data, form)))
        data = bytearray(b"\xff" * 100_000 + b"a\xe2\x82" * 20_000)
        found = faults_array(data)
        self.assertEqual((len(found.offsets), found.offsets.itemsize, found.kinds.itemsize), (140_000, 8, 1))
        self.assertEqual(list(found.pieces()), list(faults(bytes(data))))

    def test_offsets(self):
        for form, data in texts(200, seed=47):
            for it in (data, bytearray(data), memoryview(b"_" + data)[1:]):
                self.assertEqual(offsets(it, form).tolist(), [piece.offset for piece in pieces(data, form)])
        data = "né€😀".encode() * 30_000
        self.assertEqual((len(offsets(data)), offsets(data)[-1], offsets(data).itemsize), (120_000, len(data) - 4, 8))
        self.assertRaises(TypeError, offsets, "text")
        self.assertRaises(LookupError, offsets, b"", "latin-1")

    def test_refused(self):
        self.assertRaises(LookupError, faults_array, b"", "latin-1")
        self.assertRaises(TypeError, faults_array, "text")
        self.assertRaises(TypeError, faults_array, 5)

    def test_numpy(self):
        try:
            import numpy
        except ImportError:
            self.skipTest("for want of numpy")
        found = faults_array(b"a\xff\xe2")
        offsets = numpy.asarray(found.offsets)
        self.assertEqual((offsets.tolist(), offsets.dtype, numpy.asarray(found.kinds).dtype), ([1, 2], numpy.uint64, numpy.uint8))
        found.offsets[0] = 7
        self.assertEqual(offsets[0], 7, "it is no copy")


if __name__ == "__main__":
    unittest.main()
