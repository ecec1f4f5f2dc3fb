"""Pieces, faults and boundaries of UTF-8 and UTF-16, compared with the interpreter's decoders."""
import codecs
import itertools
import random
import tracemalloc
import unittest

from noddychest import (Decoder, Ends, FaultKind, boundary_after, boundary_before, changed_range, char_count, encoding_of_bom, faults,
                        first_fault, is_valid, number_of, offset_of, pieces, recode, recoded_len, undecided_len)

import outside

FORMS = {"utf8": "utf-8", "utf16le": "utf-16-le", "utf16be": "utf-16-be"}


def utf16_kind(data, offset, order):
    """Why UTF-16 is invalid there, by the words of the standard."""
    unit = data[offset:offset + 2]
    if len(unit) < 2:
        return FaultKind.INCOMPLETE
    if 0xDC00 <= int.from_bytes(unit, order) < 0xE000:
        return FaultKind.UNEXPECTED_TRAILING_SURROGATE
    return FaultKind.UNMATCHED_LEADING_SURROGATE if offset + 3 < len(data) else FaultKind.INCOMPLETE


def texts():
    """Inputs with many faults, with few, with none; longer than a copy, and than the steps in which faults are looked for."""
    source = random.Random(30)
    yield from outside.inputs(3000, 40, seed=31)
    for form, encoding in FORMS.items():
        for count in (0, 3, 400):
            data = bytearray("".join(outside.characters(source) for _ in range(20_000)).encode(encoding))
            for _ in range(count):
                data[source.randrange(len(data))] = source.choice(outside.EDGES)
            yield bytes(data)


class Pieces(unittest.TestCase):
    def test_as_the_interpreter(self):
        for data in texts():
            for form, encoding in FORMS.items():
                expected = outside.cut(data, encoding)
                cut = pieces(data, form)
                forward = list(cut)
                self.assertEqual([it[:3] for it in forward], expected, (data[:40], form))
                self.assertEqual(list(reversed(cut)), forward[::-1], (data[:40], form))
                self.assertEqual((len(cut), char_count(data, form)), (len(expected), len(expected)))
                wrong = [it for it in forward if it.error]
                self.assertEqual(list(faults(data, form)), wrong, (data[:40], form))
                self.assertEqual(list(faults(bytearray(data), form)), wrong)
                self.assertEqual((first_fault(data, form), is_valid(data, form)), (wrong[0] if wrong else None, not wrong))
                if form != "utf8":
                    for it in wrong:
                        self.assertEqual(it.error, utf16_kind(data, it.offset, "little" if form == "utf16le" else "big"))

    def test_all_short_units(self):
        units = [0x0000, 0x0041, 0xD7FF, 0xD800, 0xDBFF, 0xDC00, 0xDFFF, 0xE000, 0xFFFD, 0xFFFF]
        parts = [b"", *(it.to_bytes(2, "little") for it in units)]
        for data in {a + b + c + end for a in parts for b in parts for c in parts for end in (b"", b"\xd8")}:
            expected = outside.cut(data, "utf-16-le")
            self.assertEqual([it[:3] for it in pieces(data, "utf16le")], expected)
            self.assertEqual(list(reversed(pieces(data, "utf16le"))), list(pieces(data, "utf16le"))[::-1])
            front, back, ends = [], [], Ends(data, "utf16le")
            while len(front) + len(back) < len(expected):
                if (len(front) + len(data)) % 2 and len(front) <= len(back):
                    front.append(next(ends))
                else:
                    back.insert(0, ends.next_back())
                self.assertEqual((ends.start, ends.end), (sum(it.length for it in front), len(data) - sum(it.length for it in back)))
            self.assertEqual([it[:3] for it in front + back], expected)
            self.assertEqual((next(ends, None), ends.next_back()), (None, None))

    def test_random_ends(self):
        source = random.Random(32)
        for data in outside.inputs(2000, 30, seed=33):
            for form, encoding in FORMS.items():
                ends, front, back = Ends(data, form), [], []
                while ends.start < ends.end:
                    if source.random() < 0.5:
                        front.append(next(ends))
                    else:
                        back.insert(0, ends.next_back())
                self.assertEqual([it[:3] for it in front + back], outside.cut(data, encoding))

    def test_indexes(self):
        for form, encoding in FORMS.items():
            data = ("aé€😀" * 500).encode(encoding) + b"\xff\xdc\xff\xdc" + b"\xd8"
            cut, expected = pieces(data, form), list(pieces(data, form))
            self.assertEqual([cut[at] for at in range(len(cut))], expected)
            self.assertEqual(cut[::-7], expected[::-7])

    def test_boundaries(self):
        for data in outside.inputs(2000, 30, seed=34):
            for form, encoding in FORMS.items():
                starts = {offset for offset, _, _ in outside.cut(data, encoding)} | {len(data)}
                for at in [*range(len(data) + 3), 10**30]:
                    before = max(it for it in starts if it <= at)
                    after = min([it for it in starts if it >= at], default=len(data))
                    self.assertEqual((boundary_before(data, at, form), boundary_after(data, at, form)), (before, after), (data, form, at))
        for call in (boundary_before, boundary_after):
            self.assertRaises(IndexError, call, b"abc", -1)
            self.assertRaises(LookupError, call, b"abc", 1, "latin-1")

    def test_numbers(self):
        for data in outside.inputs(2000, 30, seed=35):
            for form, encoding in FORMS.items():
                starts = [offset for offset, _, _ in outside.cut(data, encoding)]
                for number in range(len(starts) + 2):
                    self.assertEqual(offset_of(data, number, form), starts[number] if number < len(starts) else None, (data, form, number))
                for at in [*range(len(data) + 3), 10**30]:
                    self.assertEqual(number_of(data, at, form), sum(it < at for it in starts), (data, form, at))
        self.assertEqual((offset_of(b"ab", 10**30), offset_of(b"", 0), number_of(b"", 10**30)), (None, None, 0))
        for call in (offset_of, number_of):
            self.assertRaises(IndexError, call, b"abc", -1)
            self.assertRaises(IndexError, call, b"", -10**30)
            self.assertRaises(LookupError, call, b"abc", 1, "latin-1")
            self.assertRaises(TypeError, call, b"abc", 1.0)
            self.assertRaises(TypeError, call, b"abc", None)

    def test_numbers_of_short_inputs(self):
        """All inputs of up to three bytes near which the rules change, and each offset inside of a character."""
        for count in range(4):
            for data in map(bytes, itertools.product(bytes.fromhex("418190a0bfc3e0e2edf0f4ff"), repeat=count)):
                starts = [offset for offset, _, _ in outside.cut(data)]
                self.assertEqual([offset_of(data, it) for it in range(count + 1)], starts + [None] * (count + 1 - len(starts)), data)
                self.assertEqual([number_of(data, at) for at in range(count + 2)], [sum(it < at for it in starts) for at in range(count + 2)], data)

    def test_changed_ranges(self):
        source = random.Random(36)
        for old, other in zip(outside.inputs(3000, 16, seed=37), outside.inputs(3000, 16, seed=38)):
            start = source.randint(0, len(old))
            end = source.randint(start, len(old))
            put = other[:source.randint(0, 5)]
            new = old[:start] + put + old[end:]
            for form, encoding in FORMS.items():
                was, now = changed_range(old, start, end, form), changed_range(new, start, start + len(put), form)
                before, after = pieces(old, form), pieces(new, form)
                told = (old, start, end, put, form)
                self.assertTrue(start - 6 <= was[0] <= start and end <= was[1] <= end + 6, told)
                self.assertEqual([it for it in before if it.offset < was[0]], [it for it in after if it.offset < now[0]], told)
                if form != "utf8" and (len(put) - (end - start)) % 2:
                    continue
                self.assertEqual(now, (was[0], was[1] + len(put) - (end - start)), told)
                self.assertEqual([(it.offset - was[1], it[1:]) for it in before if it.offset >= was[1]],
                                 [(it.offset - now[1], it[1:]) for it in after if it.offset >= now[1]], told)
                starts = {offset for offset, _, _ in outside.cut(old, encoding)} | {len(old)}
                self.assertEqual(was, (max(it for it in starts if it <= max(start - 3, 0)), min(it for it in starts if it >= min(end + 3, len(old)))), told)

    def test_changed_ranges_of_any_offsets(self):
        self.assertEqual((changed_range(b"abcdef", 10**30, 10**30), changed_range(b"abcdef", 5, 1), changed_range(b"", 1, 2)), ((3, 6), (0, 4), (0, 0)))
        for call in (lambda: changed_range(b"a", -1, 0), lambda: changed_range(b"a", 0, -10**30)):
            self.assertRaises(IndexError, call)
        self.assertRaises(TypeError, changed_range, b"a", 0, "1")
        self.assertRaises(LookupError, changed_range, b"a", 0, 1, "latin-1")

    def test_names_are_refused(self):
        for call in (pieces, faults, first_fault, is_valid, char_count, Ends):
            self.assertRaises(LookupError, call, b"", "latin-1")
            self.assertRaises(LookupError, call, b"", None)
            self.assertRaises(TypeError, call, "text", "utf16le")


class Blocks(unittest.TestCase):
    """Text is validated and counted in blocks: their ends are not to be seen, wherever the bytes lie in memory."""

    def places(self, data):
        yield data
        yield memoryview(b"_" + data)[1:]
        yield bytearray(b"_" + data)[1:]

    def test_first_fault(self):
        for form, wrong in (("utf8", b"\xff"), ("utf16le", b"\0\xdc"), ("utf16be", b"\xdc\0"), ("utf16le", b"\x3d\xd8"), ("utf16be", b"\xd8\x3d")):
            for before in [*range(70), *range(120, 132), *range(250, 260), 4095, 4096, 4097, 8191, 16_400]:
                text = "a" * before + "😀" * 40
                data = text.encode(FORMS[form])
                for it in self.places(data + wrong + data):
                    self.assertEqual((first_fault(it, form).offset, is_valid(it, form)), (len(data), False), (form, before))
                for it in self.places(data):
                    self.assertEqual((first_fault(it, form), is_valid(it, form)), (None, True), (form, before))

    def test_counts(self):
        source = random.Random(31)
        for _ in range(300):
            text = "".join(source.choice("aé€😀") * source.choice([1, 3, 40, 127, 128, 129, 300]) for _ in range(source.randint(1, 6)))
            for form, encoding in FORMS.items():
                data = text.encode(encoding)
                number = source.randrange(len(text))
                offset = len(text[:number].encode(encoding))
                for it in self.places(data):
                    self.assertEqual(char_count(it, form), len(text))
                    self.assertEqual((offset_of(it, number, form), number_of(it, offset, form), number_of(it, offset + 1, form)), (offset, number, number + 1))
                    self.assertEqual((offset_of(it, len(text), form), number_of(it, len(it), form)), (None, len(text)))
                at = source.randrange(len(data) + 1)
                for it in self.places(data[:at] + b"\xff" * source.randint(1, 3) + data[at:]):
                    self.assertEqual(char_count(it, form), len(pieces(it, form)))


class Faults(unittest.TestCase):
    def test_is_an_iterator(self):
        found = faults(b"a\xff\xfe")
        self.assertIs(iter(found), found)
        self.assertEqual([next(found).offset, next(found).offset], [1, 2])
        self.assertRaises(StopIteration, next, found)
        self.assertRaises(StopIteration, next, found)
        self.assertEqual(list(faults(b"")), [])
        data = bytearray(b"\xff" * 10)
        found = faults(data)
        self.assertRaises(BufferError, data.clear)
        del found
        data.clear()

    def test_between_steps(self):
        """Where one step of the search ends and the next begins: a megabyte for bytes, 32 KiB for what may change."""
        for end in (32 * 1024, 1 << 20):
            for shift in range(-5, 5):
                for wrong in (b"\xff", b"\xe2\x82", b"\xf0\x9f\x98", b"\xe2\x82\xac", "😀".encode(), b"\xed\xa0\x80", b"\xf0\x9f\x98!"):
                    data = b"a" * (end + shift) + wrong + b"b" * 40
                    expected = [(end + shift + at, kind) for at, kind in near(wrong + b"b" * 40)]
                    for it in (data, bytearray(data)):
                        self.assertEqual([(piece.offset, piece.error) for piece in faults(it)], expected, (end, shift, wrong))

    def test_memory(self):
        data = (b"a" * 99 + b"\xff") * 20_000
        tracemalloc.start()
        self.assertEqual(sum(1 for _ in faults(data)), 20_000)
        self.assertLess(tracemalloc.get_traced_memory()[1], 20_000)
        tracemalloc.stop()


def near(data):
    return [(piece.offset, piece.error) for piece in pieces(data) if piece.error]


class RecodedLen(unittest.TestCase):
    def test_is_the_length(self):
        for data in texts():
            for form in FORMS:
                for to in FORMS:
                    expected = len(recode(data, form, to))
                    self.assertEqual((recoded_len(data, form, to), recoded_len(bytearray(data), form, to)), (expected, expected))


def held(data, form):
    """How many bytes a Decoder holds that was fed these alone."""
    decoder = Decoder(form)
    for _ in decoder.feed(data):
        pass
    return len(decoder.held)


def open_len(data, encoding):
    """How many bytes at the end of valid data the interpreter's incremental decoder keeps."""
    decoder = codecs.getincrementaldecoder(encoding)()
    decoder.decode(data)
    return len(decoder.getstate()[0])


class Undecided(unittest.TestCase):
    def check(self, data):
        for form in FORMS:
            expected = held(data, form)
            for it in (data, bytearray(data), memoryview(b"_" + data)[1:]):
                self.assertEqual(undecided_len(it, form), expected, (data, form))

    def test_each_cut_of_short_inputs(self):
        for size in range(5):
            for it in itertools.product(b"A\x80\xa0\xbf\xc3\xd8\xdc\xe0\xed\xf0\xf4", repeat=size):
                self.check(bytes(it))
        for data in outside.inputs(600, 12, seed=36):
            for end in range(len(data) + 1):
                self.check(data[:end])

    def test_of_text_as_the_interpreter(self):
        source = random.Random(37)
        for form, encoding in FORMS.items():
            data = "".join(outside.characters(source) for _ in range(200)).encode(encoding)
            for end in range(len(data) + 1):
                self.assertEqual(undecided_len(data[:end], form), open_len(data[:end], encoding), (form, end))

    def test_of_words(self):
        cases = {"utf8": ["", "e2", "e282", "e28241", "eda0", "f041", "f09f98", "61f09f98", "6180", "ff"],
                 "utf16le": ["", "3d", "3dd8", "3dd800", "3dd800de", "00de", "41003dd8", "41003dd83d"],
                 "utf16be": ["", "d8", "d83d", "d83dde", "d83d41", "d83dde00", "de00", "0041d83d00"]}
        expected = {"utf8": [0, 1, 2, 0, 2, 0, 3, 3, 0, 0], "utf16le": [0, 1, 2, 3, 0, 0, 2, 3], "utf16be": [0, 1, 2, 3, 3, 0, 0, 3]}
        for form, texts_of_form in cases.items():
            self.assertEqual([undecided_len(bytes.fromhex(it), form) for it in texts_of_form], expected[form])
        self.assertEqual((undecided_len(b"a\xe2"), undecided_len(b"a\xe2", encoding="UTF-8")), (1, 1))

    def test_blocks_join(self):
        """What the call is for: blocks, each without its undecided end, which goes before the next one."""
        source = random.Random(38)
        for data in outside.inputs(300, 60, seed=39):
            for form in FORMS:
                found, rest, offset, size = [], b"", 0, source.randint(1, 9)
                for at in range(0, len(data), size):
                    rest += data[at:at + size]
                    decided = len(rest) - undecided_len(rest, form)
                    found += [(it.offset + offset, it.char, it.length) for it in pieces(rest[:decided], form)]
                    rest, offset = rest[decided:], offset + decided
                found += [(it.offset + offset, it.char, it.length) for it in pieces(rest, form)]
                self.assertEqual(found, outside.cut(data, FORMS[form]), (data, form))

    def test_what_is_refused(self):
        self.assertRaises(LookupError, undecided_len, b"", "latin-1")
        self.assertRaises(LookupError, undecided_len, b"", None)
        self.assertRaises(TypeError, undecided_len, "text")
        self.assertRaises(TypeError, undecided_len)


class Marks(unittest.TestCase):
    MARKS = {"utf-8": codecs.BOM_UTF8, "utf-16-le": codecs.BOM_UTF16_LE, "utf-16-be": codecs.BOM_UTF16_BE}

    def test_each_mark(self):
        for encoding, mark in self.MARKS.items():
            for after in (b"", b"a", b"\0", b"\0\0", mark, b"\xff" * 70_000):
                for it in (mark + after, bytearray(mark + after), memoryview(b"_" + mark + after)[1:]):
                    self.assertEqual(encoding_of_bom(it), (encoding, len(mark)))
            self.assertEqual("\ufeff".encode(encoding), mark)

    def test_names_are_taken_back(self):
        for encoding, mark in self.MARKS.items():
            data = mark + "né".encode(encoding)
            told, length = encoding_of_bom(data)
            self.assertEqual((list(pieces(data, told))[0].char, list(pieces(data, told))[0].length), ("\ufeff", length))
            self.assertEqual((recode(data[length:], told, "utf8").decode(), data[length:].decode(told), Decoder(told).encoding), ("né", "né", told))

    def test_others_have_none(self):
        marks = tuple(self.MARKS.values())
        for size in range(4):
            for it in itertools.product(b"\0A\xbb\xbe\xbf\xef\xfe\xff", repeat=size):
                data = bytes(it)
                self.assertEqual(encoding_of_bom(data) is not None, data.startswith(marks), data)
        for it in (codecs.BOM_UTF32_BE, b"a" + codecs.BOM_UTF8, codecs.BOM_UTF8[:2], "\ufeff".encode("utf-7"), b"\0\0\xfe\xff"):
            self.assertIsNone(encoding_of_bom(it))
        self.assertEqual(encoding_of_bom(codecs.BOM_UTF32_LE), ("utf-16-le", 2))

    def test_what_is_refused(self):
        self.assertRaises(TypeError, encoding_of_bom, "\ufeff")
        self.assertRaises(TypeError, encoding_of_bom)


class Maximal(unittest.TestCase):
    def test_as_the_interpreter_replaces(self):
        for data in texts():
            for to, encoding in FORMS.items():
                expected = data.decode("utf-8", "replace").encode(encoding)
                self.assertEqual(recode(data, "utf8", to, "lossy"), expected, (data[:40], to))
                self.assertEqual(recode(bytearray(data), "utf8", to, "lossy"), expected)
            data = data[:len(data) // 2 * 2]
            for form in ("utf16le", "utf16be"):
                self.assertEqual(recode(data, form, "utf8", "lossy"), data.decode(FORMS[form], "replace").encode())


if __name__ == "__main__":
    unittest.main()
