"""Transcoding whole inputs and parts, with replacement and strict."""
import array
import codecs
import pickle
import random
import threading
import unittest

from noddychest import FaultKind, FaultError, Recoder, decode, recode

import outside

FORMS = {"utf8": "utf-8", "utf16le": "utf-16-le", "utf16be": "utf-16-be"}
PAIRS = [(source, to) for source in FORMS for to in FORMS]


# What "é" is in each encoding, and its names: those of browsers (https://encoding.spec.whatwg.org/#names-and-labels), and Python's.
NAMES = {
    "c3a9": "unicode-1-1-utf-8 unicode11utf8 unicode20utf8 utf-8 utf8 x-unicode20utf8 utf_8".split(),
    "e900": "csunicode iso-10646-ucs-2 ucs-2 unicode unicodefeff utf-16 utf-16le utf16le utf_16_le utf-16-le utf_16le utf16_le".split(),
    "00e9": "unicodefffe utf-16be utf16be utf_16_be utf-16-be utf_16be utf16_be".split(),
}


def faults(data, form):
    return [at for at, char, _ in outside.cut(data, FORMS[form]) if char is None]


class AtOnce(unittest.TestCase):
    def test_vectors(self):
        rows = outside.rows("recode.txt")
        if rows is None:
            self.skipTest("the vectors are in the repository")
        for forms, data, expected in rows:
            self.assertEqual(recode(bytes.fromhex(data), *forms.split()).hex(), expected, (forms, data))

    def test_random_inputs(self):
        for data in outside.inputs(2000, 40, seed=6):
            for source, to in PAIRS:
                self.assertEqual(recode(data, source, to), outside.shown(data, FORMS[source]).encode(FORMS[to]), (data, source, to))

    def test_decode(self):
        """Short UTF-8 is decoded by one call, and all else by `recode`: the text is the same, whatever the length, the type and the names."""
        lines = [b"a" * 20, "\u00e9\u20ac\U0001f600".encode() * 4, b"a\xffb", b"\xe2\x82", b"\xed\xa0\x80 \xf0\x9f\x98", b"", b"\0"]
        lines += [line * (size // max(len(line), 1) + 1) for line in lines for size in (1000, 1020, 1024, 1025, 3000)]
        lines += [line[:size] for line in lines[7:] for size in (1023, 1024, 1025, 1026)]
        for data in (*outside.inputs(1500, 60, seed=11), *lines):
            want = {"replace": outside.shown(data), "lossy": data.decode("utf-8", "replace"), "ignore": data.decode("utf-8", "ignore")}
            for name in ("utf8", "UTF-8", "utf-8"):
                for errors, text in want.items():
                    self.assertEqual(decode(data, name, errors), text, (data[:40], name, errors))
            for it in (bytearray(data), memoryview(data), array.array("B", data), memoryview(bytes(it for byte in data for it in (byte, 0)))[::2]):
                if isinstance(it, memoryview) and not it.contiguous:
                    self.assertRaises(BufferError, decode, it)
                else:
                    self.assertEqual(decode(it), want["replace"])
            try:
                self.assertEqual(decode(data, errors="strict"), data.decode())
            except FaultError as fault:
                self.assertEqual((fault.offset, fault.object), (faults(data, "utf8")[0], data))

    def test_decode_takes_no_other_names(self):
        for words in (("latin-1",), ("utf8", "Replace"), ("utf8", "surrogateescape"), ("utf8x", "strict")):
            self.assertRaises(LookupError, decode, b"a", *words)
        for wrong in ("text", None, 1, [1]):
            self.assertRaises(TypeError, decode, wrong)
        self.assertRaises(TypeError, decode, b"a", "utf8", 3)

    def test_every_character(self):
        text = "".join(chr(scalar) for scalar in range(0x110000) if not 0xD800 <= scalar < 0xE000)
        for source, to in PAIRS:
            for errors in ("replace", "strict"):
                self.assertEqual(recode(text.encode(FORMS[source]), source, to, errors), text.encode(FORMS[to]))

    def test_strict(self):
        for data in outside.inputs(2000, 40, seed=7):
            for source, to in PAIRS:
                wrong = faults(data, source)
                if not wrong:
                    self.assertEqual(recode(data, source, to, "strict"), data.decode(FORMS[source]).encode(FORMS[to]))
                    continue
                with self.assertRaises(UnicodeDecodeError) as raised:
                    recode(data, source, to, errors="strict")
                fault = raised.exception
                self.assertEqual((fault.offset, fault.start, fault.object), (wrong[0], wrong[0], data))
                self.assertEqual(fault.end, min(fault.start + (1 if source == "utf8" else 2), len(data)))
                self.assertEqual((fault.encoding, fault.reason), (FORMS[source], fault.error.reason))

    def test_faults_of_utf16(self):
        for data, offset, error in [
            (b"a\0\0\xdc", 2, FaultKind.UNEXPECTED_TRAILING_SURROGATE),
            (b"\0\xd8a\0", 0, FaultKind.UNMATCHED_LEADING_SURROGATE),
            (b"a\0\0\xd8", 2, FaultKind.INCOMPLETE),
            (b"a\0\0\xd8a", 2, FaultKind.INCOMPLETE),
            (b"a\0a", 2, FaultKind.INCOMPLETE),
        ]:
            for form, it in (("utf16le", data), ("utf16be", swapped(data))):
                with self.assertRaises(FaultError) as raised:
                    recode(it, form, "utf8", "strict")
                self.assertEqual((raised.exception.offset, raised.exception.error), (offset, error))

    def test_far_faults(self):
        for at in (0, 1, 510, 511, 512, 513, 1022, 1023, 1024, 5000):
            for unit in (b"\0\xd8", b"\0\xdc"):
                data = "é".encode("utf-16-le") * at + unit + "😀é".encode("utf-16-le") * 700
                with self.assertRaises(FaultError) as raised:
                    recode(data, "utf16le", "utf8", "strict")
                self.assertEqual(raised.exception.offset, 2 * at)
            pairs = "é".encode("utf-16-le") * at + "😀".encode("utf-16-le") * 2000
            self.assertEqual(recode(pairs, "utf16le", "utf16be", "strict"), swapped(pairs))

    def test_error_is_pickled(self):
        with self.assertRaises(FaultError) as raised:
            recode(b"ab\xff", "utf8", "utf8", "strict")
        again = pickle.loads(pickle.dumps(raised.exception))
        self.assertEqual((again.offset, again.start, again.error), (2, 2, FaultKind.NON_UTF8_BYTE))

    def test_names(self):
        self.assertEqual(recode(b"a", "UTF-8", "utf_16_le"), b"a\0")
        for made, names in NAMES.items():
            for name in names:
                for it in (name, name.upper(), name.title(), f" {name}\t\n"):
                    self.assertEqual(recode("é".encode("utf-16-le"), "utf-16le", it).hex(), made, it)
                    self.assertEqual(Recoder(it, "utf8").feed(bytes.fromhex(made)), "é".encode(), it)
        for wrong in ("utf7", "", "utf16", 8, None, b"utf8", [], "utf8\0", "utf-8-sig", "latin-1", "utf8\u00a0", "utf-16lé"):
            self.assertRaises(LookupError, recode, b"", wrong, "utf8")
            self.assertRaises(LookupError, recode, b"", "utf8", wrong)
        self.assertRaises(LookupError, recode, b"", "utf8", "utf8", "nonsense")
        self.assertRaises(LookupError, Recoder, "utf8", "utf8", errors="drop")

    def test_in_threads(self):
        text = "aé€😀" * 50000
        wrong, data = [], text.encode()

        def work():
            if recode(data, "utf8", "utf16le") != text.encode("utf-16-le"):
                wrong.append(1)

        threads = [threading.Thread(target=work) for _ in range(4)]
        for it in threads:
            it.start()
        for it in threads:
            it.join()
        self.assertFalse(wrong)


def swapped(data):
    units = bytearray(data)
    units[0:len(data) // 2 * 2:2], units[1::2] = data[1::2], data[0:len(data) // 2 * 2:2]
    return bytes(units)


class InParts(unittest.TestCase):
    def test_random_parts(self):
        source = random.Random(8)
        for data in outside.inputs(3000, 30, seed=9):
            form, to = source.choice(PAIRS)
            recoder, made, at = Recoder(form, to), b"", 0
            while at < len(data):
                size = source.choice([0, 1, 1, 2, 3, 5, 12])
                made += recoder.feed(data[at:at + size])
                at += size
                self.assertLessEqual(recoder.replaced, len(faults(data, form)))
            made += recoder.finish()
            self.assertEqual(made, outside.shown(data, FORMS[form]).encode(FORMS[to]), data)
            self.assertEqual(recoder.replaced, len(faults(data, form)), (data, form))
            self.assertEqual(recoder.finish(), b"")

    def test_strict_parts(self):
        source = random.Random(10)
        for data in outside.inputs(3000, 30, seed=11):
            form, to = source.choice(PAIRS)
            recoder, made, at, wrong = Recoder(form, to, "strict"), b"", 0, faults(data, form)
            try:
                while at < len(data):
                    size = source.choice([0, 1, 1, 2, 3, 5, 12])
                    made += recoder.feed(data[at:at + size])
                    at += size
                made += recoder.finish()
            except FaultError as fault:
                self.assertEqual(fault.offset, wrong[0], (data, form))
                self.assertEqual(fault.object[fault.start:fault.end], data[fault.offset:fault.offset + fault.end - fault.start])
                self.assertTrue(data[:wrong[0]].decode(FORMS[form]).encode(FORMS[to]).startswith(made))
            else:
                self.assertEqual((wrong, made), ([], data.decode(FORMS[form]).encode(FORMS[to])))
            self.assertEqual(recoder.replaced, 0)

    def test_strict_waits_for_the_kind(self):
        """The kind is the same wherever the input is cut, and at the end too few bytes are too few."""
        kinds = [(b"\xe0\x80\x80", FaultKind.OVERLONG_ENCODING), (b"\xe0\x80A", FaultKind.INTERRUPTED_SEQUENCE),
                 (b"\xed\xa0\x80", FaultKind.UTF16_RESERVED_CODEPOINT), (b"\xf4\x90\x80\x80", FaultKind.TOO_HIGH_CODEPOINT),
                 (b"\xf0\x80\x80A", FaultKind.INTERRUPTED_SEQUENCE), (b"\xe9A\n", FaultKind.INTERRUPTED_SEQUENCE),
                 (b"\xe0\x80", FaultKind.TOO_FEW_BYTES), (b"\xf4\x90\x80", FaultKind.TOO_FEW_BYTES),
                 (b"\xe9A", FaultKind.TOO_FEW_BYTES), (b"\xf0\x80A", FaultKind.TOO_FEW_BYTES)]
        for data, kind in kinds:
            for cut in range(len(data)):
                recoder, made = Recoder("utf8", "utf16be", "strict"), b""
                with self.assertRaises(FaultError) as raised:
                    for part in [b"\xc3", b"\xa9" + data[:cut], data[cut:]]:
                        made += recoder.feed(part)
                    recoder.finish()
                self.assertEqual((raised.exception.offset, raised.exception.error), (2, kind), (data, cut))
                self.assertIn(made, [b"", b"\0\xe9"])

    def test_strict_does_not_depend_on_the_cut(self):
        """Fed in any two parts, a recoder raises as `recode` of all does: the same offset, length and error."""
        def told(recoded):
            try:
                return recoded()
            except FaultError as fault:
                return fault.offset, fault.end - fault.start, fault.error

        for data in outside.inputs(2000, 12, seed=12):
            for form in FORMS:
                want = told(lambda: recode(data, form, "utf8", "strict"))
                for cut in range(len(data) + 1):
                    recoder = Recoder(form, "utf8", "strict")
                    have = told(lambda: recoder.feed(data[:cut]) + recoder.feed(data[cut:]) + recoder.finish())
                    self.assertEqual(have, want, (data, form, cut))

    def test_strict_leaves_it_as_it_was(self):
        recoder = Recoder("utf8", "utf16be", "strict")
        self.assertEqual(recoder.feed(b"a\xc3"), b"\0a")
        for _ in range(2):
            with self.assertRaises(FaultError) as raised:
                recoder.feed(b"b")
            self.assertEqual((raised.exception.offset, raised.exception.error), (1, FaultKind.INTERRUPTED_SEQUENCE))
            self.assertRaises(FaultError, recoder.finish)
        self.assertEqual(recoder.feed(b"\xa9") + recoder.finish(), b"\0\xe9")

    def test_faults_are_counted(self):
        recoder = Recoder("utf8", "utf8")
        self.assertEqual((recoder.feed(b"\xf0\x9f"), recoder.replaced), (b"", 0))
        self.assertEqual((recoder.feed("a\ufffd".encode()), recoder.replaced), ("\ufffd\ufffda\ufffd".encode(), 2))
        self.assertEqual((recoder.feed(b"\xe2"), recoder.replaced), (b"", 2))
        self.assertEqual((recoder.finish(), recoder.replaced), ("\ufffd".encode(), 3))
        self.assertEqual((recoder.feed(b"\xff" * 1000 + b"a" * 3000 + b"\x80"), recoder.replaced)[1], 1004)

    def test_bytes_of_maximal_subparts_are_counted(self):
        """Each counts, however many of them are one U+FFFD: as Python's decoder says where each error begins and ends."""
        errors = []
        codecs.register_error("noddychest-lossy", lambda error: (errors.append(error.end - error.start), ("\ufffd", error.end))[1])
        source = random.Random(12)
        for data in outside.inputs(3000, 30, seed=13):
            at = source.randint(0, len(data))
            recoder = Recoder("utf8", "utf8", "lossy")
            made = recoder.feed(data[:at]) + recoder.feed(data[at:]) + recoder.finish()
            del errors[:]
            self.assertEqual((made.decode(), recoder.replaced), (data.decode("utf-8", "noddychest-lossy"), sum(errors)), data)
            for form, to in PAIRS:
                recoder = Recoder(form, to, "lossy")
                recoder.feed(data[:at]), recoder.feed(data[at:]), recoder.finish()
                self.assertEqual(recoder.replaced, len(faults(data, form)), (data, form))
        recoder = Recoder("utf16le", "utf8", "lossy")
        self.assertEqual((recoder.feed(b"\x00\xdc\x00\xd8"), recoder.replaced), ("\ufffd".encode(), 1))
        self.assertEqual((recoder.feed(b"\x21") + recoder.finish(), recoder.replaced), ("\ufffd".encode(), 3))


if __name__ == "__main__":
    unittest.main()
