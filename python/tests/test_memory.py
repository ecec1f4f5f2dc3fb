"""How much memory transcoding takes: never a tenth more than its output, whatever the text. And that no call leaks."""
import codecs
import copy
import gc
import io
import pickle
import random
import sys
import tracemalloc
import unittest

from noddychest import (Decoder, Ends, FaultKind, Piece, Recoder, Surveyor, boundary_before, changed_range, char_count, encoding_of_bom, faults,
                        first_fault, guess, is_valid, located, number_of, offset_of, pieces, recode, recoded_len, stream_faults, stream_located,
                        stream_pieces, survey, undecided_len)

FORMS = {"utf8": "utf-8", "utf16le": "utf-16-le", "utf16be": "utf-16-be"}
SIZE = 1_200_000
SPARE = 4096  # what the interpreter takes meanwhile


def texts():
    for line in ("plain words ", "съешь же ещё ", "我能吞下玻璃", "😀😃", "mixed Größe 漢字 😀 "):
        yield (line * SIZE)[:SIZE // 3]
    yield "a" * SIZE + "漢" * (SIZE // 3)
    yield "漢" * (SIZE // 3) + "a" * SIZE
    yield "😀" * (SIZE // 4) + "a" * SIZE


def wrong():
    source = random.Random(21)
    for it in (b"\xff", b"\x80", b"\0\xd8", b"\xd8\0", b"\xf0", b"\xe2\x82", b"a\xff", bytes(range(256))):
        yield it * (SIZE // len(it))
    yield source.randbytes(SIZE) if hasattr(source, "randbytes") else bytes(SIZE)
    yield b"\xf0\x9f\x98" * (SIZE // 6) + b"a" * (SIZE // 2) + b"\xff" * 70_000 + b"a"


class Peak(unittest.TestCase):
    def peak(self, work):
        work()
        tracemalloc.start()
        made = work()
        peak = tracemalloc.get_traced_memory()[1]
        tracemalloc.stop()
        return len(made), peak

    def check(self, data, form, to):
        for work in (lambda: recode(data, form, to), lambda: recode(data, form, to, "lossy"), lambda: recode(data, form, to, "windows-1252"), lambda: Recoder(form, to).feed(data)):
            made, peak = self.peak(work)
            self.assertLessEqual(peak, 1.1 * made + SPARE, (data[:12], len(data), form, to))

    def test_text(self):
        for text in texts():
            for form, encoding in FORMS.items():
                data = text.encode(encoding)
                for to in FORMS:
                    self.check(data, form, to)

    def test_invalid_bytes(self):
        for data in wrong():
            for form in FORMS:
                for to in FORMS:
                    self.check(data, form, to)

    def test_same_answers(self):
        """Where there had to be more room, what is made is the same as in parts."""
        for data in wrong():
            for form in FORMS:
                for to in FORMS:
                    recoder, parts = Recoder(form, to), []
                    for at in range(0, len(data), 30_001):
                        parts.append(recoder.feed(data[at:at + 30_001]))
                    parts.append(recoder.finish())
                    self.assertEqual(recode(data, form, to), b"".join(parts), (data[:8], form, to))


def failing(work):
    def call():
        try:
            work()
        except (ValueError, TypeError, LookupError, RuntimeError, BufferError):
            return
        raise AssertionError("it has to raise")

    return call


def in_parts(decoder, name):
    feed = getattr(decoder, name)
    return [*feed(b"a\xff\xe2"), *feed(bytearray(b"\x82")), *feed(b"\xac!"), *feed(b"\xf0"), *decoder.finish()]


CALLS = {
    "pieces": lambda: (list(pieces(b"a\xff\xe2\x82")), pieces(bytearray(5))[2], list(reversed(pieces(b"abc\0", "utf16le")))),
    "pieces that are left": lambda: next(iter(pieces(b"abc"))),
    "Decoder": lambda: [it for name in ("feed", "feed_faults") for it in in_parts(Decoder(), name)],
    "Decoder that is left": lambda: (next(Decoder().feed(b"abc")), Decoder().feed_faults(bytearray(b"\xff")), copy.copy(Decoder("utf16le"))),
    "streams": lambda: (list(stream_pieces([b"a\xe2", b"\xff"])), list(stream_faults([bytearray(b"\xff")]))),
    "Ends": lambda: (next(Ends(b"a\xff")), Ends(bytearray(3), "utf16le").next_back()),
    "faults": lambda: (list(faults(b"a\xff\xe2")), list(faults(bytearray(b"\xff")))),
    "located": lambda: (list(located(b"a" * 300 + b"\xff" + "é".encode() * 300 + b"\n\xe2")), [it.line for it in located(b"\xff\n" * 400)]),
    "located that is left": lambda: (next(located(b"a" * 300 + b"\xff\xff")), next(stream_located([b"a\n" * 300 + b"\xff\xff"]))),
    "located in parts": lambda: list(stream_located([b"a\n" * 300, b"\xff" + "é".encode() * 300, bytearray(b"\xff\xff")])),
    "counts": lambda: (char_count(bytearray(9)), first_fault(memoryview(b"\xff")), is_valid(b""), boundary_before(b"abc", 10**30)),
    "numbers": lambda: (offset_of(bytearray(70_000), 69_999), number_of(memoryview(b"a\xff"), 10**30), offset_of(b"a", 10**30), changed_range(bytearray(9), 1, 2)),
    "wrong numbers": failing(lambda: (number_of(bytearray(9), -1))),
    "ends and marks": lambda: (undecided_len(bytearray(b"a\xe2")), encoding_of_bom(b"\xff\xfe"), encoding_of_bom(memoryview(b"a"))),
    "surveys": lambda: (survey(bytearray(70_000)), guess([b"caf\xc3", bytearray(b"\xa9")]), copy.copy(Surveyor()).survey(), survey(io.BytesIO(b"abc"))),
    "wrong surveys": failing(lambda: guess([b"a", 1])),
    "states of surveyors": failing(lambda: Surveyor().__setstate__((b"ab", None))),
    "recode": lambda: (recode(b"\xff" * 100, "utf8", "utf16le"), recode(bytearray(70_000), "utf8", "utf8")),
    "recoded_len": lambda: (recoded_len(b"a", "utf8", "utf8"), recoded_len(bytearray(70_000), "utf8", "utf8")),
    "repair": lambda: [recode(b"a\xff" * 99, "utf8", "utf8", it) for it in ("ignore", "windows-1252", {0xFF: "€"}, chr, lambda byte: None)],
    "Recoder with a table": lambda: pickle.loads(pickle.dumps(Recoder("utf8", "utf16le", {0xFF: "€"}))).feed(b"\xff\xe2"),
    "wrong tables": failing(lambda: recode(bytearray(b"\xff"), "utf8", "utf8", {0xFF: "ab"})),
    "error handlers": lambda: [b"a\xff".decode(it, "noddychest.windows-1252") for it in ("utf-8", "noddychest-utf8")],
    "Recoder": lambda: (Recoder("utf8", "utf8").feed(b"\xe2"), copy.copy(Recoder("utf8", "utf16le")).feed(bytearray(b"a"))),
    "decode": lambda: [b"a\xff\xe2".decode("noddychest-utf8", it) for it in ("ignore", "replace", "noddychest.leak", "noddychest.other")],
    "in parts": lambda: list(codecs.iterdecode([b"\xe2", b"\x82\xac\xff"], "noddychest-utf8", "backslashreplace")),
    "wrong data": failing(lambda: pieces(5)),
    "scattered data": failing(lambda: is_valid(memoryview(b"abcd")[::2])),
    "wrong names": failing(lambda: recode(b"", "utf7", "utf8")),
    "strict": failing(lambda: recode(bytearray(b"\xff"), "utf8", "utf8", "strict")),
    "strict parts": failing(lambda: Recoder("utf8", "utf8", "strict").feed(b"a\xff")),
    "strict decoding": failing(lambda: b"a\xff".decode("noddychest-utf8")),
    "handlers": failing(lambda: b"a\xff".decode("noddychest-utf8", "noddychest.none")),
    "wrong parts": failing(lambda: Decoder().feed(memoryview(b"abcd")[::2])),
    "states of decoders": failing(lambda: Decoder().__setstate__((0, 0, b"ab", None))),
    "states": failing(lambda: Recoder("utf8", "utf8").__setstate__((0, 0, 0, (b"ab", 0, 2), None))),
}
codecs.register_error("noddychest.leak", lambda error: ("x" * 70, error.end))
codecs.register_error("noddychest.none", lambda error: (None, error.end))


def other(error):
    error.object = bytes(bytearray(b"other"))
    return "", 3


codecs.register_error("noddychest.other", other)


class Leaks(unittest.TestCase):
    def test_nothing_is_left(self):
        for name, call in CALLS.items():
            for _ in range(300):
                call()
            gc.collect()
            tracemalloc.start()
            for _ in range(100):
                call()
            gc.collect()
            before = tracemalloc.get_traced_memory()[0]
            for _ in range(2000):
                call()
            gc.collect()
            # (one object for each call would be 32,000 bytes or more; the interpreter keeps some for later)
            self.assertLess(tracemalloc.get_traced_memory()[0] - before, 30_000, name)
            tracemalloc.stop()

    def test_references(self):
        """What the module shares is let go. (From 3.12 on nobody counts the references to None and small numbers.)"""
        for name, call in CALLS.items():
            watched = [Piece, FaultKind.NON_UTF8_BYTE, *([None, 0, 1, 2] if sys.version_info < (3, 12) else [])]
            before = [sys.getrefcount(it) for it in watched]
            for _ in range(2000):
                call()
            after = [sys.getrefcount(it) for it in watched]
            self.assertLess(max(abs(a - b) for a, b in zip(before, after)), 1000, (name, before, after))


if __name__ == "__main__":
    unittest.main()
