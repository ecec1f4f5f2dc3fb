"""The codecs: decoding with each error handler, encoding, in parts, as streams, and every split."""
import array
import codecs
import copy
import io
import itertools
import os
import pickle
import random
import subprocess
import sys
import tempfile
import unittest

import noddychest
from noddychest import FaultKind, FaultError

import outside

INPUTS = 20_000


def by_hand(data, encoding, replaced):
    """What the pieces become where each fault is put through `replaced`."""
    return "".join(replaced(data[at:at + size]) if char is None else char for at, char, size in outside.cut(data, encoding))


HANDLERS = {
    "replace": lambda fault: "\ufffd",
    "ignore": lambda fault: "",
    "backslashreplace": lambda fault: "".join(f"\\x{it:02x}" for it in fault),
    "noddychest.count": lambda fault: f"<{len(fault)}>",
}
codecs.register_error("noddychest.count", lambda error: (f"<{error.end - error.start}>", error.end))


class Decoding(unittest.TestCase):
    def test_handlers(self):
        for data in outside.inputs(3000, 20, seed=12):
            for name, encoding in outside.CODECS.items():
                for errors, replaced in HANDLERS.items():
                    self.assertEqual(data.decode(name, errors), by_hand(data, encoding, replaced), (data, name, errors))

    def test_surrogateescape(self):
        for data in outside.inputs(3000, 20, seed=13):
            text = data.decode("noddychest-utf8", "surrogateescape")
            self.assertEqual(text, by_hand(data, "utf-8", lambda fault: chr(0xDC00 + fault[0])))
            self.assertEqual(text.encode("noddychest-utf8", "surrogateescape"), data)

    def test_surrogatepass(self):
        text = "a\ud800b\udfffc\ud83d"
        for name, encoding in outside.CODECS.items():
            data = text.encode(encoding, "surrogatepass")
            self.assertEqual(text.encode(name, "surrogatepass"), data)
            self.assertEqual(data.decode(name, "surrogatepass"), text)
        with self.assertRaises(UnicodeDecodeError) as raised:
            b"a\xff".decode("noddychest-utf8", "surrogatepass")
        self.assertEqual(raised.exception.encoding, "noddychest-utf8")

    def test_strict(self):
        with self.assertRaises(UnicodeDecodeError) as raised:
            b"ab\xe2\x82A".decode("noddychest-utf8")
        fault = raised.exception
        self.assertIsInstance(fault, FaultError)
        self.assertEqual((fault.encoding, fault.object, fault.start, fault.end), ("noddychest-utf8", b"ab\xe2\x82A", 2, 3))
        self.assertEqual((fault.reason, fault.error, fault.offset), (fault.error.reason, FaultKind.INTERRUPTED_SEQUENCE, 2))
        self.assertIn("'noddychest-utf8' codec can't decode byte 0xe2 in position 2: ", str(fault))

    def test_unknown_handler(self):
        for name in outside.CODECS:
            self.assertRaises(LookupError, b"\xff\xff\xff".decode, name, "no such handler")
            self.assertRaises(LookupError, "\ud800".encode, name, "no such handler")
        self.assertRaises(LookupError, b"a".decode, "noddychest-utf7")
        self.assertRaises(LookupError, codecs.lookup, "noddychest")

    def test_each_fault_is_asked(self):
        seen = []

        def note(error):
            seen.append((error.encoding, error.start, error.end, error.object, error.reason == error.error.reason))
            return "", error.end

        codecs.register_error("noddychest.note", note)
        data = b"\xffa\xe2\x82b"
        self.assertEqual(data.decode("noddychest-utf8", "noddychest.note"), "ab")
        self.assertEqual(seen, [("noddychest-utf8", at, at + 1, data, True) for at in (0, 2, 3)])
        seen.clear()
        data = b"a\0\0\xd8b\0\0"
        self.assertEqual(data.decode("noddychest-utf16le", "noddychest.note"), "ab")
        self.assertEqual([it[1:3] for it in seen], [(2, 4), (6, 7)])

    def test_where_a_handler_goes_on(self):
        answers = []
        codecs.register_error("noddychest.on", lambda error: answers.pop(0))
        for position, text in [(1, "<>abc"), (4, "<>"), (-1, "<>c"), (3, "<>c"), (2, "<>bc")]:
            answers.append(("<>", position))
            self.assertEqual(b"\xffabc".decode("noddychest-utf8", "noddychest.on"), text)
        for position in (5, -5, 1000):
            answers.append(("", position))
            self.assertRaises(IndexError, b"\xffabc".decode, "noddychest-utf8", "noddychest.on")
        for answer in (None, "", ("",), ("", "1"), (b"", 1), (1, 1), ("", 1, 2), ["", 1]):
            answers.append(answer)
            self.assertRaises(TypeError, b"\xffabc".decode, "noddychest-utf8", "noddychest.on")
        answers += [("again ", 0), ("!", 1)]
        self.assertEqual(b"\xffa".decode("noddychest-utf8", "noddychest.on"), "again !a")

    def test_handler_puts_other_bytes(self):
        def other(error):
            error.object = b"other\xc3\xa9"
            return "", 1

        def none(error):
            error.object = 42
            return "", 1

        codecs.register_error("noddychest.other", other)
        codecs.register_error("noddychest.none", none)
        self.assertEqual(b"a\xffb".decode("noddychest-utf8", "noddychest.other"), "atheré")
        self.assertRaises(TypeError, b"a\xffb".decode, "noddychest-utf8", "noddychest.none")

    def test_bytes_like(self):
        data = "né".encode() + b"\xff"
        for it in (data, bytearray(data), memoryview(data), memoryview(b"_" + data)[1:]):
            self.assertEqual(codecs.decode(it, "noddychest-utf8", "replace"), "né\ufffd")
            self.assertEqual(codecs.decode(it, "noddychest-utf8", "ignore"), "né")
        self.assertRaises(TypeError, codecs.decode, "text", "noddychest-utf8")
        self.assertRaises(BufferError, codecs.decode, memoryview(b"abcd")[::2], "noddychest-utf8")

    def test_names(self):
        for name in outside.CODECS:
            self.assertEqual(codecs.lookup(name).name, name)
        for name in ("noddychest_utf8", "Noddychest-UTF-8", "noddychest utf 8"):
            self.assertEqual(codecs.lookup(name).name, "noddychest-utf8")
        self.assertEqual(codecs.lookup("noddychest_utf_16_be").name, "noddychest-utf16be")


class Encoding(unittest.TestCase):
    def test_as_the_interpreter(self):
        source = random.Random(14)
        for _ in range(3000):
            text = "".join(source.choice(["a", "é", "€", "😀", "\ud800", "\udc80", "\udfff"]) for _ in range(source.randint(0, 8)))
            for name, encoding in outside.CODECS.items():
                for errors in ("strict", "replace", "ignore", "backslashreplace", "xmlcharrefreplace", "surrogateescape", "surrogatepass"):
                    answers = []
                    for codec in (encoding, name):
                        try:
                            answers.append(text.encode(codec, errors))
                        except UnicodeEncodeError as error:
                            self.assertEqual(error.encoding, codec)
                            answers.append((error.start, error.end, error.object, error.reason))
                    self.assertEqual(answers[0], answers[1], (text, name, errors))


class Streams(unittest.TestCase):
    TEXT = "né\r\n€uro\n😀 " * 700

    def test_files(self):
        with tempfile.TemporaryDirectory() as folder:
            path = os.path.join(folder, "text")
            for name, encoding in outside.CODECS.items():
                for opened in (codecs.open, lambda path, mode, it, **more: open(path, mode, encoding=it, newline="", **more)):
                    with opened(path, "w", name) as file:
                        file.write(self.TEXT)
                    with open(path, "rb") as file:
                        self.assertEqual(file.read(), self.TEXT.encode(encoding))
                    with opened(path, "r", name) as file:
                        self.assertEqual(file.read(), self.TEXT)
                    with opened(path, "r", name) as file:
                        self.assertEqual("".join(file), self.TEXT)

    def test_text_io_seeks(self):
        for name, encoding in outside.CODECS.items():
            file = io.TextIOWrapper(io.BytesIO(self.TEXT.encode(encoding)), encoding=name, newline="")
            start = file.read(5)
            place = file.tell()
            rest = file.read()
            file.seek(place)
            self.assertEqual((start + rest, file.read()), (self.TEXT, rest))

    def test_text_io_with_faults(self):
        data = b"ab\xff\n" * 3000 + b"\xe2\x82"
        for errors in ("replace", "ignore", "backslashreplace", "surrogateescape"):
            file = io.TextIOWrapper(io.BytesIO(data), encoding="noddychest-utf8", errors=errors)
            self.assertEqual(file.read(), data.decode("noddychest-utf8", errors))
        file = io.TextIOWrapper(io.BytesIO(data), encoding="noddychest-utf8")
        self.assertRaises(UnicodeDecodeError, file.read)

    def test_state(self):
        for name, encoding in outside.CODECS.items():
            decoder = codecs.getincrementaldecoder(name)()
            data = "a😀".encode(encoding)
            begun = decoder.decode(data[:-1])
            state = decoder.getstate()
            self.assertEqual((begun, state), ("a", (data[-4:-1], 0)))
            self.assertEqual(decoder.decode(data[-1:]), "😀")
            decoder.setstate(state)
            self.assertEqual(decoder.decode(data[-1:], True), "😀")
            decoder.setstate(state)
            decoder.reset()
            self.assertEqual(decoder.decode("b".encode(encoding), True), "b")

    def test_a_state_that_is_none_changes_nothing(self):
        for name in outside.CODECS:
            decoder = codecs.getincrementaldecoder(name)()
            decoder.decode("a".encode(outside.CODECS[name])[:1] if name != "noddychest-utf8" else b"\xe2")
            state = decoder.getstate()
            for wrong in (("text", 0), (5, 0), (None, 0), (bytearray(b"a"), 0), (), 5):
                with self.assertRaises((TypeError, IndexError)):
                    decoder.setstate(wrong)
                self.assertEqual((decoder.getstate(), decoder.getstate()[0].before), (state, state[0].before))

    def test_a_handler_that_resets(self):
        """What it asks for would be undone when the call ends; so it is rejected."""
        refused = []

        def handler(error):
            for call in (decoder.reset, lambda: decoder.setstate((b"", 0))):
                try:
                    call()
                except RuntimeError as why:
                    refused.append(why)
            return "?", error.end

        codecs.register_error("noddychest.resets", handler)
        decoder = codecs.getincrementaldecoder("noddychest-utf8")("noddychest.resets")
        self.assertEqual((decoder.decode(b"a\xff\xe2"), len(refused), decoder.getstate()), ("a?", 2, (b"\xe2", 0)))
        decoder.reset()
        self.assertEqual(decoder.decode(b"b", True), "b")

    def test_iterdecode(self):
        parts = [bytes([it]) for it in "né€😀".encode()]
        self.assertEqual("".join(codecs.iterdecode(parts, "noddychest-utf8")), "né€😀")
        self.assertEqual(b"".join(codecs.iterencode("né", "noddychest-utf16be")), b"\0n\0\xe9")


class Offsets(unittest.TestCase):
    """`offset` counts from the first byte of all input, wherever it was cut; `start` lies in `object`."""

    def raised(self, work):
        with self.assertRaises(FaultError) as raised:
            work()
        fault = raised.exception
        self.assertEqual(fault.end - fault.start, len(fault.object[fault.start:fault.end]))
        return fault

    def inputs(self):
        for name, encoding in outside.CODECS.items():
            unit = "a".encode(encoding)
            wrong = b"\xff" if encoding == "utf-8" else "\udc00".encode(encoding, "surrogatepass")
            for count in (0, 1, 8191, 8192, 8193, 100_001):
                yield name, "é".encode(encoding) + unit * count, wrong

    def test_files(self):
        with tempfile.TemporaryDirectory() as folder:
            path = os.path.join(folder, "text")
            for name, before, wrong in self.inputs():
                with open(path, "wb") as file:
                    file.write(before + wrong + before)
                for newline in (None, ""):
                    with open(path, encoding=name, newline=newline) as file:
                        self.assertEqual(self.raised(file.read).offset, len(before))
                    with open(path, encoding=name, newline=newline) as file:
                        self.assertEqual(self.raised(lambda: [*iter(lambda: file.read(1000), "")]).offset, len(before))
                with codecs.open(path, encoding=name) as file:
                    self.assertEqual(self.raised(lambda: [*iter(lambda: file.read(100), "")]).offset, len(before))
                    file.seek(0)
                    self.assertEqual(self.raised(file.read).offset, len(before))

    def test_files_that_tell_and_seek(self):
        lines = "".join(f"Zeile {at} größer\n" for at in range(2000)).encode()
        with tempfile.TemporaryDirectory() as folder:
            path = os.path.join(folder, "text")
            with open(path, "wb") as file:
                file.write(lines + b"\xff\n" + lines)
            for newline in (None, ""):
                with open(path, encoding="noddychest-utf8", newline=newline) as file:

                    def read():
                        while file.readline():
                            file.tell()

                    self.assertEqual(self.raised(read).offset, len(lines))
                    file.seek(0)
                    self.assertEqual(self.raised(read).offset, len(lines))
                    file.seek(0)
                    file.readline()
                    place = file.tell()
                    file.readline()
                    file.seek(place)
                    self.assertEqual(file.readline(), "Zeile 1 größer\n")

    def test_iterdecode(self):
        for name, before, wrong in self.inputs():
            data = before + wrong
            for size in (1, 7, 4096):
                parts = [data[at:at + size] for at in range(0, len(data), size)]
                if len(parts) <= 20_000:
                    self.assertEqual(self.raised(lambda: [*codecs.iterdecode(parts, name)]).offset, len(before))

    def test_incremental(self):
        for data in outside.inputs(2000, 12, seed=22):
            for name, encoding in outside.CODECS.items():
                try:
                    data.decode(name)
                    continue
                except FaultError as fault:
                    first = fault.offset
                for parts in splits(data):
                    decoder = codecs.getincrementaldecoder(name)()
                    with self.assertRaises(FaultError) as raised:
                        for at, part in enumerate(parts):
                            decoder.decode(part, at == len(parts) - 1)
                    self.assertEqual(raised.exception.offset, first, (parts, name))

    def test_states(self):
        decoder = codecs.getincrementaldecoder("noddychest-utf8")()
        decoder.decode(b"abc\xe2\x82")
        state = decoder.getstate()
        self.assertEqual((state, type(state)), ((b"\xe2\x82", 0), tuple))
        for _ in range(2):
            decoder.setstate(state)
            self.assertEqual(self.raised(lambda: decoder.decode(b"\xacx\xff")).offset, 7)
        decoder.setstate((b"\xe2\x82", 0))  # one that another decoder has: it counts from there
        self.assertEqual(self.raised(lambda: decoder.decode(b"\xacx\xff")).offset, 4)
        decoder.reset()
        self.assertEqual(self.raised(lambda: decoder.decode(b"\xff")).offset, 0)

    def test_handlers_see_it(self):
        seen = []
        codecs.register_error("noddychest.offset", lambda error: (seen.append((error.offset, error.error)) or "", error.end))
        data = b"a\xffb\xe2\x82c\xed\xa0"
        data.decode("noddychest-utf8", "noddychest.offset")
        whole, seen[:] = list(seen), []
        "".join(codecs.iterdecode([bytes([it]) for it in data], "noddychest-utf8", "noddychest.offset"))
        self.assertEqual([it[0] for it in whole], [1, 3, 4, 6, 7])
        self.assertEqual(seen, whole)


class OwnHandlers(unittest.TestCase):
    """The interpreter's own handlers are not asked fault by fault. The text is the same."""

    def test_as_asked(self):
        for errors in ("ignore", "replace", "backslashreplace", "surrogateescape"):
            own = codecs.lookup_error(errors)
            codecs.register_error("noddychest.asked", lambda error: own(error))
            for data in [*outside.inputs(4000, 30, seed=23), *(it[:3001] for it in outside.DENSE), *self.mixed()]:
                for name in outside.CODECS:
                    self.assertEqual(told(data, name, errors), told(data, name, "noddychest.asked"), (data[:50], name, errors))

    def mixed(self):
        source = random.Random(24)
        for _ in range(150):
            parts = []
            for _ in range(source.randint(1, 8)):
                parts.append(source.choice(["a", "é", "€", "😀"]).encode() * source.choice([1, 15, 16, 17, 63, 64, 65, 500, 5000]))
                parts.append(source.choice([b"\xff", b"\xe2\x82", b"\x80", b""]) * source.choice([1, 2, 33, 600, 5000]))
            yield b"".join(parts)
            yield b"".join(parts) + b"\0\xd8" * 700 + "é".encode("utf-16-le") * 300 + b"\xd8"

    def test_other_handlers_under_their_names_are_asked(self):
        own = codecs.lookup_error("ignore")
        codecs.register_error("ignore", lambda error: ("[mine]", error.end))
        try:
            self.assertEqual(b"a\xff\xff".decode("noddychest-utf8", "ignore"), "a[mine][mine]")
        finally:
            codecs.register_error("ignore", own)
        codecs.register_error("noddychest.renamed", own)
        self.assertEqual(b"a\xff\xff".decode("noddychest-utf8", "noddychest.renamed"), "a")


class DecodersOfAll(unittest.TestCase):
    """What codecs.getdecoder returns, which decodes without a call of Python's where no handler has to be asked."""

    def test_arguments(self):
        for name, theirs in outside.CODECS.items():
            decode, data = codecs.getdecoder(name), "aé€😀".encode(theirs)
            for given in (data, bytearray(data), memoryview(data), type("Mine", (bytes,), {})(data), array.array("B", data)):
                for made in (decode(given), decode(given, "strict"), decode(given, None), decode(input=given), decode(given, errors="ignore")):
                    self.assertEqual(made, ("aé€😀", len(data)))
            self.assertEqual(decode(b""), ("", 0))
            self.assertEqual(decode(array.array("H", data * 2)), (2 * "aé€😀", 2 * len(data)))
            for wrong in ((), (1,), ("a",), (None,), (data, "strict", 1), (memoryview(data)[::2],)):
                with self.assertRaises((TypeError, BufferError)):
                    decode(*wrong)
            with self.assertRaises(LookupError):
                decode(data + b"\xff", "noddychest.unknown")
            self.assertEqual(decode(data, "noddychest.unknown")[0], "aé€😀")

    def test_lengths(self):
        """On both sides of the lengths from which bytes are not copied, and from which other threads run; each at both ends of a text."""
        for length in (0, 1, 1023, 1024, 1025, 65535, 65536, 65537, 300_000):
            for name, theirs in outside.CODECS.items():
                data = ("a" * length).encode(theirs)
                self.assertEqual(codecs.getdecoder(name)(data), ("a" * length, len(data)))
                for bad in (b"\xff\xdf" + data, data + b"\xff\xdf"):
                    bad = bad if name == "noddychest-utf8" or not name.endswith("be") else bad.replace(b"\xff\xdf", b"\xdf\xff")
                    self.assertRaises(FaultError, bad.decode, name)
                    self.assertEqual(bad.decode(name, "ignore"), "a" * length)
                    self.assertEqual(bad.decode(name, "replace").replace("\ufffd", ""), "a" * length)


def told(data, encoding, errors):
    try:
        return data.decode(encoding, errors)
    except UnicodeDecodeError as error:
        return error.start, error.end, error.reason


class CopiesOfErrors(unittest.TestCase):
    def test_are_of_the_same_byte(self):
        """Also of one that a handler raised for a later byte than the first."""
        def second(error):
            if error.start > 1:
                raise error
            return "?", error.end

        codecs.register_error("noddychest.second", second)
        for data, errors in ((b"a\xffbcd\xe2\x82x", "noddychest.second"), (b"a\xed\xa0\x80bc\xf0!", "surrogatepass"), (b"\xff", "strict")):
            with self.assertRaises(FaultError) as raised:
                data.decode("noddychest-utf8", errors)
            error = raised.exception
            error.more = "more"
            for again in (copy.copy(error), copy.deepcopy(error), pickle.loads(pickle.dumps(error))):
                for name in ("encoding", "object", "start", "end", "reason", "offset", "error", "more"):
                    self.assertEqual(getattr(again, name), getattr(error, name), (name, data))
                self.assertEqual((type(again), str(again)), (FaultError, str(error)))


class WeirdHandlers(unittest.TestCase):
    def test_names(self):
        for errors in ("", "\0", "STRICT", "ignore ", "\udc80", "x" * 100_000):
            self.assertRaises((LookupError, UnicodeEncodeError, ValueError), codecs.decode, b"\xff", "noddychest-utf8", errors or "\1")
        for errors in (5, b"ignore", ["x"], object()):
            self.assertRaises(TypeError, codecs.decode, b"\xff", "noddychest-utf8", errors)
            self.assertRaises(TypeError, codecs.getincrementaldecoder("noddychest-utf8")(errors).decode, b"\xff")

    def test_handlers(self):
        class Odd:
            __hash__ = None
            __name__ = "ignore_errors"
            __module__ = None

            def __call__(self, error):
                return "odd", error.end

        codecs.register_error("noddychest.odd", Odd())
        self.assertEqual(b"a\xff".decode("noddychest-utf8", "noddychest.odd"), "aodd")

        class Text(str):
            pass

        class Number(int):
            pass

        codecs.register_error("noddychest.subclasses", lambda error: (Text("t" * 100), Number(error.end)))
        self.assertEqual(b"\xff".decode("noddychest-utf8", "noddychest.subclasses"), "t" * 100)
        codecs.register_error("noddychest.huge", lambda error: ("", 10**30))
        codecs.register_error("noddychest.low", lambda error: ("", -(10**30)))
        for errors in ("noddychest.huge", "noddychest.low"):
            self.assertRaises(IndexError, b"\xff".decode, "noddychest-utf8", errors)
        codecs.register_error("noddychest.surrogates", lambda error: ("\ud800" * 70, error.end))
        self.assertEqual(b"\xffa\xff".decode("noddychest-utf8", "noddychest.surrogates"), "\ud800" * 70 + "a" + "\ud800" * 70)

    def test_handler_that_decodes(self):
        def deep(error):
            return error.object[error.end:error.end + 1].decode("noddychest-utf8", "ignore"), error.end

        codecs.register_error("noddychest.deep", deep)
        self.assertEqual(b"\xffa\xff\xff".decode("noddychest-utf8", "noddychest.deep"), "aa")

    def test_handler_that_shrinks_the_bytes(self):
        def shrink(error):
            error.object = error.object[:1]
            return "", 1

        codecs.register_error("noddychest.shrink", shrink)
        self.assertEqual((b"\xff" * 100_000).decode("noddychest-utf8", "noddychest.shrink"), "")

    def test_handler_that_raises(self):
        codecs.register_error("noddychest.raise", lambda error: 1 / 0)
        self.assertRaises(ZeroDivisionError, b"a\xff".decode, "noddychest-utf8", "noddychest.raise")
        seen = []
        codecs.register_error("noddychest.keep", lambda error: (seen.append(error) or "", error.end))
        b"a\xff\xff".decode("noddychest-utf8", "noddychest.keep")
        self.assertEqual((seen[0] is seen[1], seen[1].encoding), (True, "noddychest-utf8"))


def fed(decoder, parts):
    """The text of each part, up to the part in which a fault is raised; and where that begins in the whole input."""
    found, read = [], 0
    for place, part in enumerate(parts):
        before = len(decoder.getstate()[0])
        try:
            found.append(decoder.decode(part, place == len(parts) - 1))
        except UnicodeDecodeError as error:
            return found, read - before + error.start
        read += len(part)
    return found, None


def splits(data):
    """All ways to cut short bytes into parts; of longer ones each way into two, and each byte separately."""
    places = range(1, len(data))
    chosen = itertools.chain.from_iterable(itertools.combinations(places, count) for count in range(len(data) if len(data) < 5 else 2))
    for cuts in [*chosen, tuple(places)]:
        yield [data[a:b] for a, b in zip((0, *cuts), (*cuts, len(data)))]


class EverySplit(unittest.TestCase):
    """compared with the interpreter's strict decoder: each part gives the same text, and the same part raises at the same offset."""

    def test_strict(self):
        for name, encoding in outside.CODECS.items():
            ours, builtin = codecs.getincrementaldecoder(name)(), codecs.getincrementaldecoder(encoding)()
            for data in outside.inputs(INPUTS, 9, seed=15):
                for parts in splits(data):
                    ours.reset()
                    builtin.reset()
                    if fed(ours, parts) != fed(builtin, parts):
                        self.fail((parts, name))

    def test_with_handlers(self):
        source = random.Random(16)
        for data in outside.inputs(2000, 9, seed=17):
            for name in outside.CODECS:
                errors = source.choice([*HANDLERS, "surrogatepass"] if name.endswith("8") else list(HANDLERS))
                try:
                    whole = data.decode(name, errors)
                except UnicodeDecodeError:
                    continue
                decoder = codecs.getincrementaldecoder(name)(errors)
                for parts in splits(data):
                    decoder.reset()
                    text = "".join(decoder.decode(part) for part in parts) + decoder.decode(b"", True)
                    self.assertEqual(text, whole, (parts, name, errors))


class EachReason(unittest.TestCase):
    """A handler is told the reason that a `Decoder` gives for the whole input, however it comes in parts."""

    def test_reasons(self):
        told = []

        def handler(error):
            told.append((error.offset, error.error))
            return "", error.end

        codecs.register_error("noddychest-test-reasons", handler)
        faulty = [bytes.fromhex(it) for it in ("f4908080", "e08080", "f0808080", "eda080", "f490", "e08041", "f4908041", "edbf", "f080ff")]
        for data in [*faulty, *outside.inputs(500, 9, seed=29)]:
            for name, encoding in zip(outside.CODECS, ("utf8", "utf16le", "utf16be")):
                whole = [(it.offset, it.error) for it in noddychest.stream_faults([data], encoding)]
                for parts in splits(data):
                    told.clear()
                    decoding = codecs.getincrementaldecoder(name)("noddychest-test-reasons")
                    for part in parts:
                        decoding.decode(part)
                    decoding.decode(b"", True)
                    self.assertEqual(told, whole, (parts, name))


def all_splits(data):
    for count in range(1 << max(len(data) - 1, 0)):
        cuts = [at for at in range(1, len(data)) if count >> (at - 1) & 1]
        yield [data[a:b] for a, b in zip((0, *cuts), (*cuts, len(data)))]


def told_in_parts(parts, name, errors):
    """The text, or the offset of the fault at which a handler raised."""
    decoder = codecs.getincrementaldecoder(name)(errors)
    try:
        return "".join(map(decoder.decode, parts)) + decoder.decode(b"", True)
    except FaultError as error:
        return error.offset


class WhereHandlersGoOn(unittest.TestCase):
    """A handler may go on inside of a unit, or of a character. From there on text is decoded as if it began there, however it comes in
    parts."""

    BYTES = bytes.fromhex("0041d8dbdcdfe282ffed")

    def handlers(self):
        """What each puts in place of a fault, and where it goes on; None if it raises."""
        def after_one(fault):
            return f"<{fault[0]:x}>", 1

        def now_and_then(fault):
            return "?", 1 if fault[-1] % 3 else len(fault)

        def or_raises(fault):
            return ("!", 1) if fault[0] != 0x41 else None

        def escaped(fault):
            bad = fault[:next((at for at, it in enumerate(fault) if it < 128), len(fault))]
            return ("".join(chr(0xDC00 + it) for it in bad), len(bad)) if bad else None

        for function in (after_one, now_and_then, or_raises):
            def handler(error, function=function):
                made = function(error.object[error.start:error.end])
                if made is None:
                    raise error
                return made[0], error.start + made[1]

            codecs.register_error(f"noddychest.{function.__name__}", handler)
            yield f"noddychest.{function.__name__}", function
        yield "surrogateescape", escaped

    def expected(self, data, encoding, function):
        at, text = 0, ""
        while at < len(data):
            _, char, size = outside.cut(data[at:at + 4], encoding)[0]
            made = (char, size) if char is not None else function(data[at:at + size])
            if made is None:
                return at
            text, at = text + made[0], at + made[1]
        return text

    def test_every_division(self):
        source, handlers = random.Random(71), [*self.handlers()]
        for _ in range(4000):
            data = bytes(source.choice(self.BYTES) for _ in range(source.randint(1, 7)))
            for name, encoding in outside.CODECS.items():
                errors, function = source.choice(handlers)
                whole = self.expected(data, encoding, function)
                try:
                    self.assertEqual(data.decode(name, errors), whole, (data, name, errors))
                except FaultError as error:
                    self.assertEqual(error.offset, whole, (data, name, errors))
                for parts in all_splits(data):
                    self.assertEqual(told_in_parts(parts, name, errors), whole, (parts, name, errors))

    def test_long_texts(self):
        source, handlers = random.Random(72), [*self.handlers()][:2]
        for _ in range(60):
            data = b"".join(source.choice([b"a\0", b"\0a", b"\0\xdc", b"\xdc\0", b"\xd8\0\xdc\0", b"\xe2\x82"]) * source.choice([1, 2, 300])
                            for _ in range(source.randint(1, 20)))
            for name, encoding in outside.CODECS.items():
                errors, function = source.choice(handlers)
                whole = self.expected(data, encoding, function)
                self.assertEqual(data.decode(name, errors), whole)
                for _ in range(3):
                    cuts = sorted(source.randrange(len(data) + 1) for _ in range(source.randint(0, 9)))
                    self.assertEqual(told_in_parts([data[a:b] for a, b in zip((0, *cuts), (*cuts, len(data)))], name, errors), whole)

    def test_readers(self):
        """A file that is read in small blocks."""
        [*self.handlers()]
        data = (b"\xdc\0A" + "né".encode("utf-16-be")) * 100
        for errors in ("noddychest.after_one", "surrogateescape"):
            whole = data.decode("noddychest-utf16be", errors)
            for size in (1, 2, 3, 7):
                reader = codecs.getreader("noddychest-utf16be")(io.BytesIO(data), errors)
                self.assertEqual("".join(iter(lambda: reader.read(size), "")), whole)
            file = io.TextIOWrapper(io.BytesIO(data), "noddychest-utf16be", errors, newline="")
            file._CHUNK_SIZE = 3
            self.assertEqual(file.read(), whole)

    def test_other_bytes_in_parts(self):
        """What a handler puts in place of the bytes of a part is decoded to its end; what of that is held is not lost, and not read twice."""
        def without(error):
            error.object = error.object[:error.start] + error.object[error.end:]
            return "", error.start

        codecs.register_error("noddychest.without", without)
        data = b"a\xff\xe2\x82\xacb\xff\xff\xc3\xa9\xff"
        for parts in all_splits(data):
            self.assertEqual(told_in_parts(parts, "noddychest-utf8", "noddychest.without"), "a€bé", parts)


class InOtherProcesses(unittest.TestCase):
    """The codecs are found where nothing has imported the package."""

    def run_python(self, program):
        outside.skip_unless_installed(self)
        ran = subprocess.run([sys.executable, "-c", program], stdout=subprocess.PIPE, text=True, check=True)
        return ran.stdout.strip()

    def test_at_the_start(self):
        for name in ("noddychest-utf8", "Noddychest_UTF_8"):
            self.assertEqual(self.run_python(f"import sys\nbefore = 'noddychest' in sys.modules\n"
                                             f"print(before, b'a\\xff'.decode({name!r}, 'backslashreplace'))"), "False a\\xff")
        self.assertEqual(self.run_python("import codecs\ntry: codecs.lookup('noddychest-utf7')\nexcept LookupError: print('unknown')"), "unknown")

    def test_multiprocessing(self):
        for method in ("spawn", "forkserver"):
            program = ("import codecs, multiprocessing\nwith multiprocessing.get_context({!r}).Pool(1) as pool:\n"
                       "    print(pool.apply(codecs.decode, (b'a\\xff', 'noddychest-utf8', 'backslashreplace')))")
            self.assertEqual(self.run_python(program.format(method)), "a\\xff")

    def test_decoders_are_sent(self):
        for name, encoding in outside.CODECS.items():
            decoder = codecs.getincrementaldecoder(name)("replace")
            data = "a😀".encode(encoding)
            decoder.decode(data[:-1])
            for again in (pickle.loads(pickle.dumps(decoder)), copy.copy(decoder), copy.deepcopy(decoder)):
                self.assertEqual((again.decode(data[-1:]), type(again)), ("😀", type(decoder)))
            encoder = codecs.getincrementalencoder(name)("replace")
            self.assertEqual(pickle.loads(pickle.dumps(encoder)).encode("é"), "é".encode(encoding))
            for function in (codecs.getencoder(name), codecs.getdecoder(name)):
                self.assertIs(pickle.loads(pickle.dumps(function)), function)


if __name__ == "__main__":
    noddychest.is_valid(b"")
    unittest.main()
