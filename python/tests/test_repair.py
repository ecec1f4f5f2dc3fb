"""What invalid bytes become by a table: beside Python's own codecs and a reference of one character at a time."""
import codecs
import collections
import copy
import functools
import io
import multiprocessing
import os
import pickle
import random
import tempfile
import threading
import types
import unittest
from collections.abc import Mapping

from noddychest import FaultError, Recoder, decode, is_valid, parallel, recode, shards

import outside

FORMS = {"utf8": "utf-8", "utf16le": "utf-16-le", "utf16be": "utf-16-be"}
PAIRS = [(source, to) for source in FORMS for to in FORMS]
BYTES = range(0x80, 0x100)


def windows_1252(byte):
    """https://encoding.spec.whatwg.org/#index-windows-1252: five bytes, that Python's codec does not have, are controls."""
    return chr(byte) if byte in (0x81, 0x8D, 0x8F, 0x90, 0x9D) else bytes([byte]).decode("cp1252")


def cyrillic(byte):
    return bytes([byte]).decode("cp866")


# The names of `errors`, and what a byte becomes.
NAMED = {"windows-1252": windows_1252, "latin-1": lambda byte: bytes([byte]).decode("latin-1"), "ignore": lambda byte: ""}
# The same for tables: of one to three bytes in UTF-8, and nothing.
MIXED = ["A", "\0", "\x7f", "\x80", "é", "߿", "ࠀ", "\ud7ff", "\ue000", "€", "\ufffd", "\ufeff", "\uffff", ""]
TABLES = {
    "a mapping of characters": ({it: cyrillic(it) for it in BYTES}, cyrillic),
    "a callable": (cyrillic, cyrillic),
    "code points": ({it: ord(cyrillic(it)) for it in BYTES}, cyrillic),
    "a builtin": (chr, chr),
    "one byte": ({0xE9: "e"}, lambda byte: "e" if byte == 0xE9 else "\ufffd"),
    "no byte": ({}, lambda byte: "\ufffd"),
    "nothing": (dict.fromkeys(BYTES), lambda byte: ""),
    "nothing, returned": (lambda byte: None, lambda byte: ""),
    "characters of all lengths": (lambda byte: MIXED[byte % len(MIXED)], lambda byte: MIXED[byte % len(MIXED)]),
    "all bytes": ({it: "?" for it in range(256)}, lambda byte: "?"),
}
WAYS = {**{name: (name, became) for name, became in NAMED.items()}, **TABLES}


cut = functools.lru_cache(64)(outside.cut)


def reference(data, form, errors, became):
    """The text, and how many faults there are."""
    pieces = cut(data, FORMS[form])
    unit = "" if errors == "ignore" else "\ufffd"
    text = "".join(char if char is not None else became(data[at]) if form == "utf8" else unit for at, char, _ in pieces)
    return text, sum(char is None for _, char, _ in pieces)


def in_parts(data, recoder, source):
    made, at = b"", 0
    while at < len(data):
        size = source.choice([0, 1, 1, 2, 3, 5, 12, 100, 1000])
        made += recoder.feed(data[at:at + size])
        at += size
    return made + recoder.finish()


def mostly_text(count, seed):
    """Text with single bytes of another encoding in it, and random bytes."""
    source = random.Random(seed)
    yield from outside.inputs(count // 2, 40, seed)
    for _ in range(count // 2):
        words = source.choice(["abc ", "абв г", "漢字 a", "😀é a", "aé"])
        data = bytearray("".join(source.choice(words) for _ in range(source.choice([1, 5, 40, 300]))).encode())
        for _ in range(source.choice([0, 1, 2, len(data) // 20])):
            at = source.randrange(len(data) + 1)
            data[at:at] = source.choice([b"\xe9", b"\x93a\x94", b"\xe2\x82", b"\xf0\x9f\x98", b"\xed\xa0\x80", b"\xc0\xaf", b"\xff", b"\x80" * 40])
        yield bytes(data)


class AtOnce(unittest.TestCase):
    def test_every_byte(self):
        for name, (errors, became) in WAYS.items():
            for byte in BYTES:
                for before, after in ((b"", b""), (b"a", b"b"), ("é€😀".encode(), "é".encode()), (b"x" * 100, b"y" * 100)):
                    data = before + bytes([byte]) + after
                    want = reference(data, "utf8", errors, became)[0]
                    self.assertEqual(want, before.decode() + became(byte) + after.decode())
                    self.assertEqual(decode(data, errors=errors), want, (name, data))
                    for to, codec in FORMS.items():
                        self.assertEqual(recode(data, "utf8", to, errors), want.encode(codec), (name, data, to))

    def test_every_two_bytes(self):
        for errors in NAMED:
            for first in BYTES:
                data = b" ".join(bytes([first, second]) for second in range(256))
                self.assertEqual(decode(data, errors=errors), reference(data, "utf8", errors, NAMED[errors])[0], (errors, first))

    def test_windows_1252(self):
        text = "“naïve” – café, 5 €, Š"
        self.assertEqual(decode(text.encode("cp1252"), errors="windows-1252"), text)
        self.assertEqual(decode(text[:9].encode() + text[9:].encode("cp1252"), errors="windows-1252"), text)

    def test_random_inputs(self):
        for data in mostly_text(400, seed=81):
            for name, (errors, became) in WAYS.items():
                for source, to in PAIRS if name in ("ignore", "characters of all lengths") else [("utf8", "utf8")]:
                    want = reference(data, source, errors, became)[0]
                    self.assertEqual(recode(data, source, to, errors), want.encode(FORMS[to]), (name, data, source, to))

    def test_large(self):
        """What is made of them has to grow, and the lock is let go."""
        line, source = "Größe: 4 €, 漢字 😀 ".encode(), random.Random(82)
        for every in (1, 2, 7, 100, 10_000):
            data = bytes(source.choice(BYTES) for _ in range(90_000)) if every == 1 else outside.damaged(line, every, 90_000)
            for name in ("windows-1252", "ignore", "characters of all lengths", "no byte"):
                errors, became = WAYS[name]
                want = reference(data, "utf8", errors, became)[0]
                for to, codec in FORMS.items():
                    self.assertEqual(recode(data, "utf8", to, errors), want.encode(codec), (name, every, to))

    def test_units(self):
        for form, order in (("utf16le", "little"), ("utf16be", "big")):
            data = "a".encode(FORMS[form]) + (0xDC00).to_bytes(2, order) + "😀".encode(FORMS[form]) + (0xD800).to_bytes(2, order) + b"\xe9"
            for errors, text in (("ignore", "a😀"), ("windows-1252", "a\ufffd😀\ufffd\ufffd"), ("latin-1", "a\ufffd😀\ufffd\ufffd"),
                                 (chr, "a\ufffd😀\ufffd\ufffd"), (dict.fromkeys(BYTES), "a\ufffd😀\ufffd\ufffd")):
                self.assertEqual(decode(data, form, errors), text)

    def test_laws(self):
        """Valid text stays as it is; what is made is valid; and made again it stays as it is."""
        text = "".join(chr(scalar) for scalar in range(0x110000) if not 0xD800 <= scalar < 0xE000).encode()
        for errors, _ in WAYS.values():
            self.assertEqual(recode(text, "utf8", "utf8", errors), text)
        for data in mostly_text(200, seed=83):
            for errors, _ in WAYS.values():
                made = recode(data, "utf8", "utf8", errors)
                self.assertTrue(is_valid(made))
                self.assertEqual(recode(made, "utf8", "utf8", errors), made)

    def test_decode(self):
        self.assertEqual(decode("é😀".encode("utf-16-be"), "utf16be"), "é😀")
        self.assertEqual((decode(b"a\xe2\x82"), decode(b"a\xe2\x82", errors="lossy"), decode(bytearray(b"")), decode(memoryview(b"a"))),
                         ("a\ufffd\ufffd", "a\ufffd", "", "a"))
        with self.assertRaises(FaultError) as raised:
            decode(b"ab\xff", errors="strict")
        self.assertEqual((raised.exception.offset, raised.exception.object), (2, b"ab\xff"))
        self.assertEqual("".join(decode(it, errors="windows-1252") for it in shards(memoryview(b"caf\xe9 \xe2\x82!"), 3)), "café â‚!")
        self.assertRaises(LookupError, decode, b"", "utf7")
        self.assertRaises(TypeError, decode, "text")


class InParts(unittest.TestCase):
    def test_random_parts(self):
        source = random.Random(84)
        for data in mostly_text(2000, seed=85):
            form, to = source.choice(PAIRS)
            name = source.choice(list(WAYS))
            errors, became = WAYS[name]
            recoder = Recoder(form, to, errors)
            text, faults = reference(data, form, errors, became)
            self.assertEqual(in_parts(data, recoder, source), text.encode(FORMS[to]), (name, data, form, to))
            self.assertEqual(recoder.replaced, faults, (name, data, form))
            self.assertEqual(recoder.finish(), b"")

    def test_every_division(self):
        data = "é".encode() + b"\xe2\x82" + "😀".encode() + b"\xf0\x9f\x98\xe9"
        want = reference(data, "utf8", "windows-1252", windows_1252)
        for first in range(len(data) + 1):
            for second in range(first, len(data) + 1):
                recoder = Recoder("utf8", "utf8", "windows-1252")
                made = b"".join(map(recoder.feed, (data[:first], data[first:second], data[second:]))) + recoder.finish()
                self.assertEqual((made.decode(), recoder.replaced), want)

    def test_count(self):
        recoder = Recoder("utf8", "utf8", "ignore")
        self.assertEqual((recoder.feed(b"a\xff\xf0\x9f"), recoder.replaced), (b"a", 1))
        self.assertEqual((recoder.finish(), recoder.replaced), (b"", 3))
        self.assertEqual((recoder.feed(b"\xff" * 1000 + b"a"), recoder.replaced), (b"a", 1003))

    def test_copies(self):
        """A copy goes on from the same state, with the table that was read."""
        for errors, became in WAYS.values():
            recoder = Recoder("utf8", "utf8", errors)
            front = recoder.feed(b"a\xff\xe2\x82")
            for again in (copy.copy(recoder), copy.deepcopy(recoder), *(pickle.loads(pickle.dumps(recoder, it)) for it in range(2, pickle.HIGHEST_PROTOCOL + 1))):
                made = (front + again.feed(b"\xe9") + again.finish()).decode()
                self.assertEqual((made, again.replaced), ("a" + "".join(map(became, b"\xff\xe2\x82\xe9")), 4))
            self.assertEqual(recoder.replaced, 1)

    def test_states_that_none_has(self):
        state = list(Recoder("utf8", "utf8", chr).__getstate__())
        for wrong in (b"", bytes(511), bytes(513), -1, 6, 1 << 40, None, "ignore", bytearray(512)):
            state[2] = wrong
            with self.assertRaises((ValueError, TypeError, OverflowError)):
                Recoder("utf8", "utf8").__setstate__(tuple(state))
        state[2] = bytes(range(256)) * 2  # (numbers of no character)
        recoder = Recoder("utf8", "utf8")
        recoder.__setstate__(tuple(state))
        self.assertEqual((recoder.feed(b"a\xffb"), recoder.replaced), (b"ab", 1))


class Wrong(Exception):
    pass


class Reading(Mapping):
    """A mapping that counts what is read of it, and does something then."""

    def __init__(self, entries, meanwhile=lambda it, byte: None):
        self.entries, self.meanwhile, self.read = entries, meanwhile, []

    def __getitem__(self, byte):
        self.read.append(byte)
        self.meanwhile(self, byte)
        return self.entries[byte]

    def __iter__(self):
        return iter(list(self.entries))

    def __len__(self):
        return len(self.entries)


class OwnTables(unittest.TestCase):
    CALLS = {
        "recode": lambda data, errors: recode(data, "utf8", "utf8", errors),
        "decode": lambda data, errors: decode(data, errors=errors).encode(),
        "Recoder": lambda data, errors: in_parts(data, Recoder("utf8", "utf8", errors), random.Random(1)),
        "Shard": lambda data, errors: shards(memoryview(data), 1 << 20)[0].recode("utf8", errors),
    }

    def test_wrong_tables(self):
        for errors, kind, says in [
            ({0xE9: "ab"}, ValueError, "2 characters for byte E9"),
            ({0xE9: "e\u0301"}, ValueError, "2 characters for byte E9"),
            ({0xE9: "😀"}, ValueError, "0x1f600 for byte E9: that is no character up to U\\+FFFF"),
            ({0xFF: 0x10000}, ValueError, "0x10000 for byte FF"),
            ({0x80: "\ud800"}, ValueError, "0xd800 for byte 80"),
            ({0x80: 0xDFFF}, ValueError, "0xdfff for byte 80"),
            ({0x80: -1}, ValueError, "-0x1 for byte 80"),
            ({0x80: 10**30}, ValueError, "for byte 80"),
            ({0x80: b"e"}, TypeError, "'bytes' for byte 80"),
            ({0x80: 101.0}, TypeError, "'float' for byte 80"),
            ({0x80: ["e"]}, TypeError, "'list' for byte 80"),
            ({b"\xe9": "e"}, TypeError, "key b'\\\\xe9'"),
            ({"é": "e"}, TypeError, "key 'é'"),
            ({256: "e"}, ValueError, "key 256"),
            ({-1: "e"}, ValueError, "key -1"),
            (lambda byte: "ab", ValueError, "2 characters for byte 80"),
            (lambda byte: b"a", TypeError, "'bytes' for byte 80"),
            (lambda byte: "😀" if byte == 0xFF else "a", ValueError, "for byte FF"),
            (lambda: "a", TypeError, "argument"),
            (["a"] * 256, TypeError, "'list'"),
            (b"a" * 256, TypeError, "'bytes'"),
            (("a",), TypeError, "'tuple'"),
            (None, TypeError, "'NoneType'"),
            (4, TypeError, "'int'"),
            ("drop", LookupError, "'drop'"),
            ("", LookupError, "''"),
            ("Windows-1252", LookupError, "'windows-1252' and 'latin-1'"),
            ("windows-1252\0", LookupError, "unknown errors"),
        ]:
            for call in self.CALLS.values():
                with self.subTest(says), self.assertRaisesRegex(kind, says):
                    call(b"caf\xe9 " * 3, errors)

    def test_before_anything_is_read(self):
        """A wrong table is found first, also if nothing is invalid, or if there are no data."""
        for errors in ({0x80: "ab"}, lambda byte: "ab"):
            self.assertRaisesRegex(ValueError, "2 characters", recode, b"all is valid", "utf8", "utf8", errors)
            self.assertRaisesRegex(ValueError, "2 characters", recode, None, "utf8", "utf8", errors)
            self.assertRaisesRegex(ValueError, "2 characters", Recoder, "utf8", "utf8", errors)
            with tempfile.TemporaryDirectory() as folder:
                out = os.path.join(folder, "out")
                self.assertRaisesRegex(ValueError, "2 characters", parallel.recode, os.path.join(folder, "none"), out, "utf8", "utf8", errors=errors)
                self.assertEqual(os.listdir(folder), [])

    def test_mappings(self):
        table = {0xE9: "e"}
        for errors in (types.MappingProxyType(table), collections.ChainMap({}, table), collections.UserDict(table), collections.OrderedDict(table),
                       collections.defaultdict(lambda: "\ufffd", table), Reading(table)):
            for call in self.CALLS.values():
                self.assertEqual(call(b"caf\xe9 \xff", errors).decode(), "cafe \ufffd")
        numbers = collections.Counter(dict.fromkeys(BYTES, 0x20AC))
        self.assertEqual(decode(b"\xff", errors=numbers), "€")
        self.assertEqual(decode(b"a\xffb", errors=collections.defaultdict(str)), "ab")
        self.assertEqual(decode(b"a\xffb", errors={True: "?", 0xFF: True}), "a\x01b")

    def test_read_once(self):
        for call in self.CALLS.values():
            table, asked = Reading({0xE9: "e"}), []
            call(b"caf\xe9 " * 30, table)
            self.assertEqual(table.read, list(BYTES))

            def ask(byte):
                asked.append(byte)
                return "e"

            call(b"caf\xe9 " * 30, ask)
            self.assertEqual(asked, list(BYTES))

    def test_changed_meanwhile(self):
        """Only what each byte has when it is read counts, once."""
        for call in self.CALLS.values():
            table = Reading({0x80: "a", 0xFF: "b"}, lambda it, byte: it.entries.clear() if byte == 0x90 else None)
            self.assertEqual(call(b"\x80\xff\x80", table).decode(), "a\ufffda")
        table = {it: "a" for it in BYTES}
        recoder = Recoder("utf8", "utf8", table)
        made = recoder.feed(b"\xff")
        table.clear()
        table[0xFF] = "too long"
        self.assertEqual(made + recoder.feed(b"\xff") + copy.copy(recoder).feed(b"\xff"), b"aaa")

    def test_what_they_raise(self):
        """It comes through unchanged, and the data can go away."""
        for kind in (Wrong, KeyboardInterrupt, MemoryError, StopIteration, GeneratorExit, RuntimeError):
            error = kind("no more")

            def fail(byte):
                if byte == 0xF0:
                    raise error
                return "a"

            for errors in (fail, Reading({it: "a" for it in BYTES}, lambda it, byte: fail(byte))):
                for call in self.CALLS.values():
                    data = bytearray(b"caf\xe9 ")
                    with self.assertRaises(kind) as raised:
                        call(data, errors)
                    self.assertIs(raised.exception, error)
                    error.__traceback__ = None
                    raised.exception = None
                    data.extend(b"a")  # (no view of it is left)
        for error in (KeyError, IndexError, LookupError):  # a mapping has no such byte; a callable fails
            def lack(byte):
                raise error(byte)

            self.assertEqual(decode(b"a\xff", errors=Reading({it: "a" for it in BYTES}, lambda it, byte: lack(byte))), "a\ufffd")
            self.assertRaises(error, decode, b"a\xff", errors=lack)

    def test_reentrance(self):
        outer = Recoder("utf8", "utf8", {0xFF: "o"})
        outer.feed(b"\xe2")
        made = []

        def ask(byte):
            if byte == 0x80:
                made.append(outer.feed(b"\xff"))
            made.append(decode(b"a\xff", errors={0xFF: "b"}))
            return "e"

        for call in self.CALLS.values():
            self.assertEqual(call(b"caf\xe9 " * 3, ask), b"cafe " * 3)
        self.assertEqual({it for it in made if isinstance(it, str)}, {"ab"})
        self.assertEqual(b"".join(it for it in made if isinstance(it, bytes)).decode(), "\ufffd" + "o" * len(self.CALLS))

    def test_data_that_changes(self):
        """A callable may resize the data: it is read after that."""
        data = bytearray(b"caf\xe9")

        def ask(byte):
            data.extend(b"!" if byte == 0xFF else b"")
            return "e"

        self.assertEqual(recode(data, "utf8", "utf8", ask), b"cafe!")

    def test_odd_types(self):
        class Text(str):
            def __len__(self):
                return 1

            def __eq__(self, other):
                return False

            __hash__ = str.__hash__

        class Number(int):
            def __lt__(self, other):
                return False

            __le__ = __gt__ = __ge__ = __lt__

        class Index:
            def __index__(self):
                return 0x20AC

        class Failing:
            def __index__(self):
                raise Wrong("no number")

        class Both(dict):
            def __call__(self, byte):
                return "no"

        self.assertEqual(decode(b"\xff", errors={0xFF: Index()}), "€")
        self.assertRaises(Wrong, decode, b"\xff", errors={0xFF: Failing()})
        self.assertRaises((TypeError, ValueError), decode, b"\xff", errors={0xFF: Text("abc")})
        self.assertEqual(decode(b"\xff", errors={0xFF: Text("a")}), "a")
        self.assertEqual(decode(b"\xff", errors=Both({0xFF: "y"})), "y")
        for number in (-1, 1 << 40, 0x110000):
            with self.assertRaises((ValueError, OverflowError)):
                decode(b"\xff", errors={0xFF: Number(number)})


class InThreads(unittest.TestCase):
    def run_all(self, *works):
        raised = []

        def guarded(work):
            try:
                work()
            except BaseException as error:  # noqa: B902 (it is raised here)
                raised.append(error)

        threads = [threading.Thread(target=guarded, args=(it,)) for it in works]
        for it in threads:
            it.start()
        for it in threads:
            it.join()
        if raised:
            raise raised[0]

    def test_at_once(self):
        data = outside.damaged("Größe 4 € ".encode(), 50, 1_000_000)
        want = {name: recode(data, "utf8", "utf16le", errors) for name, (errors, _) in WAYS.items()}

        def work():
            for name, (errors, _) in WAYS.items():
                self.assertEqual(recode(data, "utf8", "utf16le", errors), want[name])

        self.run_all(work, work, work, work)

    def test_table_that_others_change(self):
        """Each call has one table, all of it: what it read."""
        table, is_over = {it: "a" for it in BYTES}, threading.Event()

        def change():
            source = random.Random(86)
            while not is_over.is_set():
                table[source.choice(BYTES)] = source.choice(["a", "b", "€", None])

        def work():
            try:
                for _ in range(300):
                    made = decode(b"\x80\xff" * 40_000, errors=table)
                    self.assertEqual(made, made[:len(made) // 40_000] * 40_000)
            finally:
                is_over.set()

        self.run_all(change, work)

    def test_shared_recoder(self):
        """A second call at the same time raises, and does nothing."""
        recoder, done, lock = Recoder("utf8", "utf8", {0xFF: "€"}), [], threading.Lock()

        def work():
            for _ in range(200):
                try:
                    made = recoder.feed(b"\xff" * 100_000)
                except RuntimeError as error:
                    self.assertIn("in use by another call", str(error))
                    continue
                self.assertEqual(made, "€".encode() * 100_000)
                with lock:
                    done.append(1)

        self.run_all(work, work, work)
        self.assertEqual(recoder.replaced, 100_000 * len(done))


def fed(recoder):
    return recoder.feed(b"\xff"), recoder.finish(), recoder.replaced


def recoded(shard, errors):
    return shard.recode("utf8", errors)


def decoded(data, handler):
    return data.decode("noddychest-utf8", handler)


class InProcesses(unittest.TestCase):
    def test_spawn(self):
        outside.skip_unless_installed(self)
        recoder = Recoder("utf8", "utf8", lambda byte: "€")
        recoder.feed(b"a\xe2\x82")
        with tempfile.TemporaryDirectory() as folder, multiprocessing.get_context("spawn").Pool(2) as pool:
            path, data = os.path.join(folder, "text"), b"caf\xe9 \xff" * 1000
            with open(path, "wb") as file:
                file.write(data)
            self.assertEqual(pool.apply(fed, (recoder,)), ("€€€".encode(), b"", 3))
            self.assertEqual(pool.apply(decoded, (b"caf\xe9 \x80", "noddychest.windows-1252")), "café €")
            for errors in ("windows-1252", {0xE9: "e", 0xFF: None}):
                made = pool.starmap(recoded, [(it, errors) for it in shards(path, 1000)])
                self.assertEqual(b"".join(made), recode(data, "utf8", "utf8", errors))


class InFiles(unittest.TestCase):
    def setUp(self):
        folder = tempfile.TemporaryDirectory()
        self.addCleanup(folder.cleanup)
        self.folder = folder.name
        self.path, self.out = os.path.join(folder.name, "text"), os.path.join(folder.name, "out")
        self.data = ("Größe: 4 € ".encode() + b"\xe9\xff\n") * 150_000
        with open(self.path, "wb") as file:
            file.write(self.data)

    def read(self):
        with open(self.out, "rb") as file:
            return file.read()

    def test_parallel(self):
        for errors, _ in WAYS.values():
            for to in ("utf8", "utf16be"):
                done = parallel.recode(self.path, self.out, "utf8", to, 3, errors=errors)
                self.assertEqual(self.read(), recode(self.data, "utf8", to, errors))
                self.assertEqual((done.read, done.written, done.replaced), (len(self.data), os.path.getsize(self.out), 300_000))

    def test_callable_once(self):
        asked = []

        def ask(byte):
            asked.append(byte)
            return None

        parallel.recode(self.path, self.out, "utf8", "utf8", 3, errors=ask, resume=True)
        self.assertEqual((asked, self.read()), (list(BYTES), recode(self.data, "utf8", "utf8", "ignore")))

    def test_resume(self):
        """A run goes on after one with an equal table, and not after one with another."""
        names = {}
        for name, errors in (("a", {0xFF: "a"}), ("b", {0xFF: "b"}), ("a, called", lambda byte: "a" if byte == 0xFF else 0xFFFD), ("ignore", "ignore"), ("replace", "replace")):
            class Stop(Exception):
                pass

            def stop(done, total):
                if done > 1_000_000:
                    raise Stop

            self.assertRaises(Stop, parallel.recode, self.path, self.out, "utf8", "utf8", 1, stop, errors=errors, resume=True)
            names[name] = set(os.listdir(self.folder)) - {"text"}
            self.assertEqual(len(names[name]), 1)
            seen = []
            parallel.recode(self.path, self.out, "utf8", "utf8", 1, lambda done, total: seen.append(done), errors=errors, resume=True)
            self.assertEqual(self.read(), recode(self.data, "utf8", "utf8", errors))
            os.remove(self.out)
        self.assertEqual(names["a"], names["a, called"])
        self.assertEqual(len(set(map(frozenset, names.values()))), 4)

    def test_opened(self):
        """A file in Python's own codec, and in that of the package."""
        for codec in ("utf-8", "noddychest-utf8"):
            for handler in HANDLERS:
                with open(self.path, encoding=codec, errors=handler, newline="") as file:
                    self.assertEqual(file.read(), "Größe: 4 € éÿ\n" * 150_000)
                with open(self.path, encoding=codec, errors=handler, newline="") as file:
                    self.assertEqual("".join(file), "Größe: 4 € éÿ\n" * 150_000)


HANDLERS = {"noddychest.windows-1252": windows_1252, "noddychest.latin-1": chr}


class Handlers(unittest.TestCase):
    def test_every_byte(self):
        for handler, became in HANDLERS.items():
            for byte in BYTES:
                data = b"a" + bytes([byte]) + b"b"
                for codec in ("utf-8", "utf-8-sig", "ascii", "noddychest-utf8", "noddychest-utf8-sig"):
                    self.assertEqual(data.decode(codec, handler), "a" + became(byte) + "b")

    def test_random_inputs(self):
        for data in mostly_text(1000, seed=87):
            for handler, became in HANDLERS.items():
                want = reference(data, "utf8", "", became)[0]
                self.assertEqual(data.decode("utf-8", handler), want)
                self.assertEqual(data.decode("noddychest-utf8", handler), want)
                self.assertEqual(codecs.decode(data, "noddychest-utf-8", handler), want)
                for form, codec in FORMS.items():
                    self.assertEqual(data.decode(f"noddychest-{form}", handler), reference(data, form, "", became)[0], (data, form))

    def test_parts(self):
        source = random.Random(88)
        for data in mostly_text(1000, seed=89):
            for handler, became in HANDLERS.items():
                form = source.choice(list(FORMS))
                want = reference(data, form, "", became)[0]
                for name in (f"noddychest-{form}", *(["utf-8"] if form == "utf8" else [])):
                    decoder, made, at = codecs.getincrementaldecoder(name)(handler), "", 0
                    while at < len(data):
                        size = source.choice([0, 1, 1, 2, 3, 5, 12, 100])
                        made += decoder.decode(data[at:at + size])
                        at += size
                    self.assertEqual(made + decoder.decode(b"", True), want, (name, data))
                with io.TextIOWrapper(io.BytesIO(data), f"noddychest-{form}", handler, newline="") as file:
                    self.assertEqual(file.read(), want)
                if form == "utf8" and is_valid(data[-4:]):
                    self.assertEqual(codecs.getreader("noddychest-utf8")(io.BytesIO(data), handler).read(), want)

    def test_units(self):
        for order in ("le", "be"):
            for codec in (f"utf-16-{order}", f"utf-32-{order}", f"noddychest-utf16{order}"):
                width = 4 if "32" in codec else 2
                lone = (0xD800).to_bytes(width, "little" if order == "le" else "big")
                for handler in HANDLERS:
                    self.assertEqual(("é".encode(codec) + lone + "a".encode(codec)).decode(codec, handler), "é\ufffda")
                    self.assertEqual(("é".encode(codec) + b"\xe9").decode(codec, handler), "é\ufffd")

    def test_encoding(self):
        """They are no handlers of what cannot be encoded: that raises."""
        for handler in HANDLERS:
            for codec in ("utf-8", "ascii", "noddychest-utf8", "noddychest-utf16"):
                with self.assertRaises(UnicodeEncodeError) as raised:
                    "a\udce9".encode(codec, handler)
                self.assertEqual((raised.exception.start, raised.exception.end), (1, 2))
            self.assertRaises(UnicodeTranslateError, codecs.lookup_error(handler), UnicodeTranslateError("a", 0, 1, "no"))
            self.assertRaises(TypeError, codecs.lookup_error(handler), 5)

    def test_called(self):
        """As any handler: with the bytes of the error, as it says where they are."""
        for handler, became in HANDLERS.items():
            call = codecs.lookup_error(handler)
            for start, end in ((0, 4), (1, 2), (2, 2), (3, 1), (1, 100), (-5, 3)):
                error = UnicodeDecodeError("utf-8", b"\xe9\x80\xffa", start, end, "no")
                want = "".join(map(became, error.object[error.start:error.end].replace(b"a", b""))) + "a" * (b"a" in error.object[error.start:error.end])
                self.assertEqual(call(error), (want, error.end))


if __name__ == "__main__":
    unittest.main()
