"""Byte order marks: the codecs that skip and write one, compared with the interpreter's own, and the encoding `auto`."""
import codecs
import copy
import io
import itertools
import os
import pickle
import random
import subprocess
import sys
import tempfile
import unittest

import noddychest
from noddychest import FaultError, encoding_of_bom, parallel, shards, stream_faults, stream_pieces

import outside
from test_codecs import HANDLERS, all_splits, by_hand, splits
from test_streams import Dribble, asked

MARKS = {"utf-8": codecs.BOM_UTF8, "utf-16-le": codecs.BOM_UTF16_LE, "utf-16-be": codecs.BOM_UTF16_BE}
# Of each codec: the encodings whose mark it skips, the first of which it writes.
CODECS = {"noddychest-utf8-sig": ("utf-8",), "noddychest-utf16": ("utf-16-le", "utf-16-be")}
OWN = {"noddychest-utf8-sig": "utf-8-sig", "noddychest-utf16": "utf-16"}
TEXT = "né\r\n€uro\n😀 \ufeff\n" * 700


def inputs(count, longest, seed):
    """Damaged text, with a mark before most of it, whole or in part, once or twice."""
    source = random.Random(seed)
    for data in outside.inputs(count, longest, seed=seed):
        mark = source.choice([*MARKS.values(), b""])
        yield source.choice([mark, mark, mark[:-1], mark * 2]) + data
    yield from (mark[:size] for mark in MARKS.values() for size in range(4))


def front(data, name):
    """The encoding of what follows the mark, and the length of the mark."""
    found = [(it, len(MARKS[it])) for it in CODECS[name] if data.startswith(MARKS[it])]
    return (*found, (CODECS[name][0], 0))[0]


class Decoding(unittest.TestCase):
    def test_as_the_interpreter(self):
        for data in inputs(5000, 12, seed=101):
            for name, own in OWN.items():
                encoding, mark = front(data, name)
                for errors in ("strict", "ignore", "backslashreplace", *(["surrogateescape"] if encoding == "utf-8" else [])):
                    try:
                        expected = data.decode(own if mark or own == "utf-8-sig" else encoding, errors)
                    except UnicodeDecodeError as error:
                        expected = error.start + (mark if own == "utf-8-sig" else 0)
                    try:
                        self.assertEqual(data.decode(name, errors), expected, (data, name, errors))
                    except FaultError as error:
                        self.assertEqual((error.start, error.offset, error.object, error.encoding), (expected, expected, data, name))

    def test_handlers(self):
        for data in inputs(2000, 12, seed=102):
            for name in CODECS:
                encoding, mark = front(data, name)
                for errors, replaced in HANDLERS.items():
                    self.assertEqual(data.decode(name, errors), by_hand(data[mark:], encoding, replaced), (data, name, errors))

    def test_every_division(self):
        """The text of each part is that of the interpreter's decoder, and so is the part that raises."""
        for data in inputs(1500, 6, seed=103):
            for name, own in OWN.items():
                encoding, mark = front(data, name)
                if own == "utf-8-sig" and data and codecs.BOM_UTF8.startswith(data) and not mark:
                    continue  # (the interpreter's decoder loses these bytes)
                for parts in splits(data):
                    ours = codecs.getincrementaldecoder(name)()
                    theirs = codecs.getincrementaldecoder(own if mark or own == "utf-8-sig" else encoding)()
                    found = [fed(it, parts) for it in (ours, theirs)]
                    if own == "utf-16" and not mark:  # (theirs does not wait for a mark)
                        found = [("".join(texts), raised is None) for texts, raised in found]
                    else:
                        found = [(texts, raised is None) for texts, raised in found]
                    self.assertEqual(*found, (parts, name))

    def test_every_division_with_handlers(self):
        for data in inputs(600, 7, seed=104):
            for name in CODECS:
                encoding, mark = front(data, name)
                for errors in ("replace", "noddychest.count"):
                    whole = by_hand(data[mark:], encoding, HANDLERS[errors])
                    for parts in splits(data):
                        decoder = codecs.getincrementaldecoder(name)(errors)
                        self.assertEqual("".join(map(decoder.decode, parts)) + decoder.decode(b"", True), whole, (parts, name))

    def test_offsets(self):
        """They count the mark too, however the input is divided."""
        for name, encodings in CODECS.items():
            for encoding in encodings:
                data = MARKS[encoding] + "é".encode(encoding) + (b"\xff" if encoding == "utf-8" else "\udc00".encode(encoding, "surrogatepass")) + "a".encode(encoding)
                expected = len(MARKS[encoding]) + 2
                for parts in all_splits(data):
                    with self.assertRaises(FaultError) as raised:
                        list(codecs.iterdecode(parts, name))
                    self.assertEqual(raised.exception.offset, expected, parts)
                for opened in (lambda: io.TextIOWrapper(io.BytesIO(data), name), lambda: codecs.getreader(name)(io.BytesIO(data))):
                    with self.assertRaises(FaultError) as raised:
                        opened().read()
                    self.assertEqual((raised.exception.offset, raised.exception.encoding), (expected, name))

    def test_offsets_in_a_file_that_tells_and_seeks(self):
        for name, encodings in CODECS.items():
            for encoding in encodings:
                before = ("\ufeff" + "größer\n" * 1000).encode(encoding)
                file = io.TextIOWrapper(io.BytesIO(before + (b"\xff" if encoding == "utf-8" else "\udc00".encode(encoding, "surrogatepass"))), name)
                for _ in range(2):
                    with self.assertRaises(FaultError) as raised:
                        while file.readline():
                            file.tell()
                    self.assertEqual(raised.exception.offset, len(before), name)
                    file.seek(0)

    def test_a_mark_that_is_begun(self):
        """Nothing is lost at the end; and until then it is waited for."""
        for data, name in ((b"\xef\xbb", "noddychest-utf8-sig"), (b"\xff", "noddychest-utf16"), (b"\xfe", "noddychest-utf16")):
            decoder = codecs.getincrementaldecoder(name)("backslashreplace")
            self.assertEqual((decoder.decode(data), decoder.getstate()), ("", (data, 0)))
            self.assertEqual(decoder.decode(b"", True), "".join(f"\\x{it:02x}" for it in data))
            self.assertRaises(FaultError, data.decode, name)

    def test_a_mark_that_comes_after_the_end(self):
        """A file may grow after its end was read."""
        for name in CODECS:
            decoder = codecs.getincrementaldecoder(name)()
            self.assertEqual((decoder.decode(b"", True), decoder.decode("\ufeffa".encode(CODECS[name][-1]))), ("", "a"))

    def test_surrogatepass(self):
        for name, encodings in CODECS.items():
            for encoding in encodings:
                data = "\ufeffa\ud800b".encode(encoding, "surrogatepass")
                self.assertEqual(data.decode(name, "surrogatepass"), "a\ud800b")

    def test_bytes_like(self):
        for name, encodings in CODECS.items():
            data = "\ufeffné".encode(encodings[-1])
            for it in (bytearray(data), memoryview(data), memoryview(b"_" + data)[1:], memoryview(data[:4]).cast("H")):
                self.assertEqual(codecs.decode(it, name), bytes(it).decode(OWN[name]))
            self.assertRaises(TypeError, codecs.decode, "text", name)
            self.assertRaises(BufferError, codecs.decode, memoryview(b"abcd")[::2], name)


def fed(decoder, parts):
    """The text of each part up to one that raises, and the number of that, or None."""
    found = []
    for place, part in enumerate(parts):
        try:
            found.append(decoder.decode(part, place == len(parts) - 1))
        except UnicodeDecodeError:
            return found, place
    return found, None


class Encoding(unittest.TestCase):
    def test_as_the_interpreter(self):
        source = random.Random(105)
        for _ in range(2000):
            texts = ["".join(source.choice(["a", "é", "€", "😀", "\ufeff", "\ud800"]) for _ in range(source.randint(0, 4))) for _ in range(3)]
            for name, (encoding, *_) in CODECS.items():
                for errors in ("strict", "replace", "ignore", "backslashreplace", "surrogatepass"):
                    self.assertEqual(made(lambda: texts[0].encode(name, errors)), made(lambda: MARKS[encoding] + texts[0].encode(encoding, errors)))
                    self.assertEqual(made(lambda: b"".join(codecs.iterencode(texts, name, errors))),
                                     made(lambda: b"".join(codecs.iterencode(["\ufeff", *texts], encoding, errors))))

    def test_a_text_that_cannot_be_encoded(self):
        """The mark is not lost with it."""
        for name, (encoding, *_) in CODECS.items():
            encoder = codecs.getincrementalencoder(name)()
            with self.assertRaises(UnicodeEncodeError) as raised:
                encoder.encode("\ud800")
            self.assertEqual((raised.exception.encoding, encoder.encode("a")), (name, "\ufeffa".encode(encoding)))

    def test_states(self):
        for name, (encoding, *_) in CODECS.items():
            encoder, theirs = (codecs.getincrementalencoder(it)() for it in (name, OWN[name]))
            for _ in range(2):
                self.assertEqual((bool(encoder.getstate()), encoder.encode("a"), encoder.getstate()), (True, theirs.encode("a"), 0))
                state = encoder.getstate()
                self.assertEqual(pickle.loads(pickle.dumps(encoder)).encode("b"), "b".encode(encoding))
                encoder.reset(), theirs.reset()
            encoder.setstate(state)
            self.assertEqual(encoder.encode("a"), "a".encode(encoding))
        self.assertEqual(codecs.getincrementalencoder("noddychest-utf8")().getstate(), 0)


def made(work):
    try:
        return work()
    except UnicodeEncodeError as error:
        return error.object[error.start]


class Files(unittest.TestCase):
    def both(self, work):
        """What two files have that are written, one of them by the interpreter's codec."""
        for name, own in OWN.items():
            with tempfile.TemporaryDirectory() as folder:
                found = []
                for it in (name, own):
                    path = os.path.join(folder, it)
                    work(path, it)
                    with open(path, "rb") as file:
                        found.append(file.read())
                self.assertEqual(*found, name)

    def test_written_and_appended(self):
        def work(path, name):
            with open(path, "w", encoding=name, newline="") as file:
                file.write("né")
                file.write(TEXT)
            with open(path, "a", encoding=name) as file:
                file.write("more")
            with open(path, "r+", encoding=name, newline="") as file:
                self.assertEqual(file.read(), f"né{TEXT}more")
                file.write("!")
                file.seek(0)
                file.write("X")

        self.both(work)

        def of_streams(path, name):
            for mode in ("w", "r+"):
                with codecs.open(path, mode, name) as file:
                    file.write("né")
                    file.write("\ufeff€")
                    file.seek(0)
                    file.write("é")

        self.both(of_streams)

    def test_empty(self):
        self.both(lambda path, name: open(path, "w", encoding=name).close())
        for name in CODECS:
            self.assertEqual(io.TextIOWrapper(io.BytesIO(b""), name).read(), "")
            self.assertEqual(b"".decode(name), "")

    def test_tell_and_seek(self):
        """Random reads, and seeks to where a file was before."""
        source = random.Random(106)
        for name, encodings in CODECS.items():
            for encoding, mark in itertools.product(encodings, ("\ufeff", "\ufeff\ufeff", "")):
                if not mark and encoding != encodings[0]:
                    continue
                data = (mark + TEXT).encode(encoding)
                newline = source.choice([None, ""])
                text = mark[1:] + (TEXT if newline == "" else TEXT.replace("\r\n", "\n"))
                file = io.TextIOWrapper(io.BytesIO(data), name, newline=newline)
                file._CHUNK_SIZE = source.choice([1, 2, 3, 7, 100, 8192])
                at, places = 0, {0: 0}
                for _ in range(300):
                    places[at] = file.tell()
                    count = source.choice([0, 1, 2, 5, 300])
                    self.assertEqual(file.read(count), text[at:at + count], (name, encoding, at))
                    at = min(at + count, len(text))
                    if source.random() < 0.3:
                        at = source.choice(list(places))
                        file.seek(places[at])
                file.seek(0)
                self.assertEqual(file.read(), text)

    def test_readers(self):
        for name, encodings in CODECS.items():
            for encoding in encodings:
                data = ("\ufeff" + TEXT).encode(encoding)
                for size in (1, 2, 3, 7, 1000):
                    reader = codecs.getreader(name)(io.BytesIO(data))
                    self.assertEqual("".join(iter(lambda: reader.read(size), "")), TEXT)
                    reader.seek(0)
                    self.assertEqual(reader.read(), TEXT)

    def test_states(self):
        for name, encodings in CODECS.items():
            for encoding in encodings:
                data = "\ufeffa😀".encode(encoding)
                decoder = codecs.getincrementaldecoder(name)()
                begun = decoder.decode(data[:-1])
                state = decoder.getstate()
                self.assertEqual((begun, state[0], state[1] > 0), ("a", data[-4:-1], True))
                for again in (decoder, pickle.loads(pickle.dumps(decoder)), copy.deepcopy(decoder)):
                    self.assertEqual(again.decode(data[-1:] + "\ufeff".encode(encoding)), "😀\ufeff")
                decoder.reset()
                self.assertEqual((decoder.getstate(), decoder.decode(data)), ((b"", 0), "a😀"))
                decoder.setstate(state)
                self.assertEqual(decoder.decode(data[-1:]), "😀")
                state = decoder.getstate()
                for wrong in ((b"", 9), (b"", -1), (b"", None), ("", 0), (None, 0)):
                    self.assertRaises((ValueError, TypeError), decoder.setstate, wrong)
                self.assertEqual(decoder.getstate(), state)


class InOtherProcesses(unittest.TestCase):
    def test_found_where_nothing_is_imported(self):
        outside.skip_unless_installed(self)
        for name, encodings in CODECS.items():
            data = "\ufeffa".encode(encodings[-1])
            pool = "import codecs, multiprocessing\nwith multiprocessing.get_context('spawn').Pool(1) as pool: print(pool.apply(codecs.decode, ({!r}, {!r})))"
            for program in (f"import sys\nprint('noddychest' in sys.modules or {data!r}.decode({name!r}))", pool.format(data, name)):
                ran = subprocess.run([sys.executable, "-c", program], stdout=subprocess.PIPE, text=True, check=True)
                self.assertEqual(ran.stdout, "a\n", program)

    def test_names(self):
        for name in CODECS:
            self.assertEqual(codecs.lookup(name).name, name)
        for name in ("noddychest_utf8_sig", "Noddychest-UTF-8-SIG", "noddychest utf 8 sig"):
            self.assertEqual(codecs.lookup(name).name, "noddychest-utf8-sig")
        for name in ("noddychest_utf16", "noddychest-UTF-16"):
            self.assertEqual(codecs.lookup(name).name, "noddychest-utf16")
        for name in ("noddychest-utf16-sig", "noddychest-utf16le-sig", "noddychest-auto"):
            self.assertRaises(LookupError, codecs.lookup, name)


def told(data):
    """The encoding that `auto` is, and the length of the mark."""
    found = [(it, len(mark)) for it, mark in MARKS.items() if data.startswith(mark)]
    return (*found, ("utf-8", 0))[0]


class AutoInStreams(unittest.TestCase):
    def test_every_division(self):
        for data in inputs(1000, 6, seed=107):
            encoding, _ = told(data)
            for parts in splits(data):
                for call in (stream_pieces, stream_faults):
                    whole = list(call([data], encoding))
                    self.assertEqual(list(call(parts, "auto")), whole, parts)
                    self.assertEqual(list(call(itertools.chain.from_iterable((b"", bytearray(it), b"") for it in parts), "auto")), whole, parts)

    def test_files(self):
        for data in inputs(300, 30, seed=108):
            for call in (stream_pieces, stream_faults):
                for file in (io.BytesIO(data), io.BufferedReader(io.BytesIO(data)), OneByOne(data)):
                    self.assertEqual(list(call(file, "auto")), list(call([data], told(data)[0])), data)

    def test_no_data_now(self):
        for data in inputs(300, 6, seed=109):
            file = Dribble()
            stream, found = stream_pieces(file, "auto"), []
            for at in range(len(data)):
                file.blocks.append(data[at:at + 1])
                more, ended = asked(stream)
                self.assertFalse(ended)
                found += more
            file.ended = True
            self.assertEqual((found + asked(stream)[0], next(stream, None)), (list(stream_pieces([data], told(data)[0])), None), data)

    def test_it_tells_what_it_knows(self):
        """Only a byte that may begin a mark of UTF-16 waits."""
        parts = iter([b"a", None])
        self.assertEqual(next(stream_pieces(parts, "auto")).char, "a")
        self.assertEqual(next(parts, "not taken"), None)

    def test_errors_lose_nothing(self):
        def parts():
            yield b"\xff"
            yield "no bytes"

        stream = stream_pieces(parts(), "auto")
        for _ in range(3):
            self.assertRaises(TypeError, next, stream)

        class Fails:
            answers = [b"\xfe", OSError, b"\xff\0", OSError, b"a"]

            def __iter__(self):
                return self

            def __next__(self):
                if not self.answers:
                    raise StopIteration
                it = self.answers.pop(0)
                if it is OSError:
                    raise it
                return it

        stream, found = stream_pieces(Fails(), "auto"), []
        for _ in range(9):
            try:
                found += stream
            except OSError:
                found.append(None)
        self.assertEqual([it and it.char for it in found], [None, "\ufeff", None, "a"])


class OneByOne(io.RawIOBase):
    """A file that gives a byte at a time."""

    def __init__(self, data):
        super().__init__()
        self.left = data

    def read(self, size=-1):
        byte, self.left = self.left[:1], self.left[1:]
        return byte


class AutoInFiles(unittest.TestCase):
    def setUp(self):
        folder = tempfile.TemporaryDirectory()
        self.addCleanup(folder.cleanup)
        self.path, self.out = (os.path.join(folder.name, it) for it in ("text", "out"))

    def each(self):
        for data in [*inputs(40, 12, seed=110), *(mark + TEXT.encode(encoding) * 90 + b"\xff" for encoding, mark in MARKS.items())]:
            with open(self.path, "wb") as file:
                file.write(data)
            yield data, *told(data)

    def test_shards(self):
        for data, encoding, _ in self.each():
            for source in (self.path, memoryview(data)):
                for size in (1, 2, 5, 1 << 16):
                    if len(data) > size * 5000:
                        continue
                    expected = [(it.start, it.end, it.encoding) for it in shards(source, size, encoding)]
                    self.assertEqual([(it.start, it.end, it.encoding) for it in shards(source, size, "auto")], expected)

    def test_parallel(self):
        for data, encoding, mark in self.each():
            self.assertEqual(parallel.check(self.path, "auto", 2), parallel.check(self.path, encoding, 2))
            self.assertEqual(parallel.count(self.path, "auto", 2), parallel.count(self.path, encoding, 2))
            for errors in ("replace", "lossy"):
                for resume in (False, True):
                    made = parallel.recode(self.path, self.out, "auto", "utf8", 2, errors=errors, resume=resume)
                    with open(self.out, "rb") as file:
                        self.assertEqual(file.read(), noddychest.recode(data[mark:], encoding, "utf8", errors), data[:20])
                    self.assertEqual(made.read, len(data) - mark)

    def test_progress_comes_to_its_end(self):
        with open(self.path, "wb") as file:
            file.write(codecs.BOM_UTF16_LE + TEXT.encode("utf-16-le"))
        for resume in (False, True):
            seen = []
            parallel.recode(self.path, self.out, "auto", "utf8", 1, lambda *it: seen.append(it), resume=resume)
            self.assertEqual(seen[-1][0], seen[-1][1])

    def test_strict_counts_the_mark(self):
        for mark, faulty in ((codecs.BOM_UTF8, b"a\xff"), (codecs.BOM_UTF16_BE, b"\0a\xdc\0")):
            with open(self.path, "wb") as file:
                file.write(mark + faulty)
            with self.assertRaises(FaultError) as raised:
                parallel.recode(self.path, self.out, "auto", "utf8", errors="strict")
            self.assertEqual(raised.exception.offset, len(mark) + len(faulty) // 2)
            self.assertFalse(os.path.exists(self.out))

    def run_program(self, *words, data=None):
        ran = subprocess.run([sys.executable, "-m", "noddychest", *words], input=data, stdout=subprocess.PIPE, stderr=subprocess.PIPE, check=False)
        return ran.returncode, ran.stdout, ran.stderr

    def test_program(self):
        for data in (*(mark + it for mark, it in zip(MARKS.values(), (b"a\xffb\n", b"a\0b\xff", b"\0a\xdc\0\n\0\xdc"))), codecs.BOM_UTF8, b"", b"\xff"):
            encoding, mark = told(data)
            with open(self.path, "wb") as file:
                file.write(data)
            for words in (["check"], ["check", "-q"], ["check", "--jobs", "2"], ["pieces"]):
                self.assertEqual(self.run_program(*words, "--encoding", "auto", self.path), self.run_program(*words, "--encoding", encoding, self.path), data)
            self.assertEqual(self.run_program("pieces", "--encoding", "auto", data=data), self.run_program("pieces", "--encoding", encoding, data=data))
            for errors in ("replace", "lossy", "strict"):
                words = ["recode", "--to", "utf16be", "--errors", errors]
                status, made, said = self.run_program(*words, "--from", "auto", data=data)
                expected = self.run_program(*words, "--from", encoding, data=data[mark:])
                self.assertEqual((status, made, bool(said)), (*expected[:2], bool(expected[2])), (data, errors))
                if errors == "strict":
                    self.assertEqual(said, self.run_program(*words, "--from", encoding, data=data)[2])
                self.assertEqual(self.run_program(*words, "--from", "auto", "-o", self.out, self.path), (status, b"", said.replace(b"-:", self.path.encode() + b":", 1)))

    def test_where_it_makes_no_sense(self):
        sentence = "the encoding 'auto' is only for a file or a stream that is read from its front: otherwise take the one that encoding_of_bom gives"
        for work in (lambda: noddychest.pieces(b"", "auto"), lambda: noddychest.faults_array(b"", "auto"), lambda: noddychest.Decoder("auto"),
                     lambda: noddychest.Recoder("auto", "utf8"), lambda: noddychest.recode(b"", "utf8", "auto"), lambda: noddychest.is_valid(b"", "auto"),
                     lambda: parallel.recode(os.devnull, self.out, "utf8", "auto"), lambda: parallel.recode(os.devnull, self.out, "auto", "auto")):
            with self.assertRaises(LookupError) as raised:
                work()
            self.assertEqual(raised.exception.args, (sentence,))
        status, _, said = self.run_program("recode", "--from", "auto", "--to", "auto", data=b"")
        self.assertEqual((status, said.split(b"\n")[0]), (2, b"noddychest: --to does not take 'auto'"))
        for encoding in ("Auto", "auto ", b"auto", None):
            self.assertRaises(LookupError, stream_pieces, [], encoding)
        self.assertIsNone(encoding_of_bom(b"auto"))


if __name__ == "__main__":
    unittest.main()
