"""Surveys and guesses: of texts that Python's own codecs encoded, in parts of every length, and of sources that misbehave."""
import array
import copy
import io
import mmap
import os
import pickle
import random
import re
import tempfile
import threading
import unittest

from noddychest import Guess, Survey, Surveyor, UnitCounts, Utf8Counts, guess, survey

HEADER = os.path.join(os.path.dirname(os.path.abspath(__file__)), "..", "..", "c", "noddychest.h")
FRENCH = "Le café où l’été dernier nous étions à l’aise, « déjà vu », coûte 5 € : naïveté, œuvre, garçon.\n"
RUSSIAN = "Все счастливые семьи похожи друг на друга, каждая несчастливая семья несчастлива по-своему.\n"
CHINESE = "人人生而自由，在尊严和权利上一律平等。他们赋有理性和良心，并应以兄弟关系的精神相对待。\n"
CODED = [
    ("plain text\n", "ascii", Guess.ASCII), (FRENCH, "utf-8", Guess.UTF8), (RUSSIAN, "utf-8", Guess.UTF8), (CHINESE, "utf-8", Guess.UTF8),
    (FRENCH, "utf-8-sig", Guess.UTF8_MARKED), (FRENCH, "utf-16-le", Guess.UTF16LE), (RUSSIAN, "utf-16-be", Guess.UTF16BE), (CHINESE, "utf-16-le", Guess.UTF16LE),
    ("\ufeff" + CHINESE, "utf-16-le", Guess.UTF16LE_MARKED), ("\ufeff" + FRENCH, "utf-16-be", Guess.UTF16BE_MARKED), ("\ufeff" + FRENCH, "utf-32-le", Guess.UTF32),
    ("\ufeff" + FRENCH, "utf-32-be", Guess.UTF32), (FRENCH, "cp1252", Guess.WINDOWS1252), (FRENCH.replace("’", "'").replace("€", "E").replace("œ", "oe"), "latin-1", Guess.WINDOWS1252),
    (RUSSIAN, "cp1251", Guess.OTHER_8BIT), (RUSSIAN, "koi8-r", Guess.OTHER_8BIT), (CHINESE, "gb18030", Guess.OTHER_8BIT), (CHINESE, "gbk", Guess.OTHER_8BIT),
]
TWICE = FRENCH.encode().decode("cp1252", "ignore").encode()
SAMPLES = [*((text.encode(name), name, wanted) for text, name, wanted in CODED), (TWICE, "utf-8 twice", Guess.UTF8_TWICE), (b"", "nothing", Guess.ASCII),
           (FRENCH.encode()[:7], "cut", Guess.WINDOWS1252), ((FRENCH + "é").encode()[:-1], "cut", Guess.UTF8_CUT), (RUSSIAN.encode()[1:], "cut", Guess.UTF8_CUT),
           (RUSSIAN.encode() + b"caf\xe9!", "mixed", Guess.UTF8_MIXED), ("a\U0001f600".encode("utf-16-le").decode("utf-16-le", "surrogatepass").encode(), "utf-8", Guess.UTF8),
           ("\ud83d\ude00 x".encode("utf-8", "surrogatepass"), "surrogates", Guess.UTF8_SURROGATES), (b"\x7fELF\x02\x01\x01", "a program", Guess.BINARY)]


class Guesses(unittest.TestCase):
    def test_texts_of_each_codec(self):
        for data, name, wanted in SAMPLES:
            with self.subTest(name=name, wanted=wanted):
                self.assertIs(guess(data), wanted)
                self.assertIs(survey(data).guess, wanted)

    def test_the_others_follow_the_best(self):
        self.assertEqual(survey("café".encode("cp1252")).guesses, (Guess.WINDOWS1252, Guess.OTHER_8BIT))
        self.assertEqual(survey(RUSSIAN.encode("cp1251")).guesses, (Guess.OTHER_8BIT, Guess.WINDOWS1252))
        self.assertEqual(survey(TWICE).guesses, (Guess.UTF8_TWICE, Guess.UTF8))
        self.assertEqual(survey(RUSSIAN.encode()).guesses, (Guess.UTF8,))
        for data, name, wanted in SAMPLES:
            with self.subTest(name=name):
                guesses = survey(data).guesses
                self.assertTrue(1 <= len(guesses) <= 3 and len(set(guesses)) == len(guesses) and guesses[0] is wanted)

    @unittest.skipUnless(os.path.isfile(HEADER), "the header is not there")
    def test_names_numbers_and_texts_are_those_of_the_header(self):
        with open(HEADER, encoding="utf-8") as file:
            header = file.read()
        self.assertEqual({it.name: it.value for it in Guess}, {name: int(number) for name, number in re.findall(r"NODY_GUESS_(\w+) = (\d+)", header)})
        texts = re.findall(r'"(.*)"', header.split("nody_guess_text(nody_guess_t guess) {")[1].split("};")[0])
        self.assertEqual([it.text for it in Guess], texts)


class Counts(unittest.TestCase):
    def test_counts_are_those_of_pythons_codecs(self):
        rng = random.Random(7)
        for _ in range(400):
            data = bytearray("".join(rng.choice("aé€😀\n \0Ã©") for _ in range(rng.randrange(60))).encode())
            for _ in range(rng.randrange(4)):
                data.insert(rng.randrange(len(data) + 1), rng.randrange(256))
            data = bytes(data)
            counts, valid = survey(data), data.decode("utf-8", "ignore")
            self.assertEqual((counts.len, counts.nul, counts.front), (len(data), data.count(0), data[:4]))
            self.assertEqual((counts.utf8.chars, counts.utf8.faults), (sum(it > "\x7f" for it in valid), len(data) - len(valid.encode())), data)
            self.assertEqual(counts.utf8.surrogates, len(re.findall(b"\xed[\xa0-\xbf][\x80-\xbf]", data)))

    def test_units_are_those_of_pythons_codecs(self):
        rng = random.Random(8)
        for _ in range(200):
            text = "".join(rng.choice("a\t、é\x05\ufffe\ud83d\ude00😀") for _ in range(rng.randrange(40)))
            for name, order in (("utf-16-le", "utf16le"), ("utf-16-be", "utf16be")):
                found = getattr(survey(text.encode(name, "surrogatepass")), order)
                units = text.encode(name, "surrogatepass").decode(name, "surrogatepass")
                lone = re.findall("[\ud800-\udfff]", units)
                self.assertEqual(found.plain, len(re.findall("[\t\n\r -~\u3001\u3002\uff0c]", units)))
                self.assertEqual(found.stray, len(re.findall("[\0-\x06\x0e-\x1a\x1c-\x1f\ufffe\uffff]", units)))
                self.assertEqual(found.unpaired, len(lone) - ("\ud800" <= units[-1:] < "\udc00"))

    def test_parts_of_every_length(self):
        for data, name, _ in SAMPLES:
            whole = survey(data)
            for length in (1, 2, 3, 5, 16, 17, 40):
                with self.subTest(name=name, length=length):
                    self.assertEqual(survey(data[at:at + length] for at in range(0, len(data), length)), whole)

    def test_a_long_input(self):
        data = RUSSIAN.encode() * 20_000 + b"\xff" + RUSSIAN.encode() * 20_000
        for it in (data, bytearray(data), memoryview(data), [data[:1_000_001], bytearray(data[1_000_001:])], io.BytesIO(data)):
            counts = survey(it)
            self.assertEqual((counts.len, counts.utf8.faults, counts.utf8.chars), (len(data), 1, 40_000 * sum(it > "\x7f" for it in RUSSIAN)))


class Sources(unittest.TestCase):
    def test_buffers(self):
        data = FRENCH.encode("cp1252")
        wanted = survey(data)
        wide = array.array("H", data[:len(data) & ~1])
        self.assertEqual(survey(wide), survey(wide.tobytes()))
        for it in (bytearray(data), memoryview(data), memoryview(bytearray(data)), array.array("B", data), (data,), [data[:9], memoryview(data)[9:]]):
            self.assertEqual(survey(it), wanted)

    def test_files(self):
        data = RUSSIAN.encode("koi8-r") * 3000
        with tempfile.TemporaryFile() as file:
            file.write(data)
            for opened in (file, open(os.dup(file.fileno()), "rb", buffering=0)):
                opened.seek(0)
                self.assertEqual(survey(opened), survey(data))
                self.assertEqual(opened.read(), b"")
            with mmap.mmap(file.fileno(), 0, access=mmap.ACCESS_READ) as mapped:
                self.assertEqual(survey(mapped), survey(data))
            opened.close()

    def test_a_pipe(self):
        read, write = os.pipe()
        with open(read, "rb", buffering=0) as source, open(write, "wb", buffering=0) as sink:
            os.set_blocking(read, False)
            sink.write(b"caf")
            self.assertRaises(BlockingIOError, guess, source)
            os.set_blocking(read, True)
            sink.write(b"\xe9")
            sink.close()
            self.assertIs(guess(source), Guess.WINDOWS1252)

    def test_what_is_no_data(self):
        for it in (None, 3, 2.5, object(), "", "text", ["text"], [1, 2], [b"a", None], io.StringIO("text"), b"a".decode):
            with self.subTest(it=it):
                self.assertRaises(TypeError, guess, it)
                self.assertRaises(TypeError, survey, it)
        self.assertRaises(BufferError, guess, memoryview(b"abcd")[::2])
        gone = memoryview(b"abc")
        gone.release()
        self.assertRaises(ValueError, guess, gone)

    def test_a_source_that_raises(self):
        class Broken(io.RawIOBase):
            def read(self, size=-1):
                raise OSError("gone")

        def parts():
            yield b"abc"
            raise KeyError("gone")

        self.assertRaises(OSError, guess, Broken())
        self.assertRaises(KeyError, guess, parts())

    def test_a_source_that_calls_back(self):
        def parts():
            for _ in range(3):
                self.assertIs(guess([b"caf", b"\xe9"]), Guess.WINDOWS1252)
                yield "é".encode()

        self.assertIs(guess(parts()), Guess.UTF8)

    def test_a_buffer_that_may_be_resized_again(self):
        data = bytearray(b"caf\xe9")
        guess(data)
        data += b"!"
        surveyor = Surveyor()
        surveyor.feed(data)
        data += b"!"
        self.assertEqual(surveyor.survey().len, 5)


class Surveyors(unittest.TestCase):
    def test_a_part_that_is_none_changes_nothing(self):
        surveyor = Surveyor()
        surveyor.feed(b"caf\xc3")
        for it in ("\xa9", None, 1, memoryview(b"ab")[::-1]):
            self.assertRaises((TypeError, BufferError), surveyor.feed, it)
        surveyor.feed(b"\xa9")
        self.assertEqual(surveyor.survey(), survey("café".encode()))

    def test_copies_go_on_by_themselves(self):
        class Named(Surveyor):
            pass

        first, named = Surveyor(), Named()
        named.name = "it"
        for it in (first, named):
            it.feed(b"caf\xc3")
        for other in (copy.copy(first), copy.deepcopy(first), *(pickle.loads(pickle.dumps(first, it)) for it in range(2, 6)), copy.copy(named)):
            other.feed(b"\xa9")
            self.assertIs(other.survey().guess, Guess.UTF8)
        self.assertEqual((first.survey().guess, named.survey().guess), (Guess.WINDOWS1252, Guess.WINDOWS1252))
        self.assertEqual((type(other), other.name), (Named, "it"))

    def test_states_that_no_surveyor_has(self):
        state, more = Surveyor().__getstate__()
        for bad in (b"", state[:-1], state + b"\0", b"\xff" * len(state), bytes(len(state)), bytearray(state), None, 1):
            surveyor = Surveyor()
            surveyor.feed(b"ab")
            self.assertRaises((ValueError, TypeError), surveyor.__setstate__, (bad, more))
            self.assertEqual(surveyor.survey().len, 2)

    def test_random_states_do_no_harm(self):
        rng = random.Random(5)
        state, more = Surveyor().__getstate__()
        for _ in range(2000):
            given = bytearray(rng.randbytes(len(state)))
            given[172:174] = rng.randrange(6), rng.randrange(18)
            surveyor = Surveyor()
            try:
                surveyor.__setstate__((bytes(given), more))
            except ValueError:
                self.assertFalse(given[172] <= 4 and 3 <= given[173] <= 16)
                continue
            surveyor.feed(rng.randbytes(40))
            self.assertIsInstance(surveyor.survey().guess, Guess)

    def test_threads(self):
        """A part that is fed while another one is, is refused as a whole; each that was taken is counted."""
        surveyor, parts, taken = Surveyor(), RUSSIAN.encode() * 2000, []

        def feed():
            for _ in range(20):
                try:
                    surveyor.feed(parts)
                    taken.append(1)
                except RuntimeError:
                    pass

        threads = [threading.Thread(target=feed) for _ in range(4)]
        for it in threads:
            it.start()
        for it in threads:
            it.join()
        self.assertEqual(surveyor.survey().len, len(taken) * len(parts))
        self.assertEqual(surveyor.survey().utf8.faults, 0)

    def test_bytes_that_change_meanwhile(self):
        """Each window of the bytes is read once: whatever another thread writes, the counts fit some bytes of this length."""
        data, done = bytearray(RUSSIAN.encode() * 4000), threading.Event()

        def change():
            while not done.is_set():
                for at in range(0, len(data), 4099):
                    data[at] = 0xFF

        thread = threading.Thread(target=change)
        thread.start()
        try:
            for _ in range(10):
                counts = survey(data)
                self.assertEqual(counts.len, len(data))
                self.assertLessEqual(counts.utf8.faults, len(data))
        finally:
            done.set()
            thread.join()

    def test_types(self):
        counts = survey(b"a")
        self.assertIsInstance(counts, Survey)
        self.assertIsInstance(counts.utf8, Utf8Counts)
        self.assertIsInstance(counts.utf16le, UnitCounts)
        self.assertEqual(pickle.loads(pickle.dumps(counts)), counts)
        self.assertIs(copy.copy(counts.guess), Guess.ASCII)


if __name__ == "__main__":
    unittest.main()
