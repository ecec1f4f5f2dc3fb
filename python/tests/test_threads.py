"""Threads, re-entrance, copies, and buffers that change or would go away: nothing is lost, and nothing crashes."""
import codecs
import copy
import itertools
import mmap
import pickle
import random
import signal
import sys
import threading
import time
import unittest

import noddychest
from noddychest import (Decoder, Ends, FaultError, Recoder, changed_range, char_count, faults, first_fault, is_valid, number_of, offset_of, pieces,
                        recode, recoded_len, stream_pieces)

SIZE = 32 << 20
TRIES = 100


def run_all(works):
    """Runs each in a thread of its own; what they raise is raised here."""
    raised = []

    def guarded(work):
        try:
            work()
        except BaseException as error:  # noqa: B902 (also what unittest raises)
            raised.append(error)

    threads = [threading.Thread(target=guarded, args=(it,)) for it in works]
    for it in threads:
        it.start()
    for it in threads:
        it.join()
    if raised:
        raise raised[0]


class OneCallAtATime(unittest.TestCase):
    """Four threads that share a Recoder: a call either does all of its work, or raises RuntimeError and does nothing."""

    def hammer(self, errors, parts):
        recoder, done, refused = Recoder("utf8", "utf16le", errors), [], []
        end = time.monotonic() + 20

        def work():
            source = random.Random(threading.get_ident())
            while (len(refused) < 20 or len(done) < 40) and time.monotonic() < end:
                part = source.choice(parts)
                try:
                    done.append((len(part), len(recoder.feed(part))))
                except RuntimeError as error:
                    self.assertIn("in use by another call", str(error))
                    refused.append(1)

        run_all([work] * 4)
        made = sum(it[1] for it in done) + len(recoder.finish())
        self.assertEqual(made, 2 * sum(it[0] for it in done))
        self.assertGreaterEqual(len(done), 40)
        return refused

    def test_replace(self):
        refused = self.hammer("replace", [b"a" * size for size in (1, 1000, 70_000, 3_000_000)])
        self.assertGreaterEqual(len(refused), 20)

    def test_strict(self):
        self.hammer("strict", [bytearray(b"a" * size) for size in (1, 1000, 70_000, 3_000_000)])

    def test_faults_and_state_while_it_goes(self):
        recoder, big, seen = Recoder("utf8", "utf8"), b"\xff" * 5_000_000, set()
        worker = threading.Thread(target=lambda: recoder.feed(big))
        worker.start()
        while worker.is_alive():
            seen.add((recoder.replaced, copy.copy(recoder).replaced))
        self.assertLessEqual({it for pair in seen for it in pair}, {0, len(big)})
        self.assertEqual(recoder.replaced, len(big))

    @unittest.skipIf(sys.version_info < (3, 12), "__buffer__ is called from Python 3.12 on")
    def test_buffer_that_feeds(self):
        for errors in ("replace", "strict"):
            recoder, inner = Recoder("utf8", "utf8", errors), []

            class Feeding:
                def __buffer__(self, flags):
                    inner.append(recoder.feed(b"in\xc3"))
                    return memoryview(b"\xa9out")

                def __release_buffer__(self, view):
                    inner.append(recoder.feed(b"released"))

            self.assertEqual(recoder.feed(Feeding()), "éout".encode())
            self.assertEqual((inner, recoder.finish()), ([b"in", b"released"], b""))

    @unittest.skipIf(sys.version_info < (3, 12), "__buffer__ is called from Python 3.12 on")
    def test_buffer_that_differs_each_time(self):
        class Other:
            answers = []

            def __buffer__(self, flags):
                return memoryview(self.answers.pop(0) if self.answers else b"")

        for first in (b"ab\xffcd", b"abcd", b"\xff" * 100):
            for call in (first_fault, is_valid, char_count, Ends, lambda it: list(pieces(it)), lambda it: list(Decoder().feed(it)),
                         lambda it: list(Decoder().feed_faults(it)), lambda it: recode(it, "utf8", "utf16le"),
                         lambda it: recode(it, "utf8", "utf8", "strict"), Recoder("utf8", "utf8", "strict").feed,
                         lambda it: codecs.decode(it, "noddychest-utf8", "ignore"), lambda it: codecs.decode(it, "noddychest-utf8")):
                other = Other()
                other.answers = [first, b"\xff", b""]
                try:
                    call(other)
                except FaultError as fault:
                    self.assertEqual((fault.object, fault.object[fault.start]), (first, 0xFF))

    def test_decoder_takes_one_call(self):
        decoder = codecs.getincrementaldecoder("noddychest-utf8")("noddychest.feeds")
        codecs.register_error("noddychest.feeds", lambda error: (decoder.decode(b"lost"), error.end))
        self.assertEqual(decoder.decode(b"a\xc3"), "a")
        with self.assertRaisesRegex(RuntimeError, "in use by another call"):
            decoder.decode(b"\xa9b\xff")
        self.assertEqual(decoder.decode(b"\xa9b", True), "éb")

    def test_decoder_in_threads(self):
        decoder, made, fed = codecs.getincrementaldecoder("noddychest-utf8")("replace"), [], []

        def work():
            for _ in range(100):
                try:
                    made.append(len(decoder.decode(b"a" * 100_000)))
                    fed.append(100_000)
                except RuntimeError:
                    pass

        run_all([work] * 4)
        self.assertEqual(sum(made), sum(fed))


class Copies(unittest.TestCase):
    def test_maximal_ones(self):
        for way in self.ways():
            recoder = Recoder("utf8", "utf8", "lossy")
            self.assertEqual(recoder.feed(b"a\xf0\x9f"), b"a")
            self.assertEqual((way(recoder).feed(b"\x98!"), way(recoder).feed(b"\x98\x80")), ("\ufffd!".encode(), "😀".encode()))

    def begun(self, errors="replace"):
        recoder = Recoder("utf8", "utf16be", errors)
        recoder.feed(b"a\xc3" if errors == "strict" else b"a\xff\xf0\x9f")
        return recoder

    def ways(self):
        pickled = [lambda it, at=at: pickle.loads(pickle.dumps(it, at)) for at in range(pickle.HIGHEST_PROTOCOL + 1)]
        return [copy.copy, copy.deepcopy, *pickled]

    def test_are_apart(self):
        for way in self.ways():
            recoder = self.begun()
            other = way(recoder)
            self.assertEqual((other.replaced, recoder.feed(b"!"), recoder.replaced), (1, "\ufffd\ufffd!".encode("utf-16-be"), 3))
            self.assertEqual((other.feed(b"\x98\x80"), other.replaced, other.finish()), ("😀".encode("utf-16-be"), 1, b""))

    def test_strict_ones_count_on(self):
        for way in self.ways():
            other = way(self.begun("strict"))
            with self.assertRaises(FaultError) as raised:
                other.feed(b"\xa9bc\xff")
            self.assertEqual((raised.exception.offset, raised.exception.object), (5, b"\xc3\xa9bc\xff"))

    def test_of_each_state(self):
        for parts in ([], [b"\xe0\x80"], [b"\xe9\n"], [b"\xf4\x90\x80"], [b"\xf0\x9f\x98"], [b"abc", b"\xe2\x82"]):
            for errors in ("replace", "strict"):
                recoder = Recoder("utf8", "utf8", errors)
                for it in parts:
                    recoder.feed(it)
                other = copy.copy(recoder)
                rest = b"\x98\x80A\xa9"
                self.assertEqual(told(other, rest), told(recoder, rest), (parts, errors))

    def test_of_subclasses(self):
        recoder = Named("utf8", "utf16le")
        recoder.name = "one"
        recoder.feed(b"\xe2\x82")
        for way in self.ways():
            other = way(recoder)
            self.assertEqual((type(other), other.name, other.feed(b"\xac")), (Named, "one", "€".encode("utf-16-le")))

    def test_wrong_states_are_refused(self):
        good = Recoder("utf8", "utf8").__getstate__()
        for inner in [(b"abc", 0, 3), (b"\xe2\x82\xac", 0, 3), (b"\xff", 0, 1), (b"\xf0\x9f\x98\x80", 0, 4), (b"\xe2", 0, 0), (b"", 0, -1)]:
            with self.assertRaises(ValueError):
                Recoder.__new__(Recoder).__setstate__((*good[:3], inner, None))
        self.assertRaises(AttributeError, Recoder.__new__(Recoder).feed, b"a")

    def test_others_raise(self):
        """What goes over bytes has no copies: they would share what is left."""
        for it in (Ends(b"abc"), iter(pieces(b"abc")), reversed(pieces(b"abc")), faults(b"abc"), stream_pieces([b"abc"])):
            self.assertRaises(TypeError, copy.copy, it)
            self.assertRaises(TypeError, pickle.dumps, it)
        self.assertEqual(list(copy.copy(pieces(b"abc"))), list(pieces(b"abc")))

    def test_decoders(self):
        decoder = codecs.getincrementaldecoder("noddychest-utf8")("strict")
        decoder.decode(b"ab\xc3")
        for other in (copy.copy(decoder), copy.deepcopy(decoder)):
            self.assertEqual(other.decode(b"\xa9"), "é")
            with self.assertRaises(FaultError) as raised:
                other.decode(b"\xff")
            self.assertEqual(raised.exception.offset, 4)
        self.assertEqual(decoder.decode(b"\xa8"), "è")


class Named(Recoder):
    name = ""


def told(recoder, data):
    try:
        return recoder.feed(data) + recoder.finish(), recoder.replaced
    except FaultError as fault:
        return fault.offset, fault.error, fault.object


class LockIsLetGo(unittest.TestCase):
    """A thread that waits for the lock runs while a call reads 64 KiB or more. No thread gives the lock up by itself here."""

    def setUp(self):
        self.addCleanup(sys.setswitchinterval, sys.getswitchinterval())
        sys.setswitchinterval(1000)

    def lets_go(self, call, tries=TRIES):
        for _ in range(tries):
            go, ran = threading.Event(), []
            other = threading.Thread(target=lambda: (go.wait(), ran.append(1)))
            other.start()
            go.set()
            call()
            seen = bool(ran)
            other.join()
            if seen:
                return True
        return False

    def test_each(self):
        data = "é".encode() * (SIZE // 2)  # (which is valid UTF-16 too, and takes longer than ASCII)
        mapped = mmap.mmap(-1, SIZE)
        mapped[:] = data
        calls = {
            "is_valid": is_valid,
            "first_fault": first_fault,
            "char_count": char_count,
            "offset_of": lambda it: offset_of(it, SIZE),
            "number_of": lambda it: number_of(it, SIZE),
            "pieces": lambda it: len(pieces(it)),
            "pieces of UTF-16": lambda it: len(pieces(it, "utf16be")),
            "faults": lambda it: list(faults(it)),
            "recoded_len": lambda it: recoded_len(it, "utf8", "utf16le"),
            "recode": lambda it: recode(it, "utf16le", "utf16be"),
            "strict": lambda it: recode(it, "utf8", "utf8", "strict"),
            "feed": lambda it: Recoder("utf8", "utf8").feed(it),
            "decode": lambda it: codecs.decode(it, "noddychest-utf8"),
            "feed_faults": lambda it: list(Decoder().feed_faults(it)),
        }
        for it in (data, bytearray(data), memoryview(data), memoryview(bytearray(data))[2:], mapped):
            for name, call in calls.items():
                with self.subTest(call=name, type=type(it).__name__):
                    self.assertTrue(self.lets_go(lambda: call(it)))
        self.assertFalse(self.lets_go(lambda: data.count(b"x"), tries=3), "the test itself: this call keeps the lock")
        mapped.close()


    def test_nothing_goes_away_meanwhile(self):
        """What would move the bytes, or give them back, is rejected while a call reads them."""
        for make, drop in ((lambda: bytearray(SIZE), lambda it: it.append(97)), (lambda: mmap.mmap(-1, SIZE), lambda it: it.close())):
            for call in (is_valid, char_count, lambda it: offset_of(it, SIZE), lambda it: recode(it, "utf16le", "utf16be")):
                self.assertTrue(any(self.is_refused(make(), drop, call) for _ in range(TRIES)))

    def is_refused(self, it, drop, call):
        go, refused = threading.Event(), []

        def meddle():
            go.wait()
            try:
                drop(it)
            except BufferError:
                refused.append(1)

        other = threading.Thread(target=meddle)
        other.start()
        go.set()
        call(it)
        other.join()
        return bool(refused)


class ChangingBuffers(unittest.TestCase):
    """Bytes that other threads change while they are read: the result is of no use, but the call returns."""

    def test_hammered(self):
        size, source = 300_000, random.Random(20)
        data, mapped = bytearray(size), mmap.mmap(-1, size)
        texts = [(text * size)[:size] for text in (b"a", b"\xff", "é".encode(), "😀".encode(), b"\0\xd8", b"\xf0", bytes(range(256)))]
        end = time.monotonic() + 3
        wrong = []

        def change():
            while time.monotonic() < end:
                it, at = source.choice(texts), source.randrange(size - 40_000)
                data[at:at + 40_000] = it[at:at + 40_000]
                mapped[at:at + 40_000] = it[at:at + 40_000]

        def grow():
            while time.monotonic() < end:
                try:
                    if len(data) == size:
                        data.append(97)
                    else:
                        del data[-1]
                except BufferError:
                    pass

        def read(it):
            forms = ["utf8", "utf16le", "utf16be"]
            while time.monotonic() < end:
                count, fault = char_count(it), first_fault(it)
                if not 0 < count <= size + 1 or not (fault is None or 0 <= fault.offset <= size):
                    wrong.append((count, fault))
                form, to = random.choice(forms), random.choice(forms)
                place, number, changed = offset_of(it, size // 3, form), number_of(it, size // 2, form), changed_range(it, 99_999, 100_007, form)
                if not (place is None or 0 <= place <= size) or not 0 < number <= size or not changed[0] <= 99_999 < 100_007 <= changed[1]:
                    wrong.append((place, number, changed))
                if not max(len(recode(it, form, to)), len(recode(it, form, to, "lossy")), recoded_len(it, form, to)) <= 3 * size + 9:
                    wrong.append((form, to))
                if not all(piece.offset <= size and piece.error for piece in itertools.islice(faults(it, form), 1000)):
                    wrong.append(form)
                if not all(piece.offset <= size for run in (iter, reversed) for piece in itertools.islice(run(pieces(it, form)), 1000)):
                    wrong.append(form)
                decoder = Decoder(form)
                for found in (decoder.feed(it), decoder.feed_faults(it)):
                    if not all(piece.offset <= 2 * size + 3 for piece in itertools.islice(found, 1000)):
                        wrong.append(form)
                try:
                    recode(it, form, to, "strict")
                except FaultError as error:
                    if error.offset > size:
                        wrong.append(error.offset)
                for errors in ("ignore", "replace", "surrogateescape"):
                    try:
                        codecs.decode(it, "noddychest-utf8", errors)
                    except UnicodeDecodeError:
                        pass

        run_all([change, grow, lambda: read(data), lambda: read(mapped)])
        self.assertFalse(wrong)
        mapped.close()

    def test_copies_are_cut_between_characters(self):
        """Bytes that may change are read by copies of 32 KiB: characters and faults across their ends are the same."""
        for piece in ("é", "€", "😀", "a"):
            for shift in range(4):
                text = "x" * shift + piece * 40_000
                for form, encoding in (("utf8", "utf-8"), ("utf16le", "utf-16-le"), ("utf16be", "utf-16-be")):
                    it = bytearray(text.encode(encoding))
                    self.assertEqual(recode(it, form, "utf8", "strict").decode(), text)
                    if form == "utf8":
                        self.assertEqual((is_valid(it), char_count(it), len(pieces(it))), (True, len(text), len(text)))
                        self.assertEqual(list(pieces(it)[-3:]), list(pieces(bytes(it))[-3:]))
        for at in [*range(32_760, 32_780), *range(65_530, 65_546), 99_999]:
            for wrong in (b"\xff", b"\xe2\x82", b"\xf0\x9f\x98", b"\xed\xa0\x80", b"\x80"):
                data = b"a" * at + wrong + b"b" * (100_000 - at)
                self.assertEqual(first_fault(bytearray(data)), first_fault(data))
                self.assertEqual(char_count(bytearray(data)), char_count(data))
                self.assertEqual(recode(bytearray(data), "utf8", "utf16le"), recode(data, "utf8", "utf16le"))
            units = b"a\0" * (at // 2) + b"\0\xd8" + b"b\0" * 40_000 + b"\0"
            for to in ("utf8", "utf16be"):
                self.assertEqual(recode(bytearray(units), "utf16le", to), recode(units, "utf16le", to))
                self.assertRaises(FaultError, recode, bytearray(units), "utf16le", to, "strict")


if __name__ == "__main__":
    noddychest.is_valid(b"")
    unittest.main()


class Stop(Exception):
    """What a handler of signals raises."""


@unittest.skipUnless(hasattr(signal, "setitimer") and threading.current_thread() is threading.main_thread(), "signals are handled in the main thread")
class Signals(unittest.TestCase):
    """A handler that raises ends a call at any place. The call was made then, or it was not, and others can be made."""

    def setUp(self):
        def stop(*_):
            raise Stop

        self.addCleanup(signal.signal, signal.SIGALRM, signal.signal(signal.SIGALRM, stop))
        self.addCleanup(signal.setitimer, signal.ITIMER_REAL, 0)

    def stopped(self, call, end, seconds=1e-4):
        """Calls on until a signal comes. Whether one came."""
        try:
            signal.setitimer(signal.ITIMER_REAL, seconds)
            self.go_on(call, end)
        except Stop:
            return True
        return False

    def go_on(self, call, end):  # (in a frame of its own: in CPython 3.13 what came at the jump back of the loop was not caught by a `try` around it)
        while time.monotonic() < end:
            call()

    def hammer(self, call):
        """So that many signals come, each at another place."""
        came, end = 0, time.monotonic() + 20
        while came < 300 and time.monotonic() < end:
            came += self.stopped(call, end, 1e-4 + came % 97 * 1e-6)
        self.assertEqual(came, 300)

    def test_decoders_go_on(self):
        decoder = Decoder()
        for call in (lambda: decoder.feed(b"ab"), lambda: decoder.feed_faults(b"ab"), decoder.finish):
            self.hammer(call)
        self.assertEqual((decoder.held, decoder.offset % 2), (b"", 0))
        first, = decoder.feed(b"c")
        self.assertEqual(first[1:3], ("c", 1))

    def test_recoders_go_on(self):
        recoder = Recoder("utf8", "utf16be")
        self.hammer(lambda: recoder.feed(b"ab"))
        self.assertEqual(recoder.feed(b"c"), b"\0c")

    def test_codecs_go_on_and_their_offsets_are_right(self):
        for _ in range(20):
            decoder = codecs.getincrementaldecoder("noddychest-utf8")()
            self.check_offsets(decoder)

    def check_offsets(self, decoder):
        for _ in range(50):
            self.stopped(lambda: decoder.decode(b"ab\xe2\x82\xac"), time.monotonic() + 5)
        before = decoder.getstate()[0].before
        with self.assertRaises(FaultError) as raised:
            decoder.decode(b"abcde\xff")
        self.assertEqual((raised.exception.offset, before % 5), (before + 5, 0))
