"""Files and iterables that give input in parts: no data now is no end, no error ends them, and nothing is lost. And states that none has."""
import array
import collections
import errno
import io
import os
import random
import signal
import socket
import tempfile
import threading
import time
import unittest

from noddychest import Decoder, FaultKind, Recoder, stream_faults, stream_pieces

import outside

FORMS = {"utf8": "utf-8", "utf16le": "utf-16-le", "utf16be": "utf-16-be"}


class Dribble(io.RawIOBase):
    """A file that does not wait: it gives what was put in, None if nothing was, and b"" at the end. So does what buffers it."""

    def __init__(self):
        super().__init__()
        self.blocks, self.ended = [], False

    def readable(self):
        return True

    def readinto(self, into):
        if not self.blocks:
            return 0 if self.ended else None
        block = self.blocks.pop(0)
        count = min(len(block), len(into))
        into[:count] = block[:count]
        if block[count:]:
            self.blocks.insert(0, block[count:])
        return count


def asked(stream):
    """All that a stream gives now; and whether it has ended."""
    found = []
    try:
        for it in stream:
            found.append(it)
    except BlockingIOError as error:
        return found, error.errno != errno.EAGAIN
    return found, True


class NoDataNow(unittest.TestCase):
    """A file that has no data now has not ended: BlockingIOError, and nothing is lost."""

    def test_every_division(self):
        source = random.Random(73)
        for data in outside.inputs(600, 12, seed=74):
            for form in FORMS:
                for buffered in (False, True):
                    decoder = Decoder(form)
                    wanted = [*decoder.feed(data), *decoder.finish()]
                    raw = Dribble()
                    file = io.BufferedReader(raw, source.choice([1, 4, 100])) if buffered else raw
                    stream, faults = stream_pieces(file, form), source.random() < 0.5
                    if faults:
                        stream, wanted = stream_faults(file, form), [it for it in wanted if it.error]
                    found, at = [], 0
                    while at < len(data):
                        more, ended = asked(stream)
                        self.assertFalse(ended)
                        size = source.randint(1, 5)
                        raw.blocks += [data[at:at + size]]
                        found, at = found + more, at + size
                    more, ended = asked(stream)
                    self.assertFalse(ended)
                    raw.ended = True
                    last, ended = asked(stream)
                    self.assertEqual((found + more + last, ended, asked(stream)), (wanted, True, ([], True)), (data, form, buffered, faults))

    def test_pipes_and_sockets(self):
        for buffering in (0, -1):
            for make in (os.pipe, lambda: [it.detach() for it in socket.socketpair()]):
                reader, writer = make()
                os.set_blocking(reader, False)
                with open(reader, "rb", buffering) as file:
                    stream = stream_pieces(file)
                    self.assertEqual(asked(stream), ([], False))
                    os.write(writer, b"a\xe2\x82")
                    self.assertEqual(asked(stream), ([(0, "a", 1, None)], False))
                    os.write(writer, b"\xac")
                    self.assertEqual(asked(stream), ([(1, "€", 3, None)], False))
                    os.write(writer, b"\xe2")
                    os.close(writer)
                    self.assertEqual(asked(stream), ([(4, None, 1, FaultKind.TOO_FEW_BYTES)], True))

    def test_files_that_wait_are_not_asked_again(self):
        """At a terminal that would wait for another end."""
        class Counted(io.FileIO):
            calls = 0

            def readinto(self, into):
                self.calls += 1
                return super().readinto(into)

        with tempfile.NamedTemporaryFile() as file:
            file.write(b"abc")
            file.flush()
            raw = Counted(file.name)
            self.assertEqual(len([*stream_pieces(io.BufferedReader(raw))]), 3)
            self.assertEqual(raw.calls, 2)

    def test_odd_files(self):
        class OnlyRead(io.BufferedIOBase):
            """read1 is there, and only raises."""

            def __init__(self, data):
                self.file = io.BytesIO(data)

            def read(self, size=-1):
                return self.file.read(size)

        class Views:
            """Blocks that are no `bytes`; the last has none."""

            def __init__(self, data):
                self.file = io.BytesIO(data)

            def read(self, size):
                return array.array("B", self.file.read(size))

        class Detached(io.BytesIO):
            def fileno(self):
                raise AttributeError("closed")

        for make in (OnlyRead, Views, Detached, io.BytesIO):
            self.assertEqual([*stream_pieces(make(b"a\xe2\x82"))], [(0, "a", 1, None), *((at, None, 1, kind) for at, kind in (
                (1, FaultKind.TOO_FEW_BYTES), (2, FaultKind.UNEXPECTED_CONTINUATION_BYTE)))])

    def test_parts_that_are_none(self):
        for call in (stream_pieces, stream_faults):
            self.assertRaises(TypeError, next, call([None]))


class AfterErrors(unittest.TestCase):
    """An error of a file or an iterable does not end the pieces, and what is held is not lost."""

    class Failing:
        def __init__(self, *parts):
            self.parts = list(parts)

        def read(self, size):
            part = self.parts.pop(0) if self.parts else b""
            if isinstance(part, Exception):
                raise part
            return part

    def test_they_go_on(self):
        for error in (TimeoutError("slow"), OSError(5, "broken"), KeyError("x"), BlockingIOError(11, "none")):
            for call in (stream_pieces, stream_faults):
                stream, found, raised = call(self.Failing(b"a\xff\xe2", error, b"\x82\xac\xff", error, b"\xf0")), [], 0
                while True:
                    try:
                        found.append(next(stream))
                    except type(error):
                        raised += 1
                    except StopIteration:
                        break
                self.assertEqual(([it.offset for it in found if it.error], raised), ([1, 5, 6], 2))
                self.assertEqual([next(stream, None) for _ in range(3)], [None] * 3)

    def test_iterables(self):
        parts, raises = [b"a\xe2", ZeroDivisionError, b"\x82\xac"], []

        class Each:
            def __iter__(self):
                return self

            def __next__(self):
                if not parts:
                    raise StopIteration
                it = parts.pop(0)
                if isinstance(it, type):
                    raises.append(it)
                    raise it
                return it

        stream = stream_pieces(Each())
        self.assertEqual(next(stream).char, "a")
        self.assertRaises(ZeroDivisionError, next, stream)
        self.assertEqual([*stream], [(1, "€", 3, None)])

    def test_generators_end_with_what_is_held(self):
        def parts():
            yield b"a\xe2\x82"
            raise ValueError("no more")

        stream = stream_pieces(parts())
        self.assertEqual(next(stream).char, "a")
        self.assertRaises(ValueError, next, stream)
        self.assertEqual([it.offset for it in stream], [1, 2])

    def test_a_part_that_is_no_data_is_not_skipped(self):
        for wrong in ("text", 5, None, memoryview(b"abcd")[::2]):
            stream = stream_pieces(iter([b"a", wrong, b"b"]))
            self.assertEqual(next(stream).char, "a")
            for _ in range(3):
                self.assertRaises((TypeError, BufferError), next, stream)

    def test_signals(self):
        """A handler that raises ends a step, and no byte of the file is lost."""
        class Stop(Exception):
            pass

        def drain():
            collections.deque(map(found.append, stream), 0)  # (all in C, so that nothing is lost in this loop)

        def stop(number, frame):
            if frame.f_code is drain.__code__:
                raise Stop

        def write():
            with open(writer, "wb", 0) as file:
                for at in range(0, len(data), 7):
                    file.write(data[at:at + 7])
                    time.sleep(0.0005)

        data, stopped = ("né€".encode() * 5 + b"\xff") * 50, 0
        wanted = [it.offset for it in Decoder().feed_faults(data)]
        self.addCleanup(signal.signal, signal.SIGALRM, signal.signal(signal.SIGALRM, stop))
        for buffering in (0, -1):
            reader, writer = os.pipe()
            thread = threading.Thread(target=write)
            with open(reader, "rb", buffering) as file:
                stream, found = stream_faults(file), []
                thread.start()
                signal.setitimer(signal.ITIMER_REAL, 0.001, 0.001)
                while True:
                    try:
                        drain()
                        break
                    except Stop:
                        stopped += 1
                signal.setitimer(signal.ITIMER_REAL, 0)
                thread.join()
            self.assertEqual([it.offset for it in found], wanted)
        self.assertGreater(stopped, 10)


class States(unittest.TestCase):
    """A state that none can have is rejected, and changes nothing."""

    def refuses(self, it, state, shown):
        before = shown(it)
        with self.assertRaises((ValueError, TypeError, OverflowError, AttributeError)):
            it.__setstate__(state)
        self.assertEqual(shown(it), before, state)

    def test_decoders(self):
        class Mine(Decoder):
            pass

        for type_ in (Decoder, Mine):
            it = type_("utf16le", 7)
            it.feed(b"a\0b")
            shown = lambda it: (it.encoding, it.offset, it.held, getattr(it, "__dict__", None))
            for state in (
                (), (0, 5, b""), (0, 5, b"", None, 1), (3, 5, b"", None), (0, -1, b"", None), (0, 1 << 64, b"", None), (0, 5, b"ab", None),
                (0, 5, b"\xe2\x82\xac", None), (0, "5", b"", None), (0, 5, "", None), (0, 5, b"", 5), (0, 5, b"", {1: 2}), ("0", 5, b"", None),
                (0, 5, b"", [("a", 1)]), *([(0, 5, b"", {"mine": 1})] if type_ is Decoder else []),
            ):  # fmt: skip
                self.refuses(it, state, shown)
            self.assertEqual([*it.feed(b"\0")], [(9, "b", 2, None)])

    def test_recoders(self):
        class Mine(Recoder):
            pass

        for type_ in (Recoder, Mine):
            it = type_("utf16le", "utf8", "lossy")
            it.feed(b"a\0b")
            shown = lambda it: (it.__getstate__())
            for state in (
                (), (0, 1, 0, (b"", 0, 0)), (3, 1, 0, (b"", 0, 0), None), (0, 3, 0, (b"", 0, 0), None), (0, 1, 6, (b"", 0, 0), None), (0, 1, b"\0" * 511, (b"", 0, 0), None),
                (0, 1, 0, (b"ab", 0, 2), None), (0, 1, 0, (b"\xe2", 0, 0), None), (0, 1, 0, (b"", -1, 5), None), (0, 1, 0, (b"", 1 << 64, 5), None),
                (0, 1, 0, (b"", 6, 5), None), (0, 1, 0, (b"", 0, 1 << 70), None), (0, 1, 0, (b"", 0, -1), None), (0, 1, 0, (b"", 0), None),
                (0, 1, 0, (b"", 0, 0), 5), (0, 1, 0, (b"", 0, 0), {1: 2}), (0, 1, 0, ("", 0, 0), None), (0, "1", 0, (b"", 0, 0), None),
                *([(0, 1, 0, (b"", 0, 0), {"mine": 1})] if type_ is Recoder else []),
            ):  # fmt: skip
                self.refuses(it, state, shown)
            self.assertEqual((it.feed(b"\0"), it.finish()), (b"b", b""))


if __name__ == "__main__":
    unittest.main()
