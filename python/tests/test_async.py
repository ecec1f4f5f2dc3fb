"""Input that is awaited: the pieces are those of the whole, no error ends them, and nothing is lost."""
import asyncio
import os
import random
import unittest

from noddychest import stream_faults, stream_pieces

import outside
from test_codecs import splits

CALLS = (stream_pieces, stream_faults)


async def parts_of(parts):
    for it in parts:
        await asyncio.sleep(0)
        yield it


async def everything(stream):
    return [it async for it in stream]


class Awaited(unittest.IsolatedAsyncioTestCase):
    async def asyncSetUp(self):
        asyncio.get_running_loop().slow_callback_duration = 60  # (so that a busy machine prints no warnings)

    async def test_every_division(self):
        for data in outside.inputs(400, 7, seed=111):
            for encoding in ("utf8", "utf16le", "utf16be", "auto"):
                for parts in splits(data):
                    for call in CALLS:
                        self.assertEqual(await everything(call(parts_of(parts), encoding)), list(call(parts, encoding)), (parts, encoding))

    async def test_a_reader_of_asyncio(self):
        """Also where its lines are longer than the limit that it has for them."""
        for call in CALLS:
            reader, data = asyncio.StreamReader(limit=16), outside.damaged(b"long lines without an end", 9, 5000) + b"\n\xff\n\xe2\x82"
            source = random.Random(112)

            async def feed():
                left = data
                while left:
                    size = source.choice([1, 5, 300])
                    reader.feed_data(left[:size])
                    left = left[size:]
                    await asyncio.sleep(0)
                reader.feed_eof()

            feeding = asyncio.ensure_future(feed())
            self.assertEqual(await everything(call(reader)), list(call([data])))
            await feeding

    async def test_a_pipe(self):
        read, write = os.pipe()
        reader = asyncio.StreamReader()
        with open(read, "rb") as file:
            transport, _ = await asyncio.get_running_loop().connect_read_pipe(lambda: asyncio.StreamReaderProtocol(reader), file)
            stream = stream_pieces(reader)
            os.write(write, b"a\xe2")
            self.assertEqual((await stream.__anext__()).char, "a")  # (what is there is told, while the pipe is open)
            os.close(write)
            self.assertEqual([it.offset for it in await everything(stream)], [1])
            transport.close()

    async def test_pieces_come_as_soon_as_they_are_decided(self):
        log = []

        async def parts():
            for it in b"a\xc3\xa9\xffb":
                log.append(it)
                yield bytes([it])

        async for it in stream_pieces(parts()):
            log.append(it.char)
        self.assertEqual(log, [0x61, "a", 0xC3, 0xA9, "é", 0xFF, None, 0x62, "b"])

    async def test_a_step_that_is_cancelled_loses_nothing(self):
        for encoding, data in (("utf8", b"a\xe2\x82\xac\xff"), ("auto", b"\xff\xfea\0\0\xdc")):
            for call in CALLS:
                reader, found = asyncio.StreamReader(), []
                stream = call(reader, encoding)
                for at in range(len(data)):
                    step = asyncio.ensure_future(stream.__anext__())
                    await asyncio.sleep(0)
                    step.cancel()
                    with self.assertRaises(asyncio.CancelledError):
                        await step
                    reader.feed_data(data[at:at + 1])
                    try:
                        while True:
                            found.append(await asyncio.wait_for(stream.__anext__(), 0.001))
                    except asyncio.TimeoutError:
                        pass
                reader.feed_eof()
                self.assertEqual(found + await everything(stream), list(call([data], encoding)))

    async def test_errors_of_the_source_end_nothing(self):
        class Fails:
            answers = [b"a\xe2", OSError("no"), b"\x82", ValueError("no"), b"\xac", StopAsyncIteration()]

            def __aiter__(self):
                return self

            async def __anext__(self):
                it = self.answers.pop(0)
                if isinstance(it, Exception):
                    raise it
                return it

        stream, found = stream_pieces(Fails()), []
        for _ in range(3):
            try:
                async for it in stream:
                    found.append(it.char)
            except (OSError, ValueError) as error:
                found.append(type(error))
        self.assertEqual(found, ["a", OSError, ValueError, "€"])
        for _ in range(2):
            with self.assertRaises(StopAsyncIteration):
                await stream.__anext__()

    async def test_a_part_that_is_no_bytes(self):
        for wrong in ("text", None, 5):
            stream = stream_pieces(parts_of([b"a", wrong, b"b"]))
            self.assertEqual((await stream.__anext__()).char, "a")
            for _ in range(3):
                with self.assertRaises(TypeError):
                    await stream.__anext__()

    async def test_a_second_task(self):
        reader = asyncio.StreamReader()
        stream = stream_pieces(reader)
        first = asyncio.ensure_future(stream.__anext__())
        await asyncio.sleep(0)
        with self.assertRaises(RuntimeError) as raised:
            await stream.__anext__()
        self.assertIn("in use by another task", str(raised.exception))
        reader.feed_data(b"ab")
        reader.feed_eof()
        self.assertEqual([(await first).char, *(it.char for it in await everything(stream))], ["a", "b"])

    async def test_it_may_be_left_and_taken_up(self):
        stream = stream_pieces(parts_of([b"ab", b"cd"]))
        async for it in stream:
            if it.char == "c":
                break
        self.assertEqual([it.char for it in await everything(stream)], ["d"])

    async def test_what_is_refused(self):
        self.assertRaises(LookupError, stream_pieces, parts_of([]), "utf7")
        self.assertRaises(TypeError, stream_pieces, asyncio.sleep)
        self.assertEqual(await everything(stream_faults(parts_of([]))), [])


if __name__ == "__main__":
    unittest.main()
