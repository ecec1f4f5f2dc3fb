"""Pieces of input that comes in parts."""
from __future__ import annotations

import functools
import io
import operator
import os
from collections.abc import AsyncIterable, AsyncIterator, Awaitable, Callable, Iterable, Iterator
from typing import TYPE_CHECKING, Any, Optional, Protocol, TypeVar, Union, overload

from . import _noddychest
from ._names import STANDARD, form_of, form_or_auto
from ._pieces import ERRORS, Located, Piece

if TYPE_CHECKING:
    from _typeshed import ReadableBuffer

_PIECES, _FAULTS, _LAST, _LOCATED = 1, 2, 3, 4  # what a part is asked for, by the numbers of the extension
_READ_AT_ONCE = 1 << 16  # the bytes that an asynchronous source is asked for
_Made = TypeVar("_Made")


def attributes_for(it: object, more: object) -> dict[str, Any]:
    """What an object of a subclass has of its own, from a state; it is checked that the object can have it."""
    if more is None:
        return {}
    if not isinstance(more, dict) or not all(isinstance(name, str) for name in more):
        raise TypeError(f"a dict of attributes is required, not {type(more)!r}")
    if more and not hasattr(it, "__dict__"):
        raise TypeError(f"{type(it)!r} has no attributes of its own")
    return more


class Decoder:
    """Gives the pieces of input that comes in parts, each with its offset from the first byte of all input. The pieces do not depend on
    how the input is divided into parts.

    encoding: the encoding of the input. offset: that of its first byte, for input that begins inside a file.
    Errors: LookupError for an unknown encoding, ValueError for an offset below 0 or above 2**64 - 1. (After that one offsets go on from 0.)

    The pieces are those of `pieces(data)` for the whole input, and so are the reasons, but for one case. A Decoder names a byte that
    breaks a character as soon as it sees that: so of F0 41 at the end of the input the first byte is an INTERRUPTED_SEQUENCE, and not
    TOO_FEW_BYTES.

    A Decoder takes one call at a time. If another thread calls it meanwhile, that raises RuntimeError, and no input is lost. `copy.copy`
    and `pickle` make a decoder that goes on by itself from the same state.

    >>> decoder = Decoder("utf8")
    >>> for part in [b"a\\xe2\\x82", b"\\xac\\xff", b"\\xf0"]:
    ...     print([(piece.offset, piece.char or piece.error.name) for piece in decoder.feed(part)])
    [(0, 'a')]
    [(1, '€'), (4, 'NON_UTF8_BYTE')]
    []
    >>> decoder.offset, decoder.held, decoder.finish()
    (5, b'\\xf0', [Piece(offset=5, char=None, length=1, error=<FaultKind.TOO_FEW_BYTES: 1>)])
    """

    __slots__ = ("_form", "_state", "_turn", "__weakref__")

    def __init__(self, encoding: str = "utf8", offset: int = 0) -> None:
        self._begin(form_of(encoding), operator.index(offset), b"")

    def _begin(self, form: int, offset: int, held: bytes) -> None:
        if not 0 <= offset < 1 << 64:
            raise ValueError("the offset has to be from 0 to 2**64 - 1")
        state = _noddychest.Part(form, b"", Piece, ERRORS).begin(_PIECES, offset, held)
        self._form, self._state, self._turn = form, state, _noddychest.Turn()

    def __getstate__(self) -> tuple[Any, ...]:
        return self._form, *self._state, getattr(self, "__dict__", None)

    def __setstate__(self, state: tuple[Any, ...]) -> None:
        form, offset, held, more = state
        more = attributes_for(self, more)
        self._begin(form, offset, held)
        if more:
            self.__dict__.update(more)

    def feed(self, data: ReadableBuffer) -> Iterator[Piece]:
        """Reads a part, and gives an iterator over the pieces that it completes. At most three bytes, whose piece the next part decides,
        are held until that comes.

        Data is any bytes-like object. Errors: TypeError for what is none.
        Cost: the call itself takes the same time for each length; a piece is made when it is asked for, and one that is not kept takes no
        memory. An iterator takes 8 kB. It goes over the bytes of the part, which are not copied and have to stay the same until it has
        ended; a `bytearray` cannot be resized until then.

        The part counts as read, whether its pieces are asked for or not. So you may leave an iterator before its end, or feed the next part and
        go on with it afterwards.

        >>> decoder = Decoder()
        >>> first, second = decoder.feed(b"n\\xc3"), decoder.feed(b"\\xa9!")
        >>> [piece.offset for piece in second], [piece.offset for piece in first]
        ([1, 3], [0])
        """
        return self._step(data, _PIECES, iter)

    def feed_faults(self, data: ReadableBuffer) -> Iterator[Piece]:
        """Reads a part as `feed` does, and gives an iterator over only the invalid bytes. Valid text is skipped as fast as it is
        validated; while it is, from 64 KiB on, other threads run.

        >>> decoder = Decoder()
        >>> faults = [*decoder.feed_faults(b"a\\xffb\\xe2\\x82"), *decoder.feed_faults(b"c"), *decoder.finish()]
        >>> [(piece.offset, piece.error.name) for piece in faults]
        [(1, 'NON_UTF8_BYTE'), (3, 'INTERRUPTED_SEQUENCE'), (4, 'UNEXPECTED_CONTINUATION_BYTE')]
        """
        return self._step(data, _FAULTS, iter)

    def finish(self) -> list[Piece]:
        """Ends the input, and returns the pieces of what is held: at most three, which are all invalid. After that you may feed the
        decoder again, and offsets go on; for other input make another one."""
        return self._step(b"", _LAST, list)

    def _step(self, data: ReadableBuffer, asked: int, given: Callable[[Iterator[Piece]], _Made]) -> _Made:
        part = _noddychest.Part(self._form, data, Piece, ERRORS)
        made: _Made = self._turn.take(self._begun, part, asked, given)
        return made

    def _begun(self, part: _noddychest.Part, asked: int, given: Callable[[Iterator[Piece]], _Made]) -> _Made:
        state = part.begin(asked, *self._state)
        made = given(part)
        self._state = state  # (once nothing can fail any more)
        return made

    @property
    def encoding(self) -> str:
        """The encoding, by Python's name: `utf-8`, `utf-16-le` or `utf-16-be`."""
        return STANDARD[self._form]

    @property
    def offset(self) -> int:
        """The offset of the first byte that is held or, if none is, of the next one that is fed."""
        return self._state[0]

    @property
    def held(self) -> bytes:
        """The bytes that are held: at most three, of which the next part decides what they are."""
        return self._state[1]


class _Readable(Protocol):
    """A binary file."""

    def read(self, size: int, /) -> Optional[bytes]: ...


Parts = Union["Iterable[ReadableBuffer]", _Readable]
AsyncParts = AsyncIterable["ReadableBuffer"]


def waits(file: Any) -> bool:
    """Whether a file surely waits until there is data. Then an empty block is its end, and it need not be asked again, which at a terminal
    would wait for another end."""
    try:
        number = file.fileno()
    except (AttributeError, OSError, ValueError):  # (many have none)
        return False
    try:
        return os.get_blocking(number)
    except (AttributeError, OSError, TypeError, ValueError):  # (Windows does not say)
        return True


def _readers(file: Any) -> Optional[_noddychest._File]:
    """How a file is read: see next_block in parts.c. None for what is no file."""
    read, read1 = getattr(file, "read", None), getattr(file, "read1", None)
    if read1 is None or getattr(type(file), "read1", None) is io.BufferedIOBase.read1:  # (this one only raises)
        return None if read is None else (read, functools.partial(waits, file), None)
    return read1, functools.partial(waits, file), read


class _NoPart(Exception):
    """No part is there yet."""


class _Arrived:
    """The parts of a Stream, of which the next one is put here when it has arrived."""

    def __init__(self) -> None:
        self.parts: list[ReadableBuffer] = []
        self.is_over = False

    def __iter__(self) -> _Arrived:
        return self

    def __next__(self) -> ReadableBuffer:
        if self.parts:
            return self.parts.pop()
        raise StopIteration if self.is_over else _NoPart


def _arrivals(parts: Any) -> Callable[[], Awaitable[ReadableBuffer]]:
    """What gives the next part of an asynchronous source, as its `__anext__` does. A reader of asyncio gives lines there, and loses one that
    is longer than its limit: so what has a `read` that is awaited is asked for blocks."""
    read: Any = getattr(parts, "read", None)
    import inspect  # (it takes longer to import than all of this package)

    if not inspect.iscoroutinefunction(read):
        next_part: Callable[[], Awaitable[ReadableBuffer]] = parts.__aiter__().__anext__
        return next_part

    async def next_block() -> ReadableBuffer:
        block: ReadableBuffer = await read(_READ_AT_ONCE)
        if isinstance(block, (bytes, bytearray)) and not block:
            raise StopAsyncIteration
        return block

    return next_block


class _AsyncStream(AsyncIterator[Any]):
    """A Stream whose parts are awaited."""

    def __init__(self, make: Callable[[Any], Iterator[Any]], parts: AsyncParts) -> None:
        self._arrived = _Arrived()
        self._pieces, self._next_part, self._is_waiting = make(self._arrived), _arrivals(parts), False

    async def __anext__(self) -> Any:
        if self._is_waiting:
            raise RuntimeError("this iterator is in use by another task: give each task its own")
        while True:
            try:
                return next(self._pieces)
            except StopIteration:
                raise StopAsyncIteration from None
            except _NoPart:
                pass
            self._is_waiting = True
            try:
                self._arrived.parts.append(await self._next_part())
            except StopAsyncIteration:
                self._arrived.is_over = True
            finally:
                self._is_waiting = False


def _stream(asked: int, parts: Any, encoding: str) -> Any:
    form = form_or_auto(encoding)

    def made(each: Any) -> Iterator[Any]:
        return _noddychest.Stream(form, each, asked, Located if asked == _LOCATED else Piece, ERRORS)

    if hasattr(parts, "__aiter__") and not hasattr(parts, "__iter__"):
        return _AsyncStream(made, parts)
    return made(_readers(parts) or iter(parts))


@overload
def stream_pieces(parts: Parts, encoding: str = "utf8") -> Iterator[Piece]: ...
@overload
def stream_pieces(parts: AsyncParts, encoding: str = "utf8") -> AsyncIterator[Piece]: ...
def stream_pieces(parts: Union[Parts, AsyncParts], encoding: str = "utf8") -> Union[Iterator[Piece], AsyncIterator[Piece]]:
    """The pieces of input in parts, from the first to the last: what a Decoder gives for all of them.

    parts: a binary file, which is read in blocks of 64 KiB or of what there is, or otherwise any iterable of bytes-like objects. Of an
    asynchronous iterable, as a reader of asyncio, the result is an asynchronous iterator. encoding: also `auto`, which is that of the byte
    order mark, or UTF-8 if there is none; a mark stays, as U+FEFF.
    Errors: LookupError for an unknown encoding, TypeError for what is no such thing, and what the file or the iterable raises.
    BlockingIOError if a file that does not wait has no data now: one whose `read` returns None, as a pipe or a socket after
    `os.set_blocking(fd, False)`. RuntimeError for a step that is asked for while another one goes on, by another thread or task, or by the
    file itself. None of these ends the pieces, and no byte is lost: the next step asks again; so it does after a step that was cancelled.
    A part that is no bytes-like object stays the next one, and each step raises TypeError.
    Cost: one part is in memory at a time, and a piece is made when it is asked for.

    >>> [(piece.offset, piece.char) for piece in stream_pieces([b"n\\xc3", b"\\xa9!"])]
    [(0, 'n'), (1, 'é'), (3, '!')]
    """
    it: Union[Iterator[Piece], AsyncIterator[Piece]] = _stream(_PIECES, parts, encoding)
    return it


@overload
def stream_faults(parts: Parts, encoding: str = "utf8") -> Iterator[Piece]: ...
@overload
def stream_faults(parts: AsyncParts, encoding: str = "utf8") -> AsyncIterator[Piece]: ...
def stream_faults(parts: Union[Parts, AsyncParts], encoding: str = "utf8") -> Union[Iterator[Piece], AsyncIterator[Piece]]:
    """Only the invalid bytes, of input in parts; otherwise as `stream_pieces`. Valid text is skipped as fast as it is validated.

    >>> import io
    >>> [(piece.offset, piece.error.name) for piece in stream_faults(io.BytesIO(b"ab\\xff"))]
    [(2, 'NON_UTF8_BYTE')]
    """
    it: Union[Iterator[Piece], AsyncIterator[Piece]] = _stream(_FAULTS, parts, encoding)
    return it


@overload
def stream_located(parts: Parts, encoding: str = "utf8") -> Iterator[Located]: ...
@overload
def stream_located(parts: AsyncParts, encoding: str = "utf8") -> AsyncIterator[Located]: ...
def stream_located(parts: Union[Parts, AsyncParts], encoding: str = "utf8") -> Union[Iterator[Located], AsyncIterator[Located]]:
    """The invalid bytes of input in parts, each with its line and its columns; otherwise as `stream_faults`. Lines and columns count from
    the front of all input, and do not depend on how it is divided into parts.

    >>> [(it.offset, it.line, it.column) for it in stream_located([b"a\\nb\\xc3", b"\\xa9\\xff"])]
    [(5, 2, 3)]
    """
    it: Union[Iterator[Located], AsyncIterator[Located]] = _stream(_LOCATED, parts, encoding)
    return it
