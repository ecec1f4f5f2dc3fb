"""What an input most likely is, by counts of what it has."""
from __future__ import annotations

import enum
import errno
from collections.abc import Iterator
from typing import TYPE_CHECKING, Any, NamedTuple, Union

from . import _noddychest
from ._parts import Parts, attributes_for

if TYPE_CHECKING:
    from _typeshed import ReadableBuffer

_READ_AT_ONCE = 1 << 16  # the bytes that a file is asked for


class Guess(enum.Enum):
    """What an input most likely is.

    >>> Guess.UTF8_TWICE.text
    'UTF-8 that was encoded twice'
    """

    ASCII = 0
    UTF8 = 1
    UTF8_MARKED = 2
    UTF8_CUT = 3
    UTF8_MIXED = 4
    UTF8_TWICE = 5
    UTF8_SURROGATES = 6
    UTF16LE = 7
    UTF16BE = 8
    UTF16LE_MARKED = 9
    UTF16BE_MARKED = 10
    UTF32 = 11
    WINDOWS1252 = 12
    OTHER_8BIT = 13
    BINARY = 14

    @property
    def text(self) -> str:
        """What the guess says, for people."""
        return _noddychest.guess_text(self.value)


class Utf8Counts(NamedTuple):
    """What bytes have, as UTF-8."""

    chars: int
    """Characters of several bytes."""
    faults: int
    """Invalid bytes."""
    third: int
    """Invalid bytes other than A0, after two bytes above 7F."""
    signs: int
    """Invalid bytes between two ASCII letters, where Windows-1252 rarely has them."""
    undefined: int
    """Invalid bytes for which Windows-1252 has no character."""
    surrogates: int
    """Surrogates that are written as characters of three bytes."""
    twice: int
    """Sequences that were read as Windows-1252 and encoded once more."""
    twice_chars: int
    """The characters of these sequences."""


class UnitCounts(NamedTuple):
    """What bytes have, as units of UTF-16 in one byte order."""

    plain: int
    """Units that occur in nearly every text: tab, LF, CR, U+0020 to U+007E, U+3001, U+3002 and U+FF0C."""
    stray: int
    """Units that do not occur in text: controls, U+FFFE and U+FFFF."""
    unpaired: int
    """Units of which the one before begins a pair that this one does not end, or the other way round."""


class Survey(NamedTuple):
    """What was counted in an input, and what that most likely is.

    >>> survey(b"caf\\xe9").guess
    <Guess.WINDOWS1252: 12>
    """

    len: int
    """The length of the input in bytes."""
    nul: int
    """Bytes that are 00."""
    control: int
    """Other controls that do not occur in text: 01 to 06, 0E to 1A, and 1C to 1F."""
    utf8: Utf8Counts
    """Counts of the bytes as UTF-8."""
    utf16le: UnitCounts
    """Counts of the bytes as units, low byte first."""
    utf16be: UnitCounts
    """Counts of the bytes as units, high byte first."""
    front: bytes
    """The first four bytes, or all if they are fewer."""
    head: int
    """Continuation bytes before any other byte, at most three: the rest of a character."""
    tail: int
    """Bytes at the end, at most three, that begin a character whose other bytes are missing."""
    guesses: tuple[Guess, ...]
    """What the input may be: one to three guesses, the likeliest first. Each says what the input is if those before it are wrong."""

    @property
    def guess(self) -> Guess:
        """What the input most likely is: the first of the guesses."""
        return self.guesses[0]


class Surveyor:
    """Surveys input that comes in parts, which may begin and end anywhere: the survey is that of the joined parts.

    A Surveyor takes one part at a time. If another thread feeds it meanwhile, that raises RuntimeError, and nothing is counted. `copy.copy` and
    `pickle` make one that goes on by itself from the same state.

    >>> surveyor = Surveyor()
    >>> for part in [b"caf\\xc3", b"\\xa9"]:
    ...     surveyor.feed(part)
    ...     print(surveyor.survey().guess.name)
    WINDOWS1252
    UTF8
    """

    __slots__ = ("_state", "_turn", "__weakref__")

    def __init__(self) -> None:
        self._state, self._turn = _noddychest.surveyor(), _noddychest.Turn()

    def __getstate__(self) -> tuple[Any, ...]:
        return self._state, getattr(self, "__dict__", None)

    def __setstate__(self, state: tuple[Any, ...]) -> None:
        kept, more = state
        more = attributes_for(self, more)
        _noddychest.survey(kept)  # (its ValueError is that of a state which no Surveyor has)
        self._state, self._turn = kept, _noddychest.Turn()
        if more:
            self.__dict__.update(more)

    def feed(self, data: ReadableBuffer) -> None:
        """Counts what the next part has. From 64 KiB on other threads run meanwhile.

        Data is any bytes-like object. Errors: TypeError for what is none; then nothing is counted. Cost: it reads the data once.
        """
        self._turn.take(self._fed, data)

    def _fed(self, data: ReadableBuffer) -> None:
        self._state = _noddychest.surveyed(self._state, data)

    def survey(self) -> Survey:
        """The survey of what was fed so far. You may feed more afterwards. Cost: the same for each length."""
        size, nul, control, utf8, le, be, front, head, tail, guesses = _noddychest.survey(self._state)
        return Survey(size, nul, control, Utf8Counts(*utf8), UnitCounts(*le), UnitCounts(*be), front, head, tail, tuple(map(Guess, guesses)))


def _blocks(file: Any) -> Iterator[ReadableBuffer]:
    while True:
        block = file.read(_READ_AT_ONCE)
        if block is None:
            raise BlockingIOError(errno.EAGAIN, "the file has no data now")
        yield block  # (also an empty one: that of a text file is no bytes)
        if not len(block):
            return


def _parts_of(data: Any) -> Iterator[ReadableBuffer]:
    """The parts of an input. (a string is iterable, and so are many buffers)"""
    if isinstance(data, str) or not (hasattr(data, "read") or hasattr(data, "__iter__")):
        _noddychest.check(data)  # (its TypeError says what is required)
    try:
        memoryview(data).release()
    except TypeError:
        return _blocks(data) if hasattr(data, "read") else iter(data)
    return iter((data,))


def survey(data: Union[ReadableBuffer, Parts]) -> Survey:
    """Counts what an input has, and guesses by that what it most likely is.

    data: any bytes-like object; a binary file, which is read to its end in blocks of 64 KiB; or an iterable of bytes-like objects, which are
    the parts of the input.
    Errors: TypeError for what is no such thing, BlockingIOError for a file that does not wait and has no data now, and what the file or the
    iterable raises. Then the parts that were read are lost: where that may happen, feed a Surveyor.
    Cost: it reads the input once. One block is in memory at a time.

    >>> survey([b"n\\xc3", b"\\xa9!"]).utf8.chars
    1
    """
    surveyor = Surveyor()
    for part in _parts_of(data):
        surveyor.feed(part)
    return surveyor.survey()


def guess(data: Union[ReadableBuffer, Parts]) -> Guess:
    """What an input most likely is. It is a guess, by thresholds that were set on texts in 74 languages, and it is `survey(data).guess`.

    >>> guess(b"caf\\xe9"), guess("h\\u00e9".encode("utf-16-le")).text
    (<Guess.WINDOWS1252: 12>, 'UTF-16LE, without a byte order mark')
    """
    return survey(data).guess
