"""Pieces of text, from the front and from both ends, and only the invalid ones."""
from __future__ import annotations

import array
import enum
import itertools
import operator
from collections.abc import Iterator, Sequence
from typing import TYPE_CHECKING, Any, NamedTuple, Optional, Union, overload

from . import _noddychest
from ._names import STANDARD, form_of

if TYPE_CHECKING:
    from _typeshed import ReadableBuffer

    from ._shards import Shard

if not _noddychest.supported():
    raise ImportError("noddychest needs a processor with x86-64-v2 (SSE4.2 and POPCNT), and this one has less")

# Once pieces are counted, the offset of every 64th one is kept.
_EVERY = 64


class FaultKind(enum.Enum):
    """The reason why a byte is invalid; in UTF-16, why a 16-bit unit is, or a single byte at the end.

    >>> FaultKind.OVERLONG_ENCODING.reason
    'overlong encoding: the value has a shorter code'
    """

    TOO_FEW_BYTES = 1
    NON_UTF8_BYTE = 2
    UNEXPECTED_CONTINUATION_BYTE = 3
    INTERRUPTED_SEQUENCE = 4
    OVERLONG_ENCODING = 5
    UTF16_RESERVED_CODEPOINT = 6
    TOO_HIGH_CODEPOINT = 7
    UNEXPECTED_TRAILING_SURROGATE = 8
    UNMATCHED_LEADING_SURROGATE = 9
    INCOMPLETE = 10

    @property
    def reason(self) -> str:
        """The reason in words."""
        return REASONS[self.value]


# The error of each number of the C library, and the reason in words, which is what its nody_kind_sentence says. 0 is a character, and
# 11 that nothing is left.
ERRORS: tuple[Optional[FaultKind], ...] = (None, *FaultKind, None)
REASONS = tuple(map(_noddychest.kind_sentence, range(len(ERRORS))))


class Piece(NamedTuple):
    """A character, or a single invalid byte; in UTF-16 a character, a lone surrogate, or a single byte at the end.

    >>> Piece(0, "é", 2, None)
    Piece(offset=0, char='é', length=2, error=None)
    """

    offset: int
    """Where it begins, in bytes."""
    char: Optional[str]
    """The character, or None for an invalid byte."""
    length: int
    """How many bytes it has: 1 to 4; 1 for an invalid byte, and 2 for a lone surrogate of UTF-16."""
    error: Optional[FaultKind]
    """The reason why the byte is invalid, or None for a character."""


class FaultError(UnicodeDecodeError):
    """An invalid byte was met; in UTF-16, a lone surrogate, or a single byte at the end. Beside what a UnicodeDecodeError has, it has
    `offset` and `error`. `start` and `end` lie in `object`, which may be a part of the input. `offset` counts from the first byte of
    all input, also of a stream.

    >>> try:
    ...     b"ab\\xff".decode("noddychest-utf8")
    ... except UnicodeDecodeError as fault:
    ...     fault.start, fault.end, fault.error
    (2, 3, <FaultKind.NON_UTF8_BYTE: 2>)
    """

    offset: int
    error: FaultKind

    def __reduce__(self) -> tuple[Any, ...]:
        # (`args` are those of the first invalid byte that an error handler was asked for, and this may be a later one)
        return type(self), (self.encoding, self.object, self.start, self.end, self.reason), self.__dict__


def fault_error(encoding: str, data: bytes, start: int, length: int, kind: int, offset: int) -> FaultError:
    error = FaultKind(kind)
    fault = FaultError(encoding, data, start, start + length, error.reason)
    fault.offset, fault.error = offset, error
    return fault


def shard_of(data: object) -> Shard:
    """Returns data, which has to be a shard. (Objects with bytes were excluded before.)"""
    from ._shards import Shard

    if not isinstance(data, Shard):
        raise TypeError(f"a bytes-like object or a Shard is required, not {type(data)!r}")
    return data


class Pieces(Sequence[Piece]):
    """The pieces of text in order, as a sequence. The bytes are not copied: they must stay the same for as long as this is used, and
    a `bytearray` cannot be resized until then.

    Iterating from either end costs no more than the pieces that are taken. The first `len()` or index reads all bytes once; after that
    an index steps over at most 63 pieces. A slice is a list.

    >>> cut = Pieces(b"a\\xffb")
    >>> len(cut), cut[1], cut[-1].char
    (3, Piece(offset=1, char=None, length=1, error=<FaultKind.NON_UTF8_BYTE: 2>), 'b')
    >>> [piece.offset for piece in reversed(cut)]
    [2, 1, 0]
    """

    __slots__ = ("_count", "_data", "_form", "_marks", "__weakref__")

    def __init__(self, data: ReadableBuffer, encoding: str = "utf8") -> None:
        self._form = form_of(encoding)
        _noddychest.check(data)  # (its TypeError says more than that of memoryview)
        self._data = memoryview(data)
        self._count = -1
        self._marks = array.array("Q")

    def __repr__(self) -> str:
        return f"<{type(self).__name__} of {self._data.nbytes} bytes>"

    def __iter__(self) -> Iterator[Piece]:
        return _noddychest.Run(self._form, self._data, Piece, ERRORS, 0, False)

    def __reversed__(self) -> Iterator[Piece]:
        return _noddychest.Run(self._form, self._data, Piece, ERRORS, 0, True)

    def __bool__(self) -> bool:
        return self._data.nbytes > 0

    def __len__(self) -> int:
        if self._count < 0:
            count, marks = _noddychest.index(self._form, self._data, _EVERY)
            self._marks = array.array("Q", marks)
            self._count = count
        return self._count

    @overload
    def __getitem__(self, at: int) -> Piece: ...
    @overload
    def __getitem__(self, at: slice) -> list[Piece]: ...
    def __getitem__(self, at: Union[int, slice]) -> Union[Piece, list[Piece]]:
        if isinstance(at, slice):
            places = range(*at.indices(len(self)))
            return self._at(places) if at.step is None or at.step > 0 else self._at(places[::-1])[::-1]
        place = operator.index(at)
        place += len(self) if place < 0 else 0
        if not 0 <= place < len(self):
            raise IndexError("the index is outside of the pieces")
        return self._at(range(place, place + 1))[0]

    def _at(self, places: range) -> list[Piece]:
        """The pieces at increasing offsets."""
        if not places:
            return []
        mark, before = divmod(places.start, _EVERY)
        run = _noddychest.Run(self._form, self._data, Piece, ERRORS, self._marks[mark], False)
        found = list(itertools.islice(run, before, before + places.stop - places.start, places.step))
        if len(found) != len(places):
            raise RuntimeError("the bytes were changed since their pieces were counted")
        return found


def pieces(data: ReadableBuffer, encoding: str = "utf8") -> Pieces:
    """The pieces of UTF-8 or UTF-16: each character, and each invalid byte by itself. No byte is left out, and none is in two pieces.
    Offsets and lengths count bytes.

    >>> [piece.char for piece in pieces(b"\\xf0\\x9f\\x98\\x80\\xf0\\x9f")]
    ['😀', None, None]
    >>> [(piece.offset, piece.char or piece.error.name) for piece in pieces(b"a\\0\\0\\xdc!", "utf16le")]
    [(0, 'a'), (2, 'UNEXPECTED_TRAILING_SURROGATE'), (4, 'INCOMPLETE')]
    """
    return Pieces(data, encoding)


def offsets(data: ReadableBuffer, encoding: str = "utf8") -> array.array[int]:
    """The offset of each piece, as an array of 64-bit numbers that numpy and Arrow take without a copy: `numpy.asarray(offsets(data))`.

    Data is any bytes-like object. Errors: LookupError for an unknown encoding, TypeError for what is no data. Cost: it reads the data piece
    by piece, and takes 16 bytes of memory for each byte of data meanwhile.

    >>> offsets("aé€".encode() + b"\\xff")
    array('Q', [0, 1, 3, 6])
    """
    found = array.array("Q")
    found.frombytes(_noddychest.index(form_of(encoding), data, 1)[1])
    return found


def faults(data: Union[ReadableBuffer, Shard], encoding: str = "utf8") -> Iterator[Piece]:
    """Only the invalid bytes: an iterator over those of `pieces(data)` that have an error. Valid text is skipped as fast as it is
    validated. A Shard has an encoding of its own, and its offsets count in the whole source.

    >>> [(piece.offset, piece.error.name) for piece in faults(b"a\\xffb\\xe2\\x82")]
    [(1, 'NON_UTF8_BYTE'), (3, 'TOO_FEW_BYTES'), (4, 'UNEXPECTED_CONTINUATION_BYTE')]
    """
    if isinstance(data, tuple):
        return shard_of(data).faults()
    return _noddychest.Faults(form_of(encoding), data, Piece, ERRORS, False)


class Located(NamedTuple):
    """An invalid byte with its position; in UTF-16 a lone surrogate, or a single byte at the end. Each number but the offset counts from 1.

    A line ends after its line feed, and after nothing else. A column is a character or an invalid byte; to an editor that counts bytes
    give `byte_column`.

    >>> Located(5, 2, 3, 4, 1, FaultKind.NON_UTF8_BYTE).line
    2
    """

    offset: int
    """Where it begins, in bytes."""
    line: int
    """The number of its line."""
    column: int
    """Its column, in characters and invalid bytes."""
    byte_column: int
    """Its column in bytes."""
    length: int
    """How many bytes it has: 1, or 2 for a lone surrogate of UTF-16."""
    error: FaultKind
    """The reason why the byte is invalid."""


def located(data: ReadableBuffer, encoding: str = "utf8") -> Iterator[Located]:
    """The invalid bytes that `faults(data)` gives, each with its line and its columns. Lines are counted as fast as memory is read, and
    columns only in the lines that have invalid bytes. A part of a text, as a Shard, does not know its lines, and is a TypeError.

    >>> [(it.line, it.column, it.byte_column, it.error.name) for it in located("né\\n\\u20ac".encode() + b"\\xff")]
    [(2, 2, 4, 'NON_UTF8_BYTE')]
    """
    return _noddychest.Faults(form_of(encoding), data, Located, ERRORS, True)


class Ends(_noddychest.Ends):
    """An iterator that takes pieces of text from both ends, in any order: each piece comes once. Why a byte is invalid depends on
    the bytes that are left, which lie between the offsets `start` and `end`.

    >>> ends = Ends(b"a\\xc3\\xa9b")
    >>> next(ends).char, ends.next_back().char, next(ends).char, ends.next_back()
    ('a', 'b', 'é', None)
    >>> [piece.char for piece in reversed(Ends(b"abc"))]
    ['c', 'b', 'a']
    """

    __slots__ = ()

    def __new__(cls, data: ReadableBuffer, encoding: str = "utf8") -> Ends:
        return super().__new__(cls, form_of(encoding), data, Piece, ERRORS)

    def next_back(self) -> Optional[Piece]:
        """Takes the last piece of what is left. None if nothing is left."""
        return super().next_back()

    def __reversed__(self) -> Iterator[Piece]:
        """An iterator that takes the pieces from the end."""
        return iter(self.next_back, None)


def first_fault(data: Union[ReadableBuffer, Shard], encoding: str = "utf8") -> Optional[Piece]:
    """The first invalid byte, or None if there is none. Data may be a Shard, as for `faults`.

    >>> first_fault(b"ab\\xffc")
    Piece(offset=2, char=None, length=1, error=<FaultKind.NON_UTF8_BYTE: 2>)
    >>> first_fault(b"abc") is None
    True
    """
    if isinstance(data, tuple):
        return shard_of(data).first_fault()
    found = _noddychest.fault(form_of(encoding), data)
    return None if found is None else Piece(found[0], None, found[1], ERRORS[found[2]])


def is_valid(data: Union[ReadableBuffer, Shard], encoding: str = "utf8") -> bool:
    """Whether the bytes are valid in an encoding. Data may be a Shard, as for `faults`.

    >>> is_valid("é".encode()), is_valid("é".encode("latin-1"))
    (True, False)
    """
    if isinstance(data, tuple):
        return shard_of(data).first_fault() is None
    return _noddychest.fault(form_of(encoding), data) is None


def char_count(data: Union[ReadableBuffer, Shard], encoding: str = "utf8") -> int:
    """How many characters there are, if each invalid byte counts as one. Data may be a Shard, as for `faults`.

    >>> char_count("né".encode() + b"\\xe2\\x82")
    4
    """
    if isinstance(data, tuple):
        return shard_of(data).char_count()
    return _noddychest.char_count(form_of(encoding), data)


def offset_of(data: ReadableBuffer, number: int, encoding: str = "utf8") -> Optional[int]:
    """The offset of the character or invalid byte with a number, counted from 0. None if there are no more: so `data[:offset_of(data, 80)]`
    is the first 80, or all. It is `pieces(data)[number].offset`, found without counting all of the data.

    data: any bytes-like object. number: which one. encoding: the encoding of the data.
    Errors: IndexError for a negative number, LookupError for an unknown encoding, TypeError for what is no data.
    Cost: it reads the data up to the offset.

    >>> offset_of(b"h\\xc3\\xa9\\xe2\\x82A", 2), offset_of(b"abc", 3) is None
    (3, True)
    """
    return _noddychest.offset_of(form_of(encoding), data, operator.index(number))


def number_of(data: ReadableBuffer, offset: int, encoding: str = "utf8") -> int:
    """How many characters and invalid bytes begin before an offset. If one begins at the offset, this is its number, counted from 0. If the
    offset is the length or more, all are counted.

    data: any bytes-like object. offset: the offset. encoding: the encoding of the data.
    Errors: IndexError for a negative offset, LookupError for an unknown encoding, TypeError for what is no data.
    Cost: it reads the data up to the offset.

    >>> number_of(b"h\\xc3\\xa9\\xe2\\x82A", 3), number_of(b"abc", 99)
    (2, 3)
    """
    return _noddychest.number_of(form_of(encoding), data, operator.index(offset))


def changed_range(data: ReadableBuffer, start: int, end: int, encoding: str = "utf8") -> tuple[int, int]:
    """What to decode again after an edit: the part of the data, from one offset up to another, outside of which all characters and invalid
    bytes stay if the bytes from `start` up to `end` are replaced by any others. What was decoded before it stays, and what was decoded after
    it moves with its bytes. It begins at most six bytes before `start`, and ends at most six bytes after `end`.

    In UTF-16, if the length changes by an odd number of bytes, all from its start on may change.

    data: any bytes-like object, with the text after the edit; or with the text before it. start, end: where the new bytes are in it, or those
    that are to go. Offsets above the length count as the length, and a start above the end counts as the end. encoding: the encoding.
    Errors: IndexError for a negative offset, LookupError for an unknown encoding, TypeError for what is no data.
    Cost: the same for each length.

    >>> changed_range("abc€defg€hij".encode(), 8, 9)
    (3, 13)
    """
    return _noddychest.changed_range(form_of(encoding), data, operator.index(start), operator.index(end))


def boundary_before(data: ReadableBuffer, at: int, encoding: str = "utf8") -> int:
    """The last offset up to `at` that is not inside a character: there you can divide the text. It is at most three bytes before `at`.
    If `at` is the length or more, it is the length. A negative offset is an IndexError.

    >>> boundary_before("a😀".encode(), 4)
    1
    """
    return _noddychest.boundary(form_of(encoding), data, operator.index(at), False)


def boundary_after(data: ReadableBuffer, at: int, encoding: str = "utf8") -> int:
    """The first offset from `at` on that is not inside a character, at most three bytes after `at`; otherwise as boundary_before.

    >>> boundary_after("a😀".encode(), 2)
    5
    """
    return _noddychest.boundary(form_of(encoding), data, operator.index(at), True)


def undecided_len(data: ReadableBuffer, encoding: str = "utf8") -> int:
    """How many bytes at the end of a block depend on the bytes that follow, 0 to 3. Keep them back, and put them before the next block: it
    is how many bytes a `Decoder` holds that was fed the block. All pieces before them are known, with the reasons that a Decoder gives. If
    no byte follows, they are all invalid.

    data: any bytes-like object, which begins where a character may begin. encoding: its encoding.
    Errors: LookupError for an unknown encoding, TypeError for what is no data.
    Cost: the same for each length. It looks at the last four bytes.

    >>> undecided_len(b"a\\xe2\\x82"), undecided_len(b"a\\xe2\\x82\\xac"), undecided_len(b"a\\0\\x3d\\xd8\\0", "utf16le")
    (2, 0, 3)
    """
    return _noddychest.undecided_len(form_of(encoding), data)


def encoding_of_bom(data: ReadableBuffer) -> Optional[tuple[str, int]]:
    """The encoding by a byte order mark at the front, and the length of the mark in bytes. None if the data begins with none. Other
    calls do not look for a mark, and take it for the character U+FEFF.

    data: any bytes-like object; its first three bytes are enough.
    Result: `("utf-8", 3)`, `("utf-16-le", 2)` or `("utf-16-be", 2)`: names that this package and Python's own codecs take. Little-endian
    UTF-32 begins with the mark of UTF-16, and is taken for that.
    Errors: TypeError for what is no data. Cost: the same for each length.

    >>> data = b"\\xff\\xfea\\0"
    >>> encoding, mark = encoding_of_bom(data) or ("utf8", 0)
    >>> encoding, mark, [piece.char for piece in pieces(data[mark:], encoding)]
    ('utf-16-le', 2, ['a'])
    """
    found = _noddychest.encoding_of_bom(data)
    return None if found is None else (STANDARD[found[0]], found[1])
