"""Large texts in shards: parts that are read separately, and whose results together are those of the whole."""
from __future__ import annotations

import array
import contextlib
import errno
import importlib
import os
import re
import stat
from collections.abc import Callable, Iterable, Iterator
from typing import TYPE_CHECKING, Any, NamedTuple, Optional, Protocol, Union

from . import _noddychest
from ._names import STANDARD, form_of, form_or_auto, is_auto
from ._pieces import FaultKind, Located, Piece, encoding_of_bom, fault_error
from ._pieces import faults as _faults

if TYPE_CHECKING:
    from _typeshed import ReadableBuffer

    from ._repair import Errors

    Path = Union[str, bytes, os.PathLike[str], os.PathLike[bytes]]
    Source = Union[Path, ReadableBuffer]

BLOCK = 1 << 20
BOM = 3  # the bytes of a byte order mark, at most
_AHEAD = 3  # the bytes after a shard that decide where it ends, and why its last bytes are invalid
_LONGEST_PATH = 4096  # bytes, on Linux


class ChangedError(OSError):
    """A source was changed while its shards were read: it has another length or time of change, or it is not there any more. What was
    made of it is of no use."""


class Faults(NamedTuple):
    """Invalid bytes as three arrays, which numpy and Arrow take without a copy: `numpy.asarray(found.offsets)`.

    >>> found = faults_array(b"a\\xffb\\xe2\\x82")
    >>> found.offsets.tolist(), [FaultKind(it).name for it in found.kinds]
    ([1, 3, 4], ['NON_UTF8_BYTE', 'TOO_FEW_BYTES', 'UNEXPECTED_CONTINUATION_BYTE'])
    """

    offsets: array.array[int]
    """Where each begins, in bytes: 64-bit numbers that go up."""
    lengths: array.array[int]
    """How many bytes each has: 1, or 2 for a lone surrogate of UTF-16. Numbers of 8 bits."""
    kinds: array.array[int]
    """The number of the FaultKind of each. Numbers of 8 bits."""

    def pieces(self) -> Iterator[Piece]:
        """All of them as pieces, one by one."""
        for offset, length, kind in zip(self.offsets, self.lengths, self.kinds):
            yield Piece(offset, None, length, FaultKind(kind))

    def extend(self, more: Faults) -> None:
        """Adds the invalid bytes of the next shard after these."""
        for mine, others in zip(self, more):
            mine.extend(others)


def no_faults() -> Faults:
    return Faults(array.array("Q"), array.array("B"), array.array("B"))


def faults_array(data: Union[ReadableBuffer, Shard], encoding: str = "utf8") -> Faults:
    """The invalid bytes that `faults(data)` gives, as arrays: they take 10 bytes for each, and make no objects.

    Data is any bytes-like object, or a Shard: then offsets count in the whole source, and the encoding is that of the shard.
    Errors: LookupError for an unknown encoding, TypeError for what is no data. Cost: that of validation, and a little for each invalid byte.

    >>> faults_array(b"ab\\xff").offsets
    array('Q', [2])
    """
    if isinstance(data, Shard):
        return data.faults_array()
    form = form_of(encoding)
    _noddychest.check(data)
    with memoryview(data) as view:
        return arrays(form, view, view.nbytes, 0)


def arrays(form: int, data: ReadableBuffer, end: int, base: int) -> Faults:
    """The invalid bytes that begin before `end`, with offsets from `base` on."""
    found = no_faults()
    for made, its in zip(found, _noddychest.fault_arrays(form, data, end, base, False)):
        made.frombytes(its)
    return found


class LocatedFaults(NamedTuple):
    """Invalid bytes with their positions, as arrays: what `parallel.check(.., positions=True)` returns."""

    offsets: array.array[int]
    """Where each begins, in bytes: 64-bit numbers that go up."""
    lengths: array.array[int]
    """How many bytes each has."""
    kinds: array.array[int]
    """The number of the FaultKind of each."""
    places: array.array[int]
    """The line, the column and the byte column of each, one after another: three 64-bit numbers, each from 1 on. `places[::3]` are the lines."""

    def located(self) -> Iterator[Located]:
        """All of them, one by one, as `noddychest.located` gives them."""
        for at, (offset, length, kind) in enumerate(zip(self.offsets, self.lengths, self.kinds)):
            line, column, byte_column = self.places[3 * at : 3 * at + 3]
            yield Located(offset, line, column, byte_column, length, FaultKind(kind))

    def extend(self, more: LocatedFaults) -> None:
        """Adds the invalid bytes that follow these."""
        for mine, others in zip(self, more):
            mine.extend(others)


def located_arrays(form: int, data: ReadableBuffer, end: int, base: int) -> LocatedFaults:
    """The invalid bytes that begin before `end`, with offsets from `base` on, and positions counted from the front of the data."""
    found = LocatedFaults(*no_faults(), array.array("Q"))
    for made, its in zip(found, _noddychest.fault_arrays(form, data, end, base, True)):
        made.frombytes(its)
    return found


class Counted(NamedTuple):
    """The invalid bytes of a part, with positions counted from its front, and the position of its end."""

    faults: LocatedFaults
    end: tuple[int, int, int]


def counted_on(parts: Iterable[Counted]) -> Counted:
    """Parts one after another, as one."""
    whole, (line, column, byte_column) = LocatedFaults(*no_faults(), array.array("Q")), (1, 1, 1)
    for part in parts:
        _noddychest.shift(part.faults.places, line, column, byte_column)
        whole.extend(part.faults)
        more, *ends = part.end
        line, column, byte_column = line + more - 1, *(ends if more > 1 else (column + ends[0] - 1, byte_column + ends[1] - 1))
    return Counted(whole, (line, column, byte_column))


class Counts(NamedTuple):
    """What a text has: see Shard.counts and parallel.count. The sum of two is that of both texts, one after the other."""

    size: int = 0
    """How many bytes."""
    characters: int = 0
    """How many characters, without the invalid bytes."""
    lines: int = 0
    """How many line ends: characters U+000A."""
    kinds: tuple[int, ...] = (0,) * len(FaultKind)
    """How many faults of each FaultKind, in their order."""

    @property
    def faults(self) -> int:
        """How many invalid bytes; in UTF-16, lone surrogates, or single bytes at the end."""
        return sum(self.kinds)

    def plus(self, more: Counts) -> Counts:
        """Both together."""
        kinds = tuple(a + b for a, b in zip(self.kinds, more.kinds))
        return Counts(self.size + more.size, self.characters + more.characters, self.lines + more.lines, kinds)


class Recoded(NamedTuple):
    """What transcoding made: see parallel.recode."""

    read: int
    """How many bytes were read."""
    written: int
    """How many bytes came of them."""
    replaced: int
    """How many invalid bytes were replaced, or left out. With `lossy` each byte of a maximal subpart counts."""


# ---- sources ----


def path_of(path: Path) -> str:
    """A path as text. `bytes` are a path, as for open(): so text in memory that is handed in as `bytes` is rejected, if it can be no path."""
    if isinstance(path, bytes) and (b"\0" in path or len(path) > _LONGEST_PATH):
        raise ValueError("bytes are taken for a path, as by open(): hand in text in memory as memoryview(text)")
    return os.fsdecode(path)


def place_of(source: Source) -> Union[str, memoryview]:
    """Where a source is: the path or the URL as text, or the bytes in memory. A URL is a `str`."""
    if isinstance(source, str):
        return source
    if isinstance(source, (bytes, os.PathLike)):
        return re.sub(":/{2,}", ":/", path_of(source))  # (to the system this is the same path)
    _noddychest.check(source)  # (its errors say more than those of memoryview)
    view = memoryview(source)
    return view.cast("B") if view.nbytes > 0 else memoryview(b"")  # (what has no items is not cast)


class _Reading(Protocol):
    """An open source."""

    def stamp(self) -> tuple[int, str]: ...
    def read(self, start: int, end: int) -> ReadableBuffer: ...
    def close(self) -> None: ...


class _Buffer:
    """Bytes in memory."""

    def __init__(self, view: memoryview) -> None:
        self._view = view

    def stamp(self) -> tuple[int, str]:
        return self._view.nbytes, ""

    def read(self, start: int, end: int) -> ReadableBuffer:
        return self._view[start:end]

    def close(self) -> None:
        pass


class _File:
    """A file, which many threads can read concurrently."""

    def __init__(self, path: str) -> None:
        self._path = path
        self._file = os.open(path, os.O_RDONLY | os.O_CLOEXEC | os.O_NONBLOCK)  # (a pipe is not waited for)
        try:
            about = os.fstat(self._file)
            if not stat.S_ISREG(about.st_mode):
                raise OSError(errno.ESPIPE, "shards are of files that can be read at any place, and this is none", path)
            if about.st_size == 0 and os.pread(self._file, 1, 0):  # (as a file in /proc)
                raise OSError(errno.ESPIPE, "its length is not known, so it has no shards", path)
        except BaseException:
            os.close(self._file)
            raise

    def stamp(self) -> tuple[int, str]:
        about = os.fstat(self._file)
        return about.st_size, str(about.st_mtime_ns)

    def read(self, start: int, end: int) -> ReadableBuffer:
        found = os.pread(self._file, end - start, start)
        while len(found) < end - start:
            more = os.pread(self._file, end - start - len(found), start + len(found))
            if not more:
                break
            found += more
        return found

    def close(self) -> None:
        os.close(self._file)


class _Url:
    """What fsspec opens. Each read asks for its range."""

    def __init__(self, url: str) -> None:
        core: Any = importlib.import_module("fsspec.core")
        self._system, self._path = core.url_to_fs(url)
        self._system.invalidate_cache()

    def stamp(self) -> tuple[int, str]:
        about = self._system.info(self._path)
        if about.get("type") in ("directory", "other"):
            raise OSError(errno.ESPIPE, "shards are of files that can be read at any place, and this is none", self._path)
        if about.get("size") is None:
            raise OSError(errno.ESPIPE, "its length is not known, so it has no shards", self._path)
        changed = [str(about[it]) for it in ("ETag", "etag", "mtime", "last_modified", "LastModified", "updated", "created") if it in about]
        return int(about["size"]), " ".join(changed)

    def read(self, start: int, end: int) -> ReadableBuffer:
        found: bytes = self._system.cat_file(self._path, start=start, end=end)
        return found

    def close(self) -> None:
        pass


def _open(source: Union[str, memoryview]) -> _Reading:
    if isinstance(source, memoryview):
        return _Buffer(source)
    if "://" in source:
        return _Url(source)
    return _File(source)


@contextlib.contextmanager
def opened(source: Union[str, memoryview]) -> Iterator[_Reading]:
    it = _open(source)
    try:
        yield it
    finally:
        it.close()


# ---- shards ----


class Shard(NamedTuple):
    """A part of a large text, that is read apart from the others: see shards(). It has no bytes itself, so it can be sent to another
    process, which reads them. (One of a buffer can not.)

    `faults`, `faults_array`, `recode`, `recoded_len`, `char_count`, `first_fault` and `is_valid` take a shard in place of data. What they
    answer for all shards, put together, is what they answer for the whole. They raise ChangedError if the source is not as it was when
    shards() was called, and OSError if it cannot be read.
    """

    source: Union[str, memoryview]
    """The path or the URL, or the bytes."""
    start: int
    """Where it begins in the source, in bytes."""
    end: int
    """Where it ends."""
    encoding: str
    """The encoding of the source."""
    stamp: tuple[int, str]
    """The length of the source, and a stamp that changes if it is changed."""

    def blocks(self, size: int = BLOCK) -> Iterator[tuple[int, ReadableBuffer, int]]:
        """The bytes in blocks of about `size`: the offset of each, its bytes with up to three more that lie behind it, and how many are
        its own. Each ends where a shard may end."""
        form, start, total, size = form_of(self.encoding), self.start, self.stamp[0], max(size, 2 * _AHEAD)
        with opened(self.source) as source:
            self._check(source.stamp())
            while start < self.end:
                end = min(start + size, self.end)
                data = source.read(start, min(end + _AHEAD, total))
                if len(memoryview(data)) != min(end + _AHEAD, total) - start:
                    self._check((-1, ""))
                cut = end - start if end == self.end else _cut(data, end - start, form)
                yield start, data, cut
                start += cut
            self._check(source.stamp())

    def _check(self, stamp: tuple[int, str]) -> None:
        if tuple(stamp) != tuple(self.stamp):
            raise ChangedError(f"{self.source if isinstance(self.source, str) else 'the buffer'} was changed while it was read")

    def faults(self) -> Iterator[Piece]:
        """The invalid bytes, with their offsets in the whole source, and their kinds there."""
        for offset, data, cut in self.blocks():
            yield from taken(_faults(data, self.encoding), offset, cut)

    def faults_array(self) -> Faults:
        """The invalid bytes as arrays: 10 bytes for each."""
        form, found = form_of(self.encoding), no_faults()
        for offset, data, cut in self.blocks():
            found.extend(arrays(form, data, cut, offset))
        return found

    def located_array(self) -> Counted:
        """The invalid bytes as arrays, with positions counted from the front of the shard: 34 bytes for each. And the position of its end."""
        form = form_of(self.encoding)
        return counted_on(
            Counted(located_arrays(form, data, cut, offset), _noddychest.position(form, memoryview(data)[:cut])) for offset, data, cut in self.blocks()
        )

    def first_fault(self) -> Optional[Piece]:
        """The first invalid byte, or None."""
        return next(self.faults(), None)

    def recode_into(self, write: Callable[[bytes], object], to: str, errors: Errors = "replace", size: int = BLOCK) -> Recoded:
        """Transcodes the shard, and calls `write` with the parts of the output, in order. Memory: some times `size`.

        Errors: with `strict` a FaultError, with the offset of the first invalid byte of this shard in the whole source."""
        from ._recoding import Recoder

        recoder, made = Recoder(self.encoding, to, errors), 0
        try:
            for _, data, cut in self.blocks(size):
                part = recoder.feed(memoryview(data)[:cut])
                made += len(part)
                write(part)
            part = recoder.finish()
        except UnicodeDecodeError:
            self._raise_fault()
        write(part)
        return Recoded(self.end - self.start, made + len(part), recoder.replaced)

    def _raise_fault(self) -> None:
        """A shard that ends inside of what would be a character knows the reason by the bytes behind it."""
        for offset, data, cut in self.blocks():
            for it in taken(_faults(data, self.encoding), offset, cut):
                kind = it.error.value if it.error else 0
                raise fault_error(STANDARD[form_of(self.encoding)], bytes(data), it.offset - offset, it.length, kind, it.offset) from None
        self._check((-1, ""))

    def recode(self, to: str, errors: Errors = "replace") -> bytes:
        """What comes of the shard in another encoding."""
        parts: list[bytes] = []
        self.recode_into(parts.append, to, errors)
        return b"".join(parts)

    def recoded_len(self, to: str) -> int:
        """How many bytes recode() makes, with `replace`."""
        form, target = form_of(self.encoding), form_of(to)
        return sum(_noddychest.recoded_len(form, target, memoryview(data)[:cut]) for _, data, cut in self.blocks())

    def char_count(self) -> int:
        """How many characters there are, if each invalid byte counts as one."""
        form = form_of(self.encoding)
        return sum(_noddychest.char_count(form, memoryview(data)[:cut]) for _, data, cut in self.blocks())

    def counts(self) -> Counts:
        """Bytes, characters, line ends, and invalid bytes of each kind."""
        form, all_of_it = form_of(self.encoding), Counts()
        for _, data, cut in self.blocks():
            kinds = _noddychest.kind_counts(form, data, cut)[1:]
            count, lines = _noddychest.counts(form, memoryview(data)[:cut])
            all_of_it = all_of_it.plus(Counts(cut, count - sum(kinds), lines, kinds))
        return all_of_it


def taken(found: Iterator[Piece], offset: int, cut: int) -> Iterator[Piece]:
    """The pieces that begin before `cut`, with their offsets in the whole."""
    for piece in found:
        if piece.offset >= cut:
            return
        yield piece._replace(offset=offset + piece.offset)


def _cut(data: ReadableBuffer, at: int, form: int) -> int:
    """The last offset up to `at` where a shard may end: it is inside no character, and inside no row of invalid bytes that `lossy`
    makes one U+FFFD. Some bytes before `at` and `_AHEAD` bytes after it are enough."""
    return _noddychest.shard_end(form, data, at)


def bom_at(front: ReadableBuffer) -> tuple[str, int]:
    """The encoding that `auto` is of a source that begins so, and the length of its byte order mark. The first `BOM` bytes are enough."""
    return encoding_of_bom(front) or (STANDARD[0], 0)


def shards(source: Source, size: int, encoding: str = "utf8") -> list[Shard]:
    """Divides a large text into shards that can be read and converted separately, in any order, by many threads, processes or machines.

    source: a path, as for open(): a `str`, `bytes` or a PathLike; a URL, a `str` with `://`, which fsspec opens; or text in memory, any
    other bytes-like object, which is not copied: of a `bytes` its memoryview. size: about how many bytes each shard has, at least 1.
    encoding: the encoding of the source, or `auto`: that of the byte order mark, or UTF-8 if there is none.
    Result: the shards in order; together they are the whole source. An empty source has none. A shard ends at most three bytes before a
    multiple of `size`, where no character lies over it, and no row of invalid bytes that `lossy` makes one U+FFFD.
    Errors: ValueError for a size below 1, and for `bytes` that can be no path; OSError if the source is no regular file, has a length that the system
    does not know, as a file in /proc, or cannot be read; ImportError for a URL without fsspec.
    Cost: it reads seven bytes for each shard.

    >>> text = memoryview("aé€".encode())
    >>> [(it.start, it.end) for it in shards(text, 2)]
    [(0, 1), (1, 3), (3, 6)]
    >>> b"".join(it.recode("utf16be") for it in shards(text, 2)) == "aé€".encode("utf-16-be")
    True
    """
    form_or_auto(encoding)
    if size < 1:
        raise ValueError("a shard has to have at least 1 byte")
    place, ends = place_of(source), [0]
    with opened(place) as it:
        stamp = it.stamp()
        total = stamp[0]
        if is_auto(encoding):
            encoding = bom_at(it.read(0, min(BOM, total)))[0]
        form = form_of(encoding)
        for at in range(size, total, size):
            end = at - at % 2 if form else at
            front = max(end - 4, 0)
            window = it.read(front, min(end + _AHEAD, total))
            end = front + _cut(window, min(end - front, len(memoryview(window))), form)
            if end > ends[-1]:
                ends.append(end)
    ends += [total] if total > 0 else []
    return [Shard(place, start, end, encoding, stamp) for start, end in zip(ends, ends[1:])]


def shards_to_recode(source: Source, size: int, encoding: str) -> list[Shard]:
    """The shards that are converted: with `auto` without the byte order mark, which `nody recode` leaves out too."""
    them = shards(source, size, encoding)
    if not them or not is_auto(encoding):
        return them
    first = them[0]
    with opened(first.source) as it:
        mark = bom_at(it.read(0, min(BOM, first.stamp[0])))[1]
    return [first._replace(start=mark), *them[1:]]
