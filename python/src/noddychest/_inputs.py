"""What the program reads: inputs in blocks, and the invalid bytes of a block with their lines and columns."""
from __future__ import annotations

import os
import select
import stat
from collections.abc import Iterator
from typing import NamedTuple

from . import _noddychest
from ._names import STANDARD, form_of, is_auto
from ._outputs import wait_for
from ._pieces import boundary_before
from ._shards import BLOCK, BOM, Faults, bom_at, located_arrays

_FLAGS = os.O_RDONLY | getattr(os, "O_CLOEXEC", 0) | getattr(os, "O_NOCTTY", 0) | getattr(os, "O_BINARY", 0)
_AHEAD = 4  # the bytes after a block that tell why its last bytes are invalid
_LINE_FEEDS = ("\n".encode(), "\n".encode("utf-16-le"), "\n".encode("utf-16-be"))


class InputError(OSError):
    """An input that cannot be read, for a reason of the program's own."""

    def __init__(self, name: str, why: str) -> None:
        super().__init__(None, why, name)


class Input:
    """An input, which is read once, in blocks. `about` is what it was when it was opened, and `mark` the length of the byte order mark, if that was
    asked for. One that is to be replaced has to be a file, and no pipe is waited for."""

    def __init__(self, name: str, encoding: str, *, is_replaced: bool = False) -> None:
        self.name, self._front, self._has_ended = name, b"", False
        self.file = 0 if name == "-" else os.open(name, _FLAGS | (os.O_NONBLOCK if is_replaced else 0))
        try:
            self.about = os.fstat(self.file)
            if is_replaced and not self.is_file:
                raise InputError(name, "it is a folder" if stat.S_ISDIR(self.about.st_mode) else "it is no regular file")
            self._origin = os.lseek(self.file, 0, os.SEEK_CUR) if self.is_file else 0  # (of standard input)
            self.encoding, self.mark = self._by_bom() if is_auto(encoding) else (STANDARD[form_of(encoding)], 0)
        except BaseException:
            self.close()
            raise

    def __enter__(self) -> Input:
        return self

    def __exit__(self, *_: object) -> None:
        self.close()

    def close(self) -> None:
        if self.file != 0:
            os.close(self.file)

    @property
    def is_file(self) -> bool:
        return stat.S_ISREG(self.about.st_mode)

    def refuse_output(self) -> None:
        """Raises InputError for a file to which standard output goes: it might never end."""
        if self.is_file and self.about.st_size > 0 and os.path.samestat(self.about, os.fstat(1)):
            raise InputError(self.name, "it is the output too")

    def rewind(self) -> None:
        """Goes back to the front. `about` stays: the encoding was found in the file as it was then."""
        os.lseek(self.file, 0, os.SEEK_SET)
        self._front, self._has_ended = b"", False

    def read_at(self, offset: int, size: int) -> bytes:
        """The bytes of a file from an offset on: fewer only at its end."""
        found = b""
        while len(found) < size:
            more = os.pread(self.file, size - len(found), self._origin + offset + len(found))
            if not more:
                break
            found += more
        return found

    def blocks(self) -> Iterator[tuple[int, bytes, int]]:
        """Bytes, the offset at which they begin, and how many of them are to be taken: those after them tell why one is invalid."""
        offset, data = 0, b""
        while part := self._next():
            data += part
            cut = boundary_before(data, max(len(data) - _AHEAD, 0), self.encoding)
            yield offset, data, cut
            offset, data = offset + cut, data[cut:]
        yield offset, data, len(data)
        if self.is_file and os.fstat(self.file).st_size < self.about.st_size:
            raise InputError(self.name, "it became shorter while it was read")

    def _by_bom(self) -> tuple[str, int]:
        while len(self._front) < BOM and (part := self._read()):
            self._front += part
        return bom_at(self._front)

    def _next(self) -> bytes:
        front, self._front = self._front, b""
        return front or self._read()

    def _read(self) -> bytes:
        """Some bytes; none at the end, for which a terminal is asked only once."""
        while not self._has_ended:
            try:
                part = os.read(self.file, BLOCK)
                self._has_ended = not part
                return part
            except BlockingIOError:
                wait_for(self.file, select.POLLIN)
        return b""


# ---- places ----


class Place(NamedTuple):
    """A position in text, relative to another one: a number of lines, and then of columns in the last line."""

    lines: int = 0
    columns: int = 0

    def plus(self, more: Place) -> Place:
        return Place(self.lines + more.lines, more.columns if more.lines else self.columns + more.columns)


def line_start(form: int, data: bytes) -> int:
    """Where the last line of some bytes begins."""
    feed = _LINE_FEEDS[form]
    at = data.rfind(feed)
    while at >= 0 and at % len(feed):  # (it lies in two units)
        at = data.rfind(feed, 0, at + 1)
    return 0 if at < 0 else at + len(feed)


def line_end(form: int, data: bytes, at: int) -> int:
    """Where the line that covers an offset ends, before its line feed."""
    feed = _LINE_FEEDS[form]
    end = data.find(feed, at)
    while end >= 0 and end % len(feed):
        end = data.find(feed, end + 1)
    return len(data) if end < 0 else end


def passed(form: int, data: bytes, columns: str = "characters") -> Place:
    """The position after bytes that begin and end between pieces. A column is a piece or a byte."""
    line, column, byte_column = _noddychest.position(form, data)
    return Place(line - 1, (byte_column if columns == "bytes" else column) - 1)


class Found(NamedTuple):
    """The invalid bytes of a block, with their offsets in the whole input; the positions of the first of them, counted from the front of the
    block; and where the block ends."""

    faults: Faults
    places: list[Place]
    end: Place


def found_in(encoding: str, data: bytes, end: int, base: int, most: int, columns: str = "characters") -> Found:
    """What is invalid in a block up to `end`; it begins at the offset `base`. Of at most `most` the positions are found, or of all if it is 0."""
    form, at = form_of(encoding), 2 if columns == "bytes" else 1
    found = located_arrays(form, data, end, base)
    count = min(most or len(found.kinds), len(found.kinds))
    places = [Place(line - 1, column - 1) for line, column in zip(found.places[: 3 * count : 3], found.places[at : 3 * count : 3])]
    return Found(Faults(found.offsets, found.lengths, found.kinds), places, passed(form, data[:end], columns))
