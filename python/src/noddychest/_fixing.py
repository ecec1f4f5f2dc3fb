"""`noddychest fix`: replaces the invalid bytes of a file in place, as nody(1) does."""
from __future__ import annotations

import argparse
import contextlib
import os
from collections.abc import Iterator
from typing import NamedTuple, Optional

from ._inputs import Input, InputError, Place, found_in, line_end, line_start
from ._names import form_of
from ._outputs import Output, is_hidden, shown
from ._pieces import Piece, boundary_before, is_valid, pieces
from ._recoding import Recoder, recode

_REACH = 4096  # the bytes that are read before and after an invalid one, to show its line
_ELLIPSIS = "…".encode()
_CHANGED = "it changed while it was read, and stays as it is"


class Fixed(NamedTuple):
    status: int
    replaced: int
    encoding: str


def fix(out: Output, name: str, asked: argparse.Namespace) -> Fixed:
    """Replaces the invalid bytes of a file, or shows the lines that would change. A valid file is not touched."""
    with Input(name, asked.encoding, is_replaced=True) as it:
        if all(is_valid(memoryview(data)[:cut], it.encoding) for _, data, cut in it.blocks()):
            return Fixed(0, 0, it.encoding)
        it.rewind()
        if asked.dry_run:
            _show_changes(out, it, asked.errors)
            return Fixed(1, 0, it.encoding)
        return Fixed(0, _replace(it, asked.errors, asked.backup), it.encoding)


# ---- replacing


def _stamp(about: os.stat_result) -> tuple[int, ...]:
    return about.st_dev, about.st_ino, about.st_size, about.st_mtime_ns, about.st_ctime_ns


def _lock(it: Input) -> None:
    """Keeps other runs out until the file is closed. A file system that has no such locks is no failure."""
    import fcntl

    try:
        fcntl.flock(it.file, fcntl.LOCK_EX | fcntl.LOCK_NB)
    except BlockingIOError:
        raise InputError(it.name, "another process has locked it") from None
    except OSError:
        pass


class _Old:
    """The file that is replaced: what it was, and its second name, if it is kept."""

    def __init__(self, it: Input, target: str, suffix: Optional[str]) -> None:
        self._it, self._target, self._about = it, target, it.about
        self._backup = None if suffix is None else (target if os.path.islink(it.name) else it.name) + suffix
        self._is_linked = False

    def look_again(self) -> None:
        """Raises InputError if another process changed or renamed the file. This comes right before the new one gets the name."""
        if self._backup is not None:
            self._link(self._backup)
        with contextlib.suppress(FileNotFoundError):
            if _stamp(os.lstat(self._target)) == _stamp(self._about):
                return
        raise InputError(self._it.name, _CHANGED)

    def _link(self, backup: str) -> None:
        """Gives the file its second name, which changes no contents."""
        self._is_linked = True  # (a signal may come before the call returns)
        try:
            os.link(self._target, backup, follow_symlinks=False)
        except OSError as error:
            self._is_linked = False
            raise InputError(backup, error.strerror or str(error)) from None
        now = os.fstat(self._it.file)
        if _stamp(now)[:-1] == _stamp(self._about)[:-1]:
            self._about = now

    def unlink(self) -> None:
        """Takes the second name away, if the file still has its own."""
        with contextlib.suppress(OSError):
            if self._is_linked and self._backup is not None and os.path.samestat(os.lstat(self._target), os.lstat(self._backup)):
                os.remove(self._backup)


def _replace(it: Input, errors: str, suffix: Optional[str]) -> int:
    """Writes the file anew beside itself, and gives that its name. Returns how many invalid bytes were replaced."""
    from .parallel import partial, write_at

    target = os.path.realpath(it.name)
    _lock(it)
    old = _Old(it, target, suffix)
    recoder, size = Recoder(it.encoding, it.encoding, errors), 0
    try:
        with partial(target, None, old.look_again) as file:
            for made in _recoded(it, recoder):
                write_at(file, [made], size)
                size += len(made)
    except InputError:
        raise
    except OSError as error:
        raise InputError(it.name, error.strerror or str(error)) from None
    finally:
        old.unlink()
    return recoder.replaced


def _recoded(it: Input, recoder: Recoder) -> Iterator[bytes]:
    for _, data, cut in it.blocks():
        yield recoder.feed(memoryview(data)[:cut])
    yield recoder.finish()


# ---- what would change


def _show_changes(out: Output, it: Input, errors: str) -> None:
    """Shows each line that would change, before and after."""
    front, last, name = Place(), 0, shown(it.name)
    for base, data, cut in it.blocks():
        found = found_in(it.encoding, data, cut, base, 0)
        for offset, place in zip(found.faults.offsets, found.places):
            line = front.plus(place).lines + 1
            if line != last:
                out.write(b"--- %s\n+++ %s\n" % (name, name) if last == 0 else b"")
                out.write(b"@@ -%d +%d @@\n" % (line, line) + _change(it, offset, errors))
            last = line
        front = front.plus(found.end)


def _change(it: Input, offset: int, errors: str) -> bytes:
    """The line of an invalid byte as it is, and as it would become; of a long line the part around that byte, between characters."""
    front = max(offset - _REACH, 0)
    data, at = it.read_at(front, offset - front + _REACH), offset - front
    goes_on = len(data) == at + _REACH
    if goes_on:
        data = data[: boundary_before(data, len(data) - 4, it.encoding)]
    begin, end, is_cut = _line(it.encoding, data, at, front > 0)
    goes_on = goes_on and line_end(form_of(it.encoding), data, at) == len(data)
    line, texts = data[begin:end], []
    for text in line, recode(line, it.encoding, it.encoding, errors):
        texts.append((_ELLIPSIS if is_cut else b"") + _shown_text(text, it.encoding) + (_ELLIPSIS if goes_on else b""))
    return b"-%s\n+%s\n" % (texts[0], texts[1])


def _line(encoding: str, data: bytes, at: int, is_cut: bool) -> tuple[int, int, bool]:
    """Where the line of an offset begins and ends in the bytes around it, without its end; and whether it begins before them."""
    form = form_of(encoding)
    begin, end = line_start(form, data[:at]), line_end(form, data, at)
    carriage_return = ("\r".encode(), "\r".encode("utf-16-le"), "\r".encode("utf-16-be"))[form]
    while data[:end].endswith(carriage_return) and end > at + len(carriage_return) - 1:
        end -= len(carriage_return)
    is_cut = is_cut and begin == 0
    return boundary_before(data, 4, encoding) if is_cut else begin, end, is_cut


def _shown_text(data: bytes, encoding: str) -> bytes:
    return b"".join(_shown_piece(data[it.offset : it.offset + it.length], it) for it in pieces(data, encoding))


def _shown_piece(data: bytes, piece: Piece) -> bytes:
    """Invalid bytes as \\xE9, a tab as a space, and what commands a terminal as <U+001B>."""
    if piece.char is None:
        return b"".join(b"\\x%02X" % it for it in data)
    if piece.char == "\t":
        return b" "
    return b"<U+%04X>" % ord(piece.char) if is_hidden(piece.char) else piece.char.encode()
