"""The program `noddychest`, also as `python3 -m noddychest`: checks, fixes, lists and converts files.

Exit status: 0 if all input is valid (after `fix`, and `recode` without `--errors strict`, also if it was not), 1 if it is not, 2 for wrong
arguments, 3 if a file cannot be read or written, or there is no memory. Of several files it is the highest."""
from __future__ import annotations

import argparse
import os
import signal
import sys
import time
from collections.abc import Callable, Iterator
from types import FrameType
from typing import Optional

from . import _options as options
from ._inputs import Found, Input, Place, found_in, passed
from ._names import form_of, is_auto
from ._outputs import Output, OutputError, complain, complain_of, is_closed_pipe, is_hidden, json_line, open_streams, shown, tell
from ._pieces import FaultError, FaultKind, Piece, pieces
from ._recoding import Recoder
from ._shards import Shard, bom_at, opened, place_of, shards, taken
from ._surveys import Guess, survey

_FRONT = 8192  # a file is binary if its first bytes contain a NUL
_AROUND = 1 << 15  # hints are for what these many bytes before and after the first invalid byte are,
_FEW = 3  # the least number of invalid bytes for a hint: fewer may be damage, and so may more than the characters beside them
_HINTS = {
    Guess.UTF16LE_MARKED: "begins with the mark of UTF-16LE: try --encoding auto",
    Guess.UTF16BE_MARKED: "begins with the mark of UTF-16BE: try --encoding auto",
    Guess.UTF16LE: "looks like UTF-16LE: try --encoding utf-16le",
    Guess.UTF16BE: "looks like UTF-16BE: try --encoding utf-16be",
    Guess.WINDOWS1252: "looks like Windows-1252: try fix --errors windows-1252",
    Guess.UTF8_MIXED: "looks like UTF-8 with bytes of an 8-bit encoding: if that is Windows-1252, try fix --errors windows-1252",
}
_NAMES = ("UTF-8", "UTF-16LE", "UTF-16BE")  # by the numbers of the C library
_Line = Callable[[Piece, bytes], bytes]
_SIGNALS = ("SIGINT", "SIGTERM", "SIGHUP", "SIGQUIT", "SIGALRM", "SIGXCPU")


def _front_of(name: str, encoding: str) -> tuple[bytes, str]:
    """The first bytes of a file, and the encoding that is meant of it."""
    with opened(place_of(name)) as it:
        front = bytes(it.read(0, min(it.stamp()[0], _FRONT)))
    return front, bom_at(front)[0] if is_auto(encoding) else encoding


def _name_of(encoding: str) -> str:
    return _NAMES[form_of(encoding)]


def _noun(encoding: str, count: int) -> str:
    """What invalid pieces are called: in UTF-16 they are units, or a byte at the end."""
    return f"invalid {'byte' if form_of(encoding) == 0 else 'unit'}{'' if count == 1 else 's'}"


def _kind_name(kind: FaultKind) -> str:
    return kind.name.replace("_", " ").title().replace(" ", "")


def _told(name: bytes, offset: int, kind: FaultKind, place: Place) -> bytes:
    """FILE:LINE:COLUMN: offset N: reason."""
    return b"%s:%d:%d: offset %d: %s" % (name, place.lines + 1, place.columns + 1, offset, kind.reason.encode())


# ---- check


class _Checked:
    """The check of one input: what was found so far, and what is said of it."""

    def __init__(self, out: Output, name: str, asked: argparse.Namespace) -> None:
        self._out, self._name, self._asked = out, name, asked
        self._encoding, self._is_file, self._is_binary = "utf8", True, False
        self._input: Optional[Input] = None
        self._count, self._first, self._front = 0, 0, Place()

    def run(self) -> int:
        is_enough = False
        for offset, data, found in self._found():
            self._look_for_nul(offset, data)
            is_enough = self._add(found)
            self._out.flush()
            if is_enough:
                break
        self._end(is_whole=not is_enough)
        return 1 if self._count else 0

    @property
    def _is_brief(self) -> bool:
        """Whether the first invalid byte says all that is wanted."""
        return bool(self._asked.quiet or self._asked.names)

    def _begin(self, front: bytes, encoding: str, is_file: bool) -> None:
        self._encoding, self._is_file = encoding, is_file
        self._look_for_nul(0, front)

    def _look_for_nul(self, offset: int, data: bytes) -> None:
        is_text = self._asked.text or form_of(self._encoding) != 0
        self._is_binary = self._is_binary or (not is_text and b"\0" in data[: max(_FRONT - offset, 0)])

    def _found(self) -> Iterator[tuple[int, bytes, Found]]:
        name, most = self._name, self._asked.max
        # (a file of length 0 may have bytes nevertheless, as one in /proc, and is read to its end)
        if self._asked.jobs > 1 and name != "-" and ("://" in name or os.path.isfile(name) and os.path.getsize(name) > 0):
            yield from self._found_by_jobs()
            return
        with Input(name, self._asked.encoding) as it:
            it.refuse_output()
            self._input = it
            self._begin(it.read_at(0, _FRONT) if it.is_file else b"", it.encoding, it.is_file)
            for offset, data, cut in it.blocks():
                yield offset, data, found_in(it.encoding, data, cut, offset, most, self._asked.columns)

    def _found_by_jobs(self) -> Iterator[tuple[int, bytes, Found]]:
        from . import parallel

        front, encoding = _front_of(self._name, self._asked.encoding)
        self._begin(front, encoding, True)

        def found(shard: Shard) -> list[Found]:
            return [found_in(encoding, bytes(data), cut, offset, self._asked.max, self._asked.columns) for offset, data, cut in shard.blocks()]

        for all_of_it in parallel.each(found, shards(self._name, parallel.SIZE, encoding), self._asked.jobs, not self._asked.quiet):
            for here in all_of_it:
                yield _FRONT, b"", here

    def _add(self, found: Found) -> bool:
        """Tells of what was found in a block. Returns whether no more is wanted."""
        faults, asked = found.faults, self._asked
        if faults.offsets and not self._count:
            self._first = faults.offsets[0]
        if faults.offsets and (self._is_brief or self._is_binary):
            self._count = 1
            return True
        left = len(faults.offsets) if asked.max == 0 else max(asked.max - self._count, 0)
        for offset, length, kind, place in zip(faults.offsets[:left], faults.lengths, faults.kinds, found.places):
            self._tell(offset, length, FaultKind(kind), self._front.plus(place))
        self._count += len(faults.offsets)
        self._front = self._front.plus(found.end)
        return False

    def _tell(self, offset: int, length: int, kind: FaultKind, place: Place) -> None:
        if self._asked.json:
            members = {"line": place.lines + 1, "column": place.columns + 1, "offset": offset, "length": length}
            self._out.write(json_line(self._name, **members, kind=_kind_name(kind), reason=kind.reason))
        else:
            self._out.write(_told(shown(self._name), offset, kind, place) + b"\n")

    def _end(self, is_whole: bool) -> None:
        asked = self._asked
        if asked.quiet:
            return
        if asked.names and self._count:
            self._out.write((shown(self._name) if os.isatty(1) else os.fsencode(self._name)) + (b"\0" if asked.null else b"\n"))
        elif asked.json and not asked.names:
            first = {"first": self._first} if self._is_binary and self._count else {}
            about = {"valid": self._count == 0, "binary": self._is_binary, "invalid": self._count, **first, "complete": is_whole}
            self._out.write(json_line(self._name, encoding=_name_of(self._encoding), **about))
        elif not asked.names and (self._count or asked.verbose):
            self._out.write(shown(self._name) + f": {self._summary()}\n".encode())
            is_other = self._count and self._is_file and not is_auto(asked.encoding) and form_of(self._encoding) == 0
            if is_other and "://" not in self._name:  # (one in the network is not read once more)
                self._hint()

    def _hint(self) -> None:
        """Says on standard error what may help with a file that is not valid UTF-8."""
        try:
            around = survey(self._around())
        except OSError:  # (it is gone)
            return
        counts, is_mixed = around.utf8, around.guess is Guess.UTF8_MIXED
        is_damage = counts.faults < _FEW or counts.undefined or (is_mixed and counts.chars < counts.faults)
        if around.guess in _HINTS and not (is_damage and (is_mixed or around.guess is Guess.WINDOWS1252)):
            self._out.flush()
            complain(self._name, _HINTS[around.guess])

    def _around(self) -> bytes:
        """The bytes around the first invalid one."""
        at = max(self._first // 2 * 2 - _AROUND, 0)
        if self._name == "-" and self._input is not None:
            return self._input.read_at(at, 2 * _AROUND)
        with opened(place_of(self._name)) as it:
            return bytes(it.read(at, min(it.stamp()[0], at + 2 * _AROUND)))

    def _summary(self) -> str:
        encoding, count, most = _name_of(self._encoding), self._count, self._asked.max
        if count == 0:
            return f"valid {encoding}"
        if self._is_binary:
            return f"binary file, not valid {encoding}: the first invalid byte is at offset {self._first} (-a shows all)"
        if 0 < most < count:
            return f"{count - most:,} more {_noun(self._encoding, count - most)} (--max 0 shows all)"
        return f"not valid {encoding}: {count:,} {_noun(self._encoding, count)}"


# ---- list and pieces


def _listed(out: Output, name: str, encoding: str, line: _Line) -> int:
    """Writes a line for each piece. Returns the status."""
    status = 0
    with Input(name, encoding) as it:
        it.refuse_output()
        for offset, data, cut in it.blocks():
            for piece in taken(iter(pieces(data, it.encoding)), offset, cut):
                status = 1 if piece.error is not None else status
                start = piece.offset - offset
                out.write(line(piece, data[start : start + piece.length]))
            out.flush()
    return status


def _list_line(piece: Piece, data: bytes) -> bytes:
    front = f"{piece.offset} {piece.length} {data.hex()} "
    if piece.error is not None:
        return f"{front}{_kind_name(piece.error)}: {piece.error.reason}\n".encode()
    char = piece.char or ""
    return f"{front}U+{ord(char):04X} {'' if is_hidden(char) else char}\n".encode()


def _list_json(name: str, piece: Piece, data: bytes) -> bytes:
    about = {"offset": piece.offset, "length": piece.length, "bytes": data.hex()}
    if piece.error is not None:
        return json_line(name, **about, kind=_kind_name(piece.error), reason=piece.error.reason)
    return json_line(name, **about, scalar=ord(piece.char or ""))


def _pieces_line(piece: Piece, data: bytes) -> bytes:
    what = _kind_name(piece.error) if piece.error is not None else f"{ord(piece.char or ''):06x}"
    return f"{piece.offset} {piece.length} {what}\n".encode()


# ---- fix and recode


_BECAME = {"replace": "became U+FFFD", "lossy": "became U+FFFD", "ignore": "dropped", "windows-1252": "read as Windows-1252", "latin-1": "read as ISO-8859-1"}


def _tell_replaced(name: str, encoding: str, count: int, asked: argparse.Namespace) -> None:
    if count and not asked.quiet:
        way = asked.errors if asked.errors == "ignore" or form_of(encoding) == 0 else "replace"
        complain(name, f"{count} {_noun(encoding, count)} {_BECAME[way]}")


def _fix(out: Output, name: str, asked: argparse.Namespace) -> int:
    from ._fixing import fix

    done = fix(out, name, asked)
    _tell_replaced(name, done.encoding, done.replaced, asked)
    return done.status


def _recode(out: Output, name: str, asked: argparse.Namespace) -> int:
    front = Place()
    with Input(name, asked.encoding) as it:
        it.refuse_output()
        recoder = Recoder(it.encoding, asked.to, "replace" if asked.errors == "strict" else asked.errors)
        for offset, data, cut in it.blocks():
            found = found_in(it.encoding, data, cut, offset, 1) if asked.errors == "strict" else None
            stop = found.faults.offsets[0] - offset if found and found.faults.offsets else cut
            out.write(recoder.feed(memoryview(data)[0 if offset else it.mark : stop]))
            out.flush()
            if found and found.faults.offsets:
                tell(_told(shown(name), offset + stop, FaultKind(found.faults.kinds[0]), front.plus(found.places[0])))
                return 1
            front = front.plus(found.end) if found else front
    out.write(recoder.finish())
    out.flush()
    _tell_replaced(name, it.encoding, recoder.replaced, asked)
    return 0


def _place_of(name: str, encoding: str, offset: int) -> Place:
    """The position of an offset in a file."""
    from . import parallel

    place = Place()
    for shard in shards(name, parallel.SIZE, encoding):
        for start, data, cut in shard.blocks():
            if start < offset:
                place = place.plus(passed(form_of(shard.encoding), bytes(data)[: min(cut, offset - start)]))
    return place


def _recode_into(name: str, asked: argparse.Namespace) -> int:
    from . import parallel

    try:
        # (read first: afterwards there may be no such file, or the output may be it)
        encoding = _front_of(name, asked.encoding)[1] if is_auto(asked.encoding) else asked.encoding
        try:
            done = parallel.recode(name, asked.output, asked.encoding, asked.to, asked.jobs, not asked.quiet, errors=asked.errors, resume=asked.resume)
        except FaultError as fault:
            tell(_told(shown(name), fault.offset, fault.error, _place_of(name, asked.encoding, fault.offset)))
            return 1
    except Exception as error:
        if not _is_failure(name, error):
            raise
        complain_of(asked.output, error)
        return 3
    _tell_replaced(name, encoding, done.replaced, asked)
    return 0


# ---- the program


def _run_on(out: Output, name: str, asked: argparse.Namespace) -> int:
    if asked.command == "check":
        return _Checked(out, name, asked).run()
    if asked.command == "fix":
        return _fix(out, name, asked)
    if asked.command == "recode":
        return _recode(out, name, asked)
    if asked.command == "pieces":
        return _listed(out, name, asked.encoding, _pieces_line)
    return _listed(out, name, asked.encoding, (lambda *it: _list_json(name, *it)) if asked.json else _list_line)


def _is_failure(name: str, error: Exception) -> bool:
    """Whether an error says that a file cannot be read or written. A URL asks for fsspec, and what that raises may be of any type."""
    return isinstance(error, (OSError, ImportError, MemoryError)) or "://" in name


def _status_of(out: Output, name: str, asked: argparse.Namespace) -> int:
    """The status for one input; one that cannot be read is reported."""
    try:
        return _run_on(out, name, asked)
    except OutputError:
        raise
    except Exception as error:
        if not _is_failure(name, error):
            raise
        out.flush()
        complain_of(name, error)
        return 3


def _run(asked: argparse.Namespace) -> int:
    if asked.output is not None:
        return _recode_into(asked.files[0], asked)
    out = Output()
    try:
        status = max(_status_of(out, name, asked) for name in asked.files or ["-"])
        out.flush()
    except OutputError as error:
        if not is_closed_pipe(error):
            complain_of("cannot write", error.args[0])
        return 3
    return status


class _Ended(BaseException):
    """A signal ends the program, once files that are not finished were removed."""


_TOGETHER = 1.0  # seconds
_ended_at = -_TOGETHER


def _end(number: int, frame: Optional[FrameType]) -> None:
    """Of signals that come together only the first raises: another one would interrupt what removes the files."""
    global _ended_at
    now = time.monotonic()
    if now - _ended_at >= _TOGETHER:
        _ended_at = now
        raise _Ended(number)


def _on_signals() -> None:
    for name in _SIGNALS:
        number = getattr(signal, name, None)  # (Windows has few of them)
        if number is not None and signal.getsignal(number) != signal.SIG_IGN:
            signal.signal(number, _end)


def _said(text: str) -> int:
    """Writes the answer to --help or --version."""
    out = Output()
    out.write(f"{text}\n".encode())
    try:
        out.flush()
    except OutputError:
        return 3
    return 0


def _run_words(words: list[str]) -> int:
    command = words[0] if words else ""
    if command in ("--help", "-h"):
        return _said(options.help_of_all())
    if command == "--version":
        return _said(options.VERSION)
    if command not in options.COMMANDS:
        tell(options.SHORT_USAGE.encode())
        return 2
    try:
        asked = options.asked_by(command, words[1:])
    except options.WrongWords as wrong:
        tell(b"noddychest: " + shown(str(wrong)))
        tell(options.usage_of(command).encode())
        return 2
    return _said(asked.answer) if asked.answer else _run(asked)


def main() -> int:
    try:
        _on_signals()
        open_streams()
        return _run_words(sys.argv[1:])
    except _Ended as ended:
        number = ended.args[0]
        signal.signal(number, signal.SIG_DFL)
        os.kill(os.getpid(), number)
        return 3


if __name__ == "__main__":
    sys.exit(main())
