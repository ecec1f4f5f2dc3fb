"""What the program writes: standard output, messages, and names as both show them."""
from __future__ import annotations

import errno
import json
import os
import re
import select
from typing import Any, Optional, Union

from ._pieces import pieces
from ._recoding import recode

_HIDDEN = re.compile("[\0-\x1f\x7f-\x9f\u061c\u200b-\u200f\u2028-\u202e\u2060-\u206f\ufeff]")
_ROOM = 1 << 16
_STREAMS = ((0, os.O_WRONLY), (1, os.O_RDONLY), (2, os.O_RDONLY))


def is_hidden(char: str) -> bool:
    """Whether a character has no place on a line of its own: a control, a mark of direction, or another end of a line."""
    return _HIDDEN.match(char) is not None


def shown(name: str) -> bytes:
    """A name as nody(1) shows it: a character that is hidden, or a byte that is not UTF-8, as a backslash and three octal digits for each
    byte. So no name commands a terminal, or has the look of two lines."""
    data = os.fsencode(name)
    return b"".join(_shown_piece(data[it.offset : it.offset + it.length], it.char) for it in pieces(data))


def _shown_piece(data: bytes, char: Optional[str]) -> bytes:
    return data if char is not None and not is_hidden(char) else b"".join(b"\\%03o" % it for it in data)


def _escaped(found: re.Match[str]) -> str:
    return "\\" + found[0] if found[0] in '"\\' else f"\\u{ord(found[0]):04x}"


def json_line(name: str, **members: Any) -> bytes:
    """An object of JSON for a file. Bytes of its name that are not UTF-8 become U+FFFD."""
    file = re.sub('["\\\\\0-\x1f\x7f-\x9f]', _escaped, recode(os.fsencode(name), "utf8", "utf8").decode())
    return f'{{"file":"{file}",{json.dumps(members, separators=(",", ":"))[1:]}\n'.encode()


class OutputError(Exception):
    """Standard output cannot be written."""


def wait_for(file: int, event: int) -> None:
    """Waits until a descriptor that does not wait by itself has data, or room."""
    poll = select.poll()
    poll.register(file, event)
    poll.poll()


def open_streams() -> None:
    """Opens streams that are closed, so that no file gets their numbers; to read or to write them still fails."""
    for number, flags in _STREAMS:
        try:
            os.fstat(number)
        except OSError:
            os.open(os.devnull, flags)


class Output:
    """Standard output, with a buffer. That it cannot be written is no failure of an input."""

    def __init__(self) -> None:
        self._buffer = bytearray()

    def write(self, data: Union[bytes, bytearray]) -> None:
        self._buffer += data
        if len(self._buffer) >= _ROOM:
            self.flush()

    def flush(self) -> None:
        left, self._buffer = memoryview(self._buffer), bytearray()
        while left:
            try:
                left = left[os.write(1, left) :]
            except BlockingIOError:
                wait_for(1, select.POLLOUT)
            except OSError as error:
                raise OutputError(error) from None


def tell(line: bytes) -> None:
    """Writes a line on standard error, as far as that can be written."""
    left = line + b"\n"
    while left:
        try:
            left = left[os.write(2, left) :]
        except BlockingIOError:
            wait_for(2, select.POLLOUT)
        except OSError:
            return


def complain(name: str, why: str) -> None:
    tell(b"noddychest: " + shown(f"{name}: {why}"))


def complain_of(name: str, error: Exception) -> None:
    """Says why something cannot be read or written."""
    if isinstance(error, OSError) and error.strerror:
        complain(error.filename if isinstance(error.filename, str) else name, error.strerror)
    elif isinstance(error, MemoryError):
        complain(name, "there is no memory")
    else:
        tell(b"noddychest: " + shown(str(error)))


def is_closed_pipe(error: OutputError) -> bool:
    """Whether nobody reads the output any more."""
    return bool(error.args[0].errno == errno.EPIPE)
