"""What invalid bytes become: by a name, or by a table that has a character, or nothing, for each byte from 80 on."""
from __future__ import annotations

import functools
import operator
import struct
from collections.abc import Callable, Mapping
from typing import TYPE_CHECKING, NamedTuple, Union

if TYPE_CHECKING:
    Entry = Union[str, int, None]
    Errors = Union[str, "Table", Mapping[int, Entry], Callable[[int], Entry]]

_NAMES = {"replace": 0, "strict": 1, "lossy": 2, "ignore": 3, "windows-1252": 4, "latin-1": 5}  # by the numbers of _noddychest.c
_BYTES = range(0x80, 0x100)  # those that may be invalid
_NOTHING = 0xFFFFFFFF  # (the number of no character)


class Table(NamedTuple):
    """A mapping or a callable that was read: what it had then, so it stays as it is, and can be sent to another process."""

    numbers: bytes
    """The code point of each byte from 80 on, in 32 bits, as the C library takes them."""


def settled(errors: Errors) -> Union[str, Table]:
    """What `errors` of a call means, with a table read. It may be settled already.

    Errors: LookupError for a name that there is not, TypeError for what is no name and no table, and for an entry that is no character, no
    code point and not None, ValueError for an entry that is not one character up to U+FFFF; and what a mapping or a callable raises."""
    if isinstance(errors, Table):
        return errors
    if isinstance(errors, str):
        if errors not in _NAMES:
            *names, last = map(repr, _NAMES)
            raise LookupError(f"unknown errors: {errors!r}; there are {', '.join(names)} and {last}")
        return errors
    if isinstance(errors, Mapping):
        _check_keys(errors)
        read: Callable[[int], Entry] = functools.partial(_entry, errors)
    elif callable(errors):
        read = errors
    else:
        raise TypeError(f"errors is a str, a mapping or a callable, not {type(errors).__name__!r}")
    return Table(struct.pack("<128I", *[_number(byte, read(byte)) for byte in _BYTES]))


def _check_keys(errors: Mapping[int, Entry]) -> None:
    """Raises an error for a key that is no byte: its entry would never be used."""
    for key in errors:
        if not hasattr(key, "__index__"):
            raise TypeError(f"the table has the key {key!r}: a key is a byte as a number, as 0xE9")
        if not 0 <= key <= 0xFF:
            raise ValueError(f"the table has the key {key}: a byte is 0 to 255")


def _entry(errors: Mapping[int, Entry], byte: int) -> Entry:
    """What a mapping has for a byte. A byte that it has not is as with `replace`: only what is said to be nothing is left out."""
    try:
        return errors[byte]
    except LookupError:
        return "\ufffd"


def _number(byte: int, entry: Entry) -> int:
    """The code point of an entry, or the number of nothing."""
    if entry is None or isinstance(entry, str) and not entry:
        return _NOTHING
    if isinstance(entry, str) and len(entry) != 1:
        raise ValueError(f"the table has {len(entry)} characters for byte {byte:02X}: one character or none is possible")
    try:
        number = ord(entry) if isinstance(entry, str) else operator.index(entry)
    except TypeError:
        raise TypeError(f"the table has {type(entry).__name__!r} for byte {byte:02X}: an entry is a character, a code point or None") from None
    if not 0 <= number <= 0xFFFF or 0xD800 <= number < 0xE000:
        raise ValueError(f"the table has {number:#x} for byte {byte:02X}: that is no character up to U+FFFF")
    return number


def way_of(errors: Errors) -> Union[int, bytes]:
    """What the C library takes for `errors`: a number, or the numbers of a table."""
    it = settled(errors)
    return it.numbers if isinstance(it, Table) else _NAMES[it]
