"""Conversion between UTF-8 and UTF-16."""
from __future__ import annotations

from typing import TYPE_CHECKING, Any, Union

from . import _noddychest
from ._names import STANDARD, form_of, form_or_auto
from ._parts import attributes_for
from ._pieces import fault_error, shard_of
from ._repair import Table, settled, way_of

if TYPE_CHECKING:
    from _typeshed import ReadableBuffer

    from ._repair import Errors
    from ._shards import Shard


def checked(from_: str, to: str, errors: Errors) -> Union[str, Table]:
    """The way with errors, with a table read. Raises LookupError for a name of no encoding, and as `settled` does. The input may be in `auto`."""
    form_or_auto(from_), form_of(to)
    return settled(errors)


def _shard_in(data: object, from_: str) -> Shard:
    """A shard in place of data, which has to be in this encoding."""
    shard = shard_of(data)
    if form_of(shard.encoding) != form_of(from_):
        raise ValueError(f"the shard is in {shard.encoding!r}, not in {from_!r}")
    return shard


def recode(data: Union[ReadableBuffer, Shard], from_: str, to: str, errors: Errors = "replace") -> bytes:
    """Converts text from one encoding to another. The encodings are `utf8`, `utf16le` and `utf16be`, also as `UTF-8`, `utf_16_le` and
    the other names that browsers take. (There `utf-16` is little-endian.) No byte order mark is looked for, and none is added.

    With `replace` each invalid byte becomes one U+FFFD, and so do each lone surrogate of UTF-16 and a single byte at its end. With
    `strict` the first of them raises FaultError. With `lossy` one U+FFFD stands for each maximal subpart, which is one to three bytes
    that begin a character and do not end it, as browsers and Python's own codecs have it.

    Other `errors` repair text that has bytes of an older encoding in it. `windows-1252` and `latin-1` write for each invalid byte its
    character there, and `ignore` writes nothing. A table of your own is a mapping of a byte, 0x80 to 0xFF, to one character up to U+FFFF,
    its code point, or None or "" for nothing; a byte that it lacks becomes U+FFFD. Or it is a callable that returns this for a byte, and
    is called once for each of the 128. A table is read before the data. In UTF-16 each lone surrogate, and a single byte at the end,
    becomes U+FFFD, or nothing with `ignore`.

    Errors: LookupError for an unknown encoding or name, ValueError or TypeError for a table with another key or entry, and what a mapping or
    a callable raises.

    Data may be a Shard: the outputs of all shards, concatenated, are the output of the whole.

    >>> recode("né".encode(), "utf8", "utf16be")
    b'\\x00n\\x00\\xe9'
    >>> recode(b"a\\xffb", "utf8", "utf8")
    b'a\\xef\\xbf\\xbdb'
    >>> len(recode(b"\\xe2\\x82", "utf8", "utf16le")), len(recode(b"\\xe2\\x82", "utf8", "utf16le", "lossy"))
    (4, 2)
    >>> recode(b"na\\xc3\\xafve caf\\xe9 \\x80", "utf8", "utf8", "windows-1252").decode()
    'naïve café €'
    >>> recode(b"na\\xefve", "utf8", "utf8", {0xEF: "i"})
    b'naive'
    >>> recode(b"a\\xc0\\xaf", "UTF-8", "UTF-16LE", "strict")
    Traceback (most recent call last):
    noddychest.FaultError: 'utf-8' codec can't decode byte 0xc0 in position 1: invalid byte: C0, C1 and F5 to FF never occur in UTF-8
    """
    if isinstance(data, tuple):
        return _shard_in(data, from_).recode(to, errors)
    source, target, way = form_of(from_), form_of(to), way_of(errors)
    made = _noddychest.recode(source, target, data, way)
    if isinstance(made, bytes):
        return made
    offset, length, kind, all_bytes = made
    raise fault_error(STANDARD[source], all_bytes, offset, length, kind, offset=offset)


def decode(data: Union[ReadableBuffer, Shard], encoding: str = "utf8", errors: Errors = "replace") -> str:
    """The text of data. `errors` is as in `recode`, and so are the exceptions. (The codecs take Python's error handlers.)

    >>> decode(b"caf\\xe9", errors="windows-1252"), decode(b"caf\\xe9"), decode(b"caf\\xe9", errors=lambda byte: bytes([byte]).decode("cp1251", "replace"))
    ('café', 'caf�', 'cafй')
    """
    text = _noddychest.quick_decode(data, encoding, errors)
    return recode(data, encoding, "utf8", errors).decode() if text is None else text


def recoded_len(data: Union[ReadableBuffer, Shard], from_: str, to: str) -> int:
    """How many bytes `recode` makes of the data, with `replace`. It takes up to twice as long as `recode`, and no memory. Data may be a
    Shard.

    >>> recoded_len("né".encode(), "utf8", "utf16be")
    4
    """
    if isinstance(data, tuple):
        return _shard_in(data, from_).recoded_len(to)
    return _noddychest.recoded_len(form_of(from_), form_of(to), data)


class Recoder:
    """Converts text that comes in parts. The output does not depend on how the input was divided into parts. With `strict` a part with
    an invalid byte raises FaultError, once the reason is decided, and the recoder is as it was before. All else that `errors` may be is as
    in `recode`; a table is read when the Recoder is made.

    A Recoder takes one call at a time. If another thread calls it meanwhile, that raises RuntimeError, and no input is lost. `copy.copy`
    and `pickle` make a recoder that goes on by itself from the same state.

    >>> recoder = Recoder("utf8", "utf16be")
    >>> recoder.feed(b"n\\xc3"), recoder.feed(b"\\xa9\\xff"), recoder.feed(b"\\xe2"), recoder.finish(), recoder.replaced
    (b'\\x00n', b'\\x00\\xe9\\xff\\xfd', b'', b'\\xff\\xfd', 2)
    """

    __slots__ = ("_from", "_to", "_errors", "_recoder", "__weakref__")

    def __init__(self, from_: str, to: str, errors: Errors = "replace") -> None:
        self._from, self._to, self._errors = form_of(from_), form_of(to), way_of(errors)
        self._recoder = _noddychest.Recoder(self._from, self._to, self._errors)

    def __getstate__(self) -> tuple[Any, ...]:
        return self._from, self._to, self._errors, self._recoder.state(), getattr(self, "__dict__", None)

    def __setstate__(self, state: tuple[Any, ...]) -> None:
        from_, to, errors, (held, replaced, fed), more = state
        more = attributes_for(self, more)
        recoder = _noddychest.Recoder(from_, to, errors)
        if not 0 <= replaced <= fed - len(held):
            raise ValueError("no Recoder has this state")
        recoder.set_state(held, replaced, fed)
        self._from, self._to, self._errors, self._recoder = from_, to, errors, recoder
        if more:
            self.__dict__.update(more)

    def feed(self, data: ReadableBuffer) -> bytes:
        """Reads a part, and returns its output. At most three bytes are carried over."""
        return self._step(data, False)

    def finish(self) -> bytes:
        """Ends the input, and returns the output of the bytes that were carried over. After that you may feed the recoder again."""
        return self._step(b"", True)

    def _step(self, data: ReadableBuffer, finish: bool) -> bytes:
        made = self._recoder.step(data, finish)
        if isinstance(made, bytes):
            return made
        offset, length, kind, part, start = made
        raise fault_error(STANDARD[self._from], part, start, length, kind, offset=offset)

    @property
    def replaced(self) -> int:
        """How many invalid bytes (in UTF-16 lone surrogates, or single bytes at the end) were replaced, or left out, so far. With
        `lossy` each byte of a maximal subpart counts."""
        return self._recoder.replaced
