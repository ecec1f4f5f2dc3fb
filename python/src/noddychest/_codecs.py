"""The codecs. Which bytes are invalid, and why, is what the proved library says; a stretch of valid text becomes a `str`, and a `str`
becomes bytes, by the interpreter's own codec."""
from __future__ import annotations

import codecs
import functools
import types
from typing import TYPE_CHECKING, Any, NamedTuple, Optional, Union

from . import _noddychest
from ._names import STANDARD, plain
from ._pieces import ERRORS, REASONS, fault_error
from ._recoding import decode

if TYPE_CHECKING:
    from _typeshed import ReadableBuffer

_ENCODERS = (codecs.utf_8_encode, codecs.utf_16_le_encode, codecs.utf_16_be_encode)  # by the numbers of the C library
_MARKS = (codecs.BOM_UTF8, codecs.BOM_UTF16_LE, codecs.BOM_UTF16_BE)


class _Codec(NamedTuple):
    """What distinguishes a codec from the others."""

    name: str
    form: int
    """What is written; and what is read, unless a byte order mark says otherwise."""
    marked: tuple[int, ...] = ()
    """The encodings whose mark is looked for at the front of all input, and is no part of the text. If there are any, a mark is written too."""

    @property
    def mark(self) -> bytes:
        return _MARKS[self.form] if self.marked else b""

    @property
    def first(self) -> Optional[int]:
        """The encoding at the front of all input; None if a mark may tell it."""
        return None if self.marked else self.form

    def states(self) -> dict[int, Optional[int]]:
        """The encodings that a decoder may be in, by the numbers that its state has for them: 0 is the front of all input."""
        return {0: self.first, **{1 + form: form for form in self.marked}}

    def front(self, data: ReadableBuffer, final: bool) -> tuple[Optional[int], int]:
        """The encoding of input that begins so, and the length of its mark. If more bytes decide, the encoding is None."""
        found = _noddychest.encoding_of_bom(data)
        if found is not None and found[0] in self.marked:
            return found
        length = memoryview(data).nbytes
        is_open = length == 0 or (length < 3 and not final and any(_MARKS[it].startswith(bytes(data)) for it in self.marked))
        return None if is_open else self.form, 0


CODECS = (
    _Codec("noddychest-utf8", 0),
    _Codec("noddychest-utf16le", 1),
    _Codec("noddychest-utf16be", 2),
    _Codec("noddychest-utf8-sig", 0, (0,)),
    _Codec("noddychest-utf16", 1, (1, 2)),
)

# The interpreter's own error handlers, which are not called for each fault, since what they do is known. Another handler may be
# registered under such a name, so they are recognised by what they are. The last is only of UTF-8.
_OWN = {"ignore_errors": 0, "replace_errors": 1, "backslashreplace_errors": 2, "surrogateescape": 3}


def _encode(codec: _Codec, text: str, errors: Optional[str]) -> tuple[bytes, int]:
    """The bytes, without a mark, and the length of the text."""
    try:
        return _ENCODERS[codec.form](text, errors or "strict")
    except UnicodeEncodeError as error:
        if error.encoding.startswith("utf-"):
            error.encoding = codec.name
        raise


def _own_way(handler: Any, form: int) -> Optional[int]:
    """The number of what an own handler does, or None for one that has to be asked."""
    is_own = type(handler) is types.BuiltinFunctionType and handler.__module__ is None
    way = _OWN.get(handler.__name__) if is_own else None
    return None if way == 3 and form != 0 else way


def _decode(codec: _Codec, form: Optional[int], data: ReadableBuffer, errors: Optional[str], final: bool,
            before: int = 0) -> tuple[str, bytes, Optional[int]]:
    """The text; the bytes that are held, unless no more follows: what may yet become a character, and invalid bytes whose reason the
    next bytes decide; and the encoding of what follows. Strictly, as Python's own decoders do, an invalid byte is reported at once, with the
    reason that the bytes so far have. `before` is the number of bytes of all input that were read before. With a `form` of None the data is
    the front of all input, and a mark may tell the encoding."""
    mark = 0
    if form is None:
        form, mark = codec.front(data, final)
        if form is None:
            return "", bytes(data), None
    at_once = errors is None or errors == "strict"
    made: Any = _noddychest.decode(form, data, final, at_once)
    text, held = made if len(made) == 2 else _handled(codec, form, made, errors, final, at_once, before)
    return text[1:] if mark else text, held, form


def _handled(codec: _Codec, form: int, made: Any, errors: Optional[str], final: bool, at_once: bool, before: int) -> tuple[str, bytes]:
    """The text and the bytes that are held, where there is an invalid byte."""
    at, length, kind, source, end = made
    handler = codecs.lookup_error(errors or "strict")
    way = _own_way(handler, form)
    if way is not None:
        return _noddychest.replaced(form, source, at, end, way), source[end:]
    if isinstance(handler, _Repairer):
        return decode(memoryview(source)[:end], STANDARD[form], handler.table), source[end:]
    error = fault_error(codec.name, source, at, length, kind, offset=before + at)
    if errors == "surrogatepass":  # it knows encodings by name
        error.encoding = STANDARD[form]
    try:
        return _noddychest.handled(form, source, at, final, at_once, before, error, handler, ERRORS, REASONS)
    finally:
        error.encoding = codec.name


@functools.lru_cache(maxsize=16)
def _has_units(encoding: str) -> bool:
    """Whether text in an encoding is made of units of several bytes."""
    return any(it in plain(encoding) for it in ("utf16", "utf32"))


class _Repairer:
    """An error handler that replaces each invalid byte by its character in a table, and each fault of UTF-16 and UTF-32 by U+FFFD. The codecs of
    this package call it once for all bytes of a call, others for each fault."""

    def __init__(self, table: str) -> None:
        self.table = table
        lone = b"".join(bytes([byte, 0x20]) for byte in range(0x80, 0x100))  # (before a blank each is invalid)
        self._chars = [*map(chr, range(0x80)), *decode(lone, errors=table)[::2]]

    def __call__(self, error: UnicodeError) -> tuple[str, int]:
        if not isinstance(error, UnicodeDecodeError):
            raise error
        if _has_units(error.encoding):
            return "\ufffd", error.end
        return "".join([self._chars[byte] for byte in error.object[error.start : error.end]]), error.end


_REPAIRERS = {f"noddychest.{table}": _Repairer(table) for table in ("windows-1252", "latin-1")}


class _Held(bytes):
    """The bytes that a decoder holds, as a part of its state, with the number of bytes that were read before them. A file asks for the
    state and gives it back when it tells its position, and puts plain bytes there when it seeks."""

    before = 0


class _Decoder(codecs.BufferedIncrementalDecoder):
    """Decodes parts. It takes one call at a time, also if an error handler calls it."""

    codec: _Codec

    def __init__(self, errors: str = "strict") -> None:
        super().__init__(errors)
        self._before, self._form = 0, self.codec.first
        self._turn = _noddychest.Turn()

    def decode(self, input: ReadableBuffer, final: bool = False) -> str:
        text: str = self._turn.take(self._decode_part, input, final)
        return text

    def _decode_part(self, input: ReadableBuffer, final: bool) -> str:
        data = self.buffer + input
        text, held, form = _decode(self.codec, self._form, data, self.errors, final, self._before)
        before = self._before + len(data) - len(held)
        self.buffer, self._before, self._form = held, before, form  # (all, or none if a signal handler raises)
        return text

    def reset(self) -> None:
        self._turn.take(self._set, b"", self.codec.first)

    def getstate(self) -> tuple[bytes, int]:
        held = _Held(self.buffer)
        held.before = self._before
        return held, 0 if self._form is None or self._form == self.codec.first else 1 + self._form

    def setstate(self, state: tuple[bytes, int]) -> None:
        if not isinstance(state[0], bytes):
            raise TypeError(f"the state of a decoder begins with bytes, not {type(state[0])!r}")
        states = self.codec.states()
        if state[1] not in states:
            raise ValueError(f"no decoder of {self.codec.name} has the state {state[1]!r}")
        self._turn.take(self._set, state[0], states[state[1]])

    def _set(self, held: bytes, form: Optional[int]) -> None:
        self.buffer, self._before, self._form = held, getattr(held, "before", 0), form

    def __getstate__(self) -> dict[str, Any]:
        return {name: it for name, it in self.__dict__.items() if name != "_turn"}

    def __setstate__(self, state: dict[str, Any]) -> None:
        self.__dict__.update(state, _turn=_noddychest.Turn())


class _Marking:
    """What writes a mark before the first text, if its codec has one."""

    codec: _Codec
    _is_begun = False

    def _marked(self, text: str, errors: str) -> tuple[bytes, int]:
        made, length = _encode(self.codec, text, errors)
        if not self._is_begun:
            made = self.codec.mark + made
            self._is_begun = True
        return made, length


class _Encoder(_Marking, codecs.IncrementalEncoder):
    def encode(self, input: str, final: bool = False) -> bytes:
        return self._marked(input, self.errors)[0]

    def reset(self) -> None:
        self._is_begun = False

    def getstate(self) -> int:
        return int(bool(self.codec.mark) and not self._is_begun)

    def setstate(self, state: Union[int, str]) -> None:
        """0 is after the mark: io sets it if a file is appended to."""
        self._is_begun = not state


class _Writer(_Marking, codecs.StreamWriter):
    def encode(self, input: str, errors: str = "strict") -> tuple[bytes, int]:
        return self._marked(input, errors)

    def reset(self) -> None:
        super().reset()
        self._is_begun = False


class _Reader(codecs.StreamReader):
    codec: _Codec
    _before = 0

    def __init__(self, stream: Any, errors: str = "strict") -> None:
        super().__init__(stream, errors)
        self._form = self.codec.first

    def decode(self, input: ReadableBuffer, errors: str = "strict") -> tuple[str, int]:
        text, held, self._form = _decode(self.codec, self._form, input, errors, False, self._before)
        read = memoryview(input).nbytes - len(held)
        self._before += read
        return text, read

    def reset(self) -> None:
        super().reset()
        self._before, self._form = 0, self.codec.first


def _info(it: _Codec) -> codecs.CodecInfo:
    first, mark = it.first, it.mark

    def encode(input: str, errors: str = "strict") -> tuple[bytes, int]:
        made, length = _encode(it, input, errors)
        return mark + made, length

    def decode_marked(input: ReadableBuffer, errors: str = "strict") -> tuple[str, int]:
        return _decode(it, first, input, errors, True)[0], memoryview(input).nbytes

    decode = decode_marked if it.marked else _DECODERS[it.form]

    class IncrementalEncoder(_Encoder):
        codec = it

    class IncrementalDecoder(_Decoder):
        codec = it

    class StreamWriter(_Writer):
        codec = it

    class StreamReader(_Reader):
        codec = it

    named: tuple[Any, ...] = (encode, *([decode] if it.marked else []), IncrementalEncoder, IncrementalDecoder, StreamWriter, StreamReader)
    for one in named:
        one.__name__ = one.__qualname__ = f"{one.__name__}_{plain(it.name.partition('-')[2])}"
        globals()[one.__name__] = one  # (so that pickle finds it)
    return codecs.CodecInfo(
        encode=encode,
        decode=decode,
        incrementalencoder=IncrementalEncoder,
        incrementaldecoder=IncrementalDecoder,
        streamwriter=StreamWriter,
        streamreader=StreamReader,
        name=it.name,
    )


# What decodes all bytes at once, by the numbers of the C library: short text without a call of Python's, and other text by `_slow`.
_DECODERS = (_noddychest.decode_utf8, _noddychest.decode_utf16le, _noddychest.decode_utf16be)
_INFOS = tuple(map(_info, CODECS))


def _slow(codec: _Codec, input: ReadableBuffer, errors: str = "strict") -> tuple[str, int]:
    return _decode(codec, codec.form, input, errors, True)[0], memoryview(input).nbytes


def _own_handlers() -> tuple[Any, ...]:
    """The interpreter's own error handlers by the numbers of what they do; None if there is another one under the name."""
    found = [codecs.lookup_error(name.partition("_")[0]) for name in _OWN]
    return tuple(it if _own_way(it, 0) == way else None for way, it in enumerate(found))


_noddychest.use_codecs(tuple(functools.partial(_slow, it) for it in CODECS if not it.marked), _own_handlers())


def _find(name: str) -> Optional[codecs.CodecInfo]:
    """Names are also found with other signs between their words, as `noddychest-utf-8` and `noddychest_utf_16_le`."""
    for info in _INFOS:
        if plain(name) == plain(info.name):
            return info
    return None


def register() -> None:
    codecs.register(_find)
    for name, handler in _REPAIRERS.items():
        codecs.register_error(name, handler)
