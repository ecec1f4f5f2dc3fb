"""Splits damaged UTF-8 and UTF-16 into characters and single invalid bytes, and converts between the two.

>>> import noddychest
>>> for piece in noddychest.pieces(b"h\\xc3\\xa9\\xe2\\x82A"):
...     print(piece.offset, piece.length, piece.char or piece.error.name)
0 1 h
1 2 é
3 1 INTERRUPTED_SEQUENCE
4 1 UNEXPECTED_CONTINUATION_BYTE
5 1 A
>>> noddychest.recode(b"f\\xcfb", "utf8", "utf16le")
b'f\\x00\\xfd\\xffb\\x00'
>>> noddychest.decode(b"na\\xc3\\xafve caf\\xe9", errors="windows-1252")
'naïve café'
>>> b"h\\xc3\\xa9\\xe2\\x82A".decode("noddychest-utf8", "backslashreplace")
'hé\\\\xe2\\\\x82A'

Data is any bytes-like object: `bytes`, `bytearray`, `memoryview`, `array.array`, `mmap.mmap`. It is not copied as a whole, and counts
at its size in bytes. A `str` is a TypeError, and bytes that do not lie one after another in memory are a BufferError
(those of numpy a ValueError).

Importing the package registers the codecs `noddychest-utf8`, `noddychest-utf16le`, `noddychest-utf16be` and, with a byte order mark,
`noddychest-utf8-sig` and `noddychest-utf16`; and for any codec the error handlers `noddychest.windows-1252` and `noddychest.latin-1`.
"""
from ._version import __version__
from ._parts import Decoder, stream_faults, stream_located, stream_pieces
from ._pieces import (
    Ends,
    FaultError,
    FaultKind,
    Located,
    Piece,
    Pieces,
    boundary_after,
    boundary_before,
    changed_range,
    char_count,
    encoding_of_bom,
    faults,
    first_fault,
    is_valid,
    located,
    number_of,
    offset_of,
    offsets,
    pieces,
    undecided_len,
)
from ._recoding import Recoder, decode, recode, recoded_len
from ._shards import ChangedError, Counts, Faults, LocatedFaults, Recoded, Shard, faults_array, shards
from ._surveys import Guess, Survey, Surveyor, UnitCounts, Utf8Counts, guess, survey
from . import _codecs

__all__ = [
    "ChangedError",
    "Counts",
    "Decoder",
    "Ends",
    "FaultError",
    "FaultKind",
    "Faults",
    "Guess",
    "Located",
    "LocatedFaults",
    "Piece",
    "Pieces",
    "Recoded",
    "Recoder",
    "Shard",
    "Survey",
    "Surveyor",
    "UnitCounts",
    "Utf8Counts",
    "__version__",
    "boundary_after",
    "boundary_before",
    "changed_range",
    "char_count",
    "decode",
    "encoding_of_bom",
    "faults",
    "faults_array",
    "first_fault",
    "guess",
    "is_valid",
    "located",
    "number_of",
    "offset_of",
    "offsets",
    "pieces",
    "recode",
    "recoded_len",
    "shards",
    "stream_faults",
    "stream_located",
    "stream_pieces",
    "survey",
    "undecided_len",
]

for _it in (ChangedError, Counts, Decoder, Ends, FaultError, FaultKind, Faults, Guess, Located, LocatedFaults, Piece, Pieces, Recoded, Recoder, Shard, Survey, Surveyor, UnitCounts,
            Utf8Counts):
    _it.__module__ = __name__  # where users find them

_codecs.register()
