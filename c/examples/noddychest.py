"""Noddychest from Python, by ctypes: pieces of bytes, which it lists as a program. NODDYCHEST names the shared object."""
import ctypes
import os
import sys
from ctypes import POINTER, byref, c_char, c_char_p, c_size_t, c_uint8, c_uint32, c_uint64, c_void_p


class Piece(ctypes.Structure):
    _fields_ = [("len", c_size_t), ("scalar", c_uint32), ("kind", c_uint8)]


class Bytes(ctypes.Structure):  # what is left
    _fields_ = [("bytes", c_void_p), ("len", c_size_t)]


class Recoder(ctypes.Structure):
    _fields_ = [("source", c_uint8), ("to", c_uint8), ("count", c_uint8), ("held", c_uint8 * 3), ("replaced", c_uint64)]


LIBRARY = ctypes.CDLL(os.environ["NODDYCHEST"])
LIBRARY.nody_utf8_next.restype = LIBRARY.nody_utf8_streamed_at.restype = Piece
LIBRARY.nody_utf8_next.argtypes = [POINTER(Bytes)]
LIBRARY.nody_utf8_streamed_at.argtypes = [c_char_p, c_size_t, c_size_t]
LIBRARY.nody_recoder_feed.argtypes = [POINTER(Recoder), c_void_p, c_size_t, c_void_p, c_size_t, POINTER(c_size_t), POINTER(c_size_t)]
LIBRARY.nody_recoder_finish.argtypes = [POINTER(Recoder), c_void_p, c_size_t, POINTER(c_size_t)]
LIBRARY.nody_boundary_before.restype = c_size_t
LIBRARY.nody_boundary_before.argtypes = [c_uint8, c_void_p, c_size_t, c_size_t]
UNKNOWN, NONE = (c_char * 32)(*b"?"), 11


def name_of(kind):
    name = ctypes.pointer(UNKNOWN)
    LIBRARY.nody_put_kind_name(kind, byref(name))
    return name.contents.value.decode()


def listed(data, step):
    place = 0
    while (piece := step(place)).kind != NONE:
        yield place, piece.len, name_of(piece.kind) if piece.kind else chr(piece.scalar)
        place += piece.len


def pieces(data):
    """Each piece of the bytes: its offset, its length, and its character or the name of the error."""
    left = Bytes(ctypes.cast(data, c_void_p), len(data))
    return listed(data, lambda _: LIBRARY.nody_utf8_next(byref(left)))


def merged(data):
    """The pieces, with the errors that a reader of one byte at a time names."""
    return listed(data, lambda place: LIBRARY.nody_utf8_streamed_at(data, len(data), place))


if __name__ == "__main__":
    for place, length, it in pieces(sys.stdin.buffer.read()):
        print(place, length, f"{ord(it):06x}" if len(it) == 1 else it)
