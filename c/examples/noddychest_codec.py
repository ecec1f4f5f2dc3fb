"""The codec `noddychest-utf8`, also for parts of a text, as io.TextIOWrapper reads them."""
import codecs
import ctypes
from ctypes import byref, c_size_t, c_uint8

from noddychest import LIBRARY, Recoder


class IncrementalDecoder(codecs.IncrementalDecoder):
    """Decodes UTF-8 in parts; each invalid byte is one U+FFFD, whatever `errors` says."""

    def __init__(self, errors="strict"):
        super().__init__(errors)
        self.reset()

    def reset(self):
        self.recoder = Recoder(0, 0, 0)

    def getstate(self):
        return bytes(self.recoder.held[: self.recoder.count]), 0

    def setstate(self, state):
        self.recoder = Recoder(0, 0, len(state[0]), (c_uint8 * 3)(*state[0]))

    def decode(self, data, final=False):
        room = ctypes.create_string_buffer(3 * (len(data) + 3) + 9)
        read, written, last = c_size_t(), c_size_t(), c_size_t()
        LIBRARY.nody_recoder_feed(byref(self.recoder), bytes(data), len(data), room, len(room), byref(read), byref(written))
        made = room.raw[: written.value]
        if final:
            LIBRARY.nody_recoder_finish(byref(self.recoder), room, len(room), byref(last))
            made += room.raw[: last.value]
        return made.decode()


def find(name):
    if name.replace("-", "_") != "noddychest_utf8":
        return None
    whole = lambda data, errors="strict": (IncrementalDecoder().decode(data, True), len(data))  # noqa: E731
    utf8 = codecs.lookup("utf-8")
    return codecs.CodecInfo(utf8.encode, whole, incrementalencoder=utf8.incrementalencoder, incrementaldecoder=IncrementalDecoder, name="noddychest-utf8")


codecs.register(find)
