"""Any bytes-like object, at its real size and without copying; and nothing else."""
import array
import ctypes
import mmap
import tempfile
import unittest

import noddychest
from noddychest import (Decoder, Ends, Recoder, Surveyor, boundary_before, changed_range, char_count, decode, encoding_of_bom, faults, first_fault, is_valid,
                        number_of, offset_of, pieces, recode, recoded_len, undecided_len)

CALLS = [
    pieces,
    lambda data: list(pieces(data)),
    Ends,
    first_fault,
    is_valid,
    char_count,
    lambda data: boundary_before(data, 1),
    lambda data: offset_of(data, 1),
    lambda data: number_of(data, 1),
    lambda data: changed_range(data, 0, 1),
    undecided_len,
    lambda data: undecided_len(data, "utf16be"),
    encoding_of_bom,
    Surveyor().feed,
    lambda data: faults(data, "utf16le"),
    lambda data: pieces(data, "utf16be"),
    lambda data: Ends(data, "utf16be"),
    lambda data: recoded_len(data, "utf8", "utf16be"),
    lambda data: recode(data, "utf8", "utf8", "lossy"),
    lambda data: recode(data, "utf8", "utf8", "windows-1252"),
    lambda data: recode(data, "utf8", "utf16be", chr),
    decode,
    lambda data: recode(data, "utf8", "utf16le"),
    lambda data: recode(data, "utf16le", "utf8", "strict"),
    Recoder("utf8", "utf8").feed,
    Recoder("utf8", "utf8", "strict").feed,
    Decoder().feed,
    Decoder("utf16le").feed_faults,
]


class BytesLike(unittest.TestCase):
    def test_each_is_taken(self):
        data = "Größe: 4 €".encode() + b"\xff"
        with tempfile.TemporaryFile() as file:
            file.write(data)
            file.flush()
            mapped = mmap.mmap(file.fileno(), len(data), access=mmap.ACCESS_READ)
            forms = [bytearray(data), memoryview(data), memoryview(bytearray(data)).toreadonly(), array.array("B", data),
                     array.array("b", data), (ctypes.c_char * len(data)).from_buffer_copy(data), mapped, memoryview(b"_" + data)[1:]]
            for it in forms:
                with self.subTest(type=type(it)):
                    self.assertEqual(list(pieces(it)), list(pieces(data)))
                    self.assertEqual(list(pieces(it)[2:5]), list(pieces(data)[2:5]))
                    self.assertEqual([*Ends(it)], [*Ends(data)])
                    self.assertEqual(first_fault(it), first_fault(data))
                    self.assertEqual((is_valid(it), char_count(it), boundary_before(it, 12)), (False, 11, 11))
                    self.assertEqual((undecided_len(it), undecided_len(it, "utf16le"), encoding_of_bom(it)), (0, 1, None))
                    self.assertEqual((offset_of(it, 4), number_of(it, 4), changed_range(it, 7, 8)), (6, 3, (4, 11)))
                    self.assertEqual(recode(it, "utf8", "utf16be"), recode(data, "utf8", "utf16be"))
                    self.assertEqual(Recoder("utf8", "utf8").feed(it), Recoder("utf8", "utf8").feed(data))
                    self.assertEqual(decode(it, errors="latin-1"), "Größe: 4 €ÿ")
                    self.assertRaises(noddychest.FaultError, recode, it, "utf8", "utf16be", "strict")
            mapped.close()

    def test_wider_items_count_in_bytes(self):
        for code in "HILQd":
            wide = array.array(code, b"abcdefgh" * 4)
            for it in (wide, memoryview(wide), memoryview(bytes(wide)).cast(code), memoryview(bytes(32)).cast("B", (4, 8))):
                self.assertEqual("".join(piece.char for piece in pieces(it)), bytes(it).decode())
                self.assertEqual((len(pieces(it)), char_count(it), boundary_before(it, 99)), (32, 32, 32))
                self.assertEqual(recode(it, "utf8", "utf8"), bytes(it))
            wide = array.array(code, b"\xff\xfe" + bytes(28) + b"\xe2\x82")
            self.assertEqual((undecided_len(wide), encoding_of_bom(wide)), (2, ("utf-16-le", 2)))

    def test_empty_ones(self):
        for it in (b"", bytearray(), memoryview(b""), array.array("I"), memoryview(array.array("Q"))):
            asked = (list(pieces(it)), first_fault(it), is_valid(it), char_count(it), boundary_before(it, 0))
            self.assertEqual(asked, ([], None, True, 0, 0))
            self.assertEqual([recode(it, a, b) for a in ("utf8", "utf16le") for b in ("utf8", "utf16be")], [b""] * 4)
            self.assertEqual([*Ends(it), *reversed(Ends(it))], [])
            self.assertEqual([undecided_len(it), undecided_len(it, "utf16be"), encoding_of_bom(it)], [0, 0, None])
            self.assertEqual([offset_of(it, 0), number_of(it, 0), changed_range(it, 0, 0)], [None, 0, (0, 0)])
            self.assertEqual(bytes(it).decode("noddychest-utf8"), "")

    def test_others_are_type_errors(self):
        for it in ("text", "", 5, None, [97], {97}, object()):
            for call in CALLS:
                with self.subTest(it=it), self.assertRaisesRegex(TypeError, "bytes-like object"):
                    call(it)
        with self.assertRaisesRegex(TypeError, "encode the text first"):
            pieces("é")

    def test_scattered_bytes_are_refused(self):
        for it in (memoryview(b"abcdef")[::2], memoryview(b"abcdef")[::-1]):
            for call in CALLS:
                with self.assertRaisesRegex(BufferError, "contiguous"):
                    call(it)

    def test_offsets(self):
        self.assertRaises(IndexError, boundary_before, b"abc", -1)
        self.assertRaises(TypeError, boundary_before, b"abc", 1.5)
        for at in (3, 4, 2**31, 2**32, 2**40, 2**63 - 1, 2**63, 2**64, 10**30):
            self.assertEqual(boundary_before(b"abc", at), 3)
            self.assertEqual(boundary_before("é".encode(), at), 2)
            self.assertEqual(boundary_before(b"", at), 0)
        for at in (-1, -(2**31), -(2**63), -(2**63) - 1, -(10**30)):
            self.assertRaises(IndexError, boundary_before, b"abc", at)
        self.assertRaises(TypeError, boundary_before, b"abc", "1")
        self.assertRaises(TypeError, boundary_before, b"abc", None)
        self.assertEqual(boundary_before("é".encode(), True), 0)


class Lifetime(unittest.TestCase):
    def test_bytes_cannot_go_away(self):
        data = bytearray(b"abc" * 100)
        cut = pieces(data)
        with self.assertRaises(BufferError):
            data.extend(b"more")
        run = iter(cut)
        del cut
        with self.assertRaises(BufferError):
            data.clear()
        self.assertEqual(next(run).char, "a")
        del run
        data.clear()

    def test_temporary_bytes_live_on(self):
        cut = pieces(bytes(bytearray(b"xyz" * 1000)))
        others = [bytes([at % 256]) * 3000 for at in range(200)]
        self.assertEqual("".join(piece.char for piece in cut), "xyz" * 1000)
        del others

    def test_changed_bytes_do_no_harm(self):
        data = bytearray(b"a" * 1000)
        cut, run = pieces(data), iter(pieces(data))
        self.assertEqual((len(cut), next(run).char), (1000, "a"))
        data[:] = "😀".encode() * 250
        with self.assertRaisesRegex(RuntimeError, "changed"):
            cut[999]
        self.assertLess(len(list(run)), 1000)

    def test_changed_bytes_are_in_one_piece(self):
        """Also if the offset that a backward reader has reached comes to be inside a character."""
        for char in "\U0010ffff€é":
            data, code = bytearray(b"a" * len(char.encode())), char.encode()
            for taken in range(1, len(code)):
                data[:] = b"a" * len(code)
                run = reversed(pieces(data))
                ends = [next(run).offset for _ in range(taken)]
                data[:] = code
                for it in run:
                    self.assertEqual(it.offset + it.length, ends[-1])
                    ends.append(it.offset)
                self.assertEqual(ends[-1], 0)


if __name__ == "__main__":
    unittest.main()
