"""Pictures as files, and without a copy."""

import ctypes
import struct
import unittest
import zlib

from tests.support import refusal_of
from tulonkasa import Bank, Picture, Tile

TWO = Picture(2, 1, bytes([255, 0, 0, 255, 0, 0, 255, 128]))
HEADER = b"P7\nWIDTH 2\nHEIGHT 1\nDEPTH 4\nMAXVAL 255\nTUPLTYPE RGB_ALPHA\nENDHDR\n"


def unfiltered(kind, row, above):
    """A row of a PNG file before its filter; four bytes a texel."""
    row = bytearray(row)
    for place in range(len(row)):
        left, up = row[place - 4] if place >= 4 else 0, above[place]
        corner = above[place - 4] if place >= 4 else 0
        nearest = min((left, up, corner), key=lambda near: abs(left + up - corner - near))
        row[place] = (row[place] + (0, left, up, (left + up) // 2, nearest)[kind]) % 256
    return row


def read_png(file):
    """A second reader, of PNG files with eight bits each of red, green, blue and alpha."""
    assert file[:8] == b"\x89PNG\r\n\x1a\n"
    place, chunks = 8, []
    while place < len(file):
        (length,) = struct.unpack_from(">I", file, place)
        kind, data = file[place + 4 : place + 8], file[place + 8 : place + 8 + length]
        assert struct.unpack_from(">I", file, place + 8 + length)[0] == zlib.crc32(kind + data)
        chunks.append((kind, data))
        place += 12 + length
    assert (chunks[0][0], chunks[-1]) == (b"IHDR", (b"IEND", b""))
    width, height, depth, colour, *rest = struct.unpack(">2I5B", chunks[0][1])
    assert (depth, colour, rest) == (8, 6, [0, 0, 0])
    rows = zlib.decompress(b"".join(data for kind, data in chunks if kind == b"IDAT"))
    assert len(rows) == height * (1 + 4 * width)
    texels, above = b"", bytes(4 * width)
    for start in range(0, len(rows), 1 + 4 * width):
        above = unfiltered(rows[start], rows[start + 1 : start + 1 + 4 * width], above)
        texels += above
    return Picture(width, height, bytes(texels))


def noise(width, height):
    """A picture of many values."""
    return Picture(width, height, bytes(7 * place % 251 for place in range(4 * width * height)))


class Files(unittest.TestCase):
    def test_png(self):
        for picture in (TWO, noise(1, 1), noise(3, 5), noise(97, 31), noise(4096, 2), noise(1, 4096)):
            self.assertEqual(read_png(picture.to_png()), picture)

    def test_png_of_a_bank(self):
        bank = Bank(bytes(range(256)) * 16)
        for tile in (Tile(siz=2, line=8, width=32, height=32), Tile(fmt=4, siz=1, width=4, height=1, masks=5)):
            self.assertEqual(read_png(bank.sample(tile).to_png()), bank.sample(tile))

    def test_pam(self):
        self.assertEqual(TWO.to_pam(), HEADER + TWO.bytes)
        for picture in (TWO, noise(1, 1), noise(97, 31), noise(4096, 2), noise(1, 4096)):
            self.assertEqual(Picture.from_pam(picture.to_pam()), picture)

    def test_pam_of_others(self):
        file = b"P7\n# one texel\nTUPLTYPE RGB_ALPHA\nDEPTH 4\nMAXVAL 255\nHEIGHT  1\nWIDTH  1\nENDHDR\nRGBA, and more"
        self.assertEqual(Picture.from_pam(bytearray(file)), Picture(1, 1, b"RGBA"))
        self.assertEqual(refusal_of(Picture.from_pam, b""), 13)
        self.assertEqual(refusal_of(Picture.from_pam, HEADER + TWO.bytes[:-1]), 15)
        self.assertEqual(refusal_of(Picture.from_pam, HEADER.replace(b"WIDTH 2", b"WIDTH 4097")), 2)
        self.assertEqual(refusal_of(Picture.from_pam, HEADER.replace(b"RGB_ALPHA", b"RGB") + TWO.bytes), 14)

    def test_sides_that_no_file_has(self):
        for picture in (Picture(0, 1, b""), Picture(1, 0, b""), Picture(0, 0, b"")):
            self.assertEqual((refusal_of(picture.to_png), refusal_of(picture.to_pam)), (12, 12))
        self.assertEqual(refusal_of(noise(4097, 1).to_pam), 2)
        self.assertEqual(read_png(noise(4097, 1).to_png()), noise(4097, 1))


class Shapes(unittest.TestCase):
    def test_a_length_that_fits(self):
        for width, height, length in ((1, 1, 3), (1, 1, 5), (-1, -1, 4), (0, 5, 4)):
            with self.assertRaisesRegex(ValueError, f"^a picture of {width} by {height} has not {length} bytes$"):
                Picture(width, height, bytes(length))

    def test_it_can_not_be_changed(self):
        texels = bytearray(4)
        picture = Picture(1, 1, texels)
        texels[0] = 9
        self.assertEqual((picture.bytes, hash(picture)), (bytes(4), hash(Picture(1, 1, bytes(4)))))
        with self.assertRaises(AttributeError):
            picture.width = 2
        with self.assertRaises(TypeError):
            Picture(1, 1, 4)

    def test_a_view(self):
        picture = noise(3, 2)
        view = picture.view()
        self.assertEqual((view.shape, view.readonly, view.nbytes, view.format), ((2, 3, 4), True, 24, "B"))
        self.assertEqual(view[1, 2, 3], picture.bytes[-1])
        self.assertEqual(view[0, 1, 2], picture.bytes[6])
        self.assertIs(view.obj, picture.bytes)
        with self.assertRaisesRegex(ValueError, "^a picture of 0 by 2 has no view$"):
            Picture(0, 2, b"").view()

    def test_as_numpy_takes_it(self):
        picture = noise(3, 2)
        told = picture.__array_interface__
        self.assertEqual((told["version"], told["shape"], told["typestr"]), (3, (2, 3, 4), "|u1"))
        self.assertIs(told["data"], picture.bytes)
        self.assertNotIn("strides", told)
        self.assertEqual(Picture(0, 2, b"").__array_interface__["shape"], (2, 0, 4))

    def test_numpy_itself(self):
        try:
            import numpy
        except ImportError:
            self.skipTest("numpy is not installed")
        picture = noise(3, 2)
        array = numpy.asarray(picture)
        self.assertEqual((array.shape, array.dtype.str, array.flags.writeable), ((2, 3, 4), "|u1", False))
        self.assertEqual(array.ctypes.data, ctypes.cast(ctypes.c_char_p(picture.bytes), ctypes.c_void_p).value)
        self.assertEqual(array.tobytes(), picture.bytes)

    def test_equality(self):
        self.assertEqual(len({noise(2, 3), noise(2, 3), noise(3, 2)}), 2)
        self.assertNotEqual(Picture(2, 1, bytes(8)), Picture(1, 2, bytes(8)))
        self.assertEqual(bytes(TWO), TWO.bytes)
