"""The worked examples P1 to P12, through calls."""

import unittest

from tests.support import bank_of, refusal_of
from tulonkasa import Bank, Tile


class Worked(unittest.TestCase):
    def texels(self, places, lane=0, **fields):
        """The texels of a picture one row high."""
        picture = bank_of(places).picture(Tile(height=1, **fields), lane)
        return [tuple(picture.bytes[place : place + 4]) for place in range(0, len(picture.bytes), 4)]

    def test_p1_p2_entries_of_sixteen_bits(self):
        due = [(255, 0, 0, 255), (132, 132, 132, 0)]
        self.assertEqual(self.texels({0: b"\xf8\x01\x84\x20"}, siz=2, width=2), due)
        palette = {0: b"\x00\x01", 2048: b"\xf8\x01", 2056: b"\x84\x20"}
        self.assertEqual(self.texels(palette, fmt=2, siz=1, mode=2, width=2), due)

    def test_p3_ia4(self):
        due = [(36, 36, 36, 0), (146, 146, 146, 255), (255, 255, 255, 255)]
        self.assertEqual(self.texels({0: b"\x29\xf0"}, fmt=3, siz=0, width=3), due)

    def test_p4_ia8(self):
        self.assertEqual(self.texels({0: b"\x5a"}, fmt=3, siz=1, width=1), [(85, 85, 85, 170)])

    def test_p5_odd_rows_of_a_block(self):
        bank = Bank()
        self.assertEqual(bank.load_block(bytes(range(16)), Tile(siz=2), 2, 2048, 2).count, 16)
        self.assertEqual(list(bank.bytes[:16]), [*range(8), 12, 13, 14, 15, 8, 9, 10, 11])

    def test_p6_a_block_in_both_halves(self):
        bank = Bank()
        bank.load_block(bytes(range(8)), Tile(siz=3), 3, 0, 1)
        self.assertEqual(bytes(bank), bytes(bank_of({0: bytes([0, 1, 4, 5]), 2048: bytes([2, 3, 6, 7])})))

    def test_p7_the_upper_half(self):
        bank = Bank()
        bank.load_block(bytes(range(16)), Tile(tmem_addr=255), 2, 0, 2)
        self.assertEqual(bytes(bank), bytes(bank_of({0: bytes([8, 9]), 2040: bytes([0, 1, *range(10, 16)])})))

    def test_p8_a_palette(self):
        bank = Bank()
        bank.load_tlut_hardware(b"\xab\xcd", Tile(tmem_addr=256), 2, 1, 1, 0)
        self.assertEqual(bytes(bank), bytes(bank_of({2048: b"\xab\xcd" * 4})))

    def test_p9_p10_the_flag(self):
        def lookup(**fields):
            return Tile(**fields).sampling().lookup

        self.assertFalse(lookup(masks=4, width=16))
        self.assertTrue(lookup(masks=5, width=16))
        self.assertFalse(lookup(masks=5, width=16, cms=2))
        self.assertFalse(lookup(fmt=4, siz=1, height=256, line=1))
        self.assertTrue(lookup(fmt=4, siz=1, height=257, line=1))
        self.assertFalse(lookup(fmt=4, siz=1, height=257, line=2))

    def test_p11_what_a_key_keeps(self):
        key = Bank(b"\xff" * 4096).key(Tile(fmt=4, line=1, width=1, height=2))
        self.assertEqual((key.kept, key.bytes), (2, bytes(bank_of({0: b"\xff", 12: b"\xff"}))))

    def test_p12_what_a_key_keeps_of_a_palette(self):
        tile = Tile(fmt=2, siz=1, mode=2, width=1, height=1)
        bank = Bank(b"\xff" * 4096)
        bank.bytes[0] = 3
        self.assertEqual(bank.key(tile).bytes, bytes(bank_of({0: b"\x03", 2072: b"\xff\xff"})))
        self.assertEqual(list(bank.picture_observed(tile).trail), [0, 2072, 2073])
        self.assertEqual(list(bank.picture_observed(tile, 3).trail), [0, 2078, 2079])

    def test_those_that_are_run(self):
        bank = Bank()
        self.assertEqual(refusal_of(bank.picture, Tile(siz=2, width=4096, height=1)), 0)
        self.assertEqual(refusal_of(bank.picture, Tile(siz=2, width=4097, height=1)), 2)
        self.assertEqual(refusal_of(bank.load_tlut_rows, b"", Tile(), 0, 1, 0, 0), 4)
        self.assertEqual(refusal_of(bank.key, Tile(fmt=1, siz=2, width=1, height=1)), 5)
        self.assertEqual(refusal_of(bank.key, Tile(fmt=1, siz=2, width=1, height=1, mode=2)), 0)
        self.assertEqual(bank.picture(Tile(siz=2, height=5)).bytes, b"")
        self.assertEqual(bank.key(Tile(siz=2, height=5)).kept, 0)
