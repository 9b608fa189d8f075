"""Banks: their bytes, what loads leave, and what is asked of them."""

import threading
import unittest

from tests.support import INTENSITY, bank_of, refusal_of
from tulonkasa import Bank, Loaded, Tile, Written

TEXELS = Tile(siz=2, line=1, width=4, height=2)


class Bytes(unittest.TestCase):
    def test_fresh(self):
        bank = Bank()
        self.assertEqual((bytes(bank), bytes(bank.written), bytes(bank.reasons)), (bytes(4096), bytes(8192), bytes(4096)))
        self.assertEqual(bank, Bank(bytes(4096)))

    def test_of_bytes(self):
        data = bytearray(range(256)) * 16
        bank = Bank(data)
        data[0] = 9
        self.assertEqual(bank.bytes[0], 0)
        bank.bytes[1] = 8
        self.assertEqual((data[1], bytes(bank)[1]), (1, 8))

    def test_other_lengths(self):
        for length in (0, 4095, 4097):
            with self.assertRaisesRegex(ValueError, f"^a bank has 4,096 bytes, and these are {length:,}$"):
                Bank(bytes(length))
        with self.assertRaises(TypeError):
            Bank(4096)

    def test_the_length_stays(self):
        with self.assertRaises(ValueError):
            Bank().bytes[:2] = b"123"

    def test_reasons_are_not_written_by_hand(self):
        with self.assertRaises(TypeError):
            Bank().reasons[0] = 1

    def test_copies(self):
        bank = Bank()
        bank.reject_block(b"\x01", TEXELS, 2, 0, 1, 7)
        other = bank.copy()
        self.assertEqual(other, bank)
        other.load_block(b"", TEXELS, 2, 0, 1)
        self.assertEqual((bank.written.last, bank.reasons[0], bank.bytes[0]), (1, 7, 1))
        self.assertNotEqual(other, bank)

    def test_equality_is_of_all(self):
        bank = Bank()
        bank.load_block(b"", TEXELS, 2, 0, 0)
        self.assertNotEqual(bank, Bank())
        bank = Bank()
        bank.bytes[4095] = 1
        self.assertNotEqual(bank, Bank())
        with self.assertRaises(TypeError):
            hash(bank)


class Loads(unittest.TestCase):
    def test_what_a_load_says(self):
        bank = Bank()
        self.assertEqual(bank.load_block(bytes(8), TEXELS, 2, 0, 1), Loaded(8, 0, 1))
        self.assertEqual(bank.load_block(bytes(5), TEXELS, 2, 0, 1), Loaded(8, 3, 2))
        self.assertEqual(bank.load_tile(bytes(9), TEXELS, 2, 2, 1, 8), Loaded(16, 7, 3))
        self.assertEqual(bank.load_tlut_hardware(b"\x01", TEXELS, 2, 1, 1, 0), Loaded(8, 4, 4))
        self.assertEqual(bank.load_tlut_rows(b"", TEXELS, 0, 2, 3, 0), Loaded(48, 48, 5))
        self.assertEqual(refusal_of(bank.load_tlut_hardware, b"", TEXELS, 0, 1, 1, 0), 4)
        self.assertEqual(bank.written.last, 5)

    def test_by_name(self):
        bank, other = Bank(), Bank()
        bank.load_tile(source=bytes(range(32)), tile=TEXELS, image_siz=2, rows=2, words=1, stride=9)
        other.load_tile(bytes(range(32)), TEXELS, 2, 2, 1, 9)
        self.assertEqual(bank, other)
        self.assertEqual(list(bank.bytes[8:16]), [13, 14, 15, 16, 9, 10, 11, 12])

    def test_a_refused_load_changes_nothing(self):
        bank = bank_of({0: b"\x05"})
        before = bank.copy()
        self.assertEqual(refusal_of(bank.load_block, bytes(65537), TEXELS, 2, 0, 1), 4)
        self.assertEqual(refusal_of(bank.reject_block, b"", TEXELS, 2, 0, 1, 256), 19)
        self.assertEqual(bank, before)

    def test_which_load_wrote_it(self):
        bank = Bank()
        bank.load_block(b"", TEXELS, 2, 0, 2)
        bank.load_block(b"", Tile(siz=2, tmem_addr=1), 2, 0, 1)
        written = bank.written
        self.assertEqual([written.number_at(address) for address in (0, 7, 8, 15, 16, 4095, 4096, -1)], [1, 1, 2, 2, 0, 0, 0, 0])
        self.assertEqual(list(written.addresses()), list(range(16)))
        self.assertEqual((written.is_written(15), written.is_written(16)), (True, False))
        self.assertEqual(list(written.numbers_of([15, 0, 16, 9999, -1])), [2, 1, 0, 0, 0])
        self.assertEqual(bytes(written)[:18], bytes([0, 1] * 8 + [0, 2]))
        self.assertEqual(list(written.numbers_of(bank.picture_observed(TEXELS).trail)), [1] * 8 + [2] * 8)

    def test_addresses_at_the_ends(self):
        bank = Bank()
        bank.load_block(b"", Tile(siz=2, tmem_addr=511), 2, 0, 1)
        self.assertEqual(list(bank.written.addresses()), list(range(4088, 4096)))
        self.assertEqual(list(bank.written.numbers_of([4095, -1, 4096, 0])), [1, 0, 0, 0])
        self.assertEqual((bank.written.number_at(4095), bank.written.number_at(-1)), (1, 0))

    def test_numbers_of_two_bytes(self):
        bank = Bank()
        for _ in range(0x1234):
            bank.load_block(b"", TEXELS, 2, 0, 1)
        self.assertEqual((bank.written.number_at(0), bank.written.last), (0x1234, 0x1234))

    def test_a_record_of_its_own(self):
        bank = Bank()
        before = bank.written.copy()
        bank.load_block(b"", TEXELS, 2, 0, 1)
        self.assertEqual(before, Written())
        self.assertNotEqual(bank.written, before)

    def test_rejected_loads(self):
        bank = Bank()
        bank.load_tile(b"", TEXELS, 2, 2, 1, 0)
        self.assertIsNone(bank.rejection(TEXELS))
        self.assertEqual(bank.reject_tile(b"", Tile(siz=2, line=1, tmem_addr=1), 2, 1, 1, 0, 7).number, 2)
        self.assertEqual((bank.rejection(TEXELS), bank.reasons[7], bank.reasons[8]), (7, 0, 7))
        self.assertIsNone(bank.rejection(Tile(siz=2, line=1, width=4, height=1)))
        bank.reject_tlut_hardware(b"", Tile(tmem_addr=256), 2, 1, 1, 0, 255)
        bank.reject_tlut_rows(b"", Tile(tmem_addr=257), 2, 1, 1, 0, 254)
        self.assertEqual([bank.reasons[address] for address in (2047, 2048, 2056, 2064)], [0, 255, 254, 0])
        bank.load_block(b"", TEXELS, 2, 0, 2)
        self.assertIsNone(bank.rejection(TEXELS))


class Asked(unittest.TestCase):
    def test_reach(self):
        self.assertEqual(list(Tile(fmt=4, siz=1, tmem_addr=2, width=3, height=1).reach()), [16, 17, 18])
        reach = TEXELS.reach()
        self.assertEqual((len(reach), 15 in reach, 16 in reach, "15" in reach), (16, True, False, False))
        self.assertEqual(bytes(reach), b"\xff\xff" + bytes(510))
        self.assertEqual(reach & {3, 99}, {3})
        self.assertEqual(hash(reach), hash(TEXELS.reach()))
        self.assertEqual(refusal_of(Tile(mode=4).reach), 3)

    def test_has_load(self):
        bank = Bank()
        self.assertFalse(bank.has_load(TEXELS))
        bank.load_block(b"", Tile(siz=2, tmem_addr=2), 2, 0, 1)
        self.assertFalse(bank.has_load(TEXELS))
        bank.load_block(b"", Tile(siz=2, tmem_addr=1), 2, 0, 1)
        self.assertTrue(bank.has_load(TEXELS))
        self.assertEqual(refusal_of(bank.has_load, Tile(siz=4)), 2)

    def test_palette_nonreplicated(self):
        bank = bank_of({2048: b"\x01\x02" * 4, 2056: b"\x01\x02" * 3 + b"\x01\x03", 4088: b"\x01"})
        self.assertEqual(list(bank.palette_nonreplicated()), [1, 255])

    def test_sampling(self):
        sampling = Tile(width=16, height=1, masks=5).sampling()
        self.assertEqual((sampling.lookup, sampling.width, sampling.height), (True, 4096, 4))
        sampling = Tile(height=7).sampling()
        self.assertEqual((sampling.lookup, sampling.width, sampling.height), (False, 1, 7))


class Pictures(unittest.TestCase):
    def test_the_one_that_is_called_for(self):
        bank = Bank(bytes(range(256)) * 16)
        plain, lookup = Tile(fmt=4, siz=1, width=16, height=2), Tile(fmt=4, siz=1, width=16, height=2, masks=5)
        self.assertEqual(bank.sample(plain), bank.picture(plain))
        self.assertEqual(bank.sample(lookup), bank.lookup(lookup))
        self.assertEqual((bank.lookup(plain).width, bank.lookup(plain).height), (4096, 4))
        self.assertEqual(bank.picture(lookup).bytes, bank.picture(plain).bytes)
        self.assertEqual(bank.sample_observed(plain), bank.picture_observed(plain))
        self.assertEqual(bank.sample_observed(lookup), bank.lookup_observed(lookup))
        self.assertNotEqual(bank.sample(lookup), bank.picture(lookup))

    def test_rows_of_a_lookup(self):
        bank = bank_of({0: bytes(range(8))})
        view = bank.lookup(Tile(fmt=4, siz=0)).view()
        self.assertEqual([view[row, 3, 0] for row in range(4)], [0, 0x33, 0, 0x77])

    def test_observed(self):
        bank = bank_of({2048: b"\x12\x34"})
        observed = bank.picture_observed(Tile(siz=3, width=1, height=1))
        self.assertEqual((observed.picture.bytes, list(observed.trail)), (b"\0\0\x12\x34", [0, 1, 2048, 2049]))
        observed = bank.lookup_observed(INTENSITY)
        self.assertEqual((len(observed.trail), list(observed.trail[4093:4098])), (16384, [4093, 4094, 4095, 0, 1]))

    def test_lanes(self):
        bank = bank_of({2048: b"\x00\x01\xf8\x01\x07\xc1\x00\x3f"})
        tile = Tile(fmt=2, siz=1, mode=2, width=1, height=1)
        made = [bank.picture(tile, lane).bytes.hex() for lane in range(4)]
        self.assertEqual(made, ["000000ff", "ff0000ff", "00ff00ff", "0000ffff"])

    def test_a_source_alone(self):
        source = bytes(range(200, 232))
        for fmt, siz in ((0, 2), (0, 3), (2, 0), (2, 1), (2, 2), (3, 0), (3, 1), (3, 2), (4, 0), (4, 1)):
            with self.subTest((fmt, siz)):
                tile = Tile(fmt=fmt, siz=siz, palette=3, line=1, width=2, height=4)
                bank = Bank(bytes([7]) * 4096)
                bank.load_tile(source, tile, siz, 4, 1, 8)
                self.assertEqual(tile.decode_linear(source, 8), bank.picture(tile))
        self.assertEqual(refusal_of(Tile(fmt=2, siz=3, width=1, height=1).decode_linear, b"", 0), 5)
        self.assertEqual(refusal_of(Tile(siz=2, width=4097, height=1).decode_linear, b"", 0), 2)
        self.assertEqual(refusal_of(Tile(siz=2, width=1, height=1).decode_linear, b"", 65536), 4)

    def test_threads_share_a_bank(self):
        bank, tile = Bank(bytes(range(256)) * 16), Tile(siz=2, line=16, width=64, height=64)
        due, made = bank.picture(tile), []
        threads = [threading.Thread(target=lambda: made.extend(bank.picture(tile) for _ in range(20))) for _ in range(4)]
        for thread in threads:
            thread.start()
        for thread in threads:
            thread.join()
        self.assertEqual(made, [due] * 80)
