"""Keys: what they are filed under, their digests, and the check of those that were made elsewhere."""

import hashlib
import unittest
from unittest import mock

from tests.support import INTENSITY, bank_of, refusal_of
from tulonkasa import BODY_BYTES, Bank, Checked, Entry, Fault, Key, Tile, check

RIGHT = Checked(Fault.RIGHT, None)


class Keys(unittest.TestCase):
    def test_leftover_bytes(self):
        key = bank_of({0: b"\x07\x08\x09"}).key(INTENSITY)
        self.assertEqual((key.bytes, key.kept), (b"\x07\x08" + bytes(4094), 2))
        self.assertEqual(key, bank_of({0: b"\x07\x08", 4095: b"\x01"}).key(INTENSITY))
        self.assertNotEqual(key, bank_of({0: b"\x07\x07"}).key(INTENSITY))

    def test_equality_is_of_tile_lane_and_bytes(self):
        bank = Bank()
        tile = Tile(fmt=2, siz=1, mode=2, width=1, height=1)
        keys = [bank.key(tile), bank.key(tile, 1), bank.key(Tile(fmt=2, siz=1, mode=3, width=1, height=1))]
        self.assertEqual({key.bytes for key in keys}, {bytes(4096)})
        self.assertEqual(len(set(keys)), 3)
        self.assertEqual(len({key.digest for key in keys}), 3)
        self.assertEqual(hash(keys[0]), hash(Bank().key(tile)))

    def test_equality_is_not_of_digests(self):
        key, other, leftover = (bank_of(places).key(INTENSITY) for places in ({}, {0: b"\x07"}, {9: b"\x07"}))
        with mock.patch.object(Key, "digest", "the same of all"):
            self.assertEqual(key.digest, other.digest)
            self.assertNotEqual(key, other)
            self.assertEqual(key, leftover)
            self.assertEqual(len({key, other, leftover}), 2)

    def test_the_body_and_the_digest(self):
        tile = Tile(fmt=2, siz=1, mode=2, line=3, width=1, height=1)
        bank = Bank(bytes([9]) * 4096)
        key = bank.key(tile, 2)
        body = bytes([2, 1, 0, 2, 0, 0, 0, 0, 0, 3, 0, 0, 0, 1, 0, 1, 2]) + key.bytes
        self.assertEqual((key.body, len(key.body)), (body, BODY_BYTES))
        self.assertEqual(key.digest, hashlib.sha256(body).hexdigest())
        self.assertEqual(Entry.of(5, key).body, body)

    def test_a_digest_that_was_made_by_hand(self):
        # printf '\4\1\0\0\0\0\0\0\0\0\0\0\0\2\0\1' and 4,097 zeros, by sha256sum
        due = "08f32da73085a541823355eff379e031a5508f0545d19724e42d49c357c979a2"
        self.assertEqual(Bank().key(Tile(fmt=4, siz=1, width=2, height=1)).digest, due)

    def test_from_a_body(self):
        bank = Bank(bytes(range(256)) * 16)
        for tile, lane in ((INTENSITY, 0), (Tile(fmt=2, siz=1, mode=2, width=9, height=9, line=2), 3)):
            key = bank.key(tile, lane)
            self.assertEqual(Key.from_body(key.body), key)
            self.assertEqual(Key.from_body(bytearray(key.body)).kept, key.kept)

    def test_bodies_that_are_none(self):
        key = Bank(bytes([9]) * 4096).key(INTENSITY)
        with self.assertRaisesRegex(ValueError, "^the body of a key has 4,113 bytes, and these are 4,112$"):
            Key.from_body(key.body[1:])
        with self.assertRaisesRegex(ValueError, "^these bytes are no key"):
            Key.from_body(key.body[:-1] + b"\x01")
        self.assertEqual(refusal_of(Key.from_body, b"\xff" + key.body[1:]), 2)
        self.assertEqual(refusal_of(Key.from_body, key.body[:16] + b"\x04" + key.body[17:]), 3)

    def test_a_wall_at_two_widths(self):
        bank = Bank(bytes(range(256)) * 16)
        narrow, wide = (bank.key(Tile(siz=2, masks=4, line=16, width=width, height=16)) for width in (16, 64))
        self.assertEqual(narrow.bytes, wide.bytes)
        self.assertNotEqual(narrow, wide)

    def test_it_can_not_be_changed(self):
        with self.assertRaises(AttributeError):
            Bank().key(INTENSITY).kept = 5


class Tiles(unittest.TestCase):
    def test_bytes(self):
        data = bytes(range(1, 17))
        tile = Tile.from_bytes(data)
        self.assertEqual(tile.numbers, (1, 2, 3, 4, 5, 6, 7, 8, 0x090A, 0x0B0C, 0x0D0E, 0x0F10))
        self.assertEqual(bytes(tile), data)
        self.assertEqual(Tile.from_bytes(memoryview(b"\xff" * 16)).width, 65535)

    def test_other_lengths(self):
        for length in (0, 15, 17):
            with self.assertRaisesRegex(ValueError, f"^a tile has 16 bytes, and these are {length}$"):
                Tile.from_bytes(bytes(length))

    def test_numbers_that_no_byte_holds(self):
        for tile in (Tile(fmt=256), Tile(width=65536), Tile(siz=-1)):
            self.assertEqual(refusal_of(bytes, tile), 2)

    def test_all_zero(self):
        self.assertEqual(Tile(), Tile.from_bytes(bytes(16)))


class Checks(unittest.TestCase):
    def test_each_fault(self):
        bank = bank_of({0: b"\x05\x06\x07"})
        for offer, due in (
            (b"\x05\x06", RIGHT),
            (b"\x05\x00", Checked(Fault.MISSING, 1)),
            (b"\x05\x06\x07", Checked(Fault.LEFT_OVER, 2)),
            (b"\x04\x00\x07", Checked(Fault.ANOTHER_VALUE, 0)),
        ):
            self.assertEqual(bank.check_key(INTENSITY, 0, offer.ljust(4096, b"\0")), due)

    def test_words(self):
        words = ["right", *(f"the byte at address 3 {words}" for words in ("is missing", "is left over", "has another value"))]
        self.assertEqual([str(Checked(fault, 3)) for fault in Fault], words)
        self.assertEqual([bool(Checked(fault, 3)) for fault in Fault], [True, False, False, False])

    def test_an_entry(self):
        bank = bank_of({0: b"\x05\x06"})
        entry = Entry.of(3, bank.key(INTENSITY))
        self.assertEqual(check(entry, bank), RIGHT)
        bank.bytes[0] = 0
        self.assertEqual(str(check(entry, bank)), "the byte at address 0 has another value")
        self.assertEqual(refusal_of(check, Entry(b"\xff" * 4117), bank), 2)

    def test_its_own_key_is_right(self):
        bank = Bank(bytes(range(256)) * 16)
        for mode in range(4):
            tile = Tile(fmt=2, siz=1, mode=mode, line=2, width=9, height=5)
            self.assertTrue(bank.check_key(tile, mode, bank.key(tile, mode).bytes))
