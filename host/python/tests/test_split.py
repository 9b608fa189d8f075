"""Splits, and the files of entries and banks."""

import unittest

from tests.support import CAPTURE, INTENSITY, bank_of, refusal_of
from tulonkasa import Capture, Entry, Refused, Side, Tile, Torn, read_banks, read_entries, split


def entry(number, seen, leftover=0, tile=INTENSITY):
    """The entry of a picture that shows a byte, with a leftover one behind."""
    return Entry.of(number, bank_of({0: bytes([seen, seen, leftover])}).key(tile))


def sides_by_hand(entries):
    """A second splitter: groups in the order of their first entries, of which the fifth of five is held out."""
    groups = {}
    return [Side(groups.setdefault(one.body, len(groups)) % 5 == 4) for one in entries]


class Splits(unittest.TestCase):
    def test_groups_take_turns(self):
        entries = [entry(number, seen, number) for number, seen in enumerate((10, 11, 10, 12, 13, 14, 15, 14))]
        made = split(entries)
        self.assertEqual(made.sides, [Side(number in (5, 7)) for number in range(8)])
        self.assertEqual((made.tuning, made.held_out), (6, 2))
        self.assertEqual(made.sides, sides_by_hand(entries))

    def test_words(self):
        self.assertEqual([str(side) for side in Side], ["tuning", "held out"])

    def test_none(self):
        self.assertEqual((split([]).sides, split([]).tuning, split(iter([])).held_out), ([], 0, 0))

    def test_tiles_are_part_of_a_group(self):
        wall = [entry(width, 9, tile=Tile(fmt=4, siz=1, masks=1, width=width, height=1)) for width in (2, 4, 6, 8, 10)]
        self.assertEqual(len({one.key for one in wall}), 1)
        self.assertEqual(split(wall).sides[4], Side.HELD_OUT)

    def test_the_sample_capture(self):
        entries = []
        for record in Capture(CAPTURE):
            try:
                entries.append(Entry.of(record.number, record.key()))
            except Refused:
                pass
        made = split(entries)
        self.assertEqual(made.sides, sides_by_hand(entries))
        self.assertEqual((made.tuning, made.held_out), (made.sides.count(Side.TUNING), made.sides.count(Side.HELD_OUT)))
        self.assertGreater(made.held_out, 0)

    def test_the_rule_on_as_many_as_are_taken(self):
        # What docs/SCALE.md numbers itself, for more entries than these.
        entries = [Entry(bytes(4) + (number * number % 1777).to_bytes(4113, "big")) for number in range(4096)]
        self.assertEqual(split(entries).sides, sides_by_hand(entries))
        self.assertEqual(refusal_of(split, [*entries, entries[0]]), 16)

    def test_more_than_are_taken_in_batches(self):
        """As docs/SCALE.md says: one entry of each group, in batches of a multiple of five, gives the sides of one long split."""
        bodies = [Entry((number % 10000).to_bytes(4117, "big")) for number in range(12000)]
        groups = list(dict.fromkeys(bodies))
        self.assertEqual(len(groups), 10000)

        def by_batches(length):
            batches = [groups[place : place + length] for place in range(0, len(groups), length)]
            return [side for batch in batches for side in split(batch).sides]

        self.assertEqual(by_batches(4095), sides_by_hand(groups))
        self.assertNotEqual(by_batches(4096), sides_by_hand(groups))


class Entries(unittest.TestCase):
    def test_parts(self):
        one = entry(0x01020304, 9)
        self.assertEqual((one.capture, one.tile, one.lane, one.key[:3]), (0x01020304, INTENSITY, 0, b"\x09\x09\x00"))
        self.assertEqual(bytes(one)[:6], b"\x01\x02\x03\x04\x04\x01")
        self.assertEqual(one, Entry(bytes(one)))
        self.assertNotEqual(one, entry(0x01020305, 9))
        self.assertEqual(one.body, entry(7, 9, 5).body)
        data = bytearray(bytes(one))
        again = Entry(data)
        data[0] = 0
        self.assertEqual({one, again}, {one})

    def test_other_lengths(self):
        with self.assertRaisesRegex(ValueError, "^an entry has 4,117 bytes, and these are 4,116$"):
            Entry(bytes(4116))

    def test_files(self):
        entries = [entry(number, number) for number in range(3)]
        data = b"".join(map(bytes, entries))
        self.assertEqual(list(read_entries(data)), entries)
        self.assertEqual([bytes(bank)[:2] for bank in read_banks(b"\x05" * 4096 + b"\x06" * 4096)], [b"\x05\x05", b"\x06\x06"])
        with self.assertRaises(Torn) as torn:
            list(read_entries(data[:-1]))
        self.assertEqual((torn.exception.record, torn.exception.left), (2, 4116))
        with self.assertRaises(Torn):
            list(read_banks(bytes(4097)))
