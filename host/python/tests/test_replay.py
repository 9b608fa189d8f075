"""Replays: the proved program's lines, and odd records and companions."""

import io
import tempfile
import unittest
from pathlib import Path

from tests.support import INTENSITY, ROOT
from tulonkasa import KINDS, Bank, ReplayRecord, Tile, Torn, replay

REPLAY = ROOT / "crates" / "replay"
BLOCK = ReplayRecord(kind=0, tile=Tile(siz=2), image_siz=2, words=1, offset=3, length=8)
KEY = ReplayRecord(kind=3, tile=Tile(siz=2, width=4, height=1))
COMPANION = bytes(range(100, 120))


def lines(records, companion):
    """The lines of a replay as the program prints them, one for a torn tail among them."""
    made = []
    try:
        for done in replay(records, companion):
            made.append(f"{done.refused.number if done.refused else 0} {done.count}")
    except Torn as torn:
        made.append(f"{torn.number} 0")
    return made


class Program(unittest.TestCase):
    def test_its_lines(self):
        due = (REPLAY / "stdout").read_text().splitlines()
        self.assertGreater(len(due), 1000)
        self.assertEqual(lines(REPLAY / "stdin", REPLAY / "data" / "companion.bin"), due)
        self.assertEqual({line.split()[0] for line in due}, {"0", "2", "3", "4", "5", "8", "10", "11"})

    def test_the_sample(self):
        bank = Bank()
        done = list(replay(ROOT / "samples" / "replay.bin", ROOT / "samples" / "companion.bin", bank))
        loads = [one for one in done if one.record.is_load and not one.refused]
        self.assertEqual([one.load for one in loads], list(range(1, len(loads) + 1)))
        self.assertEqual(bank.written.last, len(loads))
        self.assertEqual({one.load for one in done if not one.record.is_load}, {0})
        self.assertGreater(len(done), len(loads))


class Records(unittest.TestCase):
    def test_the_bank_is_carried(self):
        bank, seen = Bank(), []
        for done in replay(bytes(BLOCK) + bytes(KEY), COMPANION, bank):
            seen.append((done.number, KINDS[done.record.kind], done.count, done.load, bank.written.last))
        self.assertEqual(seen, [(0, "block", 8, 1, 1), (1, "key", 8, 0, 1)])
        self.assertEqual(bytes(bank.bytes[:8]), COMPANION[3:11])
        self.assertEqual(bank.written.number_at(7), 1)

    def test_a_refusal_does_not_stop_it(self):
        beyond = ReplayRecord(tile=Tile(siz=2), image_siz=2, words=1, offset=13, length=8)
        unknown = ReplayRecord(kind=9)
        done = list(replay(bytes(beyond) + bytes(unknown) + bytes(BLOCK), COMPANION))
        self.assertEqual([one.refused and one.refused.number for one in done], [11, 10, None])
        self.assertEqual([(one.count, one.load) for one in done], [(0, 0), (0, 0), (8, 1)])

    def test_sources_that_are_too_long(self):
        long = ReplayRecord(tile=Tile(siz=2), image_siz=2, words=1, length=65537)
        (done,) = replay(bytes(long), bytes(70000))
        self.assertEqual(done.refused.number, 4)
        whole = ReplayRecord(tile=Tile(siz=2), image_siz=2, words=1, length=65536)
        (done,) = replay(bytes(whole), bytes(70000))
        self.assertEqual((done.refused, done.count), (None, 8))

    def test_bytes_and_fields(self):
        data = bytes(range(1, 39)) + bytes(10)
        record = ReplayRecord.from_bytes(data)
        self.assertEqual((record.kind, record.lane, record.tile), (1, 2, Tile.from_bytes(data[2:18])))
        numbers = (record.image_siz, record.dxt, record.words, record.rows, record.count, record.stride)
        self.assertEqual(numbers, (0x1314, 0x1516, 0x1718, 0x191A, 0x1B1C, 0x1D1E))
        self.assertEqual((record.offset, record.length), (0x1F202122, 0x23242526))
        self.assertEqual(bytes(record), data)
        with self.assertRaisesRegex(ValueError, "^a record of a replay has 48 bytes, and these are 47$"):
            ReplayRecord.from_bytes(data[1:])
        with self.assertRaises(OverflowError):
            bytes(ReplayRecord(words=65536))

    def test_torn_records(self):
        with self.assertRaises(Torn) as torn:
            list(replay(bytes(BLOCK) + bytes(47), COMPANION))
        self.assertEqual((torn.exception.record, torn.exception.left), (1, 47))


class Companions(unittest.TestCase):
    def test_files(self):
        with tempfile.TemporaryDirectory() as room:
            path = Path(room, "companion.bin")
            path.write_bytes(COMPANION)
            with open(path, "rb") as file:
                self.assertEqual(lines(bytes(BLOCK), path), ["0 8"])
                self.assertEqual(lines(bytes(BLOCK), file), ["0 8"])

    def test_none_and_empty(self):
        self.assertEqual(lines(bytes(BLOCK) + bytes(KEY), b""), ["11 0", "0 8"])
        with self.assertRaises(FileNotFoundError):
            lines(bytes(BLOCK), "/nothing/here.bin")

    def test_larger_than_four_gigabytes(self):
        with tempfile.TemporaryDirectory() as room:
            path = Path(room, "sparse.bin")
            with open(path, "wb") as file:
                file.seek((1 << 32) - 1 + 8)
                file.write(b"\x07")
            last = ReplayRecord(tile=Tile(siz=2), image_siz=2, words=1, offset=(1 << 32) - 1, length=9)
            bank = Bank()
            list(replay(bytes(last), path, bank))
            self.assertEqual((bank.written.last, bank.bytes[7]), (1, 0))
            last = ReplayRecord(tile=Tile(siz=2), image_siz=2, words=2, offset=(1 << 32) - 1, length=9)
            list(replay(bytes(last), path, bank))
            self.assertEqual((bank.written.last, bank.bytes[8]), (2, 7))

    def test_one_that_can_not_be_sought_in(self):
        class Pipe(io.RawIOBase):
            def read(self, length=-1):
                return b""

        with self.assertRaises(io.UnsupportedOperation):
            lines(bytes(BLOCK), Pipe())

    def test_after_a_rejected_load(self):
        bank = Bank()
        bank.reject_block(b"", INTENSITY, 1, 0, 2, 7)
        (done,) = replay(bytes(BLOCK), COMPANION, bank)
        self.assertEqual((done.load, bank.reasons[7], bank.reasons[8]), (2, 0, 7))
