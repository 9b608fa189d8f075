"""Captures out of files, pipes and standard input, and odd ones; the lines of the proved lister."""

import gc
import io
import os
import subprocess
import sys
import tempfile
import threading
import unittest
import warnings
from pathlib import Path

from tests.support import CAPTURE, INTENSITY, ROOT, listed
from tulonkasa import BANK_BYTES, CAPTURE_BYTES, Bank, Capture, Torn

LISTER = ROOT / "crates" / "lister"
RECORD = bytes(INTENSITY) + bytes(range(256)) * 16


def taken(source):
    """The lines of a source as the lister prints them, one for a torn tail among them."""
    lines = []
    try:
        for record in Capture(source):
            lines.append(listed(record))
    except Torn as torn:
        lines.append(f"{torn.number} 0 0 0")
    return lines


class Dripping(io.RawIOBase):
    """A file that gives a few bytes at a time, as a slow pipe does."""

    def __init__(self, data):
        self.data = io.BytesIO(data)

    def readable(self):
        return True

    def readinto(self, buffer):
        data = self.data.read(min(len(buffer), 1000))
        buffer[: len(data)] = data
        return len(data)


class Lister(unittest.TestCase):
    def test_its_lines(self):
        due = (LISTER / "stdout").read_text().splitlines()
        self.assertGreater(len(due), 40)
        self.assertEqual(taken(LISTER / "stdin"), due)
        self.assertIn("8 0 0 0", due)

    def test_the_sample_capture(self):
        lines = taken(CAPTURE)
        self.assertEqual(len(lines), CAPTURE.stat().st_size // CAPTURE_BYTES)
        self.assertEqual({line.split()[0] for line in lines} - {"0", "2", "5"}, set())
        self.assertTrue(any(line.startswith("0 1 ") for line in lines))


class Sources(unittest.TestCase):
    due = [listed(record) for record in Capture(RECORD * 5)]

    def test_paths_and_files(self):
        with tempfile.TemporaryDirectory() as room:
            path = Path(room, "five.bin")
            path.write_bytes(RECORD * 5)
            self.assertEqual(taken(path), self.due)
            self.assertEqual(taken(str(path)), self.due)
            capture = Capture(path)
            self.assertEqual([record.number for _ in range(2) for record in capture], [0, 1, 2, 3, 4] * 2)
            with open(path, "rb") as file:
                self.assertEqual(taken(file), self.due)
                self.assertFalse(file.closed)
            with open(path, "rb", buffering=0) as file:
                self.assertEqual(taken(file), self.due)

    def test_a_path_is_closed_again(self):
        with warnings.catch_warnings(record=True) as said:
            warnings.simplefilter("always", ResourceWarning)
            self.assertEqual(len(list(Capture(CAPTURE))), CAPTURE.stat().st_size // CAPTURE_BYTES)
            next(iter(Capture(CAPTURE)))
            gc.collect()
        self.assertEqual([str(one.message) for one in said], [])

    def test_bytes(self):
        for source in (RECORD * 5, bytearray(RECORD * 5), memoryview(RECORD * 5), io.BytesIO(RECORD * 5)):
            self.assertEqual(taken(source), self.due)

    def test_a_slow_pipe(self):
        self.assertEqual(taken(Dripping(RECORD * 5)), self.due)
        with self.assertRaises(Torn) as torn:
            list(Capture(Dripping(RECORD * 5 + RECORD[:1234])))
        self.assertEqual((torn.exception.record, torn.exception.left), (5, 1234))

    def test_a_pipe(self):
        reading, writing = os.pipe()

        def write():
            with open(writing, "wb", buffering=0) as file:
                for place in range(0, 5 * CAPTURE_BYTES, 700):
                    file.write((RECORD * 5)[place : place + 700])

        thread = threading.Thread(target=write)
        thread.start()
        with open(reading, "rb", buffering=0) as file:
            self.assertEqual(taken(file), self.due)
        thread.join()

    def test_standard_input(self):
        program = "from tulonkasa import Capture\nprint([record.number for record in Capture('-')], Capture('-').name)"
        package = ROOT / "host" / "python"
        done = subprocess.run(
            [sys.executable, "-c", program], input=RECORD * 3, cwd=package, stdout=subprocess.PIPE, check=True
        )
        self.assertEqual(done.stdout, b"[0, 1, 2] standard input\n")

    def test_one_at_a_time(self):
        class Endless(io.RawIOBase):
            given = 0

            def read(self, length=-1):
                self.given += 1
                return RECORD

        endless = Endless()
        records = iter(Capture(endless))
        for number in range(3):
            self.assertEqual(next(records).number, number)
        self.assertEqual(endless.given, 3)


class Records(unittest.TestCase):
    def test_a_record(self):
        (record,) = Capture(RECORD)
        self.assertEqual((record.number, record.tile, record.lane), (0, INTENSITY, 0))
        self.assertEqual(record.bank, Bank(RECORD[16:]))
        self.assertEqual(record.key(), record.bank.key(INTENSITY))
        self.assertEqual(record.sample(), record.bank.sample(INTENSITY))

    def test_any_tile_is_given(self):
        (record,) = Capture(b"\xff" * 16 + bytes(BANK_BYTES))
        self.assertEqual((record.tile.fmt, record.tile.width), (255, 65535))


class Odd(unittest.TestCase):
    def test_empty(self):
        self.assertEqual(list(Capture(b"")), [])

    def test_torn_tails(self):
        for left in (1, 16, 4111):
            with tempfile.TemporaryDirectory() as room:
                path = Path(room, "torn.bin")
                path.write_bytes(RECORD * 2 + RECORD[:left])
                records, numbers = Capture(path), []
                with self.assertRaises(Torn) as torn:
                    numbers.extend(record.number for record in records)
                self.assertEqual((torn.exception.number, torn.exception.record, torn.exception.left), (8, 2, left))
                sentence = f"refusal 8: {path} ends inside record 2: {left:,} of its 4,112 bytes are there"
                self.assertEqual(str(torn.exception), sentence)

    def test_whole_records_come_before_a_torn_one(self):
        numbers = []
        with self.assertRaisesRegex(Torn, "^refusal 8: the input ends inside record 2: 9 of its 4,112 bytes are there$"):
            for record in Capture(RECORD * 2 + RECORD[:9]):
                numbers.append(record.number)
        self.assertEqual(numbers, [0, 1])

    def test_no_file(self):
        with self.assertRaises(FileNotFoundError):
            list(Capture("/nothing/here.bin"))
        with self.assertRaises(IsADirectoryError):
            list(Capture(ROOT))

    def test_a_pipe_that_does_not_wait(self):
        reading, writing = os.pipe()
        self.addCleanup(os.close, writing)
        os.set_blocking(reading, False)
        os.write(writing, RECORD + RECORD[:9])
        with open(reading, "rb", buffering=0) as file:
            records = iter(Capture(file))
            self.assertEqual(next(records).number, 0)
            with self.assertRaises(BlockingIOError):
                next(records)

    def test_what_is_no_source(self):
        with self.assertRaisesRegex(TypeError, "^the file gives text; open it in binary mode$"):
            list(Capture(io.StringIO("text")))
        with self.assertRaises(TypeError):
            list(Capture(5))
