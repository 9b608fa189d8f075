"""Refusals, with their numbers and words."""

import itertools
import pickle
import re
import unittest

from tests.support import INTENSITY, ROOT, plain_header, refusal_of
from tulonkasa import WORDS, Bank, Entry, Picture, Refused, Tile, Torn, exports, split
from tulonkasa.refusal import refuse


class Words(unittest.TestCase):
    def test_numbers_are_those_of_the_header(self):
        numbers = {int(number) for number in re.findall(r"\bTK_REFUSED_\w+ = (\d+)", plain_header())}
        self.assertGreaterEqual(len(numbers), 18)
        self.assertEqual(set(WORDS), numbers)

    def test_words_are_those_of_rust(self):
        text = (ROOT / "host" / "rust" / "src" / "refusal.rs").read_text()
        numbers = {name: int(number) for number, name in re.findall(r"(\d+) => Self::(\w+),", text)}
        words = {numbers[name]: words for name, words in re.findall(r'Self::(\w+) => "(.*)",', text)}
        self.assertEqual(dict(WORDS), words)

    def test_a_refusal(self):
        with self.assertRaises(Refused) as caught:
            Bank().picture(Tile(siz=2, width=5000, height=1))
        self.assertEqual(caught.exception.number, 2)
        self.assertEqual(caught.exception.words, WORDS[2])
        self.assertEqual(str(caught.exception), "refusal 2: a field of the tile is out of range, or a side of the picture")
        self.assertIsInstance(caught.exception, ValueError)

    def test_other_numbers(self):
        self.assertIsNone(refuse(0))
        with self.assertRaisesRegex(Refused, "^refusal 9: a refusal without a name$"):
            refuse(9)

    def test_pickled(self):
        for refused in (Refused(5), Torn("here", 3, 7, 48)):
            again = pickle.loads(pickle.dumps(refused))
            self.assertEqual((type(again), again.number, again.words), (type(refused), refused.number, refused.words))
        self.assertEqual((again.record, again.left), (3, 7))


class Numbers(unittest.TestCase):
    def test_each_by_a_call(self):
        bank, tile = Bank(), INTENSITY
        due = {
            1: (bank.check_key, tile, 0, bytes(4095)),
            2: (bank.key, Tile(line=512)),
            3: (bank.key, tile, 4),
            4: (bank.load_block, b"", tile, 4, 0, 1),
            5: (bank.picture, Tile(fmt=7, width=1, height=1)),
            8: (bank.replay_record, bytes(47), 0, b""),
            10: (bank.replay_record, b"\x04" + bytes(47), 0, b""),
            11: (bank.replay_record, bytes(37) + b"\x01" + bytes(10), 0, b""),
            12: (Picture(0, 1, b"").to_pam,),
            13: (Picture.from_pam, b"P6\n"),
            14: (Picture.from_pam, b"P7\nWIDTH 1\nHEIGHT 1\nDEPTH 1\nMAXVAL 255\nTUPLTYPE GRAYSCALE\nENDHDR\nG"),
            15: (Picture.from_pam, Picture(1, 1, bytes(4)).to_pam()[:-1]),
            19: (bank.reject_block, b"", tile, 1, 0, 1, 0),
        }
        self.assertEqual({number: refusal_of(*call) for number, call in due.items()}, {number: number for number in due})
        self.assertEqual(bank, Bank())

    def test_those_of_lent_buffers_alone(self):
        self.assertEqual(exports.tk_sample_tile(bytes(4096), *INTENSITY.numbers, 0, bytearray(7)).refusal, 6)
        trail = exports.tk_sample_tile_observed(bytes(4096), *INTENSITY.numbers, 0, bytearray(8), bytearray(3))
        self.assertEqual(trail.refusal, 7)
        self.assertEqual(exports.tk_split(1, bytes(4116), bytearray(1)).refusal, 17)

    def test_sides_that_no_memory_has(self):
        huge = Tile(siz=2, width=(1 << 32) - 1, height=(1 << 32) - 1)
        for call in (Bank().picture, Bank().picture_observed, Bank().sample, Bank().key, Bank().lookup):
            self.assertEqual(refusal_of(call, huge), 2)
        self.assertEqual(refusal_of(huge.decode_linear, b"", 0), 2)

    def test_order_of_tests(self):
        self.assertEqual(refusal_of(Bank().key, Tile(fmt=1, line=512, mode=4), 4), 2)
        self.assertEqual(refusal_of(Bank().key, Tile(fmt=1), 4), 3)
        self.assertEqual(refusal_of(Bank().picture, Tile(fmt=1, line=512, mode=4), 4), 2)
        self.assertEqual(refusal_of(Bank().picture, Tile(fmt=1), 4), 3)

    def test_no_number_is_left(self):
        bank = Bank()
        for _ in range(65535):
            bank.load_block(b"", Tile(siz=2), 2, 0, 0)
        self.assertEqual(bank.written.last, 65535)
        self.assertEqual(refusal_of(bank.load_block, b"", Tile(siz=2), 2, 0, 0), 18)
        self.assertEqual(bank.written.last, 65535)
        self.assertEqual(Bank(bank.bytes).load_block(b"", Tile(siz=2), 2, 0, 0).number, 1)

    def test_many_entries(self):
        entry = Entry(bytes(4117))
        self.assertEqual(split([entry] * 4096).tuning, 4096)
        self.assertEqual(refusal_of(split, [entry] * 4097), 16)
        self.assertEqual(refusal_of(split, itertools.repeat(entry)), 16)
