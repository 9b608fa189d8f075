"""reads: which bytes of a bank a picture reads, and which load wrote each."""

import subprocess
import unittest
from itertools import product

import expected
import make
from expected import CAPTURE, COMPANION, REPLAY, SCENES, WORDS
from harness import COMMAND, ENVIRONMENT, CommandTest, png_size_and_texels, terminal
from tulonkasa import Bank, Tile
from tulonkasa.command.filed import filed_records
from tulonkasa.command.pictures import addresses_read

NAMES = ["first", "last", "bytes"]
LOAD_NAMES = [*NAMES, "load", "record"]
SIGN = expected.numbered("sign by day")


def sign_entries():
    """The first pair of each entry that the sign names, one behind the other."""
    firsts = [make.PALETTE + 8 * entry for entry in sorted(expected.looked_up(SCENES[SIGN]))]
    return [[first, first + 1, 2] for first in firsts]


def lit(texels):
    """The places of texels that are more red than blue. What is left over is more blue than red."""
    return {place for place in range(len(texels) // 4) if texels[4 * place] > texels[4 * place + 2]}


class Reads(CommandTest):
    def test_sign(self):
        """Sixteen rows of sixteen bytes from word 64 on, and the entries."""
        self.prints(0, [NAMES, [512, 767, 256], *sign_entries()], "reads", CAPTURE, SIGN)

    def test_wall_that_repeats(self):
        """Of any size sixteen rows of thirty-two bytes."""
        for number in range(expected.numbered("wall 16 by 16"), expected.numbered("wall 64 by 64") + 1):
            self.prints(0, [NAMES, [0, 511, 512]], "reads", CAPTURE, number)

    def test_lookup_and_no_texel(self):
        self.prints(0, [NAMES, [0, 4095, 4096]], "reads", CAPTURE, expected.numbered("wall past its size"))
        self.prints(0, [NAMES], "reads", CAPTURE, expected.numbered("no column"))

    def test_they_are_those_that_the_key_keeps(self):
        """Of every record of both sample captures what is visible is cut alike: no other byte of the key is set, and as many are kept."""
        for capture in (CAPTURE, expected.SAMPLES / "capture.bin"):
            for record in filed_records(str(capture)):
                if record.key is not None:
                    read = addresses_read(record.bank, record.tile)
                    left_over = bytearray(record.key.bytes)
                    for address in read:
                        left_over[address] = 0
                    self.assertEqual((len(read), any(left_over)), (record.key.kept, False), f"{capture.name} {record.number}")

    def test_what_is_visible_of_any_tile(self):
        """Sides that repeat, mirrored or clamped or not, inside their size, at it and past it."""
        bank = Bank(bytes(range(1, 256)) * 16 + bytes(range(1, 17)))
        for clamping, mask, size in product(range(4), range(7), (0, 1, 15, 16, 17, 40)):
            sides = dict(cms=clamping, masks=mask, width=size, height=3), dict(cmt=clamping, maskt=mask, width=3, height=size)
            for side in sides:
                tile = Tile(fmt=make.I, siz=1, line=6, **side)
                self.assertEqual(len(addresses_read(bank, tile)), bank.key(tile).kept, tile)

    def test_picture(self):
        self.prints(0, [NAMES, [512, 767, 256], *sign_entries()], "reads", CAPTURE, SIGN, "bank.png")
        width, height, texels = png_size_and_texels((self.room / "bank.png").read_bytes())
        self.assertEqual((width, height), (64, 64))
        self.assertEqual(lit(texels), {*range(512, 768), *(a for first, last, _ in sign_entries() for a in (first, last))})
        self.run_command("reads", CAPTURE, SIGN, "bank.pam")
        self.assertEqual((self.room / "bank.pam").read_bytes()[-4 * 4096 :], texels)

    def test_standard_input(self):
        self.prints(0, [NAMES, [0, 127, 128]], "reads", "-", 1, given=expected.record(SIGN) + expected.record(0))

    def test_refused_and_missing_records(self):
        self.fails(1, f"record 35: {WORDS[2]}.", "reads", CAPTURE, 35)
        self.fails(2, f"{CAPTURE} has no record 40.", "reads", CAPTURE, 40)
        for number in ("-1", "two", "1.5"):
            ran = self.run_command("reads", CAPTURE, number)
            self.assertEqual((ran.status, ran.out), (2, b""), number)

    def test_terminal(self):
        """A drawing of 64 by 32 characters comes before the table: the letter's 128 bytes fill the first two rows, so the first line."""
        with terminal() as (slave, said):
            done = subprocess.Popen([str(COMMAND), "reads", str(CAPTURE), "0"], stdout=slave, env={**ENVIRONMENT, "PYTHONUTF8": "1"})
        lines = said().split("\r\n")
        self.assertEqual(lines[:32], ["█" * 64] + ["·" * 64] * 31)
        self.assertEqual((done.wait(), lines[32:]), (0, ["\t".join(NAMES), "0\t127\t128", ""]))


class ReadsOfReplay(CommandTest):
    def reads(self, *arguments):
        return "reads", REPLAY, *arguments, "--companion", COMPANION

    def test_load_of_each_byte(self):
        """The letter is load 1, record 0. The sign's palette is load 3, record 4, and its rows are load 4, record 5. Over the first row of
        the last wall, load 9, record 14, went load 10, record 16."""
        self.prints(0, [LOAD_NAMES, [0, 127, 128, 1, 0]], *self.reads(1))
        entries = [[*run, 3, 4] for run in sign_entries()]
        self.prints(0, [LOAD_NAMES, [512, 767, 256, 4, 5], *entries], *self.reads(6))
        self.prints(0, [LOAD_NAMES, [0, 511, 512, 9, 14]], *self.reads(15))
        self.prints(0, [LOAD_NAMES, [0, 31, 32, 10, 16], [32, 511, 480, 9, 14]], *self.reads(17))

    def test_no_load(self):
        key = make.replay_record(make.KEY, fmt=make.I, siz=1, width=3, height=1)
        self.prints(0, [LOAD_NAMES, [0, 2, 3, 0, ""]], "reads", "-", 0, "--companion", COMPANION, given=key)

    def test_lane(self):
        """Lane 3 has the fourth pair of entry 0."""
        key = make.replay_record(make.KEY, lane=3, fmt=make.CI, siz=1, mode=2, width=1, height=1)
        rows = [LOAD_NAMES, [0, 0, 1, 0, ""], [2054, 2055, 2, 0, ""]]
        self.prints(0, rows, "reads", "-", 0, "--companion", COMPANION, given=key)

    def test_picture_has_a_colour_for_each_load(self):
        self.run_command(*self.reads(17, "bank.png"))
        _, _, texels = png_size_and_texels((self.room / "bank.png").read_bytes())
        bank = [texels[4 * address : 4 * address + 3] for address in range(4096)]
        first, second, rest = (set(bank[part]) for part in (slice(0, 32), slice(32, 512), slice(512, 4096)))
        self.assertFalse(first & second or first & rest or second & rest)

    def test_records_that_ask_for_no_key(self):
        self.fails(2, f"record 0 of {REPLAY} does not ask for a key.", *self.reads(0))
        self.fails(2, f"record 18 of {REPLAY} does not ask for a key.", *self.reads(18))
        self.fails(2, f"{REPLAY} has no record 24.", *self.reads(24))
        self.fails(1, f"record 22: {WORDS[3]}.", *self.reads(22))


if __name__ == "__main__":
    unittest.main()
