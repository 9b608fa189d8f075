"""diff: what two captures have in common, and what not."""

import unittest

import expected
import make
from expected import WORDS
from harness import CommandTest

NAMES = ["said", "a", "b", "digest a", "digest b", "addresses"]
T, U, L = range(3)
DAY, DAY_AGAIN = expected.numbered("sign by day"), expected.numbered("sign by day") + 1
NIGHT, WALL, MOON, FILM = map(expected.numbered, ("sign by night", "wall 16 by 16", "moon", "film without a palette"))


def changed(number, *addresses):
    """A record of the drawn capture with other bytes at these addresses of its bank."""
    record = bytearray(expected.record(number))
    for address in addresses:
        record[expected.HEAD + address] ^= 255
    return bytes(record)


class Diff(CommandTest):
    def differs(self, status, rows, a, b):
        """The captures of these records differ so."""
        self.write("a.bin", b"".join(a))
        self.write("b.bin", b"".join(b))
        self.prints(status, [NAMES, *rows], "diff", "a.bin", "b.bin")

    def digest_of(self, record):
        return self.run_command("keys", "-", given=record).rows[1][1]

    def test_the_same(self):
        some = [expected.record(number) for number in (T, U, DAY, WALL)]
        self.differs(0, [], some, some)

    def test_new_and_gone(self):
        t, u, moon = (expected.record(number) for number in (T, U, MOON))
        self.differs(1, [["gone", 1, "", expected.digest(MOON), "", ""]], [t, moon, u], [t, u])
        self.differs(1, [["new", "", 1, "", expected.digest(MOON), ""]], [t, u], [t, moon, u])

    def test_order_and_how_often_do_not_matter(self):
        t, u = expected.record(T), expected.record(U)
        self.differs(0, [], [t, u], [u, t, u])

    def test_leftover_bytes(self):
        """Sixteen rows of eight bytes are read of the letter, so the bytes from 128 on are left over."""
        digest = expected.digest(T)
        row = ["other leftover bytes", 0, 1, digest, digest, "128,200-202,4095"]
        u = expected.record(U)
        self.differs(0, [row], [expected.record(T), u], [u, changed(T, 128, 200, 201, 202, 4095)])

    def test_leftover_bytes_of_a_later_capture(self):
        """The first captures of the sign are equal, and the second ones are not. Entry 15 of palette 3 is never looked up."""
        unread = make.PALETTE + 8 * (16 * 3 + 15)
        digest = expected.digest(DAY)
        row = ["other leftover bytes", 1, 2, digest, digest, f"{unread}"]
        first, again, u = expected.record(DAY), expected.record(DAY_AGAIN), expected.record(U)
        self.differs(1, [row, ["new", "", 1, "", expected.digest(U), ""]], [first, again], [first, u, changed(DAY_AGAIN, unread)])

    def test_palette(self):
        """The first pair of entry 6, which the letters of the sign have, is read in lane 0; the second is left over."""
        entry = make.PALETTE + 8 * (16 * 3 + 6)
        other = changed(NIGHT, entry, entry + 1, entry + 2)
        row = ["differs", 1, 1, expected.digest(NIGHT), self.digest_of(other), f"{entry}-{entry + 1}"]
        t = expected.record(T)
        self.differs(1, [row], [t, expected.record(NIGHT)], [t, other])

    def test_in_its_place(self):
        """A letter differs from the one that follows the same picture; one that follows another picture is new, and the old one is gone."""
        t, u, l, moon = (expected.record(number) for number in (T, U, L, MOON))
        first, second = expected.key_and_kept(U)[0], expected.key_and_kept(L)[0]
        addresses = [address for address in range(make.BANK) if first[address] != second[address]]
        ran = self.run_command("diff", self.write("a.bin", t + u + moon), self.write("b.bin", t + l + moon))
        self.assertEqual([row[:5] for row in ran.rows[1:]], [["differs", "1", "1", expected.digest(U), expected.digest(L)]])
        spans = [span.split("-") for span in ran.rows[1][5].split(",")]
        self.assertEqual([a for span in spans for a in range(int(span[0]), int(span[-1]) + 1)], addresses)
        rows = [["gone", 1, "", expected.digest(U), "", ""], ["new", "", 2, "", expected.digest(L), ""]]
        self.differs(1, rows, [t, u, moon], [t, moon, l])

    def test_several_in_their_places(self):
        t, u, l, k, a = (expected.record(number) for number in (T, U, L, 5, 6))
        ran = self.run_command("diff", self.write("a.bin", t + u + l), self.write("b.bin", t + k + a + a))
        self.assertEqual([row[:3] for row in ran.rows[1:]], [["differs", "1", "1"], ["differs", "2", "2"]])

    def test_one_line_for_a_picture(self):
        t, moon = expected.record(T), expected.record(MOON)
        self.differs(1, [["new", "", 1, "", expected.digest(MOON), ""]], [t], [t, moon, moon])
        self.differs(1, [["gone", 0, "", expected.digest(MOON), "", ""]], [moon, t, moon], [t])

    def test_another_tile_record_is_another_picture(self):
        """The wall at two widths has one key, and two tile records."""
        rows = [["gone", 0, "", expected.digest(WALL), "", ""], ["new", "", 0, "", expected.digest(WALL + 1), ""]]
        self.differs(1, rows, [expected.record(WALL)], [expected.record(WALL + 1)])

    def test_refused(self):
        t, film = expected.record(T), expected.record(FILM)
        self.differs(1, [[WORDS[5], 1, "", "", "", ""], [WORDS[5], "", 0, "", "", ""]], [t, film], [film, t])

    def test_standard_input(self):
        t, u = expected.record(T), expected.record(U)
        self.write("a.bin", t)
        row = ["differs", 0, 0, expected.digest(T), expected.digest(U)]
        ran = self.run_command("diff", "a.bin", "-", given=u)
        self.assertEqual((ran.status, ran.rows[1][:5]), (1, [str(cell) for cell in row]))
        ran = self.run_command("diff", "-", "a.bin", given=u)
        self.assertEqual((ran.status, ran.rows[1][3:5]), (1, [expected.digest(U), expected.digest(T)]))
        self.fails(2, "standard input can stand for one of the files alone.", "diff", "-", "-")


if __name__ == "__main__":
    unittest.main()
