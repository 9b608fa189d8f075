"""dump and find: the painters' files, and which of them is handed out."""

import unittest

import expected
from expected import CAPTURE, SCENES, WORDS
from harness import CommandTest, png_size_and_texels

NAMES = ["record", "digest", "file", "said"]
ZERO_SIDE = expected.numbered("no column")
TAKEN = ZERO_SIDE  # so many records come before it, and all have a picture


def rows(said_of, suffix=".png"):
    """The lines of the drawn capture: what is said of each record that has a picture, whose file is named where it is `named`."""
    for number, drawn in enumerate(SCENES):
        if drawn.refusal:
            yield [number, "", "", WORDS[drawn.refusal]]
        else:
            file, said = said_of(number)
            yield [number, expected.digest(number), expected.digest(number) + suffix if file else "", said]


class Dump(CommandTest):
    def written(self, number):
        if number == ZERO_SIDE:
            return False, WORDS[12]
        again = any(number in records[1:] for records in expected.GROUPS)
        return True, "there already" if again else "written"

    def there(self, number):
        return (False, WORDS[12]) if number == ZERO_SIDE else (True, "there already")

    def test_files_are_named_by_digest_and_have_their_keys(self):
        self.prints(1, [NAMES, *rows(self.written)], "dump", CAPTURE, "pictures")
        digests = {expected.digest(number) for number in range(TAKEN)}
        self.assertEqual(self.names("pictures"), sorted(digest + suffix for digest in digests for suffix in (".key", ".png")))
        for number in range(TAKEN):
            self.assertEqual((self.room / "pictures" / f"{expected.digest(number)}.key").read_bytes(), expected.body(number))

    def test_pictures_are_what_was_drawn(self):
        self.run_command("dump", CAPTURE, "pictures")
        for name in ("letter T", "red bricks", "sign by day", "sign by night", "wall 16 by 16", "wall 64 by 64", "strip of 256", "sun"):
            number = expected.numbered(name)
            data = (self.room / "pictures" / f"{expected.digest(number)}.png").read_bytes()
            width, height, texels = png_size_and_texels(data)
            shown = (16, 16) if name.startswith("wall") else tuple(SCENES[number].fields[side] for side in ("width", "height"))
            self.assertEqual((width, height), shown, name)
            self.assertEqual(texels, expected.texels(number), name)

    def test_lookup_is_whole(self):
        self.run_command("dump", CAPTURE, "pictures")
        number = expected.numbered("tall of an odd line")
        data = (self.room / "pictures" / f"{expected.digest(number)}.png").read_bytes()
        self.assertEqual(png_size_and_texels(data), (4096, 4, b"".join(expected.lookup_rows(number))))

    def test_pam(self):
        self.prints(1, [NAMES, *rows(self.written, ".pam")], "dump", "--pam", CAPTURE, "pictures")
        head = b"P7\nWIDTH 16\nHEIGHT 16\nDEPTH 4\nMAXVAL 255\nTUPLTYPE RGB_ALPHA\nENDHDR\n"
        self.assertEqual((self.room / "pictures" / f"{expected.digest(0)}.pam").read_bytes(), head + expected.texels(0))

    def test_painted_files_are_left_alone(self):
        self.run_command("dump", CAPTURE, "pictures")
        painted = self.write(f"pictures/{expected.digest(0)}.png", b"painted")
        self.prints(1, [NAMES, *rows(self.there)], "dump", CAPTURE, "pictures")
        self.assertEqual(painted.read_bytes(), b"painted")

    def test_another_key_and_a_picture_without_its_key_are_left_alone(self):
        (self.room / "pictures").mkdir()
        other = self.write(f"pictures/{expected.digest(0)}.key", expected.body(1))
        self.write(f"pictures/{expected.digest(1)}.png", b"from elsewhere")
        given = expected.record(0) + expected.record(1)
        said = ["another key is there under this digest", "a picture is there without its key"]
        self.prints(1, [NAMES, *([n, expected.digest(n), "", said[n]] for n in (0, 1))], "dump", "-", "pictures", given=given)
        self.assertEqual(other.read_bytes(), expected.body(1))
        self.assertEqual(self.names("pictures"), sorted([f"{expected.digest(0)}.key", f"{expected.digest(1)}.png"]))

    def test_no_refusal(self):
        self.assertEqual(self.run_command("dump", "-", "pictures", given=expected.record(0)).status, 0)


class Find(CommandTest):
    def setUp(self):
        super().setUp()
        self.run_command("dump", CAPTURE, "pictures")

    def beside(self, number, suffix=".key"):
        return self.room / "pictures" / (expected.digest(number) + suffix)

    def says(self, status, file, said):
        """Of the first record, the letter T."""
        row = [0, expected.digest(0), expected.digest(0) + file if file else "", said]
        self.prints(status, [NAMES, row], "find", "pictures", "-", given=expected.record(0))

    def test_drawn_capture(self):
        said_of = lambda number: (False, "none") if number == ZERO_SIDE else (True, "found")
        self.prints(1, [NAMES, *rows(said_of)], "find", "pictures", CAPTURE)

    def test_leftover_bytes_do_not_matter(self):
        other = bytearray(expected.record(0))
        other[-1] ^= 255
        row = [0, expected.digest(0), expected.digest(0) + ".png", "found"]
        self.prints(0, [NAMES, row], "find", "pictures", "-", given=bytes(other))

    def test_painted_file_of_any_kind(self):
        self.beside(0, ".png").rename(self.beside(0, ".tga"))
        self.says(0, ".tga", "found")

    def test_another_key_under_the_right_digest_is_never_handed_out(self):
        mine, other = expected.body(0), expected.body(1)
        self.beside(0).write_bytes(other)
        first = next(place for place in range(len(mine)) if mine[place] != other[place]) - 17
        self.says(1, "", f"the key beside it is another: it differs at address {first}")
        last = bytearray(mine)
        last[-1] ^= 1
        self.beside(0).write_bytes(bytes(last))
        self.says(1, "", "the key beside it is another: it differs at address 4095")

    def test_another_tile_record_lane_or_length(self):
        for place in (0, 15, 16):
            other = bytearray(expected.body(0))
            other[place] ^= 1
            self.beside(0).write_bytes(bytes(other))
            self.says(1, "", "the key beside it is another: its tile record or lane differs")
        self.beside(0).write_bytes(expected.body(0)[:-1])
        self.says(1, "", "the key beside it is another: it has 4,112 bytes, and 4,113 are due")

    def test_no_key_no_file_and_several(self):
        self.write(f"pictures/{expected.digest(0)}.pam", b"")
        self.says(1, "", f"there are several: {expected.digest(0)}.pam, {expected.digest(0)}.png")
        self.beside(0, ".pam").unlink()
        self.beside(0).unlink()
        self.says(1, "", "there is no key beside it")
        self.beside(0, ".png").unlink()
        self.says(0, "", "none")


if __name__ == "__main__":
    unittest.main()
