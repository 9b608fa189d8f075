"""keys, groups, split, check and replay: their tables, line by line."""

import subprocess
import unittest

import expected
import make
from expected import CAPTURE, COMPANION, GROUPS, KEY_NUMBERS, REPLAY, SCENES, WORDS
from harness import COMMAND, ENVIRONMENT, CommandTest

KEYS = ["record", "digest", "size", "kept", "refusal"]


def keys_row(number):
    drawn = SCENES[number]
    if drawn.refusal:
        return [number, "", "", "", WORDS[drawn.refusal]]
    return [number, expected.digest(number), expected.size(number), expected.key_and_kept(number)[1], ""]


class Keys(CommandTest):
    def test_drawn_capture(self):
        self.prints(1, [KEYS, *map(keys_row, range(len(SCENES)))], "keys", CAPTURE)

    def test_some_kept_counts_by_hand(self):
        rows = self.run_command("keys", CAPTURE).rows
        kept = {name: int(rows[1 + expected.numbered(name)][3]) for name in ("letter T", "red bricks", "sun", "strip of 256", "no column")}
        self.assertEqual(kept, {"letter T": 128, "red bricks": 2048, "sun": 4096, "strip of 256": 4096, "no column": 0})

    def test_standard_input(self):
        self.prints(0, [KEYS, keys_row(0), keys_row(1)], "keys", "-", given=expected.record(0) + expected.record(1))

    def test_no_record(self):
        self.prints(0, [KEYS], "keys", "-")

    def test_read_bytes_change_the_digest_and_leftover_bytes_do_not(self):
        letter = bytearray(expected.record(0))
        letter[expected.HEAD + 128] ^= 1  # the first byte that sixteen rows of eight bytes leave
        self.prints(0, [KEYS, keys_row(0)], "keys", "-", given=bytes(letter))
        letter[expected.HEAD + 127] ^= 1
        self.assertNotEqual(self.run_command("keys", "-", given=bytes(letter)).rows[1][1], expected.digest(0))


class Groups(CommandTest):
    NAMES = ["group", "key", "digest", "captures", "size", "kept", "records"]

    def test_drawn_capture(self):
        rows = [self.NAMES]
        for group, (key, records) in enumerate(zip(KEY_NUMBERS, GROUPS, strict=True)):
            first = records[0]
            told = [len(records), expected.size(first), expected.key_and_kept(first)[1], ",".join(map(str, records))]
            rows.append([group, key, expected.digest(first), *told])
        self.prints(1, rows, "groups", CAPTURE)

    def test_leftover_bytes_make_no_group_and_read_bytes_do(self):
        letter, leftover, other = (bytearray(expected.record(0)) for _ in range(3))
        leftover[-1] ^= 255
        other[expected.HEAD] ^= 255
        rows = self.run_command("groups", "-", given=bytes(letter + other + leftover)).rows
        self.assertEqual([row[-1] for row in rows], ["records", "0,2", "1"])

    def test_no_refusal(self):
        self.assertEqual(self.run_command("groups", "-", given=expected.record(0)).status, 0)


class Split(CommandTest):
    NAMES = ["capture", "side", "group"]

    def test_drawn_capture(self):
        """Of the groups 0 to 31, those with the numbers 4, 9, 14, 19, 24 and 29 are held out. Each has one record."""
        rows = []
        for group, records in enumerate(GROUPS):
            side = "held out" if group in (4, 9, 14, 19, 24, 29) else "tuning"
            rows += [[record, side, group] for record in records]
        rows += [[number, "refused", WORDS[drawn.refusal]] for number, drawn in enumerate(SCENES) if drawn.refusal]
        totals = ["all", "29 tuning, 6 held out, 5 refused", "32 groups"]
        self.prints(1, [self.NAMES, *sorted(rows), totals], "split", CAPTURE)

    def test_entries(self):
        """Captures 9, 8, 7 and so on, of which the second and the last are the same."""
        pictures = (0, 1, 2, 3, 4, 5, 1)
        entries = b"".join((9 - place).to_bytes(4, "big") + expected.body(number) for place, number in enumerate(pictures))
        rows = [[9, "tuning", 0], [8, "tuning", 1], [7, "tuning", 2], [6, "tuning", 3], [5, "held out", 4], [4, "tuning", 5]]
        rows += [[3, "tuning", 1], ["all", "6 tuning, 1 held out, 0 refused", "6 groups"]]
        self.prints(0, [self.NAMES, *rows], "split", "--entries", "-", given=entries)

    def test_too_many(self):
        entries = (bytes(4) + expected.body(0)) * 4097
        path = self.write("entries.bin", entries)
        self.fails(1, f"entries.bin: {WORDS[16]}.", "split", "--entries", path.name)
        self.fails(1, f"standard input: {WORDS[16]}.", "split", "-", given=expected.record(0) * 4097)
        path.write_bytes(entries[4117:])
        ran = self.run_command("split", "--entries", path.name)
        self.assertEqual((ran.status, ran.rows[-1]), (0, ["all", "4096 tuning, 0 held out, 0 refused", "1 groups"]))


    def test_no_more_is_read_than_is_needed(self):
        """Of a pipe that never ends."""
        self.write("capture.bin", expected.record(0) * 100)
        self.write("entries.bin", (bytes(4) + expected.body(0)) * 100)
        for words in ("split", "split --entries"):
            name = "entries.bin" if "entries" in words else "capture.bin"
            endless = f"while cat {name}; do :; done 2>/dev/null | {COMMAND} {words} -"
            done = subprocess.run(["bash", "-c", endless], cwd=self.room, capture_output=True, env=ENVIRONMENT, text=True, timeout=120)
            self.assertEqual((done.returncode, done.stderr), (1, f"tulonkasa split: standard input: {WORDS[16]}.\n"))


class Check(CommandTest):
    NAMES = ["entry", "capture", "key"]

    def offers(self):
        """Entries of the letter T: right; a byte missing, left over, of another value; and a mode that is none. Their banks are its own."""
        body = expected.body(0)
        at = next(place for place in range(17, len(body)) if body[place] > 1)
        missing, left_over, another, refused = (bytearray(body) for _ in range(4))
        missing[at] = 0
        left_over[17 + 4000] = 1
        another[at] = 1
        refused[3] = 4
        address = at - 17
        said = ["right", f"the byte at address {address} is missing", "the byte at address 4000 is left over"]
        said += [f"the byte at address {address} has another value", WORDS[3]]
        return [body, missing, left_over, another, refused], said

    def test_each_answer(self):
        bodies, said = self.offers()
        entries = b"".join((100 + number).to_bytes(4, "big") + body for number, body in enumerate(bodies))
        self.write("entries.bin", entries)
        self.write("banks.bin", expected.bank(0) * len(bodies))
        rows = [[number, 100 + number, words] for number, words in enumerate(said)]
        rows = [self.NAMES, *rows, ["all", "", "1 right, 3 wrong, 1 refused"]]
        self.prints(1, rows, "check", "entries.bin", "banks.bin")
        self.prints(1, rows, "check", "-", "banks.bin", given=entries)
        self.prints(1, rows, "check", "entries.bin", "-", given=expected.bank(0) * len(bodies))

    def test_wrong_alone_and_refused_alone(self):
        bodies, said = self.offers()
        for number, totals in ((1, "0 right, 1 wrong, 0 refused"), (4, "0 right, 0 wrong, 1 refused")):
            self.write("entries.bin", bytes(4) + bodies[number])
            self.write("banks.bin", expected.bank(0))
            self.prints(1, [self.NAMES, [0, 0, said[number]], ["all", "", totals]], "check", "entries.bin", "banks.bin")

    def test_right_alone(self):
        self.write("entries.bin", bytes(4) + expected.body(0))
        self.write("banks.bin", expected.bank(0))
        rows = [self.NAMES, [0, 0, "right"], ["all", "", "1 right, 0 wrong, 0 refused"]]
        self.prints(0, rows, "check", "entries.bin", "banks.bin")

    def test_unequal_counts(self):
        self.write("entries.bin", (bytes(4) + expected.body(0)) * 2)
        self.write("banks.bin", expected.bank(0))
        self.fails(2, "banks.bin has no bank 1, and the other file has.", "check", "entries.bin", "banks.bin")
        self.write("entries.bin", b"")
        self.fails(2, "entries.bin has no entry 0, and the other file has.", "check", "entries.bin", "banks.bin")
        self.fails(2, "standard input can stand for one of the files alone.", "check", "-", "-")


class Replay(CommandTest):
    def test_drawn_replay(self):
        """The loads as they were drawn: a letter, bricks, a sign with its palette, a wall, a sun, an evening with its palette, the wall
        again and a row over it, each with its key; and six records that are refused."""
        entries = len(expected.looked_up(SCENES[expected.numbered("evening")]))
        done = [("block", 1, 128), ("key", "", 128), ("tile", 2, 2048), ("key", "", 2048), ("palette", 3, 128), ("block", 4, 256)]
        done += [("key", "", 272), ("tile", 5, 512), ("key", "", 512), ("tile", 6, 4096), ("key", "", 4096), ("palette", 7, 2048)]
        done += [("tile", 8, 1024), ("key", "", 1024 + 2 * entries), ("tile", 9, 512), ("key", "", 512), ("block", 10, 32)]
        done += [("key", "", 512)]
        refused = [(4, 10), ("block", 11), ("block", 4), ("tile", 2), ("key", 3), ("key", 5)]
        rows = [[*row, ""] for row in done] + [[kind, "", "", WORDS[number]] for kind, number in refused]
        rows = [["record", "kind", "load", "count", "refusal"], *([number, *row] for number, row in enumerate(rows))]
        self.prints(1, rows, "replay", REPLAY, COMPANION)
        self.prints(1, rows, "replay", "-", COMPANION, given=REPLAY.read_bytes())

    def test_no_refusal(self):
        key = make.replay_record(make.KEY, fmt=make.I, siz=1, width=3, height=1)
        self.prints(0, [["record", "kind", "load", "count", "refusal"], [0, "key", "", 3, ""]], "replay", "-", COMPANION, given=key)

    def test_companion_can_be_read_at_any_place(self):
        sentence = "the companion file can't be standard input: it is read at any place."
        self.fails(2, sentence, "replay", REPLAY, "-")


if __name__ == "__main__":
    unittest.main()
