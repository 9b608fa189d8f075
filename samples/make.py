#!/usr/bin/env python3
"""Makes what the programs are run on, the same bytes each time.

For the lister: samples/capture.bin, some 300 made-up records that look like a capture, and crates/lister/stdin, the
cases that its test lists.

For the replay: samples/replay.bin, some 300 loads and keys of such pictures, with samples/companion.bin, the file that
their sources are in; and, for its test, crates/replay/stdin, args and data/companion.bin, with crates/replay/stdout,
the lines to be printed. These lines stand here beside their records. They were worked out by hand, never by running
the program."""

import random
from pathlib import Path

BANK = 4096
PALETTE = 2048
FIELDS = ("fmt", "siz", "palette", "mode", "cms", "cmt", "masks", "maskt")
WIDE_FIELDS = ("line", "tmem_addr", "width", "height")
LOAD_FIELDS = ("image", "dxt", "words", "rows", "count", "stride")
SOURCE_FIELDS = ("offset", "length")

RGBA, YUV, CI, IA, I = range(5)
BLOCK, TILE, TLUT, KEY = range(4)

# the most that a field may be, in a tile and in a load of each kind
TILE_MOST = dict(
    fmt=7, siz=3, palette=15, cms=3, cmt=3, masks=15, maskt=15, line=511, tmem_addr=511, width=4096, height=4096
)
LOADED = ("fmt", "siz", "line", "tmem_addr")
LOAD_MOST = {
    BLOCK: dict(image=3, dxt=4095, words=2048, length=65536),
    TILE: dict(image=3, rows=1024, words=512, length=65536),
    TLUT: dict(image=3, count=1024, rows=1024, length=65536),
}


def packed(fields, names, size):
    """Takes numbers out of the fields by their names, each of so many bytes, big end first. Fields not named are 0."""
    return b"".join(fields.pop(name, 0).to_bytes(size, "big") for name in names)


def tile_bytes(fields):
    """Takes a tile and its mode out of the fields: eight bytes, and four numbers of two bytes."""
    return packed(fields, FIELDS, 1) + packed(fields, WIDE_FIELDS, 2)


def record(bank, **fields):
    """A record of the lister: a tile with its mode, and the bank."""
    head = tile_bytes(fields)
    assert not fields, fields
    return head + bytes(bank)


def replay_record(kind, lane=0, ignored=bytes(10), **fields):
    """A record of the replay: kind, lane, a tile with its mode, the numbers of a load, the place of its source."""
    head = bytes((kind, lane)) + tile_bytes(fields) + packed(fields, LOAD_FIELDS, 2) + packed(fields, SOURCE_FIELDS, 4)
    assert not fields, fields
    return head + ignored


def store_rows(bank, rows, line, tmem_addr=0):
    """Rows of bytes as a load leaves them: the halves of each word change places on odd rows."""
    for y, row in enumerate(rows):
        for x, byte in enumerate(row):
            at = y * 8 * line + x
            bank[(8 * tmem_addr + (at ^ 4 if y % 2 else at)) % BANK] = byte


def store_palette(bank, entries, first=0):
    """Entries of two bytes, each four times, as a palette load leaves them."""
    for i, entry in enumerate(entries):
        at = PALETTE + 8 * (first + i)
        bank[at : at + 8] = entry.to_bytes(2, "big") * 4


class Recorder:
    """What writes the records of a game. A picture comes as the rows that each half of the bank gets (texels of four
    bytes use both), with the entries of its palette if it has one."""

    def __init__(self, seed):
        self.random = random.Random(seed)
        self.records = []


class Capture(Recorder):
    """A bank that goes on from picture to picture, so that each record has the leftovers of those before it."""

    def __init__(self, seed):
        super().__init__(seed)
        self.bank = bytearray(BANK)

    def clutter(self):
        """What the game loads in between: some bytes anywhere."""
        for _ in range(self.random.randint(1, 4)):
            at = self.random.randrange(BANK)
            for i, byte in enumerate(self.random.randbytes(self.random.randint(8, 256))):
                self.bank[(at + i) % BANK] = byte

    def picture(self, halves, entries=(), **fields):
        self.clutter()
        for half, rows in enumerate(halves):
            store_rows(self.bank, rows, fields["line"], fields.get("tmem_addr", 0) + 256 * half)
        store_palette(self.bank, entries, first=16 * fields.get("palette", 0))
        self.take(**fields)

    def take(self, **fields):
        self.records.append(record(self.bank, **fields))


class Loads(Recorder):
    """The loads that bring each picture in, from a companion file that has every source once; then its key."""

    def __init__(self, seed):
        super().__init__(seed)
        self.companion = bytearray()
        self.places = {}

    def load(self, kind, source, **fields):
        if source not in self.places:
            self.places[source] = len(self.companion)
            self.companion += source
        self.records.append(replay_record(kind, offset=self.places[source], length=len(source), **fields))

    def clutter(self):
        """What the game loads in between: some words of an earlier source, anywhere."""
        source = self.random.choice(list(self.places))
        self.load(BLOCK, source, siz=2, tmem_addr=self.random.randrange(512), image=2, words=self.random.randint(1, 32))

    def picture(self, halves, entries=(), **fields):
        """The palette first. Four-bit texels come as a block of sixteen-bit ones, others as a tile of their size."""
        if entries:
            first = PALETTE // 8 + 16 * fields.get("palette", 0)
            source = b"".join(entry.to_bytes(2, "big") for entry in entries)
            self.load(TLUT, source, tmem_addr=first, image=2, count=len(entries), rows=1)
        lines = [b"".join(part[i : i + 2] for i in range(0, len(row[0]), 2) for part in row) for row in zip(*halves)]
        rows, words = len(lines), len(lines[0]) // 8
        tile = {name: fields.get(name, 0) for name in LOADED}
        if tile["siz"] == 0:
            tile.update(siz=2, line=0)
            self.load(BLOCK, b"".join(lines), **tile, image=2, dxt=2048 // words, words=rows * words)
        else:
            self.load(TILE, b"".join(lines), **tile, image=tile["siz"], rows=rows, words=words, stride=8 * words)
        self.take(**fields)

    def take(self, **fields):
        self.records.append(replay_record(KEY, **fields))


def font(game, letters):
    """Letters of 16 by 16 texels, four bits each; every fourth is captured again after other loads."""
    for letter in range(letters):
        ink = random.Random(letter)
        rows = [bytes(ink.choice((0x00, 0x0F, 0xF0, 0xFF)) for _ in range(8)) for _ in range(16)]
        for _ in range(2 if letter % 4 == 0 else 1):
            game.picture([rows], fmt=I, siz=0, cms=2, cmt=2, masks=4, maskt=4, line=1, width=16, height=16)


def walls(game, count):
    """Walls of 32 by 32 texels, two bytes each. Every fifth repeats past its size and needs a lookup."""
    for wall in range(count):
        stone = random.Random(1000 + wall)
        rows = [stone.randbytes(64) for _ in range(32)]
        mask = 6 if wall % 5 == 4 else 5
        game.picture([rows], fmt=RGBA, siz=2, masks=mask, maskt=mask, line=8, width=32, height=32)


def signs(game, count):
    """Signs of 32 by 16 texels through palettes of 16 entries. Each is captured with three kinds of leftover bytes, and
    then under a second palette: the same index bytes, other colours."""
    for sign in range(count):
        paint = random.Random(2000 + sign)
        rows = [paint.randbytes(16) for _ in range(16)]
        colours = [[paint.randrange(65536) for _ in range(16)] for _ in range(2)]
        tile = dict(fmt=CI, siz=0, palette=sign % 16, mode=2, cms=2, cmt=2, line=2, tmem_addr=64, width=32, height=16)
        for colour in (0, 0, 0, 1):
            game.picture([rows], colours[colour], **tile)


def posters(game, count):
    """Posters of 32 by 32 texels, a byte each, through a palette of 256 intensities with alpha."""
    for poster in range(count):
        paint = random.Random(3000 + poster)
        rows = [paint.randbytes(32) for _ in range(32)]
        shades = [paint.randrange(65536) for _ in range(256)]
        game.picture([rows], shades, fmt=CI, siz=1, mode=3, cms=2, cmt=2, line=4, width=32, height=32)


def clouds(game, count):
    """Clouds with alpha, 64 by 32 texels of a byte."""
    for cloud in range(count):
        sky = random.Random(4000 + cloud)
        rows = [sky.randbytes(64) for _ in range(32)]
        game.picture([rows], fmt=IA, siz=1, cms=2, cmt=2, line=8, width=64, height=32)


def suns(game, count):
    """Suns of 16 by 16 texels of four bytes."""
    for sun in range(count):
        sky = random.Random(5000 + sun)
        halves = [[sky.randbytes(32) for _ in range(16)] for _ in range(2)]
        game.picture(halves, fmt=RGBA, siz=3, cms=2, cmt=2, line=4, width=16, height=16)


def odd_ones(game, count):
    """What a capture has now and then: a tile that no picture is made of, and a film frame, which needs a lookup."""
    for frame in range(count):
        game.clutter()
        game.take(fmt=YUV, siz=2, mode=2, line=4, width=16, height=16)
        game.take(fmt=YUV, siz=2, line=4, width=16, height=16)
        game.take(fmt=RGBA, siz=2, line=8, width=5120 + frame, height=32)


def bricks(game, count):
    """Brick walls of 16 by 16 texels, two bytes each, that repeat. Each is captured under several sizes, with other
    leftover bytes each time: what is shown of it is the same, and so is its key."""
    for wall in range(count):
        clay = random.Random(6000 + wall)
        rows = [clay.randbytes(32) for _ in range(16)]
        for width, height in ((16, 16), (32, 16), (64, 16), (128, 16), (64, 64)):
            game.clutter()
            game.picture([rows], fmt=RGBA, siz=2, masks=4, maskt=4, line=4, width=width, height=height)


def played(game, counts):
    """A game with so many pictures of each sort, as it was recorded."""
    for part, count in zip((font, walls, signs, posters, clouds, suns, odd_ones, bricks), counts, strict=True):
        part(game, count)
    return game


def cases():
    """Each kind of line that the lister writes, and a torn tail."""
    zeros, ones = bytes(BANK), bytes([255]) * BANK
    mixed = random.Random(7).randbytes(BANK)
    i8 = dict(fmt=I, siz=1, width=2, height=1)
    made = [record(zeros, **i8)]
    # a field outside its range, each in turn; then with a bad mode besides, which is found after it
    for name, most in TILE_MOST.items():
        made.append(record(mixed, **{**i8, name: most + 1}))
    made.append(record(mixed, **{**i8, "line": 512, "mode": 4}))
    # a mode outside its range; a pair that is not accepted, and the same through a lookup table
    made.append(record(mixed, **{**i8, "mode": 4}))
    made.append(record(mixed, fmt=YUV, siz=2, width=4, height=4))
    made.append(record(mixed, fmt=YUV, siz=2, mode=2, line=1, width=4, height=4))
    # the flag: a mask past the size, clamped, and a tall picture of an odd and of an even line
    made.append(record(mixed, fmt=I, siz=1, masks=5, line=2, width=16, height=16))
    made.append(record(mixed, fmt=I, siz=1, cms=2, masks=5, line=2, width=16, height=16))
    made.append(record(mixed, fmt=I, siz=1, line=1, width=8, height=257))
    made.append(record(mixed, fmt=I, siz=1, line=2, width=8, height=257))
    # odd rows, an entry of a lookup table, four bytes a texel, no texel, and what was the largest picture once
    made.append(record(ones, fmt=I, siz=0, line=1, width=1, height=2))
    made.append(record(bytes([3]) + zeros[1:], fmt=CI, siz=1, mode=2, width=1, height=1))
    made.append(record(mixed, fmt=CI, siz=0, palette=15, mode=3, line=2, tmem_addr=200, width=32, height=32))
    made.append(record(mixed, fmt=RGBA, siz=3, line=4, tmem_addr=255, width=16, height=17))
    made.append(record(mixed, fmt=IA, siz=2, line=4, width=0, height=9))
    made.append(record(mixed, fmt=RGBA, siz=2, line=510, tmem_addr=511, width=1024, height=1024))
    # one more on each side, which was refused then; the longest sides, and the largest picture. Rows repeat every 256
    for width, height in ((1025, 1), (1, 1025), (4096, 1), (1, 4096), (4096, 4096)):
        made.append(record(mixed, fmt=I, siz=1, line=2, width=width, height=height))
    # of the longest rows half is shown, all, and a lookup
    for masks in (11, 12, 13):
        made.append(record(mixed, fmt=I, siz=1, masks=masks, line=2, width=4096, height=1))
    # a wall that repeats every sixteen columns, under four widths and mirrored, keeps 256 bytes; clamped it keeps 304
    wall = dict(fmt=I, siz=1, masks=4, line=2, height=16)
    for width in (16, 32, 64, 128):
        made.append(record(mixed, **wall, width=width))
    for cms in (1, 2, 3):
        made.append(record(mixed, **wall, cms=cms, width=64))
    # repeating down alone, and both ways; no more columns than it repeats; and two of four indexes, with their entries
    made.append(record(mixed, fmt=I, siz=1, maskt=2, line=1, width=8, height=64))
    made.append(record(mixed, fmt=I, siz=1, masks=2, maskt=3, line=2, width=9, height=11))
    made.append(record(mixed, fmt=I, siz=1, masks=3, line=2, width=8, height=11))
    made.append(record(bytes(range(3, 7)) + zeros[4:], fmt=CI, siz=1, mode=2, masks=1, width=4, height=1))
    # a lookup, by an odd line or by one side, is whole, though a side repeats; of an even line two bytes are kept
    for line in (1, 2):
        made.append(record(mixed, fmt=I, siz=1, maskt=1, line=line, width=1, height=257))
    made.append(record(mixed, fmt=I, siz=1, masks=5, maskt=1, line=2, width=16, height=16))
    return b"".join(made) + mixed[:100]


# The replay's cases. The companion's first 65,536 bytes count: each is its place mod 256. Then come groups of eight
# bytes, which are known by their place div 8; and the five bytes 251 to 255.
GROUPS = range(8192, 25600)
END = 204805
TOP = 2**32

# What a case's record has where it says nothing else. Each load is of one word, to the bank's first eight bytes: a
# block and a tile store the source's bytes 0 to 7 there, a TLUT its bytes 0 and 1 four times. The key reads these eight
# bytes as indexes, and two bytes for each entry that they name: it keeps 8 + 2d bytes, where the eight have d values.
USUAL = {
    BLOCK: dict(fmt=CI, siz=1, image=1, words=1, length=8),
    TILE: dict(fmt=CI, siz=1, image=1, rows=1, words=1, length=8),
    TLUT: dict(image=2, count=1, rows=1, length=2),
    KEY: dict(fmt=CI, siz=1, mode=2, line=1, width=8, height=1),
}


def values(group):
    """How many values the bytes of a group have: the octal digits of its number, summed up mod 8, and one more."""
    return 1 + sum(map(int, f"{group:o}")) % 8


def cases_companion():
    """Counting bytes, groups (one of n values has 0 to n - 1, and again from 0), and the last five bytes."""
    groups = bytes(k % values(group) for group in GROUPS for k in range(8))
    return bytes(range(256)) * 256 + groups + bytes(range(251, 256))


def case(answer, kind, /, **fields):
    """A record's line, and the record."""
    return answer, replay_record(kind, **{**USUAL.get(kind, {}), **fields})


def kinds():
    """From the fresh bank on, each kind of load, and keys before and after."""
    return [
        # all indexes are 0; a lookup has the 2,048 bytes of the low half as indexes
        case("0 10", KEY),
        case("0 2050", KEY, fmt=YUV),
        # a block leaves 0 to 7. Other lanes, modes and palettes read as many bytes; mode 0 reads the eight alone
        case("0 8", BLOCK),
        case("0 24", KEY),
        case("0 24", KEY, lane=3, mode=3),
        case("0 24", KEY, siz=0, palette=15, width=16),
        case("0 2064", KEY, fmt=YUV),
        case("0 8", KEY, fmt=I, mode=0),
        # its second word is on row 1, so that 12 to 15 hold the bytes 8 to 11, and 8 to 11 what is past the source
        case("0 16", BLOCK, dxt=2048, words=2, length=12),
        case("0 24", KEY, width=4, height=2),
        case("0 40", KEY, height=2),
        # a tile whose second row is far into the source: 60,000 mod 256 is 96. Then the source ends four bytes into it
        case("0 16", TILE, line=1, rows=2, stride=60000, length=65536),
        case("0 48", KEY, height=2),
        case("0 16", TILE, line=1, rows=2, stride=60000, length=60004),
        case("0 24", KEY, width=4, height=2),
        case("0 40", KEY, height=2),
        # the largest stride: the second row has the source's last byte, 255, and seven zeros
        case("0 16", TILE, line=1, rows=2, stride=65535, length=65536),
        case("0 34", KEY, height=2),
        # rows and words a row are not the same: 1 by 3, then 3 by 1 of a line of 2
        case("0 24", TILE, words=3, length=24, offset=100),
        case("0 72", KEY, width=24),
        case("0 24", TILE, line=2, rows=3, stride=8, length=24, offset=200),
        case("0 72", KEY, line=2, height=3),
        # a palette by the hardware's path: 16, 17 at 0 and 18, 19 at 8. It makes indexes here, so that the keys show it
        case("0 16", TLUT, count=2, offset=16, length=4),
        case("0 12", KEY),
        case("0 24", KEY, width=16),
        # image size 1: eight entries and 8 bytes of the source a step, 16 of the bank: 32, 33 at 0, then 40, 41 at 16,
        # and zeros at 32; 18, 19 stay at 8, and zeros at 24. Image size 3: two entries a step, 64, 65 at 0, then 72, 73
        case("0 24", TLUT, image=1, count=17, offset=32, length=10),
        case("0 54", KEY, width=40),
        case("0 24", TLUT, siz=2, image=3, count=5, offset=64, length=10),
        case("0 54", KEY, width=40),
        # by rows: the second row is 32 bytes on for a line of 1
        case("0 32", TLUT, line=1, count=2, rows=2, stride=100, length=104),
        case("0 48", KEY, line=4, width=16, height=2),
        # by rows as well, for image size 0: 200 to 207, a pair to each eight bytes
        case("0 32", TLUT, image=0, count=4, offset=200, length=8),
        case("0 48", KEY, width=32),
        # a palette where palettes are: the entries' values make no difference to the count
        case("0 2048", TLUT, tmem_addr=256, count=256, length=512),
        case("0 12", KEY),
        # each half gets four bytes, the low one 0, 1, 4, 5, then of a film's word 0, 2, 4, 6; the pair 200, 201 stays
        case("0 8", BLOCK, fmt=RGBA, siz=3, image=3),
        case("0 20", KEY),
        case("0 8", TILE, fmt=YUV, siz=2, image=2),
        case("0 20", KEY),
        # image size 0 has fmt 0 and siz 0 in place of such a tile's, so the word stays whole: 0 to 7; 0 to 3 and zeros
        case("0 8", BLOCK, fmt=YUV, siz=3, image=0),
        case("0 24", KEY),
        case("0 8", TILE, fmt=RGBA, siz=3, image=0, length=4),
        case("0 16", KEY),
        # a first spot that is no multiple of 4 (document 01's P7): 2,040 on hold 0, 1, 10 to 15, and 0, 1 hold 8, 9
        case("0 8", BLOCK, length=0),
        case("0 16", BLOCK, fmt=RGBA, siz=0, tmem_addr=255, image=2, words=2, length=16),
        case("0 30", KEY, tmem_addr=255, width=10),
        # one index, 3 (P12); and two texels of half a byte, at 0 and 12 (P11)
        case("0 8", BLOCK, offset=3, length=1),
        case("0 3", KEY, width=1),
        case("0 2", KEY, fmt=I, siz=0, mode=0, width=1, height=2),
    ]


def limits():
    """Nothing to store, and the most that can be."""
    fields = {name: TILE_MOST[name] for name in LOADED}
    return [
        # no words, rows or entries, though each has a source: 3, 0 and six zeros stay in the bank
        case("0 0", BLOCK, words=0),
        case("0 0", TILE, rows=0),
        case("0 0", TILE, words=0, rows=1024),
        case("0 0", TLUT, count=0),
        case("0 0", TLUT, count=0, rows=1024),
        case("0 12", KEY),
        case("0 0", KEY, width=0),
        # all numbers at their most: 2,048 words; 1,024 rows of 512 words; 1,024 rows of 1,024 entries, eight bytes each
        case("0 16384", BLOCK, **fields, **LOAD_MOST[BLOCK]),
        case("0 4194304", TILE, **fields, **LOAD_MOST[TILE], stride=65535),
        case("0 8388608", TLUT, **fields, **LOAD_MOST[TLUT], stride=65535),
        # 1,024 entries in one row: 1,024 steps, 128 of eight entries, and 512 of two
        case("0 8192", TLUT, count=1024, length=2048),
        case("0 1024", TLUT, image=1, count=1024, length=2048),
        case("0 4096", TLUT, image=3, count=1024, length=2048),
        # the largest picture: of an odd line it is a lookup, which has every byte, and so have 256 rows, 16 bytes apart
        case("0 4096", KEY, **{**TILE_MOST, "fmt": CI}, mode=1, lane=3),
        case("0 4096", KEY, **{**TILE_MOST, "fmt": CI, "line": 510}, mode=1, lane=3),
        # four times around the bank with counting bytes: all values are indexes, and all high nibbles; then with zeros
        case("0 16384", BLOCK, words=2048, length=16384),
        case("0 2560", KEY, line=8, width=64, height=32),
        case("0 2080", KEY, fmt=YUV, siz=0),
        case("0 16384", BLOCK, words=2048, length=8),
        case("0 2050", KEY, line=8, width=64, height=32),
    ]


def repeating():
    """Keys of tiles that repeat inside their size. The bank is zeros before."""
    return [
        # 0 to 63. Four columns are shown of eight, of 64 and of five, and mirrored
        case("0 64", BLOCK, words=8, length=64),
        case("0 12", KEY, masks=2),
        case("0 12", KEY, masks=2, width=64),
        case("0 12", KEY, masks=2, width=5),
        case("0 12", KEY, masks=2, cms=1),
        # clamped, and where it repeats every eight: all eight
        case("0 24", KEY, masks=2, cms=2),
        case("0 24", KEY, masks=2, cms=3),
        case("0 24", KEY, masks=3),
        # two rows are shown of eight; and four columns of two rows, which are 0 to 3 and, halves swapped, 12 to 15
        case("0 48", KEY, maskt=1, height=8),
        case("0 24", KEY, masks=2, maskt=1, height=8),
        # across it repeats past its size, so it is a lookup of 64 values, whatever it does down
        case("0 2176", KEY, masks=4, maskt=1, height=8),
        # of an odd line and so tall it is a lookup; of an even line two rows are shown
        case("0 4096", KEY, fmt=I, mode=0, maskt=1, width=1, height=257),
        case("0 2", KEY, fmt=I, mode=0, maskt=1, line=2, width=1, height=257),
    ]


def parts():
    """Where the source is in the companion, and where it ends."""
    return [
        # up to the file's last byte: 0, 1, 2 and 251 to 255. A byte further on, and the key is as it was
        case("0 8", BLOCK, offset=END - 8),
        case("0 24", KEY),
        case("11 0", BLOCK, offset=END - 7),
        case("11 0", TILE, offset=END - 7),
        case("11 0", TLUT, offset=END - 1),
        case("0 24", KEY),
        # 251 to 255 and three zeros
        case("0 8", BLOCK, offset=END - 5, length=5),
        case("0 20", KEY),
        # nothing at the end is all zeros, and past the end it is refused, even where no word is asked for
        case("0 8", BLOCK, offset=END, length=0),
        case("0 10", KEY),
        case("11 0", BLOCK, offset=END, length=1),
        case("11 0", BLOCK, offset=END + 1, length=0),
        case("11 0", BLOCK, offset=END + 1, length=0, words=0),
        # the largest length at the start, and up to the last byte: there 5, 6, 0 of a group and 0 to 4 of the next
        case("0 8", BLOCK, length=65536),
        case("0 24", KEY),
        case("0 8", BLOCK, offset=END - 65536, length=65536),
        case("0 22", KEY),
        case("11 0", BLOCK, offset=END - 65535, length=65536),
        # offsets of 32 bits: the sum is 2^32 - 1, 2^32, and more, which would leave 65,535, 8 and 0
        case("11 0", BLOCK, offset=TOP - 1, length=0),
        case("11 0", BLOCK, offset=TOP - 1, length=1),
        case("11 0", BLOCK, offset=TOP - 1, length=65536),
        case("11 0", TILE, offset=TOP - 65528, length=65536),
        case("11 0", TLUT, offset=TOP - 65536, length=65536),
        case("11 0", BLOCK, offset=TOP // 2),
        case("11 0", BLOCK, offset=65536 * 256),
        case("0 22", KEY),
        # the stated part is the source, though the file goes on: 1, 2, 3 and five zeros; then no byte of it
        case("0 8", BLOCK, offset=1, length=3),
        case("0 16", KEY),
        case("0 8", TILE, offset=1, length=0),
        case("0 10", KEY),
        # words past the part: two whole, then two of zeros; rows past it: two whole, half a one, and none
        case("0 32", BLOCK, offset=1, words=4, length=16),
        case("0 66", KEY, width=32),
        case("0 32", TILE, offset=1, line=1, rows=4, stride=8, length=20),
        case("0 74", KEY, height=4),
        # entries past it: 1, 2 and 3, 4 and 5, 0 and 0, 0; by rows: 1, 2 and 3, 0
        case("0 32", TLUT, offset=1, count=4, length=5),
        case("0 44", KEY, width=32),
        case("0 16", TLUT, offset=1, image=0, count=2, length=3),
        case("0 24", KEY, width=16),
        # groups forth and back, and one again; octal 20000, 47040, 60650, 40000, 30071, 20010
        case("0 8", BLOCK, offset=8 * 8192),
        case("0 14", KEY),
        case("0 8", TILE, offset=8 * 20000),
        case("0 24", KEY),
        case("0 8", BLOCK, offset=8 * 25000),
        case("0 12", KEY),
        case("0 8", TILE, offset=8 * 16384),
        case("0 18", KEY),
        case("0 8", BLOCK, offset=8 * 12345),
        case("0 16", KEY),
        case("0 8", BLOCK, offset=8 * 8200),
        case("0 16", KEY),
        case("0 8", BLOCK, offset=8 * 8200),
        case("0 16", KEY),
    ]


def refused():
    """Each refusal, and which comes first. The bank's first bytes are zeros, and each load would make them others."""
    same = case("0 10", KEY)
    made = [case("0 8", BLOCK, length=0), same]
    # an unknown kind: with a block's fields, with each of them wrong, and with nothing but wrong ones
    made.append(case("10 0", 4, **USUAL[BLOCK]))
    made.append(case("10 0", 128, fmt=8, siz=4, line=512, image=4, words=2049, offset=TOP - 1, length=70000))
    made.append(("10 0", bytes([255]) * 48))
    made.append(same)
    # a field outside its range: the four that a load takes, and all of a key's
    made += [case("2 0", kind, **{name: TILE_MOST[name] + 1}) for kind in LOAD_MOST for name in LOADED]
    made += [case("2 0", KEY, **{name: most + 1}) for name, most in TILE_MOST.items()]
    made.append(same)
    # a key's mode and lane; and the numbers of each kind of load, its length last; big end first, so that 256 is not 1
    made += [case("3 0", KEY, mode=4), case("3 0", KEY, lane=4), case("3 0", KEY, mode=255, lane=255)]
    made += [case("4 0", kind, **{name: most + 1}) for kind in LOAD_MOST for name, most in LOAD_MOST[kind].items()]
    made += [case("4 0", TLUT, rows=0), case("4 0", BLOCK, image=256), case("4 0", TILE, words=65535, rows=0)]
    made.append(same)
    # a pair that is not accepted, in modes 0 and 1; in mode 2 it is, and reads every other byte: from 8 on they hold 3
    made += [case("5 0", KEY, fmt=YUV, siz=2, mode=0), case("5 0", KEY, fmt=7, siz=3, mode=1)]
    made.append(case("0 12", KEY, fmt=7, siz=3))
    # 2 before 3, 4, 11 and 5
    made += [case("2 0", KEY, width=4097, mode=4), case("2 0", KEY, fmt=YUV, siz=2, mode=0, line=512)]
    made += [case("2 0", BLOCK, fmt=8, words=2049), case("2 0", TILE, line=512, image=4)]
    made += [case("2 0", TLUT, tmem_addr=512, rows=0), case("2 0", BLOCK, siz=4, offset=END)]
    # 3 before 5
    made += [case("3 0", KEY, fmt=YUV, siz=2, mode=0, lane=4), case("3 0", KEY, fmt=YUV, siz=2, mode=4)]
    # 4 before 11: a length that also ends past the file, and one that adds up to 2^32; each kind's numbers
    made += [case("4 0", BLOCK, offset=END - 8, length=70000), case("4 0", BLOCK, offset=1, length=TOP - 1)]
    made += [case("4 0", BLOCK, dxt=4096, offset=END), case("4 0", TILE, rows=1025, offset=TOP - 1)]
    made += [case("4 0", TLUT, rows=0, offset=END), same]
    return made


def ignored():
    """Fields that their kind has no use for, with any value: the load or key is done as ever."""
    wide = 65535
    tile = dict(lane=200, mode=9, palette=99, cms=255, cmt=255, masks=255, maskt=255, width=wide, height=wide)
    tail = dict(ignored=bytes([255]) * 10)
    return [
        case("0 8", BLOCK, **tile, **tail, rows=wide, count=wide, stride=wide),
        case("0 24", KEY, **tail, **dict.fromkeys(LOAD_FIELDS, wide), **dict.fromkeys(SOURCE_FIELDS, TOP - 1)),
        case("0 8", TILE, **tile, **tail, dxt=wide, count=wide, length=4),
        case("0 16", KEY, **tail),
        case("0 8", TLUT, **tile, **tail, dxt=wide, words=wide),
        case("0 12", KEY, length=65537),
    ]


def walk():
    """Small loads through the companion's groups, rising, falling, leaping and staying, of one to three words. After
    each comes the key of this load, or of one of the four before it. Groups side by side share their values."""
    places = [*GROUPS[:-3:70], *GROUPS[-3::-90], *(GROUPS[7919 * i % 17405] for i in range(300)), *[GROUPS[5]] * 8]
    made = []
    for i, group in enumerate(places):
        words = 1 + i % 3
        load = dict(tmem_addr=4 * (i % 64), offset=8 * group, words=words, length=8 * words)
        made.append(case(f"0 {8 * words}", i % 2, **load))
        asked = i - i % 5
        words = 1 + asked % 3
        entries = max(values(places[asked] + word) for word in range(words))
        made.append(case(f"0 {8 * words + 2 * entries}", KEY, tmem_addr=4 * (asked % 64), width=8 * words))
    return made


def replay_cases():
    """The lines and the records of all cases; a torn tail is the last."""
    torn = "8 0", replay_record(BLOCK, **USUAL[BLOCK])[:47]
    lines, records = zip(*kinds(), *limits(), *repeating(), *parts(), *refused(), *ignored(), *walk(), torn)
    return "".join(line + "\n" for line in lines), b"".join(records)


def main():
    samples = Path(__file__).resolve().parent
    crates = samples.parent / "crates"
    capture = played(Capture(20010), (96, 40, 16, 20, 30, 20, 6, 6))
    (samples / "capture.bin").write_bytes(b"".join(capture.records))
    (crates / "lister/stdin").write_bytes(cases())
    replay = played(Loads(20011), (32, 20, 8, 10, 10, 10, 3, 3))
    (samples / "replay.bin").write_bytes(b"".join(replay.records))
    (samples / "companion.bin").write_bytes(replay.companion)
    lines, records = replay_cases()
    (crates / "replay/data").mkdir(parents=True, exist_ok=True)
    (crates / "replay/stdin").write_bytes(records)
    (crates / "replay/stdout").write_text(lines)
    (crates / "replay/args").write_text("companion.bin\n")
    (crates / "replay/data/companion.bin").write_bytes(cases_companion())


if __name__ == "__main__":
    main()
