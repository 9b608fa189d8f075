#!/usr/bin/env python3
"""Draws captures that are worth looking at, the same bytes each time.

For the lister and the command: samples/drawn.bin, some forty records. Letters, bricks, a sign that was captured with different
leftover bytes and under two palettes, one wall at several widths, tall strips, pictures of every format, and records that are
refused. For the replay: samples/drawn-replay.bin, the loads that bring such pictures in, and samples/drawn-companion.bin, the file
that their sources are in.

Each picture is drawn texel by texel with whole numbers alone, so that every machine draws the same one."""

import sys
from math import isqrt
from pathlib import Path
from typing import NamedTuple

sys.dont_write_bytecode = True  # no compiled files are left beside the scripts
import make
from make import CI, I, IA, RGBA, YUV

GLYPHS = {
    "T": "##### ..#.. ..#.. ..#.. ..#.. ..#.. ..#..",
    "U": "#...# #...# #...# #...# #...# #...# .###.",
    "L": "#.... #.... #.... #.... #.... #.... #####",
    "O": ".###. #...# #...# #...# #...# #...# .###.",
    "N": "#...# ##..# #.#.# #.#.# #..## #...# #...#",
    "K": "#...# #..#. #.#.. ##... #.#.. #..#. #...#",
    "A": ".###. #...# #...# ##### #...# #...# #...#",
    "S": ".#### #.... #.... .###. ....# ....# ####.",
    "E": "##### #.... #.... ####. #.... #.... #####",
    "Y": "#...# #...# .#.#. ..#.. ..#.. ..#.. ..#..",
    "I": ".###. ..#.. ..#.. ..#.. ..#.. ..#.. .###.",
}

CLAMPED = dict(cms=2, cmt=2)


class Drawn(NamedTuple):
    """A picture as it was drawn: the rows that each half of the bank gets, the entries of its palette if it has one, and its tile. A
    record that no picture is made of has no rows, and the number of its refusal."""

    name: str
    fields: dict
    halves: tuple = ()
    entries: tuple = ()
    refusal: int = 0


def canvas(width, height, texel):
    """Rows of texels, each drawn by its place."""
    return [[texel(x, y) for x in range(width)] for y in range(height)]


def four_bit(rows):
    """Two texels a byte, the left one in the upper half."""
    return [bytes(left << 4 | right for left, right in zip(row[::2], row[1::2])) for row in rows]


def eight_bit(rows):
    return [bytes(row) for row in rows]


def sixteen_bit(rows):
    return [b"".join(texel.to_bytes(2, "big") for texel in row) for row in rows]


def rgba16(red, green, blue, alpha=255):
    """A colour of a byte each in five, five, five and one bits."""
    return red >> 3 << 11 | green >> 3 << 6 | blue >> 3 << 1 | alpha >> 7


def mixed(one, other, part, whole):
    """A colour between two: so many parts of the whole way from the one to the other."""
    return tuple(a + (b - a) * part // whole for a, b in zip(one, other))


def noise(x, y, most):
    """A number from 0 to `most` that looks like chance."""
    spread = (x * 374761393 + y * 668265263 + 1013904223) & 0xFFFFFFFF
    spread = (spread ^ spread >> 13) * 1274126177 & 0xFFFFFFFF
    return (spread ^ spread >> 16) % (most + 1)


def inked(letter, x, y):
    """Whether a letter, five by seven, has ink there."""
    return 0 <= x < 5 and 0 <= y < 7 and GLYPHS[letter].split()[y][x] == "#"


def distance(x, y, middle):
    """From the middle of a square picture of an even side, in sixteenths of a texel."""
    return isqrt((32 * x + 16 - 32 * middle) ** 2 + (32 * y + 16 - 32 * middle) ** 2) // 2


def letters():
    """The letters of a word as the game needs them one by one, so that A comes twice. Sixteen by sixteen intensities of four bits: a
    face that is darker below, and a shadow."""

    def drawing(letter):
        def texel(x, y):
            if inked(letter, (x - 3) // 2, (y - 1) // 2):
                return 15 - y // 4
            return 4 if inked(letter, (x - 4) // 2, (y - 2) // 2) else 0

        return canvas(16, 16, texel)

    for letter in "TULONKASA":
        rows = four_bit(drawing(letter))
        yield Drawn(f"letter {letter}", dict(fmt=I, siz=0, **CLAMPED, line=1, width=16, height=16), (rows,))


def outlined_letters():
    """Letters with a dark edge on nothing: three bits of intensity and one of alpha."""

    def drawing(letter):
        def ink(x, y):
            return inked(letter, (x - 3) // 2, (y - 1) // 2)

        def texel(x, y):
            if ink(x, y):
                return (14 - y // 3) & 14 | 1
            return int(any(ink(x + across, y + down) for across in (-1, 0, 1) for down in (-1, 0, 1)))

        return canvas(16, 16, texel)

    for letter in "KEY":
        rows = four_bit(drawing(letter))
        yield Drawn(f"outlined {letter}", dict(fmt=IA, siz=0, **CLAMPED, line=1, width=16, height=16), (rows,))


def masonry(clay, mortar, wide, high, side):
    """Bricks of so many texels, in a picture as wide as high that goes on at its edges."""

    def texel(x, y):
        course = y // high
        across = (x + course % 2 * wide // 2) % side
        if y % high == high - 1 or across % wide == wide - 1:
            return rgba16(*mixed(mortar, (0, 0, 0), noise(x, y, 3), 12))
        tone = noise(across // wide, course, 5) + noise(x, y, 2) + (3 if y % high == high - 2 else 0)
        return rgba16(*mixed(clay, (20, 8, 8), tone, 16))

    return sixteen_bit(canvas(side, side, texel))


def bricks():
    """Two walls of thirty-two by thirty-two colours of sixteen bits, which repeat at their edges."""
    tile = dict(fmt=RGBA, siz=2, masks=5, maskt=5, line=8, width=32, height=32)
    yield Drawn("red bricks", tile, (masonry((214, 96, 64), (190, 180, 160), 16, 8, 32),))
    yield Drawn("grey stones", tile, (masonry((150, 160, 150), (70, 82, 66), 8, 8, 32),))


def sign_indexes():
    """A board with three letters: 0 nothing, 1 edge, 2 to 4 wood, 5 and 6 letters and their shadow, 7 nails."""

    def texel(x, y):
        if (x in (0, 31) and y in (0, 15)) or y == 15 and x % 31 in (1, 30):
            return 0
        if x in (0, 31) or y in (0, 15):
            return 1
        if x in (3, 28) and y in (3, 12):
            return 7
        for place, letter in enumerate("INN"):
            if inked(letter, x - 7 - 6 * place, y - 4):
                return 6
            if inked(letter, x - 8 - 6 * place, y - 5):
                return 5
        return 1 if y % 5 == 4 and noise(x, y, 3) else 2 + noise(x // 4, y, 2)

    return four_bit(canvas(32, 16, texel))


DAY = ((0, 0, 0, 0), (66, 40, 24), (140, 88, 48), (156, 104, 56), (172, 120, 64), (80, 48, 24), (248, 216, 96), (216, 216, 224))
NIGHT = ((0, 0, 0, 0), (16, 16, 40), (40, 40, 80), (48, 48, 92), (56, 56, 104), (24, 24, 48), (255, 240, 160), (120, 128, 168))


def signs():
    """A sign that was captured three times by day, each time after other loads, and then by night: the same indexes under another
    palette. Entries 8 to 15 are never looked up."""
    rows = sign_indexes()
    tile = dict(fmt=CI, siz=0, palette=3, mode=2, **CLAMPED, line=2, tmem_addr=64, width=32, height=16)
    for name, colours in (("sign by day", DAY), ("sign by day", DAY), ("sign by day", DAY), ("sign by night", NIGHT)):
        entries = tuple(rgba16(*colour) for colour in colours) + (0xFFFF,) * 8
        yield Drawn(name, tile, (rows,), entries)


WALL_SIZES = ((16, 16), (32, 16), (64, 16), (128, 16), (64, 64))


def walls():
    """One wall that repeats every sixteen columns and rows, captured at several sizes."""
    rows = masonry((196, 140, 88), (120, 108, 96), 8, 4, 16)
    for width, height in WALL_SIZES:
        tile = dict(fmt=RGBA, siz=2, masks=4, maskt=4, line=4, width=width, height=height)
        yield Drawn(f"wall {width} by {height}", tile, (rows,))


def strips():
    """A vine from the ground up to the stars, 256 rows, which fill the bank. As a strip of 1,280 rows it comes five times."""
    sky = ((8, 8, 40), (48, 56, 136), (136, 168, 232), (248, 208, 168))

    def texel(x, y):
        stem = 3 + (2 - abs(y % 32 // 4 - 4)) // 2
        if x in (stem, stem + 1):
            return rgba16(40, 120 - 24 * (x - stem), 48)
        side, leaf = (x - stem - 2, y % 16) if y % 32 < 16 else (stem - 1 - x, y % 16)
        if 0 <= side <= 2 and 4 <= leaf - side <= 8 - side:
            return rgba16(88 + 24 * side, 184, 72)
        if y < 96 and noise(x, y, 28) == 0:
            return rgba16(255, 255, 216)
        third, part = divmod(y, 86)
        return rgba16(*mixed(sky[third], sky[third + 1], part, 86))

    rows = sixteen_bit(canvas(8, 256, texel))
    for height in (256, 1280):
        yield Drawn(f"strip of {height}", dict(fmt=RGBA, siz=2, **CLAMPED, line=2, width=8, height=height), (rows,))


def suns():
    """A sun with a soft edge: four bytes a texel, red and green in the low half of the bank, blue and alpha in the high one."""

    def texel(x, y):
        far = distance(x, y, 16)
        if far < 144:
            return (*mixed((255, 250, 200), (255, 196, 48), far, 144), 255)
        return (255, 160 - min(far - 144, 112), 32, max(0, 224 - 2 * (far - 144)))

    drawing = canvas(32, 32, texel)
    halves = [[bytes(part for texel in row for part in texel[first : first + 2]) for row in drawing] for first in (0, 2)]
    yield Drawn("sun", dict(fmt=RGBA, siz=3, **CLAMPED, line=8, width=32, height=32), tuple(halves))


def posters():
    """Pictures through a palette of 256 entries, a byte a texel: an evening at sea in colours, and a ring of smoke in intensities
    with alpha."""
    dusk = [mixed((72, 40, 120), (255, 176, 96), part, 127) for part in range(128)]
    sea = [mixed((200, 120, 96), (16, 32, 80), part, 127) for part in range(128)]
    colours = tuple(rgba16(*colour) for colour in dusk + sea)
    shades = tuple((128 + part // 2) << 8 | part for part in range(256))

    def evening(x, y):
        if y < 20:
            return 127 if distance(x, y, 16) < 96 else 6 * y + noise(x, y, 6)
        return 128 + 9 * (y - 20) + noise(x // 3, y, 15) - (8 if abs(x - 16) < y - 17 and (x + y) % 3 else 0)

    def smoke(x, y):
        return max(0, 255 - 4 * abs(distance(x, y, 16) - 160) - noise(x, y, 24))

    tile = dict(fmt=CI, siz=1, **CLAMPED, line=4, width=32, height=32)
    yield Drawn("evening", dict(tile, mode=2), (eight_bit(canvas(32, 32, evening)),), colours)
    yield Drawn("smoke", dict(tile, mode=3), (eight_bit(canvas(32, 32, smoke)),), shades)


def clouds():
    """A cloud of four bits intensity and four of alpha, a moon of eight bits intensity, and a gem of eight and eight."""

    def cloud(x, y):
        puffs = ((8, 10, 5), (15, 7, 6), (22, 10, 6), (15, 11, 5))
        inside = max(4 * size * size - (2 * x - 2 * left) ** 2 - (2 * y - 2 * top) ** 2 for left, top, size in puffs)
        return (15 - max(0, y - 5) // 2) << 4 | min(15, max(0, inside // 3)) if y < 15 else 0

    def moon(x, y):
        craters = ((5, 6, 4), (10, 9, 6), (7, 11, 2))
        hollow = any((x - left) ** 2 + (y - top) ** 2 <= size for left, top, size in craters)
        return 0 if distance(x, y, 8) > 120 else 232 - 5 * x - (56 if hollow else 0)

    def gem(x, y):
        edge = abs(2 * x - 15) + abs(2 * y - 15)
        facet = 248 if edge < 7 else (232, 184, 136, 88)[(x > 7) + 2 * (y > 7)]
        return 0 if edge > 15 else facet << 8 | 255 - 4 * edge

    tile = dict(**CLAMPED, line=4, height=16)
    yield Drawn("cloud", dict(tile, fmt=IA, siz=1, width=32), (eight_bit(canvas(32, 16, cloud)),))
    yield Drawn("moon", dict(tile, fmt=I, siz=1, line=2, width=16), (eight_bit(canvas(16, 16, moon)),))
    yield Drawn("gem", dict(tile, fmt=IA, siz=2, width=16), (sixteen_bit(canvas(16, 16, gem)),))


def lookups():
    """What calls for a lookup: a wall that repeats past its size, a tall picture of an odd line, and a film frame through a palette."""
    wall = masonry((120, 128, 176), (60, 64, 88), 16, 8, 32)
    yield Drawn("wall past its size", dict(fmt=RGBA, siz=2, masks=6, maskt=6, line=8, width=32, height=32), (wall,))
    steps = eight_bit(canvas(8, 256, lambda x, y: y // 2 + 16 * x))
    yield Drawn("tall of an odd line", dict(fmt=I, siz=1, **CLAMPED, line=1, width=8, height=300), (steps,))
    frame = eight_bit(canvas(32, 32, lambda x, y: 8 * (y // 4) + x // 4))
    colours = tuple(rgba16(255 - 3 * part, 96 + part, 4 * part) for part in range(64)) + (0xFFFF,) * 192
    yield Drawn("film frame", dict(fmt=YUV, siz=1, mode=2, **CLAMPED, line=4, width=32, height=32), (frame,), colours)


def odd_ones():
    """A picture without a column, which has a key of no bytes; and what is refused: two tiles out of range, a mode that is none, and
    two pairs of format and size that no picture is made of."""
    tile = dict(line=4, width=16, height=16)
    yield Drawn("no column", dict(tile, fmt=I, siz=1, width=0))
    yield Drawn("too wide", dict(tile, fmt=RGBA, siz=2, width=4097), refusal=2)
    yield Drawn("line out of range", dict(tile, fmt=RGBA, siz=2, line=512), refusal=2)
    yield Drawn("mode out of range", dict(tile, fmt=CI, siz=1, mode=4), refusal=3)
    yield Drawn("film without a palette", dict(tile, fmt=YUV, siz=2), refusal=5)
    yield Drawn("intensity of 32 bits", dict(tile, fmt=I, siz=3), refusal=5)


def scenes():
    """All that is drawn, in the order of the records."""
    parts = (letters, outlined_letters, bricks, signs, walls, strips, suns, posters, clouds, lookups, odd_ones)
    return [drawn for part in parts for drawn in part()]


def capture():
    """The records of a capture. The bank goes on from one to the next, so that each has the leftovers of those before it."""
    game = make.Capture(20020)
    for drawn in scenes():
        for _ in range(4):
            game.clutter()
        game.picture(drawn.halves, drawn.entries, **drawn.fields)
    return b"".join(game.records)


def replay():
    """The records and the companion file of a replay: pictures and their loads, a wall whose first row a later load overwrites, and what
    is refused."""
    game = make.Loads(20021)
    chosen = {drawn.name: drawn for drawn in scenes()}
    for name in ("letter A", "red bricks", "sign by day", "wall 64 by 16", "sun", "evening"):
        game.picture(chosen[name].halves, chosen[name].entries, **chosen[name].fields)
    wall = chosen["wall 64 by 16"]
    game.picture(wall.halves, **wall.fields)
    game.load(make.BLOCK, bytes(range(32)), fmt=RGBA, siz=2, image=2, words=4)
    game.take(**wall.fields)
    beyond = dict(siz=2, image=2, words=1, offset=len(game.companion), length=1)
    game.records += [make.replay_record(4), make.replay_record(make.BLOCK, **beyond), make.replay_record(make.BLOCK, image=4)]
    game.records += [make.replay_record(make.TILE, line=512), make.replay_record(make.KEY, mode=4)]
    game.records += [make.replay_record(make.KEY, fmt=YUV, siz=2)]
    return b"".join(game.records), bytes(game.companion)


def main():
    folder = Path(sys.argv[1]) if len(sys.argv) > 1 else Path(__file__).resolve().parent
    records, companion = replay()
    (folder / "drawn.bin").write_bytes(capture())
    (folder / "drawn-replay.bin").write_bytes(records)
    (folder / "drawn-companion.bin").write_bytes(companion)


if __name__ == "__main__":
    main()
