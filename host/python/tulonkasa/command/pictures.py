"""What is shown of a record: the visible picture, the addresses that making it reads, and the bank as a picture with these lit."""

from __future__ import annotations

import functools
from collections.abc import Iterable, Mapping
from dataclasses import replace

from tulonkasa import BANK_BYTES, Bank, Picture, Tile

CLAMP = 2
BANK_SIDE = 64

Shades = tuple[tuple[int, int, int], tuple[int, int, int]]

# The darkest and the brightest of bytes that are left over, that are read, and that differ between captures.
LEFT_OVER: Shades = ((14, 15, 22), (58, 60, 78))
LIT: Shades = ((150, 84, 16), (255, 216, 120))
CHANGED: Shades = ((18, 44, 84), (56, 112, 188))
# With a replay, of read bytes that no load wrote, and of those that a load wrote, for each load in turn.
UNWRITTEN: Shades = ((96, 96, 96), (220, 220, 220))
LOADS: tuple[Shades, ...] = (
    LIT,
    ((24, 120, 140), (140, 240, 255)),
    ((120, 40, 130), (250, 170, 255)),
    ((40, 124, 52), (176, 255, 160)),
    ((150, 40, 48), (255, 168, 160)),
    ((60, 70, 160), (180, 190, 255)),
)


def visible(tile: Tile) -> Tile:
    """The tile of what is visible of a plain picture: an axis that repeats inside its size is cut down to what is repeated."""
    return replace(
        tile,
        width=visible_side(tile.width, tile.masks, tile.cms),
        height=visible_side(tile.height, tile.maskt, tile.cmt),
    )


def visible_side(size: int, mask: int, clamping: int) -> int:
    """How many columns or rows are visible."""
    repeats = mask != 0 and not clamping & CLAMP and 1 << mask < size
    return 1 << mask if repeats else size


def shown(bank: Bank, tile: Tile) -> Picture:
    """The visible picture. Equal keys of one tile give equal ones."""
    if tile.sampling().lookup:
        return bank.lookup(tile)
    return bank.picture(visible(tile))


def addresses_read(bank: Bank, tile: Tile, lane: int = 0) -> list[int]:
    """The addresses that making the visible picture reads, rising. They are those that the key keeps."""
    if tile.sampling().lookup:
        observed = bank.lookup_observed(tile, lane)
    else:
        observed = bank.picture_observed(visible(tile), lane)
    return sorted(set(observed.trail))


@functools.cache
def texels_of(shades: Shades) -> list[bytes]:
    """The texel of each byte, from the darkest to the brightest."""
    return [bytes(dark + (bright - dark) * value // 255 for dark, bright in zip(*shades)) + b"\xff" for value in range(256)]


def bank_picture(bank: bytes, lit: Mapping[Shades, Iterable[int]]) -> Picture:
    """The bank as a picture of 64 by 64, a texel a byte, row by row: brighter for a greater byte, and some addresses in shades of their
    own."""
    texels = list(map(texels_of(LEFT_OVER).__getitem__, bank))
    for shades, addresses in lit.items():
        own = texels_of(shades)
        for address in addresses:
            texels[address] = own[bank[address]]
    return Picture(BANK_SIDE, BANK_BYTES // BANK_SIDE, b"".join(texels))


def load_shades(load: int) -> Shades:
    """The shades of what a load wrote, by its number; 0 is none."""
    return LOADS[(load - 1) % len(LOADS)] if load else UNWRITTEN


def picture_file(picture: Picture, pam: bool) -> bytes:
    """The picture as a file."""
    return picture.to_pam() if pam else picture.to_png()
