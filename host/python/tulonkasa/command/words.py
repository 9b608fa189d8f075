"""Numbers of a tile, records and addresses in words."""

from __future__ import annotations

from collections.abc import Iterable

from tulonkasa import Tile

FORMATS = ("RGBA", "YUV", "CI", "IA", "I")
BITS = (4, 8, 16, 32)
MODES = ("", "", "colours by palette", "shades by palette")


def format_words(tile: Tile) -> str:
    """A tile's format as artists call it, and its palette if it has one. The numbers may be out of range."""
    named = tile.fmt < len(FORMATS) and tile.siz < len(BITS)
    words = f"{FORMATS[tile.fmt]}{BITS[tile.siz]}" if named else f"format {tile.fmt}, size {tile.siz}"
    mode = MODES[tile.mode] if tile.mode < len(MODES) else f"mode {tile.mode}"
    return f"{words}, {mode}" if mode else words


def tile_words(tile: Tile) -> str:
    """A tile's format, size and place."""
    return f"{format_words(tile)}, {tile.width} × {tile.height}, line {tile.line}, from word {tile.tmem_addr} on"


def ranges(numbers: Iterable[int]) -> list[tuple[int, int]]:
    """Rising numbers as runs: the first and the last of each."""
    runs: list[tuple[int, int]] = []
    for number in numbers:
        if runs and runs[-1][1] == number - 1:
            runs[-1] = runs[-1][0], number
        else:
            runs.append((number, number))
    return runs


def range_words(numbers: Iterable[int]) -> str:
    """Rising numbers as text: 3,8-15,20."""
    return ",".join(str(first) if first == last else f"{first}-{last}" for first, last in ranges(numbers))


def listed(numbers: Iterable[int]) -> str:
    """Numbers in a sentence: 3, 8 and 15."""
    words = [f"{number:,}" for number in numbers]
    return " and ".join([", ".join(words[:-1]), words[-1]] if len(words) > 1 else words)
