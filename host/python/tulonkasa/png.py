"""Pictures as PNG files, which every browser and every painter's tool reads."""

from __future__ import annotations

import struct
import zlib

SIGNATURE = b"\x89PNG\r\n\x1a\n"
DEPTH, RED_GREEN_BLUE_ALPHA, DEFLATE, ADAPTIVE, NOT_INTERLACED = 8, 6, 0, 0, 0
NO_FILTER = b"\0"


def chunk(kind: bytes, data: bytes) -> bytes:
    """A part of the file: its length, its kind, what it holds, and a sum over the last two."""
    return struct.pack(">I", len(data)) + kind + data + struct.pack(">I", zlib.crc32(kind + data))


def png(width: int, height: int, texels: bytes) -> bytes:
    """The file of a picture with eight bits each of red, green, blue and alpha. No side is zero."""
    head = struct.pack(">2I5B", width, height, DEPTH, RED_GREEN_BLUE_ALPHA, DEFLATE, ADAPTIVE, NOT_INTERLACED)
    row = 4 * width
    rows = b"".join(NO_FILTER + texels[place : place + row] for place in range(0, row * height, row))
    return SIGNATURE + chunk(b"IHDR", head) + chunk(b"IDAT", zlib.compress(rows)) + chunk(b"IEND", b"")
