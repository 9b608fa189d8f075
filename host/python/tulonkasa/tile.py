"""The tile record, and the calls that need no bank."""

from __future__ import annotations

import operator
import struct
from dataclasses import dataclass
from typing import TYPE_CHECKING

from tulonkasa import exports
from tulonkasa.marks import Marks
from tulonkasa.picture import Picture
from tulonkasa.refusal import Refused, refuse
from tulonkasa.sizes import MAP_BYTES, SIDE_MOST

if TYPE_CHECKING:
    from _typeshed import ReadableBuffer

RECORD = struct.Struct(">8B4H")
NUMBERS = operator.attrgetter(*(parameter.name for parameter in exports.TILE))


@dataclass(frozen=True)
class Sampling:
    """Which picture a tile calls for, and the texels to allocate for it.

    lookup    whether the tile calls for a lookup (flag 1), and not for a plain picture (flag 0)
    width     texels across: 4,096 for a lookup, else the tile's width, at least 1
    height    texels down: 4 for a lookup, else the tile's height, at least 1
    """

    lookup: bool
    width: int
    height: int


@dataclass(frozen=True)
class Tile:
    """A tile and its mode: how to read a bank. All zero is a tile at the bank's start, of no texels.

    fmt           format, 0 to 7: 0 RGBA, 1 YUV, 2 indexed, 3 intensity and alpha, 4 intensity
    siz           size, 0 to 3: 4, 8, 16 or 32 bits a texel
    palette       which sixteen palette entries a 4-bit index picks from, 0 to 15
    mode          0 and 1: no palette; 2: a palette of RGBA 5/5/5/1; 3: a palette of intensity and alpha
    cms, cmt      across and down, 0 to 3: value 1 mirrors, value 2 clamps
    masks, maskt  across and down, 0 to 15: the tile repeats every 2^mask texels; 0 for no repeating
    line          words of eight bytes from one row to the next, 0 to 511
    tmem_addr     the word of eight bytes at which the tile begins, 0 to 511
    width, height texels across and down, 0 to 4,096

    Every number can be written down; one out of range is refused by the call that it is given to.

    >>> tile = Tile(fmt=4, siz=1, line=1, width=256, height=32)
    >>> tile == Tile.from_bytes(bytes(tile))
    True
    """

    fmt: int = 0
    siz: int = 0
    palette: int = 0
    mode: int = 0
    cms: int = 0
    cmt: int = 0
    masks: int = 0
    maskt: int = 0
    line: int = 0
    tmem_addr: int = 0
    width: int = 0
    height: int = 0

    @classmethod
    def from_bytes(cls, data: ReadableBuffer) -> Tile:
        """The tile of a record's sixteen bytes: `fmt`, `siz`, `palette`, `mode`, `cms`, `cmt`, `masks` and `maskt`, a byte each; `line`,
        `tmem_addr`, `width` and `height`, two bytes each, high byte first. Any sixteen bytes are a tile, whose numbers may be out of
        range. Other lengths raise `ValueError`.

        >>> Tile.from_bytes(bytes([4, 1, 0, 0, 0, 0, 0, 0, 0, 1, 0, 0, 1, 0, 0, 32])).width
        256
        """
        try:
            return cls(*RECORD.unpack(data))
        except struct.error:
            raise ValueError(f"a tile has {RECORD.size} bytes, and these are {memoryview(data).nbytes:,}") from None

    def __bytes__(self) -> bytes:
        """The sixteen bytes of this tile. A number that does not fit its bytes is out of range, and refused by 2."""
        try:
            return RECORD.pack(*self.numbers)
        except struct.error:
            raise Refused(2) from None

    @property
    def numbers(self) -> tuple[int, ...]:
        """The twelve numbers, in the order in which the library takes them."""
        return NUMBERS(self)

    def sampling(self) -> Sampling:
        """Which picture the tile calls for. Refused by 2 and 3.

        >>> Tile(width=16, height=1, masks=5).sampling()
        Sampling(lookup=True, width=4096, height=4)
        """
        answer = exports.tk_sampling(*self.numbers)
        refuse(answer.refusal)
        return Sampling(answer.flag == 1, answer.width, answer.height)

    def reach(self) -> Marks:
        """The addresses that the tile can reach. Refused by 2 and 3.

        >>> list(Tile(fmt=4, siz=1, tmem_addr=2, width=3, height=1).reach())
        [16, 17, 18]
        """
        marks = bytearray(MAP_BYTES)
        refuse(exports.tk_reach(*self.numbers, marks))
        return Marks(marks)

    def decode_linear(self, source: ReadableBuffer, stride: int) -> Picture:
        """Decodes a source straight to a picture, without a bank: the source's rows are `stride` bytes apart, and zeros past its end.

        Every pair that mode 0 accepts has such a reading but (2,3); an indexed texel is the index itself. Of the tile it takes `fmt`,
        `siz`, `palette`, `width` and `height`. Refused by 2, 4 and 5.

        What goes in comes out: it is the picture that `Bank.picture` makes in mode 0 or 1 after `Bank.load_tile` of the same source and
        stride into any bank, where the image has the tile's size, the load has `height` rows, at most 256, of as many words as the width
        needs, a row fits the line, and all lines are inside the bank.

        >>> from tulonkasa import Bank
        >>> tile = Tile(fmt=0, siz=3, line=1, width=1, height=2)
        >>> source = bytes([255, 0, 0, 255, 0, 0, 255, 128])
        >>> bank = Bank(bytes([7]) * 4096)
        >>> _ = bank.load_tile(source, tile, image_siz=3, rows=2, words=1, stride=4)
        >>> tile.decode_linear(source, stride=4).bytes == bank.picture(tile).bytes == source
        True
        """
        # A side past the limit is refused, whatever is lent.
        across, down = (side if 0 <= side <= SIDE_MOST else 0 for side in (self.width, self.height))
        texels = bytearray(4 * across * down)
        answer = exports.tk_decode_linear(
            source, self.fmt, self.siz, self.palette, self.width, self.height, stride, texels
        )
        refuse(answer.refusal)
        return Picture(self.width, self.height, bytes(texels))
