"""Captures: files of tiles with their banks."""

from __future__ import annotations

from dataclasses import dataclass
from typing import TYPE_CHECKING, Iterator

from tulonkasa.bank import Bank
from tulonkasa.key import Key
from tulonkasa.picture import Picture
from tulonkasa.pieces import name_of, pieces
from tulonkasa.sizes import CAPTURE_BYTES, TILE_BYTES
from tulonkasa.tile import Tile

if TYPE_CHECKING:
    from tulonkasa.pieces import Source


@dataclass(frozen=True)
class Record:
    """A record of a capture: a tile and its bank, whose lane is 0.

    number    its number in the capture, counted from 0
    tile      the tile, with its mode; its numbers may be out of range
    bank      the bank, none of whose bytes is written by a load
    lane      0: a capture's records have no other
    """

    number: int
    tile: Tile
    bank: Bank
    lane: int = 0

    def key(self) -> Key:
        """The key of the record's visible picture; as `Bank.key` says."""
        return self.bank.key(self.tile, self.lane)

    def sample(self) -> Picture:
        """The picture that the record's tile calls for; as `Bank.sample` says."""
        return self.bank.sample(self.tile, self.lane)


class Capture:
    """A capture: records of 4,112 bytes, one behind the other, each a tile of sixteen bytes and its bank. It gives them one by one, and
    holds one at a time, so that a capture may have any length.

    The source is the path of a file; `-` for standard input; a file that is open in binary mode, a pipe among them; or bytes. A path is
    opened whenever the iteration begins, and closed when it ends; any other file goes on where it stands.

    Any tile is given, whatever its numbers: what is refused is refused by the calls on it. An input that ends inside a record raises
    `Torn` after the whole ones, which says how many bytes are left.

    >>> tile = Tile(fmt=4, siz=1, width=2, height=1)
    >>> for record in Capture(bytes(tile) + bytes(4096)):
    ...     print(record.number, record.key().kept, record.sample())
    0 2 <Picture of 2 by 1>
    """

    __slots__ = ("_source",)

    def __init__(self, source: Source) -> None:
        """The capture of a path, of `-`, of an open file, or of bytes. Nothing is read before the iteration begins."""
        self._source = source

    @property
    def name(self) -> str:
        """What messages call it: the path, or `standard input`."""
        return name_of(self._source)

    def __iter__(self) -> Iterator[Record]:
        for number, piece in enumerate(pieces(self._source, CAPTURE_BYTES)):
            yield Record(number, Tile.from_bytes(piece[:TILE_BYTES]), Bank(piece[TILE_BYTES:]))

    def __repr__(self) -> str:
        return f"<Capture of {self.name}>"
