"""The replay of a capture's loads over one bank."""

from __future__ import annotations

import os
import struct
from dataclasses import dataclass, fields
from typing import TYPE_CHECKING, BinaryIO, Iterator

from tulonkasa.bank import Bank
from tulonkasa.parameters import fixed
from tulonkasa.pieces import opened, pieces, whole_or_rest
from tulonkasa.refusal import Refused
from tulonkasa.sizes import RECORD_BYTES, SOURCE_MOST, TILE_BYTES
from tulonkasa.tile import Tile

if TYPE_CHECKING:
    from _typeshed import ReadableBuffer

    from tulonkasa.pieces import Source

KINDS = ("block", "tile", "palette", "key")
HEAD = struct.Struct(">2B")
LOAD = struct.Struct(">6H2I10x")
TILE_AT = HEAD.size
LOAD_AT = TILE_AT + TILE_BYTES


@dataclass(frozen=True)
class ReplayRecord:
    """A record of a replay: a load, or the question for a picture's key. Each field that its kind does not take may hold anything.

    kind                            0 block, 1 tile, 2 palette, 3 key; `KINDS` has the words
    lane                            of a key
    tile                            the tile; a load takes its `fmt`, `siz`, `line` and `tmem_addr`
    image_siz                       of a load: the size of the image that is loaded from
    dxt, words, rows, count, stride the numbers of a load
    offset, length                  where a load's source stands in the companion file
    """

    kind: int = 0
    lane: int = 0
    tile: Tile = Tile()
    image_siz: int = 0
    dxt: int = 0
    words: int = 0
    rows: int = 0
    count: int = 0
    stride: int = 0
    offset: int = 0
    length: int = 0

    @classmethod
    def from_bytes(cls, data: ReadableBuffer) -> ReplayRecord:
        """The record of 48 bytes. Any are one; its numbers may be out of range. Other lengths raise `ValueError`."""
        data = fixed(data)
        if len(data) != RECORD_BYTES:
            raise ValueError(f"a record of a replay has {RECORD_BYTES} bytes, and these are {len(data):,}")
        kind, lane = HEAD.unpack_from(data)
        return cls(kind, lane, Tile.from_bytes(data[TILE_AT:LOAD_AT]), *LOAD.unpack_from(data, LOAD_AT))

    def __bytes__(self) -> bytes:
        """The 48 bytes of this record. A number that does not fit its bytes raises `OverflowError`, or is the tile's, refused by 2."""
        numbers = [getattr(self, field.name) for field in fields(self)[3:]]
        try:
            return HEAD.pack(self.kind, self.lane) + bytes(self.tile) + LOAD.pack(*numbers)
        except struct.error as error:
            raise OverflowError(f"a number of {self} does not fit its bytes: {error}") from None

    @property
    def is_load(self) -> bool:
        """Whether it is a load."""
        return self.kind < KINDS.index("key")


@dataclass(frozen=True)
class Replayed:
    """What a record of a replay did.

    number    the record's number, counted from 0
    record    the record
    refused   why it was refused, none if it was not; a refused record has changed nothing
    count     how often its load stored a byte, or how many bytes its key would keep; 0 where it is refused
    load      the number of its load, which `Bank.written` then has; 0 of a key and of a refused record
    """

    number: int
    record: ReplayRecord
    refused: Refused | None
    count: int
    load: int


def replay(records: Source, companion: Source, bank: Bank | None = None) -> Iterator[Replayed]:
    """Does the records of a replay in turn, and says of each what it did. The bank is carried from record to record: the one that is given,
    which can be looked at in between, or a fresh one.

    Both sources are what `Capture` takes, but that the companion file must be one that can be sought in: no pipe. It is read piece by
    piece, and may have any size. A refusal does not stop a replay. Records that end inside one raise `Torn` after the whole ones.

    >>> block = ReplayRecord(tile=Tile(siz=2), image_siz=2, words=1, length=8)
    >>> key = ReplayRecord(kind=3, tile=Tile(siz=2, width=4, height=1))
    >>> for done in replay(bytes(block) + bytes(key) + bytes(block), bytes(range(8))):
    ...     print(KINDS[done.record.kind], done.count, done.load)
    block 8 1
    key 8 0
    block 8 2
    """
    bank = Bank() if bank is None else bank
    with opened(companion) as file:
        end = file.seek(0, os.SEEK_END)
        for number, data in enumerate(pieces(records, RECORD_BYTES)):
            yield replayed(bank, number, data, file, end)


def replayed(bank: Bank, number: int, data: bytes, companion: BinaryIO, end: int) -> Replayed:
    """Does one record, whose source is read from the companion file."""
    record = ReplayRecord.from_bytes(data)
    before = bank.written.last
    try:
        count = bank.replay_record(data, end, part_of(record, companion) if record.is_load else b"")
    except Refused as refused:
        return Replayed(number, record, refused, 0, 0)
    return Replayed(number, record, None, count, bank.written.last if bank.written.last > before else 0)


def part_of(record: ReplayRecord, companion: BinaryIO) -> bytes:
    """The source of a load. A longer one than is ever taken is refused, whatever is read of it."""
    companion.seek(record.offset)
    return whole_or_rest(companion, min(record.length, SOURCE_MOST))
