"""The records of a capture, each with the key that it is filed under or the refusal."""

from __future__ import annotations

import os
import stat
from collections.abc import Iterator
from typing import IO, NamedTuple

from tulonkasa import CAPTURE_BYTES, Bank, Capture, Key, Record, Refused, Tile
from tulonkasa.command.files import opened, reading
from tulonkasa.command.talk import progress


class Filed(NamedTuple):
    """A record of a capture. It has a key, or is refused."""

    number: int
    tile: Tile
    bank: Bank
    key: Key | None
    refusal: Refused | None

    @property
    def digest(self) -> str:
        """The name of what the record is filed under; nothing for a refused one."""
        return self.key.digest if self.key else ""

    @property
    def size(self) -> str:
        """The size of the picture that the tile calls for."""
        sampling = self.tile.sampling()
        return f"{sampling.width}x{sampling.height}" if sampling.lookup else f"{self.tile.width}x{self.tile.height}"


def filed(record: Record) -> Filed:
    """A record with its key, or the refusal."""
    try:
        key, refusal = record.key(), None
    except Refused as refused:
        key, refusal = None, refused
    return Filed(record.number, record.tile, record.bank, key, refusal)


def file_records(file: IO[bytes], name: str) -> Iterator[Filed]:
    """The records of an open file in turn."""
    with reading(name):
        yield from map(filed, progress(Capture(file), pieces_in(file, CAPTURE_BYTES)))


def filed_records(name: str) -> Iterator[Filed]:
    """The records of a capture in turn."""
    with opened(name) as file:
        yield from file_records(file, name)


def pieces_in(file: IO[bytes], length: int) -> int | None:
    """How many records of a length a file has; nothing for a pipe."""
    status = os.fstat(file.fileno())
    return status.st_size // length if stat.S_ISREG(status.st_mode) else None
