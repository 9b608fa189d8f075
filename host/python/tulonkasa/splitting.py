"""Captures on two sides, tuning and held out, by their keys; and keys that were made elsewhere."""

from __future__ import annotations

import builtins
import enum
import itertools
from dataclasses import dataclass
from typing import TYPE_CHECKING, Iterable, Iterator

from tulonkasa import exports
from tulonkasa.bank import Bank
from tulonkasa.key import BODY_BYTES, Checked, Key
from tulonkasa.parameters import Number, fixed
from tulonkasa.pieces import pieces
from tulonkasa.refusal import refuse
from tulonkasa.sizes import BANK_BYTES, ENTRIES_MOST, ENTRY_BYTES, TILE_BYTES
from tulonkasa.tile import Tile

if TYPE_CHECKING:
    from tulonkasa.pieces import Source

BODY_AT = ENTRY_BYTES - BODY_BYTES
LANE_AT = BODY_AT + TILE_BYTES
KEY_AT = LANE_AT + 1
CAPTURE = Number("capture")


@dataclass(frozen=True, repr=False)
class Entry:
    """What `split` takes of a capture: its number, and the tile, the lane and the key of its picture. Entries that agree in all but the
    number are a group.

    bytes     the 4,117 bytes of the entry; of one that was made elsewhere they may be any

    >>> tile = Tile(fmt=4, siz=1, width=2, height=1)
    >>> entry = Entry.of(7, Bank(bytes([9]) * 4096).key(tile))
    >>> entry.capture, entry.tile == tile, entry.lane, list(entry.key[:3])
    (7, True, 0, [9, 9, 0])
    """

    bytes: builtins.bytes

    def __post_init__(self) -> None:
        object.__setattr__(self, "bytes", fixed(self.bytes))
        if len(self.bytes) != ENTRY_BYTES:
            raise ValueError(f"an entry has {ENTRY_BYTES:,} bytes, and these are {len(self.bytes):,}")

    @classmethod
    def of(cls, capture: int, key: Key) -> Entry:
        """The entry of a capture's number, of 32 bits, and its key."""
        (number,) = CAPTURE.hand(capture)
        return cls(number.to_bytes(BODY_AT, "big") + key.body)

    @property
    def capture(self) -> int:
        """The number of its capture, which does not matter to a split."""
        return int.from_bytes(self.bytes[:BODY_AT], "big")

    @property
    def tile(self) -> Tile:
        """Its tile and mode, whose numbers may be out of range."""
        return Tile.from_bytes(self.bytes[BODY_AT:LANE_AT])

    @property
    def lane(self) -> int:
        """Its lane, which may be out of range."""
        return self.bytes[LANE_AT]

    @property
    def key(self) -> builtins.bytes:
        """Its key, which may be any 4,096 bytes."""
        return self.bytes[KEY_AT:]

    @property
    def body(self) -> builtins.bytes:
        """What entries of one group have in common: the tile's sixteen bytes, the lane's one, and the key."""
        return self.bytes[BODY_AT:]

    def __bytes__(self) -> builtins.bytes:
        return self.bytes

    def __repr__(self) -> str:
        return f"<Entry of capture {self.capture}>"


class Side(enum.IntEnum):
    """The side of an entry; `str` says it in words."""

    TUNING = 0
    HELD_OUT = 1

    def __str__(self) -> str:
        return self.name.lower().replace("_", " ")


@dataclass(frozen=True)
class Split:
    """Entries on two sides.

    sides     the side of each entry, in their order
    tuning    how many entries are for tuning
    held_out  how many entries are held out
    """

    sides: list[Side]
    tuning: int
    held_out: int


def split(entries: Iterable[Entry]) -> Split:
    """Puts entries on two sides. Entries with equal bodies are a group, and groups take turns in the order of their first entries: of every
    five the fifth is held out, and the others are for tuning.

    So captures whose tile, lane and key agree are always on one side. A further entry of a group takes no turn. A side never depends on
    later entries: with more entries behind, these keep their sides. One wall captured at two widths is two groups, though it may have one
    key, because its tiles differ. More than 4,096 entries are refused by 16; docs/SCALE.md says how to split more.

    >>> tile = Tile(fmt=4, siz=1, width=1, height=1)
    >>> seen = [10, 11, 10, 12, 13, 14, 15, 14]  # the first and the third are one group; the fifth group has two entries
    >>> made = split(Entry.of(i, Bank(bytes([byte, i]) + bytes(4094)).key(tile)) for i, byte in enumerate(seen))
    >>> made.tuning, made.held_out, str(made.sides[5]), str(made.sides[7])
    (6, 2, 'held out', 'held out')
    """
    taken = [entry.bytes for entry in itertools.islice(entries, ENTRIES_MOST + 1)]  # with one too many it is refused
    sides = bytearray(len(taken))
    answer = exports.tk_split(len(taken), b"".join(taken), sides)
    refuse(answer.refusal)
    return Split([Side(side) for side in sides], answer.tuning, answer.held_out)


def check(entry: Entry, bank: Bank) -> Checked:
    """What is said of an entry's key: whether it is the one that this library cuts for its tile and lane from the bank.

    >>> bank = Bank(bytes([9]) * 4096)
    >>> entry = Entry.of(0, bank.key(Tile(fmt=4, siz=1, width=2, height=1)))
    >>> bank.bytes[1] = 8
    >>> print(check(entry, bank))
    the byte at address 1 has another value
    """
    return bank.check_key(entry.tile, entry.lane, entry.key)


def read_entries(source: Source) -> Iterator[Entry]:
    """The entries of a file, 4,117 bytes each; the source is what `Capture` takes. A torn one raises `Torn` after the whole ones."""
    return map(Entry, pieces(source, ENTRY_BYTES))


def read_banks(source: Source) -> Iterator[Bank]:
    """The banks of a file, 4,096 bytes each; the source is what `Capture` takes. A torn one raises `Torn` after the whole ones."""
    return map(Bank, pieces(source, BANK_BYTES))
