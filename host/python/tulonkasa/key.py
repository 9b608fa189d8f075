"""The key of a picture, and what a check says of a key that was made elsewhere."""

from __future__ import annotations

import builtins
import enum
import hashlib
from dataclasses import dataclass, field
from typing import TYPE_CHECKING

from tulonkasa import exports
from tulonkasa.parameters import fixed
from tulonkasa.refusal import refuse
from tulonkasa.sizes import BANK_BYTES, TILE_BYTES
from tulonkasa.tile import Tile

if TYPE_CHECKING:
    from _typeshed import ReadableBuffer

BODY_BYTES = TILE_BYTES + 1 + BANK_BYTES


@dataclass(frozen=True)
class Key:
    """The bytes of a bank that a visible picture reads, and no others, with the tile and the lane that it is read by. `Bank.key` cuts it.

    tile      the tile, with its mode
    lane      the lane of the palette, 0 to 3
    bytes     the bank with each byte kept that the visible picture reads, and all others zero
    kept      how many bytes were kept, those that are zero among them

    Keys are equal when tile, lane and bytes are, which is what a picture is filed under: equal keys give equal visible pictures. A key can
    be put into a set, or be the key of a `dict`.

    >>> from tulonkasa import Bank
    >>> tile = Tile(fmt=4, siz=1, width=2, height=1)
    >>> key, leftover = Bank(bytes(4096)).key(tile), Bank(bytes(4095) + b"\\x09").key(tile)
    >>> key == leftover, key.kept, key.digest[:16]
    (True, 2, '08f32da73085a541')
    """

    tile: Tile
    lane: int
    bytes: builtins.bytes
    kept: int = field(compare=False)  # the others decide it

    def __hash__(self) -> int:
        return hash(self.bytes)

    def __repr__(self) -> str:
        return f"<Key {self.digest[:16]}: {self.kept:,} bytes kept>"

    @property
    def body(self) -> builtins.bytes:
        """All that a picture is filed under, 4,113 bytes: the tile's sixteen, the lane's one, and the key. A split's entry has it, too."""
        return bytes(self.tile) + bytes((self.lane,)) + self.bytes

    @property
    def digest(self) -> str:
        """The SHA-256 of the body, as 64 hexadecimal digits: a short name, good for files and tables. Whether two keys are equal is
        decided by the keys."""
        return hashlib.sha256(self.body).hexdigest()

    @classmethod
    def from_body(cls, body: ReadableBuffer) -> Key:
        """The key of a body, as it was filed. A key is its own key, so it is cut again from itself: bytes that are no key of their tile and
        lane raise `ValueError`, and a tile or lane that has none is refused.

        >>> from tulonkasa import Bank
        >>> key = Bank(bytes([9]) * 4096).key(Tile(fmt=4, siz=1, width=2, height=1))
        >>> Key.from_body(key.body) == key
        True
        """
        data = fixed(body)
        if len(data) != BODY_BYTES:
            raise ValueError(f"the body of a key has {BODY_BYTES:,} bytes, and these are {len(data):,}")
        key = cut(data[TILE_BYTES + 1 :], Tile.from_bytes(data[:TILE_BYTES]), data[TILE_BYTES])
        if key.body != data:
            raise ValueError("these bytes are no key: some of them are not read by the visible picture, and not zero")
        return key


def cut(bank: ReadableBuffer, tile: Tile, lane: int) -> Key:
    """The key of a bank's bytes; `Bank.key` says what it is."""
    key = bytearray(BANK_BYTES)
    answer = exports.tk_key(bank, *tile.numbers, lane, key)
    refuse(answer.refusal)
    return Key(tile, lane, bytes(key), answer.count)


class Fault(enum.IntEnum):
    """What is wrong with a byte of an offered key.

    RIGHT          nothing is
    MISSING        the byte is kept and not zero in the bank, but zero in the offer
    LEFT_OVER      the byte is not kept, and the offer has not zero there
    ANOTHER_VALUE  any other difference: the byte is kept, and the offer has another one there, which is not zero
    """

    RIGHT = 0
    MISSING = 1
    LEFT_OVER = 2
    ANOTHER_VALUE = 3


FAULT_WORDS = {Fault.MISSING: "is missing", Fault.LEFT_OVER: "is left over", Fault.ANOTHER_VALUE: "has another value"}


@dataclass(frozen=True)
class Checked:
    """What a check says of an offered key. It is true in a condition where the key is right, and `str` says it in words.

    fault     what is wrong, `Fault.RIGHT` for nothing
    address   the lowest wrong address, below which all is right; none of a right key
    """

    fault: Fault
    address: int | None

    def __bool__(self) -> bool:
        return self.fault == Fault.RIGHT

    def __str__(self) -> str:
        return "right" if self else f"the byte at address {self.address} {FAULT_WORDS[self.fault]}"


def checked(bank: ReadableBuffer, tile: Tile, lane: int, offer: ReadableBuffer) -> Checked:
    """What is said of an offered key for a bank's bytes; `Bank.check_key` says more."""
    answer = exports.tk_check_key(bank, *tile.numbers, lane, offer)
    refuse(answer.refusal)
    return Checked(Fault(answer.wrong), None if answer.yes else answer.address)
