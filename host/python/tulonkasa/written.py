"""Which load wrote which address of a bank."""

from __future__ import annotations

import sys
from array import array
from typing import Iterable, Iterator

from tulonkasa.sizes import BANK_BYTES, WRITTEN_BYTES


def two_byte_numbers(data: bytes | bytearray | memoryview) -> array[int]:
    """Numbers of two bytes each, high byte first."""
    numbers = array("H", bytes(data))
    if sys.byteorder == "little":
        numbers.byteswap()
    return numbers


class Written:
    """For every address of a bank the number of the last load that stored there.

    Loads are counted from 1 on since the bank was fresh; one that stores nothing counts too, and a refused one does not. After 65,535
    loads a further one is refused by 18. A bank keeps its record (`Bank.written`), which later loads change.

    >>> from tulonkasa import Bank, Tile
    >>> bank = Bank()
    >>> tile = Tile(siz=2)
    >>> _ = bank.load_block(b"", tile, image_siz=2, dxt=0, words=2)  # addresses 0 to 15
    >>> _ = bank.load_block(b"", Tile(siz=2, tmem_addr=1), image_siz=2, dxt=0, words=1)  # 8 to 15
    >>> [bank.written.number_at(address) for address in (7, 8, 15, 16)], bank.written.last
    ([1, 2, 2, 0], 2)
    """

    __slots__ = ("_bytes", "_last")

    def __init__(self) -> None:
        """The record of a fresh bank: no load, and no address written."""
        self._bytes = bytearray(WRITTEN_BYTES)
        self._last = 0

    @property
    def last(self) -> int:
        """The number of the last load; 0 if there was none. It is also how many loads there were."""
        return self._last

    def number_at(self, address: int) -> int:
        """The number of the last load that stored at an address; 0 for none, and for an address that no bank has."""
        if not 0 <= address < BANK_BYTES:
            return 0
        return int.from_bytes(self._bytes[2 * address : 2 * address + 2], "big")

    def is_written(self, address: int) -> bool:
        """Whether a load stored at an address."""
        return self.number_at(address) != 0

    def addresses(self) -> Iterator[int]:
        """The addresses that a load stored at, rising."""
        return (address for address, number in enumerate(two_byte_numbers(self._bytes)) if number)

    def numbers_of(self, trail: Iterable[int]) -> array[int]:
        """The numbers at the addresses of a trail, read by read: which load each byte of a picture came from.

        >>> from tulonkasa import Bank, Tile
        >>> bank = Bank()
        >>> tile = Tile(fmt=2, siz=1, mode=2, line=1, width=2, height=1)
        >>> _ = bank.load_tlut_hardware(b"\\xf8\\x01", Tile(tmem_addr=256), image_siz=2, count=1, rows=1, stride=0)  # entry 0
        >>> _ = bank.load_tile(b"\\x00\\x01", tile, image_siz=1, rows=1, words=1, stride=0)  # the indices 0 and 1
        >>> list(bank.written.numbers_of(bank.picture_observed(tile).trail))  # of each texel the index and its entry
        [2, 1, 1, 2, 0, 0]
        """
        numbers = two_byte_numbers(self._bytes)
        return array("H", (numbers[address] if 0 <= address < BANK_BYTES else 0 for address in trail))

    def copy(self) -> Written:
        """A record like this one, which later loads of its bank do not change."""
        other = Written()
        other._bytes[:] = self._bytes
        other._last = self._last
        return other

    def __bytes__(self) -> bytes:
        """The record as C programs have it: two bytes an address, high byte first."""
        return bytes(self._bytes)

    def __eq__(self, other: object) -> bool:
        if not isinstance(other, Written):
            return NotImplemented
        return self._last == other._last and self._bytes == other._bytes

    __hash__ = None  # type: ignore[assignment]

    def __repr__(self) -> str:
        return f"<Written: {self._last} loads, {sum(1 for _ in self.addresses()):,} addresses>"
