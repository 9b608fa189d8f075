"""Sets of addresses or of palette slots, as the library marks them."""

from __future__ import annotations

from collections.abc import Iterable, Iterator, Set


class Marks(Set[int]):
    """The numbers that a map marks: addresses that a tile can reach, or slots of a palette. It is a set that iterates in rising order.

    In the bytes that it is made of, number a is bit a % 8 of byte a // 8.

    >>> marks = Marks(b"\\x05\\x80")
    >>> list(marks), len(marks), 15 in marks, 1 in marks
    ([0, 2, 15], 3, True, False)
    """

    __slots__ = ("_bits", "_length")

    def __init__(self, data: bytes) -> None:
        """The numbers that these bytes mark."""
        self._bits = int.from_bytes(data, "little")
        self._length = len(data)

    @classmethod
    def _from_iterable(cls, it: Iterable[int]) -> Set[int]:
        """What the operators of a set make: a plain one."""
        return frozenset(it)

    def __contains__(self, number: object) -> bool:
        return isinstance(number, int) and number >= 0 and bool(self._bits >> number & 1)

    def __iter__(self) -> Iterator[int]:
        return (number for number in range(8 * self._length) if self._bits >> number & 1)

    def __len__(self) -> int:
        return bin(self._bits).count("1")

    def __bytes__(self) -> bytes:
        """The map as C programs have it."""
        return self._bits.to_bytes(self._length, "little")

    def __hash__(self) -> int:
        return self._hash()

    def __repr__(self) -> str:
        return f"Marks({list(self)})"
