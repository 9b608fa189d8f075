"""Which records of a capture share a key."""

from __future__ import annotations

import zlib
from dataclasses import dataclass, field

from tulonkasa import Key, Tile


@dataclass
class Group:
    """Records with one tile record, lane and key, and so one visible picture."""

    number: int
    """Counted from 0, in the order of the first records. A split counts alike."""
    key_number: int
    """Groups with the same key bytes, under other tile records, have the same."""
    digest: str
    tile: Tile
    size: str
    kept: int
    records: list[int] = field(default_factory=list)


def room_saved(data: bytes) -> bytes:
    """The same bytes in less room: equal exactly when they are."""
    return zlib.compress(data, 1)


class Groups:
    """The groups of records that are added one by one. They are told apart by the whole of what they are filed under, not by digest."""

    def __init__(self) -> None:
        self.groups: list[Group] = []
        self._by_body: dict[bytes, Group] = {}
        self._key_numbers: dict[bytes, int] = {}

    def add(self, number: int, key: Key, size: str) -> Group:
        """Adds a record, and answers its group; it is a new one where the record is its first."""
        body = room_saved(key.body)
        group = self._by_body.get(body)
        if group is None:
            key_number = self._key_numbers.setdefault(room_saved(key.bytes), len(self._key_numbers))
            group = Group(len(self.groups), key_number, key.digest, key.tile, size, key.kept)
            self._by_body[body] = group
            self.groups.append(group)
        group.records.append(number)
        return group

    @property
    def keys(self) -> int:
        """How many different keys there are."""
        return len(self._key_numbers)

    def by_key(self) -> dict[int, list[Group]]:
        """The groups of each key, by its number."""
        found: dict[int, list[Group]] = {}
        for group in self.groups:
            found.setdefault(group.key_number, []).append(group)
        return found
