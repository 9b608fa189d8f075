"""Compares the pictures of two captures, A and B, and prints a line for each that is not the same with the same bank:

  gone                  A has it, and B does not
  new                   B has it, and A does not
  other leftover bytes  both have it, and their banks differ at the addresses
                        of the last column, none of which the picture reads
  differs               a picture of B stands in its place, whose key differs
                        at the addresses of the last column

A picture stands in the place of another where both have the same tile record, and follow the same picture of those that both captures have.
Pictures are compared by tile record and key. A picture that was captured several times has one line, and the first record that it is about.
Refused records have a line each, which says why."""

from __future__ import annotations

import argparse
from collections.abc import Iterator
from typing import IO, NamedTuple

from tulonkasa import BANK_BYTES, CAPTURE_BYTES, TILE_BYTES, Bank, Key, Refused, Tile
from tulonkasa.command.filed import file_records
from tulonkasa.command.files import only_one_standard, opened_anywhere, reading
from tulonkasa.command.grouping import room_saved
from tulonkasa.command.talk import DIFFERS, DONE, Table
from tulonkasa.command.words import range_words

HELP = "which pictures of two captures are new, gone, or differ, and where"
EXAMPLES = """\
  tulonkasa diff samples/drawn.bin samples/capture.bin
  tulonkasa diff samples/drawn.bin samples/capture.bin | grep '^new'"""

GONE, NEW, LEFTOVER, DIFFERENT = "gone", "new", "other leftover bytes", "differs"


class Spot(NamedTuple):
    """A record that has a key."""

    number: int
    tile: bytes
    body: bytes


class Side:
    """A capture whose records have been filed, and can be read again."""

    def __init__(self, file: IO[bytes], name: str) -> None:
        self.file = file
        self.name = name
        self.spots: list[Spot] = []
        self.pictures: dict[bytes, list[Spot]] = {}
        self.refusals: list[tuple[int, Refused]] = []
        for record in file_records(file, name):
            if record.key is not None:
                self.add(Spot(record.number, bytes(record.tile), room_saved(record.key.body)))
            elif record.refusal is not None:
                self.refusals.append((record.number, record.refusal))

    def add(self, spot: Spot) -> None:
        """Adds a record. Those of one picture have its body in common, which is then held once."""
        captured = self.pictures.setdefault(spot.body, [])
        if captured:
            spot = spot._replace(body=captured[0].body)
        captured.append(spot)
        self.spots.append(spot)

    def bank(self, spot: Spot) -> bytes:
        """The bank of a record."""
        with reading(self.name):
            self.file.seek(spot.number * CAPTURE_BYTES + TILE_BYTES)
            return self.file.read(BANK_BYTES)

    def key(self, spot: Spot) -> Key:
        """The key of a record, once more."""
        return Bank(self.bank(spot)).key(Tile.from_bytes(spot.tile))

    def own(self, other: Side) -> Iterator[tuple[tuple[bytes, bytes], Spot]]:
        """The pictures that the other side does not have, each by the last one before it that both have, and its tile record."""
        before = b""
        for spot in self.spots:
            if spot.body in other.pictures:
                before = spot.body
            elif self.pictures[spot.body][0] == spot:
                yield (before, spot.tile), spot


class Line(NamedTuple):
    """What is said of a picture: a record of A, a record of B, and the addresses where they differ."""

    said: str
    a: Spot | None = None
    b: Spot | None = None
    addresses: str = ""


def arguments(parser: argparse.ArgumentParser) -> None:
    parser.add_argument("a", metavar="A", help="a capture, or - for standard input")
    parser.add_argument("b", metavar="B", help="the capture to compare it with")


def run(options: argparse.Namespace) -> int:
    only_one_standard(options.a, options.b)
    with opened_anywhere(options.a) as file_a, opened_anywhere(options.b) as file_b:
        a, b = Side(file_a, options.a), Side(file_b, options.b)
        table = Table("said", "a", "b", "digest a", "digest b", "addresses")
        status = DONE
        for line in lines(a, b):
            digests = [side.key(spot).digest if spot else "" for side, spot in ((a, line.a), (b, line.b))]
            numbers = [spot.number if spot else "" for spot in (line.a, line.b)]
            table.row(line.said, *numbers, *digests, line.addresses)
            status = status if line.said == LEFTOVER else DIFFERS
    for number, refusal in a.refusals:
        table.row(refusal, number, "", "", "", "")
    for number, refusal in b.refusals:
        table.row(refusal, "", number, "", "", "")
    return DIFFERS if a.refusals or b.refusals else status


def lines(a: Side, b: Side) -> list[Line]:
    """What is said of the pictures: first of those of A, then of the new ones, each in their order."""
    replaced = dict(pairs(a, b))
    taken = set(replaced.values())
    found = [said for spots in a.pictures.values() for said in of_a(a, b, spots, replaced)]
    return found + [Line(NEW, b=spot) for _, spot in b.own(a) if spot not in taken]


def pairs(a: Side, b: Side) -> Iterator[tuple[Spot, Spot]]:
    """A picture of A alone and the one of B that stands in its place."""
    places: dict[tuple[bytes, bytes], list[Spot]] = {}
    for place, spot in b.own(a):
        places.setdefault(place, []).append(spot)
    for place, spot in a.own(b):
        if places.get(place):
            yield spot, places[place].pop(0)


def of_a(a: Side, b: Side, spots: list[Spot], replaced: dict[Spot, Spot]) -> Iterator[Line]:
    """What is said of a picture of A, which was captured at these records; nothing where it is the same with the same banks."""
    first = spots[0]
    if first in replaced:
        other = replaced[first]
        yield Line(DIFFERENT, first, other, differing(a.key(first).bytes, b.key(other).bytes))
    elif first.body not in b.pictures:
        yield Line(GONE, first)
    else:
        for spot, other in zip(spots, b.pictures[first.body]):
            bank, other_bank = a.bank(spot), b.bank(other)
            if bank != other_bank:
                yield Line(LEFTOVER, spot, other, differing(bank, other_bank))
                return


def differing(one: bytes, other: bytes) -> str:
    """The addresses at which two banks or keys differ."""
    return range_words(address for address in range(BANK_BYTES) if one[address] != other[address])
