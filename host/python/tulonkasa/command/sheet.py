"""Writes one page with every picture of a capture, the captures that share a key, and the refused records, to be looked at in a browser.
All of it is in the file: it needs no network.

A picture is shown as a renderer shows it: of a tile that repeats inside its size, the columns and rows that repeat; of a tile that calls
for a lookup, the lookup's four rows of 4,096 texels, each folded to 64 by 64."""

from __future__ import annotations

import argparse
from pathlib import Path

from tulonkasa import BANK_BYTES, Bank, Picture
from tulonkasa.command.filed import Filed, filed_records
from tulonkasa.command.files import STANDARD, input_name, need_ending, write_whole
from tulonkasa.command.grouping import Group
from tulonkasa.command.page import Card, Contents, Story, page
from tulonkasa.command.pictures import BANK_SIDE, CHANGED, LIT, addresses_read, bank_picture, shown, visible
from tulonkasa.command.talk import DIFFERS, DONE, counted, say

HELP = "every picture of a capture on one page, to look at"
EXAMPLES = """\
  tulonkasa sheet samples/drawn.bin sheet.html
  tulonkasa sheet - sheet.html <samples/drawn.bin"""

# So many banks of a picture are shown; the others are counted.
BANKS_SHOWN = 6


def arguments(parser: argparse.ArgumentParser) -> None:
    parser.add_argument("capture", metavar="CAPTURE", help="a file of records, or - for standard input")
    parser.add_argument("out", metavar="OUT.html", help="the page to write, or - for standard output")


def run(options: argparse.Namespace) -> int:
    need_ending(options.out, ".html", ".htm")
    name = input_name(options.capture) if options.capture == STANDARD else Path(options.capture).name
    contents = Sheet(name).filled(options.capture)
    write_whole(options.out, page(contents).encode())
    pictures, refused = len(contents.groups.groups), len(contents.refusals)
    say(f"{options.out}: {counted(pictures, 'picture')} of {counted(contents.records, 'record')}, {refused:,} refused.")
    return DIFFERS if contents.refusals else DONE


class Sheet:
    """Gathers what stands on the page."""

    def __init__(self, name: str) -> None:
        self.contents = Contents(name)
        self.captured: dict[int, list[Filed]] = {}
        self.differing: dict[int, int] = {}

    def filled(self, capture: str) -> Contents:
        """The contents of the page of a capture."""
        for record in filed_records(capture):
            self.contents.records += 1
            if record.key is not None:
                group = self.contents.groups.add(record.number, record.key, record.size)
                self.add(group, record)
            elif record.refusal is not None:
                self.contents.refusals.append((record.number, record.tile, record.refusal))
        for number, differing in self.differing.items():
            self.contents.cards[number].story = story(self.captured[number], differing)
        return self.contents

    def add(self, group: Group, record: Filed) -> None:
        """Adds a record to its picture, which has a card from its first record on."""
        records = self.captured.setdefault(group.number, [])
        if not records:
            self.contents.cards.append(card(group, record))
        else:
            differing = as_number(records[0].bank) ^ as_number(record.bank)
            self.differing[group.number] = self.differing.get(group.number, 0) | differing
        if len(records) < BANKS_SHOWN:
            records.append(record)


def as_number(bank: Bank) -> int:
    """A bank's bytes as one number, of which two can be compared at once."""
    return int.from_bytes(bytes(bank), "big")


def story(records: list[Filed], differing: int) -> Story:
    """The banks of a picture that was captured more than once, and at how many addresses they differ."""
    bits = differing.to_bytes(BANK_BYTES, "big")
    changed = [address for address in range(BANK_BYTES) if bits[address]]
    read = addresses_read(records[0].bank, records[0].tile)
    banks = {record.number: bank_picture(bytes(record.bank), {CHANGED: changed, LIT: read}) for record in records}
    return Story(banks, len(changed))


def card(group: Group, record: Filed) -> Card:
    """A picture's card."""
    picture = shown(record.bank, record.tile)
    lookup = record.tile.sampling().lookup
    part = visible(record.tile)
    cut = not lookup and (part.width, part.height) != (record.tile.width, record.tile.height)
    return Card(group, folded(picture) if lookup else picture, lookup, cut)


def folded(lookup: Picture) -> Picture:
    """A lookup's four rows of 4,096 texels, each folded to 64 by 64, two beside and two below each other."""
    side, row = 4 * BANK_SIDE, 4 * BANK_BYTES
    quarters = [lookup.bytes[place : place + row] for place in range(0, 4 * row, row)]
    rows = [
        quarters[upper + beside][side * y : side * (y + 1)] for upper in (0, 2) for y in range(BANK_SIDE) for beside in (0, 1)
    ]
    return Picture(2 * BANK_SIDE, 2 * BANK_SIDE, b"".join(rows))
