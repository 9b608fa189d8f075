"""Puts the records of a capture on two sides by their keys, and prints a line for each: its number, its side, tuning or held out, and the
number of its group; or why it is refused.

Records with the same tile record and key are a group. Groups are numbered from 0, in the order of their first records, and of every five
the fifth is held out. A refused record is in none. The last line has the totals. At most 4,096 entries are split.

With --entries the file has entries of 4,117 bytes in place of records: capture number, tile record, lane and key, as a partner may send
them. The first column is then the capture number."""

from __future__ import annotations

import argparse

from tulonkasa import ENTRIES_MOST, Entry, Refused, Split, read_entries
from tulonkasa import split as split_entries
from tulonkasa.command.filed import filed_records
from tulonkasa.command.files import Trouble, input_name, opened, reading
from tulonkasa.command.talk import DIFFERS, DONE, Table

HELP = "which records are for tuning, and which are held out"
EXAMPLES = """\
  tulonkasa split samples/drawn.bin
  tulonkasa split samples/drawn.bin | grep 'held out'
  tulonkasa split --entries partner.bin"""


def arguments(parser: argparse.ArgumentParser) -> None:
    parser.add_argument("capture", metavar="CAPTURE", help="a file of records, or - for standard input")
    parser.add_argument("--entries", action="store_true", help="the file has entries of 4,117 bytes")


def run(options: argparse.Namespace) -> int:
    entries, refusals = given(options.capture) if options.entries else captured(options.capture)
    try:
        sides = split_entries(entries)
    except Refused as refused:
        raise Trouble(f"{input_name(options.capture)}: {refused}", DIFFERS) from None
    print_sides(entries, sides, refusals)
    return DIFFERS if refusals else DONE


def given(name: str) -> tuple[list[Entry], dict[int, Refused]]:
    """The entries of a file. It is read no further once they are too many."""
    entries: list[Entry] = []
    with opened(name) as file, reading(name):
        for entry in read_entries(file):
            entries.append(entry)
            if len(entries) > ENTRIES_MOST:
                break
    return entries, {}


def captured(name: str) -> tuple[list[Entry], dict[int, Refused]]:
    """The entries of a capture's records, and why others have none. It is read no further once the entries are too many."""
    entries: list[Entry] = []
    refusals: dict[int, Refused] = {}
    for record in filed_records(name):
        if record.key is not None:
            entries.append(Entry.of(record.number, record.key))
        elif record.refusal is not None:
            refusals[record.number] = record.refusal
        if len(entries) > ENTRIES_MOST:
            break
    return entries, refusals


def print_sides(entries: list[Entry], split: Split, refusals: dict[int, Refused]) -> None:
    groups: dict[bytes, int] = {}
    rows: list[tuple[int, str, object]] = [(number, "refused", refusal) for number, refusal in refusals.items()]
    for entry, side in zip(entries, split.sides):
        rows.append((entry.capture, str(side), groups.setdefault(entry.body, len(groups))))
    table = Table("capture", "side", "group")
    for row in sorted(rows, key=lambda row: row[0]) if refusals else rows:
        table.row(*row)
    totals = f"{split.tuning} tuning, {split.held_out} held out, {len(refusals)} refused"
    table.row("all", totals, f"{len(groups)} groups")
