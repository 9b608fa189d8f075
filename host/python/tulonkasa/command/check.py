"""Checks keys that were made elsewhere, and prints a line for each: its number, its capture number, and what is said of the key: right; or
the lowest wrong address, and whether that byte is missing, left over or has another value; or why the entry is refused.

ENTRIES is a file of entries of 4,117 bytes: capture number, tile record, lane and key. BANKS has the bank of each, 4,096 bytes, in the same
order. The last line has the totals."""

from __future__ import annotations

import argparse
from collections.abc import Iterator
from itertools import zip_longest

from tulonkasa import ENTRY_BYTES, Bank, Entry, Refused, read_banks, read_entries
from tulonkasa import check as check_entry
from tulonkasa.command.filed import pieces_in
from tulonkasa.command.files import Trouble, input_name, only_one_standard, opened, reading
from tulonkasa.command.talk import DIFFERS, DONE, Table, progress

HELP = "whether keys that were made elsewhere are right"
EXAMPLES = """\
  tulonkasa check entries.bin banks.bin
  tulonkasa check entries.bin banks.bin | grep -v right"""


def arguments(parser: argparse.ArgumentParser) -> None:
    parser.add_argument("entries", metavar="ENTRIES", help="a file of entries, or - for standard input")
    parser.add_argument("banks", metavar="BANKS", help="a file of banks; - is standard input here too, for one of the two")


def run(options: argparse.Namespace) -> int:
    only_one_standard(options.entries, options.banks)
    table = Table("entry", "capture", "key")
    totals = dict(right=0, wrong=0, refused=0)
    for number, (entry, bank) in enumerate(both(options.entries, options.banks)):
        try:
            said = check_entry(entry, bank)
            totals["right" if said else "wrong"] += 1
            table.row(number, entry.capture, said)
        except Refused as refused:
            totals["refused"] += 1
            table.row(number, entry.capture, refused)
    table.row("all", "", ", ".join(f"{count} {name}" for name, count in totals.items()))
    return DIFFERS if totals["wrong"] or totals["refused"] else DONE


def both(entries: str, banks: str) -> Iterator[tuple[Entry, Bank]]:
    """Each entry with its bank. There must be as many of the one as of the other."""
    with opened(entries) as entry_file, opened(banks) as bank_file:
        entry_pieces = named(read_entries(entry_file), entries)
        bank_pieces = named(read_banks(bank_file), banks)
        pairs = progress(zip_longest(entry_pieces, bank_pieces), pieces_in(entry_file, ENTRY_BYTES), "entries")
        for number, (entry, bank) in enumerate(pairs):
            if entry is None or bank is None:
                short, noun = (entries, "entry") if entry is None else (banks, "bank")
                raise Trouble(f"{input_name(short)} has no {noun} {number}, and the other file has")
            yield entry, bank


def named(pieces: Iterator, name: str) -> Iterator:  # type: ignore[type-arg]
    """The pieces of a file, whose troubles have its name."""
    with reading(name):
        yield from pieces
