"""Shows which bytes of the bank the visible picture of a record reads: a line for each run of addresses, and as OUT the bank as a picture
of 64 by 64, a texel a byte, with those bytes lit. On a terminal a small drawing of it comes first.

With --companion the first file is a replay: records of 48 bytes, whose sources are in the companion file. Record N of it asks for a key.
Then the bank is as the loads before left it, and each run says which load wrote it: its number, counted from 1, and the record that it was;
0 and nothing for bytes that no load wrote. In the picture each load has its colour."""

from __future__ import annotations

import argparse
import sys
from collections.abc import Mapping
from itertools import groupby, islice
from typing import NamedTuple

from tulonkasa import KINDS, Bank, Refused, Tile
from tulonkasa.command.filed import filed_records
from tulonkasa.command.files import Trouble, input_name, need_ending, write_whole
from tulonkasa.command.pictures import BANK_SIDE, LIT, Shades, addresses_read, bank_picture, load_shades, picture_file
from tulonkasa.command.replay import replayed_records
from tulonkasa.command.talk import DIFFERS, DONE, Table
from tulonkasa.command.words import ranges

HELP = "which bytes of the bank a picture reads, and which load wrote each"
EXAMPLES = """\
  tulonkasa reads samples/drawn.bin 14
  tulonkasa reads samples/drawn.bin 14 bank.png
  tulonkasa reads samples/drawn-replay.bin 17 bank.png \\
      --companion samples/drawn-companion.bin"""


class Asked(NamedTuple):
    """A picture that is asked about, and with a replay the record of each load by its number."""

    bank: Bank
    tile: Tile
    lane: int = 0
    loads: Mapping[int, int] | None = None


def arguments(parser: argparse.ArgumentParser) -> None:
    parser.add_argument("capture", metavar="CAPTURE", help="a file of records, or - for standard input")
    parser.add_argument("number", metavar="N", type=natural, help="the record's number; the first one is 0")
    parser.add_argument("out", metavar="OUT", nargs="?", help="the picture to write, OUT.png or OUT.pam")
    parser.add_argument("--companion", metavar="FILE", help="the sources of a replay; CAPTURE is then its records")


def natural(text: str) -> int:
    """A record's number."""
    if not text.isdecimal():
        raise argparse.ArgumentTypeError(f"{text} is not a number from 0 on")
    return int(text)


def run(options: argparse.Namespace) -> int:
    if options.out:
        need_ending(options.out, ".png", ".pam")
    asked = replayed(options) if options.companion else captured(options)
    try:
        read = addresses_read(asked.bank, asked.tile, asked.lane)
    except Refused as refusal:
        raise Trouble(f"record {options.number}: {refusal}", DIFFERS) from None
    loads = None if asked.loads is None else dict(zip(read, asked.bank.written.numbers_of(read)))
    if options.out:
        lit = {LIT: read} if loads is None else by_load(loads)
        write_whole(options.out, picture_file(bank_picture(bytes(asked.bank), lit), options.out.endswith(".pam")))
    if sys.stdout.isatty() and sys.stdout.encoding.lower() == "utf-8":
        print(drawing(read))
    if loads is None or asked.loads is None:
        plain_table(read)
    else:
        load_table(loads, asked.loads)
    return DONE


def captured(options: argparse.Namespace) -> Asked:
    """The picture of a capture's record."""
    for record in islice(filed_records(options.capture), options.number, options.number + 1):
        return Asked(record.bank, record.tile)
    raise Trouble(f"{input_name(options.capture)} has no record {options.number}")


def replayed(options: argparse.Namespace) -> Asked:
    """The picture that a replay's record asks for, of the bank as it stands there."""
    bank, loads = Bank(), {}
    for done in replayed_records(options.capture, options.companion, bank):
        if done.load:
            loads[done.load] = done.number
        if done.number == options.number:
            if done.record.is_load or done.record.kind >= len(KINDS):
                raise Trouble(f"record {options.number} of {input_name(options.capture)} does not ask for a key")
            return Asked(bank, done.record.tile, done.record.lane, loads)
    raise Trouble(f"{input_name(options.capture)} has no record {options.number}")


def by_load(loads: Mapping[int, int]) -> dict[Shades, list[int]]:
    """The addresses that are read, by the shades of the load that wrote each."""
    found: dict[Shades, list[int]] = {}
    for address, load in loads.items():
        found.setdefault(load_shades(load), []).append(address)
    return found


def plain_table(read: list[int]) -> None:
    table = Table("first", "last", "bytes")
    for first, last in ranges(read):
        table.row(first, last, last - first + 1)


def load_table(loads: Mapping[int, int], records: Mapping[int, int]) -> None:
    """A line for each run of addresses that one load wrote."""
    table = Table("first", "last", "bytes", "load", "record")
    for number, addresses in groupby(sorted(loads), key=loads.__getitem__):
        for first, last in ranges(addresses):
            table.row(first, last, last - first + 1, number, records.get(number, ""))


def drawing(read: list[int]) -> str:
    """The bank in characters: 64 across, and two rows of bytes a line."""
    lit = set(read)
    rows = [[64 * y + x in lit for x in range(BANK_SIDE)] for y in range(BANK_SIDE)]
    return "\n".join("".join("·▀▄█"[up + 2 * down] for up, down in zip(*pair)) for pair in zip(rows[::2], rows[1::2]))
