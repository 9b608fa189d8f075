"""Replays a capture's loads over one bank, and prints a line for each record: its number; its kind, block, tile, palette or key; the number
of its load, counted from 1; how often the load stored a byte, or how many bytes the key keeps of the bank as it stands; or why the
record is refused.

RECORDS is a file of records of 48 bytes, COMPANION the file that the sources of the loads are in; include/tulonkasa.h says which byte of a
record is what. A refused record changes nothing, and does not stop the replay."""

from __future__ import annotations

import argparse
from collections.abc import Iterator

from tulonkasa import KINDS, RECORD_BYTES, Bank, Replayed
from tulonkasa import replay as replay_done
from tulonkasa.command.filed import pieces_in
from tulonkasa.command.files import STANDARD, Trouble, opened, reading
from tulonkasa.command.talk import DIFFERS, DONE, Table, progress

HELP = "what each load of a replay stored, and each key kept"
EXAMPLES = """\
  tulonkasa replay samples/drawn-replay.bin samples/drawn-companion.bin
  tulonkasa replay - samples/drawn-companion.bin <samples/drawn-replay.bin"""


def arguments(parser: argparse.ArgumentParser) -> None:
    parser.add_argument("records", metavar="RECORDS", help="a file of records of 48 bytes, or - for standard input")
    parser.add_argument("companion", metavar="COMPANION", help="the file that the sources are in")


def run(options: argparse.Namespace) -> int:
    table, status = Table("record", "kind", "load", "count", "refusal"), DONE
    for done in replayed_records(options.records, options.companion, Bank()):
        kind = KINDS[done.record.kind] if done.record.kind < len(KINDS) else done.record.kind
        if done.refused:
            table.row(done.number, kind, "", "", done.refused)
            status = DIFFERS
        else:
            table.row(done.number, kind, done.load or "", done.count, "")
    return status


def replayed_records(records: str, companion: str, bank: Bank) -> Iterator[Replayed]:
    """What each record of a replay did to the bank, which the records change in turn."""
    if companion == STANDARD:
        raise Trouble("the companion file can't be standard input: it is read at any place")
    with opened(records) as record_file, opened(companion) as companion_file:
        if not companion_file.seekable():
            raise Trouble(f"{companion} can't be read at any place, as a companion file must be")
        with reading(records):
            yield from progress(replay_done(record_file, companion_file, bank), pieces_in(record_file, RECORD_BYTES))
