"""Prints a line for each record of a capture: its number, the digest of its key, the size of its picture and how many bytes of the bank
the key keeps; or why the record is refused.

The digest is the SHA-256 of tile record, lane and key. It is a name for the picture: equal keys have equal digests, and whether two keys
are equal is decided by the keys. The size is that of the picture that the tile calls for: 4096x4 for a lookup."""

from __future__ import annotations

import argparse

from tulonkasa.command.filed import filed_records
from tulonkasa.command.talk import DIFFERS, DONE, Table, counted, say

HELP = "number, digest, size and kept bytes of each record, or why it is refused"
EXAMPLES = """\
  tulonkasa keys samples/drawn.bin
  cat samples/drawn.bin samples/capture.bin | tulonkasa keys -
  # how often each picture was captured
  tulonkasa keys samples/drawn.bin | cut -f 2 | sort | uniq -c | sort -n"""


def arguments(parser: argparse.ArgumentParser) -> None:
    parser.add_argument("capture", metavar="CAPTURE", help="a file of records, or - for standard input")


def run(options: argparse.Namespace) -> int:
    table = Table("record", "digest", "size", "kept", "refusal")
    records = refused = 0
    for record in filed_records(options.capture):
        records += 1
        if record.key is None:
            refused += 1
            table.row(record.number, "", "", "", record.refusal)
        else:
            table.row(record.number, record.digest, record.size, record.key.kept, "")
    say(f"{counted(records, 'record')}, of which {refused:,} refused.")
    return DIFFERS if refused else DONE
