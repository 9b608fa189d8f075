"""Prints which records of a capture share a key: a line for each group, which is the records with the same tile record and key.

Groups are numbered from 0, in the order of their first records, as a split numbers them. The column `key` numbers the keys: groups with
the same number have the same key bytes under other tile records, such as one wall that was captured at two widths. Such groups are two
pictures to a split and to a pack. Refused records are in no group; `tulonkasa keys` says why."""

from __future__ import annotations

import argparse

from tulonkasa.command.filed import filed_records
from tulonkasa.command.grouping import Groups
from tulonkasa.command.talk import DIFFERS, DONE, Table, counted, say

HELP = "which captures share a key"
EXAMPLES = """\
  tulonkasa groups samples/drawn.bin
  # the pictures that were captured more than once
  tulonkasa groups samples/drawn.bin | awk -F '\\t' '$4 > 1'"""


def arguments(parser: argparse.ArgumentParser) -> None:
    parser.add_argument("capture", metavar="CAPTURE", help="a file of records, or - for standard input")


def run(options: argparse.Namespace) -> int:
    found, refused = Groups(), 0
    for record in filed_records(options.capture):
        if record.key is None:
            refused += 1
        else:
            found.add(record.number, record.key, record.size)
    table = Table("group", "key", "digest", "captures", "size", "kept", "records")
    for group in found.groups:
        records = ",".join(map(str, group.records))
        table.row(group.number, group.key_number, group.digest, len(group.records), group.size, group.kept, records)
    say(f"{counted(len(found.groups), 'group')} of {counted(found.keys, 'key')}; {counted(refused, 'record')} refused.")
    return DIFFERS if refused else DONE
