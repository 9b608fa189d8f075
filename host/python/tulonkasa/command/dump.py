"""Writes the visible picture of each record into a folder, once for each key: DIGEST.png, or DIGEST.pam with --pam, with DIGEST.key beside
it. That file has what the picture is filed under, 4,113 bytes: tile record, lane and key.

What is written is what a renderer shows: of a tile that repeats inside its size, the columns and rows that repeat; of a tile that calls for
a lookup, the lookup, 4,096 by 4 texels. A file that is there already is left as it is, since it may have been painted on."""

from __future__ import annotations

import argparse
from pathlib import Path

from tulonkasa import Refused
from tulonkasa.command.filed import Filed, filed_records
from tulonkasa.command.files import explained, made_folder, replace
from tulonkasa.command.pictures import picture_file, shown
from tulonkasa.command.talk import DIFFERS, DONE, Table, counted, say

HELP = "a picture file for each key, for the painters"
EXAMPLES = """\
  tulonkasa dump samples/drawn.bin pictures
  tulonkasa dump --pam samples/drawn.bin pictures   for the Netpbm programs
  tulonkasa find pictures samples/drawn.bin         the file of each record"""

KEY_SUFFIX = ".key"
WRITTEN, THERE = "written", "there already"
OTHER_KEY, NO_KEY = "another key is there under this digest", "a picture is there without its key"


def arguments(parser: argparse.ArgumentParser) -> None:
    parser.add_argument("capture", metavar="CAPTURE", help="a file of records, or - for standard input")
    parser.add_argument("folder", metavar="DIR", help="the folder to write into; it is made where there is none")
    parser.add_argument("--pam", action="store_true", help="write PAM files, not PNG")


def run(options: argparse.Namespace) -> int:
    folder = made_folder(options.folder)
    table = Table("record", "digest", "file", "said")
    written, status = 0, DONE
    for record in filed_records(options.capture):
        name, said = dumped(record, folder, options.pam)
        table.row(record.number, record.digest, name, said)
        written += said == WRITTEN
        if said not in (WRITTEN, THERE):
            status = DIFFERS
    say(f"{options.folder}: {counted(written, 'new picture')}.")
    return status


def dumped(record: Filed, folder: Path, pam: bool) -> tuple[str, str]:
    """Writes a record's picture and key. Answers the picture's name, and what was done or why not."""
    if record.key is None:
        return "", str(record.refusal)
    picture = folder / (record.digest + (".pam" if pam else ".png"))
    key = folder / (record.digest + KEY_SUFFIX)
    with explained(str(folder)):
        if key.exists() and key.read_bytes() != record.key.body:
            return "", OTHER_KEY
        if picture.exists():
            return (picture.name, THERE) if key.exists() else ("", NO_KEY)
        try:
            data = picture_file(shown(record.bank, record.tile), pam)
        except Refused as refusal:
            return "", str(refusal)
        # The key first, so that a picture without its key is never this command's.
        replace(key, record.key.body)
        replace(picture, data)
    return picture.name, WRITTEN
