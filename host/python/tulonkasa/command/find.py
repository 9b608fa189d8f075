"""Prints which painted replacement belongs to each record of a capture. A replacement is a file in the folder that is called by the digest
of the record's key, DIGEST.png for one, with DIGEST.key beside it, as `tulonkasa dump` wrote it.

The file is found by the digest and confirmed by the whole key: where the key beside it is not the record's, or is missing, the file is not
handed out, and the last column says why."""

from __future__ import annotations

import argparse
from pathlib import Path

from tulonkasa import TILE_BYTES, Key
from tulonkasa.command.dump import KEY_SUFFIX
from tulonkasa.command.filed import filed_records
from tulonkasa.command.files import explained, folder
from tulonkasa.command.talk import DIFFERS, DONE, Table, counted, say

HELP = "which painted replacement belongs to each record"
EXAMPLES = """\
  tulonkasa find pictures samples/drawn.bin
  # what is still to be painted
  tulonkasa find pictures samples/drawn.bin | awk -F '\\t' '$4 == "none"'"""

FOUND, NONE, NO_KEY = "found", "none", "there is no key beside it"


def arguments(parser: argparse.ArgumentParser) -> None:
    parser.add_argument("folder", metavar="DIR", help="the folder with the painted files, and the key of each")
    parser.add_argument("capture", metavar="CAPTURE", help="a file of records, or - for standard input")


def run(options: argparse.Namespace) -> int:
    path = folder(options.folder)
    with explained(options.folder):
        files = files_by_digest(path)
    table = Table("record", "digest", "file", "said")
    found, status = 0, DONE
    for record in filed_records(options.capture):
        if record.key is None:
            name, said = "", str(record.refusal)
        else:
            with explained(options.folder):
                name, said = replacement(path, files.get(record.digest, []), record.key)
        table.row(record.number, record.digest, name, said)
        found += said == FOUND
        if said not in (FOUND, NONE):
            status = DIFFERS
    say(f"{counted(found, 'record')} with a replacement.")
    return status


def files_by_digest(path: Path) -> dict[str, list[str]]:
    """The names of the folder's files but the keys, by what stands before the first dot."""
    files: dict[str, list[str]] = {}
    for file in sorted(path.iterdir()):
        if file.suffix != KEY_SUFFIX and file.is_file():
            files.setdefault(file.name.partition(".")[0], []).append(file.name)
    return files


def replacement(path: Path, names: list[str], key: Key) -> tuple[str, str]:
    """The file to hand out for a key, and what is said of it."""
    if not names:
        return "", NONE
    if len(names) > 1:
        return "", f"there are several: {', '.join(names)}"
    beside = path / (key.digest + KEY_SUFFIX)
    if not beside.is_file():
        return "", NO_KEY
    wrong = difference(beside.read_bytes(), key.body)
    return ("", f"the key beside it is another: {wrong}") if wrong else (names[0], FOUND)


def difference(offer: bytes, body: bytes) -> str:
    """How a filed key differs from the record's; nothing where it is the same."""
    if len(offer) != len(body):
        return f"it has {len(offer):,} bytes, and {len(body):,} are due"
    for place, (offered, due) in enumerate(zip(offer, body)):
        if offered != due:
            address = place - TILE_BYTES - 1
            return f"it differs at address {address}" if address >= 0 else "its tile record or lane differs"
    return ""
