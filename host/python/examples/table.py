#!/usr/bin/env python3
"""Keys of many captures in one table. docs/SCALE.md says what it is for, and how long it takes.

    table.py keys [CAPTURE..]    a line for each record: digest, file, number, kept bytes, and the whole body, with tabs between.
                                 A record without a key has the word `refused` for its digest, and then why. Without names, the
                                 names are the lines of standard input.
    table.py meet TABLE          puts such lines, of standard input, into the table, a file of sqlite3; it may have others already.
    table.py sides TABLE         a line for each record in the table: file, number, digest, group and side.

Captures are independent, so `keys` may run for many at once, on any machines:

    ls *.bin | xargs -P 2 -I NAME sh -c 'table.py keys NAME >NAME.keys'
    cat *.keys | table.py meet captures.db
    table.py sides captures.db
"""

from __future__ import annotations

import base64
import contextlib
import hashlib
import sqlite3
import sys
import zlib
from pathlib import Path
from typing import Callable, Iterable, Iterator

sys.path.insert(0, str(Path(__file__).resolve().parents[1]))

from tulonkasa import Capture, Record, Refused, Side

REFUSED = "refused"
IN_FIVE, HELD_OUT = 5, 4  # of every five groups the fifth is held out

TABLES = """
    CREATE TABLE IF NOT EXISTS bodies (number INTEGER PRIMARY KEY, digest TEXT NOT NULL, body BLOB NOT NULL);
    CREATE INDEX IF NOT EXISTS digests ON bodies (digest);
    CREATE TABLE IF NOT EXISTS records (
        file TEXT, number INTEGER, body INTEGER NOT NULL REFERENCES bodies, PRIMARY KEY (file, number)
    ) WITHOUT ROWID;
"""


def packed(body: bytes) -> bytes:
    """A body as zlib packs it, most of which is zeros. The window is small, as a body is: that takes half the time."""
    small = zlib.compressobj(1, zlib.DEFLATED, 12, 5)
    return small.compress(body) + small.flush()


def line_of(file: str, record: Record) -> str:
    """The line of a record."""
    try:
        key = record.key()
    except Refused as refused:
        return f"{REFUSED}\t{file}\t{record.number}\t{refused}"
    body = base64.b64encode(packed(key.body)).decode("ascii")
    return f"{key.digest}\t{file}\t{record.number}\t{key.kept}\t{body}"


def keys(*files: str) -> Iterator[str]:
    """The lines of captures, each file by itself."""
    for file in files or (line.rstrip("\n") for line in sys.stdin):
        for record in Capture(file):
            yield line_of(file, record)


def group_of(table: sqlite3.Connection, digest: str, body: bytes) -> int:
    """The number of a body: the one that it has in the table, or else the next. The digest finds it, and the whole body decides."""
    if hashlib.sha256(body).hexdigest() != digest:
        raise ValueError(f"{digest} is not the digest of its line's body")
    for number, known in table.execute("SELECT number, body FROM bodies WHERE digest = ?", (digest,)):
        if zlib.decompress(known) == body:
            return int(number)
    (number,) = table.execute("SELECT coalesce(max(number) + 1, 0) FROM bodies").fetchone()
    table.execute("INSERT INTO bodies VALUES (?, ?, ?)", (number, digest, packed(body)))
    return int(number)


def meet(name: str) -> Iterator[str]:
    """Puts the lines of standard input into the table: all of them, or none where one is wrong or was met before."""
    met, refused = 0, 0
    with opened(name) as table, table:
        for line in sys.stdin:
            digest, file, number, *rest = line.rstrip("\n").split("\t")
            if digest == REFUSED:
                refused += 1
                continue
            group = group_of(table, digest, zlib.decompress(base64.b64decode(rest[1], validate=True)))
            table.execute("INSERT INTO records VALUES (?, ?, ?)", (file, int(number), group))
            met += 1
        (groups,) = table.execute("SELECT count(*) FROM bodies").fetchone()
    yield f"{met} records met, {refused} refused; the table has {groups} groups"


def sides(name: str) -> Iterator[str]:
    """The side of each record, by its group's number."""
    query = "SELECT file, records.number, digest, bodies.number FROM records JOIN bodies ON records.body = bodies.number ORDER BY 1, 2"
    with opened(name) as table:
        for file, number, digest, group in table.execute(query):
            yield f"{file}\t{number}\t{digest}\t{group}\t{side_of(group)}"


def side_of(group: int) -> Side:
    """The side of a group, by the library's rule for groups in the order of their first entries."""
    return Side.HELD_OUT if group % IN_FIVE == HELD_OUT else Side.TUNING


@contextlib.contextmanager
def opened(name: str) -> Iterator[sqlite3.Connection]:
    """The table of a file, which is made where it is missing, and closed again."""
    with contextlib.closing(sqlite3.connect(name)) as table:
        table.executescript(TABLES)
        yield table


def main(arguments: list[str]) -> int:
    """Prints the lines of a step. The status is 0, 1 where something is wrong with an input, 2 for a wrong use."""
    steps: dict[str, Callable[..., Iterable[str]]] = {"keys": keys, "meet": meet, "sides": sides}
    if not arguments or arguments[0] not in steps or (arguments[0] != "keys" and len(arguments) != 2):
        print(__doc__, file=sys.stderr)
        return 2
    try:
        for line in steps[arguments[0]](*arguments[1:]):
            print(line)
    except (OSError, ValueError, sqlite3.Error) as error:
        print(f"table.py: {error}", file=sys.stderr)
        return 1
    return 0


if __name__ == "__main__":
    sys.exit(main(sys.argv[1:]))
