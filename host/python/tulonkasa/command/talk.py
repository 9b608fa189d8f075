"""What a command prints: a table on standard output, and on a terminal how far it is."""

from __future__ import annotations

import sys
import time
from collections.abc import Iterable, Iterator
from typing import TypeVar

Thing = TypeVar("Thing")

DONE, DIFFERS, BAD_USE = 0, 1, 2

# Seconds before the first word of progress, and between two.
PATIENCE, PAUSE = 0.5, 0.1


class Table:
    """Lines of cells with tabs between them. The first names the columns."""

    begun = False

    def __init__(self, *names: str) -> None:
        Table.begun = True
        self.row(*names)

    def row(self, *cells: object) -> None:
        sys.stdout.write("\t".join(map(str, cells)) + "\n")


def say(words: str) -> None:
    """Tells a person at a terminal how it went. A script is told by the table and the exit code."""
    if sys.stderr.isatty():
        sys.stdout.flush()
        print(words, file=sys.stderr)


def counted(count: int, one: str, several: str = "") -> str:
    """A number and its noun: 1 record, 1,200 records."""
    return f"{count:,} {one if count == 1 else several or one + 's'}"


def progress(things: Iterable[Thing], total: int | None = None, nouns: str = "records") -> Iterator[Thing]:
    """Hands the things on, and says on a terminal how many have been done. Where a table's lines come there, they say it."""
    if not sys.stderr.isatty() or (Table.begun and sys.stdout.isatty()):
        yield from things
        return
    due, shown = time.monotonic() + PATIENCE, False
    try:
        for count, thing in enumerate(things):
            if time.monotonic() >= due:
                of = f" of {total:,}" if total else ""
                print(f"\r{nouns}: {count:,}{of}", end="", file=sys.stderr, flush=True)
                due, shown = time.monotonic() + PAUSE, True
            yield thing
    finally:
        if shown:
            print("\r\033[K", end="", file=sys.stderr, flush=True)
