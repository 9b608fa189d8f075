#!/usr/bin/env python3
"""Measures the table of keys: scale.py RECORDS [FILES [PROCESSES [SEED]]]

It makes so many records in a temporary folder, in so many captures (100), then takes their keys, with so many processes at a time (2), and
lets them meet in one table. It prints the time, the processors' time and the largest process of each step. A million records are 4.1 GB,
which are removed at the end.
"""

from __future__ import annotations

import hashlib
import os
import random
import subprocess
import sys
import tempfile
import time
from pathlib import Path
from typing import Callable

sys.path.insert(0, str(Path(__file__).resolve().parents[1]))

from tulonkasa import BANK_BYTES, PALETTE_BASE, Tile

TABLE = Path(__file__).resolve().with_name("table.py")
TILES = (
    Tile(fmt=0, siz=2, line=8, width=32, height=32),
    Tile(fmt=4, siz=1, line=4, width=32, height=32),
    Tile(fmt=2, siz=0, mode=2, line=2, width=32, height=32),
    Tile(fmt=0, siz=2, masks=4, maskt=4, line=8, width=32, height=32),
)
SEEN = (2048, 1024, 512, 1024)  # the bytes from the bank's start on that hold each tile's visible picture
A_PICTURE = 5  # so many records, about, show one picture


def bank_of(picture: int, leftover: bytes) -> bytes:
    """The bank of a picture: its own bytes, its palette, and leftover ones."""
    seen = SEEN[picture % len(TILES)]
    own = hashlib.shake_128(picture.to_bytes(8, "big")).digest(seen + BANK_BYTES - PALETTE_BASE)
    return own[:seen] + leftover[seen:PALETTE_BASE] + own[seen:]


def make(folder: str, records: int, files: int, seed: int) -> None:
    """Captures of records that show one of so many pictures each, with any leftover bytes."""
    drawn = random.Random(seed)
    for file in range(files):
        with open(Path(folder, f"{file:04}.bin"), "wb") as capture:
            for _ in range(records * file // files, records * (file + 1) // files):
                picture = drawn.randrange(max(1, records // A_PICTURE))
                capture.write(bytes(TILES[picture % len(TILES)]) + bank_of(picture, drawn.randbytes(BANK_BYTES)))


def measured(step: str, records: int, work: Callable[[], subprocess.Popen[bytes]]) -> None:
    """Waits for a step, and prints its line. It ends the program where the step fails."""
    began = time.monotonic()
    _, status, used = os.wait4(work().pid, 0)
    seconds = time.monotonic() - began
    if status:
        sys.exit(f"scale.py: {step} failed")
    busy = used.ru_utime + used.ru_stime
    print(f"{step}\t{seconds:.1f} s\t{busy:.1f} s\t{used.ru_maxrss / 1024:.0f} MiB\t{records / seconds:,.0f} a second", flush=True)


def main(records: int, files: int = 100, processes: int = 2, seed: int = 1) -> None:
    """Makes the captures, and measures each step over them."""
    with tempfile.TemporaryDirectory() as folder:
        table = [sys.executable, "-B", str(TABLE)]

        def shell(command: str) -> subprocess.Popen[bytes]:
            return subprocess.Popen(["sh", "-ec", command, *table, str(processes)], cwd=folder)

        make(folder, records, files, seed)
        print("step\ttime\tprocessors\tlargest process\trecords", flush=True)
        measured("keys", records, lambda: shell('ls *.bin | xargs -P "$3" -I NAME sh -c "$0 $1 $2 keys NAME >NAME.keys"'))
        measured("meet", records, lambda: shell('cat *.keys | "$0" "$1" "$2" meet captures.db'))
        measured("sides", records, lambda: shell('"$0" "$1" "$2" sides captures.db >sides'))
        lines = sum(path.stat().st_size for path in Path(folder).glob("*.keys"))
        print(f"lines: {lines:,} bytes; table: {Path(folder, 'captures.db').stat().st_size:,} bytes")


if __name__ == "__main__":
    if not 2 <= len(sys.argv) <= 5 or not all(argument.isdecimal() for argument in sys.argv[1:]):
        sys.exit(__doc__)
    main(*map(int, sys.argv[1:]))
