"""What the tests share."""

import re
from pathlib import Path

from tulonkasa import LOOKUP_TEXELS, Bank, Refused, Tile

ROOT = Path(__file__).resolve().parents[3]
HEADER = (ROOT / "include" / "tulonkasa.h").read_text()
CAPTURE = ROOT / "samples" / "capture.bin"

INTENSITY = Tile(fmt=4, siz=1, line=1, width=2, height=1)


def plain_header():
    """The header without its comments, and with each line that goes on joined to the next."""
    return re.sub(r"/\*.*?\*/", "", HEADER, flags=re.S).replace("\\\n", " ")


def bank_of(places):
    """A bank with these bytes at these addresses, and zeros elsewhere."""
    bank = Bank()
    for address, data in places.items():
        bank.bytes[address : address + len(data)] = data
    return bank


def refusal_of(call, *arguments, **named):
    """The number of the refusal of a call; 0 where it is not refused."""
    try:
        call(*arguments, **named)
    except Refused as refused:
        return refused.number
    return 0


def listed(record):
    """The line of a record, as the proved lister prints it: refusal, flag, kept bytes, texels."""
    try:
        kept = record.key().kept
    except Refused as refused:
        return f"{refused.number} 0 0 0"
    lookup = record.tile.sampling().lookup
    return f"0 {int(lookup)} {kept} {LOOKUP_TEXELS if lookup else record.tile.width * record.tile.height}"
