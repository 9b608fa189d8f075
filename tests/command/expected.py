"""What the command must say of samples/drawn.bin, worked out from what was drawn. The library is not asked."""

import functools
import hashlib
import sys
from pathlib import Path

ROOT = Path(__file__).resolve().parents[2]
SAMPLES = ROOT / "samples"
sys.dont_write_bytecode = True  # no compiled files are left beside the scripts
sys.path.insert(0, str(SAMPLES))
import draw
import make

RECORD, HEAD = 4112, 16
CAPTURE = SAMPLES / "drawn.bin"
REPLAY = SAMPLES / "drawn-replay.bin"
COMPANION = SAMPLES / "drawn-companion.bin"
SCENES = draw.scenes()
LANE = bytes(1)

WORDS = {
    2: "refusal 2: a field of the tile is out of range, or a side of the picture",
    3: "refusal 3: mode or lane is above 3",
    4: "refusal 4: a number of the load or decoding, or its source's length, is out of range",
    5: "refusal 5: the mode does not accept this pair of format and size, or it has no linear reading",
    10: "refusal 10: the kind of the record is above 3",
    11: "refusal 11: the record's source goes beyond the companion file",
    12: "refusal 12: the picture has a zero side, which a file can't have",
    16: "refusal 16: there are more than 4,096 entries",
}

# What calls for a lookup.
LOOKUPS = ("wall past its size", "tall of an odd line", "film frame")


RECORDS = CAPTURE.read_bytes()


def record(number):
    """A record of the capture."""
    return RECORDS[RECORD * number : RECORD * (number + 1)]


def bank(number):
    return record(number)[HEAD:]


def numbered(name):
    """The first record of what was drawn under a name."""
    return [drawn.name for drawn in SCENES].index(name)


def head(drawn):
    """A tile record of sixteen bytes."""
    return make.tile_bytes(dict(drawn.fields))


def looked_up(drawn):
    """The palette entries that the drawn texels name."""
    data = b"".join(drawn.halves[0])
    if drawn.fields["siz"]:
        return set(data)
    return {16 * drawn.fields["palette"] + nibble for byte in data for nibble in (byte >> 4, byte & 15)}


def with_entries(key, entries, source):
    """A key with the first pair of each entry kept."""
    for entry in entries:
        at = make.PALETTE + 8 * entry
        key[at : at + 2] = source[at : at + 2]
    return bytes(key)


@functools.cache
def key_and_kept(number):
    """The key of a record, and how many bytes it keeps: the drawn rows where a load leaves them, and of each entry that they name the first
    pair. A lookup reads the whole bank, or the lower half as indexes."""
    drawn, whole = SCENES[number], bank(number)
    if drawn.name == "film frame":
        entries = set(whole[: make.PALETTE])
        return with_entries(bytearray(whole[: make.PALETTE] + bytes(make.PALETTE)), entries, whole), make.PALETTE + 2 * len(entries)
    if drawn.name in LOOKUPS:
        return whole, make.BANK
    key = bytearray(make.BANK)
    for half, rows in enumerate(drawn.halves):
        make.store_rows(key, rows, drawn.fields["line"], drawn.fields.get("tmem_addr", 0) + 256 * half)
    kept = sum(len(row) for rows in drawn.halves for row in rows)
    if not drawn.entries:
        return bytes(key), kept
    entries = looked_up(drawn)
    return with_entries(key, entries, whole), kept + 2 * len(entries)


def body(number):
    """What a record is filed under: tile record, lane and key."""
    return head(SCENES[number]) + LANE + key_and_kept(number)[0]


def digest(number):
    return hashlib.sha256(body(number)).hexdigest() if not SCENES[number].refusal else ""


def size(number):
    drawn = SCENES[number]
    return "4096x4" if drawn.name in LOOKUPS else f"{drawn.fields['width']}x{drawn.fields['height']}"


# The groups, by hand: the letter A comes twice and the sign by day three times; all else comes once.
GROUPS = [[0], [1], [2], [3], [4], [5], [6, 8], [7], [9], [10], [11], [12], [13], [14, 15, 16], [17]] + [
    [number] for number in range(18, 35)
]
# The numbers of their keys: the five walls have one, and the two strips.
KEY_NUMBERS = [*range(15), 15, 15, 15, 15, 15, 16, 16, *range(17, 27)]


def five_bits(value):
    return value << 3 | value >> 2


def colour(entry):
    """Red, green, blue and alpha of sixteen bits."""
    return bytes((five_bits(entry >> 11), five_bits(entry >> 6 & 31), five_bits(entry >> 1 & 31), 255 * (entry & 1)))


def lookup_rows(number):
    """The four rows of a lookup of eight bits intensity: two of even rows, each place's byte, and two of odd rows, whose halves of a word
    have changed places."""
    whole = bank(number)
    rows = [b"".join(bytes([whole[place ^ swap]] * 4) for place in range(make.BANK)) for swap in (0, 4)]
    return [rows[0], rows[0], rows[1], rows[1]]


def texels(number):
    """What is visible of a record, as its texels were drawn: intensities of four bits, colours of sixteen or thirty-two, and indexes of
    four bits under a palette."""
    drawn = SCENES[number]
    data = [b"".join(rows) for rows in drawn.halves]
    nibbles = [nibble for byte in data[0] for nibble in (byte >> 4, byte & 15)]
    pair = drawn.fields["fmt"], drawn.fields["siz"]
    if pair == (make.I, 0):
        return b"".join(bytes([17 * nibble] * 4) for nibble in nibbles)
    if pair == (make.CI, 0):
        return b"".join(colour(drawn.entries[nibble]) for nibble in nibbles)
    if pair == (make.RGBA, 3):
        return b"".join(data[0][at : at + 2] + data[1][at : at + 2] for at in range(0, len(data[0]), 2))
    assert pair == (make.RGBA, 2), pair
    return b"".join(colour(data[0][at] << 8 | data[0][at + 1]) for at in range(0, len(data[0]), 2))
