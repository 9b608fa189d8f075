"""The sizes of what the library takes and gives, as `include/tulonkasa.h` has them."""

BANK_BYTES = 4096  # a bank, and a key
WRITTEN_BYTES = 8192  # a written record: two bytes an address, high byte first
REASON_BYTES = 4096  # the reasons of rejected loads: a byte an address
MAP_BYTES = 512  # a reach map: a bit an address
LANE_MAP_BYTES = 32  # a lane map: a bit a palette slot
PALETTE_BASE = 2048  # where the palette begins in a bank
LOOKUP_TEXELS = 16384  # the texels of a lookup
SOURCE_MOST = 65536  # a source has at most this many bytes
LOADS_MOST = 65535  # so many loads have numbers, 1 to this
REASON_MOST = 255  # a rejected load has a reason from 1 to this
SIDE_MOST = 4096  # width and height are at most this
TEXEL_READS_MOST = 4  # a texel reads at most this many bytes
TILE_BYTES = 16  # a tile and its mode, in a record
CAPTURE_BYTES = TILE_BYTES + BANK_BYTES  # a record of a capture: a tile and its bank
RECORD_BYTES = 48  # a record of a replay: a load, or the question for a key
ENTRY_BYTES = 4117  # an entry of a split: a capture number, a tile, a lane and a key
ENTRIES_MOST = 4096  # a split has at most this many entries
PAM_HEADER_MOST = 63 + 2 * 10  # the header that a picture's file begins with has at most this many bytes
