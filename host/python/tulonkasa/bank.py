"""The bank, and the calls on it."""

from __future__ import annotations

import builtins
from array import array
from dataclasses import dataclass
from typing import TYPE_CHECKING

from tulonkasa import exports
from tulonkasa.answers import Answer, LoadAnswer
from tulonkasa.exports import Export
from tulonkasa.key import Checked, Key, checked, cut
from tulonkasa.marks import Marks
from tulonkasa.picture import Picture
from tulonkasa.refusal import refuse
from tulonkasa.sizes import BANK_BYTES, LANE_MAP_BYTES, LOOKUP_TEXELS, REASON_BYTES, TEXEL_READS_MOST
from tulonkasa.tile import Tile
from tulonkasa.written import Written, two_byte_numbers

if TYPE_CHECKING:
    from _typeshed import ReadableBuffer

LOOKUP_SIZE = (LOOKUP_TEXELS // 4, 4)


@dataclass(frozen=True)
class Loaded:
    """What a load did.

    count     how often it stored a byte
    made_up   how many of the stored bytes the source did not have: zeros in place of bytes at or past its end. At 0 every stored byte came
              from the source. A byte that is stored several times over, as a palette's are, counts each time. Never above `count`.
    number    its number, counted from 1 on since the bank was fresh. `Bank.written` has it at each address that the load stored at.
    """

    count: int
    made_up: int
    number: int


@dataclass(frozen=True)
class Observed:
    """A picture with the addresses that were read for it.

    picture   the picture
    trail     each address that was read, in order. `Written.numbers_of` says which load wrote there.
    """

    picture: Picture
    trail: array[int]


class Bank:
    """Texture memory: 4,096 bytes, the record of which load wrote each of them, and the reasons of those whose source was rejected.

    >>> bank = Bank()
    >>> tile = Tile(fmt=0, siz=2, line=1, width=4, height=1)
    >>> bank.load_block(bytes([0xF8, 0x01, 0x07, 0xC1, 0x00, 0x3F, 0xFF, 0xFF]), tile, image_siz=2, dxt=0, words=1)
    Loaded(count=8, made_up=0, number=1)
    >>> list(bank.picture(tile).bytes[:8])
    [255, 0, 0, 255, 0, 255, 0, 255]

    The calls on a tile take its `lane`, 0 to 3, which matters in modes 2 and 3 alone. Where a number is out of range they raise `Refused`.
    Several threads may use one bank as long as none of them loads into it.
    """

    __slots__ = ("_bytes", "_written", "_reasons")

    def __init__(self, data: ReadableBuffer | None = None) -> None:
        """A bank of these 4,096 bytes, which are copied, none written by a load; without them a fresh one, all zero."""
        self._bytes = bytearray(BANK_BYTES) if data is None else bytearray(memoryview(data))
        if len(self._bytes) != BANK_BYTES:
            raise ValueError(f"a bank has {BANK_BYTES:,} bytes, and these are {len(self._bytes):,}")
        self._written = Written()
        self._reasons = bytearray(REASON_BYTES)

    @property
    def bytes(self) -> memoryview:
        """Its bytes, which can be read and changed by hand: `bank.bytes[:2] = b"\\xf8\\x01"`. The record of what loads wrote, and their
        reasons, then stay as they are. `bytes(bank)` makes a copy."""
        return memoryview(self._bytes)

    @property
    def written(self) -> Written:
        """Which load wrote each byte: the number of the last one that stored there. Later loads change it."""
        return self._written

    @property
    def reasons(self) -> memoryview:
        """Why the source of each byte was rejected: for each address the reason of the last load that stored there, 0 if that was not
        rejected, or none was. Later loads change it; it can't be changed by hand."""
        return memoryview(self._reasons).toreadonly()

    def copy(self) -> Bank:
        """A bank like this one, with its record and its reasons, for which loads of one do not change the other."""
        other = Bank(self._bytes)
        other._written = self._written.copy()
        other._reasons[:] = self._reasons
        return other

    def __bytes__(self) -> builtins.bytes:
        return bytes(self._bytes)

    def __eq__(self, other: object) -> bool:
        """Whether bytes, record and reasons are equal."""
        if not isinstance(other, Bank):
            return NotImplemented
        return (self._bytes, self._written, self._reasons) == (other._bytes, other._written, other._reasons)

    __hash__ = None  # type: ignore[assignment]

    def __repr__(self) -> str:
        return f"<Bank: {BANK_BYTES - self._bytes.count(0):,} bytes are not zero, {self._written.last:,} loads>"

    # Loads

    def load_block(self, source: ReadableBuffer, tile: Tile, image_siz: int, dxt: int, words: int) -> Loaded:
        """Loads a block of `words` words of eight bytes. Of the tile it takes `fmt`, `siz`, `line` and `tmem_addr`.

        `image_siz` is the size of the image that is loaded from, 0 to 3. `dxt`, 0 to 4,095, is added up word by word, and each 2,048 begins
        a new row. The source has at most 65,536 bytes; past its end zeros are made up, and the answer says how many were stored.
        A load is refused by 2, 4, and 18 after 65,535 loads.

        >>> bank = Bank()
        >>> bank.load_block(bytes([0, 1, 2, 3, 4]), Tile(siz=3), image_siz=3, dxt=0, words=1)
        Loaded(count=8, made_up=3, number=1)
        >>> list(bank.bytes[:4]), list(bank.bytes[2048:2052])
        ([0, 1, 4, 0], [2, 3, 0, 0])
        """
        return self._load(exports.tk_load_block, source, tile, image_siz, dxt, words)

    def load_tile(
        self, source: ReadableBuffer, tile: Tile, image_siz: int, rows: int, words: int, stride: int
    ) -> Loaded:
        """Loads `rows` rows of `words` words each, `stride` source bytes apart. On odd rows the halves of each word change places.

        >>> bank = Bank()
        >>> bank.load_tile(bytes(range(16)), Tile(siz=2, line=1), image_siz=2, rows=2, words=1, stride=8).count
        16
        >>> list(bank.bytes[8:16])
        [12, 13, 14, 15, 8, 9, 10, 11]
        """
        return self._load(exports.tk_load_tile, source, tile, image_siz, rows, words, stride)

    def load_tlut_hardware(
        self, source: ReadableBuffer, tile: Tile, image_siz: int, count: int, rows: int, stride: int
    ) -> Loaded:
        """Loads a palette as the console's own load command does: `count` entries, in one row, of an image of size 1, 2 or 3.

        Any other `rows` and `image_siz` are refused by 4; for those there is `load_tlut_rows`. `stride` has no effect.

        >>> bank = Bank()
        >>> bank.load_tlut_hardware(b"\\xab\\xcd", Tile(tmem_addr=256), image_siz=2, count=1, rows=1, stride=0).count
        8
        >>> bank.bytes[2048:2056].hex()
        'abcdabcdabcdabcd'
        """
        return self._load(exports.tk_load_tlut_hardware, source, tile, image_siz, count, rows, stride)

    def load_tlut_rows(
        self, source: ReadableBuffer, tile: Tile, image_siz: int, count: int, rows: int, stride: int
    ) -> Loaded:
        """Loads a palette of `rows` rows of `count` entries, `stride` source bytes apart: the defined extension, for several rows or an
        image of size 0. A title that needs it does something that the hardware's single load does not do, and so has stitched its palette
        from rows. `image_siz` has no effect."""
        return self._load(exports.tk_load_tlut_rows, source, tile, image_siz, count, rows, stride)

    def reject_block(
        self, source: ReadableBuffer, tile: Tile, image_siz: int, dxt: int, words: int, reason: int
    ) -> Loaded:
        """Loads a block as `load_block` does, of a source that the capture rig rejected, and leaves the reason, 1 to 255, at each address
        where it stores. It stays there until another load stores; `rejection` asks for it. What a reason means is the caller's affair.
        Any other reason is refused by 19.

        >>> bank = Bank()
        >>> bank.reject_block(b"\\xf8\\x01", Tile(siz=2), image_siz=2, dxt=0, words=1, reason=7).number
        1
        >>> bank.rejection(Tile(fmt=4, siz=1, width=1, height=1))
        7
        """
        return self._load(exports.tk_reject_block, source, tile, image_siz, dxt, words, reason)

    def reject_tile(
        self, source: ReadableBuffer, tile: Tile, image_siz: int, rows: int, words: int, stride: int, reason: int
    ) -> Loaded:
        """Loads rows as `load_tile` does, of a rejected source, and leaves the reason as `reject_block` does."""
        return self._load(exports.tk_reject_tile, source, tile, image_siz, rows, words, stride, reason)

    def reject_tlut_hardware(
        self, source: ReadableBuffer, tile: Tile, image_siz: int, count: int, rows: int, stride: int, reason: int
    ) -> Loaded:
        """Loads a palette as `load_tlut_hardware` does, of a rejected source, and leaves the reason as `reject_block` does."""
        return self._load(exports.tk_reject_tlut_hardware, source, tile, image_siz, count, rows, stride, reason)

    def reject_tlut_rows(
        self, source: ReadableBuffer, tile: Tile, image_siz: int, count: int, rows: int, stride: int, reason: int
    ) -> Loaded:
        """Loads a palette as `load_tlut_rows` does, of a rejected source, and leaves the reason as `reject_block` does."""
        return self._load(exports.tk_reject_tlut_rows, source, tile, image_siz, count, rows, stride, reason)

    def _load(
        self, export: Export[LoadAnswer], source: ReadableBuffer, tile: Tile, image_siz: int, *numbers: int
    ) -> Loaded:
        written = self._written
        taken = (tile.fmt, tile.siz, tile.line, tile.tmem_addr, image_siz, *numbers, written._last)
        answer = export(self._bytes, written._bytes, self._reasons, source, *taken)
        refuse(answer.refusal)
        written._last = answer.number
        return Loaded(answer.count, answer.made_up, answer.number)

    def replay_record(self, record: ReadableBuffer, end: int, part: ReadableBuffer) -> int:
        """Does a record of a replay, 48 bytes: a load, or the question for a key, which changes nothing. Answers the count of stores, or of
        the bytes that the key would keep. `replay` does a whole file of them.

        `end` is the length of the companion file, and `part` the file's bytes from the record's offset on: at least as many as the record
        states. A key needs none. A record has no reason, so its load takes reasons away where it stores. Refused by 8, 10; a load by 2, 4,
        11 and 18; a key by 2, 3 and 5.
        """
        written = self._written
        answer = exports.tk_replay_record(
            self._bytes, written._bytes, self._reasons, record, end, part, written._last
        )
        refuse(answer.refusal)
        written._last = answer.number
        return answer.count

    # Pictures

    def picture(self, tile: Tile, lane: int = 0) -> Picture:
        """The tile's plain picture, `width` by `height` texels. Refused by 2, 3, and 5 where the mode does not accept the pair of format
        and size.

        >>> Bank(bytes([9]) * 4096).picture(Tile(fmt=4, siz=1, line=1, width=2, height=3))
        <Picture of 2 by 3>
        """
        return self._shown(exports.tk_sample_tile, tile, lane, *plain_size(tile))

    def picture_observed(self, tile: Tile, lane: int = 0) -> Observed:
        """The plain picture, with the addresses that were read.

        >>> list(Bank().picture_observed(Tile(fmt=0, siz=3, width=1, height=1)).trail)
        [0, 1, 2048, 2049]
        """
        return self._observed(exports.tk_sample_tile_observed, tile, lane, *plain_size(tile))

    def lookup(self, tile: Tile, lane: int = 0) -> Picture:
        """The tile's lookup: 16,384 texels, one for each place of the bank, as a picture of 4,096 by 4. Its rows are those of even rows and
        even x, of even rows and odd x, and the same of odd rows. Refused as a picture is."""
        return self._shown(exports.tk_sampling_lookup, tile, lane, *LOOKUP_SIZE)

    def lookup_observed(self, tile: Tile, lane: int = 0) -> Observed:
        """The lookup, with the addresses that were read."""
        return self._observed(exports.tk_sampling_lookup_observed, tile, lane, *LOOKUP_SIZE)

    def sample(self, tile: Tile, lane: int = 0) -> Picture:
        """The picture that the tile calls for: its lookup where `Tile.sampling` says so, else its plain picture. The key is cut from it."""
        return (self.lookup if tile.sampling().lookup else self.picture)(tile, lane)

    def sample_observed(self, tile: Tile, lane: int = 0) -> Observed:
        """The picture that the tile calls for, with the addresses that were read."""
        return (self.lookup_observed if tile.sampling().lookup else self.picture_observed)(tile, lane)

    def _shown(self, export: Export[Answer], tile: Tile, lane: int, width: int, height: int) -> Picture:
        texels = bytearray(4 * width * height)
        refuse(export(self._bytes, *tile.numbers, lane, texels).refusal)
        return Picture(width, height, bytes(texels))

    def _observed(self, export: Export[Answer], tile: Tile, lane: int, width: int, height: int) -> Observed:
        texels = bytearray(4 * width * height)
        trail = bytearray(2 * TEXEL_READS_MOST * width * height)
        answer = export(self._bytes, *tile.numbers, lane, texels, trail)
        refuse(answer.refusal)
        read = two_byte_numbers(memoryview(trail)[: 2 * answer.count])
        return Observed(Picture(width, height, bytes(texels)), read)

    # Keys

    def key(self, tile: Tile, lane: int = 0) -> Key:
        """The key of the visible picture, which is what a renderer shows of the picture that the tile calls for.

        Of a lookup that is all. Of a plain picture it is the first 2^`masks` columns, where `masks` is not 0, `cms` does not clamp (value
        2) and 2^`masks` is below `width`: from there on they repeat, mirrored or not. Else it is all columns. Rows likewise, by `maskt`,
        `cmt` and `height`. So a wall that repeats has one key under several widths, whatever the bank holds behind the columns that are
        shown. Refused by 2, 3 and 5.

        >>> key = Bank(bytes([255]) * 4096).key(Tile(fmt=4, line=1, width=1, height=2))
        >>> key.kept, key.bytes[0], key.bytes[12]
        (2, 255, 255)
        """
        return cut(self._bytes, tile, lane)

    def check_key(self, tile: Tile, lane: int, offer: ReadableBuffer) -> Checked:
        """Whether an offered key is the one that `key` cuts for this tile and lane; where it is not, the lowest wrong address and what is
        wrong there. For keys that another program made, with the bank that each was cut from. Refused by 1 where the offer has not 4,096
        bytes, and as `key` is.

        >>> bank = Bank(bytes([9]) * 4096)
        >>> tile = Tile(fmt=4, siz=1, masks=1, line=1, width=4, height=1)
        >>> offer = bytearray(bank.key(tile).bytes)
        >>> print(bank.check_key(tile, 0, offer))
        right
        >>> offer[2] = 9  # a third column, which the tile does not show
        >>> print(bank.check_key(tile, 0, offer))
        the byte at address 2 is left over
        """
        return checked(self._bytes, tile, lane, offer)

    # What loads left

    def has_load(self, tile: Tile) -> bool:
        """Whether the tile can reach an address that a load has written. Refused by 2 and 3."""
        answer = exports.tk_tile_has_load(*tile.numbers, self._written._bytes)
        refuse(answer.refusal)
        return answer.yes == 1

    def rejection(self, tile: Tile) -> int | None:
        """Whether the tile touches bytes of a rejected load, and why that was rejected: the reason at the first address that has one, none
        if none has.

        The addresses that the tile can reach (`Tile.reach`) are asked first, row by row; on odd rows bytes 4 to 7 of each word before 0 to
        3, and where (0,3) reaches both halves of the bank each address before the one 2,048 further on. In modes 2 and 3 those of the
        palette follow, rising: the 128 bytes of the tile's palette for `siz` 0, else the upper half. Refused by 2 and 3.
        """
        answer = exports.tk_rejection(*tile.numbers, self._reasons)
        refuse(answer.refusal)
        return answer.reason or None

    def palette_nonreplicated(self) -> Marks:
        """The palette slots, 0 to 255, whose four pairs of bytes are not all equal. Slot j is the eight bytes from 2,048 + 8 j on.

        >>> bank = Bank()
        >>> bank.bytes[2048 + 8 * 3] = 1
        >>> list(bank.palette_nonreplicated())
        [3]
        """
        marks = bytearray(LANE_MAP_BYTES)
        refuse(exports.tk_palette_nonreplicated(self._bytes, marks))
        return Marks(marks)


def plain_size(tile: Tile) -> tuple[int, int]:
    """The size of the tile's plain picture, once its numbers are found in range."""
    tile.sampling()
    return tile.width, tile.height
