/* Tulonkasa: the texture memory of a cartridge game console, as a C library.
 *
 * The texture memory is a bank of 4,096 bytes. The library loads it (block, tile, palette) and records which load wrote each
 * byte, and the reason if that load's source was rejected. It makes pictures of the bank, says which of its bytes a tile can
 * reach, and cuts a key for a picture: the bank with the bytes kept that making its visible part reads, and all others zero. It
 * checks a key that was made elsewhere. It decodes a source straight to the picture that a load of it gives, without a bank. It
 * writes a picture as a file for other programs, and reads such files. It replays a capture, which is a file of records of such
 * loads and keys. It also splits captures into tuning and held-out ones by their keys.
 *
 * Rules that hold for every call:
 *
 * - A buffer is a pointer to bytes and a length. The library allocates nothing, keeps no pointer after it returns, and has
 *   no state of its own. So threads may call it at the same time, each with buffers of its own. A buffer that is only read, a
 *   `const uint8_t *` below, may be shared: any number of threads may make pictures and keys of one bank that none of them writes.
 * - Buffers of one call must not overlap. A buffer of length 0 may have a null pointer.
 * - Every number is taken. One that is out of range, or a buffer of a wrong length, is refused with a number (TK_REFUSED_..
 *   below). Each call tests only what it has a use for, in this order: 1, 8, 10, 2, 3, 4, 11, 5, 12, 6, 7, 19, 18. Two
 *   calls have an order of their own: tk_read_pam 13, 14, 2, 15, 6; tk_split 16, 17.
 * - A refused call changes no buffer. Its other answers are 0, but the number of a load or of a replayed record, which is then
 *   the one that was passed.
 * - Success is the refusal 0, TK_DONE.
 *
 * The functions named tk_.._of, at the end, take a tk_tile and buffers of the right length, and are what a program wants
 * most of the time.
 *
 * Link with libtulonkasa.a or libtulonkasa.so (x86-64). Where host/install has put them, `pkg-config --cflags --libs tulonkasa` says
 * how. Works as C99 and as C++. */

#ifndef TULONKASA_H
#define TULONKASA_H

#include <stddef.h>
#include <stdint.h>

#ifdef __cplusplus
extern "C" {
#endif

/* ---- Version -------------------------------------------------------------------------------------------------------- */

/* The version of this header. The first number rises where a program may have to change: an entry or a name is gone or is called
 * otherwise, or a call answers otherwise on numbers and buffers that it took before, a key among them. The second rises where there is
 * something new: an entry, a name, or numbers that are taken and were refused. The third rises where no answer changes. CHANGELOG.md
 * says what changed. */
#define TK_VERSION_MAJOR 1
#define TK_VERSION_MINOR 0
#define TK_VERSION_PATCH 0

/* The three as one number, for `#if TK_VERSION >= 1002000`. */
#define TK_VERSION (1000000 * TK_VERSION_MAJOR + 1000 * TK_VERSION_MINOR + TK_VERSION_PATCH)

/* The version of the library that the program runs with, as one number like TK_VERSION. It is TK_VERSION where header and library are
 * of one release. A later library with the same first number serves, too. */
uint32_t tk_version(void);

/* ---- Sizes ---------------------------------------------------------------------------------------------------------- */

#define TK_BANK_BYTES 4096     /* a bank, and a key */
#define TK_WRITTEN_BYTES 8192  /* a written record: two bytes an address, high byte first (see Loads) */
#define TK_REASON_BYTES 4096   /* the reasons of rejected loads: a byte an address, 0 for none (see Rejected loads) */
#define TK_MAP_BYTES 512       /* a reach map: address a is bit a % 8 of byte a / 8 */
#define TK_LANE_MAP_BYTES 32   /* a lane map: slot j is bit j % 8 of byte j / 8 */
#define TK_PALETTE_BASE 2048   /* where the palette begins in a bank */
#define TK_LOOKUP_TEXELS 16384 /* the texels of a lookup */
#define TK_SOURCE_MOST 65536   /* a source, of a load or of a decoding, has at most this many bytes */
#define TK_LOADS_MOST 65535    /* so many loads have numbers, 1 to this */
#define TK_REASON_MOST 255     /* a rejected load has a reason from 1 to this */
#define TK_SIDE_MOST 4096      /* width and height, of a tile or a picture, are at most this */
#define TK_TEXEL_READS_MOST 4  /* a texel reads at most this many bytes of the bank or of a source */
#define TK_RECORD_BYTES 48     /* a record of a capture */
#define TK_ENTRY_BYTES 4117    /* an entry of a split: 4 and 16 bytes, the lane's byte, and a key */
#define TK_ENTRIES_MOST 4096   /* a split has at most this many entries */

/* The bytes of a picture, and of a trail that is long enough for any picture of this size. A lookup is 4,096 by 4. With sides up to
 * TK_SIDE_MOST both fit a size_t. */
#define TK_PICTURE_BYTES(width, height) ((size_t)4 * (width) * (height))
#define TK_TRAIL_BYTES(width, height) ((size_t)2 * TK_TEXEL_READS_MOST * (width) * (height))

/* The header that tk_write_pam writes has at most this many bytes: 63, and the digits of width and height, at most ten each. */
#define TK_PAM_HEADER_MOST (63 + 2 * 10)

/* ---- Refusals ------------------------------------------------------------------------------------------------------- */

/* 9 was the number of a test that no input could fail, and is not given out again. */
enum {
    TK_DONE = 0,                 /* not refused */
    TK_REFUSED_LENGTH = 1,       /* a bank, key, written record, reach map, lane map or the reasons have not their length */
    TK_REFUSED_TILE = 2,         /* a field of the tile is out of range, or a side of a picture is above TK_SIDE_MOST */
    TK_REFUSED_MODE_OR_LANE = 3, /* mode or lane is above 3 */
    TK_REFUSED_LOAD = 4,         /* a number of the load or the decoding, or the length of its source, is out of range */
    TK_REFUSED_PAIR = 5,         /* the mode does not accept this pair of format and size, or it has no linear reading */
    TK_REFUSED_PICTURE = 6,      /* the picture's buffer is shorter than 4 bytes a texel, or the file's than the file */
    TK_REFUSED_TRAIL = 7,        /* the trail's buffer is shorter than 2 bytes a read */
    TK_REFUSED_TORN = 8,         /* a capture's record has fewer than 48 bytes, or a program's input ends inside a record */
    TK_REFUSED_KIND = 10,        /* the kind of a capture's record is above 3 */
    TK_REFUSED_BEYOND = 11,      /* the source of a capture's record goes beyond the companion file */
    TK_REFUSED_ZERO_SIDE = 12,   /* a picture to be written has a zero side */
    TK_REFUSED_HEADER = 13,      /* a file's header breaks the PAM description, a zero side included */
    TK_REFUSED_TUPLES = 14,      /* a file's depth, maximum or tuple type is another, or it has no tuple type */
    TK_REFUSED_TEXELS = 15,      /* a file has fewer texel bytes than its header calls for */
    TK_REFUSED_COUNT = 16,       /* the count of a split's entries is above TK_ENTRIES_MOST */
    TK_REFUSED_ENTRIES = 17,     /* a split's entries are not TK_ENTRY_BYTES each, or its sides not one byte each */
    TK_REFUSED_NUMBER = 18,      /* no number is left for a load: the last one passed is above 65,534 */
    TK_REFUSED_REASON = 19       /* the reason of a rejected load is 0, or above TK_REASON_MOST */
};

/* What a refusal's number means, in words, for a message to people. The words may get better; programs go by the number. */
static inline const char *tk_refusal_text(uint32_t refusal) {
    switch (refusal) {
        case TK_DONE: return "not refused";
        case TK_REFUSED_LENGTH: return "a bank, key, written record or map, or the reasons, have a wrong length";
        case TK_REFUSED_TILE: return "a field of the tile is out of range, or a side of the picture";
        case TK_REFUSED_MODE_OR_LANE: return "mode or lane is above 3";
        case TK_REFUSED_LOAD: return "a number of the load or decoding, or its source's length, is out of range";
        case TK_REFUSED_PAIR: return "the mode does not accept this pair of format and size, or it has no linear reading";
        case TK_REFUSED_PICTURE: return "the buffer of the picture or of its file is too short";
        case TK_REFUSED_TRAIL: return "the trail's buffer is too short";
        case TK_REFUSED_TORN: return "a record has fewer than 48 bytes";
        case TK_REFUSED_KIND: return "the kind of the record is above 3";
        case TK_REFUSED_BEYOND: return "the record's source goes beyond the companion file";
        case TK_REFUSED_ZERO_SIDE: return "the picture has a zero side, which a file can't have";
        case TK_REFUSED_HEADER: return "the file's header breaks the PAM description";
        case TK_REFUSED_TUPLES: return "the file's depth is not 4, its maximum not 255, or its tuple type not RGB_ALPHA";
        case TK_REFUSED_TEXELS: return "the file has fewer texel bytes than its header calls for";
        case TK_REFUSED_COUNT: return "there are more than 4,096 entries";
        case TK_REFUSED_ENTRIES: return "the entries are not 4,117 bytes each, or the sides not one byte each";
        case TK_REFUSED_NUMBER: return "there were 65,535 loads, and no number is left for another";
        case TK_REFUSED_REASON: return "the reason of a rejected load is not from 1 to 255";
        default: return "a refusal without a name";
    }
}

/* ---- What is wrong with an offered key ------------------------------------------------------------------------------ */

/* A byte is kept where the visible picture reads it (see Keys), whatever the bank has there. */
enum {
    TK_KEY_RIGHT = 0,        /* nothing is */
    TK_KEY_MISSING = 1,      /* the byte is kept and not zero in the bank, but zero in the offer */
    TK_KEY_LEFT_OVER = 2,    /* the byte is not kept, and the offer has not zero there */
    TK_KEY_ANOTHER_VALUE = 3 /* any other difference: the byte is kept, and the offer has another one, not zero */
};

/* ---- Answers -------------------------------------------------------------------------------------------------------- */

/* count: a picture's reads, of a bank or of a source; a key's kept bytes; or a file's bytes */
typedef struct tk_answer {
    uint32_t refusal;
    uint32_t count;
} tk_answer;

/* count: a load's stores. made_up: how many of their bytes the source did not have: zeros in place of bytes at or past
 * its end.
 * At 0 every stored byte came from the source; above 0 the load asks for more than the source has, as where a capture cut it
 * short. A byte that is stored several times over, as a palette's are, counts each time. made_up is never above count; both
 * are 0 where the load is refused.
 * number: the load's own number, or where it is refused the number that was passed. Either way it is what to pass next. */
typedef struct tk_load_answer {
    uint32_t refusal;
    uint32_t count;
    uint32_t made_up;
    uint32_t number;
} tk_load_answer;

/* count: the stores of a replayed record's load, or the bytes that its key would keep. number: the load's number; of a key and of
 * a refused record the number that was passed. */
typedef struct tk_replay_answer {
    uint32_t refusal;
    uint32_t count;
    uint32_t number;
} tk_replay_answer;

/* flag: 1 if the tile calls for a lookup, 0 for a plain picture. width, height: the texels to allocate for it, 4,096 by 4 for a lookup.
 * Of a plain picture they are the tile's, but at least 1 each: a tile of no texels still has a texture to allocate, though
 * tk_sample_tile makes no texel of it. */
typedef struct tk_sampling_answer {
    uint32_t refusal;
    uint32_t flag;
    uint32_t width;
    uint32_t height;
} tk_sampling_answer;

/* width, height: the texels of a picture that was read */
typedef struct tk_size_answer {
    uint32_t refusal;
    uint32_t width;
    uint32_t height;
} tk_size_answer;

/* yes: 1 or 0 */
typedef struct tk_yes_answer {
    uint32_t refusal;
    uint32_t yes;
} tk_yes_answer;

/* reason: of a rejected load, 1 to TK_REASON_MOST; 0 for none */
typedef struct tk_reason_answer {
    uint32_t refusal;
    uint32_t reason;
} tk_reason_answer;

/* yes: 1 if the offered key is right, else 0. address: where it is not, the lowest address at which it is wrong, below TK_BANK_BYTES.
 * wrong: what is wrong there, TK_KEY_MISSING, TK_KEY_LEFT_OVER or TK_KEY_ANOTHER_VALUE. Of a right key both are 0, and of a refused call
 * all three. */
typedef struct tk_check_answer {
    uint32_t refusal;
    uint32_t yes;
    uint32_t address;
    uint32_t wrong;
} tk_check_answer;

/* tuning, held_out: how many entries are on each side. They add up to the count of entries. */
typedef struct tk_split_answer {
    uint32_t refusal;
    uint32_t tuning;
    uint32_t held_out;
} tk_split_answer;

/* ---- A tile and its mode -------------------------------------------------------------------------------------------- */

/* All zero is a tile, so `tk_tile tile = {0};` and then the fields that matter. */
typedef struct tk_tile {
    uint32_t fmt;       /* 0..7: format (0 RGBA, 1 YUV, 2 indexed, 3 intensity and alpha, 4 intensity) */
    uint32_t siz;       /* 0..3: 4, 8, 16 or 32 bits a texel */
    uint32_t palette;   /* 0..15: which sixteen palette entries a 4-bit index picks from */
    uint32_t mode;      /* 0..3: 0 and 1 without a palette, 2 a palette of RGBA 5/5/5/1, 3 of intensity and alpha */
    uint32_t cms;       /* 0..3: across: value 1 mirrors, value 2 clamps */
    uint32_t cmt;       /* 0..3: down */
    uint32_t masks;     /* 0..15: across, the tile repeats every 2^masks texels; 0 for no repeating */
    uint32_t maskt;     /* 0..15: down */
    uint32_t line;      /* 0..511: words of eight bytes from one row to the next */
    uint32_t tmem_addr; /* 0..511: the word of eight bytes at which the tile begins */
    uint32_t width;     /* 0..TK_SIDE_MOST: texels */
    uint32_t height;    /* 0..TK_SIDE_MOST: texels */
} tk_tile;

/* The twelve numbers of a tile and its mode, as most calls below take them. */
#define TK_TILE_PARAMETERS                                                                                   \
    uint32_t fmt, uint32_t siz, uint32_t palette, uint32_t mode, uint32_t cms, uint32_t cmt, uint32_t masks, \
        uint32_t maskt, uint32_t line, uint32_t tmem_addr, uint32_t width, uint32_t height

/* The same twelve out of a `const tk_tile *`. */
#define TK_TILE_ARGUMENTS(tile)                                                                                      \
    (tile)->fmt, (tile)->siz, (tile)->palette, (tile)->mode, (tile)->cms, (tile)->cmt, (tile)->masks, (tile)->maskt, \
        (tile)->line, (tile)->tmem_addr, (tile)->width, (tile)->height

/* ---- Loads ---------------------------------------------------------------------------------------------------------- */

/* A load stores bytes of the source into the bank. At each address where it stores it sets the written record to its number, and
 * the reasons to 0. The source has 0 to 65,536 bytes; past its end zeros are made up. Of the tile a load takes fmt, siz, line and
 * tmem_addr. image_siz is the size of the image that is loaded from: 0..3, and for tk_load_tlut_hardware 1..3. On odd rows the two
 * halves of each word change places, as making a picture expects.
 *
 * The written record holds for each address the number of the last load that stored there, 0 for none: bytes 2 a and 2 a + 1 for
 * address a, high byte first. tk_written_by reads it. An address counts as written when its number is not 0.
 *
 * Loads are numbered from 1 on, beginning with a record of zeros. The library keeps no state, so the caller keeps the number of
 * the last load: `last` is that number, 0 before the first, and the load stores and answers the one after it. A load that stores
 * nothing takes a number too; a refused one takes none, and answers the number passed. So the number answered is always the one
 * to pass to the next load with this bank and record. Nothing ties `last` to what the record holds.
 *
 * The last number is 65,535. A load to which a number above 65,534 is passed is refused by 18: to go on, begin with a record of
 * zeros and a `last` of 0.
 *
 * The reasons say for each address why the source of the last load that stored there was rejected: byte a for address a, 0 where
 * it was not. They begin as zeros. Where no load is rejected they stay so.
 *
 * Refuses 1 (bank, written, reasons), 2, 4, 18 (last). Answers the count of stores, how many of their bytes were made up, and the
 * number. */

/* What every load takes first: the buffers, of which it changes the first three; the tile's four numbers; the image's size. */
#define TK_LOAD_PARAMETERS                                                                                               \
    uint8_t *bank, size_t bank_length, uint8_t *written, size_t written_length, uint8_t *reasons, size_t reasons_length, \
        const uint8_t *source, size_t source_length, uint32_t fmt, uint32_t siz, uint32_t line, uint32_t tmem_addr,      \
        uint32_t image_siz

/* words: 0..2,048 words of eight bytes in a row. dxt: 0..4,095, added up word by word; each 2,048 begins a new row. */
tk_load_answer tk_load_block(TK_LOAD_PARAMETERS, uint32_t dxt, uint32_t words, uint32_t last);

/* rows: 0..1,024. words: 0..512, of eight bytes, in each row. stride: 0..65,535 source bytes from row to row. */
tk_load_answer tk_load_tile(TK_LOAD_PARAMETERS, uint32_t rows, uint32_t words, uint32_t stride, uint32_t last);

/* Palettes: an entry of two bytes is stored four times over. count: 0..1,024 entries a row. stride: 0..65,535 source bytes from row
 * to row.
 *
 * Use tk_load_tlut_hardware for what the console's own load command does, and tk_load_tlut_rows for the defined extension, several
 * rows or an image of size 0: a title that needs the second does something that the hardware's single load does not do, and so has
 * stitched its palette from rows. */

/* As the hardware does it: rows is 1, and image_siz 1..3. The source is gone through step by step. With size 2 a step is an entry.
 * Entries then stand 8 bytes apart for siz 0, 16 for siz 1 and 32 for siz 2 and 3, and pairs (0,3) and (1,any) split them over both
 * halves of the bank: use siz 0, and not fmt 1, for a packed palette. With size 1 or 3 a step covers eight or two entries and eight
 * source bytes, and only its first entry is stored; with size 3 and siz 0 every second step overwrites the one before it. line and
 * stride have no effect; a stride out of range is refused all the same. */
tk_load_answer tk_load_tlut_hardware(TK_LOAD_PARAMETERS, uint32_t count, uint32_t rows, uint32_t stride, uint32_t last);

/* By rows: 1..1,024 of them. Entry i of row r is stored from byte 8 tmem_addr + 32 r line + 8 i on, wrapped at the bank's end: rows
 * step 32 line. fmt, siz and image_siz have no effect, so that one row of an image of size 1, 2 or 3 is stored like any other row,
 * and not as the hardware does it; out of range they are refused all the same. */
tk_load_answer tk_load_tlut_rows(TK_LOAD_PARAMETERS, uint32_t count, uint32_t rows, uint32_t stride, uint32_t last);

/* ---- Rejected loads ------------------------------------------------------------------------------------------------- */

/* For a load whose source the capture rig rejected. It can still be replayed into the bank, and leaves a reason behind; later one
 * can ask whether the tile of a picture touches such bytes, and why they were rejected (tk_rejection).
 *
 * A rejected load stores and counts as the load of the same name does, and takes a number like it. But at each address where it
 * stores it sets the reasons to `reason`, 1..TK_REASON_MOST. What a reason means is the caller's affair. It stays until another
 * load stores there: an ordinary one sets 0, a rejected one its own.
 *
 * Refuses 1 (bank, written, reasons), 2, 4, 19 (reason), 18 (last). Answers as a load does. */

tk_load_answer tk_reject_block(TK_LOAD_PARAMETERS, uint32_t dxt, uint32_t words, uint32_t reason, uint32_t last);

tk_load_answer tk_reject_tile(TK_LOAD_PARAMETERS, uint32_t rows, uint32_t words, uint32_t stride, uint32_t reason,
                              uint32_t last);

tk_load_answer tk_reject_tlut_hardware(TK_LOAD_PARAMETERS, uint32_t count, uint32_t rows, uint32_t stride, uint32_t reason,
                                       uint32_t last);

tk_load_answer tk_reject_tlut_rows(TK_LOAD_PARAMETERS, uint32_t count, uint32_t rows, uint32_t stride, uint32_t reason,
                                   uint32_t last);

/* Whether the tile touches bytes of a rejected load, and why that was rejected: the reason at the first address that has one, 0
 * where none has. The addresses are asked in this order:
 *
 * 1. Those that tk_reach marks: row by row, and in a row from its first byte on. On odd rows the two halves of each word have
 *    changed places, so bytes 4 to 7 of a word come before 0 to 3. In modes 0 and 1, with fmt 0 and siz 3, each address a below
 *    2,048 is followed by a + 2,048. A tile that calls for a lookup reaches addresses from 0 on, rising.
 * 2. In modes 2 and 3 then those of the palette, rising: for siz 0 the 128 from 2,048 + 128 palette on, else all from 2,048 on.
 *
 * There is no lane, the pair may be one of which no picture is made, and the written record is not asked.
 * Refuses 1 (reasons), 2, 3. */
tk_reason_answer tk_rejection(TK_TILE_PARAMETERS, const uint8_t *reasons, size_t reasons_length);

/* ---- Which picture -------------------------------------------------------------------------------------------------- */

/* Whether the tile calls for a plain picture or a lookup, and the texels to allocate, as TK_PICTURE_BYTES(width, height) takes them.
 * Refuses 2, 3. */
tk_sampling_answer tk_sampling(TK_TILE_PARAMETERS);

/* ---- Pictures ------------------------------------------------------------------------------------------------------- */

/* A picture is four bytes a texel: red, green, blue, alpha, row by row. lane, 0..3, is the lane of each palette slot that is
 * read in modes 2 and 3. A buffer longer than needed keeps its further bytes.
 * Refuses 1 (bank), 2, 3, 5, 6, 7 (with a trail). Answers the count of reads: 3 a texel in modes 2 and 3, else 1, 2 or 4.
 *
 * The calls named .._observed also write the trail: each address that was read, in order, as two bytes, high byte first. An
 * odd last byte of its buffer is left unused. */

/* The plain picture: width by height texels. The largest has 64 MiB, and the longest trail 128 MiB. */
tk_answer tk_sample_tile(const uint8_t *bank, size_t bank_length, TK_TILE_PARAMETERS, uint32_t lane, uint8_t *picture,
                         size_t picture_length);

tk_answer tk_sample_tile_observed(const uint8_t *bank, size_t bank_length, TK_TILE_PARAMETERS, uint32_t lane,
                                  uint8_t *picture, size_t picture_length, uint8_t *trail, size_t trail_length);

/* The lookup: 16,384 texels, one for each place of the bank: even rows then odd, even x then odd, place 0 to 4,095. */
tk_answer tk_sampling_lookup(const uint8_t *bank, size_t bank_length, TK_TILE_PARAMETERS, uint32_t lane, uint8_t *picture,
                             size_t picture_length);

tk_answer tk_sampling_lookup_observed(const uint8_t *bank, size_t bank_length, TK_TILE_PARAMETERS, uint32_t lane,
                                      uint8_t *picture, size_t picture_length, uint8_t *trail, size_t trail_length);

/* ---- Pictures of a source ------------------------------------------------------------------------------------------- */

/* Decodes a source straight to a picture, without a bank: width by height texels of four bytes, as above. Texel (x, y) is read from
 * the source's row y, which begins y stride bytes into the source. Bytes at or past its end are zero. For format and size
 *
 *     (0,2)         bytes 2 x and 2 x + 1 of the row: red, green and blue of five bits each, and alpha of one
 *     (0,3)         bytes 4 x to 4 x + 3: red, green, blue, alpha
 *     (2,0)         half of byte x / 2, the upper one for even x: 16 palette and the half, in all channels
 *     (2,1)         byte x, in all channels
 *     (2,2)         bytes 2 x and 2 x + 1, twice
 *     (3,0), (4,0)  half of byte x / 2, the upper one for even x: three bits of intensity and one of alpha; intensity
 *     (3,1), (4,1)  byte x: four bits of intensity and four of alpha; intensity
 *     (3,2)         bytes 2 x and 2 x + 1: intensity and alpha
 *
 * An indexed texel is the index itself, since there is no palette to look it up in. Each row begins with a byte of its own, so that of
 * an odd width of 4-bit texels the last half of a row's last byte is not read.
 *
 * What goes in comes out: this is the picture that tk_sample_tile makes in mode 0 or 1, in any lane, after a tile load of the same
 * source and stride into any bank, where
 *
 * - image_siz is the tile's siz, and the load has height rows, of as many words each as the width needs: width over 16, 8, 4 or 2
 *   for siz 0, 1, 2 or 3, rounded up;
 * - height is at most 256;
 * - a row fits the line: width is at most 16, 8 or 4 times line for siz 0, 1, and 2 or 3;
 * - all lines are inside the bank: tmem_addr + height line is at most 512, or 256 for (0,3).
 *
 * Of a tile it takes fmt, siz, palette, width and height. stride: 0..65,535 source bytes from row to row. A picture buffer longer than
 * needed keeps its further bytes.
 * Refuses 2 (these five), 4 (stride, or a source longer than TK_SOURCE_MOST), 5 (a pair that is not listed above), 6. Answers the
 * count of source bytes that were asked for, those past its end too: 1, 2 or 4 a texel. */
tk_answer tk_decode_linear(const uint8_t *source, size_t source_length, uint32_t fmt, uint32_t siz, uint32_t palette,
                           uint32_t width, uint32_t height, uint32_t stride, uint8_t *picture, size_t picture_length);

/* ---- Pictures as files ---------------------------------------------------------------------------------------------- */

/* PAM is the picture format of the Netpbm programs, which turn it into PNG and many others, and back: a header of lines of
 * text, and then the texels as plain bytes, row by row from the top. These two calls write and read those of its files that
 * hold what a picture holds here: red, green, blue and alpha, a byte each. */

/* Writes a picture as a file: this header, each of its lines with a newline (the byte 10) at its end,
 *
 *     P7
 *     WIDTH 320
 *     HEIGHT 240
 *     DEPTH 4
 *     MAXVAL 255
 *     TUPLTYPE RGB_ALPHA
 *     ENDHDR
 *
 * with one blank (32) between two words, and the picture's own width and height in decimal digits without leading zeros; then
 * the first 4 width height bytes of `picture`, as they are.
 *
 * That is 63 bytes, the digits of width and height, and 4 bytes a texel. A file buffer of TK_PAM_HEADER_MOST + 4 width height
 * bytes is always long enough. Further bytes of it keep what they hold, and further bytes of `picture` are not read.
 * Refuses 2 (a side above TK_SIDE_MOST), 12 (a side of 0, which PAM does not have), 6 (picture, file). Answers the count of
 * the file's bytes. */
tk_answer tk_write_pam(uint32_t width, uint32_t height, const uint8_t *picture, size_t picture_length, uint8_t *file,
                       size_t file_length);

/* Reads such a file, whichever program wrote it, so the header may differ from the one above. What is asked of it:
 *
 * - It begins with the bytes "P7" and a newline. Lines follow, of which each ends with a newline, and with nothing else.
 * - A line whose first byte is '#' is a comment. It may hold any bytes, and be of any length.
 * - Any other line is a keyword, and then a value. White space stands between them, and may stand before and behind: any of
 *   the bytes 32 (blank), 9 (tab), 11, 12, 13 (carriage return). A line of white space alone says nothing.
 * - The keywords are WIDTH, HEIGHT, DEPTH, MAXVAL, TUPLTYPE and ENDHDR, in capitals. ENDHDR ends the header, and its value, if
 *   any, is ignored. The others may come in any order.
 * - WIDTH, HEIGHT, DEPTH and MAXVAL come once each. Their value is decimal digits and nothing else: any number of them,
 *   leading zeros too. It is not 0, and for MAXVAL at most 65,535.
 * - TUPLTYPE may come any number of times, and always has a value. The tuple type is its values, with a blank between each two.
 *
 * Refuses 13 where anything of that is not so; 14 unless DEPTH is 4, MAXVAL 255 and the tuple type RGB_ALPHA; 2 where width or
 * height is above TK_SIDE_MOST; 15 where fewer than 4 width height bytes come after the header; 6 where `picture` has fewer.
 *
 * Those bytes are the texels. They go to the front of `picture` as they are; the rest of it keeps its bytes. What comes after
 * them in the file is not read. A picture buffer as long as the file is always long enough, so the size need not be known
 * beforehand. Answers width and height. */
tk_size_answer tk_read_pam(const uint8_t *file, size_t file_length, uint8_t *picture, size_t picture_length);

/* ---- Reach, loads in reach, lane check ------------------------------------------------------------------------------ */

/* Overwrites the map with a mark for each address that the tile can reach. Answers the refusal: 1 (map), 2, 3. */
uint32_t tk_reach(TK_TILE_PARAMETERS, uint8_t *map, size_t map_length);

/* Whether the tile can reach a written address: one whose number in the written record is not 0. Refuses 1 (written), 2, 3. */
tk_yes_answer tk_tile_has_load(TK_TILE_PARAMETERS, const uint8_t *written, size_t written_length);

/* Overwrites the lane map: slot j, the eight bytes from 2,048 + 8 j, is marked if its four pairs of bytes are not all equal.
 * Answers the refusal: 1 (bank, map). */
uint32_t tk_palette_nonreplicated(const uint8_t *bank, size_t bank_length, uint8_t *map, size_t map_length);

/* ---- Keys ----------------------------------------------------------------------------------------------------------- */

/* Overwrites the key: the bank with each byte kept that the visible picture reads, and all others zero.
 *
 * The visible picture is what a renderer shows of the picture that tk_sampling's flag names. Of a lookup (flag 1) that is
 * all. Of a plain picture (flag 0) it is the first 2^masks columns, where masks is not 0, cms does not clamp (value 2) and
 * 2^masks is below width: from there on they repeat, mirrored or not. Else it is all columns. Rows likewise, by maskt, cmt and
 * height.
 *
 * So a wall that repeats every sixteen columns (masks 4) has one key when its tile is 16, 32, 64 or 128 wide, whatever the
 * bank holds behind the sixteenth column. For the same tile, mode and lane a key gives the same visible picture as its bank.
 * The whole picture, as tk_sample_tile makes it, may have other texels outside the visible columns and rows.
 *
 * Refuses 1 (bank, key), 2, 3, 5. Answers the count of kept bytes. */
tk_answer tk_key(const uint8_t *bank, size_t bank_length, TK_TILE_PARAMETERS, uint32_t lane, uint8_t *key,
                 size_t key_length);

/* Whether `offer` is the key that tk_key cuts for the same bank, tile, mode and lane: yes exactly if all its bytes are. For keys that
 * another program made, with the bank that each was cut from.
 *
 * On a no it names the lowest address at which the offer is wrong, and says what is wrong there; at every lower address the offer is
 * right. What is kept is what the visible picture reads, so a zero of the bank can be kept. With a bank of zeros and a tile of which
 * address 0 is kept, an offer with 5 there has another value, and one with 5 at address 1 has a byte left over.
 *
 * A key that keeps a repeating tile whole is not right. It is left over at the first byte past the visible columns and rows that is not
 * zero in the bank; where there is none, it is right.
 *
 * Both buffers are read, and none is changed. Refuses as tk_key does, and in its order: 1 (bank, offer), 2, 3, 5. */
tk_check_answer tk_check_key(const uint8_t *bank, size_t bank_length, TK_TILE_PARAMETERS, uint32_t lane,
                             const uint8_t *offer, size_t offer_length);

/* ---- Replay of a capture -------------------------------------------------------------------------------------------- */

/* Does one record of a capture: a load, as tk_load_.. do it, or the question for a picture's key. The sources of all loads
 * stand in one companion file, and a record names its own by offset and length. Numbers of several bytes are high byte first.
 *
 *     byte  0         kind: 0 block, 1 tile, 2 palette, 3 key
 *           1         lane
 *           2 to 9    fmt, siz, palette, mode, cms, cmt, masks, maskt, a byte each
 *          10 to 17   line, tmem_addr, width, height, two bytes each
 *          18 to 29   image_siz, dxt, words, rows, count, stride, two bytes each
 *          30 to 37   offset and length of the source, four bytes each
 *          38 to 47   nothing
 *
 * A load takes fmt, siz, line, tmem_addr, image_siz, offset and length; and dxt and words (block), rows, words and stride
 * (tile) or count, rows and stride (palette). A key takes lane and bytes 2 to 17. Fields that a kind does not take, and bytes
 * of `record` after the 48th, may hold anything. A palette of one row and an image size above 0 is loaded as tk_load_tlut_hardware
 * does it, any other as tk_load_tlut_rows does.
 *
 * end: the bytes of the companion file. part: its bytes from the record's offset on. The first `length` of them are the
 * source; further ones are not read. A key needs no part.
 *
 * last: the number of the last load, as the loads take it.
 *
 * A load changes bank, written record and reasons, and answers the count of stores and its number; how many of the bytes were
 * made up is not answered. A record has no reason, so its load is an ordinary one, and sets the reasons to 0 where it stores; a
 * load that is to be rejected is done by its own call, in between. A key changes nothing, and answers the count of bytes that
 * tk_key would keep of the bank as it stands; it takes no number, and answers the one passed.
 * Refuses 1 (bank, written, reasons), 8, 10; then a load 2, 4 (length above 65,536 too), 11 (offset + length above end, or a
 * part shorter than length), 18 (last); and a key 2, 3, 5.
 *
 * A capture is replayed by a call for each record in turn, beginning with a bank, a written record and reasons of zeros and a
 * `last` of 0; each call then gets the number that the one before it answered. A refusal does not stop a replay: that record
 * changes nothing and takes no number. After the 65,535th load each further one is refused by 18, unless by another number before
 * it, and keys go on. */
tk_replay_answer tk_replay_record(uint8_t *bank, size_t bank_length, uint8_t *written, size_t written_length,
                                  uint8_t *reasons, size_t reasons_length, const uint8_t *record, size_t record_length,
                                  uint64_t end, const uint8_t *part, size_t part_length, uint32_t last);

/* ---- Tuning and held out -------------------------------------------------------------------------------------------- */

/* Puts each of `count` entries on a side: 0 for tuning, 1 for held out. An entry is what is known of one capture's picture.
 *
 *     byte  0 to 3      capture number, which says whose entry it is and is never looked at
 *           4 to 11     fmt, siz, palette, mode, cms, cmt, masks, maskt, a byte each
 *          12 to 19     line, tmem_addr, width, height, two bytes each, high byte first
 *          20           lane
 *          21 to 4,116  key, as tk_key leaves it
 *
 * tk_put_entry writes one. Bytes 4 to 4,116 are the entry's body. Bodies are compared as they are: no tile, lane or key is
 * tested, and any bytes will do.
 *
 * Entries with equal bodies are a group. Groups are numbered from 0, in the order of their first entries. Groups 4, 9, 14 and so
 * on are held out, which is the fifth of every five, and the others are for tuning. An entry is on its group's side. What may be
 * relied on:
 *
 * - Entries that agree in all but the capture number are on the same side, wherever they stand.
 * - A side depends on the entry itself and those before it, never on later ones. So entries may be added behind others, and all
 *   sides given before stay.
 * - A further entry of a group takes no turn. Every five groups have one that is held out; what is left over of less than five
 *   has none.
 * - One wall captured at two widths is two groups, though it may have one key: the tile records, bytes 4 to 19, differ. They may
 *   come to be on two sides.
 *
 * entries: exactly `count` times TK_ENTRY_BYTES, one entry behind the other. sides: exactly `count` bytes, all overwritten.
 * No entries are taken too: count 0 and two empty buffers.
 * Refuses 16 (count), 17 (entries, sides). Answers how many entries are for tuning and how many are held out. */
tk_split_answer tk_split(uint32_t count, const uint8_t *entries, size_t entries_length, uint8_t *sides,
                         size_t sides_length);

/* ---- The same calls on a tk_tile ------------------------------------------------------------------------------------ */

/* Here a bank, key or offer is a pointer to TK_BANK_BYTES, a written record to TK_WRITTEN_BYTES, reasons to TK_REASON_BYTES, a reach map
 * to TK_MAP_BYTES, a lane map to TK_LANE_MAP_BYTES, a capture's record to TK_RECORD_BYTES, entries to TK_ENTRY_BYTES each, sides
 * to a byte each. */

/* What every load takes first, here and as it is passed on. */
#define TK_LOAD_OF_PARAMETERS                                                                                            \
    uint8_t *bank, uint8_t *written, uint8_t *reasons, const uint8_t *source, size_t source_length, const tk_tile *tile, \
        uint32_t image_siz
#define TK_LOAD_OF_ARGUMENTS                                                                                               \
    bank, TK_BANK_BYTES, written, TK_WRITTEN_BYTES, reasons, TK_REASON_BYTES, source, source_length, tile->fmt, tile->siz, \
        tile->line, tile->tmem_addr, image_siz

static inline tk_load_answer tk_load_block_of(TK_LOAD_OF_PARAMETERS, uint32_t dxt, uint32_t words, uint32_t last) {
    return tk_load_block(TK_LOAD_OF_ARGUMENTS, dxt, words, last);
}

static inline tk_load_answer tk_load_tile_of(TK_LOAD_OF_PARAMETERS, uint32_t rows, uint32_t words, uint32_t stride,
                                             uint32_t last) {
    return tk_load_tile(TK_LOAD_OF_ARGUMENTS, rows, words, stride, last);
}

static inline tk_load_answer tk_load_tlut_hardware_of(TK_LOAD_OF_PARAMETERS, uint32_t count, uint32_t rows, uint32_t stride,
                                                      uint32_t last) {
    return tk_load_tlut_hardware(TK_LOAD_OF_ARGUMENTS, count, rows, stride, last);
}

static inline tk_load_answer tk_load_tlut_rows_of(TK_LOAD_OF_PARAMETERS, uint32_t count, uint32_t rows, uint32_t stride,
                                                  uint32_t last) {
    return tk_load_tlut_rows(TK_LOAD_OF_ARGUMENTS, count, rows, stride, last);
}

static inline tk_load_answer tk_reject_block_of(TK_LOAD_OF_PARAMETERS, uint32_t dxt, uint32_t words, uint32_t reason,
                                                uint32_t last) {
    return tk_reject_block(TK_LOAD_OF_ARGUMENTS, dxt, words, reason, last);
}

static inline tk_load_answer tk_reject_tile_of(TK_LOAD_OF_PARAMETERS, uint32_t rows, uint32_t words, uint32_t stride,
                                               uint32_t reason, uint32_t last) {
    return tk_reject_tile(TK_LOAD_OF_ARGUMENTS, rows, words, stride, reason, last);
}

static inline tk_load_answer tk_reject_tlut_hardware_of(TK_LOAD_OF_PARAMETERS, uint32_t count, uint32_t rows,
                                                        uint32_t stride, uint32_t reason, uint32_t last) {
    return tk_reject_tlut_hardware(TK_LOAD_OF_ARGUMENTS, count, rows, stride, reason, last);
}

static inline tk_load_answer tk_reject_tlut_rows_of(TK_LOAD_OF_PARAMETERS, uint32_t count, uint32_t rows, uint32_t stride,
                                                    uint32_t reason, uint32_t last) {
    return tk_reject_tlut_rows(TK_LOAD_OF_ARGUMENTS, count, rows, stride, reason, last);
}

static inline tk_reason_answer tk_rejection_of(const tk_tile *tile, const uint8_t *reasons) {
    return tk_rejection(TK_TILE_ARGUMENTS(tile), reasons, TK_REASON_BYTES);
}

static inline tk_sampling_answer tk_sampling_of(const tk_tile *tile) { return tk_sampling(TK_TILE_ARGUMENTS(tile)); }

static inline tk_answer tk_sample_tile_of(const uint8_t *bank, const tk_tile *tile, uint32_t lane, uint8_t *picture,
                                          size_t picture_length) {
    return tk_sample_tile(bank, TK_BANK_BYTES, TK_TILE_ARGUMENTS(tile), lane, picture, picture_length);
}

static inline tk_answer tk_sample_tile_observed_of(const uint8_t *bank, const tk_tile *tile, uint32_t lane,
                                                   uint8_t *picture, size_t picture_length, uint8_t *trail,
                                                   size_t trail_length) {
    return tk_sample_tile_observed(bank, TK_BANK_BYTES, TK_TILE_ARGUMENTS(tile), lane, picture, picture_length, trail,
                                   trail_length);
}

static inline tk_answer tk_sampling_lookup_of(const uint8_t *bank, const tk_tile *tile, uint32_t lane, uint8_t *picture,
                                              size_t picture_length) {
    return tk_sampling_lookup(bank, TK_BANK_BYTES, TK_TILE_ARGUMENTS(tile), lane, picture, picture_length);
}

static inline tk_answer tk_sampling_lookup_observed_of(const uint8_t *bank, const tk_tile *tile, uint32_t lane,
                                                       uint8_t *picture, size_t picture_length, uint8_t *trail,
                                                       size_t trail_length) {
    return tk_sampling_lookup_observed(bank, TK_BANK_BYTES, TK_TILE_ARGUMENTS(tile), lane, picture, picture_length, trail,
                                       trail_length);
}

static inline tk_answer tk_decode_linear_of(const tk_tile *tile, const uint8_t *source, size_t source_length,
                                            uint32_t stride, uint8_t *picture, size_t picture_length) {
    return tk_decode_linear(source, source_length, tile->fmt, tile->siz, tile->palette, tile->width, tile->height, stride,
                            picture, picture_length);
}

/* Of the tile, width and height: those of its plain picture. */
static inline tk_answer tk_write_pam_of(const tk_tile *tile, const uint8_t *picture, size_t picture_length, uint8_t *file,
                                        size_t file_length) {
    return tk_write_pam(tile->width, tile->height, picture, picture_length, file, file_length);
}

static inline uint32_t tk_reach_of(const tk_tile *tile, uint8_t *map) {
    return tk_reach(TK_TILE_ARGUMENTS(tile), map, TK_MAP_BYTES);
}

static inline tk_yes_answer tk_tile_has_load_of(const tk_tile *tile, const uint8_t *written) {
    return tk_tile_has_load(TK_TILE_ARGUMENTS(tile), written, TK_WRITTEN_BYTES);
}

static inline uint32_t tk_palette_nonreplicated_of(const uint8_t *bank, uint8_t *map) {
    return tk_palette_nonreplicated(bank, TK_BANK_BYTES, map, TK_LANE_MAP_BYTES);
}

static inline tk_answer tk_key_of(const uint8_t *bank, const tk_tile *tile, uint32_t lane, uint8_t *key) {
    return tk_key(bank, TK_BANK_BYTES, TK_TILE_ARGUMENTS(tile), lane, key, TK_BANK_BYTES);
}

static inline tk_check_answer tk_check_key_of(const uint8_t *bank, const tk_tile *tile, uint32_t lane,
                                              const uint8_t *offer) {
    return tk_check_key(bank, TK_BANK_BYTES, TK_TILE_ARGUMENTS(tile), lane, offer, TK_BANK_BYTES);
}

static inline tk_replay_answer tk_replay_record_of(uint8_t *bank, uint8_t *written, uint8_t *reasons, const uint8_t *record,
                                                   uint64_t end, const uint8_t *part, size_t part_length, uint32_t last) {
    return tk_replay_record(bank, TK_BANK_BYTES, written, TK_WRITTEN_BYTES, reasons, TK_REASON_BYTES, record,
                            TK_RECORD_BYTES, end, part, part_length, last);
}

static inline tk_split_answer tk_split_of(uint32_t count, const uint8_t *entries, uint8_t *sides) {
    return tk_split(count, entries, (size_t)count * TK_ENTRY_BYTES, sides, count);
}

/* Writes the entry of a capture: its number, the tile, the lane, and the key that tk_key cut. Such numbers fit their bytes. */
static inline void tk_put_entry(uint8_t *entry, uint32_t capture, const tk_tile *tile, uint32_t lane, const uint8_t *key) {
    const uint32_t numbers[12] = {TK_TILE_ARGUMENTS(tile)};
    for (size_t i = 0; i < 4; i++) entry[i] = (uint8_t)(capture >> (24 - 8 * i));
    for (size_t i = 0; i < 8; i++) entry[4 + i] = (uint8_t)numbers[i];
    for (size_t i = 8; i < 12; i++) {
        entry[2 * i - 4] = (uint8_t)(numbers[i] >> 8);
        entry[2 * i - 3] = (uint8_t)numbers[i];
    }
    entry[20] = (uint8_t)lane;
    for (size_t i = 0; i < TK_BANK_BYTES; i++) entry[21 + i] = key[i];
}

/* Which load wrote address a: its number in a written record. 0 for none, and for an address that no bank has. */
static inline uint32_t tk_written_by(const uint8_t *written, uint32_t a) {
    return a < TK_BANK_BYTES ? (uint32_t)written[2 * a] << 8 | written[2 * a + 1] : 0;
}

/* Whether address a is marked in a reach map. */
static inline int tk_is_marked(const uint8_t *map, uint32_t a) { return map[a / 8] >> (a % 8) & 1; }

#ifdef __cplusplus
}
#endif

#endif
