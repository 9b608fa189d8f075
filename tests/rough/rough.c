/* Rough handling: every entry, called with numbers of the full range, buffers of any length, and records, files and entries of any
 * bytes.
 *
 *     rough SECONDS SEED [CALLS]      until the time is up, or for so many calls
 *
 * Each buffer lies against a page that cannot be touched, at its end or at its start, so that the archive cannot reach
 * outside it unseen. After each call its refusal, its counts and a load's number are held against what documents 01 and 02 say,
 * worked out here on their own, its other answers against 0 where it refused, and every byte that must not have changed against a
 * copy; so are the texels that a source is decoded to. Of a file with changed bytes only the numbers that reading can refuse are known.
 * 9 is given by no call; in the end it fails if another refusal never came up, or one of decoding a source, or if an entry never had
 * the largest picture. */

#include <stdbool.h>
#include <stdio.h>
#include <stdlib.h>
#include <string.h>
#include <sys/mman.h>
#include <time.h>
#include <unistd.h>

#include "tulonkasa.h"

/* ---- Random numbers ------------------------------------------------------------------------------------------------- */

static uint64_t state;

static uint64_t random64(void) {
    uint64_t z = state += 0x9e3779b97f4a7c15u;
    z = (z ^ (z >> 30)) * 0xbf58476d1ce4e5b9u;
    z = (z ^ (z >> 27)) * 0x94d049bb133111ebu;
    return z ^ (z >> 31);
}

static uint32_t up_to(uint32_t most) { return (uint32_t)(random64() % ((uint64_t)most + 1)); }

static bool one_in(uint32_t n) { return up_to(n - 1) == 0; }

/* Any number of 32 bits, small ones as often as large ones. */
static uint32_t any_number(void) { return (uint32_t)random64() >> up_to(31); }

static void put_random(uint8_t *bytes, size_t length) {
    for (size_t i = 0; i < length; i += 8) {
        uint64_t eight = random64();
        memcpy(bytes + i, &eight, length - i < 8 ? length - i : 8);
    }
}

/* ---- Buffers -------------------------------------------------------------------------------------------------------- */

/* Memory between two pages that cannot be touched, and a copy of what it must hold. A part of it is lent. */
typedef struct buffer {
    uint8_t *memory, *copy;
    size_t room;
    uint8_t *lent;
    size_t length;
} buffer;

/* SOURCE is also the part of the companion that a replay takes. */
enum { BANK, WRITTEN, REASONS, SOURCE, PICTURE, TRAIL, MAP, LANES, KEY, RECORD, PAM, TO_SPLIT, SIDES, BUFFERS };

static buffer buffers[BUFFERS];
static const char *const buffer_names[BUFFERS] = {"bank",  "written record", "reasons",  "source", "picture",
                                                  "trail", "reach map",      "lane map", "key",    "record",
                                                  "file",  "entries",        "sides"};

/* Where the body of an entry begins, behind its capture number. */
enum { BODY_AT = 4 };

/* A header that is made here has at most this many bytes. */
enum { HEADER_ROOM = 8192 };

/* The right lengths of bank, written record, reasons, reach map, lane map, key and record; the most for the others. */
static const size_t right_length[BUFFERS] = {TK_BANK_BYTES,
                                             TK_WRITTEN_BYTES,
                                             TK_REASON_BYTES,
                                             TK_SOURCE_MOST,
                                             4 * TK_SIDE_MOST *TK_SIDE_MOST,
                                             8 * TK_SIDE_MOST *TK_SIDE_MOST,
                                             TK_MAP_BYTES,
                                             TK_LANE_MAP_BYTES,
                                             TK_BANK_BYTES,
                                             TK_RECORD_BYTES,
                                             HEADER_ROOM + 4 * TK_SIDE_MOST *TK_SIDE_MOST,
                                             TK_ENTRIES_MOST *TK_ENTRY_BYTES,
                                             TK_ENTRIES_MOST};

static void make_buffer(buffer *b, size_t least) {
    size_t page = (size_t)sysconf(_SC_PAGESIZE);
    b->room = (least + 2 * page - 1) / page * page;
    uint8_t *all = mmap(NULL, b->room + 2 * page, PROT_READ | PROT_WRITE, MAP_PRIVATE | MAP_ANONYMOUS, -1, 0);
    b->copy = malloc(b->room);
    if (all == MAP_FAILED || b->copy == NULL) {
        fprintf(stderr, "rough: no memory\n");
        exit(2);
    }
    mprotect(all, page, PROT_NONE);
    mprotect(all + page + b->room, page, PROT_NONE);
    b->memory = all + page;
    put_random(b->memory, b->room);
    memcpy(b->copy, b->memory, b->room);
}

/* Lends a part of a length, against the page behind it or the page before it. An empty one is null half of the time. */
static void lend(buffer *b, size_t length) {
    b->length = length < b->room ? length : b->room;
    b->lent = one_in(2) ? b->memory : b->memory + b->room - b->length;
    if (b->length == 0 && one_in(2)) b->lent = NULL;
}

/* ---- A call --------------------------------------------------------------------------------------------------------- */

enum {
    LOAD_BLOCK,
    LOAD_TILE,
    LOAD_TLUT_HARDWARE,
    LOAD_TLUT_ROWS,
    REJECT_BLOCK,
    REJECT_TILE,
    REJECT_TLUT_HARDWARE,
    REJECT_TLUT_ROWS,
    SAMPLING,
    SAMPLE_TILE,
    SAMPLE_TILE_OBSERVED,
    SAMPLING_LOOKUP,
    SAMPLING_LOOKUP_OBSERVED,
    REACH,
    TILE_HAS_LOAD,
    REJECTION,
    PALETTE_NONREPLICATED,
    CUT_KEY,
    CHECK_KEY,
    REPLAY_RECORD,
    WRITE_PAM,
    READ_PAM,
    SPLIT,
    DECODE_LINEAR,
    ENTRIES
};

static const char *const entry_names[ENTRIES] = {"tk_load_block",
                                                 "tk_load_tile",
                                                 "tk_load_tlut_hardware",
                                                 "tk_load_tlut_rows",
                                                 "tk_reject_block",
                                                 "tk_reject_tile",
                                                 "tk_reject_tlut_hardware",
                                                 "tk_reject_tlut_rows",
                                                 "tk_sampling",
                                                 "tk_sample_tile",
                                                 "tk_sample_tile_observed",
                                                 "tk_sampling_lookup",
                                                 "tk_sampling_lookup_observed",
                                                 "tk_reach",
                                                 "tk_tile_has_load",
                                                 "tk_rejection",
                                                 "tk_palette_nonreplicated",
                                                 "tk_key",
                                                 "tk_check_key",
                                                 "tk_replay_record",
                                                 "tk_write_pam",
                                                 "tk_read_pam",
                                                 "tk_split",
                                                 "tk_decode_linear"};

/* What an entry takes, and so what it can refuse. */
enum {
    TAKES_LOAD_FIELDS = 1,
    TAKES_TILE = 2,
    TAKES_LANE = 4,
    TAKES_LOAD = 8,
    TAKES_PAIR = 16,
    TAKES_PICTURE = 32,
    TAKES_TRAIL = 64,
    TAKES_RECORD = 128,
    TAKES_SIDES = 256,
    TAKES_HEADER = 512,
    TAKES_COUNT = 1024,
    TAKES_REASON = 2048,
    TAKES_LINEAR = 4096
};

/* The buffers that a load writes. */
enum { LOADED = 1 << BANK | 1 << WRITTEN | 1 << REASONS };

static const struct {
    unsigned takes;
    unsigned read, written; /* buffers, by bits */
} entries[ENTRIES] = {
    [LOAD_BLOCK] = {TAKES_LOAD_FIELDS | TAKES_LOAD, 1 << SOURCE, LOADED},
    [LOAD_TILE] = {TAKES_LOAD_FIELDS | TAKES_LOAD, 1 << SOURCE, LOADED},
    [LOAD_TLUT_HARDWARE] = {TAKES_LOAD_FIELDS | TAKES_LOAD, 1 << SOURCE, LOADED},
    [LOAD_TLUT_ROWS] = {TAKES_LOAD_FIELDS | TAKES_LOAD, 1 << SOURCE, LOADED},
    [REJECT_BLOCK] = {TAKES_LOAD_FIELDS | TAKES_LOAD | TAKES_REASON, 1 << SOURCE, LOADED},
    [REJECT_TILE] = {TAKES_LOAD_FIELDS | TAKES_LOAD | TAKES_REASON, 1 << SOURCE, LOADED},
    [REJECT_TLUT_HARDWARE] = {TAKES_LOAD_FIELDS | TAKES_LOAD | TAKES_REASON, 1 << SOURCE, LOADED},
    [REJECT_TLUT_ROWS] = {TAKES_LOAD_FIELDS | TAKES_LOAD | TAKES_REASON, 1 << SOURCE, LOADED},
    [SAMPLING] = {TAKES_TILE, 0, 0},
    [SAMPLE_TILE] = {TAKES_TILE | TAKES_LANE | TAKES_PAIR | TAKES_PICTURE, 1 << BANK, 1 << PICTURE},
    [SAMPLE_TILE_OBSERVED] = {TAKES_TILE | TAKES_LANE | TAKES_PAIR | TAKES_PICTURE | TAKES_TRAIL, 1 << BANK,
                              1 << PICTURE | 1 << TRAIL},
    [SAMPLING_LOOKUP] = {TAKES_TILE | TAKES_LANE | TAKES_PAIR | TAKES_PICTURE, 1 << BANK, 1 << PICTURE},
    [SAMPLING_LOOKUP_OBSERVED] = {TAKES_TILE | TAKES_LANE | TAKES_PAIR | TAKES_PICTURE | TAKES_TRAIL, 1 << BANK,
                                  1 << PICTURE | 1 << TRAIL},
    [REACH] = {TAKES_TILE, 0, 1 << MAP},
    [TILE_HAS_LOAD] = {TAKES_TILE, 1 << WRITTEN, 0},
    [REJECTION] = {TAKES_TILE, 1 << REASONS, 0},
    [PALETTE_NONREPLICATED] = {0, 1 << BANK, 1 << LANES},
    [CUT_KEY] = {TAKES_TILE | TAKES_LANE | TAKES_PAIR, 1 << BANK, 1 << KEY},
    [CHECK_KEY] = {TAKES_TILE | TAKES_LANE | TAKES_PAIR, 1 << BANK | 1 << KEY, 0},
    [REPLAY_RECORD] = {TAKES_RECORD, 1 << RECORD | 1 << SOURCE, LOADED},
    [WRITE_PAM] = {TAKES_SIDES, 1 << PICTURE, 1 << PAM},
    [READ_PAM] = {TAKES_HEADER, 1 << PAM, 1 << PICTURE},
    [SPLIT] = {TAKES_COUNT, 1 << TO_SPLIT, 1 << SIDES},
    [DECODE_LINEAR] = {TAKES_LINEAR | TAKES_PAIR | TAKES_PICTURE, 1 << SOURCE, 1 << PICTURE},
};

/* What a record asks for, by its kind. Of the two palette loads its numbers pick one in the end. */
static const int asked_for[4] = {LOAD_BLOCK, LOAD_TILE, LOAD_TLUT_ROWS, CUT_KEY};

static struct {
    int entry, does; /* what it does: the entry's own work, what its record asks for, or the load that is rejected */
    tk_tile tile;
    uint32_t lane, image_siz, numbers[3]; /* dxt, words; or rows, words, stride; or count, rows, stride */
    uint32_t reason;                      /* of a rejected load */
    uint32_t last;                        /* the number of the load before */
    uint32_t kind, offset, length;        /* of a record */
    uint64_t end;                         /* the companion's length */
    uint32_t count;                       /* of entries to split */
    uint8_t record[TK_RECORD_BYTES];
    struct {
        uint8_t bytes[HEADER_ROOM];
        size_t length;
        bool breaks, is_other, is_long; /* what is wrong with it: 13, 14, 2 */
        bool is_changed;                /* what is wrong with it is not known */
    } header;                           /* of a file to be read; its picture is the tile's width by height */
} now;

/* What was answered: the refusal, the number of the last load, and the others. Entries with fewer leave the rest 0. */
static struct { uint32_t refusal, number, numbers[3]; } answer;

static void print_call(void) {
    const tk_tile *t = &now.tile;
    fprintf(
        stderr,
        "  %s: fmt %u siz %u palette %u mode %u cms %u cmt %u masks %u maskt %u line %u tmem_addr %u width %u height %u\n",
        entry_names[now.entry], t->fmt, t->siz, t->palette, t->mode, t->cms, t->cmt, t->masks, t->maskt, t->line,
        t->tmem_addr, t->width, t->height);
    fprintf(stderr, "  lane %u image_siz %u numbers %u %u %u reason %u last %u\n", now.lane, now.image_siz, now.numbers[0],
            now.numbers[1], now.numbers[2], now.reason, now.last);
    if (now.entry == REPLAY_RECORD) {
        fprintf(stderr, "  kind %u offset %u length %u end %llu\n", now.kind, now.offset, now.length,
                (unsigned long long)now.end);
    }
    if (now.entry == SPLIT) fprintf(stderr, "  count %u\n", now.count);
    if (now.entry == READ_PAM) {
        fprintf(stderr, "  header, %zu bytes%s:\n", now.header.length, now.header.is_changed ? ", changed" : "");
        fwrite(now.header.bytes, 1, now.header.length, stderr);
    }
    for (int i = 0; i < BUFFERS; i++) {
        if ((entries[now.entry].read | entries[now.entry].written) >> i & 1) {
            fprintf(stderr, "  %s: %zu bytes%s\n", buffer_names[i], buffers[i].length,
                    buffers[i].lent == NULL ? ", null" : "");
        }
    }
}

static void fail(const char *what) {
    fprintf(stderr, "rough: %s (refusal %u, numbers %u %u %u, of the last load %u)\n", what, answer.refusal,
            answer.numbers[0], answer.numbers[1], answer.numbers[2], answer.number);
    print_call();
    _exit(1);
}

/* ---- The tables of documents 01 and 02, worked out here ------------------------------------------------------------- */

static uint64_t texels(void) {
    bool lookup = now.entry == SAMPLING_LOOKUP || now.entry == SAMPLING_LOOKUP_OBSERVED;
    return lookup ? TK_LOOKUP_TEXELS : (uint64_t)now.tile.width * now.tile.height;
}

/* Reads a texel in modes 0 and 1, by format and size; 0 for a pair that is not accepted. */
static const uint8_t direct_reads[8][4] = {{0, 0, 2, 4}, {0}, {1, 1, 2, 2}, {1, 1, 2, 0}, {1, 1, 0, 0}, {0}, {0}, {0}};

/* A source is decoded as in mode 0, and without the pair (2,3). */
static uint32_t reads_each(void) {
    if (now.entry == DECODE_LINEAR && now.tile.fmt == 2 && now.tile.siz == 3) return 0;
    return now.entry != DECODE_LINEAR && now.tile.mode >= 2 ? 3 : direct_reads[now.tile.fmt][now.tile.siz];
}

static bool wrong_length(void) {
    unsigned lent = entries[now.entry].read | entries[now.entry].written;
    static const int exact[] = {BANK, WRITTEN, REASONS, MAP, LANES, KEY};
    for (size_t i = 0; i < sizeof exact / sizeof *exact; i++) {
        if ((lent >> exact[i] & 1) && buffers[exact[i]].length != right_length[exact[i]]) return true;
    }
    return false;
}

static bool load_fields_outside(void) {
    return now.tile.fmt > 7 || now.tile.siz > 3 || now.tile.line > 511 || now.tile.tmem_addr > 511;
}

static bool side_outside(void) { return now.tile.width > TK_SIDE_MOST || now.tile.height > TK_SIDE_MOST; }

static bool tile_outside(void) {
    const tk_tile *t = &now.tile;
    return load_fields_outside() || t->palette > 15 || t->cms > 3 || t->cmt > 3 || t->masks > 15 || t->maskt > 15 ||
           side_outside();
}

static bool linear_fields_outside(void) {
    return now.tile.fmt > 7 || now.tile.siz > 3 || now.tile.palette > 15 || side_outside();
}

static bool load_outside(void) {
    const uint32_t *n = now.numbers;
    size_t source_length = now.entry == REPLAY_RECORD ? now.length : buffers[SOURCE].length;
    if (now.does == DECODE_LINEAR) return source_length > 65536 || n[2] > 65535;
    if (now.image_siz > 3 || source_length > 65536) return true;
    if (now.does == LOAD_BLOCK) return n[0] > 4095 || n[1] > 2048;
    if (now.does == LOAD_TILE) return n[0] > 1024 || n[1] > 512 || n[2] > 65535;
    bool is_hardware = now.does == LOAD_TLUT_HARDWARE;
    if (is_hardware && now.image_siz == 0) return true;
    return n[0] > 1024 || n[1] < 1 || n[1] > (is_hardware ? 1 : 1024) || n[2] > 65535;
}

static bool source_beyond(void) {
    return (uint64_t)now.offset + now.length > now.end || now.length > buffers[SOURCE].length;
}

/* The header of a picture that is written. */
static int written_header(char *text, size_t room) {
    return snprintf(text, room, "P7\nWIDTH %u\nHEIGHT %u\nDEPTH 4\nMAXVAL 255\nTUPLTYPE RGB_ALPHA\nENDHDR\n",
                    now.tile.width, now.tile.height);
}

static size_t file_bytes(void) { return (size_t)written_header(NULL, 0) + 4 * texels(); }

/* Of reading. A header that is cut short has no end. */
static uint32_t expected_of_header(void) {
    size_t length = buffers[PAM].length;
    if (now.header.breaks || length < now.header.length) return 13;
    if (now.header.is_other) return 14;
    if (now.header.is_long || side_outside()) return 2;
    if (length - now.header.length < 4 * texels()) return 15;
    return buffers[PICTURE].length < 4 * texels() ? 6 : 0;
}

static uint32_t expected_of_split(void) {
    if (now.count > TK_ENTRIES_MOST) return 16;
    return buffers[TO_SPLIT].length != (size_t)now.count * TK_ENTRY_BYTES || buffers[SIDES].length != now.count ? 17 : 0;
}

static uint32_t expected_refusal(void) {
    unsigned takes = entries[now.entry].takes | entries[now.does].takes;
    if (takes & TAKES_HEADER) return expected_of_header();
    if (takes & TAKES_COUNT) return expected_of_split();
    if (wrong_length()) return 1;
    if ((takes & TAKES_RECORD) && buffers[RECORD].length < 48) return 8;
    if ((takes & TAKES_RECORD) && now.kind > 3) return 10;
    if ((takes & TAKES_LOAD_FIELDS) && load_fields_outside()) return 2;
    if ((takes & TAKES_TILE) && tile_outside()) return 2;
    if ((takes & TAKES_SIDES) && side_outside()) return 2;
    if ((takes & TAKES_LINEAR) && linear_fields_outside()) return 2;
    if ((takes & TAKES_TILE) && now.tile.mode > 3) return 3;
    if ((takes & TAKES_LANE) && now.lane > 3) return 3;
    if ((takes & (TAKES_LOAD | TAKES_LINEAR)) && load_outside()) return 4;
    if ((takes & TAKES_RECORD) && (takes & TAKES_LOAD) && source_beyond()) return 11;
    if ((takes & TAKES_PAIR) && reads_each() == 0) return 5;
    if ((takes & TAKES_SIDES) && texels() == 0) return 12;
    if ((takes & (TAKES_PICTURE | TAKES_SIDES)) && buffers[PICTURE].length < 4 * texels()) return 6;
    if ((takes & TAKES_SIDES) && buffers[PAM].length < file_bytes()) return 6;
    if ((takes & TAKES_TRAIL) && buffers[TRAIL].length / 2 < reads_each() * texels()) return 7;
    if ((takes & TAKES_REASON) && (now.reason == 0 || now.reason > TK_REASON_MOST)) return 19;
    if ((takes & TAKES_LOAD) && now.last > 65534) return 18;
    return 0;
}

/* The number that is handed back: by a load that is done its own, else the one passed; 0 by entries that take none. */
static uint32_t expected_number(void) {
    bool takes_last = (entries[now.entry].takes & (TAKES_LOAD | TAKES_RECORD)) != 0;
    bool took = (entries[now.does].takes & TAKES_LOAD) != 0 && answer.refusal == 0;
    return takes_last ? now.last + took : 0;
}

/* ---- Making a call -------------------------------------------------------------------------------------------------- */

/* Longer buffers take long to compare, and are rare. */
enum { SHORT_ROOM = 1 << 22 };

/* A length: mostly the right one, else beside it, that of another buffer that is lent with it, or any up to the room. */
static size_t some_length(int i, size_t right) {
    static const size_t others[] = {TK_MAP_BYTES, TK_REASON_BYTES, TK_WRITTEN_BYTES};
    size_t room = buffers[i].room;
    if (!one_in(16)) return right;
    switch (up_to(5)) {
        case 0: return 0;
        case 1: return right == 0 ? 1 : right - 1;
        case 2: return right + 1;
        case 3: return others[up_to(2)];
        default: return up_to((uint32_t)(room < SHORT_ROOM || one_in(512) ? room : SHORT_ROOM));
    }
}

static void choose_tile(void) {
    static const uint32_t most[12] = {7, 3, 15, 3, 3, 3, 15, 15, 511, 511, 40, 40};
    uint32_t numbers[12];
    for (int i = 0; i < 12; i++) numbers[i] = one_in(8) ? most[i] : up_to(most[i]);
    if (one_in(64)) numbers[10] = up_to(one_in(4) ? TK_SIDE_MOST : 1024);
    if (one_in(64)) numbers[11] = up_to(one_in(4) ? TK_SIDE_MOST : 1024);
    memcpy(&now.tile, numbers, sizeof numbers);
}

/* Whether an entry has had the largest picture. */
static bool had_largest[ENTRIES];

static bool wants_largest(int entry) {
    return (entries[entry].takes & (TAKES_TILE | TAKES_SIDES | TAKES_HEADER)) != 0 && !had_largest[entry];
}

/* The largest picture, of texels that read the most. */
static void choose_largest(void) {
    now.tile.fmt = now.tile.mode = 0;
    now.tile.siz = 3;
    now.tile.width = now.tile.height = TK_SIDE_MOST;
}

static void choose_load(void) {
    now.image_siz = up_to(3);
    bool many = one_in(64);
    uint32_t stride_most = one_in(2) ? 80 : 65535; /* with small strides a source ends in any row */
    switch (now.does) {
        case LOAD_BLOCK:
            now.numbers[0] = up_to(4095);
            now.numbers[1] = up_to(many ? 2048 : 40);
            break;
        case LOAD_TILE:
            now.numbers[0] = up_to(many ? 200 : 8);
            now.numbers[1] = up_to(many ? 100 : 8);
            now.numbers[2] = up_to(stride_most);
            break;
        default:
            now.numbers[0] = up_to(many ? 1024 : 40);
            now.numbers[1] = one_in(2) ? 1 : 1 + up_to(many ? 40 : 3);
            now.numbers[2] = up_to(stride_most);
    }
    if (now.does == LOAD_TLUT_HARDWARE && !one_in(8)) { /* now and then it gets what the other palette load takes */
        now.image_siz = 1 + up_to(2);
        now.numbers[1] = 1;
    }
}

/* Mostly a pair that has a linear reading. One that has none comes with a stride out of range as often as not. */
static void choose_linear(void) {
    if (one_in(8)) {
        if (one_in(2)) now.numbers[2] = 65536 + up_to(9);
        return;
    }
    do {
        now.tile.fmt = up_to(4);
        now.tile.siz = up_to(3);
    } while (reads_each() == 0);
}

/* A reason that is taken, at the limits as often as not. */
static void choose_reason(void) { now.reason = one_in(2) ? 1 + up_to(TK_REASON_MOST - 1) : one_in(2) ? 1 : TK_REASON_MOST; }

/* The number of the load before: mostly one that leaves some, near the limits of its bytes as often as not. */
static void choose_last(void) {
    static const uint32_t limits[] = {1, 255, 256, 65280, 65534};
    now.last = one_in(2) ? up_to(65534) : limits[up_to(4)] - up_to(1);
}

/* The most that each load, and the decoding of a source, take of their own numbers. */
static const uint32_t own_most[][3] = {[LOAD_BLOCK] = {4095, 2048},
                                       [LOAD_TILE] = {1024, 512, 65535},
                                       [LOAD_TLUT_HARDWARE] = {1024, 1, 65535},
                                       [LOAD_TLUT_ROWS] = {1024, 1024, 65535},
                                       [DECODE_LINEAR] = {0, 0, 65535}};

/* Puts one number at its limit, outside its range, or anywhere. */
static void break_one(void) {
    enum { OWN = 14 };
    static const uint32_t most[19] = {
        7, 3, 15, 3, 3, 3, 15, 15, 511, 511, TK_SIDE_MOST, TK_SIDE_MOST, 3, 3, 0, 0, 0, TK_REASON_MOST, 65534};
    uint32_t *numbers[19] = {&now.tile.fmt,   &now.tile.siz,    &now.tile.palette, &now.tile.mode, &now.tile.cms,
                             &now.tile.cmt,   &now.tile.masks,  &now.tile.maskt,   &now.tile.line, &now.tile.tmem_addr,
                             &now.tile.width, &now.tile.height, &now.lane,         &now.image_siz, &now.numbers[0],
                             &now.numbers[1], &now.numbers[2],  &now.reason,       &now.last};
    uint32_t i = one_in(6) ? 17 + up_to(1) : up_to(18);
    bool is_own = (entries[now.does].takes & (TAKES_LOAD | TAKES_LINEAR)) && i >= OWN && i < OWN + 3;
    uint32_t limit = is_own ? own_most[now.does][i - OWN] : most[i];
    switch (up_to(4)) {
        case 0: *numbers[i] = limit; break;
        case 1: *numbers[i] = limit + 1; break;
        case 2: *numbers[i] = UINT32_MAX; break;
        case 3: *numbers[i] = 0; break;
        default: *numbers[i] = any_number();
    }
}

static void break_all(void) {
    uint32_t numbers[12];
    for (int i = 0; i < 12; i++) numbers[i] = any_number();
    memcpy(&now.tile, numbers, sizeof numbers);
    now.lane = any_number();
    now.image_siz = any_number();
    for (int i = 0; i < 3; i++) now.numbers[i] = any_number();
    now.reason = any_number();
    now.last = any_number();
}

/* Moves a number into its field of the record, or out of it. Either way it is then what the field holds. */
static void move(bool in, uint32_t *number, size_t place, size_t bytes) {
    uint32_t held = 0;
    for (size_t i = 0; i < bytes; i++) {
        uint8_t *byte = &now.record[place + i];
        if (in) *byte = (uint8_t)(*number >> 8 * (bytes - 1 - i));
        held = held << 8 | *byte;
    }
    *number = held;
}

/* A companion's length: mostly enough for the record, else one byte too short, as long as the sum cut to 32 bits, or any. */
static uint64_t some_end(void) {
    uint64_t enough = (uint64_t)now.offset + now.length;
    switch (up_to(15)) {
        case 0: return enough - 1;
        case 1: return (uint32_t)enough;
        case 2: return random64();
        default: return one_in(2) ? enough : enough + any_number();
    }
}

/* A record of any bytes; then, mostly, with the chosen numbers in the fields that its kind takes. */
static void choose_record(void) {
    /* where the numbers of a block, a tile and a palette stand */
    static const size_t number_places[3][3] = {{20, 22, 28}, {24, 22, 28}, {26, 24, 28}};
    bool chosen = !one_in(8), load = now.does != CUT_KEY;
    now.offset = one_in(4) ? UINT32_MAX - up_to(1000) : any_number();
    now.length = one_in(16) ? any_number() : one_in(16) ? TK_SOURCE_MOST + up_to(1) : up_to(600);
    uint32_t tile[12];
    memcpy(tile, &now.tile, sizeof tile);
    put_random(now.record, sizeof now.record);
    move(chosen && !load, &now.lane, 1, 1);
    for (size_t i = 0; i < 12; i++) {
        bool taken = !load || i < 2 || i == 8 || i == 9; /* of a load fmt, siz, line and tmem_addr */
        move(chosen && taken, &tile[i], i < 8 ? 2 + i : 2 * i - 6, i < 8 ? 1 : 2);
    }
    memcpy(&now.tile, tile, sizeof tile);
    move(chosen && load, &now.image_siz, 18, 2);
    for (size_t i = 0; load && i < 3; i++) move(chosen, &now.numbers[i], number_places[now.kind][i], 2);
    if (now.does == LOAD_TLUT_ROWS && now.numbers[1] == 1 && now.image_siz > 0) now.does = LOAD_TLUT_HARDWARE;
    move(chosen && load, &now.offset, 30, 4);
    move(chosen && load, &now.length, 34, 4);
    if (one_in(16)) now.kind = 4 + up_to(251);
    move(true, &now.kind, 0, 1);
    now.end = some_end();
}

/* The lines of a header but the last: keyword, value, and others. A side has the tile's value, and the others are too long. */
static const struct {
    const char *keyword, *value, *others[3];
} lines[] = {
    {"WIDTH", NULL, {"4294967298", "18446744073709551618", "99999999999999999999999999999999999"}},
    {"HEIGHT", NULL, {"4294967297", "18446744073709551617", "10000000000000000000000000000000000"}},
    {"DEPTH", "4", {"3", "5", "18446744073709551620"}},
    {"MAXVAL", "255", {"1", "254", "65535"}},
    {"TUPLTYPE", "RGB_ALPHA", {"RGB", "rgb_alpha", "RGB_ALPHA RGB_ALPHA"}},
};
enum { LINES = sizeof lines / sizeof *lines, TYPE_LINE = LINES - 1 };

static void put_byte(uint8_t byte) { now.header.bytes[now.header.length++] = byte; }

static void put_text(const char *text) {
    while (*text != 0) put_byte((uint8_t)*text++);
}

/* So many bytes of white space, or some more. */
static void put_blanks(uint32_t least) {
    static const uint8_t blanks[] = {32, 9, 11, 12, 13};
    for (uint32_t i = least + (one_in(8) ? up_to(4) : 0); i > 0; i--) put_byte(one_in(2) ? 32 : blanks[up_to(4)]);
}

/* Now and then a line that says nothing: white space, or a comment of any bytes but a newline. */
static void put_idle_line(void) {
    if (!one_in(8)) return;
    put_blanks(0);
    if (now.header.bytes[now.header.length - 1] == '\n' && !one_in(4)) {
        put_byte('#');
        for (uint32_t i = up_to(one_in(8) ? 300 : 20); i > 0; i--) put_byte((uint8_t)(11 + up_to(254)));
    }
    put_byte('\n');
}

/* The value of a line: mostly the one that makes a good file, else another, or one that no line may have. */
static void put_value(size_t line) {
    static const char *const no_numbers[] = {"0", "00", "+1", "-1", "1 1", "0x1", "1,024", "1#", "\x80"};
    bool is_number = line != TYPE_LINE, is_side = lines[line].value == NULL;
    uint32_t side = line == 0 ? now.tile.width : now.tile.height;
    char digits[11];
    snprintf(digits, sizeof digits, "%u", side);
    if (one_in(64)) {
        now.header.breaks = true;
        if (is_number && one_in(2)) put_text(no_numbers[up_to(8)]);
    } else if (one_in(64)) {
        put_text(lines[line].others[up_to(2)]);
        *(is_side ? &now.header.is_long : &now.header.is_other) = true;
    } else {
        for (uint32_t i = is_number && one_in(8) ? up_to(30) : 0; i > 0; i--) put_byte('0');
        put_text(is_side ? digits : lines[line].value);
        if (is_side && side == 0) now.header.breaks = true;
    }
}

static void put_line(size_t line) {
    put_idle_line();
    put_blanks(0);
    put_text(lines[line].keyword);
    put_blanks(1);
    put_value(line);
    put_blanks(0);
    put_byte('\n');
}

/* Changes some bytes or all, and now and then how many there are. */
static void change_header(void) {
    static const uint8_t usual[] = "\n\n\n # \t\r0123456789PWEHIDTMAXVLUYRNGB_x";
    now.header.is_changed = true;
    if (one_in(8)) now.header.length = up_to(200);
    bool all = one_in(8);
    uint32_t length = (uint32_t)now.header.length;
    for (uint32_t i = all ? length : 1 + up_to(3); i > 0; i--) {
        size_t place = all ? i - 1 : up_to(length);
        now.header.bytes[place] = one_in(4) ? (uint8_t)random64() : usual[up_to(sizeof usual - 2)];
    }
}

/* A header with its lines in any order, of which one may be missing or come twice. */
static void choose_header(void) {
    size_t order[LINES] = {0};
    for (size_t i = 0; i < LINES; i++) {
        size_t place = up_to((uint32_t)i);
        order[i] = order[place];
        order[place] = i;
    }
    memset(&now.header, 0, sizeof now.header);
    put_text("P7\n");
    for (size_t i = 0; i < LINES; i++) {
        uint32_t times = !one_in(64) ? 1 : one_in(2) ? 0 : 2;
        if (times != 1) *(order[i] == TYPE_LINE ? &now.header.is_other : &now.header.breaks) = true;
        while (times-- > 0) put_line(order[i]);
    }
    put_idle_line();
    put_text(one_in(64) ? " ENDHDR of header\n" : "ENDHDR\n");
    if (one_in(4)) change_header();
}

/* Writes some bytes of a buffer that is read. */
static void write_at(buffer *b, size_t place, const uint8_t *bytes, size_t length) {
    memcpy(b->lent + place, bytes, length);
    memcpy(b->copy + (b->lent - b->memory) + place, bytes, length);
}

/* Writes the front of a buffer that is read, or as much of it as is lent. */
static void write_front(buffer *b, const uint8_t *front, size_t length) {
    size_t bytes = b->length < length ? b->length : length;
    if (bytes > 0) write_at(b, 0, front, bytes);
}

/* A count of entries: mostly few, now and then all that are taken or any number. */
static void choose_count(void) {
    now.count = one_in(2048) ? TK_ENTRIES_MOST : one_in(64) ? up_to(100) : up_to(12);
    if (one_in(16)) now.count = one_in(2) ? TK_ENTRIES_MOST + 1 + up_to(3) : any_number();
}

/* Entries of any bytes; about half of them with an earlier one's body, of which one byte may be changed where they are few. */
static void choose_entries(void) {
    buffer *b = &buffers[TO_SPLIT];
    for (uint32_t i = 0; i < now.count; i++) {
        uint8_t body[TK_ENTRY_BYTES - BODY_AT];
        if (i > 0 && one_in(2)) {
            memcpy(body, b->lent + (size_t)up_to(i - 1) * TK_ENTRY_BYTES + BODY_AT, sizeof body);
            if (now.count <= 100 && one_in(3)) body[up_to(sizeof body - 1)] ^= 1 << up_to(7);
        } else {
            put_random(body, sizeof body);
        }
        write_at(b, (size_t)i * TK_ENTRY_BYTES + BODY_AT, body, sizeof body);
    }
}

/* Reasons to be asked for: as loads have left them, or at a few addresses alone. */
static void choose_reasons(void) {
    if (one_in(4)) return;
    uint8_t reasons[TK_REASON_BYTES] = {0};
    for (uint32_t i = up_to(3); i > 0; i--) reasons[up_to(TK_REASON_BYTES - 1)] = (uint8_t)(1 + up_to(TK_REASON_MOST - 1));
    write_front(&buffers[REASONS], reasons, sizeof reasons);
}

/* A key to be checked: the right one, with up to three bytes changed to zero, to the bank's, or to any; or any bytes. Where the call is
 * to be refused it stays as it was. */
static void choose_offer(void) {
    uint8_t offer[TK_BANK_BYTES];
    if (one_in(16) || tk_key_of(buffers[BANK].lent, &now.tile, now.lane, offer).refusal != TK_DONE) return;
    for (uint32_t i = up_to(3); i > 0; i--) {
        uint32_t a = one_in(4) ? 8 * (now.tile.tmem_addr & 511) + up_to(7) : up_to(TK_BANK_BYTES - 1);
        offer[a] = one_in(3) ? 0 : one_in(2) ? buffers[BANK].lent[a] : (uint8_t)random64();
    }
    write_front(&buffers[KEY], offer, sizeof offer);
}

/* Lends every buffer that the entry takes. Picture, trail and file get what the tile needs as far as there is room, or more. */
static void choose_lengths(void) {
    unsigned lent = entries[now.entry].read | entries[now.entry].written;
    uint64_t count = texels() <= SHORT_ROOM / 4 || !side_outside() ? texels() : 16;
    uint32_t each = now.tile.fmt < 8 && now.tile.siz < 4 ? reads_each() : 1;
    size_t header = now.entry == READ_PAM ? now.header.length : (size_t)written_header(NULL, 0);
    for (int i = 0; i < BUFFERS; i++) {
        if (!(lent >> i & 1)) continue;
        size_t right = right_length[i];
        if (i == SOURCE) right = one_in(16) ? right : up_to(600);
        if (i == SOURCE && now.entry == REPLAY_RECORD) right = (size_t)now.length + (one_in(4) ? up_to(100) : 0);
        if (i == PICTURE) right = (size_t)(4 * count + (one_in(4) ? up_to(100) : 0));
        if (i == PICTURE && now.entry == DECODE_LINEAR && one_in(8)) right = up_to((uint32_t)right);
        if (i == TRAIL) right = (size_t)(2 * each * count + (one_in(4) ? up_to(100) : 0));
        if (i == PAM) right = (size_t)(header + 4 * count + (one_in(4) ? up_to(100) : 0));
        if (i == TO_SPLIT) right = (size_t)(now.count <= TK_ENTRIES_MOST ? now.count : up_to(12)) * TK_ENTRY_BYTES;
        if (i == SIDES) right = now.count;
        lend(&buffers[i], some_length(i, right));
    }
}

static void choose_call(void) {
    now.entry = (int)up_to(ENTRIES - 1);
    bool lookup = now.entry == SAMPLING_LOOKUP || now.entry == SAMPLING_LOOKUP_OBSERVED;
    if (lookup && !one_in(8)) now.entry -= SAMPLING_LOOKUP - SAMPLE_TILE; /* lookups take long */
    now.kind = up_to(3);
    now.does = now.entry == REPLAY_RECORD ? asked_for[now.kind] : now.entry;
    if (entries[now.entry].takes & TAKES_REASON) now.does -= REJECT_BLOCK - LOAD_BLOCK;
    memset(now.numbers, 0, sizeof now.numbers);
    choose_tile();
    choose_load();
    if (now.entry == DECODE_LINEAR) choose_linear();
    choose_reason();
    choose_last();
    now.lane = up_to(3);
    if (wants_largest(now.entry)) {
        choose_largest();
    } else if (one_in(4)) {
        break_all();
    } else {
        while (one_in(3)) break_one();
    }
    if (now.entry == REPLAY_RECORD) choose_record();
    if (now.entry == READ_PAM) choose_header();
    if (now.entry == SPLIT) choose_count();
    choose_lengths();
    if (now.entry == REPLAY_RECORD) write_front(&buffers[RECORD], now.record, sizeof now.record);
    if (now.entry == READ_PAM) write_front(&buffers[PAM], now.header.bytes, now.header.length);
    if (now.entry == REJECTION) choose_reasons();
    if (now.entry == CHECK_KEY && !wrong_length()) choose_offer();
    if (now.entry == SPLIT && expected_of_split() == 0) choose_entries();
}

#define LENT(i) buffers[i].lent, buffers[i].length

/* What every load takes first. */
#define LOAD_FRONT \
    LENT(BANK), LENT(WRITTEN), LENT(REASONS), LENT(SOURCE), t->fmt, t->siz, t->line, t->tmem_addr, now.image_siz

static void set_answer(tk_answer given) {
    answer.refusal = given.refusal;
    answer.numbers[0] = given.count;
}

static void set_load_answer(tk_load_answer given) {
    answer.refusal = given.refusal;
    answer.numbers[0] = given.count;
    answer.numbers[1] = given.made_up;
    answer.number = given.number;
}

static void set_check_answer(tk_check_answer given) {
    answer.refusal = given.refusal;
    answer.numbers[0] = given.yes;
    answer.numbers[1] = given.address;
    answer.numbers[2] = given.wrong;
}

static void set_replay_answer(tk_replay_answer given) {
    answer.refusal = given.refusal;
    answer.numbers[0] = given.count;
    answer.number = given.number;
}

static void make_call(void) {
    const tk_tile *t = &now.tile;
    const uint32_t *n = now.numbers;
    memset(&answer, 0, sizeof answer);
    switch (now.entry) {
        case LOAD_BLOCK: set_load_answer(tk_load_block(LOAD_FRONT, n[0], n[1], now.last)); break;
        case LOAD_TILE: set_load_answer(tk_load_tile(LOAD_FRONT, n[0], n[1], n[2], now.last)); break;
        case LOAD_TLUT_HARDWARE: set_load_answer(tk_load_tlut_hardware(LOAD_FRONT, n[0], n[1], n[2], now.last)); break;
        case LOAD_TLUT_ROWS: set_load_answer(tk_load_tlut_rows(LOAD_FRONT, n[0], n[1], n[2], now.last)); break;
        case REJECT_BLOCK: set_load_answer(tk_reject_block(LOAD_FRONT, n[0], n[1], now.reason, now.last)); break;
        case REJECT_TILE: set_load_answer(tk_reject_tile(LOAD_FRONT, n[0], n[1], n[2], now.reason, now.last)); break;
        case REJECT_TLUT_HARDWARE:
            set_load_answer(tk_reject_tlut_hardware(LOAD_FRONT, n[0], n[1], n[2], now.reason, now.last));
            break;
        case REJECT_TLUT_ROWS:
            set_load_answer(tk_reject_tlut_rows(LOAD_FRONT, n[0], n[1], n[2], now.reason, now.last));
            break;
        case SAMPLING: {
            tk_sampling_answer given = tk_sampling(TK_TILE_ARGUMENTS(t));
            answer.refusal = given.refusal;
            answer.numbers[0] = given.flag;
            answer.numbers[1] = given.width;
            answer.numbers[2] = given.height;
            break;
        }
        case SAMPLE_TILE: set_answer(tk_sample_tile(LENT(BANK), TK_TILE_ARGUMENTS(t), now.lane, LENT(PICTURE))); break;
        case SAMPLE_TILE_OBSERVED:
            set_answer(tk_sample_tile_observed(LENT(BANK), TK_TILE_ARGUMENTS(t), now.lane, LENT(PICTURE), LENT(TRAIL)));
            break;
        case SAMPLING_LOOKUP:
            set_answer(tk_sampling_lookup(LENT(BANK), TK_TILE_ARGUMENTS(t), now.lane, LENT(PICTURE)));
            break;
        case SAMPLING_LOOKUP_OBSERVED:
            set_answer(tk_sampling_lookup_observed(LENT(BANK), TK_TILE_ARGUMENTS(t), now.lane, LENT(PICTURE), LENT(TRAIL)));
            break;
        case REACH: answer.refusal = tk_reach(TK_TILE_ARGUMENTS(t), LENT(MAP)); break;
        case TILE_HAS_LOAD: {
            tk_yes_answer given = tk_tile_has_load(TK_TILE_ARGUMENTS(t), LENT(WRITTEN));
            answer.refusal = given.refusal;
            answer.numbers[0] = given.yes;
            break;
        }
        case REJECTION: {
            tk_reason_answer given = tk_rejection(TK_TILE_ARGUMENTS(t), LENT(REASONS));
            answer.refusal = given.refusal;
            answer.numbers[0] = given.reason;
            break;
        }
        case PALETTE_NONREPLICATED: answer.refusal = tk_palette_nonreplicated(LENT(BANK), LENT(LANES)); break;
        case CUT_KEY: set_answer(tk_key(LENT(BANK), TK_TILE_ARGUMENTS(t), now.lane, LENT(KEY))); break;
        case CHECK_KEY: set_check_answer(tk_check_key(LENT(BANK), TK_TILE_ARGUMENTS(t), now.lane, LENT(KEY))); break;
        case REPLAY_RECORD:
            set_replay_answer(
                tk_replay_record(LENT(BANK), LENT(WRITTEN), LENT(REASONS), LENT(RECORD), now.end, LENT(SOURCE), now.last));
            break;
        case WRITE_PAM: set_answer(tk_write_pam(t->width, t->height, LENT(PICTURE), LENT(PAM))); break;
        case READ_PAM: {
            tk_size_answer given = tk_read_pam(LENT(PAM), LENT(PICTURE));
            answer.refusal = given.refusal;
            answer.numbers[0] = given.width;
            answer.numbers[1] = given.height;
            break;
        }
        case SPLIT: {
            tk_split_answer given = tk_split(now.count, LENT(TO_SPLIT), LENT(SIDES));
            answer.refusal = given.refusal;
            answer.numbers[0] = given.tuning;
            answer.numbers[1] = given.held_out;
            break;
        }
        default:
            set_answer(
                tk_decode_linear(LENT(SOURCE), t->fmt, t->siz, t->palette, t->width, t->height, n[2], LENT(PICTURE)));
    }
}

/* ---- Checking it ---------------------------------------------------------------------------------------------------- */

/* The bytes of a picture, trail or file that a successful call writes; none by a record that asks for a key; else all. */
static size_t bytes_written(int i) {
    if (now.entry == REPLAY_RECORD && now.does == CUT_KEY) return 0;
    if (i == PICTURE) return (size_t)(4 * texels());
    if (i == TRAIL) return (size_t)(2 * reads_each() * texels());
    if (i == PAM) return file_bytes();
    return buffers[i].length;
}

/* Everything in a buffer but its lent bytes up to `changed` is as in the copy, which takes over the changed bytes. Near the
 * lent part always, and all of the buffer now and then. */
static void check_buffer(int i, size_t changed, bool whole) {
    buffer *b = &buffers[i];
    size_t at = b->lent == NULL ? 0 : (size_t)(b->lent - b->memory), end = at + b->length;
    memcpy(b->copy + at, b->memory + at, changed);
    size_t from = whole || at < 256 ? 0 : at - 256, to = whole || b->room - end < 256 ? b->room : end + 256;
    if (memcmp(b->memory + from, b->copy + from, to - from) != 0) fail(buffer_names[i]);
}

/* How a load goes through its source: so many pieces of so many bytes, each so far behind the one before, and each byte stored
 * so often. */
typedef struct walk {
    uint64_t pieces, bytes, apart, times;
} walk;

static walk load_walk(void) {
    const uint32_t *n = now.numbers;
    if (now.does == LOAD_BLOCK) return (walk){n[1], 8, 8, 1};
    if (now.does == LOAD_TILE) return (walk){n[0], 8 * n[1], n[2], 1};
    bool steps_over_entries = now.does == LOAD_TLUT_HARDWARE && now.image_siz != 2;
    if (!steps_over_entries) return (walk){n[1], 2 * n[0], n[2], 4};
    uint32_t entries_a_step = 16u >> now.image_siz;
    return (walk){(n[0] + entries_a_step - 1) / entries_a_step, 2, 8, 4};
}

/* The stores, and how many of their bytes were made up, at or past the source's end. A record answers the first alone. */
static void check_load_counts(void) {
    walk w = load_walk();
    uint64_t past_end = 0, length = buffers[SOURCE].length;
    for (uint64_t piece = 0; piece < w.pieces; piece++) {
        uint64_t start = piece * w.apart, end = start + w.bytes;
        past_end += end <= length ? 0 : end - (start < length ? length : start);
    }
    if (answer.numbers[0] != w.pieces * w.bytes * w.times) fail("the count of stores");
    if (answer.numbers[1] != (now.entry == REPLAY_RECORD ? 0 : past_end * w.times)) fail("the made-up count");
}

/* What a buffer held before the call, where it was lent. */
static const uint8_t *held(int i) { return buffers[i].copy + (buffers[i].lent - buffers[i].memory); }

/* What a load left in the written record: the load's number or what was there, and its number where a byte of the bank is another.
 * A load of no stores leaves all as it was. Its reason, 0 for an ordinary load, stands where its number is new; where its number is
 * not, reasons are as before. */
static void check_numbers(void) {
    const buffer *bank = &buffers[BANK], *written = &buffers[WRITTEN];
    const uint8_t *reasons = buffers[REASONS].lent, *reasons_before = held(REASONS);
    const uint8_t *bank_before = held(BANK), *before = held(WRITTEN);
    uint32_t numbered = 0, reason = entries[now.entry].takes & TAKES_REASON ? now.reason : 0;
    for (uint32_t a = 0; a < TK_BANK_BYTES; a++) {
        bool is_own = tk_written_by(written->lent, a) == now.last + 1;
        bool as_before = memcmp(written->lent + 2 * a, before + 2 * a, 2) == 0;
        if (!is_own && !as_before) fail("a number that is neither the load's nor the one before");
        if (!is_own && bank->lent[a] != bank_before[a]) fail("a changed byte without the load's number");
        if (!is_own && reasons[a] != reasons_before[a]) fail("another reason without the load's number");
        if (is_own && !as_before && reasons[a] != reason) fail("the load's number without its reason");
        if (reasons[a] != reason && reasons[a] != reasons_before[a]) fail("a reason that is neither the load's nor before");
        numbered += is_own && !as_before;
    }
    if (numbered > answer.numbers[0]) fail("more addresses with the load's number than stores");
}

/* A reason that is answered stands at an address that the tile can reach or that its palette has; none is where no such address has
 * one. */
static void check_reason(void) {
    const tk_tile *t = &now.tile;
    uint8_t map[TK_MAP_BYTES];
    if (tk_reach_of(t, map) != TK_DONE) fail("a reach beside a reason");
    uint32_t palette = t->siz == 0 ? TK_PALETTE_BASE + 128 * t->palette : TK_PALETTE_BASE;
    uint32_t palette_end = t->mode < 2 ? palette : t->siz == 0 ? palette + 128 : TK_BANK_BYTES;
    bool stands = answer.numbers[0] == 0;
    for (uint32_t a = 0; a < TK_BANK_BYTES; a++) {
        uint32_t reason = buffers[REASONS].lent[a];
        if (reason == 0 || !(tk_is_marked(map, a) || (a >= palette && a < palette_end))) continue;
        if (answer.numbers[0] == 0) fail("no reason, though an address has one");
        stands = stands || reason == answer.numbers[0];
    }
    if (!stands) fail("a reason that no address has");
}

/* What a check answered: a yes exactly if the offer is the key; else the lowest address at which it is not, and the kind. What is kept is
 * what the key of a bank of ones keeps, in modes 0 and 1, where a picture reads the same addresses of every bank. */
static void check_checked(void) {
    uint8_t key[TK_BANK_BYTES], ones[TK_BANK_BYTES], kept[TK_BANK_BYTES];
    const uint8_t *bank = buffers[BANK].lent, *offer = buffers[KEY].lent;
    memset(ones, 1, sizeof ones);
    if (tk_key_of(bank, &now.tile, now.lane, key).refusal != TK_DONE) fail("a key beside a check");
    if (tk_key_of(ones, &now.tile, now.lane, kept).refusal != TK_DONE) fail("a key beside a check");
    uint32_t a = 0;
    while (a < TK_BANK_BYTES && offer[a] == key[a]) a++;
    bool yes = a == TK_BANK_BYTES;
    if (answer.numbers[0] != yes || answer.numbers[1] != (yes ? 0 : a)) fail("the lowest wrong address");
    if (yes && answer.numbers[2] != TK_KEY_RIGHT) fail("something wrong with a right key");
    if (yes || now.tile.mode >= 2) return;
    uint32_t wrong = kept[a] && bank[a] != 0 && offer[a] == 0 ? TK_KEY_MISSING
                     : !kept[a] && offer[a] != 0              ? TK_KEY_LEFT_OVER
                                                              : TK_KEY_ANOTHER_VALUE;
    if (answer.numbers[2] != wrong) fail("what is wrong");
}

/* What a writing answered and left. */
static void check_written(void) {
    char text[TK_PAM_HEADER_MOST + 1];
    size_t length = (size_t)written_header(text, sizeof text);
    const uint8_t *file = buffers[PAM].lent;
    if (answer.numbers[0] != file_bytes()) fail("the count of the file's bytes");
    if (memcmp(file, text, length) != 0) fail("the header");
    if (memcmp(file + length, buffers[PICTURE].lent, 4 * texels()) != 0) fail("the file's texels");
}

/* What a reading answered and left. */
static void check_read(void) {
    if (answer.numbers[0] != now.tile.width || answer.numbers[1] != now.tile.height) fail("the size");
    const uint8_t *from = buffers[PAM].lent + now.header.length;
    if (!now.header.is_changed && memcmp(buffers[PICTURE].lent, from, 4 * texels()) != 0) fail("the picture's texels");
}

/* The first byte is asked first, which is quicker under the sanitizers. */
static bool same_body(const uint8_t *a, const uint8_t *b) {
    return *a == *b && memcmp(a, b, TK_ENTRY_BYTES - BODY_AT) == 0;
}

/* What a split answered and left. The group of each entry is found by going through the first entries of all groups. */
static void check_split(void) {
    static const uint8_t *first[TK_ENTRIES_MOST];
    uint32_t groups = 0, held_out = 0;
    for (uint32_t i = 0; i < now.count; i++) {
        const uint8_t *body = buffers[TO_SPLIT].lent + (size_t)i * TK_ENTRY_BYTES + BODY_AT;
        uint32_t group = 0;
        while (group < groups && !same_body(first[group], body)) group++;
        if (group == groups) first[groups++] = body;
        if (buffers[SIDES].lent[i] != (group % 5 == 4)) fail("a side");
        held_out += group % 5 == 4;
    }
    if (answer.numbers[0] != now.count - held_out || answer.numbers[1] != held_out) fail("the totals");
}

/* A byte of the source; past its end 0. */
static uint8_t source_byte(uint64_t place) { return place < buffers[SOURCE].length ? buffers[SOURCE].lent[place] : 0; }

/* A number of so few bits, repeated to eight. */
static uint8_t widened(uint32_t number, uint32_t bits) {
    uint32_t wide = 0, have = 0;
    for (; have < 8; have += bits) wide = wide << bits | number;
    return (uint8_t)(wide >> (have - 8));
}

/* What a decoding left, texel by texel, as the header says. Of its numbers it takes the stride, as a tile load does. */
static void check_linear(void) {
    uint32_t fmt = now.tile.fmt, siz = now.tile.siz;
    for (uint64_t i = 0; i < texels(); i++) {
        uint64_t x = i % now.tile.width, row = i / now.tile.width * now.numbers[2];
        uint64_t place = row + (siz == 0 ? x / 2 : siz == 1 ? x : siz == 2 ? 2 * x : 4 * x);
        uint8_t b[4], due[4];
        for (uint64_t k = 0; k < 4; k++) b[k] = source_byte(place + k);
        uint32_t half = x % 2 == 0 ? b[0] >> 4 : b[0] & 15, pair = (uint32_t)b[0] << 8 | b[1], v = b[0];
        if (siz == 0) v = fmt == 2 ? 16 * now.tile.palette + half : widened(half, 4);
        for (uint64_t k = 0; k < 4; k++) due[k] = (uint8_t)v;
        if (fmt == 0 && siz == 2) {
            for (uint32_t k = 0; k < 3; k++) due[k] = widened(pair >> (11 - 5 * k) & 31, 5);
            due[3] = pair % 2 == 0 ? 0 : 255;
        }
        if (fmt == 0 && siz == 3) memcpy(due, b, 4);
        if (fmt == 2 && siz == 2) due[1] = due[3] = b[1];
        if (fmt == 3 && siz == 0) memset(due, widened(half >> 1, 3), 3), due[3] = half % 2 == 0 ? 0 : 255;
        if (fmt == 3 && siz == 1) memset(due, widened(v >> 4, 4), 3), due[3] = widened(v & 15, 4);
        if (fmt == 3 && siz == 2) due[3] = b[1];
        if (memcmp(buffers[PICTURE].lent + 4 * i, due, 4) != 0) fail("a texel of the source");
    }
}

static void check_counts(void) {
    if (now.entry == SPLIT) check_split();
    if (now.entry == WRITE_PAM) check_written();
    if (now.entry == READ_PAM) check_read();
    if (now.entry == REJECTION) check_reason();
    if (now.entry == DECODE_LINEAR) check_linear();
    if (now.entry == CHECK_KEY) check_checked();
    if (entries[now.does].takes & TAKES_LOAD) {
        check_load_counts();
        check_numbers();
    }
    bool picture = entries[now.does].takes & TAKES_PICTURE;
    if (picture && answer.numbers[0] != reads_each() * texels()) fail("the count of reads");
}

/* Of reading a changed header: what was answered, if it is a refusal that reading has, or a size that the buffers have room for. */
static uint32_t expected_of_change(void) {
    static const uint32_t own[] = {0, 13, 14, 2, 15, 6};
    bool known = false;
    for (size_t i = 0; i < sizeof own / sizeof *own; i++) known = known || answer.refusal == own[i];
    if (!known) fail("a refusal that reading does not have");
    now.tile.width = answer.numbers[0];
    now.tile.height = answer.numbers[1];
    if (answer.refusal != 0) return answer.refusal;
    if (texels() == 0 || side_outside()) fail("the size");
    if (buffers[PICTURE].length < 4 * texels() || buffers[PAM].length < 4 * texels()) fail("a size beyond the buffers");
    return 0;
}

/* The number that is not given out again. */
enum { NOT_GIVEN = 9 };

static void check_call(bool whole) {
    if (answer.refusal == NOT_GIVEN) fail("a refusal that no call gives");
    bool changed = now.entry == READ_PAM && now.header.is_changed;
    uint32_t refusal = changed ? expected_of_change() : expected_refusal();
    if (answer.refusal != refusal) {
        fprintf(stderr, "rough: the table asks for %u\n", refusal);
        fail("the refusal");
    }
    if (refusal != 0 && (answer.numbers[0] | answer.numbers[1] | answer.numbers[2]) != 0) fail("numbers beside a refusal");
    if (answer.number != expected_number()) fail("the number handed back");
    if (refusal == 0) check_counts();
    for (int i = 0; i < BUFFERS; i++) {
        bool written = entries[now.entry].written >> i & 1, lent = written || (entries[now.entry].read >> i & 1);
        if (lent) check_buffer(i, refusal == 0 && written ? bytes_written(i) : 0, whole);
    }
}

/* How often each number was answered, by entry. In so many calls each that is given must come up. */
enum { NUMBERS = 20, MANY_CALLS = 20000 };
static uint64_t answered[ENTRIES][NUMBERS];

static uint64_t times_answered(int number, int from, int to) {
    uint64_t times = 0;
    for (int entry = from; entry < to; entry++) times += answered[entry][number];
    return times;
}

/* Prints that for the entries from one up to another, added up. */
static void print_answered(int from, int to) {
    for (int number = 0; number < NUMBERS; number++) {
        if (number != NOT_GIVEN) printf(" %d: %llu", number, (unsigned long long)times_answered(number, from, to));
    }
    printf("\n");
}

#ifdef __SANITIZE_ADDRESS__
void __sanitizer_set_death_callback(void (*callback)(void));
#endif

int main(int argc, char **argv) {
    if (argc < 3 || argc > 4) {
        fprintf(stderr, "usage: rough SECONDS SEED [CALLS]\n");
        return 2;
    }
    uint64_t seconds = strtoull(argv[1], NULL, 10), calls = argc == 4 ? strtoull(argv[3], NULL, 10) : UINT64_MAX;
    state = strtoull(argv[2], NULL, 10);
    for (int i = 0; i < BUFFERS; i++) make_buffer(&buffers[i], right_length[i]);
#ifdef __SANITIZE_ADDRESS__
    __sanitizer_set_death_callback(print_call);
#endif

    uint64_t done = 0;
    time_t began = time(NULL);
    while (done < calls && (argc == 4 || done % 256 != 0 || (uint64_t)(time(NULL) - began) < seconds)) {
        choose_call();
        make_call();
        check_call(done % 65536 == 0);
        answered[now.entry][answer.refusal]++;
        had_largest[now.entry] |= answer.refusal == 0 && now.tile.width == TK_SIDE_MOST && now.tile.height == TK_SIDE_MOST;
        done++;
    }
    printf("rough handling: %llu calls, seed %s, refused by number:", (unsigned long long)done, argv[2]);
    print_answered(0, ENTRIES);
    for (int entry = REPLAY_RECORD; entry < ENTRIES; entry++) {
        printf("rough handling: of these %s:", entry_names[entry]);
        print_answered(entry, entry + 1);
    }
    for (int number = 0; done >= MANY_CALLS && number < NUMBERS; number++) {
        if (number == NOT_GIVEN || times_answered(number, 0, ENTRIES) > 0) continue;
        fprintf(stderr, "rough: %d never came up\n", number);
        return 1;
    }
    static const int of_decoding[] = {0, 2, 4, 5, 6};
    for (size_t i = 0; done >= MANY_CALLS && i < sizeof of_decoding / sizeof *of_decoding; i++) {
        if (answered[DECODE_LINEAR][of_decoding[i]] > 0) continue;
        fprintf(stderr, "rough: %d never came up of %s\n", of_decoding[i], entry_names[DECODE_LINEAR]);
        return 1;
    }
    for (int entry = 0; done >= MANY_CALLS && entry < ENTRIES; entry++) {
        if (!wants_largest(entry)) continue;
        fprintf(stderr, "rough: %s never had the largest picture\n", entry_names[entry]);
        return 1;
    }
    return 0;
}
