/* Header and archive agree in every signature: each entry is called with arguments of which every one matters, so that a
 * swapped, missing or narrower parameter shows. Prints nothing if all is well. */

#include <stdio.h>
#include <string.h>

#include "tulonkasa.h"

static uint8_t bank[TK_BANK_BYTES], written[TK_WRITTEN_BYTES], reasons[TK_REASON_BYTES], map[TK_MAP_BYTES];
static uint8_t long_buffer[TK_WRITTEN_BYTES + 1], lanes[TK_LANE_MAP_BYTES], key[TK_BANK_BYTES];
static uint8_t picture[TK_PICTURE_BYTES(4096, 4)], trail[TK_TRAIL_BYTES(4096, 4)];
static uint8_t source[64], part[TK_SOURCE_MOST + 1], file[TK_PAM_HEADER_MOST + 4 * TK_SIDE_MOST];
static uint8_t entries[(TK_ENTRIES_MOST + 1) * TK_ENTRY_BYTES], sides[TK_ENTRIES_MOST + 1];
static int wrong;

static void check(int holds, const char *what, int line) {
    if (holds) return;
    fprintf(stderr, "signatures.c:%d: %s\n", line, what);
    wrong = 1;
}
#define CHECK(condition) check(condition, #condition, __LINE__)

/* A tile whose numbers are all in range and all different from 0 where the call allows it. */
static tk_tile plain_tile(void) {
    tk_tile tile = {4, 1, 1, 1, 2, 2, 1, 1, 1, 2, 3, 2};
    return tile;
}

/* The twelve numbers as an array, so that each can be put out of range in turn. */
static tk_tile with(tk_tile tile, size_t place, uint32_t number) {
    uint32_t numbers[12];
    memcpy(numbers, &tile, sizeof numbers);
    numbers[place] = number;
    memcpy(&tile, numbers, sizeof numbers);
    return tile;
}

/* Whether a check is refused by a number, and answers nothing else. */
static int check_refused(tk_check_answer answer, uint32_t refusal) {
    return answer.refusal == refusal && answer.yes + answer.address + answer.wrong == 0;
}

/* Each of the twelve arrives whole and in its place: its limit is taken, and one past it refused, by 3 for the mode (the
 * fourth), else by 2. A number of 2^32 - 1 is refused as well, so all 32 bits arrive. */
static void check_the_twelve(void) {
    static const uint32_t most[12] = {7, 3, 15, 3, 3, 3, 15, 15, 511, 511, TK_SIDE_MOST, TK_SIDE_MOST};
    for (size_t i = 0; i < 12; i++) {
        tk_tile full = with(plain_tile(), i, most[i]), past = with(plain_tile(), i, most[i] + 1),
                far = with(plain_tile(), i, UINT32_MAX);
        uint32_t refusal = i == 3 ? 3 : 2;
        CHECK(tk_sampling_of(&full).refusal == 0);
        CHECK(tk_reach_of(&full, map) == 0);
        CHECK(tk_tile_has_load_of(&full, written).refusal == 0);
        CHECK(tk_rejection_of(&full, reasons).refusal == 0);
        const tk_tile *bad[] = {&past, &far};
        for (size_t k = 0; k < 2; k++) {
            CHECK(tk_sampling_of(bad[k]).refusal == refusal);
            CHECK(tk_reach_of(bad[k], map) == refusal);
            CHECK(tk_tile_has_load_of(bad[k], written).refusal == refusal);
            CHECK(tk_rejection_of(bad[k], reasons).refusal == refusal);
            CHECK(tk_sample_tile_of(bank, bad[k], 0, picture, sizeof picture).refusal == refusal);
            CHECK(tk_sample_tile_observed_of(bank, bad[k], 0, picture, sizeof picture, trail, sizeof trail).refusal ==
                  refusal);
            CHECK(tk_sampling_lookup_of(bank, bad[k], 0, picture, sizeof picture).refusal == refusal);
            CHECK(tk_sampling_lookup_observed_of(bank, bad[k], 0, picture, sizeof picture, trail, sizeof trail).refusal ==
                  refusal);
            CHECK(tk_key_of(bank, bad[k], 0, key).refusal == refusal);
            CHECK(check_refused(tk_check_key_of(bank, bad[k], 0, key), refusal));
        }
    }
}

/* Whether a load answers a refusal and a number, and beside a refusal nothing else. */
static int answers(tk_load_answer answer, uint32_t refusal, uint32_t number) {
    return answer.refusal == refusal && answer.number == number && (refusal == 0 || answer.count + answer.made_up == 0);
}

/* The buffers of a load. */
typedef struct memory {
    uint8_t *bank;
    size_t bank_length;
    uint8_t *written;
    size_t written_length;
    uint8_t *reasons;
    size_t reasons_length;
    const uint8_t *source;
    size_t source_length;
} memory;

static const memory whole = {bank, sizeof bank, written, sizeof written, reasons, sizeof reasons, source, sizeof source};

/* The loads; each is done as an ordinary one or as a rejected one. */
enum { BLOCK, TILE, TLUT_HARDWARE, TLUT_ROWS, LOADS };

/* The numbers of a load: four of the tile, image_siz, its own, of which a block has two, and the last number; a reason before it. */
enum { TILE_NUMBERS = 4, THIRD = 7, REASON = 8, LAST = 9, NUMBERS = 10 };

static tk_load_answer load(memory m, int kind, int is_rejected, const uint32_t *n) {
#define FRONT                                                                                                         \
    m.bank, m.bank_length, m.written, m.written_length, m.reasons, m.reasons_length, m.source, m.source_length, n[0], \
        n[1], n[2], n[3], n[4]
    switch (2 * kind + is_rejected) {
        case 2 * BLOCK: return tk_load_block(FRONT, n[5], n[6], n[9]);
        case 2 * BLOCK + 1: return tk_reject_block(FRONT, n[5], n[6], n[8], n[9]);
        case 2 * TILE: return tk_load_tile(FRONT, n[5], n[6], n[7], n[9]);
        case 2 * TILE + 1: return tk_reject_tile(FRONT, n[5], n[6], n[7], n[8], n[9]);
        case 2 * TLUT_HARDWARE: return tk_load_tlut_hardware(FRONT, n[5], n[6], n[7], n[9]);
        case 2 * TLUT_HARDWARE + 1: return tk_reject_tlut_hardware(FRONT, n[5], n[6], n[7], n[8], n[9]);
        case 2 * TLUT_ROWS: return tk_load_tlut_rows(FRONT, n[5], n[6], n[7], n[9]);
        default: return tk_reject_tlut_rows(FRONT, n[5], n[6], n[7], n[8], n[9]);
    }
#undef FRONT
}

/* Numbers that each load takes, and the least and the most that it takes of each. */
static const uint32_t usual[LOADS][NUMBERS] = {{0, 2, 1, 2, 2, 1, 2, 0, 9, 6},
                                               {0, 2, 1, 2, 2, 1, 2, 8, 9, 6},
                                               {0, 2, 1, 2, 2, 4, 1, 8, 9, 6},
                                               {0, 2, 1, 2, 2, 4, 2, 8, 9, 6}};
static const uint32_t load_least[LOADS][NUMBERS] = {{0, 0, 0, 0, 0, 0, 0, 0, 1, 0},
                                                    {0, 0, 0, 0, 0, 0, 0, 0, 1, 0},
                                                    {0, 0, 0, 0, 1, 0, 1, 0, 1, 0},
                                                    {0, 0, 0, 0, 0, 0, 1, 0, 1, 0}};
static const uint32_t load_most[LOADS][NUMBERS] = {
    {7, 3, 511, 511, 3, 4095, 2048, 0, TK_REASON_MOST, TK_LOADS_MOST - 1},
    {7, 3, 511, 511, 3, 1024, 512, 65535, TK_REASON_MOST, TK_LOADS_MOST - 1},
    {7, 3, 511, 511, 3, 1024, 1, 65535, TK_REASON_MOST, TK_LOADS_MOST - 1},
    {7, 3, 511, 511, 3, 1024, 1024, 65535, TK_REASON_MOST, TK_LOADS_MOST - 1}};

/* Each number of a load at its limits; then on both sides of them and with all 32 bits set, which is answered alike beside a bad reason
 * and a bad last number, where these are tested later. */
static void check_load(int kind, int is_rejected) {
    for (size_t i = 0; i < NUMBERS; i++) {
        if ((i == THIRD && kind == BLOCK) || (i == REASON && !is_rejected)) continue;
        uint32_t n[NUMBERS], refusal = i < TILE_NUMBERS ? 2 : i < REASON ? 4 : i == REASON ? 19 : 18;
        uint32_t least = load_least[kind][i], most = load_most[kind][i];
        const uint32_t good[] = {least, most}, bad[] = {least - 1, most + 1, UINT32_MAX};
        memcpy(n, usual[kind], sizeof n);
        for (size_t k = 0; k < 2; k++) {
            n[i] = good[k];
            CHECK(answers(load(whole, kind, is_rejected, n), 0, n[LAST] + 1));
        }
        for (size_t k = 0; k < 3; k++) {
            memcpy(n, usual[kind], sizeof n);
            n[i] = bad[k];
            CHECK(answers(load(whole, kind, is_rejected, n), refusal, n[LAST]));
            if (i < REASON) n[REASON] = 0;
            if (i < LAST) n[LAST] = 65535;
            CHECK(answers(load(whole, kind, is_rejected, n), refusal, n[LAST]));
        }
    }
}

static void check_loads(void) {
    for (int kind = 0; kind < LOADS; kind++) {
        check_load(kind, 0);
        check_load(kind, 1);
    }
}

/* What a record's fields are held against: where each stands, its bytes, the most that a block, tile, palette and key take of
 * it, and the refusal of more. */
enum { ANY = -1 };
static const struct {
    size_t place, bytes;
    int32_t most[4];
    uint32_t refusal;
} fields[] = {
    {1, 1, {ANY, ANY, ANY, 3}, 3},
    {2, 1, {7, 7, 7, 7}, 2},
    {3, 1, {3, 3, 3, 3}, 2},
    {4, 1, {ANY, ANY, ANY, 15}, 2},
    {5, 1, {ANY, ANY, ANY, 3}, 3},
    {6, 1, {ANY, ANY, ANY, 3}, 2},
    {7, 1, {ANY, ANY, ANY, 3}, 2},
    {8, 1, {ANY, ANY, ANY, 15}, 2},
    {9, 1, {ANY, ANY, ANY, 15}, 2},
    {10, 2, {511, 511, 511, 511}, 2},
    {12, 2, {511, 511, 511, 511}, 2},
    {14, 2, {ANY, ANY, ANY, TK_SIDE_MOST}, 2},
    {16, 2, {ANY, ANY, ANY, TK_SIDE_MOST}, 2},
    {18, 2, {3, 3, 3, ANY}, 4},
    {20, 2, {4095, ANY, ANY, ANY}, 4},
    {22, 2, {2048, 512, ANY, ANY}, 4},
    {24, 2, {ANY, 1024, 1024, ANY}, 4},
    {26, 2, {ANY, ANY, 1024, ANY}, 4},
    {28, 2, {ANY, ANY, ANY, ANY}, 0},
    {30, 4, {sizeof part, sizeof part, sizeof part, ANY}, 11},
    {34, 4, {65536, 65536, 65536, ANY}, 4},
    {38, 4, {ANY, ANY, ANY, ANY}, 0},
    {42, 4, {ANY, ANY, ANY, ANY}, 0},
    {46, 2, {ANY, ANY, ANY, ANY}, 0},
};

/* A record of a kind with one field set. Its mode is 2, which accepts every pair, its rows 1, and all else 0. */
static uint32_t replayed_with(uint8_t kind, size_t place, size_t bytes, uint32_t number) {
    uint8_t record[TK_RECORD_BYTES] = {[0] = kind, [5] = 2, [25] = 1};
    for (size_t i = bytes; i > 0; i--, number >>= 8) record[place + i - 1] = (uint8_t)number;
    return tk_replay_record_of(bank, written, reasons, record, sizeof part, part, sizeof part, 0).refusal;
}

/* Each field of a record is taken up to its limit and refused past it, and one that a kind does not take may hold anything. */
static void check_fields(void) {
    for (uint8_t kind = 0; kind < 4; kind++) {
        for (size_t i = 0; i < sizeof fields / sizeof *fields; i++) {
            int32_t most = fields[i].most[kind];
            CHECK(replayed_with(kind, fields[i].place, fields[i].bytes, (uint32_t)most) == 0);
            if (most == ANY) continue;
            CHECK(replayed_with(kind, fields[i].place, fields[i].bytes, (uint32_t)most + 1) == fields[i].refusal);
        }
    }
    CHECK(replayed_with(4, 2, 1, 8) == 10);
    CHECK(replayed_with(255, 2, 1, 7) == 10);
}

/* A record's other arguments: the length of each buffer, the companion's, which needs more than 32 bits, and the last number. */
static void check_record(void) {
    /* a block of no words, of eight bytes at offset 2^32 - 1; and a key */
    static const uint8_t record[TK_RECORD_BYTES + 1] = {[30] = 255, [31] = 255, [32] = 255, [33] = 255, [37] = 8};
    static const uint8_t key_of_none[TK_RECORD_BYTES] = {[0] = 3, [3] = 2};
    uint64_t end = 0x100000007;
    CHECK(tk_replay_record(bank, 4096, written, 8192, reasons, 4096, record, 48, end, part, 8, 0).refusal == 0);
    CHECK(tk_replay_record(bank, 4096, written, 8192, reasons, 4096, record, 49, UINT64_MAX, part, 9, 0).refusal == 0);
    CHECK(tk_replay_record(bank, 4095, written, 8192, reasons, 4096, record, 48, end, part, 8, 0).refusal == 1);
    CHECK(tk_replay_record(bank, 4096, written, 8191, reasons, 4096, record, 48, end, part, 8, 0).refusal == 1);
    CHECK(tk_replay_record(bank, 4096, written, 512, reasons, 4096, record, 48, end, part, 8, 0).refusal == 1);
    CHECK(tk_replay_record(bank, 4096, written, 8192, reasons, 4095, record, 48, end, part, 8, 0).refusal == 1);
    CHECK(tk_replay_record(bank, 4096, written, 8192, long_buffer, 8192, record, 48, end, part, 8, 0).refusal == 1);
    CHECK(tk_replay_record(bank, 4096, written, 8192, reasons, 4096, record, 47, end, part, 8, 0).refusal == 8);
    CHECK(tk_replay_record(bank, 4096, written, 8192, reasons, 4096, record, 48, end - 1, part, 8, 0).refusal == 11);
    CHECK(tk_replay_record(bank, 4096, written, 8192, reasons, 4096, record, 48, end, part, 7, 0).refusal == 11);

    static const uint32_t past[] = {65535, 65536, UINT32_MAX};
    tk_replay_answer answer = tk_replay_record_of(bank, written, reasons, record, end, part, 8, 65534);
    CHECK(answer.refusal == 0 && answer.count == 0 && answer.number == 65535);
    for (size_t i = 0; i < 3; i++) {
        answer = tk_replay_record_of(bank, written, reasons, record, end, part, 8, past[i]);
        CHECK(answer.refusal == 18 && answer.count == 0 && answer.number == past[i]);
        answer = tk_replay_record_of(bank, written, reasons, record, end - 1, part, 8, past[i]);
        CHECK(answer.refusal == 11 && answer.count == 0 && answer.number == past[i]);
        answer = tk_replay_record_of(bank, written, reasons, key_of_none, end, NULL, 0, past[i]);
        CHECK(answer.refusal == 0 && answer.count == 0 && answer.number == past[i]);
    }
}

/* Lengths and lane: each buffer one short, and a lane of 4. */
static void check_lengths(void) {
    tk_tile tile = plain_tile();
    const tk_tile *t = &tile;
    /* The two lengths beside the right one, and those of other buffers. */
    static const size_t bad_written[] = {8191, 8193, 512, 4096}, bad_reasons[] = {4095, 4097, 512, 8192};
    for (size_t i = 0; i < 4; i++) {
        memory bad[] = {whole, whole, whole};
        bad[0].bank_length = 4095;
        bad[1].written = long_buffer;
        bad[1].written_length = bad_written[i];
        bad[2].reasons = long_buffer;
        bad[2].reasons_length = bad_reasons[i];
        for (int kind = 0; kind < LOADS; kind++) {
            for (size_t k = 0; k < 3; k++) {
                CHECK(answers(load(bad[k], kind, 0, usual[kind]), 1, usual[kind][LAST]));
                CHECK(answers(load(bad[k], kind, 1, usual[kind]), 1, usual[kind][LAST]));
            }
        }
        CHECK(tk_tile_has_load(TK_TILE_ARGUMENTS(t), long_buffer, bad_written[i]).refusal == 1);
        CHECK(tk_rejection(TK_TILE_ARGUMENTS(t), long_buffer, bad_reasons[i]).refusal == 1);
    }
    CHECK(tk_reach(TK_TILE_ARGUMENTS(t), map, 511) == 1);
    CHECK(tk_reach(TK_TILE_ARGUMENTS(t), long_buffer, 8192) == 1);
    CHECK(tk_palette_nonreplicated(bank, 4095, lanes, 32) == 1);
    CHECK(tk_palette_nonreplicated(bank, 4096, lanes, 31) == 1);
    CHECK(tk_key(bank, 4095, TK_TILE_ARGUMENTS(t), 0, key, 4096).refusal == 1);
    CHECK(tk_key(bank, 4096, TK_TILE_ARGUMENTS(t), 0, key, 4095).refusal == 1);
    CHECK(tk_key_of(bank, t, 4, key).refusal == 3);
    CHECK(check_refused(tk_check_key(bank, 4095, TK_TILE_ARGUMENTS(t), 0, key, 4096), 1));
    CHECK(check_refused(tk_check_key(bank, 4096, TK_TILE_ARGUMENTS(t), 0, key, 4095), 1));
    CHECK(check_refused(tk_check_key(bank, 4096, TK_TILE_ARGUMENTS(t), 0, long_buffer, 4097), 1));
    CHECK(check_refused(tk_check_key_of(bank, t, 4, key), 3));
    CHECK(tk_sample_tile(bank, 4095, TK_TILE_ARGUMENTS(t), 0, picture, 24).refusal == 1);
    CHECK(tk_sample_tile_of(bank, t, 4, picture, 24).refusal == 3);
    CHECK(tk_sample_tile_of(bank, t, 0, picture, 23).refusal == 6);
    CHECK(tk_sample_tile_observed(bank, 4095, TK_TILE_ARGUMENTS(t), 0, picture, 24, trail, 12).refusal == 1);
    CHECK(tk_sample_tile_observed_of(bank, t, 4, picture, 24, trail, 12).refusal == 3);
    CHECK(tk_sample_tile_observed_of(bank, t, 0, picture, 23, trail, 12).refusal == 6);
    CHECK(tk_sample_tile_observed_of(bank, t, 0, picture, 24, trail, 11).refusal == 7);
    CHECK(tk_sampling_lookup(bank, 4095, TK_TILE_ARGUMENTS(t), 0, picture, sizeof picture).refusal == 1);
    CHECK(tk_sampling_lookup_of(bank, t, 4, picture, sizeof picture).refusal == 3);
    CHECK(tk_sampling_lookup_of(bank, t, 0, picture, sizeof picture - 1).refusal == 6);
    CHECK(tk_sampling_lookup_observed(bank, 4095, TK_TILE_ARGUMENTS(t), 0, picture, sizeof picture, trail, 32768).refusal ==
          1);
    CHECK(tk_sampling_lookup_observed_of(bank, t, 4, picture, sizeof picture, trail, 32768).refusal == 3);
    CHECK(tk_sampling_lookup_observed_of(bank, t, 0, picture, sizeof picture - 1, trail, 32768).refusal == 6);
    CHECK(tk_sampling_lookup_observed_of(bank, t, 0, picture, sizeof picture, trail, 32767).refusal == 7);
    CHECK(tk_write_pam(3, 2, picture, 23, file, 89).refusal == 6);
    CHECK(tk_write_pam(3, 2, picture, 24, file, 88).refusal == 6);
}

/* Width and height of a picture to be written: each is taken up to its limit and refused past it, and at 0. */
static void check_sides(void) {
    static const uint32_t past[] = {TK_SIDE_MOST + 1, UINT32_MAX};
    CHECK(tk_write_pam(TK_SIDE_MOST, 1, picture, sizeof picture, file, sizeof file).refusal == 0);
    CHECK(tk_write_pam(1, TK_SIDE_MOST, picture, sizeof picture, file, sizeof file).refusal == 0);
    for (size_t i = 0; i < 2; i++) {
        CHECK(tk_write_pam(past[i], 1, picture, sizeof picture, file, sizeof file).refusal == 2);
        CHECK(tk_write_pam(1, past[i], picture, sizeof picture, file, sizeof file).refusal == 2);
    }
    CHECK(tk_write_pam(0, 1, picture, sizeof picture, file, sizeof file).refusal == 12);
    CHECK(tk_write_pam(1, 0, picture, sizeof picture, file, sizeof file).refusal == 12);
}

/* What writing and reading answer and leave; then buffer and file cut short, a width of 0, and another depth. */
static void check_files(void) {
    static const char header[] = "P7\nWIDTH 3\nHEIGHT 2\nDEPTH 4\nMAXVAL 255\nTUPLTYPE RGB_ALPHA\nENDHDR\n";
    size_t length = sizeof header - 1 + 24;
    for (size_t i = 0; i < 24; i++) picture[i] = (uint8_t)(200 + i);
    memset(file, 1, sizeof file);
    tk_tile tile = plain_tile();
    tk_answer answer = tk_write_pam_of(&tile, picture, sizeof picture, file, sizeof file);
    CHECK(answer.refusal == 0 && answer.count == length && memcmp(file, header, sizeof header - 1) == 0);
    CHECK(memcmp(file + length - 24, picture, 24) == 0 && file[length] == 1);

    memset(picture, 2, sizeof picture);
    tk_size_answer size = tk_read_pam(file, length, picture, 24);
    CHECK(size.refusal == 0 && size.width == 3 && size.height == 2 && picture[0] == 200 && picture[23] == 223);
    CHECK(picture[24] == 2);
    CHECK(tk_read_pam(file, length, picture, 23).refusal == 6);
    CHECK(tk_read_pam(file, length - 1, picture, 24).refusal == 15);
    CHECK(tk_read_pam(file, length - 25, picture, 24).refusal == 13);
    file[9] = '0';
    size = tk_read_pam(file, length, picture, 24);
    CHECK(size.refusal == 13 && size.width == 0 && size.height == 0);
    file[9] = '3';
    file[26] = '3';
    CHECK(tk_read_pam(file, length, picture, 24).refusal == 14);
}

/* A decoding of a source. Of the tile it takes five numbers: each up to its limit, and no further; the others may hold anything. */
static void check_linear_limits(void) {
    static const uint32_t most[12] = {[0] = 7, [1] = 3, [2] = 15, [10] = TK_SIDE_MOST, [11] = TK_SIDE_MOST};
    for (size_t i = 0; i < 12; i++) {
        tk_tile full = with(plain_tile(), i, most[i]), past = with(plain_tile(), i, most[i] + 1),
                far = with(plain_tile(), i, UINT32_MAX);
        uint32_t taken = i < 2 ? 5 : 0, refusal = most[i] == 0 ? 0 : 2; /* fmt 7, and I of siz 3, are no accepted pairs */
        CHECK(tk_decode_linear_of(&full, source, sizeof source, 4, picture, sizeof picture).refusal == taken);
        CHECK(tk_decode_linear_of(&past, source, sizeof source, 4, picture, sizeof picture).refusal == refusal);
        CHECK(tk_decode_linear_of(&far, source, sizeof source, 4, picture, sizeof picture).refusal == refusal);
    }
    tk_tile tile = plain_tile(), bad_tile = with(tile, 2, 16), bad_pair = with(with(tile, 0, 2), 1, 3);
    static const uint32_t bad_strides[] = {65536, UINT32_MAX};
    CHECK(tk_decode_linear_of(&tile, part, TK_SOURCE_MOST, 65535, picture, 24).refusal == 0);
    CHECK(tk_decode_linear_of(&tile, part, TK_SOURCE_MOST + 1, 4, picture, 24).refusal == 4);
    CHECK(tk_decode_linear_of(&tile, part, 8, 4, picture, 23).refusal == 6);
    for (size_t i = 0; i < 2; i++) {
        CHECK(tk_decode_linear_of(&tile, part, 8, bad_strides[i], picture, 24).refusal == 4);
        CHECK(tk_decode_linear_of(&bad_tile, part, 8, bad_strides[i], picture, 24).refusal == 2);
        CHECK(tk_decode_linear_of(&bad_pair, part, 8, bad_strides[i], picture, 24).refusal == 4);
    }
    CHECK(tk_decode_linear_of(&bad_pair, part, 8, 4, picture, 23).refusal == 5);
}

/* Whether a decoding of the source's first bytes, 12 bytes a row, answers so many reads, and these bytes stand in front of the picture,
 * and no others were changed. */
static int decoded(uint32_t fmt, uint32_t siz, size_t length, uint32_t reads, const uint8_t *texels, size_t texel_bytes) {
    uint32_t width = (uint32_t)texel_bytes / 8;
    memset(picture, 9, sizeof picture);
    tk_answer answer = tk_decode_linear(source, length, fmt, siz, 5, width, 2, 12, picture, sizeof picture);
    return answer.refusal == 0 && answer.count == reads && memcmp(picture, texels, texel_bytes) == 0 &&
           picture[texel_bytes] == 9 && picture[sizeof picture - 1] == 9;
}

/* What a decoding answers and leaves: two rows of the source, the second cut short. */
static void check_linear_answers(void) {
    static const uint8_t rgba32[] = {18, 52, 86, 120, 154, 188, 0, 0},
                         ci8[] = {18, 18, 18, 18, 52, 52, 52, 52, 154, 154, 154, 154, 188, 188, 188, 188};
    static const uint8_t rgba16[] = {16, 66, 214, 0, 156, 82, 247, 0}, ia16[] = {18, 18, 18, 52, 154, 154, 154, 188};
    static const uint8_t ci4[] = {81, 81, 81, 81, 82, 82, 82, 82, 83, 83, 83, 83,
                                  89, 89, 89, 89, 90, 90, 90, 90, 91, 91, 91, 91};
    static const uint8_t ia4[] = {0, 0, 0, 255, 36, 36, 36, 0, 146, 146, 146, 255, 182, 182, 182, 0};
    static const uint8_t i4[] = {17, 17, 17, 17, 34, 34, 34, 34, 153, 153, 153, 153, 170, 170, 170, 170};
    static const uint8_t ia8[] = {17, 17, 17, 34, 153, 153, 153, 170};
    static const uint8_t ci16[] = {18, 52, 18, 52, 86, 120, 86, 120, 154, 188, 154, 188, 0, 0, 0, 0};
    memset(source, 7, sizeof source);
    memcpy(source, "\x12\x34\x56\x78", 4);
    memcpy(source + 12, "\x9a\xbc", 2);
    CHECK(decoded(0, 3, 14, 8, rgba32, sizeof rgba32));
    CHECK(decoded(0, 2, 14, 4, rgba16, sizeof rgba16));
    CHECK(decoded(2, 0, 14, 6, ci4, sizeof ci4));
    CHECK(decoded(2, 1, 14, 4, ci8, sizeof ci8));
    CHECK(decoded(2, 2, 14, 8, ci16, sizeof ci16));
    CHECK(decoded(3, 0, 14, 4, ia4, sizeof ia4));
    CHECK(decoded(3, 1, 14, 2, ia8, sizeof ia8));
    CHECK(decoded(3, 2, 14, 4, ia16, sizeof ia16));
    CHECK(decoded(4, 0, 14, 4, i4, sizeof i4));
    CHECK(decoded(4, 1, 14, 4, ci8, sizeof ci8)); /* the intensity in all channels, as the index */
    tk_answer answer = tk_decode_linear(source, 14, 2, 3, 5, 1, 2, 12, picture, sizeof picture);
    CHECK(answer.refusal == 5 && answer.count == 0 && picture[0] == 18 && picture[16] == 9);
}

/* What the pictures answer and leave on success, of a bank whose bytes are their addresses. */
static void check_picture_answers(const tk_tile *tile) {
    /* Row 0 reads 16, 17, 18; row 1 reads 24 to 26 with bit 4 the other way round: 28, 29, 30. */
    static const uint8_t texels[] = {16, 16, 16, 16, 17, 17, 17, 17, 18, 18, 18, 18,
                                     28, 28, 28, 28, 29, 29, 29, 29, 30, 30, 30, 30};
    static const uint8_t reads[] = {0, 16, 0, 17, 0, 18, 0, 28, 0, 29, 0, 30};
    tk_answer answer = tk_sample_tile_of(bank, tile, 0, picture, sizeof picture);
    CHECK(answer.refusal == 0 && answer.count == 6 && memcmp(picture, texels, sizeof texels) == 0);
    memset(picture, 0, sizeof picture);
    answer = tk_sample_tile_observed_of(bank, tile, 0, picture, sizeof picture, trail, sizeof trail);
    CHECK(answer.refusal == 0 && answer.count == 6 && memcmp(picture, texels, sizeof texels) == 0);
    CHECK(memcmp(trail, reads, sizeof reads) == 0);

    answer = tk_sampling_lookup_of(bank, tile, 0, picture, sizeof picture);
    CHECK(answer.refusal == 0 && answer.count == TK_LOOKUP_TEXELS && picture[0] == 16 && picture[4 * 8192] == 20);
    memset(picture, 0, sizeof picture);
    answer = tk_sampling_lookup_observed_of(bank, tile, 0, picture, sizeof picture, trail, sizeof trail);
    CHECK(answer.refusal == 0 && answer.count == TK_LOOKUP_TEXELS && picture[0] == 16 && picture[4 * 8192] == 20);
    CHECK(trail[1] == 16 && trail[2 * 8192 + 1] == 20);
}

/* The reason that is answered where two addresses have one: 5 and 255. */
static uint32_t rejection_at(const tk_tile *tile, uint32_t five, uint32_t other) {
    memset(reasons, 0, sizeof reasons);
    reasons[other] = TK_REASON_MOST;
    reasons[five] = 5;
    tk_reason_answer answer = tk_rejection_of(tile, reasons);
    CHECK(answer.refusal == 0);
    return answer.reason;
}

/* The tile reaches 16, 17, 18, then 28, 29, 30. With a palette, of sixteen 4-bit indices from 24 on, entries follow: palette 1 is the
 * 128 bytes from 2,176 on; with 8-bit ones the whole upper half. */
static void check_rejections(const tk_tile *tile) {
    CHECK(rejection_at(tile, 19, 31) == 0 && rejection_at(tile, 30, 19) == 5 && rejection_at(tile, 19, 30) == 255);
    CHECK(rejection_at(tile, 18, 28) == 5 && rejection_at(tile, 28, 18) == 255 && rejection_at(tile, 4095, 2176) == 0);
    tk_tile wide = with(with(with(*tile, 3, 2), 1, 0), 10, 16), bytes = with(wide, 1, 1);
    CHECK(rejection_at(&wide, 2175, 2304) == 0 && rejection_at(&wide, 2303, 2304) == 5);
    CHECK(rejection_at(&wide, 2176, 2303) == 5 && rejection_at(&wide, 2303, 2176) == 255);
    CHECK(rejection_at(&wide, 2176, 24) == 255 && rejection_at(&wide, 24, 28) == 255);
    CHECK(rejection_at(&bytes, 4095, 2047) == 5 && rejection_at(&bytes, 4095, 2048) == 255);
}

/* Whether a check of a key with another byte at an address answers a no, that address and what is wrong there. The byte is put back. */
static int found_at(const tk_tile *tile, uint32_t address, uint8_t byte, uint32_t wrong) {
    uint8_t right = key[address];
    key[address] = byte;
    tk_check_answer answer = tk_check_key_of(bank, tile, 0, key);
    key[address] = right;
    return answer.refusal == 0 && answer.yes == 0 && answer.address == address && answer.wrong == wrong;
}

/* The key keeps 16, 17, 18, 28, 29, 30, each with its own number. A zero is missing where the bank has another byte, and at a kept zero
 * nothing is; bytes are left over beside and behind. Of two wrong ones the lower is named. The lane is the one that the key was cut by. */
static void check_checks(const tk_tile *tile) {
    CHECK(tk_key_of(bank, tile, 0, key).refusal == 0);
    tk_check_answer right = tk_check_key_of(bank, tile, 0, key);
    CHECK(right.refusal == 0 && right.yes == 1 && right.address == 0 && right.wrong == TK_KEY_RIGHT);
    CHECK(found_at(tile, 16, 0, TK_KEY_MISSING) && found_at(tile, 30, 0, TK_KEY_MISSING));
    CHECK(found_at(tile, 16, 17, TK_KEY_ANOTHER_VALUE) && found_at(tile, 30, 255, TK_KEY_ANOTHER_VALUE));
    CHECK(found_at(tile, 0, 1, TK_KEY_LEFT_OVER) && found_at(tile, 31, 31, TK_KEY_LEFT_OVER));
    CHECK(found_at(tile, 4095, 255, TK_KEY_LEFT_OVER));
    bank[29] = key[29] = 0;
    CHECK(tk_check_key_of(bank, tile, 0, key).yes == 1 && found_at(tile, 29, 29, TK_KEY_ANOTHER_VALUE));
    bank[29] = 29;
    CHECK(found_at(tile, 28, 1, TK_KEY_ANOTHER_VALUE)); /* 29 is missing */
    tk_tile indexed = with(with(*tile, 3, 2), 1, 0);
    for (uint32_t lane = 0; lane < 4; lane++) {
        CHECK(tk_key_of(bank, &indexed, lane, key).refusal == 0);
        for (uint32_t other = 0; other < 4; other++) {
            CHECK(tk_check_key_of(bank, &indexed, other, key).yes == (lane == other));
        }
    }
}

/* What each entry but the loads and the replay answers and leaves on success. */
static void check_answers(void) {
    tk_tile tile = plain_tile();
    for (uint32_t i = 0; i < TK_BANK_BYTES; i++) bank[i] = (uint8_t)i;
    memset(written, 0, sizeof written);
    check_picture_answers(&tile);

    tk_sampling_answer sampling = tk_sampling_of(&tile);
    CHECK(sampling.refusal == 0 && sampling.flag == 0 && sampling.width == 3 && sampling.height == 2);
    tk_tile repeating = with(with(tile, 4, 0), 6, 15);
    sampling = tk_sampling_of(&repeating);
    CHECK(sampling.refusal == 0 && sampling.flag == 1 && sampling.width == 4096 && sampling.height == 4);

    CHECK(tk_reach_of(&tile, map) == 0 && tk_is_marked(map, 16) && tk_is_marked(map, 30) && !tk_is_marked(map, 19));
    tk_yes_answer yes = tk_tile_has_load_of(&tile, written);
    CHECK(yes.refusal == 0 && yes.yes == 0);
    /* Address 30 is reached, and 31 is not; either byte of a number counts. */
    for (size_t i = 60; i < 64; i++) {
        memset(written, 0, sizeof written);
        written[i] = 1;
        yes = tk_tile_has_load_of(&tile, written);
        CHECK(yes.refusal == 0 && yes.yes == (i < 62));
    }

    check_rejections(&tile);

    tk_answer answer = tk_key_of(bank, &tile, 0, key);
    CHECK(answer.refusal == 0 && answer.count == 6 && key[16] == 16 && key[30] == 30 && key[19] == 0 && key[4095] == 0);
    /* The tile clamps. With cms 0 it repeats every two columns, with cmt 0 and a third row every two rows. */
    tk_tile across = with(tile, 4, 0), down = with(with(tile, 5, 0), 11, 3);
    answer = tk_key_of(bank, &across, 0, key);
    CHECK(answer.refusal == 0 && answer.count == 4 && key[17] == 17 && key[29] == 29 && key[18] == 0 && key[30] == 0);
    answer = tk_key_of(bank, &down, 0, key);
    CHECK(answer.refusal == 0 && answer.count == 6 && key[18] == 18 && key[30] == 30 && key[32] == 0);

    check_checks(&tile);

    CHECK(tk_palette_nonreplicated_of(bank, lanes) == 0 && lanes[0] == 255 && lanes[31] == 255);
}

/* Whether a load is not refused, and answers so many stores, so many of them made up, and a number. */
static int loaded(tk_load_answer answer, uint32_t count, uint32_t made_up, uint32_t number) {
    return answer.refusal == 0 && answer.count == count && answer.made_up == made_up && answer.number == number;
}

/* Whether a number stands at the addresses from one up to another, and another number at both sides of them. */
static int written_from(uint32_t from, uint32_t to, uint32_t number) {
    int all = tk_written_by(written, to) != number && (from == 0 || tk_written_by(written, from - 1) != number);
    for (uint32_t a = from; a < to; a++) all = all && tk_written_by(written, a) == number;
    return all;
}

/* Whether a reason stands at the addresses from one up to another, and another at both sides of them. */
static int reasoned_from(uint32_t from, uint32_t to, uint8_t reason) {
    int all = reasons[to] != reason && reasons[from - 1] != reason;
    for (uint32_t a = from; a < to; a++) all = all && reasons[a] == reason;
    return all;
}

/* What the loads answer and leave: a word of eight bytes at address 16; then one in row 1; then palette entries. Before, every address
 * has the reason 77. */
static void check_load_answers(void) {
    tk_tile load = {0, 2, 0, 0, 0, 0, 0, 0, 1, 2, 0, 0};
    memset(written, 0, sizeof written);
    memset(reasons, 77, sizeof reasons);
    for (uint32_t i = 0; i < sizeof source; i++) source[i] = (uint8_t)(100 + i);
    CHECK(loaded(tk_load_block_of(bank, written, reasons, source, sizeof source, &load, 2, 0, 1, 0), 8, 0, 1));
    CHECK(bank[16] == 100 && bank[23] == 107 && written_from(16, 24, 1) && written[33] == 1 && reasoned_from(16, 24, 0));
    CHECK(loaded(tk_load_tile_of(bank, written, reasons, source, sizeof source, &load, 2, 2, 1, 16, 1), 16, 0, 2));
    CHECK(bank[16] == 100 && bank[28] == 116 && written_from(16, 32, 2) && reasoned_from(16, 32, 0));
    CHECK(loaded(tk_load_tlut_rows_of(bank, written, reasons, source, sizeof source, &load, 0, 2, 2, 16, 255), 32, 0, 256));
    CHECK(bank[16] == 100 && bank[24] == 102 && bank[48] == 116 && bank[56] == 118);
    CHECK(written_from(16, 32, 256) && written_from(48, 64, 256) && written[32] == 1 && written[33] == 0);
    CHECK(reasoned_from(16, 32, 0) && reasoned_from(48, 64, 0));

    /* The same with a source that is cut short. Each byte of a palette entry is stored four times. */
    CHECK(loaded(tk_load_block_of(bank, written, reasons, source, 5, &load, 2, 0, 1, 256), 8, 3, 257));
    CHECK(bank[20] == 104 && bank[21] == 0 && written_from(16, 24, 257) && written_from(24, 32, 256));
    CHECK(loaded(tk_load_tile_of(bank, written, reasons, source, 22, &load, 2, 2, 1, 16, 65533), 16, 2, 65534));
    CHECK(bank[25] == 121 && bank[26] == 0 && written_from(16, 32, 65534));
    CHECK(loaded(tk_load_tlut_rows_of(bank, written, reasons, source, 19, &load, 0, 2, 2, 16, 65534), 32, 4, 65535));
    CHECK(bank[62] == 118 && bank[63] == 0 && written_from(16, 32, 65535) && written_from(48, 64, 65535));
    CHECK(loaded(tk_load_tlut_hardware_of(bank, written, reasons, source, 3, &load, 2, 2, 1, 0, 7), 16, 4, 8));
    CHECK(bank[48] == 102 && bank[49] == 0 && written_from(16, 24, 8) && written_from(48, 56, 8));
    CHECK(tk_written_by(written, TK_BANK_BYTES) == 0 && tk_written_by(written, UINT32_MAX) == 0);

    /* Rejected they store, count and number alike, and leave their reason. */
    CHECK(loaded(tk_reject_block_of(bank, written, reasons, source, 5, &load, 2, 0, 1, 1, 256), 8, 3, 257));
    CHECK(bank[16] == 100 && bank[20] == 104 && bank[21] == 0 && written_from(16, 24, 257) && reasoned_from(16, 24, 1));
    CHECK(loaded(tk_reject_tile_of(bank, written, reasons, source, 22, &load, 2, 2, 1, 16, 255, 65533), 16, 2, 65534));
    CHECK(bank[28] == 116 && bank[25] == 121 && bank[26] == 0 && written_from(16, 32, 65534));
    CHECK(reasoned_from(16, 32, 255) && reasons[48] == 0 && reasons[64] == 77);
    CHECK(loaded(tk_reject_tlut_rows_of(bank, written, reasons, source, 19, &load, 0, 2, 2, 16, 128, 65534), 32, 4, 65535));
    CHECK(bank[62] == 118 && bank[63] == 0 && written_from(16, 32, 65535) && written_from(48, 64, 65535));
    CHECK(reasoned_from(16, 32, 128) && reasoned_from(48, 64, 128));
    CHECK(answers(tk_reject_tlut_rows_of(bank, written, reasons, source, 19, &load, 0, 2, 2, 16, 256, 7), 19, 7));
    CHECK(reasoned_from(16, 32, 128) && written_from(16, 32, 65535));
    CHECK(loaded(tk_reject_tlut_hardware_of(bank, written, reasons, source, 3, &load, 2, 2, 1, 0, 9, 7), 16, 4, 8));
    CHECK(bank[48] == 102 && bank[49] == 0 && written_from(48, 56, 8) && reasoned_from(16, 24, 9) &&
          reasoned_from(48, 56, 9));
}

/* Nine entries in one row, which both palette loads take. By rows they stand 8 bytes apart, whatever the image's size is. The hardware
 * stores one entry a step: of size 2 all nine, of size 1 the first and the ninth, of size 3 every second one. For siz 2 they stand 64,
 * 32 and 16 bytes apart for sizes 1, 2 and 3. Each source ends behind the first byte of the last entry. */
static void check_palette_answers(int is_rejected) {
    static const uint32_t steps[] = {2, 9, 5}, advances[] = {8, 2, 8};
    uint8_t reason = is_rejected ? 7 : 0;
    memory m = whole;
    for (uint32_t size = 1; size <= 3; size++) {
        uint32_t stored = steps[size - 1], advance = advances[size - 1], n[NUMBERS] = {0, 2, 1, 2, size, 9, 1, 5, 7, 4};
        memset(written, 0, sizeof written);
        memset(reasons, 77, sizeof reasons);
        m.source_length = (stored - 1) * advance + 1;
        CHECK(loaded(load(m, TLUT_HARDWARE, is_rejected, n), 8 * stored, 4, 5));
        for (uint32_t i = 0; i < stored; i++) {
            uint32_t at = 16 + i * (128u >> size), second = i + 1 < stored ? 101 + i * advance : 0;
            CHECK(bank[at] == 100 + i * advance && bank[at + 7] == second);
            CHECK(written_from(at, at + 8, 5) && reasoned_from(at, at + 8, reason));
        }
        m.source_length = 17;
        n[LAST] = 5;
        CHECK(loaded(load(m, TLUT_ROWS, is_rejected, n), 72, 4, 6));
        CHECK(bank[16] == 100 && bank[24] == 102 && bank[80] == 116 && bank[81] == 0 && bank[87] == 0);
        CHECK(written_from(16, 88, 6) && reasoned_from(16, 88, reason));
    }
}

/* Whether a record is not refused, and answers a count and a number. */
static int replayed(tk_replay_answer answer, uint32_t count, uint32_t number) {
    return answer.refusal == 0 && answer.count == count && answer.number == number;
}

/* The same loads by records, with sources at offsets of the companion, of palettes one by rows and one step by step; and keys of two
 * tiles of check_answers. */
static void check_replay(void) {
    static const uint8_t block[TK_RECORD_BYTES] = {[0] = 0, [3] = 2, [11] = 1, [13] = 2, [19] = 2, [23] = 1, [37] = 8};
    static const uint8_t tile[TK_RECORD_BYTES] = {
        [0] = 1, [3] = 2, [11] = 1, [13] = 2, [19] = 2, [23] = 1, [25] = 2, [29] = 16, [33] = 1, [37] = 20};
    static const uint8_t tlut_rows[TK_RECORD_BYTES] = {
        [0] = 2, [3] = 2, [11] = 1, [13] = 2, [19] = 0, [25] = 2, [27] = 2, [29] = 16, [33] = 2, [37] = 20};
    static const uint8_t tlut_hardware[TK_RECORD_BYTES] = {
        [0] = 2, [3] = 2, [11] = 1, [13] = 2, [19] = 2, [25] = 1, [27] = 2, [29] = 16, [33] = 3, [37] = 20};
    static const uint8_t key_of_tile[TK_RECORD_BYTES] = {3, 0, 4, 1, 1, 1, 2, 2, 1, 1, 0, 1, 0, 2, 0, 3, 0, 2};
    static const uint8_t key_of_repeating[TK_RECORD_BYTES] = {3, 0, 4, 1, 1, 1, 0, 2, 1, 1, 0, 1, 0, 2, 0, 3, 0, 2};
    memset(bank, 0, sizeof bank);
    memset(written, 0, sizeof written);
    memset(reasons, 77, sizeof reasons);
    CHECK(replayed(tk_replay_record_of(bank, written, reasons, block, sizeof source, source, sizeof source, 0), 8, 1));
    CHECK(bank[16] == 100 && bank[23] == 107 && bank[24] == 0 && written_from(16, 24, 1) && reasoned_from(16, 24, 0));
    CHECK(replayed(tk_replay_record_of(bank, written, reasons, tile, sizeof source, source + 1, sizeof source - 1, 1), 16,
                   2));
    CHECK(bank[16] == 101 && bank[28] == 117 && written_from(16, 32, 2));
    CHECK(bank[31] == 120 && bank[24] == 0); /* the source ends inside the second row */
    CHECK(replayed(
        tk_replay_record_of(bank, written, reasons, tlut_rows, sizeof source, source + 2, sizeof source - 2, 65534), 32,
        65535));
    CHECK(bank[16] == 102 && bank[24] == 104 && bank[48] == 118 && bank[56] == 120);
    CHECK(written_from(16, 32, 65535) && written_from(48, 64, 65535));
    CHECK(reasoned_from(16, 32, 0) && reasoned_from(48, 64, 0));
    CHECK(replayed(
        tk_replay_record_of(bank, written, reasons, tlut_hardware, sizeof source, source + 3, sizeof source - 3, 7), 16,
        8));
    CHECK(bank[16] == 103 && bank[48] == 105 && written_from(16, 24, 8) && written_from(48, 56, 8));
    uint8_t before[TK_BANK_BYTES];
    memcpy(before, bank, sizeof bank);
    CHECK(replayed(tk_replay_record_of(bank, written, reasons, key_of_tile, 0, NULL, 0, 65535), 6, 65535));
    CHECK(replayed(tk_replay_record_of(bank, written, reasons, key_of_repeating, 0, NULL, 0, UINT32_MAX), 4, UINT32_MAX));
    CHECK(memcmp(before, bank, sizeof bank) == 0 && written_from(24, 32, 65535) && reasoned_from(16, 32, 0));
}

/* The count is taken up to its limit and refused past it, whatever the lengths are; each length must be the right one. */
static void check_split_lengths(void) {
    size_t most = TK_ENTRIES_MOST * TK_ENTRY_BYTES;
    CHECK(tk_split(TK_ENTRIES_MOST, entries, most, sides, TK_ENTRIES_MOST).refusal == 0);
    CHECK(tk_split(TK_ENTRIES_MOST + 1, entries, sizeof entries, sides, sizeof sides).refusal == 16);
    CHECK(tk_split(UINT32_MAX, entries, most, sides, TK_ENTRIES_MOST).refusal == 16);
    CHECK(tk_split(UINT32_MAX, NULL, 0, NULL, 0).refusal == 16);
    for (size_t off = 0; off < 2; off++) {
        CHECK(tk_split(3, entries, 3 * TK_ENTRY_BYTES - 1 + 2 * off, sides, 3).refusal == 17);
        CHECK(tk_split(3, entries, 3 * TK_ENTRY_BYTES, sides, 2 + 2 * off).refusal == 17);
        CHECK(tk_split((uint32_t)(2 + 2 * off), entries, 3 * TK_ENTRY_BYTES, sides, 3).refusal == 17);
    }
}

/* What a split answers and leaves: six entries of five groups, and then their front. Tiles, lanes and keys are told apart, and
 * capture numbers are not. */
static void check_split_answers(void) {
    static const uint8_t due[] = {0, 0, 0, 0, 1, 1, 7}, front[] = {0, 0, 0, 0, 7};
    tk_tile tile = plain_tile(), last = with(tile, 11, 257);
    memset(key, 3, sizeof key);
    tk_put_entry(entries, 0, &tile, 0, key);
    tk_put_entry(entries + TK_ENTRY_BYTES, 1, &tile, 1, key);
    tk_put_entry(entries + 3 * TK_ENTRY_BYTES, 3, &last, 1, key);
    key[TK_BANK_BYTES - 1] = 4;
    tk_put_entry(entries + 2 * TK_ENTRY_BYTES, 2, &tile, 1, key);
    tk_put_entry(entries + 4 * TK_ENTRY_BYTES, 0x01020304, &last, 1, key);
    tk_put_entry(entries + 5 * TK_ENTRY_BYTES, 5, &last, 1, key);
    static const uint8_t head[] = {1, 2, 3, 4, 4, 1, 1, 1, 2, 2, 1, 1, 0, 1, 0, 2, 0, 3, 1, 1, 1, 3};
    CHECK(memcmp(entries + 4 * TK_ENTRY_BYTES, head, sizeof head) == 0 && entries[5 * TK_ENTRY_BYTES - 1] == 4);

    memset(sides, 7, sizeof sides);
    tk_split_answer answer = tk_split_of(6, entries, sides);
    CHECK(answer.refusal == 0 && answer.tuning == 4 && answer.held_out == 2 && memcmp(sides, due, sizeof due) == 0);
    memset(sides, 7, sizeof sides);
    answer = tk_split_of(4, entries, sides);
    CHECK(answer.refusal == 0 && answer.tuning == 4 && answer.held_out == 0 && memcmp(sides, front, sizeof front) == 0);
    answer = tk_split(6, entries, 6 * TK_ENTRY_BYTES - 1, sides, 6);
    CHECK(answer.refusal == 17 && answer.tuning == 0 && answer.held_out == 0 && memcmp(sides, front, sizeof front) == 0);
}

/* The library is of the header's version, and the one number is made of the three. */
static void check_version(void) {
    CHECK(tk_version() == TK_VERSION);
    CHECK(TK_VERSION / 1000000 == TK_VERSION_MAJOR);
    CHECK(TK_VERSION / 1000 % 1000 == TK_VERSION_MINOR);
    CHECK(TK_VERSION % 1000 == TK_VERSION_PATCH);
}

/* Every number that a call can answer has words of its own; 9 and the numbers past the last have none. */
static void check_refusal_texts(void) {
    const char *unnamed = tk_refusal_text(UINT32_MAX);
    for (uint32_t n = 0; n <= TK_REFUSED_REASON; n++) {
        for (uint32_t m = 0; m < n; m++) CHECK(strcmp(tk_refusal_text(n), tk_refusal_text(m)) != 0);
        CHECK((strcmp(tk_refusal_text(n), unnamed) == 0) == (n == 9));
    }
    CHECK(strcmp(tk_refusal_text(TK_REFUSED_REASON + 1), unnamed) == 0);
}

/* The largest picture with its trail: 64 and 128 MiB. The macros take expressions, and multiply as size_t. */
static void check_sizes(void) {
    CHECK(TK_PICTURE_BYTES(TK_SIDE_MOST, TK_SIDE_MOST) == 64 << 20);
    CHECK(TK_TRAIL_BYTES(TK_SIDE_MOST, TK_SIDE_MOST) == 128 << 20);
    CHECK(TK_PICTURE_BYTES(1 + 2, 4 + 1) == 60);
    CHECK(TK_TRAIL_BYTES(1 + 2, 4 + 1) == 120);
    CHECK(TK_PICTURE_BYTES((uint32_t)65536, (uint32_t)65536) == (size_t)1 << 34);
    CHECK(TK_PICTURE_BYTES(4096, 4) == 4 * TK_LOOKUP_TEXELS);
}

/* What is allocated: the tile's sides, at least 1, or 4,096 by 4 for a lookup. */
static void check_extents(void) {
    tk_tile tile = plain_tile(), empty = with(with(tile, 10, 0), 11, 0), lookup = with(with(tile, 4, 0), 6, 5);
    tk_sampling_answer plain = tk_sampling_of(&tile), none = tk_sampling_of(&empty), whole_bank = tk_sampling_of(&lookup);
    CHECK(plain.flag == 0 && plain.width == 3 && plain.height == 2);
    CHECK(none.flag == 0 && none.width == 1 && none.height == 1);
    CHECK(whole_bank.flag == 1 && whole_bank.width == 4096 && whole_bank.height == 4);
}

/* Stores, none of a byte of the source. */
static int all_made_up(tk_load_answer answer) { return answer.count > 0 && answer.made_up == answer.count; }

/* An empty buffer may be null. */
static void check_null(void) {
    tk_tile tile = with(plain_tile(), 10, 0);
    const tk_tile *t = &tile;
    memory without_source = whole, nothing_lent = {0};
    without_source.source = NULL;
    without_source.source_length = 0;
    for (int kind = 0; kind < LOADS; kind++) {
        for (int is_rejected = 0; is_rejected < 2; is_rejected++) {
            CHECK(all_made_up(load(without_source, kind, is_rejected, usual[kind])));
            CHECK(load(nothing_lent, kind, is_rejected, usual[kind]).refusal == 1);
        }
    }
    CHECK(tk_sample_tile_of(bank, t, 0, NULL, 0).refusal == 0);
    CHECK(tk_sample_tile_observed_of(bank, t, 0, NULL, 0, NULL, 0).refusal == 0);
    CHECK(tk_sampling_lookup_of(bank, t, 0, NULL, 0).refusal == 6);
    CHECK(tk_sampling_lookup_observed_of(bank, t, 0, picture, sizeof picture, NULL, 0).refusal == 7);
    CHECK(tk_decode_linear_of(t, NULL, 0, 0, NULL, 0).refusal == 0);
    CHECK(tk_decode_linear(NULL, 0, 4, 1, 0, 1, 1, 0, NULL, 0).refusal == 6);
    CHECK(tk_decode_linear(NULL, 0, 4, 1, 0, 1, 1, 0, picture, 4).count == 1 && picture[0] == 0 && picture[3] == 0);
    CHECK(tk_write_pam(1, 1, NULL, 0, NULL, 0).refusal == 6);
    CHECK(tk_read_pam(NULL, 0, NULL, 0).refusal == 13);
    tk_split_answer nothing = tk_split(0, NULL, 0, NULL, 0);
    CHECK(nothing.refusal == 0 && nothing.tuning == 0 && nothing.held_out == 0);
    CHECK(tk_split(1, NULL, 0, NULL, 0).refusal == 17);
    CHECK(tk_reach(TK_TILE_ARGUMENTS(t), NULL, 0) == 1);
    CHECK(tk_tile_has_load(TK_TILE_ARGUMENTS(t), NULL, 0).refusal == 1);
    CHECK(tk_rejection(TK_TILE_ARGUMENTS(t), NULL, 0).refusal == 1);
    CHECK(tk_palette_nonreplicated(NULL, 0, NULL, 0) == 1);
    CHECK(tk_key(NULL, 0, TK_TILE_ARGUMENTS(t), 0, NULL, 0).refusal == 1);
    CHECK(tk_check_key(NULL, 0, TK_TILE_ARGUMENTS(t), 0, NULL, 0).refusal == 1);
    static const uint8_t empty_block[TK_RECORD_BYTES];
    CHECK(tk_replay_record_of(bank, written, reasons, empty_block, 0, NULL, 0, 0).refusal == 0);
    CHECK(tk_replay_record(bank, 4096, written, 8192, reasons, 4096, NULL, 0, 0, NULL, 0, 0).refusal == 8);
    CHECK(tk_replay_record(NULL, 0, NULL, 0, NULL, 0, NULL, 0, 0, NULL, 0, 0).refusal == 1);
}

int main(void) {
    check_the_twelve();
    check_loads();
    check_lengths();
    check_linear_limits();
    check_linear_answers();
    check_sides();
    check_files();
    check_fields();
    check_record();
    check_answers();
    check_load_answers();
    check_palette_answers(0);
    check_palette_answers(1);
    check_replay();
    check_split_lengths();
    check_split_answers();
    check_version();
    check_refusal_texts();
    check_sizes();
    check_extents();
    check_null();
    return wrong;
}
