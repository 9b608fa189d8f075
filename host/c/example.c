/* An example: load a block, make a picture of it, decode the same source without a bank, write the picture as a file and read it
 * back, cut the picture's key, and print the bytes that the key keeps. Then check some keys that another program might have made.
 * Then load one word anew, and print which load each byte that the picture reads came from. Then do a load whose source was
 * rejected, and ask which tiles touch it. Then load a palette in each of the two ways. Then replay a capture of the first load and
 * the key, and split six captures of the tile. */

#include <inttypes.h>
#include <stdio.h>
#include <string.h>

#include "tulonkasa.h"

/* Says what was refused, and gives back whether anything was. */
static int refused(const char *what, uint32_t refusal) {
    if (refusal != TK_DONE) fprintf(stderr, "%s: refusal %" PRIu32 ": %s\n", what, refusal, tk_refusal_text(refusal));
    return refusal != TK_DONE;
}

static void print_load(tk_load_answer loaded) {
    printf("load %" PRIu32 ": stores: %" PRIu32 ", made up: %" PRIu32 "\n", loaded.number, loaded.count, loaded.made_up);
}

/* Prints what a check says of an offered key. */
static void print_check(const char *offer, tk_check_answer checked) {
    static const char *const kinds[] = {"right", "missing", "left over", "another value"};
    printf("%s: %s", offer, kinds[checked.wrong]);
    if (!checked.yes) printf(" at %" PRIu32, checked.address);
    printf("\n");
}

int main(void) {
    static uint8_t bank[TK_BANK_BYTES], written[TK_WRITTEN_BYTES], reasons[TK_REASON_BYTES];
    static uint8_t key[TK_BANK_BYTES], picture[TK_PICTURE_BYTES(4, 2)], straight[sizeof picture];
    static uint8_t file[TK_PAM_HEADER_MOST + sizeof picture], again[sizeof file];

    /* Two rows of four texels of 16 bits: red, green, magenta and white, then the same backwards. */
    static const uint8_t source[] = {0xf8, 0x01, 0x07, 0xc1, 0xf8, 0x3f, 0xff, 0xff,
                                     0xff, 0xff, 0xf8, 0x3f, 0x07, 0xc1, 0xf8, 0x01};

    tk_tile tile = {0};
    tile.siz = 2;  /* fmt 0 and siz 2: red, green, blue of five bits each, and alpha of one */
    tile.line = 1; /* a row is one word of eight bytes */
    tile.width = 4;
    tile.height = 2;

    tk_tile load = tile;
    load.line = 0; /* a block load steps through memory on its own */

    /* Two words; a dxt of 2,048 begins a new row at each. No load was before this one, so the last number is 0. */
    tk_load_answer loaded = tk_load_block_of(bank, written, reasons, source, sizeof source, &load, 2, 2048, 2, 0);
    if (refused("load", loaded.refusal)) return 1;
    print_load(loaded); /* the source is whole, so nothing is made up */

    tk_answer made = tk_sample_tile_of(bank, &tile, 0, picture, sizeof picture);
    if (refused("picture", made.refusal)) return 1;
    printf("reads: %" PRIu32 "\n", made.count);
    for (uint32_t y = 0; y < tile.height; y++) {
        for (uint32_t x = 0; x < tile.width; x++) {
            const uint8_t *texel = picture + 4 * (y * tile.width + x);
            printf("%s%02x%02x%02x%02x", x == 0 ? "" : " ", texel[0], texel[1], texel[2], texel[3]);
        }
        printf("\n");
    }

    /* The same picture straight from the source, whose rows are eight bytes apart: what went in has come out. */
    tk_answer decoded = tk_decode_linear_of(&tile, source, sizeof source, 8, straight, sizeof straight);
    if (refused("decoding", decoded.refusal)) return 1;
    int same = memcmp(straight, picture, sizeof picture) == 0;
    printf("straight from the source: reads: %" PRIu32 ", %s texels\n", decoded.count, same ? "the same" : "other");

    /* A PAM file in memory: fwrite would put its first saved.count bytes on a disk. A reader need not know the size. */
    tk_answer saved = tk_write_pam_of(&tile, picture, sizeof picture, file, sizeof file);
    if (refused("writing", saved.refusal)) return 1;
    printf("file: %" PRIu32 " bytes\n", saved.count);
    tk_size_answer read = tk_read_pam(file, saved.count, again, sizeof again);
    if (refused("reading", read.refusal)) return 1;
    same = memcmp(again, picture, sizeof picture) == 0;
    printf("read back: %" PRIu32 " by %" PRIu32 ", %s texels\n", read.width, read.height, same ? "the same" : "other");

    tk_answer cut = tk_key_of(bank, &tile, 0, key);
    if (refused("key", cut.refusal)) return 1;
    printf("kept: %" PRIu32 "\n", cut.count);
    /* A kept byte may be zero, as the others are; here none is. */
    for (uint32_t a = 0; a < TK_BANK_BYTES; a++) {
        if (key[a] != 0) printf("%" PRIu32 ": %02x\n", a, key[a]);
    }

    /* Keys that another program might have made: the right one; one with a byte behind the picture; without the picture's last
     * byte as well; and with another value before it. The lowest wrong address is named. */
    tk_check_answer checked = tk_check_key_of(bank, &tile, 0, key);
    if (refused("check", checked.refusal)) return 1;
    print_check("key", checked);
    key[16] = 1;
    print_check("a byte more", tk_check_key_of(bank, &tile, 0, key));
    key[15] = 0;
    print_check("a byte less", tk_check_key_of(bank, &tile, 0, key));
    key[3] ^= 1;
    print_check("a bit changed", tk_check_key_of(bank, &tile, 0, key));

    /* The second row again, from a source that was cut short. The number of the load before is passed. */
    load.tmem_addr = 1;
    loaded = tk_load_block_of(bank, written, reasons, source, 6, &load, 2, 0, 1, loaded.number);
    if (refused("load", loaded.refusal)) return 1;
    print_load(loaded);

    /* Which load the bytes came from: a trail has two bytes for each read, high byte first. */
    static uint8_t trail[TK_TRAIL_BYTES(4, 2)];
    made = tk_sample_tile_observed_of(bank, &tile, 0, picture, sizeof picture, trail, sizeof trail);
    if (refused("picture", made.refusal)) return 1;
    printf("written by:");
    for (uint32_t i = 0; i < made.count; i++) {
        uint32_t address = (uint32_t)trail[2 * i] << 8 | trail[2 * i + 1];
        printf(" %" PRIu32, tk_written_by(written, address));
    }
    printf("\n");

    /* The second row once more, from a source that the capture rig rejected; 7 is why, by its own list. The tile of both rows
     * touches such bytes, one of the first row alone does not. */
    loaded = tk_reject_block_of(bank, written, reasons, source, 8, &load, 2, 0, 1, 7, loaded.number);
    if (refused("rejected load", loaded.refusal)) return 1;
    print_load(loaded);
    tk_tile first_row = tile;
    first_row.height = 1;
    tk_reason_answer both = tk_rejection_of(&tile, reasons), first = tk_rejection_of(&first_row, reasons);
    if (refused("rejection", both.refusal) || refused("rejection", first.refusal)) return 1;
    printf("rejected: both rows for reason %" PRIu32 ", the first row for %" PRIu32 "\n", both.reason, first.reason);

    /* A palette of two entries. In one row they are what the console's own load command takes. In two rows, eight source bytes apart,
     * they are not: the hardware call refuses them, and the row call is the one to use. */
    tk_tile palette = {0};
    palette.line = 1; /* entries of the second row stand 32 bytes behind those of the first */
    palette.tmem_addr = TK_PALETTE_BASE / 8;
    loaded = tk_load_tlut_hardware_of(bank, written, reasons, source, sizeof source, &palette, 2, 2, 1, 8, loaded.number);
    if (refused("palette", loaded.refusal)) return 1;
    print_load(loaded);
    loaded = tk_load_tlut_hardware_of(bank, written, reasons, source, sizeof source, &palette, 2, 1, 2, 8, loaded.number);
    printf("two rows by the hardware call: %s\n", tk_refusal_text(loaded.refusal));
    loaded = tk_load_tlut_rows_of(bank, written, reasons, source, sizeof source, &palette, 2, 1, 2, 8, loaded.number);
    if (refused("palette", loaded.refusal)) return 1;
    print_load(loaded);

    /* A capture whose companion file is the source above. The bytes that a record does not name here are 0. */
    static const uint8_t capture[2][TK_RECORD_BYTES] = {
        /* kind block, siz 2, image_siz 2, dxt 2,048, two words, a source of sixteen bytes at offset 0 */
        {[0] = 0, [3] = 2, [19] = 2, [20] = 2048 / 256, [23] = 2, [37] = sizeof source},
        /* kind key, siz 2, line 1, width 4, height 2 */
        {[0] = 3, [3] = 2, [11] = 1, [15] = 4, [17] = 2},
    };
    static uint8_t fresh_bank[TK_BANK_BYTES], fresh_record[TK_WRITTEN_BYTES], no_reasons[TK_REASON_BYTES];
    uint32_t last = 0;
    for (size_t i = 0; i < 2; i++) {
        tk_replay_answer done = tk_replay_record_of(fresh_bank, fresh_record, no_reasons, capture[i], sizeof source, source,
                                                    sizeof source, last);
        last = done.number;
        printf("replayed: %" PRIu32 " %" PRIu32 ", loads so far: %" PRIu32 "\n", done.refusal, done.count, last);
    }

    /* Captures 0 to 4 differ in the first texel. Capture 5 is the fifth again with another leftover byte, so its key is the same. */
    enum { CAPTURES = 6, LEFTOVER = 64 };
    static uint8_t entries[CAPTURES][TK_ENTRY_BYTES], sides[CAPTURES];
    for (uint8_t i = 0; i < CAPTURES; i++) {
        bank[0] = i < 5 ? i : 4;
        bank[LEFTOVER] = i;
        if (refused("key", tk_key_of(bank, &tile, 0, key).refusal)) return 1;
        tk_put_entry(entries[i], i, &tile, 0, key);
    }
    tk_split_answer split = tk_split_of(CAPTURES, entries[0], sides);
    if (refused("split", split.refusal)) return 1;
    printf("split: %" PRIu32 " tuning, %" PRIu32 " held out\n", split.tuning, split.held_out);
    for (size_t i = 0; i < CAPTURES; i++) printf("capture %zu: %s\n", i, sides[i] == 0 ? "tuning" : "held out");
    return 0;
}
