/* Every number of README's table "What is refused", met from C: each condition of its
   row is provoked, the answer is the number, and nothing that was lent is changed.

     refusals [--list]

   Prints how many answers it checked, with --list before that a line for each: the
   number and the words of its row that are tried, with ".." where some are left out.
   tests/test_refusals.py holds the list against the table.  The exit status is 0 where
   all were right.  Runs target/bin/seal, from the repository's folder. */

#define _DEFAULT_SOURCE

#include <stdio.h>
#include <string.h>
#include <sys/mman.h>

#include "simd.h"

enum { FILL = 0xa5, NUMBER = 77, RECORD = 3 * SIMD_BLOCK_LARGE };

/* All that is lent to a call, in one piece: a change anywhere shows. */
static struct room {
    uint8_t form[SIMD_HMAC_FORM_LARGE + 1], other[SIMD_HMAC_FORM_LARGE + 1];
    uint8_t message[RECORD], index[SIMD_INDEX(512, 8 * RECORD) + 1], made[SIMD_INDEX(512, 8 * RECORD)];
    uint8_t tape[128], out[2 * SIMD_ENTRY_MAX];
    uint32_t words[SIMD_WORDS_LARGE];
    uint64_t first, second;
} room, before;

/* A page that cannot be read, for lengths that no memory has. */
static const uint8_t *closed;

static const uint16_t WIDTHS[4] = {224, 256, 384, 512};

static unsigned compared, differ;
static bool listed;

static void check(int number, const char *words, int right, int line)
{
    compared++;
    if (listed)
        printf("%d %s\n", number, words);
    if (!right) {
        differ++;
        printf("  line %d: %d, %s\n", line, number, words);
    }
}

/* A call that has this answer and changes nothing, under the row of a number. */
#define ANSWERED(number, words, call, expected) \
    do { \
        uint8_t answer; \
        memcpy(&before, &room, sizeof room); \
        answer = (call); \
        check(number, words, answer == (expected) && memcmp(&before, &room, sizeof room) == 0, __LINE__); \
    } while (0)
#define REFUSED(number, words, call) ANSWERED(number, words, call, number)

static void fresh(void)
{
    memset(&room, FILL, sizeof room);
    room.first = room.second = NUMBER;
}

static void set_width(uint8_t *form, unsigned width)
{
    form[0] = (uint8_t)width;
    form[1] = (uint8_t)(width >> 8);
}

static void set_bits(uint8_t *form, uint64_t bits)
{
    for (int k = 0; k < 8; k++)
        form[2 + k] = (uint8_t)(bits >> 8 * k);
}

/* A stored form of so many bits, the tail all 0; its size. */
static size_t stored(uint8_t *form, uint16_t width, uint64_t bits)
{
    if (simd_open(width, form, SIMD_FORM(width)) != SIMD_ACCEPTED)
        check(0, "a form is opened", 0, __LINE__);
    set_bits(form, bits);
    return SIMD_FORM(width);
}

/* The same with 4 length bytes. */
static size_t old_stored(uint8_t *form, uint16_t width, uint64_t bits)
{
    size_t size = stored(form, width, bits);
    memmove(form + 6, form + SIMD_HEAD, size - SIMD_HEAD);
    return size - 4;
}

/* A keyed form; its size. */
static size_t keyed(uint8_t *form, uint16_t inner, uint64_t inner_bits, uint16_t outer, uint64_t outer_bits)
{
    size_t half = stored(form, inner, inner_bits);
    return half + stored(form + half, outer, outer_bits);
}

static size_t old_keyed(uint8_t *form, uint16_t width, uint64_t inner_bits, uint64_t outer_bits)
{
    size_t half = old_stored(form, width, inner_bits);
    return half + old_stored(form + half, width, outer_bits);
}

static uint64_t block_bits(uint16_t width)
{
    return 8 * (uint64_t)SIMD_BLOCK(width);
}

/* 1 */

static void widths(void)
{
    static const char row[] = "the width is none of 224, 256, 384, 512";
    static const uint16_t NONE[] = {0, 1, 160, 223, 225, 255, 257, 383, 385, 511, 513, 1024, 65535};
    struct room *r = &room;
    for (size_t k = 0; k < sizeof NONE / sizeof NONE[0]; k++) {
        uint16_t width = NONE[k];
        size_t size;
        fresh();
        REFUSED(SIMD_REFUSED_WIDTH, row, simd_open(width, r->form, sizeof r->form));
        REFUSED(SIMD_REFUSED_WIDTH, row, simd_hash(width, r->message, 3, 24, r->out, 64));
        REFUSED(SIMD_REFUSED_WIDTH, row, simd_hmac_open(width, r->message, 3, r->form, sizeof r->form));
        REFUSED(SIMD_REFUSED_WIDTH, row, simd_hmac(width, r->message, 3, r->message, 3, 24, r->out, 64));
        REFUSED(SIMD_REFUSED_WIDTH, row, simd_expand(width, false, r->message, 64, r->words, 256));
        REFUSED(SIMD_REFUSED_WIDTH, row, simd_steps(width, false, r->form, 64, r->message, 64, r->out, 128));
        REFUSED(SIMD_REFUSED_WIDTH, row, simd_unsteps(width, true, r->form, 128, r->message, 128, r->out, 128));
        REFUSED(SIMD_REFUSED_WIDTH, row,
                simd_compare(width, r->message, 3, 24, r->message, 3, 24, &r->first, &r->second));
        REFUSED(SIMD_REFUSED_WIDTH, row, simd_page_entry(9, width, r->message, 32, r->out, sizeof r->out));
        REFUSED(SIMD_REFUSED_WIDTH, row, simd_quote(width, r->message, 32, r->out, 18));
        REFUSED(SIMD_REFUSED_WIDTH, row,
                simd_index(width, r->message, 3, 24, r->index, sizeof r->index, r->out, 64, &r->first));
        REFUSED(SIMD_REFUSED_WIDTH, row,
                simd_reindex(width, r->message, 3, 24, r->index, SIMD_HEAD, 0, r->made, sizeof r->made, r->out, 64,
                             &r->first));
        size = stored(r->form, 256, 0);
        set_width(r->form, width);
        REFUSED(SIMD_REFUSED_WIDTH, row, simd_feed(r->form, size, r->message, 3, 24, &r->first));
        REFUSED(SIMD_REFUSED_WIDTH, row, simd_take(r->form, size, r->out, 64, &r->first));
        REFUSED(SIMD_REFUSED_WIDTH, row, simd_restore(r->form, size, r->other, sizeof r->other));
        /* Either half. */
        for (size_t half = 0; half <= SIMD_FORM(256); half += SIMD_FORM(256)) {
            size = keyed(r->form, 256, 512, 256, 512);
            set_width(r->form + half, width);
            REFUSED(SIMD_REFUSED_WIDTH, row, simd_hmac_feed(r->form, size, r->message, 3, 24, &r->first));
            REFUSED(SIMD_REFUSED_WIDTH, row, simd_hmac_take(r->form, size, r->out, 64, &r->first));
            REFUSED(SIMD_REFUSED_WIDTH, row, simd_hmac_check(r->form, size, r->out, 32, &r->first));
        }
    }
}

/* 2 */

static void counts(void)
{
    static const char row[] = "more bits than the bytes given have";
    struct room *r = &room;
    for (int k = 0; k < 4; k++) {
        uint16_t width = WIDTHS[k];
        uint64_t bits;
        size_t size;
        for (int more = 0; more < 2; more++) {
            bits = more ? SIMD_BITS_MAX : 25;
            fresh();
            REFUSED(SIMD_REFUSED_COUNT, row, simd_hash(width, r->message, 3, bits, r->out, 64));
            REFUSED(SIMD_REFUSED_COUNT, row, simd_hmac(width, r->tape, 3, r->message, 3, bits, r->out, 64));
            REFUSED(SIMD_REFUSED_COUNT, row,
                    simd_compare(width, r->message, 3, bits, r->tape, 3, 24, &r->first, &r->second));
            REFUSED(SIMD_REFUSED_COUNT, row,
                    simd_compare(width, r->message, 3, 24, r->tape, 3, bits, &r->first, &r->second));
            REFUSED(SIMD_REFUSED_COUNT, row,
                    simd_index(width, r->message, 3, bits, r->index, sizeof r->index, r->out, 64, &r->first));
            REFUSED(SIMD_REFUSED_COUNT, row,
                    simd_reindex(width, r->message, 3, bits, r->index, SIMD_HEAD, 0, r->made, sizeof r->made, r->out,
                                 64, &r->first));
            size = stored(r->form, width, 1);
            REFUSED(SIMD_REFUSED_COUNT, row, simd_feed(r->form, size, r->message, 3, bits, &r->first));
            size = keyed(r->form, width, block_bits(width), width, block_bits(width));
            REFUSED(SIMD_REFUSED_COUNT, row, simd_hmac_feed(r->form, size, r->message, 3, bits, &r->first));
        }
    }
}

/* 3: what met it once, a bit set past the count, gives what a 0 gives. */

static void past_the_count(void)
{
    static const char row[] = "retired: no call answers it, since what is past the count is ignored";
    static const uint8_t ones[2] = {0xff, 0xff}, clean[2] = {0xff, 0x80}, key[3] = {'k', 'e', 'y'};
    struct room *r = &room;
    for (int k = 0; k < 4; k++) {
        uint16_t width = WIDTHS[k];
        size_t size = SIMD_DIGEST(width), form = SIMD_FORM(width), both = SIMD_HMAC_FORM(width);
        fresh();
        check(SIMD_REFUSED_SPARE, row,
              simd_hash(width, ones, 2, 9, r->out, 64) == SIMD_ACCEPTED
                  && simd_hash(width, clean, 2, 9, r->out + 64, 64) == SIMD_ACCEPTED
                  && memcmp(r->out, r->out + 64, size) == 0,
              __LINE__);
        check(SIMD_REFUSED_SPARE, row,
              simd_hmac(width, key, 3, ones, 2, 9, r->out, 64) == SIMD_ACCEPTED
                  && simd_hmac(width, key, 3, clean, 2, 9, r->out + 64, 64) == SIMD_ACCEPTED
                  && memcmp(r->out, r->out + 64, size) == 0,
              __LINE__);
        check(SIMD_REFUSED_SPARE, row,
              simd_open(width, r->form, form) == SIMD_ACCEPTED && simd_open(width, r->other, form) == SIMD_ACCEPTED
                  && simd_feed(r->form, form, ones, 2, 9, &r->first) == SIMD_ACCEPTED
                  && simd_feed(r->other, form, clean, 2, 9, &r->first) == SIMD_ACCEPTED
                  && memcmp(r->form, r->other, form) == 0,
              __LINE__);
        check(SIMD_REFUSED_SPARE, row,
              simd_hmac_open(width, key, 3, r->form, both) == SIMD_ACCEPTED
                  && simd_hmac_open(width, key, 3, r->other, both) == SIMD_ACCEPTED
                  && simd_hmac_feed(r->form, both, ones, 2, 9, &r->first) == SIMD_ACCEPTED
                  && simd_hmac_feed(r->other, both, clean, 2, 9, &r->first) == SIMD_ACCEPTED
                  && memcmp(r->form, r->other, both) == 0,
              __LINE__);
        check(SIMD_REFUSED_SPARE, row,
              simd_compare(width, ones, 2, 9, clean, 2, 9, &r->first, &r->second) == SIMD_ACCEPTED
                  && r->first == SIMD_SAME && r->second == 0,
              __LINE__);
        check(SIMD_REFUSED_SPARE, row,
              simd_index(width, ones, 2, 9, r->index, SIMD_HEAD, r->out, 64, &r->first) == SIMD_ACCEPTED
                  && simd_reindex(width, clean, 2, 9, r->index, SIMD_HEAD, 0, r->made, SIMD_HEAD, r->out + 64, 64,
                                  &r->second) == SIMD_ACCEPTED
                  && memcmp(r->index, r->made, SIMD_HEAD) == 0 && memcmp(r->out, r->out + 64, size) == 0,
              __LINE__);
    }
    /* OPEN 256, PART of 9 bits, TAKE, STOP. */
    fresh();
    memset(r->tape, 0, sizeof r->tape);
    memcpy(r->tape, "\x01\x00\x01\x03\x09\xff\xff", 7);
    memcpy(r->tape + 37, "\x04\x05", 2);
    check(SIMD_REFUSED_SPARE, row,
          simd_tape(r->tape, 39, r->out, 32, &r->first, &r->second) == SIMD_ACCEPTED && r->first == 1
              && simd_hash(256, clean, 2, 9, r->out + 64, 64) == SIMD_ACCEPTED
              && memcmp(r->out, r->out + 64, 32) == 0,
          __LINE__);
    check(SIMD_REFUSED_SPARE, "its names in C and Rust stay, so that callers compile",
          SIMD_REFUSED_SPARE == 3 && strncmp(simd_refusal_text(3), "retired: ", 9) == 0, __LINE__);
}

/* 4 */

static void totals(void)
{
    static const char piece[] = "more than 18,446,744,073,709,551,615 bits in all: a piece after earlier ones";
    static const char key[] = "more than 18,446,744,073,709,551,615 bits in all: .. a key";
    static const char message[] =
        "more than 18,446,744,073,709,551,615 bits in all: .. a message under a key together with one key block";
    static const char whole[] = "a count has 64 bits, so no message given whole and without a key meets it";
    const size_t most = (size_t)1 << 61;            /* bytes of 2^64 bits */
    struct room *r = &room;
    for (int k = 0; k < 4; k++) {
        uint16_t width = WIDTHS[k];
        uint64_t block = block_bits(width);
        size_t size;
        fresh();
        size = stored(r->form, width, SIMD_BITS_MAX);
        REFUSED(SIMD_REFUSED_TOTAL, piece, simd_feed(r->form, size, r->message, 1, 1, &r->first));
        size = stored(r->form, width, 1);
        REFUSED(SIMD_REFUSED_TOTAL, piece, simd_feed(r->form, size, closed, most, SIMD_BITS_MAX, &r->first));
        size = old_stored(r->form, width, 1);
        REFUSED(SIMD_REFUSED_TOTAL, piece, simd_feed(r->form, size, closed, most, SIMD_BITS_MAX, &r->first));
        REFUSED(SIMD_REFUSED_TOTAL, key, simd_hmac_open(width, closed, most, r->form, sizeof r->form));
        REFUSED(SIMD_REFUSED_TOTAL, key, simd_hmac(width, closed, most, r->message, 3, 24, r->out, 64));
        REFUSED(SIMD_REFUSED_TOTAL, message,
                simd_hmac(width, r->message, 3, closed, most, SIMD_BITS_MAX - block + 1, r->out, 64));
        size = keyed(r->form, width, SIMD_BITS_MAX, width, block);
        REFUSED(SIMD_REFUSED_TOTAL, message, simd_hmac_feed(r->form, size, r->message, 1, 1, &r->first));
        size = keyed(r->form, width, block, width, block);
        REFUSED(SIMD_REFUSED_TOTAL, message,
                simd_hmac_feed(r->form, size, closed, most, SIMD_BITS_MAX - block + 1, &r->first));

        /* Of the most bits the next refusal is told; a comparison has none after it. */
        ANSWERED(SIMD_REFUSED_TOTAL, whole, simd_hash(width, closed, most, SIMD_BITS_MAX, r->out, 0),
                 SIMD_REFUSED_OUTPUT);
        ANSWERED(SIMD_REFUSED_TOTAL, whole,
                 simd_index(width, closed, most, SIMD_BITS_MAX, r->index, 0, r->out, 64, &r->first),
                 SIMD_REFUSED_OUTPUT);
        ANSWERED(SIMD_REFUSED_TOTAL, whole,
                 simd_reindex(width, closed, most, SIMD_BITS_MAX, r->index, 0, 0, r->made, 0, r->out, 64, &r->first),
                 SIMD_REFUSED_INDEX);
        ANSWERED(SIMD_REFUSED_TOTAL, whole,
                 simd_compare(width, closed, most, SIMD_BITS_MAX, r->message, 3, 25, &r->first, &r->second),
                 SIMD_REFUSED_COUNT);
    }
}

/* 5 */

static void keyed_hash(const char *row, size_t size)
{
    struct room *r = &room;
    REFUSED(SIMD_REFUSED_HASH, row, simd_hmac_feed(r->form, size, r->message, 3, 24, &r->first));
    REFUSED(SIMD_REFUSED_HASH, row, simd_hmac_take(r->form, size, r->out, 64, &r->first));
    REFUSED(SIMD_REFUSED_HASH, row, simd_hmac_check(r->form, size, r->out, 32, &r->first));
}

static void hashes(void)
{
    static const char unequal[] = "a keyed hash whose inner and outer hash have unequal widths";
    static const char inner[] = "whose inner one has fewer bits than a key block";
    static const char fewer[] = "whose outer one has fewer .. than it";
    static const char more[] = "whose outer one has .. more than it";
    static const char width_row[] =
        "in Rattle also an open hash that is none: unknown width, as after a refused open .. "
        "as a stored form, from C and Rust, that is 1";
    static const char size_row[] = "a bit set past its state, block .. as a stored form, from C and Rust, that is .. 8";
    static const char tail_row[] = "a bit set past its .. tail, alone .. as a stored form, from C and Rust, that is .. 9";
    static const char held_row[] = "a bit set past its .. in a keyed hash; as a stored form, from C and Rust, that is .. 9";
    struct room *r = &room;
    for (int k = 0; k < 4; k++) {
        uint16_t width = WIDTHS[k];
        uint64_t block = block_bits(width);
        size_t size;
        fresh();
        keyed_hash(unequal, keyed(r->form, width, block, WIDTHS[k ^ 1], block));
        keyed_hash(inner, keyed(r->form, width, block - 1, width, block));
        keyed_hash(inner, keyed(r->form, width, 0, width, block));
        keyed_hash(fewer, keyed(r->form, width, block, width, block - 1));
        keyed_hash(fewer, keyed(r->form, width, block, width, 0));
        keyed_hash(more, keyed(r->form, width, block, width, block + 1));
        keyed_hash(more, keyed(r->form, width, block, width, SIMD_BITS_MAX));
        keyed_hash(inner, old_keyed(r->form, width, block - 1, block));
        keyed_hash(more, old_keyed(r->form, width, block, block + 1));

        /* A form that was to be opened at no width keeps the zeros that were there. */
        memset(r->form, 0, sizeof r->form);
        size = SIMD_FORM(width);
        ANSWERED(SIMD_REFUSED_HASH, width_row, simd_open(160, r->form, size), SIMD_REFUSED_WIDTH);
        ANSWERED(SIMD_REFUSED_HASH, width_row, simd_feed(r->form, size, r->message, 3, 24, &r->first),
                 SIMD_REFUSED_WIDTH);
        size = stored(r->form, width, 0);
        r->form[size] = 1;
        ANSWERED(SIMD_REFUSED_HASH, size_row, simd_feed(r->form, size + 1, r->message, 3, 24, &r->first),
                 SIMD_REFUSED_FORM);
        r->form[size - 1] = 1;
        ANSWERED(SIMD_REFUSED_HASH, tail_row, simd_feed(r->form, size, r->message, 3, 24, &r->first),
                 SIMD_REFUSED_TAIL);
        size = keyed(r->form, width, block, width, block);
        r->form[size - 1] = 1;
        ANSWERED(SIMD_REFUSED_HASH, held_row, simd_hmac_feed(r->form, size, r->message, 3, 24, &r->first),
                 SIMD_REFUSED_TAIL);
    }
}

/* 6 */

static void outputs(void)
{
    static const char row[] = "the lent output is too short";
    static const char fed[] = "so is an old stored form that is fed in place";
    struct room *r = &room;
    for (int k = 0; k < 4; k++) {
        uint16_t width = WIDTHS[k];
        uint64_t block = block_bits(width);
        size_t digest = SIMD_DIGEST(width), sides = SIMD_BLOCK(width), size;
        fresh();
        REFUSED(SIMD_REFUSED_OUTPUT, row, simd_open(width, r->form, SIMD_FORM(width) - 1));
        REFUSED(SIMD_REFUSED_OUTPUT, row, simd_hash(width, r->message, 3, 24, r->out, digest - 1));
        REFUSED(SIMD_REFUSED_OUTPUT, row, simd_hmac(width, r->tape, 3, r->message, 3, 24, r->out, digest - 1));
        REFUSED(SIMD_REFUSED_OUTPUT, row, simd_hmac_open(width, r->tape, 3, r->form, SIMD_HMAC_FORM(width) - 1));
        REFUSED(SIMD_REFUSED_OUTPUT, row,
                simd_expand(width, false, r->message, sides, r->words, SIMD_WORDS(width) - 1));
        REFUSED(SIMD_REFUSED_OUTPUT, row,
                simd_steps(width, false, r->form, sides, r->message, sides, r->out, sides - 1));
        REFUSED(SIMD_REFUSED_OUTPUT, row,
                simd_unsteps(width, true, r->form, sides, r->message, sides, r->out, sides - 1));
        REFUSED(SIMD_REFUSED_OUTPUT, row,
                simd_page_entry(9, width, r->message, digest, r->out, SIMD_ENTRY(width) - 1));
        REFUSED(SIMD_REFUSED_OUTPUT, row, simd_quote(width, r->message, digest, r->out, SIMD_QUOTE(width) - 1));
        size = SIMD_INDEX(width, 8 * RECORD);
        REFUSED(SIMD_REFUSED_OUTPUT, row,
                simd_index(width, r->message, RECORD, 8 * RECORD, r->index, size - 1, r->out, digest, &r->first));
        REFUSED(SIMD_REFUSED_OUTPUT, row,
                simd_index(width, r->message, RECORD, 8 * RECORD, r->index, size, r->out, digest - 1, &r->first));
        set_width(r->index, width);
        set_bits(r->index, 8 * RECORD);
        REFUSED(SIMD_REFUSED_OUTPUT, row,
                simd_reindex(width, r->message, RECORD, 8 * RECORD, r->index, size, 0, r->made, size - 1, r->out, digest,
                             &r->first));
        REFUSED(SIMD_REFUSED_OUTPUT, row,
                simd_reindex(width, r->message, RECORD, 8 * RECORD, r->index, size, 0, r->made, size, r->out, digest - 1,
                             &r->first));
        size = stored(r->form, width, 0);
        REFUSED(SIMD_REFUSED_OUTPUT, row, simd_take(r->form, size, r->out, digest - 1, &r->first));
        REFUSED(SIMD_REFUSED_OUTPUT, row, simd_restore(r->form, size, r->other, size - 1));
        size = keyed(r->form, width, block, width, block);
        REFUSED(SIMD_REFUSED_OUTPUT, row, simd_hmac_take(r->form, size, r->out, digest - 1, &r->first));

        size = old_stored(r->form, width, 24);
        REFUSED(SIMD_REFUSED_OUTPUT, row, simd_restore(r->form, size, r->other, size));
        REFUSED(SIMD_REFUSED_OUTPUT, fed, simd_feed(r->form, size, r->message, RECORD, 8 * RECORD, &r->first));
        REFUSED(SIMD_REFUSED_OUTPUT, fed, simd_feed(r->form, size, r->message, 0, 0, &r->first));
        size = old_keyed(r->form, width, block, block);
        REFUSED(SIMD_REFUSED_OUTPUT, fed, simd_hmac_feed(r->form, size, r->message, RECORD, 8 * RECORD, &r->first));
    }
}

/* 7 */

static void blocks(void)
{
    static const char block[] = "a block .. of another size than the width's: 64 or 128 bytes";
    static const char state[] = "state of another size than the width's: 64 or 128 bytes";
    static const char digest[] = "a digest of another length than its width asks";
    struct room *r = &room;
    for (int k = 0; k < 4; k++) {
        uint16_t width = WIDTHS[k];
        const size_t right = width <= 256 ? 64 : 128;
        const size_t wrong[5] = {0, right - 1, right + 1, 192 - right, RECORD};
        for (int j = 0; j < 5; j++) {
            fresh();
            REFUSED(SIMD_REFUSED_BLOCK, block, simd_expand(width, false, r->message, wrong[j], r->words, 256));
            REFUSED(SIMD_REFUSED_BLOCK, block,
                    simd_steps(width, false, r->form, right, r->message, wrong[j], r->out, 128));
            REFUSED(SIMD_REFUSED_BLOCK, block,
                    simd_unsteps(width, true, r->form, right, r->message, wrong[j], r->out, 128));
            REFUSED(SIMD_REFUSED_BLOCK, state,
                    simd_steps(width, false, r->form, wrong[j], r->message, right, r->out, 128));
            REFUSED(SIMD_REFUSED_BLOCK, state,
                    simd_unsteps(width, true, r->form, wrong[j], r->message, right, r->out, 128));
        }
        for (size_t len = 0; len <= SIMD_DIGEST_MAX; len++) {
            if (len == SIMD_DIGEST(width))
                continue;
            REFUSED(SIMD_REFUSED_BLOCK, digest, simd_page_entry(9, width, r->message, len, r->out, sizeof r->out));
            REFUSED(SIMD_REFUSED_BLOCK, digest, simd_quote(width, r->message, len, r->out, sizeof r->out));
        }
    }
}

/* 8: every size but the two of the width, which are typed here as the row has them. */

static void forms(void)
{
    static const char small[] =
        "a stored form of another size than the two of its width: 138 bytes, and 134 of an old form (224, 256)";
    static const char large[] =
        "a stored form of another size than the two of its width: .. 266, and 262 of an old form (384, 512)";
    static const char halves[] = "so each half of a keyed form";
    struct room *r = &room;
    for (int k = 0; k < 4; k++) {
        uint16_t width = WIDTHS[k];
        const char *row = width <= 256 ? small : large;
        const size_t today = width <= 256 ? 138 : 266, old = width <= 256 ? 134 : 262;
        uint64_t block = block_bits(width);
        for (size_t size = 0; size <= 300; size++) {
            fresh();
            memset(r->form, 0, sizeof r->form);
            set_width(r->form, width);
            if (size == today || size == old) {
                check(SIMD_REFUSED_FORM, row, simd_take(r->form, size, r->out, 64, &r->first) == SIMD_ACCEPTED, __LINE__);
                continue;
            }
            REFUSED(SIMD_REFUSED_FORM, row, simd_feed(r->form, size, r->message, 3, 24, &r->first));
            REFUSED(SIMD_REFUSED_FORM, row, simd_take(r->form, size, r->out, 64, &r->first));
            REFUSED(SIMD_REFUSED_FORM, row, simd_restore(r->form, size, r->other, sizeof r->other));
        }
        /* The first half is cut off at the middle, so a byte less makes it short, and a byte more the second long. */
        for (int older = 0; older < 2; older++) {
            for (int more = -1; more <= 1; more += 2) {
                size_t size;
                fresh();
                size = older ? old_keyed(r->form, width, block, block) : keyed(r->form, width, block, width, block);
                size = more < 0 ? size - 1 : size + 1;
                REFUSED(SIMD_REFUSED_FORM, halves, simd_hmac_feed(r->form, size, r->message, 3, 24, &r->first));
                REFUSED(SIMD_REFUSED_FORM, halves, simd_hmac_take(r->form, size, r->out, 64, &r->first));
                REFUSED(SIMD_REFUSED_FORM, halves, simd_hmac_check(r->form, size, r->out, 32, &r->first));
            }
        }
    }
}

/* 9 */

static void tails(void)
{
    static const char row[] = "a stored form with a bit set past its tail";
    struct room *r = &room;
    for (int k = 0; k < 4; k++) {
        uint16_t width = WIDTHS[k];
        uint64_t block = block_bits(width);
        size_t size;
        for (int older = 0; older < 2; older++) {
            fresh();
            size = older ? old_stored(r->form, width, 3) : stored(r->form, width, 3);
            r->form[size - SIMD_BLOCK(width)] = 0xf0;
            REFUSED(SIMD_REFUSED_TAIL, row, simd_feed(r->form, size, r->message, 3, 24, &r->first));
            REFUSED(SIMD_REFUSED_TAIL, row, simd_take(r->form, size, r->out, 64, &r->first));
            REFUSED(SIMD_REFUSED_TAIL, row, simd_restore(r->form, size, r->other, sizeof r->other));
            /* The last bit of either half. */
            for (int half = 1; half <= 2; half++) {
                size = older ? old_keyed(r->form, width, block, block) : keyed(r->form, width, block, width, block);
                r->form[size / 2 * (size_t)half - 1] = 1;
                REFUSED(SIMD_REFUSED_TAIL, row, simd_hmac_feed(r->form, size, r->message, 3, 24, &r->first));
                REFUSED(SIMD_REFUSED_TAIL, row, simd_hmac_take(r->form, size, r->out, 64, &r->first));
                REFUSED(SIMD_REFUSED_TAIL, row, simd_hmac_check(r->form, size, r->out, 32, &r->first));
            }
        }
    }
}

/* 1, 6, 10, 11 and 12 on a tape: count and place are told, and out keeps the digests before the refused command, here
   those of no bits at width 256. */

static void tape(int number, const char *row, const char *commands, size_t len, size_t out_len, unsigned count,
                 uint64_t place, int line)
{
    uint8_t answer;
    fresh();
    memcpy(room.tape, commands, len);
    memcpy(&before, &room, sizeof room);
    answer = simd_tape(room.tape, len, room.out, out_len, &room.first, &room.second);
    before.first = count;
    before.second = place;
    for (unsigned k = 0; k < count; k++)
        if (simd_hash(256, room.message, 0, 0, before.out + 32 * k, 32) != SIMD_ACCEPTED)
            answer = 255;
    check(number, row, answer == number && memcmp(&before, &room, sizeof room) == 0, line);
}

#define TAPE(number, row, commands, out_len, count, place) \
    tape(number, row, commands, sizeof commands - 1, out_len, count, place, __LINE__)

#define OPEN "\x01" "\x00\x01"
#define BYTES31 "0123456789abcdef0123456789abcde"
#define BYTES32 BYTES31 "f"
#define FULL "\x02" BYTES32
#define PART "\x03" "\x07" BYTES32
#define TAKE "\x04"
#define STOP "\x05"

static void tapes(void)
{
    static const char none[] = "tape: no such command";
    static const char inside[] = "tape: it ends inside a command (place: the command)";
    static const char early[] = "tape: .. before STOP (place: the tape's length)";
    static const char open[] = "tape: OPEN while a hash is open";
    static const char full[] = "tape: .. FULL .. while none is";
    static const char part[] = "tape: .. PART .. while none is";
    static const char take[] = "tape: .. TAKE while none is";

    TAPE(SIMD_REFUSED_WIDTH, "the width is none of 224, 256, 384, 512", OPEN TAKE "\x01\xa0\x00" STOP, 64, 1, 4);
    TAPE(SIMD_REFUSED_OUTPUT, "the lent output is too short", OPEN TAKE OPEN TAKE STOP, 63, 1, 7);

    TAPE(SIMD_REFUSED_COMMAND, none, "\x00", 64, 0, 0);
    TAPE(SIMD_REFUSED_COMMAND, none, OPEN "\x06" STOP, 64, 0, 3);
    TAPE(SIMD_REFUSED_COMMAND, none, OPEN TAKE OPEN FULL "\xff", 64, 1, 40);

    TAPE(SIMD_REFUSED_END, inside, "\x01", 64, 0, 0);
    TAPE(SIMD_REFUSED_END, inside, OPEN TAKE "\x01\x00", 64, 1, 4);
    TAPE(SIMD_REFUSED_END, inside, OPEN TAKE OPEN "\x02" BYTES31, 64, 1, 7);
    TAPE(SIMD_REFUSED_END, inside, OPEN "\x03", 64, 0, 3);
    TAPE(SIMD_REFUSED_END, inside, OPEN "\x03\x07" BYTES31, 64, 0, 3);
    TAPE(SIMD_REFUSED_END, early, "", 64, 0, 0);
    TAPE(SIMD_REFUSED_END, early, OPEN, 64, 0, 3);
    TAPE(SIMD_REFUSED_END, early, OPEN FULL, 64, 0, 36);
    TAPE(SIMD_REFUSED_END, early, OPEN TAKE OPEN TAKE, 64, 2, 8);

    TAPE(SIMD_REFUSED_ORDER, open, OPEN OPEN STOP, 64, 0, 3);
    TAPE(SIMD_REFUSED_ORDER, open, OPEN TAKE OPEN PART OPEN, 64, 1, 41);
    TAPE(SIMD_REFUSED_ORDER, full, FULL STOP, 64, 0, 0);
    TAPE(SIMD_REFUSED_ORDER, full, OPEN TAKE FULL, 64, 1, 4);
    TAPE(SIMD_REFUSED_ORDER, part, PART STOP, 64, 0, 0);
    TAPE(SIMD_REFUSED_ORDER, part, OPEN TAKE PART, 64, 1, 4);
    TAPE(SIMD_REFUSED_ORDER, take, TAKE STOP, 64, 0, 0);
    TAPE(SIMD_REFUSED_ORDER, take, OPEN TAKE TAKE, 64, 1, 4);
}

/* 13: the built program, on a tape of a byte too many, and on one that is not. */

static int sealed(const char *command, const char *listing)
{
    char found[200];
    size_t len;
    FILE *from = popen(command, "r");
    if (!from)
        return 0;
    len = fread(found, 1, sizeof found - 1, from);
    found[len] = 0;
    return pclose(from) == 0 && strcmp(found, listing) == 0;
}

static void program(void)
{
    static const char row[] = "`seal`: more than 65,536 bytes";
    check(SIMD_REFUSED_TAPE, row, sealed("head -c 65537 /dev/zero | target/bin/seal", "refused 13 at 65536\n"), __LINE__);
    check(SIMD_REFUSED_TAPE, row, sealed("head -c 65536 /dev/zero | target/bin/seal", "refused 10 at 0\n"), __LINE__);
}

/* 14 */

static void entries(void)
{
    static const char row[] = "page: an entry number above 999,999";
    struct room *r = &room;
    for (int k = 0; k < 4; k++) {
        uint16_t width = WIDTHS[k];
        size_t digest = SIMD_DIGEST(width);
        fresh();
        REFUSED(SIMD_REFUSED_ENTRY, row, simd_page_entry(1000000, width, r->message, digest, r->out, sizeof r->out));
        REFUSED(SIMD_REFUSED_ENTRY, row, simd_page_entry(UINT64_MAX, width, r->message, digest, r->out, sizeof r->out));
        check(SIMD_REFUSED_ENTRY, row,
              simd_page_entry(999999, width, r->message, digest, r->out, sizeof r->out) == SIMD_ACCEPTED, __LINE__);
    }
}

/* 15 */

static void indexes(void)
{
    static const char width_row[] = "an index whose width .. does not fit the given width and message";
    static const char length[] = "an index whose .. length .. does not fit the given width and message";
    static const char size_row[] = "an index whose .. size does not fit the given width and message";
    static const char number[] = "a block number above the length block's";
    const uint64_t bits = 8 * RECORD;
    struct room *r = &room;
    for (int k = 0; k < 4; k++) {
        uint16_t width = WIDTHS[k];
        uint64_t length_block = bits / block_bits(width);
        size_t size = SIMD_INDEX(width, bits);

#define CORRECTED(old_len, block) \
    simd_reindex(width, r->message, RECORD, bits, r->index, old_len, block, r->made, size, r->out, 64, &r->first)

        fresh();
        check(SIMD_REFUSED_INDEX, number,
              simd_index(width, r->message, RECORD, bits, r->index, size, r->out, 64, &r->first) == SIMD_ACCEPTED
                  && CORRECTED(size, length_block) == SIMD_ACCEPTED,
              __LINE__);
        REFUSED(SIMD_REFUSED_INDEX, number, CORRECTED(size, length_block + 1));
        REFUSED(SIMD_REFUSED_INDEX, number, CORRECTED(size, UINT64_MAX));
        REFUSED(SIMD_REFUSED_INDEX, size_row, CORRECTED(size - 1, 0));
        REFUSED(SIMD_REFUSED_INDEX, size_row, CORRECTED(size + 1, 0));
        REFUSED(SIMD_REFUSED_INDEX, size_row, CORRECTED(0, 0));
        set_width(r->index, WIDTHS[k ^ 1]);
        REFUSED(SIMD_REFUSED_INDEX, width_row, CORRECTED(size, 0));
        set_width(r->index, 160);
        REFUSED(SIMD_REFUSED_INDEX, width_row, CORRECTED(size, 0));
        set_width(r->index, width);
        set_bits(r->index, bits - 1);
        REFUSED(SIMD_REFUSED_INDEX, length, CORRECTED(size, 0));
        set_bits(r->index, bits + ((uint64_t)1 << 32));
        REFUSED(SIMD_REFUSED_INDEX, length, CORRECTED(size, 0));
        set_bits(r->index, bits);
        check(SIMD_REFUSED_INDEX, length, CORRECTED(size, 0) == SIMD_ACCEPTED, __LINE__);
        /* An old one, with 4 length bytes. */
        memmove(r->index + 6, r->index + SIMD_HEAD, size - SIMD_HEAD);
        REFUSED(SIMD_REFUSED_INDEX, size_row, CORRECTED(size - 4, 0));
    }
}

/* A text of its own for each number, and none for those behind the last. */
static bool texts(void)
{
    for (int k = 0; k <= SIMD_REFUSED_INDEX + 1; k++)
        for (int j = 0; j < k; j++)
            if (!*simd_refusal_text((uint8_t)k)
                || strcmp(simd_refusal_text((uint8_t)k), simd_refusal_text((uint8_t)j)) == 0)
                return false;
    return true;
}

int main(int argc, char **argv)
{
    void *page = mmap(NULL, 4096, PROT_NONE, MAP_PRIVATE | MAP_ANONYMOUS, -1, 0);
    listed = argc > 1 && strcmp(argv[1], "--list") == 0;
    if (page == MAP_FAILED) {
        puts("no page that cannot be read");
        return 2;
    }
    closed = (const uint8_t *)page;
    widths();
    counts();
    past_the_count();
    totals();
    hashes();
    outputs();
    blocks();
    forms();
    tails();
    tapes();
    program();
    entries();
    indexes();
    compared++;
    if (!texts()) {
        differ++;
        puts("  simd_refusal_text: two numbers with one text");
    }
    printf("refusals from C: %u compared, %u differ\n", compared, differ);
    munmap(page, 4096);
    return differ ? 1 : 0;
}
