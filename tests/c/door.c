/* Use of include/simd.h from C: hash, feed in pieces, store, restore, also forms of
   the old size, seal under a key, compare, run a tape, all of these with bits past the
   count, print a page, quote a digest and check the quote, index a record and correct
   it.  Prints how many answers it checked; the exit status is 0 where all were right.
   The digests are those of appendix A, the tags those of tests/reference/hmac_ref.py,
   the pages those of printf, the quotes those of tests/reference/quote_ref.py, the
   digests of records those of tests/reference/index_ref.py. */

#include <stdio.h>
#include <string.h>

#include "simd.h"

static unsigned compared, differ;

static void check(int right, const char *what)
{
    compared++;
    if (!right) {
        differ++;
        printf("  %s\n", what);
    }
}

static int is_hex(const uint8_t *data, size_t len, const char *hex)
{
    char text[2 * SIMD_DIGEST_MAX + 1];
    size_t k;
    for (k = 0; k < len; k++)
        sprintf(text + 2 * k, "%02x", data[k]);
    return strcmp(text, hex) == 0;
}

/* The message 00 01 .. of one block, and 700 or 1,079 bits of 1; the tag of these
   under the key 00 01 .. of one byte more than a block, and that of no bits under
   an empty key; the quote of the first digest; the digest of a record, as check_index
   makes it, before and after its correction. */
struct vector {
    uint16_t width;
    const char *block_digest, *ones_digest;
    uint64_t ones;
    const char *ones_tag, *empty_tag, *block_quote, *record_digest, *corrected_digest;
};

static const struct vector VECTORS[] = {
    {256, "5bebdb816cd3e6c8c2b5a42867a6f41570c4b917f1d3b15aabc17f24679e6acd",
          "e80b4eeb8a370e6ca918e7810400441f6dd0da1eb4559cade791c314f82d524a", 700,
          "5b25769239ce0f5b47310280d9f0ee6a6dd9cf876844c2354e00f5bc03a210f2",
          "347dc33e88a7b86b371110276081a67a928649181d22b46f7fce262866e928ba",
          "5bebdb816cd3e6c880",
          "18e9c9c09c6317f569e3799ce7c41dec92b55b32113d4db05aad6d8c795f8e80",
          "b2c994022236779b62498493bf016bb3b5fd77348a917b6e36072e93c9ec353a"},
    {512, "8851ad0a57426b4af57af3294706c0448fa6accf24683fc239871be58ca913fb"
          "ee53e35c1dedd88016ebd131f2eb0761e97a3048de6e696787fd5f54981d6f2c",
          "c060fa9aae2414715a3a27c5df22dbd41469e3d09056b093861f0f6b9bdc311a"
          "24ac743811e88358dc69094ad444036bbbf7708ed8bdeaf1e8ed871dfb79c218", 1079,
          "009c1c8a8090811f1bb4c641550c2866e03f1f8a5972a68a94105aeed3e945b9"
          "e95911bc4802642a6891d58466226c7b91ad7cf36aa9d9da4d1118cefa90ecbd",
          "6c891206f82e90f4b311c6d15c6e375766c8fd0083f97dc1ef8d0f09dc280035"
          "d597b068e69f9567aa6975048b89fa61dd70a757e8fa78b4dab5f493df264b3c",
          "8851ad0a57426b4a96",
          "5cd169c515988a0380df47dddf4b02d6feef21c46b3aeb455d3ae1337f6e8351"
          "6d563409a76c3de2e28bdf4ed72ee154d6eddbb052cb8492a8ce696940d07644",
          "a6b04d17095080e2d56b61bf8b8f0a72ac47ea4512cb0ee5160746999cc2640f"
          "e5b862db2d243305b61ab51c407473b77e0aefe6fd2a3ad60811c8d1848c6f05"},
};

static void check_hash(const struct vector *v)
{
    uint8_t message[SIMD_BLOCK_LARGE], out[SIMD_DIGEST_MAX];
    uint64_t bits = 8 * (uint64_t)SIMD_BLOCK(v->width);
    size_t k;
    for (k = 0; k < sizeof message; k++)
        message[k] = (uint8_t)k;
    check(simd_hash(v->width, message, sizeof message, bits, out, sizeof out) == SIMD_ACCEPTED
              && is_hex(out, SIMD_DIGEST(v->width), v->block_digest),
          "hash of one block");
    check(simd_hash(v->width + 1, message, sizeof message, bits, out, sizeof out)
              == SIMD_REFUSED_WIDTH,
          "hash at an unknown width");
}

/* Pieces of 13 bits, the hash kept elsewhere between them. */
static void check_pieces(const struct vector *v)
{
    const uint8_t ones[2] = {0xff, 0xf8}, clean[2] = {0xff, 0xf0};
    uint8_t form[SIMD_FORM_LARGE], stored[SIMD_FORM_LARGE], out[SIMD_DIGEST_MAX];
    size_t size = SIMD_FORM(v->width);
    uint64_t blocks, total = 0, left = v->ones;
    check(simd_open(v->width, form, sizeof form) == SIMD_ACCEPTED, "open");
    for (; left >= 13; left -= 13) {
        check(simd_feed(form, size, ones, sizeof ones, 13, &blocks) == SIMD_ACCEPTED, "feed");
        total += blocks;
        memcpy(stored, form, size);
        memset(form, 0, sizeof form);
        memcpy(form, stored, size);
    }
    for (; left > 0; left--) {
        const uint8_t one = 0x80;
        check(simd_feed(form, size, &one, 1, 1, &blocks) == SIMD_ACCEPTED, "feed a bit");
        total += blocks;
    }
    check(simd_take(form, size, out, sizeof out, &blocks) == SIMD_ACCEPTED
              && is_hex(out, SIMD_DIGEST(v->width), v->ones_digest),
          "take");
    check(total + blocks == 3, "compressions");
    memcpy(stored, form, size);
    check(simd_feed(form, size, ones, sizeof ones, 17, &blocks) == SIMD_REFUSED_COUNT
              && simd_feed(form, size - 1, ones, sizeof ones, 13, &blocks) == SIMD_REFUSED_FORM
              && memcmp(form, stored, size) == 0,
          "refusals of feed");
    /* A bit past the count leaves the form that a 0 leaves. */
    check(simd_feed(form, size, ones, sizeof ones, 12, &blocks) == SIMD_ACCEPTED
              && simd_feed(stored, size, clean, sizeof clean, 12, &blocks) == SIMD_ACCEPTED
              && memcmp(form, stored, size) == 0,
          "a bit past the count of a piece");
}

/* A key that is hashed first; pieces of 13 bits, the form kept elsewhere between
   them. */
static void check_keyed(const struct vector *v)
{
    const uint8_t ones[2] = {0xff, 0xf8}, clean[2] = {0xff, 0xf0}, one = 0x80, nothing = 0;
    uint8_t key[SIMD_BLOCK_LARGE + 1], message[256];
    uint8_t form[SIMD_HMAC_FORM_LARGE], stored[SIMD_HMAC_FORM_LARGE], tag[SIMD_DIGEST_MAX + 1];
    size_t key_len = SIMD_BLOCK(v->width) + 1, size = SIMD_HMAC_FORM(v->width);
    size_t tag_len = SIMD_DIGEST(v->width), k;
    uint64_t blocks, total = 0, left = v->ones, right;
    for (k = 0; k < sizeof key; k++)
        key[k] = (uint8_t)k;
    memset(message, 0xff, sizeof message);
    message[v->ones / 8] = (uint8_t)(0xff00 >> v->ones % 8);
    check(simd_hmac(v->width, key, key_len, message, sizeof message, v->ones, tag, tag_len)
                  == SIMD_ACCEPTED
              && is_hex(tag, tag_len, v->ones_tag),
          "tag in one call");
    check(simd_hmac(v->width, &nothing, 0, &nothing, 0, 0, tag, tag_len) == SIMD_ACCEPTED
              && is_hex(tag, tag_len, v->empty_tag),
          "tag of no bits under an empty key");

    check(simd_hmac_open(v->width, key, key_len, form, sizeof form) == SIMD_ACCEPTED,
          "open with a key");
    for (; left >= 13; left -= 13) {
        check(simd_hmac_feed(form, size, ones, sizeof ones, 13, &blocks) == SIMD_ACCEPTED,
              "feed to a keyed hash");
        total += blocks;
        memcpy(stored, form, size);
        memset(form, 0, sizeof form);
        memcpy(form, stored, size);
    }
    for (; left > 0; left--) {
        check(simd_hmac_feed(form, size, &one, 1, 1, &blocks) == SIMD_ACCEPTED,
              "feed a bit to a keyed hash");
        total += blocks;
    }
    memset(tag, 0x5a, sizeof tag);
    check(simd_hmac_take(form, size, tag, sizeof tag, &blocks) == SIMD_ACCEPTED
              && is_hex(tag, tag_len, v->ones_tag) && tag[tag_len] == 0x5a,
          "take a tag");
    check(total + blocks == 5, "compressions under a key");

    right = 7;
    check(simd_hmac_check(form, size, tag, tag_len, &right) == SIMD_ACCEPTED && right == 1,
          "the tag is right");
    check(simd_hmac_check(form, size, tag, tag_len - 1, &right) == SIMD_ACCEPTED && right == 0,
          "a shorter tag is not");
    right = 7;
    check(simd_hmac_check(form, size, tag, tag_len + 1, &right) == SIMD_ACCEPTED && right == 0,
          "a longer tag is not");
    right = 7;
    check(simd_hmac_check(form, size, &nothing, 0, &right) == SIMD_ACCEPTED && right == 0,
          "no tag is not");
    tag[tag_len - 1] ^= 1;
    right = 7;
    check(simd_hmac_check(form, size, tag, tag_len, &right) == SIMD_ACCEPTED && right == 0,
          "another tag is not");
    tag[tag_len - 1] ^= 1;

    /* Halves exchanged: the outer one is then longer than a key block. */
    memcpy(stored, form + size / 2, size / 2);
    memcpy(stored + size / 2, form, size / 2);
    right = 7;
    blocks = 7;
    check(simd_hmac_check(stored, size, tag, tag_len, &right) == SIMD_REFUSED_HASH && right == 7
              && simd_hmac_take(stored, size, tag, tag_len, &blocks) == SIMD_REFUSED_HASH
              && simd_hmac_feed(stored, size, ones, sizeof ones, 13, &blocks) == SIMD_REFUSED_HASH
              && blocks == 7,
          "halves exchanged");
    memcpy(stored, form, size);
    check(simd_hmac_feed(form, size, ones, sizeof ones, 17, &blocks) == SIMD_REFUSED_COUNT
              && simd_hmac_feed(form, size - 1, ones, sizeof ones, 13, &blocks) == SIMD_REFUSED_FORM
              && simd_hmac_take(form, size, tag, tag_len - 1, &blocks) == SIMD_REFUSED_OUTPUT
              && simd_hmac_open(v->width, key, key_len, form, size - 1) == SIMD_REFUSED_OUTPUT
              && simd_hmac_open(v->width + 1, key, key_len, form, size) == SIMD_REFUSED_WIDTH
              && blocks == 7 && memcmp(form, stored, size) == 0,
          "refusals under a key");
    check(simd_hmac_feed(form, size, ones, sizeof ones, 12, &blocks) == SIMD_ACCEPTED
              && simd_hmac_feed(stored, size, clean, sizeof clean, 12, &blocks) == SIMD_ACCEPTED
              && memcmp(form, stored, size) == 0,
          "a bit past the count of a piece under a key");
}

/* The sizes of stored forms, of today and old ones; each argument of a macro is
   evaluated once. */
static void check_form_sizes(void)
{
    static const struct {
        uint16_t width;
        size_t form, old, keyed, old_keyed;
    } SIZES[] = {
        {224, 138, 134, 276, 268}, {256, 138, 134, 276, 268},
        {384, 266, 262, 532, 524}, {512, 266, 262, 532, 524},
    };
    static const uint16_t widths[2] = {256, 512};
    const uint16_t *w = widths;
    uint8_t room[SIMD_OLD_HMAC_FORM(512)], small[SIMD_OLD_FORM(256)];
    size_t k;
    for (k = 0; k < sizeof SIZES / sizeof *SIZES; k++)
        check(SIMD_FORM(SIZES[k].width) == SIZES[k].form
                  && SIMD_OLD_FORM(SIZES[k].width) == SIZES[k].old
                  && SIMD_HMAC_FORM(SIZES[k].width) == SIZES[k].keyed
                  && SIMD_OLD_HMAC_FORM(SIZES[k].width) == SIZES[k].old_keyed,
              "the sizes of stored forms");
    check(SIMD_FORM_SMALL == 138 && SIMD_FORM_LARGE == 266 && SIMD_OLD_FORM_SMALL == 134
              && SIMD_OLD_FORM_LARGE == 262 && SIMD_HMAC_FORM_SMALL == 276
              && SIMD_HMAC_FORM_LARGE == 532 && SIMD_OLD_HMAC_FORM_SMALL == 268
              && SIMD_OLD_HMAC_FORM_LARGE == 524,
          "the sizes by family");
    check(SIMD_HEAD == 10 && SIMD_BITS_MAX == UINT64_MAX, "the head and the limit");
    check(SIMD_OLD_FORM(*w++) == 134 && SIMD_OLD_HMAC_FORM(*w++) == 524 && w == widths + 2,
          "each argument once");
    check(sizeof room == 524 && sizeof small == 134, "the sizes by constants");
}

enum { GUARD = 8, OLD_HEAD = SIMD_HEAD - 4, FIRST = 500 };

/* The old form of one whose length has no more than 4 bytes. */
static void make_old(const uint8_t *form, size_t size, uint8_t *old)
{
    memcpy(old, form, OLD_HEAD);
    memcpy(old + OLD_HEAD, form + SIMD_HEAD, size - SIMD_HEAD);
}

/* A form that is restored to a room with guard bytes round it, and what the room is then. */
static struct room {
    uint8_t before[GUARD], form[SIMD_FORM_LARGE], after[GUARD];
} room, blank;

static uint8_t restore_it(const uint8_t *stored, size_t stored_len, size_t form_len)
{
    memset(&room, 0x5a, sizeof room);
    memset(&blank, 0x5a, sizeof blank);
    return simd_restore(stored, stored_len, room.form, form_len);
}

static void check_not_restored(uint8_t refusal, const uint8_t *stored, size_t stored_len,
                               size_t form_len)
{
    check(restore_it(stored, stored_len, form_len) == refusal
              && memcmp(&room, &blank, sizeof room) == 0,
          "a form not restored");
}

/* Some ones fed, the hash kept in an old form: taken as it is, not fed, restored, and fed
   the other ones.  Then the refusals, in their order. */
static void check_old(const struct vector *v)
{
    uint8_t ones[256], form[SIMD_FORM_LARGE + 1] = {0}, old[SIMD_OLD_FORM_LARGE + 1] = {0};
    uint8_t kept[sizeof old], out[2][SIMD_DIGEST_MAX];
    size_t size = SIMD_FORM(v->width), old_size = SIMD_OLD_FORM(v->width), n;
    size_t digest_len = SIMD_DIGEST(v->width);
    uint64_t blocks[2] = {7, 7};
    memset(ones, 0xff, sizeof ones);
    check(simd_open(v->width, form, size) == SIMD_ACCEPTED
              && simd_feed(form, size, ones, sizeof ones, FIRST, &blocks[0]) == SIMD_ACCEPTED,
          "a hash to store");
    make_old(form, size, old);
    memcpy(kept, old, sizeof old);
    check(simd_take(form, size, out[0], digest_len, &blocks[0]) == SIMD_ACCEPTED
              && simd_take(old, old_size, out[1], digest_len, &blocks[1]) == SIMD_ACCEPTED
              && memcmp(out[0], out[1], digest_len) == 0 && blocks[0] == blocks[1],
          "take from an old form");
    blocks[0] = 7;
    check(simd_feed(old, old_size, ones, sizeof ones, 1, &blocks[0]) == SIMD_REFUSED_OUTPUT
              && simd_feed(old, old_size, ones, 0, 0, &blocks[0]) == SIMD_REFUSED_OUTPUT
              && simd_feed(old, old_size, ones, 1, 9, &blocks[0]) == SIMD_REFUSED_COUNT
              && blocks[0] == 7 && memcmp(old, kept, sizeof old) == 0,
          "an old form fed in place");

    check(restore_it(old, old_size, size) == SIMD_ACCEPTED && memcmp(room.form, form, size) == 0
              && memcmp(room.form + size, blank.form, sizeof room - GUARD - size) == 0
              && memcmp(room.before, blank.before, GUARD) == 0,
          "an old form restored");
    check(restore_it(form, size, size + GUARD) == SIMD_ACCEPTED
              && memcmp(room.form, form, size) == 0
              && memcmp(room.form + size, blank.form, sizeof room - GUARD - size) == 0
              && memcmp(room.before, blank.before, GUARD) == 0,
          "a form restored to the same bytes");
    check(restore_it(old, old_size, size) == SIMD_ACCEPTED
              && simd_feed(room.form, size, ones, sizeof ones, v->ones - FIRST, &blocks[0])
                     == SIMD_ACCEPTED
              && simd_take(room.form, size, out[0], digest_len, &blocks[1]) == SIMD_ACCEPTED
              && is_hex(out[0], digest_len, v->ones_digest) && blocks[0] + blocks[1] == 3,
          "a restored form goes on");

    /* Of every size but two the form is none, whatever else is wrong with it. */
    for (n = 0; n < sizeof old; n++)
        if (n != old_size && n != size)
            check_not_restored(SIMD_REFUSED_FORM, old, n, 0);
    check_not_restored(SIMD_REFUSED_FORM, form, size - 1, size);
    check_not_restored(SIMD_REFUSED_FORM, form, size + 1, size);
    check_not_restored(SIMD_REFUSED_OUTPUT, old, old_size, size - 1);
    check_not_restored(SIMD_REFUSED_OUTPUT, old, old_size, old_size);
    check_not_restored(SIMD_REFUSED_OUTPUT, form, size, 0);
    old[old_size - 1] |= 1;
    check_not_restored(SIMD_REFUSED_TAIL, old, old_size, 0);
    check(simd_feed(old, old_size, ones, 0, 1, &blocks[0]) == SIMD_REFUSED_TAIL
              && simd_take(old, old_size, out[0], 0, &blocks[0]) == SIMD_REFUSED_TAIL,
          "a bit past the tail of an old form");
    old[0] ^= 1;
    check_not_restored(SIMD_REFUSED_FORM, old, 1, 0);
    check_not_restored(SIMD_REFUSED_WIDTH, old, 2, 0);
    check_not_restored(SIMD_REFUSED_WIDTH, old, old_size - 1, 0);
    check_not_restored(SIMD_REFUSED_WIDTH, old, old_size, size);
}

/* The same under a key: the halves are restored one by one. */
static void check_old_keyed(const struct vector *v)
{
    uint8_t ones[256], key[SIMD_BLOCK_LARGE + 1], tag[2][SIMD_DIGEST_MAX];
    uint8_t form[SIMD_HMAC_FORM_LARGE], old[SIMD_OLD_HMAC_FORM_LARGE], kept[sizeof old];
    uint8_t made[SIMD_HMAC_FORM_LARGE], mixed[SIMD_FORM_LARGE + SIMD_OLD_FORM_LARGE];
    size_t size = SIMD_FORM(v->width), old_size = SIMD_OLD_FORM(v->width), k;
    size_t keyed_size = SIMD_HMAC_FORM(v->width), old_keyed_size = SIMD_OLD_HMAC_FORM(v->width);
    size_t tag_len = SIMD_DIGEST(v->width);
    uint64_t blocks[2] = {7, 7}, right = 7;
    memset(ones, 0xff, sizeof ones);
    for (k = 0; k < sizeof key; k++)
        key[k] = (uint8_t)k;
    check(simd_hmac_open(v->width, key, SIMD_BLOCK(v->width) + 1u, form, keyed_size) == SIMD_ACCEPTED
              && simd_hmac_feed(form, keyed_size, ones, sizeof ones, FIRST, &blocks[0])
                     == SIMD_ACCEPTED,
          "a keyed hash to store");
    make_old(form, size, old);
    make_old(form + size, size, old + old_size);
    memcpy(kept, old, old_keyed_size);
    check(simd_hmac_take(form, keyed_size, tag[0], tag_len, &blocks[0]) == SIMD_ACCEPTED
              && simd_hmac_take(old, old_keyed_size, tag[1], tag_len, &blocks[1]) == SIMD_ACCEPTED
              && memcmp(tag[0], tag[1], tag_len) == 0 && blocks[0] == blocks[1],
          "take from an old keyed form");
    check(simd_hmac_check(old, old_keyed_size, tag[0], tag_len, &right) == SIMD_ACCEPTED
              && right == 1
              && simd_hmac_check(old, old_keyed_size, tag[0], tag_len - 1, &right) == SIMD_ACCEPTED
              && right == 0,
          "check by an old keyed form");
    blocks[0] = 7;
    check(simd_hmac_feed(old, old_keyed_size, ones, 1, 8, &blocks[0]) == SIMD_REFUSED_OUTPUT
              && simd_hmac_feed(old, old_keyed_size, ones, 1, 9, &blocks[0]) == SIMD_REFUSED_COUNT
              && blocks[0] == 7 && memcmp(old, kept, old_keyed_size) == 0,
          "an old keyed form fed in place");
    memcpy(mixed, old, old_size);
    memcpy(mixed + old_size, form + size, size);
    right = 7;
    check(simd_hmac_check(mixed, old_size + size, tag[0], tag_len, &right) == SIMD_REFUSED_FORM
              && right == 7,
          "an old half and one of today");
    memcpy(mixed, form, size);
    memcpy(mixed + size, old + old_size, old_size);
    check(simd_hmac_check(mixed, old_size + size, tag[0], tag_len, &right) == SIMD_REFUSED_FORM
              && right == 7,
          "a half of today and an old one");

    check(simd_restore(old, old_size, made, size) == SIMD_ACCEPTED
              && simd_restore(old + old_size, old_size, made + size, size) == SIMD_ACCEPTED
              && memcmp(made, form, keyed_size) == 0,
          "both halves restored");
    check(simd_hmac_feed(made, keyed_size, ones, sizeof ones, v->ones - FIRST, &blocks[0])
                  == SIMD_ACCEPTED
              && simd_hmac_take(made, keyed_size, tag[0], tag_len, &blocks[1]) == SIMD_ACCEPTED
              && is_hex(tag[0], tag_len, v->ones_tag),
          "a restored keyed form goes on");
}

/* Stored lengths of the most bits and of one less. */
static void check_limit(const struct vector *v)
{
    const uint8_t one = 0xc0;
    uint8_t form[SIMD_FORM_LARGE], kept[SIMD_FORM_LARGE], out[SIMD_DIGEST_MAX];
    size_t size = SIMD_FORM(v->width), k;
    uint64_t blocks = 7;
    check(simd_open(v->width, form, size) == SIMD_ACCEPTED, "open");
    memset(form + 2, 0xff, SIMD_HEAD - 2);
    memcpy(kept, form, size);
    check(simd_feed(form, size, &one, 1, 1, &blocks) == SIMD_REFUSED_TOTAL
              && simd_feed(form, size, &one, 1, 9, &blocks) == SIMD_REFUSED_COUNT && blocks == 7
              && memcmp(form, kept, size) == 0,
          "a bit more than the most");
    check(simd_feed(form, size, &one, 1, 0, &blocks) == SIMD_ACCEPTED && blocks == 0
              && memcmp(form, kept, size) == 0
              && simd_take(form, size, out, sizeof out, &blocks) == SIMD_ACCEPTED && blocks == 2,
          "no bit more than the most");
    form[2] = 0xfe;
    check(simd_feed(form, size, &one, 1, 2, &blocks) == SIMD_REFUSED_TOTAL && form[2] == 0xfe
              && simd_feed(form, size, &one, 1, 1, &blocks) == SIMD_ACCEPTED,
          "up to the most bits");
    for (k = 2; k < SIMD_HEAD; k++)
        check(form[k] == 0xff, "the length of the most bits");

    /* Across the most bits that an old form had. */
    memset(form + OLD_HEAD, 0, SIMD_HEAD - OLD_HEAD);
    check(simd_feed(form, size, &one, 1, 1, &blocks) == SIMD_ACCEPTED && blocks == 1,
          "past the most bits of an old form");
    for (k = 2; k < SIMD_HEAD; k++)
        check(form[k] == (k == OLD_HEAD), "the length past the most bits of an old form");
}

static void check_steps(const struct vector *v)
{
    uint8_t state[SIMD_BLOCK_LARGE], block[SIMD_BLOCK_LARGE];
    uint8_t end[SIMD_BLOCK_LARGE], back[SIMD_BLOCK_LARGE];
    uint32_t words[SIMD_WORDS_LARGE];
    size_t size = SIMD_BLOCK(v->width), k;
    for (k = 0; k < size; k++) {
        state[k] = (uint8_t)(3 * k);
        block[k] = (uint8_t)(5 * k + 1);
    }
    check(simd_expand(v->width, true, block, size, words, SIMD_WORDS_LARGE) == SIMD_ACCEPTED,
          "expand");
    check(simd_steps(v->width, true, state, size, block, size, end, size) == SIMD_ACCEPTED
              && simd_unsteps(v->width, true, end, size, block, size, back, size) == SIMD_ACCEPTED
              && memcmp(state, back, size) == 0,
          "steps and back");
}

static void check_compare(const struct vector *v)
{
    uint8_t a[200], b[200];
    uint64_t verdict, block;
    memset(a, 0x5a, sizeof a);
    memcpy(b, a, sizeof b);
    check(simd_compare(v->width, a, sizeof a, 1600, b, sizeof b, 1600, &verdict, &block)
                  == SIMD_ACCEPTED
              && verdict == SIMD_SAME,
          "compare equal messages");
    b[199] ^= 1;
    check(simd_compare(v->width, a, sizeof a, 1600, b, sizeof b, 1600, &verdict, &block)
                  == SIMD_ACCEPTED
              && verdict == SIMD_APART,
          "compare messages that differ in a bit");
    check(simd_compare(v->width, a, sizeof a, 1600, b, sizeof b, 1601, &verdict, &block)
              == SIMD_REFUSED_COUNT,
          "compare with too large a count");
}

static void check_tape(const struct vector *v)
{
    uint8_t tape[3 + 33 + 2] = {1}, out[SIMD_DIGEST_MAX], one_call[SIMD_DIGEST_MAX];
    uint64_t count, place = 99;
    tape[1] = (uint8_t)v->width;
    tape[2] = (uint8_t)(v->width >> 8);
    tape[3] = 2;
    memset(tape + 4, 0xc3, 32);
    tape[36] = 4;
    tape[37] = 5;
    check(simd_tape(tape, sizeof tape, out, sizeof out, &count, &place) == SIMD_ACCEPTED
              && count == 1 && place == 99,
          "tape");
    check(simd_hash(v->width, tape + 4, 32, 256, one_call, sizeof one_call) == SIMD_ACCEPTED
              && memcmp(out, one_call, SIMD_DIGEST(v->width)) == 0,
          "the tape's digest");
    check(simd_tape(tape, sizeof tape - 1, out, sizeof out, &count, &place) == SIMD_REFUSED_END
              && count == 1 && place == 37,
          "tape without STOP");
}

static uint8_t next_byte(void)
{
    static uint32_t seed = 3;
    seed = seed * UINT32_C(1664525) + UINT32_C(1013904223);
    return (uint8_t)(seed >> 24);
}

/* Bytes that begin with some bits of a message and go on with other bits, at least
   one of them set where a byte has some over. */
static void soil(uint8_t *dirty, size_t len, const uint8_t *message, uint64_t bits)
{
    size_t k, used = (size_t)(bits / 8);
    for (k = 0; k < len; k++)
        dirty[k] = k < used ? message[k] : next_byte();
    if (bits % 8) {
        uint8_t mask = (uint8_t)(0xff >> bits % 8);
        dirty[used] = (uint8_t)((message[used] & ~mask) | (next_byte() & mask) | 1);
    }
}

static const uint64_t COUNTS[] = {0, 1, 7, 8, 9, 511, 512, 513, 1023, 1024, 1025};
static const uint64_t TAILS[] = {0, 3, 8, 511};

enum { ROOM = 200, KEY = 5 };

/* Every call with bits past the count has the answer of the same bits with zeros
   after them; 700 or 1,079 ones with ones after them have the digest and tag of
   those alone. */
static void check_rubbish(const struct vector *v)
{
    static const uint8_t key[KEY] = {'g', 'r', 'o', 'u', 'p'};
    uint8_t clean[ROOM], dirty[ROOM], other[ROOM], long_key[SIMD_BLOCK_LARGE + 1];
    uint8_t out[2][SIMD_DIGEST_MAX], tag[2][SIMD_DIGEST_MAX];
    uint8_t form[2][SIMD_FORM_LARGE], keyed[2][SIMD_HMAC_FORM_LARGE];
    size_t size = SIMD_FORM(v->width), keyed_size = SIMD_HMAC_FORM(v->width), n, t;
    size_t digest_len = SIMD_DIGEST(v->width), key_len = SIMD_BLOCK(v->width) + 1;
    uint64_t blocks[2], verdict, block, right;
    for (n = 0; n < sizeof long_key; n++)
        long_key[n] = (uint8_t)n;
    memset(dirty, 0xff, sizeof dirty);
    check(simd_hash(v->width, dirty, sizeof dirty, v->ones, out[0], digest_len) == SIMD_ACCEPTED
              && is_hex(out[0], digest_len, v->ones_digest),
          "ones after the last bit of a message");
    check(simd_hmac(v->width, long_key, key_len, dirty, sizeof dirty, v->ones, tag[0], digest_len)
                  == SIMD_ACCEPTED
              && is_hex(tag[0], digest_len, v->ones_tag),
          "ones after the last bit of a message under a key");

    for (n = 0; n < sizeof COUNTS / sizeof *COUNTS; n++) {
        uint64_t bits = COUNTS[n];
        size_t used = (size_t)((bits + 7) / 8);
        memset(clean, 0, sizeof clean);
        for (t = 0; t < used; t++)
            clean[t] = next_byte();
        if (bits % 8)
            clean[used - 1] &= (uint8_t)(0xff00 >> bits % 8);
        soil(dirty, sizeof dirty, clean, bits);
        soil(other, sizeof other, clean, bits);
        check(simd_hash(v->width, clean, used, bits, out[0], digest_len) == SIMD_ACCEPTED
                  && simd_hash(v->width, dirty, sizeof dirty, bits, out[1], digest_len)
                         == SIMD_ACCEPTED
                  && memcmp(out[0], out[1], digest_len) == 0,
              "a digest with bits past the count");
        check(simd_hmac(v->width, key, KEY, clean, used, bits, tag[0], digest_len) == SIMD_ACCEPTED
                  && simd_hmac(v->width, key, KEY, dirty, sizeof dirty, bits, tag[1], digest_len)
                         == SIMD_ACCEPTED
                  && memcmp(tag[0], tag[1], digest_len) == 0,
              "a tag with bits past the count");
        check(simd_compare(v->width, dirty, sizeof dirty, bits, clean, used, bits, &verdict, &block)
                      == SIMD_ACCEPTED
                  && verdict == SIMD_SAME && block == 0,
              "bits past the first count");
        check(simd_compare(v->width, clean, used, bits, dirty, sizeof dirty, bits, &verdict, &block)
                      == SIMD_ACCEPTED
                  && verdict == SIMD_SAME && block == 0,
              "bits past the second count");
        check(simd_compare(v->width, dirty, sizeof dirty, bits, other, sizeof other, bits, &verdict,
                           &block)
                      == SIMD_ACCEPTED
                  && verdict == SIMD_SAME && block == 0,
              "bits past both counts");
        if (bits > 0) {
            other[(bits - 1) / 8] ^= (uint8_t)(0x80 >> (bits - 1) % 8);
            check(simd_compare(v->width, dirty, sizeof dirty, bits, other, sizeof other, bits,
                               &verdict, &block)
                          == SIMD_ACCEPTED
                      && verdict == SIMD_APART && block == 0,
                  "the last bit differs");
        }
        for (t = 0; t < sizeof TAILS / sizeof *TAILS; t++) {
            check(simd_open(v->width, form[0], size) == SIMD_ACCEPTED
                      && simd_feed(form[0], size, other, sizeof other, TAILS[t], &blocks[0])
                             == SIMD_ACCEPTED
                      && simd_hmac_open(v->width, key, KEY, keyed[0], keyed_size) == SIMD_ACCEPTED
                      && simd_hmac_feed(keyed[0], keyed_size, other, sizeof other, TAILS[t],
                                        &blocks[0])
                             == SIMD_ACCEPTED,
                  "a tail");
            memcpy(form[1], form[0], size);
            memcpy(keyed[1], keyed[0], keyed_size);
            check(simd_feed(form[0], size, clean, used, bits, &blocks[0]) == SIMD_ACCEPTED
                      && simd_feed(form[1], size, dirty, sizeof dirty, bits, &blocks[1])
                             == SIMD_ACCEPTED
                      && blocks[0] == blocks[1] && memcmp(form[0], form[1], size) == 0,
                  "a form after bits past the count");
            check(simd_hmac_feed(keyed[0], keyed_size, clean, used, bits, &blocks[0])
                          == SIMD_ACCEPTED
                      && simd_hmac_feed(keyed[1], keyed_size, dirty, sizeof dirty, bits, &blocks[1])
                             == SIMD_ACCEPTED
                      && blocks[0] == blocks[1] && memcmp(keyed[0], keyed[1], keyed_size) == 0,
                  "a keyed form after bits past the count");
            right = 7;
            check(simd_hmac_take(keyed[0], keyed_size, tag[0], digest_len, &blocks[0])
                          == SIMD_ACCEPTED
                      && simd_hmac_check(keyed[1], keyed_size, tag[0], digest_len, &right)
                             == SIMD_ACCEPTED
                      && right == 1,
                  "a tag of bits past the count");
        }
    }

    /* In a stored form a bit past the tail is refused as before. */
    form[0][size - 1] |= 1;
    keyed[0][keyed_size - 1] |= 1;
    check(simd_take(form[0], size, out[0], digest_len, &blocks[0]) == SIMD_REFUSED_TAIL
              && simd_feed(form[0], size, dirty, sizeof dirty, 9, &blocks[0]) == SIMD_REFUSED_TAIL
              && simd_hmac_take(keyed[0], keyed_size, tag[0], digest_len, &blocks[0])
                     == SIMD_REFUSED_TAIL
              && simd_hmac_feed(keyed[0], keyed_size, dirty, sizeof dirty, 9, &blocks[0])
                     == SIMD_REFUSED_TAIL
              && simd_hmac_check(keyed[0], keyed_size, tag[0], digest_len, &right)
                     == SIMD_REFUSED_TAIL,
          "a bit past a tail");
}

/* PART of every count, with other bits in the rest of its 32 bytes. */
static void check_parts(const struct vector *v)
{
    uint8_t tape[3 + 34 + 2] = {1}, part[32], out[2][SIMD_DIGEST_MAX];
    size_t digest_len = SIMD_DIGEST(v->width), k;
    uint64_t count, place = 99;
    unsigned bits;
    tape[1] = (uint8_t)v->width;
    tape[2] = (uint8_t)(v->width >> 8);
    tape[3] = 3;
    tape[37] = 4;
    tape[38] = 5;
    for (bits = 0; bits < 256; bits++) {
        memset(part, 0, sizeof part);
        for (k = 0; k < (bits + 7) / 8; k++)
            part[k] = next_byte();
        if (bits % 8)
            part[bits / 8] &= (uint8_t)(0xff00 >> bits % 8);
        tape[4] = (uint8_t)bits;
        soil(tape + 5, sizeof part, part, bits);
        check(simd_tape(tape, sizeof tape, out[0], digest_len, &count, &place) == SIMD_ACCEPTED
                  && count == 1 && place == 99
                  && simd_hash(v->width, part, sizeof part, bits, out[1], digest_len)
                         == SIMD_ACCEPTED
                  && memcmp(out[0], out[1], digest_len) == 0,
              "PART with bits past the count");
    }
}

enum { ENTRIES = 9 };

/* Entries in one buffer, with guard bytes on both sides, each beside what snprintf
   makes of the digest of one block; then the refusals, in their order. */
static void check_page(const struct vector *v)
{
    static const uint64_t NUMBERS[ENTRIES] = {0, 9, 10, 99, 1000, 99999, 100000, 999998, 999999};
    uint8_t message[SIMD_BLOCK_LARGE], digest[SIMD_DIGEST_MAX + 1] = {0};
    uint8_t page[GUARD + ENTRIES * SIMD_ENTRY_MAX + GUARD], kept[sizeof page];
    char expected[SIMD_ENTRY_MAX + 1];
    size_t size = SIMD_ENTRY(v->width), digest_len = SIMD_DIGEST(v->width), at = GUARD, k;
    uint8_t *out = page + GUARD;
    for (k = 0; k < sizeof message; k++)
        message[k] = (uint8_t)k;
    check(simd_hash(v->width, message, sizeof message, 8 * (uint64_t)SIMD_BLOCK(v->width), digest,
                    digest_len)
              == SIMD_ACCEPTED,
          "a digest to print");
    memset(page, 0x5a, sizeof page);
    for (k = 0; k < ENTRIES; k++, at += size) {
        int len = snprintf(expected, sizeof expected, "%6lu %3u %-64.64s\n",
                           (unsigned long)NUMBERS[k], (unsigned)v->width, v->block_digest);
        if (v->width > 256)
            len += snprintf(expected + len, sizeof expected - (size_t)len, "%11s%-64s\n", "",
                            v->block_digest + 64);
        check((size_t)len == size, "the size of an entry");
        check(simd_page_entry(NUMBERS[k], v->width, digest, digest_len, page + at, size)
                      == SIMD_ACCEPTED
                  && memcmp(page + at, expected, size) == 0,
              "an entry");
    }
    memset(kept, 0x5a, sizeof kept);
    check(memcmp(page, kept, GUARD) == 0 && memcmp(page + at, kept, sizeof page - at) == 0,
          "what lies round a page");

    memset(page, 0x5a, sizeof page);
    check(simd_page_entry(1000000, v->width + 1, digest, digest_len - 1, out, size - 1)
                  == SIMD_REFUSED_WIDTH
              && simd_page_entry(1000000, v->width, digest, digest_len - 1, out, size - 1)
                     == SIMD_REFUSED_BLOCK
              && simd_page_entry(0, v->width, digest, digest_len + 1, out, size)
                     == SIMD_REFUSED_BLOCK
              && simd_page_entry(1000000, v->width, digest, digest_len, out, size - 1)
                     == SIMD_REFUSED_ENTRY
              && simd_page_entry(UINT64_C(4294967297), v->width, digest, digest_len, out, size)
                     == SIMD_REFUSED_ENTRY
              && simd_page_entry(SIMD_NUMBER_MAX, v->width, digest, digest_len, out, size - 1)
                     == SIMD_REFUSED_OUTPUT
              && memcmp(page, kept, sizeof page) == 0,
          "refusals of a page");
    /* What is expected is still the last entry above. */
    check(simd_page_entry(SIMD_NUMBER_MAX, v->width, digest, digest_len, out, size + 9)
                  == SIMD_ACCEPTED
              && memcmp(out, expected, size) == 0
              && memcmp(out + size, kept, sizeof page - GUARD - size) == 0,
          "an entry in a longer output");
}

enum { QUOTES = 8 };

/* The first 8 bytes of a digest and their quote. */
static const struct {
    uint64_t number;
    const char *quote;
} WORKED[QUOTES] = {
    {0, "000000000000000098"}, {1, "000000000000000195"}, {31, "000000000000001f05"},
    {32, "000000000000002002"}, {96, "000000000000006004"}, {97, "000000000000006198"},
    {UINT64_C(0x0123456789abcdef), "0123456789abcdef81"}, {UINT64_MAX, "ffffffffffffffff15"},
};

/* Whether bytes are told to be a right quote; the verdict is written whatever was
   there before. */
static int is_right_quote(const uint8_t *quote, size_t len)
{
    uint64_t first = 0, second = 1, third = UINT64_C(0x0123456789abcdef);
    check(simd_quote_check(quote, len, &first) == SIMD_ACCEPTED
              && simd_quote_check(quote, len, &second) == SIMD_ACCEPTED
              && simd_quote_check(quote, len, &third) == SIMD_ACCEPTED
              && first <= 1 && second == first && third == first,
          "nothing is refused, and one verdict written");
    return first == 1;
}

/* A right quote, and what is none: of every other length, with another character at
   any place, with unequal neighbours exchanged, in capitals. */
static void check_slips(const char *text)
{
    uint8_t quote[2 * SIMD_QUOTE_MAX], kept;
    size_t k, n;
    int letters = 0;
    memcpy(quote, text, SIMD_QUOTE_MAX);
    memcpy(quote + SIMD_QUOTE_MAX, text, SIMD_QUOTE_MAX);
    for (k = 0; k <= sizeof quote; k++)
        check(is_right_quote(quote, k) == (k == SIMD_QUOTE_MAX), "the length of a quote");
    for (k = 0; k < SIMD_QUOTE_MAX; k++) {
        kept = quote[k];
        for (n = 0; n < 256; n++) {
            quote[k] = (uint8_t)n;
            check(is_right_quote(quote, SIMD_QUOTE_MAX) == (n == kept), "a character changed");
        }
        quote[k] = kept;
    }
    for (k = 0; k + 1 < SIMD_QUOTE_MAX - 2; k++) {
        kept = quote[k];
        quote[k] = quote[k + 1];
        quote[k + 1] = kept;
        check(is_right_quote(quote, SIMD_QUOTE_MAX) == (quote[k] == kept), "neighbours exchanged");
        quote[k + 1] = quote[k];
        quote[k] = kept;
    }
    for (k = 0; k < SIMD_QUOTE_MAX; k++)
        if (quote[k] >= 'a') {
            quote[k] = (uint8_t)(quote[k] - 'a' + 'A');
            letters++;
        }
    check(is_right_quote(quote, SIMD_QUOTE_MAX) == (letters == 0), "a quote in capitals");
}

/* Quotes with guard bytes on both sides; then the refusals, in their order. */
static void check_quote(const struct vector *v)
{
    uint8_t message[SIMD_BLOCK_LARGE], digest[SIMD_DIGEST_MAX + 1] = {0};
    uint8_t out[GUARD + SIMD_QUOTE_MAX + GUARD], kept[sizeof out];
    size_t size = SIMD_QUOTE(v->width), digest_len = SIMD_DIGEST(v->width), k, n;
    check(size == 18 && SIMD_QUOTE_MAX == 18, "the size of a quote");
    for (k = 0; k < sizeof message; k++)
        message[k] = (uint8_t)k;
    check(simd_hash(v->width, message, sizeof message, 8 * (uint64_t)SIMD_BLOCK(v->width), digest,
                    digest_len)
              == SIMD_ACCEPTED,
          "a digest to quote");
    memset(kept, 0x5a, sizeof kept);
    memset(out, 0x5a, sizeof out);
    check(simd_quote(v->width, digest, digest_len, out + GUARD, size) == SIMD_ACCEPTED
              && memcmp(out + GUARD, v->block_quote, size) == 0
              && memcmp(out, kept, GUARD) == 0 && memcmp(out + GUARD + size, kept, GUARD) == 0,
          "a quote, and what lies round it");
    check_slips(v->block_quote);
    for (k = 0; k < QUOTES; k++) {
        for (n = 0; n < 8; n++)
            digest[n] = (uint8_t)(WORKED[k].number >> (56 - 8 * n));
        memset(out, 0x5a, sizeof out);
        check(simd_quote(v->width, digest, digest_len, out + GUARD, size + GUARD) == SIMD_ACCEPTED
                  && memcmp(out + GUARD, WORKED[k].quote, size) == 0
                  && memcmp(out, kept, GUARD) == 0
                  && memcmp(out + GUARD + size, kept, GUARD) == 0,
              "a quote in a longer output");
        check(is_right_quote(out + GUARD, size), "the quote of a digest is right");
    }

    memset(out, 0x5a, sizeof out);
    check(simd_quote(v->width + 1, digest, digest_len - 1, out, size - 1) == SIMD_REFUSED_WIDTH
              && simd_quote(v->width + 1, digest, digest_len, out, size) == SIMD_REFUSED_WIDTH
              && simd_quote(v->width, digest, digest_len - 1, out, size - 1) == SIMD_REFUSED_BLOCK
              && simd_quote(v->width, digest, digest_len + 1, out, size) == SIMD_REFUSED_BLOCK
              && simd_quote(v->width, digest, 8, out, size) == SIMD_REFUSED_BLOCK
              && simd_quote(v->width, digest, digest_len, out, size - 1) == SIMD_REFUSED_OUTPUT
              && simd_quote(v->width, digest, digest_len, out, 0) == SIMD_REFUSED_OUTPUT
              && memcmp(out, kept, sizeof out) == 0,
          "refusals of a quote");
}

/* The sizes of indexes; each argument of the macro is evaluated once. */
static void check_index_sizes(void)
{
    static const struct {
        uint16_t width;
        uint64_t bits;
        size_t size;
    } SIZES[] = {
        {224, 0, 10}, {256, 511, 10}, {256, 512, 74}, {224, 8703, 74}, {256, 8704, 138},
        {256, 524288, 4106}, {384, 0, 10}, {512, 1023, 10}, {512, 1024, 138}, {384, 17407, 138},
        {512, 17408, 266}, {512, 524288, 4106}, {256, UINT64_C(4294967295), 33554442},
        {256, UINT64_C(4294967808), 33554506}, {512, UINT64_C(4294968320), 33554570},
        {256, SIMD_BITS_MAX, 144115188075855882}, {512, SIMD_BITS_MAX, 144115188075855882},
    };
    static const uint16_t widths[2] = {256, 512};
    static const uint64_t counts[2] = {8704, 17408};
    const uint16_t *w = widths;
    const uint64_t *n = counts;
    uint8_t states[SIMD_INDEX(512, 17408)];
    size_t k;
    for (k = 0; k < sizeof SIZES / sizeof *SIZES; k++)
        check(SIMD_INDEX(SIZES[k].width, SIZES[k].bits) == SIZES[k].size, "the size of an index");
    check(SIMD_INDEX(*w++, *n++) == 138, "the size of an index, small family");
    check(SIMD_INDEX(*w++, *n++) == 266, "the size of an index, large family");
    check(w == widths + 2 && n == counts + 2, "each argument once");
    check(sizeof states == 266, "the size of an index, by constants");
}

enum { RECORD_BLOCKS = 40, STATES = 3, RECORD = (RECORD_BLOCKS + 1) * SIMD_BLOCK_LARGE };

/* A record with other bits and bytes behind it, and what runs leave: the first one's
   index is what the corrections are given. */
static uint8_t record[RECORD];
static struct run {
    uint8_t index[SIMD_HEAD + STATES * SIMD_BLOCK_LARGE + GUARD], out[SIMD_DIGEST_MAX + GUARD];
    uint64_t blocks;
} first, second, fresh;

static void wipe(struct run *run)
{
    memset(run, 0x5a, sizeof *run);
}

static uint8_t index_it(struct run *run, uint16_t width, uint64_t bits, size_t room, size_t out_len)
{
    wipe(run);
    return simd_index(width, record, (size_t)(bits + 7) / 8, bits, run->index, room, run->out,
                      out_len, &run->blocks);
}

static uint8_t correct_it(uint16_t width, uint64_t bits, size_t old_len, uint64_t block, size_t room,
                          size_t out_len)
{
    wipe(&second);
    return simd_reindex(width, record, sizeof record, bits, first.index, old_len, block,
                        second.index, room, second.out, out_len, &second.blocks);
}

/* A correction that is refused, and writes nothing. */
static void check_refused(uint8_t refusal, uint16_t width, uint64_t bits, size_t old_len,
                          uint64_t block, size_t room, size_t out_len)
{
    wipe(&fresh);
    check(correct_it(width, bits, old_len, block, room, out_len) == refusal
              && memcmp(&second, &fresh, sizeof fresh) == 0,
          "a correction refused");
}

/* A record of 40 blocks and 13 bits: its index, beside the states of an open hash, and a
   correction in every block; a state and a number that are not those of the record; then
   the refusals, in their order. */
static void check_index(const struct vector *v)
{
    uint8_t form[SIMD_FORM_LARGE];
    size_t size = SIMD_BLOCK(v->width), digest_len = SIMD_DIGEST(v->width), k;
    uint64_t bits = RECORD_BLOCKS * 8 * (uint64_t)size + 13, last = RECORD_BLOCKS + 1, block, fed;
    size_t len = SIMD_INDEX(v->width, bits), at = SIMD_HEAD + size;
    uint16_t width = v->width, other = v->width == 256 ? 224 : 384;
    const uint8_t *index = first.index;
    for (k = 0; k < sizeof record; k++)
        record[k] = (uint8_t)(167 * k + (k >> 8));
    check(index_it(&first, width, bits, len + GUARD, digest_len + GUARD) == SIMD_ACCEPTED
              && is_hex(first.out, digest_len, v->record_digest) && first.blocks == last + 1,
          "a record with its index");
    wipe(&fresh);
    check(memcmp(index + len, fresh.index, GUARD) == 0
              && memcmp(first.out + digest_len, fresh.out, GUARD) == 0,
          "what lies behind an index and its digest");
    check(len == SIMD_HEAD + STATES * size && index[0] == (width & 255) && index[1] == width >> 8
              && index[2] == (bits & 255) && index[3] == bits >> 8,
          "the front of an index");
    for (k = 4; k < SIMD_HEAD; k++)
        check(index[k] == 0, "the high bytes of its length");
    check(simd_open(width, form, sizeof form) == SIMD_ACCEPTED, "open");
    for (k = 0; k < STATES; k++) {
        check(memcmp(index + SIMD_HEAD + k * size, form + SIMD_HEAD, size) == 0,
              "a state of an index");
        check(simd_feed(form, SIMD_FORM(width), record + 16 * k * size, sizeof record - 16 * k * size,
                        k < 2 ? 128 * (uint64_t)size : 0, &fed)
                  == SIMD_ACCEPTED,
              "feed 16 blocks");
    }

    for (block = 0; block <= last; block++) {
        uint64_t skipped = block < 32 ? block / 16 * 16 : 32;
        if (block < last)
            record[block * size] ^= 0x10;
        check(index_it(&fresh, width, bits, len, digest_len) == SIMD_ACCEPTED
                  && correct_it(width, bits, len, block, len, digest_len) == SIMD_ACCEPTED
                  && second.blocks + skipped == fresh.blocks,
              "a correction");
        second.blocks = fresh.blocks;
        check(memcmp(&second, &fresh, sizeof fresh) == 0, "a correction is a fresh run");
        if (block == 37)
            check(is_hex(second.out, digest_len, v->corrected_digest), "the corrected digest");
        if (block < last)
            record[block * size] ^= 0x10;
    }

    /* A number behind the correction: the states give what they gave. */
    record[3 * size] ^= 1;
    check(correct_it(width, bits, len, 16, len, digest_len) == SIMD_ACCEPTED
              && memcmp(second.index, index, len) == 0
              && memcmp(second.out, first.out, digest_len) == 0,
          "a number behind the correction");
    record[3 * size] ^= 1;
    /* Another state before block 0 is used and carried. */
    first.index[SIMD_HEAD] ^= 1;
    check(correct_it(width, bits, len, 0, len, digest_len) == SIMD_ACCEPTED
              && second.blocks == last + 1 && memcmp(second.index, index, at) == 0
              && memcmp(second.index + at, index + at, size) != 0
              && memcmp(second.out, first.out, digest_len) != 0,
          "another state before block 0");
    first.index[SIMD_HEAD] ^= 1;

    check_refused(SIMD_REFUSED_WIDTH, width + 1, 8 * RECORD + 1, len - 1, last + 1, 0, 0);
    check_refused(SIMD_REFUSED_COUNT, width, 8 * RECORD + 1, len - 1, last + 1, 0, 0);
    check_refused(SIMD_REFUSED_INDEX, width, bits, len - 1, last + 1, 0, 0);
    check_refused(SIMD_REFUSED_INDEX, width, bits, len - 1, 0, len, digest_len);
    check_refused(SIMD_REFUSED_INDEX, width, bits, len + 1, 0, len, digest_len);
    check_refused(SIMD_REFUSED_INDEX, width, bits, 0, 0, len, digest_len);
    check_refused(SIMD_REFUSED_INDEX, other, bits, len, 0, len, digest_len);
    check_refused(SIMD_REFUSED_INDEX, width, bits - 1, len, 0, len, digest_len);
    check_refused(SIMD_REFUSED_INDEX, width, bits, len, last + 1, len, digest_len);
    check_refused(SIMD_REFUSED_INDEX, width, bits, len, UINT64_C(4294967296), len, digest_len);
    check_refused(SIMD_REFUSED_INDEX, width, bits, len, UINT64_MAX, len, digest_len);
    check_refused(SIMD_REFUSED_OUTPUT, width, bits, len, last, len - 1, digest_len);
    check_refused(SIMD_REFUSED_OUTPUT, width, bits, len, last, len, digest_len - 1);
    check(index_it(&second, width + 1, bits, 0, 0) == SIMD_REFUSED_WIDTH
              && index_it(&second, width, bits, len - 1, digest_len) == SIMD_REFUSED_OUTPUT
              && index_it(&second, width, bits, len, digest_len - 1) == SIMD_REFUSED_OUTPUT
              && memcmp(&second, &fresh, sizeof fresh) == 0,
          "a fresh run refused");

    /* As it was with 4 length bytes it is refused; made again, it corrects. */
    memmove(first.index + OLD_HEAD, first.index + SIMD_HEAD, len - SIMD_HEAD);
    for (block = 0; block <= last; block += last)
        check_refused(SIMD_REFUSED_INDEX, width, bits, len - SIMD_HEAD + OLD_HEAD, block, len,
                      digest_len);
    check(index_it(&first, width, bits, len, digest_len) == SIMD_ACCEPTED
              && correct_it(width, bits, len, last, len, digest_len) == SIMD_ACCEPTED
              && memcmp(second.index, index, len) == 0
              && is_hex(second.out, digest_len, v->record_digest),
          "an old index made again");
}

int main(void)
{
    size_t k;
    for (k = 0; k < sizeof VECTORS / sizeof *VECTORS; k++) {
        check_hash(&VECTORS[k]);
        check_pieces(&VECTORS[k]);
        check_keyed(&VECTORS[k]);
        check_old(&VECTORS[k]);
        check_old_keyed(&VECTORS[k]);
        check_limit(&VECTORS[k]);
        check_steps(&VECTORS[k]);
        check_compare(&VECTORS[k]);
        check_tape(&VECTORS[k]);
        check_rubbish(&VECTORS[k]);
        check_parts(&VECTORS[k]);
        check_page(&VECTORS[k]);
        check_quote(&VECTORS[k]);
        check_index(&VECTORS[k]);
    }
    check_form_sizes();
    check_index_sizes();
    printf("c: %u compared, %u differ\n", compared, differ);
    return differ != 0;
}
