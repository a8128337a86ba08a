/* The stack that each call of include/simd.h uses, against SIMD_STACK_OPEN and
   its like.  Each call is made on a stack of its own that is filled with a
   pattern; what is no longer the pattern afterwards was used.  Wrong is a bound
   that is exceeded, and one that is more than a quarter too large: the library
   has changed, and the header has to follow.  The exit status is 0 where all
   bounds are right. */

#define _XOPEN_SOURCE 700
#include <stdio.h>
#include <string.h>
#include <ucontext.h>

#include "simd.h"

enum { STACK_WORDS = 32768, LONG = 4096 };

static uint64_t stack[STACK_WORDS];
static ucontext_t outside, inside;

/* What the calls are lent, and what they answer. */
static uint16_t width;
static uint8_t form[SIMD_FORM_LARGE], stored[SIMD_FORM_LARGE], keyed[SIMD_HMAC_FORM_LARGE];
static uint8_t a[LONG], b[LONG], out[LONG];
static uint8_t old[SIMD_INDEX(256, 8 * LONG) + 1], made[sizeof old];
static uint32_t words[SIMD_WORDS_LARGE];
static size_t form_len, stored_len, keyed_len, key_len, tag_len, block_len, tape_len, digest_len;
static size_t entry_len, quote_len, old_len, made_len;
static uint64_t bits, other_bits, number, second, entry, block;
static volatile uint8_t answer;

/* The stack pointer before the call's arguments are put in place. */
static uintptr_t before;
#define MARK() __asm__ volatile("mov %%rsp, %0" : "=r"(before) : : "memory")

static void call_open(void)
{
    MARK();
    answer = simd_open(width, form, sizeof form);
}

static void call_feed(void)
{
    MARK();
    answer = simd_feed(form, form_len, a, sizeof a, bits, &number);
}

static void call_take(void)
{
    MARK();
    answer = simd_take(form, form_len, out, sizeof out, &number);
}

static void call_restore(void)
{
    MARK();
    answer = simd_restore(stored, stored_len, form, sizeof form);
}

static void call_hash(void)
{
    MARK();
    answer = simd_hash(width, a, sizeof a, bits, out, sizeof out);
}

static void call_hmac_open(void)
{
    MARK();
    answer = simd_hmac_open(width, b, key_len, keyed, sizeof keyed);
}

static void call_hmac_feed(void)
{
    MARK();
    answer = simd_hmac_feed(keyed, keyed_len, a, sizeof a, bits, &number);
}

static void call_hmac_take(void)
{
    MARK();
    answer = simd_hmac_take(keyed, keyed_len, out, sizeof out, &number);
}

static void call_hmac_check(void)
{
    MARK();
    answer = simd_hmac_check(keyed, keyed_len, out, tag_len, &number);
}

static void call_hmac(void)
{
    MARK();
    answer = simd_hmac(width, b, key_len, a, sizeof a, bits, out, sizeof out);
}

static void call_expand(void)
{
    MARK();
    answer = simd_expand(width, bits & 1, a, block_len, words, SIMD_WORDS_LARGE);
}

static void call_steps(void)
{
    MARK();
    answer = simd_steps(width, bits & 1, b, block_len, a, block_len, out, sizeof out);
}

static void call_unsteps(void)
{
    MARK();
    answer = simd_unsteps(width, bits & 1, b, block_len, a, block_len, out, sizeof out);
}

static void call_compare(void)
{
    MARK();
    answer = simd_compare(width, a, sizeof a, bits, b, sizeof b, other_bits, &number, &second);
}

static void call_tape(void)
{
    MARK();
    answer = simd_tape(b, tape_len, out, sizeof out, &number, &second);
}

static void call_page_entry(void)
{
    MARK();
    answer = simd_page_entry(entry, width, a, digest_len, out, entry_len);
}

static void call_quote(void)
{
    MARK();
    answer = simd_quote(width, a, digest_len, out, quote_len);
}

static void call_quote_check(void)
{
    MARK();
    answer = simd_quote_check(out, quote_len, &number);
}

static void call_index(void)
{
    MARK();
    answer = simd_index(width, a, sizeof a, bits, made, made_len, out, sizeof out, &number);
}

static void call_reindex(void)
{
    MARK();
    answer = simd_reindex(width, a, sizeof a, bits, old, old_len, block, made, made_len,
                          out, sizeof out, &number);
}

static struct bound {
    const char *name;
    size_t bound, used;
    void (*call)(void);
    unsigned calls, accepted;
} BOUNDS[] = {
    {"simd_open", SIMD_STACK_OPEN, 0, call_open, 0, 0},
    {"simd_feed", SIMD_STACK_FEED, 0, call_feed, 0, 0},
    {"simd_take", SIMD_STACK_TAKE, 0, call_take, 0, 0},
    {"simd_restore", SIMD_STACK_RESTORE, 0, call_restore, 0, 0},
    {"simd_hash", SIMD_STACK_HASH, 0, call_hash, 0, 0},
    {"simd_hmac_open", SIMD_STACK_HMAC_OPEN, 0, call_hmac_open, 0, 0},
    {"simd_hmac_feed", SIMD_STACK_HMAC_FEED, 0, call_hmac_feed, 0, 0},
    {"simd_hmac_take", SIMD_STACK_HMAC_TAKE, 0, call_hmac_take, 0, 0},
    {"simd_hmac_check", SIMD_STACK_HMAC_CHECK, 0, call_hmac_check, 0, 0},
    {"simd_hmac", SIMD_STACK_HMAC, 0, call_hmac, 0, 0},
    {"simd_expand", SIMD_STACK_EXPAND, 0, call_expand, 0, 0},
    {"simd_steps", SIMD_STACK_STEPS, 0, call_steps, 0, 0},
    {"simd_unsteps", SIMD_STACK_UNSTEPS, 0, call_unsteps, 0, 0},
    {"simd_compare", SIMD_STACK_COMPARE, 0, call_compare, 0, 0},
    {"simd_tape", SIMD_STACK_TAPE, 0, call_tape, 0, 0},
    {"simd_page_entry", SIMD_STACK_PAGE_ENTRY, 0, call_page_entry, 0, 0},
    {"simd_quote", SIMD_STACK_QUOTE, 0, call_quote, 0, 0},
    {"simd_quote_check", SIMD_STACK_QUOTE_CHECK, 0, call_quote_check, 0, 0},
    {"simd_index", SIMD_STACK_INDEX, 0, call_index, 0, 0},
    {"simd_reindex", SIMD_STACK_REINDEX, 0, call_reindex, 0, 0},
};
enum {
    OPEN, FEED, TAKE, RESTORE, HASH, HMAC_OPEN, HMAC_FEED, HMAC_TAKE, HMAC_CHECK, HMAC,
    EXPAND, STEPS, UNSTEPS, COMPARE, TAPE, PAGE_ENTRY, QUOTE, QUOTE_CHECK, INDEX, REINDEX, CALLS
};

static uint64_t pattern(size_t k)
{
    return (k + 1) * UINT64_C(0x9e3779b97f4a7c15);
}

/* Makes a call on the painted stack and keeps the most that was used. */
static void measure(int which)
{
    struct bound *bound = &BOUNDS[which];
    size_t k, used;
    for (k = 0; k < STACK_WORDS; k++)
        stack[k] = pattern(k);
    getcontext(&inside);
    inside.uc_stack.ss_sp = stack;
    inside.uc_stack.ss_size = sizeof stack;
    inside.uc_link = &outside;
    makecontext(&inside, bound->call, 0);
    swapcontext(&outside, &inside);
    for (k = 0; stack[k] == pattern(k); k++)
        ;
    used = before - (uintptr_t)&stack[k];
    if (used > bound->used)
        bound->used = used;
    bound->calls++;
    bound->accepted += answer == SIMD_ACCEPTED;
}

/* Some bits of a, with others after them; b is the same but for a bit. */
static void message(uint64_t count, size_t place)
{
    size_t k;
    for (k = 0; k < LONG; k++)
        a[k] = (uint8_t)(167 * k + 90);
    memcpy(b, a, sizeof b);
    if (place < count / 8)
        b[place] ^= 1;
    bits = other_bits = count;
}

/* A tape in b, with every command; its pieces fill more than one block, leave a
   tail that is no whole byte, and have bits past their count. */
static void tape(void)
{
    size_t at = 0;
    int k;
    b[at++] = 1;
    b[at++] = (uint8_t)width;
    b[at++] = (uint8_t)(width >> 8);
    for (k = 0; k < 5; k++) {
        b[at++] = 2;
        memset(b + at, 0x5a, 32);
        at += 32;
        b[at++] = 3;
        b[at++] = 203;
        memset(b + at, 0xc3, 32);
        at += 32;
    }
    b[at++] = 4;
    b[at++] = 5;
    tape_len = at;
}

/* The form restored, and its old form taken, fed, which is refused, and restored; then an
   old one that is a byte short, and the form again. */
static void measure_restored(void)
{
    memcpy(stored, form, sizeof stored);
    stored_len = form_len;
    measure(RESTORE);
    memmove(stored + SIMD_HEAD - 4, stored + SIMD_HEAD, form_len - SIMD_HEAD);
    stored_len = SIMD_OLD_FORM(width);
    memcpy(form, stored, stored_len);
    form_len = stored_len;
    measure(TAKE);
    measure(FEED);
    form_len = SIMD_FORM(width);
    stored_len--;
    measure(RESTORE);
    stored_len++;
    measure(RESTORE);
}

/* A keyed hash with the key that lies in b, fed twice; tags of all kinds. */
static void measure_keyed(uint64_t tail, uint64_t count)
{
    measure(HMAC_OPEN);
    message(tail, LONG);
    measure(HMAC_FEED);
    measure(HMAC_TAKE);
    message(count, LONG);
    measure(HMAC_FEED);
    measure(HMAC_TAKE);
    tag_len = width / 8;
    measure(HMAC_CHECK);
    out[tag_len - 1] ^= 1;
    measure(HMAC_CHECK);
    tag_len--;
    measure(HMAC_CHECK);
    measure(HMAC);
}

/* An entry of every kind of number; then one for which the digest is a byte short,
   and one for which the output is. */
static void measure_entries(void)
{
    static const uint64_t NUMBERS[] = {0, 10, 99999, 100000, 999999, 1000000, UINT64_MAX};
    size_t k;
    digest_len = SIMD_DIGEST(width);
    entry_len = SIMD_ENTRY(width);
    for (k = 0; k < sizeof NUMBERS / sizeof *NUMBERS; k++) {
        entry = NUMBERS[k];
        measure(PAGE_ENTRY);
    }
    entry = 1;
    digest_len--;
    measure(PAGE_ENTRY);
    digest_len++;
    entry_len--;
    measure(PAGE_ENTRY);
}

/* Quotes with a check of either kind of first digit, each checked as it is and with
   another character at each place; then one for which the digest is a byte short,
   one for which the output is, and checks of every length. */
static void measure_quotes(void)
{
    static const uint8_t LAST[] = {0, 1, 31, 32};
    size_t k, n;
    digest_len = SIMD_DIGEST(width);
    quote_len = SIMD_QUOTE(width);
    for (k = 0; k < sizeof LAST; k++) {
        memset(a, 0, 8);
        a[7] = LAST[k];
        measure(QUOTE);
        measure(QUOTE_CHECK);
        for (n = 0; n < quote_len; n++) {
            uint8_t kept = out[n];
            out[n] = 'g';
            measure(QUOTE_CHECK);
            out[n] = '7';
            measure(QUOTE_CHECK);
            out[n] = kept;
        }
    }
    memset(a, 0xff, 8);
    measure(QUOTE);
    measure(QUOTE_CHECK);
    digest_len--;
    measure(QUOTE);
    digest_len++;
    for (quote_len = 0; quote_len < 2 * SIMD_QUOTE(width); quote_len++) {
        measure(QUOTE);
        measure(QUOTE_CHECK);
    }
}

/* An index of the message in a, and corrections from the blocks round each kept state
   and from the last ones; then one for which the index is a byte longer, and both for
   which the new one is a byte short. */
static void measure_indexes(void)
{
    uint64_t last = (bits + 8 * block_len - 1) / (8 * block_len);
    old_len = made_len = SIMD_INDEX(width, bits);
    measure(INDEX);
    memcpy(old, made, sizeof old);
    for (block = 0; block <= last + 1; block++)
        if (block % 16 < 2 || block + 2 >= last)
            measure(REINDEX);
    block = 0;
    old_len++;
    measure(REINDEX);
    old_len--;
    made_len--;
    measure(INDEX);
    measure(REINDEX);
}

int main(void)
{
    static const uint16_t WIDTHS[] = {224, 256, 384, 512, 160};
    static const uint64_t TAILS[] = {0, 3, 8, 500, 1021};
    static const uint64_t COUNTS[] = {0, 1, 8, 13, 511, 512, 513, 1024, 1031, 8192, 32761, 32768};
    static const size_t KEYS[] = {0, 1, 64, 65, 128, 129, 300, LONG};
    size_t w, t, c, n, most = 0;
    unsigned wrong = 0;
    int k;
    for (w = 0; w < sizeof WIDTHS / sizeof *WIDTHS; w++) {
        width = WIDTHS[w];
        form_len = SIMD_FORM(width);
        keyed_len = SIMD_HMAC_FORM(width);
        block_len = SIMD_BLOCK(width);
        for (c = 0; c < sizeof COUNTS / sizeof *COUNTS; c++) {
            message(COUNTS[c], LONG);
            measure(HASH);
            measure_indexes();
            measure(COMPARE);
            message(COUNTS[c], 0);
            measure(COMPARE);
            message(COUNTS[c], COUNTS[c] / 8 - 1);
            measure(COMPARE);
            other_bits /= 2;
            measure(COMPARE);
            for (t = 0; t < sizeof TAILS / sizeof *TAILS; t++) {
                measure(OPEN);
                message(TAILS[t], LONG);
                measure(FEED);
                measure(TAKE);
                measure_restored();
                message(COUNTS[c], LONG);
                measure(FEED);
                measure(TAKE);
                for (n = 0; n < sizeof KEYS / sizeof *KEYS; n++) {
                    key_len = KEYS[n];
                    measure_keyed(TAILS[t], COUNTS[c]);
                }
            }
        }
        for (bits = 0; bits < 2; bits++) {
            measure(EXPAND);
            measure(STEPS);
            measure(UNSTEPS);
        }
        tape();
        measure(TAPE);
        tape_len--;
        measure(TAPE);
        measure_entries();
        measure_quotes();
    }
    for (k = 0; k < CALLS; k++) {
        const struct bound *bound = &BOUNDS[k];
        int right = bound->used <= bound->bound && 4 * bound->bound <= 5 * bound->used
                    && bound->accepted > 0;
        printf("%-16s %6zu of %6zu bytes of stack, %u calls, %u accepted%s\n", bound->name,
               bound->used, bound->bound, bound->calls, bound->accepted, right ? "" : ": wrong");
        wrong += !right;
        if (bound->bound > most)
            most = bound->bound;
    }
    wrong += most != SIMD_STACK_MAX;
    printf("stack: %d bounds, %u wrong\n", CALLS + 1, wrong);
    return wrong != 0;
}
