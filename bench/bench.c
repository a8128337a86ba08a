/* Speed of the library beside the baselines of tests/baseline.

     bench                               a line of figures for each task
     bench lengths WIDTH BYTES..         cycles for a message of each length
     bench feeds WIDTH BITS..            cycles for a feed of so many bits
     bench seals WIDTH                   cycles for a long message, hashed and sealed under a key
     bench indexes WIDTH                 cycles for a long message, hashed, with its index, and
                                         corrected in its last block; then the blocks that the
                                         correction compresses, and all blocks
     bench count TASK WHO                runs a task once, in the function `counted`
     bench count-length WIDTH BYTES WHO  the same for one message
     bench count-feeds WIDTH BITS        the same for FEEDS feeds
     bench count-seals WIDTH KEYED       the same for a long message, hashed (0) or sealed (1)
     bench count-indexes WIDTH KIND      the same for one hashed (0), with its index (1), or
                                         corrected (2)

   The figures of a task are taken in turns: library, portable, sse2, and again;
   of each the best time of all turns is kept. */

#include <stdint.h>
#include <stdio.h>
#include <stdlib.h>
#include <string.h>
#include <time.h>
#include <x86intrin.h>

#include "simd.h"

void base_hash(int width, const uint8_t *msg, uint64_t bits, uint8_t *out);
void sse2_compress(int large, int last, uint32_t *state, const uint8_t *block);

enum { LONG = 1 << 16, SHORT = 64, SHORTS = 256, TURNS = 200, FEEDS = 1024 };
enum { LIBRARY, PORTABLE, SSE2, WHO };

static const uint8_t key[32] = "a key of 32 bytes, as many have";
static uint8_t message[LONG + 1], other[LONG + 1], another[LONG + 1], out[SIMD_DIGEST_MAX];
static uint8_t form[SIMD_FORM_LARGE], fresh[SIMD_FORM_LARGE];
static uint8_t old_index[SIMD_INDEX(256, 8 * LONG)], new_index[sizeof old_index];
static uint64_t number, verdict;

/* SSE2 baseline: whole messages over sse2_compress. */

static uint32_t sse2_start[2][32];  /* widths 256 and 512 */

/* The starting state is the compression of the function's name. */
static void sse2_prepare(void)
{
    for (int large = 0; large < 2; large++) {
        uint8_t name[128] = {0};
        sprintf((char *)name, "SIMD-%d v1.1", large ? 512 : 256);
        sse2_compress(large, 0, sse2_start[large], name);
    }
}

static void sse2_hash(int width, const uint8_t *msg, size_t bytes, uint8_t *digest)
{
    int large = width > 256;
    size_t size = large ? 128 : 64;
    uint32_t state[32];
    uint8_t block[128];
    size_t left = bytes;
    memcpy(state, sse2_start[large], sizeof state);
    for (; left >= size; left -= size, msg += size)
        sse2_compress(large, 0, state, msg);
    memset(block, 0, sizeof block);
    if (left) {
        memcpy(block, msg, left);
        sse2_compress(large, 0, state, block);
        memset(block, 0, sizeof block);
    }
    for (int k = 0; k < 8; k++)
        block[k] = (uint8_t)((uint64_t)bytes * 8 >> 8 * k);
    sse2_compress(large, 1, state, block);
    memcpy(digest, state, width / 8);
}

static void refused(uint8_t number_of_refusal)
{
    if (number_of_refusal) {
        fprintf(stderr, "refused %u\n", number_of_refusal);
        exit(1);
    }
}

static void hash_with(int who, int width, const uint8_t *data, size_t bytes)
{
    if (who == LIBRARY)
        refused(simd_hash((uint16_t)width, data, bytes, 8 * (uint64_t)bytes, out, sizeof out));
    else if (who == PORTABLE)
        base_hash(width, data, 8 * (uint64_t)bytes, out);
    else
        sse2_hash(width, data, bytes, out);
}

static void whole(int who, int width)
{
    hash_with(who, width, message, LONG);
}

/* The whole message as one piece after a tail of some bits; the baselines,
   which have no tail, hash the message. */
static void feed_after(int who, int width, uint64_t tail)
{
    static const uint8_t nothing[1] = {0};
    if (who != LIBRARY) {
        hash_with(who, width, message, LONG);
        return;
    }
    size_t size = SIMD_FORM(width);
    memcpy(form, fresh, size);
    refused(simd_feed(form, size, nothing, 1, tail, &number));
    refused(simd_feed(form, size, message, LONG, 8 * (uint64_t)LONG, &number));
    refused(simd_take(form, size, out, sizeof out, &number));
}

static void feed_aligned(int who, int width)
{
    feed_after(who, width, 0);
}

static void feed_byte(int who, int width)
{
    feed_after(who, width, 8);
}

static void feed_odd(int who, int width)
{
    feed_after(who, width, 3);
}

static void shorts(int who, int width)
{
    for (int k = 0; k < SHORTS; k++)
        hash_with(who, width, message + k, SHORT);
}

/* The whole message under a key; the baselines hash it. */
static void keyed(int who, int width)
{
    if (who == LIBRARY)
        refused(simd_hmac((uint16_t)width, key, sizeof key, message, LONG, 8 * (uint64_t)LONG,
                          out, sizeof out));
    else
        hash_with(who, width, message, LONG);
}

/* The whole message with its index; the baselines hash it. */
static void indexed(int who, int width)
{
    if (who == LIBRARY)
        refused(simd_index((uint16_t)width, message, LONG, 8 * (uint64_t)LONG, new_index, sizeof new_index,
                           out, sizeof out, &number));
    else
        hash_with(who, width, message, LONG);
}

/* The message corrected in its last byte. */
static void corrected(int width)
{
    refused(simd_reindex((uint16_t)width, other, LONG, 8 * (uint64_t)LONG, old_index, sizeof old_index,
                         (LONG - 1) / SIMD_BLOCK(width), new_index, sizeof new_index, out, sizeof out, &number));
}

/* Two long messages; the baselines hash both. */
static void compare_with(int who, int width, const uint8_t *second)
{
    if (who == LIBRARY) {
        refused(simd_compare((uint16_t)width, message, LONG, 8 * (uint64_t)LONG,
                             second, LONG, 8 * (uint64_t)LONG, &verdict, &number));
        return;
    }
    hash_with(who, width, message, LONG);
    hash_with(who, width, second, LONG);
}

static void differ_last(int who, int width)
{
    compare_with(who, width, other);
}

static void differ_first(int who, int width)
{
    compare_with(who, width, another);
}

/* One message of some length, again and again where it is short. */
static const uint8_t *text = message;
static size_t text_bytes, repeats = 1;

static void one_length(int who, int width)
{
    for (size_t k = 0; k < repeats; k++)
        hash_with(who, width, text, text_bytes);
}

/* Feeds of some bits, one after the other, to a hash just opened: also the
   compressions are in it that they bring. */
static uint64_t feed_bits;

static void feed_again(int who, int width)
{
    static const uint8_t zeros[128] = {0};
    size_t size = SIMD_FORM(width);
    (void)who;
    memcpy(form, fresh, size);
    for (int k = 0; k < FEEDS; k++)
        refused(simd_feed(form, size, zeros, sizeof zeros, feed_bits, &number));
}

/* The library alone: the whole message, hashed and under a key. */
static void hashed_or_keyed(int with_key, int width)
{
    if (with_key)
        keyed(LIBRARY, width);
    else
        whole(LIBRARY, width);
}

/* The library alone: the whole message, hashed, with its index, and corrected. */
static void hashed_or_indexed(int kind, int width)
{
    if (kind == 2)
        corrected(width);
    else if (kind == 1)
        indexed(LIBRARY, width);
    else
        whole(LIBRARY, width);
}

struct task {
    const char *name;
    void (*run)(int who, int width);
    size_t bytes;
};

static const struct task TASKS[] = {
    {"long message, one call", whole, LONG},
    {"long message under a key, one call", keyed, LONG},
    {"long message with its index, one call", indexed, LONG},
    {"long piece, no tail", feed_aligned, LONG},
    {"long piece, tail of 8 bits", feed_byte, LONG},
    {"long piece, tail of 3 bits", feed_odd, LONG},
    {"64-byte messages", shorts, SHORT * SHORTS},
    {"comparison, last byte differs", differ_last, 2 * LONG},
    {"comparison, first byte differs", differ_first, 2 * LONG},
};
enum { COUNT = sizeof TASKS / sizeof *TASKS };
static const struct task ONE_LENGTH = {"one message", one_length, 0};
static const struct task FEED_AGAIN = {"feeds", feed_again, 0};
static const struct task SEAL = {"hashed or keyed", hashed_or_keyed, 0};
static const struct task INDEX = {"hashed or indexed", hashed_or_indexed, 0};
static const int WIDTHS[] = {256, 512};

static double seconds(void)
{
    struct timespec t;
    clock_gettime(CLOCK_MONOTONIC, &t);
    return (double)t.tv_sec + 1e-9 * (double)t.tv_nsec;
}

static void prepare(int width)
{
    refused(simd_open((uint16_t)width, fresh, sizeof fresh));
}

/* The index that a correction starts from. */
static void keep_index(int width)
{
    refused(simd_index((uint16_t)width, message, LONG, 8 * (uint64_t)LONG, old_index, sizeof old_index,
                       out, sizeof out, &number));
}

static void measure(const struct task *task, int width)
{
    double time[WHO] = {1e9, 1e9, 1e9};
    uint64_t cycles[WHO] = {UINT64_MAX, UINT64_MAX, UINT64_MAX};
    prepare(width);
    for (int turn = 0; turn < TURNS; turn++)
        for (int who = 0; who < WHO; who++) {
            double before = seconds();
            uint64_t start = __rdtsc();
            task->run(who, width);
            uint64_t used = __rdtsc() - start;
            double elapsed = seconds() - before;
            if (used < cycles[who])
                cycles[who] = used;
            if (elapsed < time[who])
                time[who] = elapsed;
        }
    printf("%s|%d", task->name, width);
    for (int who = 0; who < WHO; who++)
        printf("|%.1f|%.2f", (double)task->bytes / time[who] / 1e6,
               (double)cycles[who] / (double)task->bytes);
    printf("|%zu\n", task->bytes);
    fflush(stdout);
}

/* Best cycles of the first few implementations, in turns. */
static void best_cycles(const struct task *task, int width, int whos, uint64_t *cycles)
{
    for (int who = 0; who < whos; who++)
        cycles[who] = UINT64_MAX;
    for (int turn = 0; turn < TURNS; turn++)
        for (int who = 0; who < whos; who++) {
            uint64_t start = __rdtsc();
            task->run(who, width);
            uint64_t used = __rdtsc() - start;
            if (used < cycles[who])
                cycles[who] = used;
        }
}

static void lengths(int width, int count, char **bytes)
{
    uint64_t cycles[WHO];
    for (int k = 0; k < count; k++) {
        text_bytes = (size_t)strtoull(bytes[k], NULL, 10);
        if (text_bytes > LONG)
            exit(2);
        repeats = text_bytes < 4096 ? 32 : 1;
        best_cycles(&ONE_LENGTH, width, WHO, cycles);
        printf("%zu", text_bytes);
        for (int who = 0; who < WHO; who++)
            printf("|%.1f", (double)cycles[who] / (double)repeats);
        printf("\n");
    }
}

static void feeds(int width, int count, char **bits)
{
    uint64_t cycles[1];
    prepare(width);
    for (int k = 0; k < count; k++) {
        feed_bits = strtoull(bits[k], NULL, 10);
        best_cycles(&FEED_AGAIN, width, 1, cycles);
        printf("%s|%.1f\n", bits[k], (double)cycles[0] / FEEDS);
    }
}

static void seals(int width)
{
    uint64_t cycles[2];
    best_cycles(&SEAL, width, 2, cycles);
    printf("%llu|%llu\n", (unsigned long long)cycles[0], (unsigned long long)cycles[1]);
}

static void indexes(int width)
{
    uint64_t cycles[3], all, some;
    keep_index(width);
    best_cycles(&INDEX, width, 3, cycles);
    indexed(LIBRARY, width);
    all = number;
    corrected(width);
    some = number;
    for (int kind = 0; kind < 3; kind++)
        printf("%llu|", (unsigned long long)cycles[kind]);
    printf("%llu|%llu\n", (unsigned long long)some, (unsigned long long)all);
}

void counted(const struct task *task, int who, int width);

__attribute__((noinline)) void counted(const struct task *task, int who, int width)
{
    task->run(who, width);
}

/* Each implementation gives the same digests before any is timed. */
static void check(void)
{
    uint8_t first[SIMD_DIGEST_MAX];
    for (size_t w = 0; w < 2; w++)
        for (size_t bytes = 0; bytes <= LONG; bytes = 2 * bytes + 1)
            for (int who = 0; who < WHO; who++) {
                hash_with(who, WIDTHS[w], message, bytes);
                if (who == LIBRARY)
                    memcpy(first, out, sizeof first);
                else if (memcmp(first, out, (size_t)WIDTHS[w] / 8)) {
                    fprintf(stderr, "digests differ at %d, %zu bytes\n", WIDTHS[w], bytes);
                    exit(1);
                }
            }
}

int main(int argc, char **argv)
{
    for (int k = 0; k < LONG; k++)
        another[k] = other[k] = message[k] = (uint8_t)(k * 167 + (k >> 8));
    other[LONG - 1] ^= 1;
    another[0] ^= 1;
    sse2_prepare();
    if (argc == 4 && strcmp(argv[1], "count") == 0) {
        int which = atoi(argv[2]), width = WIDTHS[which % 2];
        prepare(width);
        counted(&TASKS[which / 2], atoi(argv[3]), width);
        return 0;
    }
    if (argc == 5 && strcmp(argv[1], "count-length") == 0) {
        int width = atoi(argv[2]), who = atoi(argv[4]);
        text_bytes = (size_t)strtoull(argv[3], NULL, 10);
        uint8_t *room = calloc(text_bytes + 1, 1);
        if (!room)
            return 2;
        for (size_t k = 0; k < text_bytes; k += 509)
            room[k] = (uint8_t)k;
        hash_with(who, width, message, SHORT);  /* what is done once in a process is done */
        text = room;
        counted(&ONE_LENGTH, who, width);
        return 0;
    }
    if (argc == 4 && strcmp(argv[1], "count-feeds") == 0) {
        int width = atoi(argv[2]);
        prepare(width);
        feed_bits = strtoull(argv[3], NULL, 10);
        counted(&FEED_AGAIN, LIBRARY, width);
        return 0;
    }
    if (argc == 4 && strcmp(argv[1], "count-seals") == 0) {
        counted(&SEAL, atoi(argv[3]), atoi(argv[2]));
        return 0;
    }
    if (argc == 4 && strcmp(argv[1], "count-indexes") == 0) {
        keep_index(atoi(argv[2]));
        counted(&INDEX, atoi(argv[3]), atoi(argv[2]));
        return 0;
    }
    if (argc == 3 && strcmp(argv[1], "indexes") == 0) {
        indexes(atoi(argv[2]));
        return 0;
    }
    if (argc == 3 && strcmp(argv[1], "seals") == 0) {
        seals(atoi(argv[2]));
        return 0;
    }
    if (argc > 3 && strcmp(argv[1], "lengths") == 0) {
        lengths(atoi(argv[2]), argc - 3, argv + 3);
        return 0;
    }
    if (argc > 3 && strcmp(argv[1], "feeds") == 0) {
        feeds(atoi(argv[2]), argc - 3, argv + 3);
        return 0;
    }
    if (argc != 1) {
        fprintf(stderr, "bench: see the head of bench/bench.c\n");
        return 2;
    }
    check();
    for (int k = 0; k < 2 * COUNT; k++)
        measure(&TASKS[k / 2], WIDTHS[k % 2]);
    return 0;
}
