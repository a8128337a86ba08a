/* Speed of the baselines in cycles for each byte of message blocks.

   cc -std=c99 -O3 -msse2 -o speed speed.c portable.c sse2.c && ./speed

   The cycles are those of the time stamp counter; the best of many runs. */

#include <stdint.h>
#include <stdio.h>
#include <x86intrin.h>

void base_expand(int large, int last, const uint8_t *block, uint32_t *w);
void base_compress(int large, int last, uint32_t *state, const uint8_t *block);
void sse2_compress(int large, int last, uint32_t *state, const uint8_t *block);

enum { BYTES = 16384, RUNS = 400 };

static uint8_t message[BYTES];
static uint32_t state[32], words[256];

static void expand(int large, int last, uint32_t *s, const uint8_t *block)
{
    (void)s;
    base_expand(large, last, block, words);
}

static double measure(int large, void (*f)(int, int, uint32_t *, const uint8_t *))
{
    size_t size = large ? 128 : 64;
    uint64_t best = UINT64_MAX;
    for (int run = 0; run < RUNS; run++) {
        uint64_t before = __rdtsc();
        for (size_t k = 0; k < BYTES; k += size)
            f(large, 0, state, message + k);
        uint64_t cycles = __rdtsc() - before;
        if (cycles < best)
            best = cycles;
    }
    return (double)best / BYTES;
}

int main(void)
{
    for (int k = 0; k < BYTES; k++)
        message[k] = (uint8_t)(k * 167 + (k >> 8));
    for (int large = 0; large < 2; large++) {
        const char *name = large ? "large" : "small";
        printf("%s portable expand   %6.2f cycles per byte\n", name, measure(large, expand));
        printf("%s portable compress %6.2f\n", name, measure(large, base_compress));
        printf("%s sse2 compress     %6.2f\n", name, measure(large, sse2_compress));
    }
    return 0;
}
