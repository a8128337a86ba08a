/* SIMD v1.1 in portable C, for speed comparison and for messages too long for the reference.

   The transform is a radix-2 number theoretic transform on 32-bit integers.
   Even and odd places are two transforms of half the size, because the upper
   half of the input is zero; the added constants come from a table.

   A right shift of a negative number is taken to be arithmetic. */

#include <stdint.h>
#include <string.h>

#include "tables.h"

void base_transform(int large, int last, const uint8_t *block, uint16_t *y);
void base_expand(int large, int last, const uint8_t *block, uint32_t *w);
void base_compress(int large, int last, uint32_t *state, const uint8_t *block);
void base_hash(int width, const uint8_t *msg, uint64_t bits, uint8_t *out);
void base_blocks(int large, uint32_t *state, const uint8_t *msg, uint64_t count, uint32_t *kept);

/* Transform */

/* Congruent modulo 257: 256 is -1. */
static inline int32_t reduce(int32_t x)
{
    return (x & 255) - (x >> 8);
}

/* The number from -128 to 128. */
static inline int32_t centre(int32_t x)
{
    x = reduce(reduce(x));
    return x > 128 ? x - 257 : x;
}

#define BUTTERFLY(a, b) do {    \
    int32_t sum_ = (a) + (b);   \
    (b) = (a) - (b);            \
    (a) = sum_;                 \
} while (0)

/* 8 points with root 4, result in bit-reversed order. */
static inline void points8(int32_t *x)
{
    BUTTERFLY(x[0], x[4]);
    BUTTERFLY(x[1], x[5]);
    BUTTERFLY(x[2], x[6]);
    BUTTERFLY(x[3], x[7]);
    x[5] *= 4;
    x[6] *= 16;
    x[7] = reduce(x[7] * 64);
    BUTTERFLY(x[0], x[2]);
    BUTTERFLY(x[1], x[3]);
    BUTTERFLY(x[4], x[6]);
    BUTTERFLY(x[5], x[7]);
    x[3] *= 16;
    x[7] *= 16;
    BUTTERFLY(x[0], x[1]);
    BUTTERFLY(x[2], x[3]);
    BUTTERFLY(x[4], x[5]);
    BUTTERFLY(x[6], x[7]);
}

/* n points, 64 or 128, with root w^2, result in bit-reversed order. */
static inline void points(int32_t *x, int n, const int16_t *powers)
{
    for (int half = n / 2, step = 2; half >= 8; half /= 2, step *= 2)
        for (int32_t *p = x; p < x + n; p += 2 * half)
            for (int j = 0; j < half; j++) {
                int32_t a = p[j], b = p[j + half];
                p[j] = a + b;
                p[j + half] = reduce((a - b) * powers[step * j]);
            }
    for (int k = 0; k < n; k += 8)
        points8(x + k);
}

/* The 7 bits of a number in reverse order. */
static const uint8_t REVERSED[128] = {
    0, 64, 32, 96, 16, 80, 48, 112, 8, 72, 40, 104, 24, 88, 56, 120,
    4, 68, 36, 100, 20, 84, 52, 116, 12, 76, 44, 108, 28, 92, 60, 124,
    2, 66, 34, 98, 18, 82, 50, 114, 10, 74, 42, 106, 26, 90, 58, 122,
    6, 70, 38, 102, 22, 86, 54, 118, 14, 78, 46, 110, 30, 94, 62, 126,
    1, 65, 33, 97, 17, 81, 49, 113, 9, 73, 41, 105, 25, 89, 57, 121,
    5, 69, 37, 101, 21, 85, 53, 117, 13, 77, 45, 109, 29, 93, 61, 125,
    3, 67, 35, 99, 19, 83, 51, 115, 11, 75, 43, 107, 27, 91, 59, 123,
    7, 71, 39, 103, 23, 87, 55, 119, 15, 79, 47, 111, 31, 95, 63, 127,
};

/* The n even places, then the n odd places, centred. */
static inline void transform(int n, const int16_t *powers, const int16_t *offset,
                             const uint8_t *block, int32_t *y)
{
    int32_t even[128], odd[128];
    for (int j = 0; j < n; j++) {
        even[j] = block[j];
        odd[j] = reduce(block[j] * powers[j]);
    }
    points(even, n, powers);
    points(odd, n, powers);
    for (int k = 0; k < n; k++) {
        int at = n == 128 ? REVERSED[k] : REVERSED[k] >> 1;
        y[k] = centre(even[at] + offset[k]);
        y[n + k] = centre(odd[at] + offset[n + k]);
    }
}

static void transform_small(int last, const uint8_t *block, int32_t *y)
{
    transform(64, SMALL_POWERS, last ? SMALL_OFFSET_LAST : SMALL_OFFSET, block, y);
}

static void transform_large(int last, const uint8_t *block, int32_t *y)
{
    transform(128, LARGE_POWERS, last ? LARGE_OFFSET_LAST : LARGE_OFFSET, block, y);
}

void base_transform(int large, int last, const uint8_t *block, uint16_t *y)
{
    int32_t v[256];
    int n = large ? 128 : 64;
    if (large)
        transform_large(last, block, v);
    else
        transform_small(last, block, v);
    for (int k = 0; k < n; k++) {
        y[2 * k] = (uint16_t)(v[k] < 0 ? v[k] + 257 : v[k]);
        y[2 * k + 1] = (uint16_t)(v[n + k] < 0 ? v[n + k] + 257 : v[n + k]);
    }
}

/* Expansion */

/* Row i of Z is expanded row PLACE[i]. */
static const uint8_t PLACE[32] = {
    2, 7, 3, 6, 0, 5, 1, 4, 11, 12, 14, 9, 10, 13, 15, 8,
    22, 16, 17, 23, 19, 21, 20, 18, 25, 26, 31, 28, 30, 29, 24, 27,
};

static inline uint32_t code(int32_t c, int32_t low, int32_t high)
{
    return ((uint32_t)(c * low) & 0xffff) | (uint32_t)(c * high) << 16;
}

static inline void expand(int r, const int32_t *y, uint32_t *w)
{
    const int32_t *even = y, *odd = y + 16 * r;
    for (int i = 0; i < 16; i++) {
        uint32_t *row = w + r * PLACE[i];
        for (int j = 0; j < r; j++)
            row[j] = code(185, even[r * i + j], odd[r * i + j]);
    }
    for (int i = 0; i < 8; i++) {
        uint32_t *row = w + r * PLACE[16 + i];
        for (int j = 0; j < r; j++)
            row[j] = code(233, even[r * i + j], even[r * (i + 8) + j]);
    }
    for (int i = 0; i < 8; i++) {
        uint32_t *row = w + r * PLACE[24 + i];
        for (int j = 0; j < r; j++)
            row[j] = code(233, odd[r * i + j], odd[r * (i + 8) + j]);
    }
}

void base_expand(int large, int last, const uint8_t *block, uint32_t *w)
{
    int32_t y[256];
    if (large) {
        transform_large(last, block, y);
        expand(8, y, w);
    } else {
        transform_small(last, block, y);
        expand(4, y, w);
    }
}

/* Steps */

static inline uint32_t rotl(uint32_t x, int n)
{
    return x << n | x >> (32 - n);
}

static inline uint32_t f_if(uint32_t a, uint32_t b, uint32_t c)
{
    return ((b ^ c) & a) ^ c;
}

static inline uint32_t f_maj(uint32_t a, uint32_t b, uint32_t c)
{
    return ((b | c) & a) | (b & c);
}

/* After a step the columns are d, a, b, c. */
#define STEP(a, b, c, d, w, f, p, q, x) do {                               \
    uint32_t t_[8];                                                        \
    for (int j_ = 0; j_ < R; j_++) {                                       \
        t_[j_] = rotl((d)[j_] + (w)[j_] + f((a)[j_], (b)[j_], (c)[j_]), q); \
        (a)[j_] = rotl((a)[j_], p);                                        \
    }                                                                      \
    for (int j_ = 0; j_ < R; j_++)                                         \
        (d)[j_] = t_[j_] + (a)[j_ ^ (x)];                                  \
} while (0)

#define ROUND(w, p0, p1, p2, p3, x0, x1, x2, x3, x4, x5, x6, x7) do {      \
    STEP(A, B, C, D, w, f_if, p0, p1, x0);                                 \
    STEP(D, A, B, C, w + R, f_if, p1, p2, x1);                             \
    STEP(C, D, A, B, w + 2 * R, f_if, p2, p3, x2);                         \
    STEP(B, C, D, A, w + 3 * R, f_if, p3, p0, x3);                         \
    STEP(A, B, C, D, w + 4 * R, f_maj, p0, p1, x4);                        \
    STEP(D, A, B, C, w + 5 * R, f_maj, p1, p2, x5);                        \
    STEP(C, D, A, B, w + 6 * R, f_maj, p2, p3, x6);                        \
    STEP(B, C, D, A, w + 7 * R, f_maj, p3, p0, x7);                        \
} while (0)

static inline void start(int r, const uint32_t *old, const uint8_t *block, uint32_t *s)
{
    for (int k = 0; k < 4 * r; k++) {
        const uint8_t *b = block + 4 * k;
        s[k] = old[k] ^ (b[0] | (uint32_t)b[1] << 8 | (uint32_t)b[2] << 16
                         | (uint32_t)b[3] << 24);
    }
}

static void compress_small(int last, uint32_t *state, const uint8_t *block)
{
    enum { R = 4 };
    int32_t y[128];
    uint32_t w[32 * R], s[4 * R];
    uint32_t *A = s, *B = s + R, *C = s + 2 * R, *D = s + 3 * R;
    transform_small(last, block, y);
    expand(R, y, w);
    start(R, state, block, s);
    ROUND(w, 3, 23, 17, 27, 1, 2, 3, 1, 2, 3, 1, 2);
    ROUND(w + 8 * R, 28, 19, 22, 7, 3, 1, 2, 3, 1, 2, 3, 1);
    ROUND(w + 16 * R, 29, 9, 15, 5, 2, 3, 1, 2, 3, 1, 2, 3);
    ROUND(w + 24 * R, 4, 13, 10, 25, 1, 2, 3, 1, 2, 3, 1, 2);
    STEP(A, B, C, D, state, f_if, 4, 13, 3);
    STEP(D, A, B, C, state + R, f_if, 13, 10, 1);
    STEP(C, D, A, B, state + 2 * R, f_if, 10, 25, 2);
    STEP(B, C, D, A, state + 3 * R, f_if, 25, 4, 3);
    memcpy(state, s, sizeof s);
}

static void compress_large(int last, uint32_t *state, const uint8_t *block)
{
    enum { R = 8 };
    int32_t y[256];
    uint32_t w[32 * R], s[4 * R];
    uint32_t *A = s, *B = s + R, *C = s + 2 * R, *D = s + 3 * R;
    transform_large(last, block, y);
    expand(R, y, w);
    start(R, state, block, s);
    ROUND(w, 3, 23, 17, 27, 1, 6, 2, 3, 5, 7, 4, 1);
    ROUND(w + 8 * R, 28, 19, 22, 7, 6, 2, 3, 5, 7, 4, 1, 6);
    ROUND(w + 16 * R, 29, 9, 15, 5, 2, 3, 5, 7, 4, 1, 6, 2);
    ROUND(w + 24 * R, 4, 13, 10, 25, 3, 5, 7, 4, 1, 6, 2, 3);
    STEP(A, B, C, D, state, f_if, 4, 13, 5);
    STEP(D, A, B, C, state + R, f_if, 13, 10, 7);
    STEP(C, D, A, B, state + 2 * R, f_if, 10, 25, 4);
    STEP(B, C, D, A, state + 3 * R, f_if, 25, 4, 1);
    memcpy(state, s, sizeof s);
}

void base_compress(int large, int last, uint32_t *state, const uint8_t *block)
{
    if (large)
        compress_large(last, state, block);
    else
        compress_small(last, state, block);
}

/* Hash */

/* Table 1.2: the starting states of widths 224, 256, 384 and 512. */
static const uint32_t START_224[16] = {
    0x33586e9f, 0x12fff033, 0xb2d9f64d, 0x6f8fea53,
    0xde943106, 0x2742e439, 0x4fbab5ac, 0x62b9ff96,
    0x22e7b0af, 0xc862b3a8, 0x33e00cdc, 0x236b86a6,
    0xf64ae77c, 0xfa373b76, 0x7dc1ee5b, 0x7fb29ce8,
};

static const uint32_t START_256[16] = {
    0x4d567983, 0x07190ba9, 0x8474577b, 0x39d726e9,
    0xaaf3d925, 0x3ee20b03, 0xafd5e751, 0xc96006d3,
    0xc2c2ba14, 0x49b3bcb4, 0xf67caf46, 0x668626c9,
    0xe2eaa8d2, 0x1ff47833, 0xd0c661a5, 0x55693de1,
};

static const uint32_t START_384[32] = {
    0x8a36eebc, 0x94a3bd90, 0xd1537b83, 0xb25b070b,
    0xf463f1b5, 0xb6f81e20, 0x0055c339, 0xb4d144d1,
    0x7360ca61, 0x18361a03, 0x17dcb4b9, 0x3414c45a,
    0xa699a9d2, 0xe39e9664, 0x468bfe77, 0x51d062f8,
    0xb9e3bfe8, 0x63bece2a, 0x8fe506b9, 0xf8cc4ac2,
    0x7ae11542, 0xb1aadda1, 0x64b06794, 0x28d2f462,
    0xe64071ec, 0x1deb91a8, 0x8ac8db23, 0x3f782ab5,
    0x039b5cb8, 0x71ddd962, 0xfade2cea, 0x1416df71,
};

static const uint32_t START_512[32] = {
    0x0ba16b95, 0x72f999ad, 0x9fecc2ae, 0xba3264fc,
    0x5e894929, 0x8e9f30e5, 0x2f1daa37, 0xf0f2c558,
    0xac506643, 0xa90635a5, 0xe25b878b, 0xaab7878f,
    0x88817f7a, 0x0a02892b, 0x559a7550, 0x598f657e,
    0x7eef60a1, 0x6b70e3e8, 0x9c1714d1, 0xb958e2a8,
    0xab02675e, 0xed1c014f, 0xcd8d65bb, 0xfdb7a257,
    0x09254899, 0xd699c7bc, 0x9019b6dc, 0x2b9022e4,
    0x8fa14956, 0x21bf9bd3, 0xb94d0943, 0x6ffddc22,
};

void base_hash(int width, const uint8_t *msg, uint64_t bits, uint8_t *out)
{
    int large = width > 256;
    size_t size = large ? 128 : 64;
    uint32_t state[32];
    uint8_t block[128];
    uint64_t left = bits;

    memcpy(state, width == 224 ? START_224 : width == 256 ? START_256
                  : width == 384 ? START_384 : START_512, size);
    for (; left >= 8 * size; left -= 8 * size, msg += size)
        base_compress(large, 0, state, msg);
    if (left > 0) {
        size_t bytes = (size_t)(left + 7) / 8;
        memset(block, 0, sizeof block);
        memcpy(block, msg, bytes);
        if (left % 8)
            block[bytes - 1] &= (uint8_t)(0xff00 >> (left % 8));
        base_compress(large, 0, state, block);
    }
    memset(block, 0, sizeof block);
    for (int k = 0; k < 8; k++)
        block[k] = (uint8_t)(bits >> (8 * k));
    base_compress(large, 1, state, block);
    for (int k = 0; k < width / 8; k++)
        out[k] = (uint8_t)(state[k / 4] >> (8 * (k % 4)));
}

/* Some message blocks, from a state on.  The states before blocks 0, 16, 32 and so on are kept
   in turn where kept is not null. */
void base_blocks(int large, uint32_t *state, const uint8_t *msg, uint64_t count, uint32_t *kept)
{
    size_t size = large ? 128 : 64;
    for (uint64_t k = 0; k < count; k++, msg += size) {
        if (kept && k % 16 == 0) {
            memcpy(kept, state, size);
            kept += size / 4;
        }
        base_compress(large, 0, state, msg);
    }
}
