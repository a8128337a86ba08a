/* SIMD v1.1 compression with SSE2, for speed comparison.

   The transform works on 16-bit lanes.  Even and odd places are two
   transforms of half the size; each is done in two passes over vectors with
   a multiplication by twiddle factors and a transposition between them.  The
   passes need shifts only, since 2 is a root of unity of order 16 modulo
   257.  A vector of the steps holds one column of four rows. */

#include <emmintrin.h>
#include <stdint.h>

#include "tables.h"

typedef __m128i vec;

void sse2_compress(int large, int last, uint32_t *state, const uint8_t *block);

/* Arithmetic modulo 257 on 16-bit lanes.  256 is -1 and 65536 is 1. */

static inline vec fold(vec lo, vec hi)
{
    /* lo + 65536 hi, lo unsigned; result within 255 + |hi| */
    vec low = _mm_and_si128(lo, _mm_set1_epi16(255));
    return _mm_add_epi16(_mm_sub_epi16(low, _mm_srli_epi16(lo, 8)), hi);
}

static inline vec mul(vec x, vec w)
{
    return fold(_mm_mullo_epi16(x, w), _mm_mulhi_epi16(x, w));
}

#define SHIFT(x, s) fold(_mm_slli_epi16(x, s), _mm_srai_epi16(x, 16 - (s)))

static inline vec reduce(vec x)
{
    return _mm_sub_epi16(_mm_and_si128(x, _mm_set1_epi16(255)), _mm_srai_epi16(x, 8));
}

static inline vec centre(vec x)
{
    /* to -128 .. 128 */
    x = reduce(x);
    vec above = _mm_cmpgt_epi16(x, _mm_set1_epi16(128));
    return _mm_sub_epi16(x, _mm_and_si128(above, _mm_set1_epi16(257)));
}

#define BUTTERFLY(a, b) do {            \
    vec sum_ = _mm_add_epi16(a, b);     \
    b = _mm_sub_epi16(a, b);            \
    a = sum_;                           \
} while (0)

/* Transform of 8 points across vectors with root 4: place p of the result is
   at x[bit reversal of p].  Inputs within 383, results within 21,000. */
static inline void points8(vec *x)
{
    BUTTERFLY(x[0], x[4]);
    BUTTERFLY(x[1], x[5]);
    BUTTERFLY(x[2], x[6]);
    BUTTERFLY(x[3], x[7]);
    x[5] = _mm_slli_epi16(x[5], 2);
    x[6] = _mm_slli_epi16(x[6], 4);
    x[7] = SHIFT(x[7], 6);

    BUTTERFLY(x[0], x[2]);
    BUTTERFLY(x[1], x[3]);
    x[3] = _mm_slli_epi16(x[3], 4);
    BUTTERFLY(x[4], x[6]);
    BUTTERFLY(x[5], x[7]);
    x[7] = SHIFT(x[7], 4);

    BUTTERFLY(x[0], x[1]);
    BUTTERFLY(x[2], x[3]);
    BUTTERFLY(x[4], x[5]);
    BUTTERFLY(x[6], x[7]);
}

/* The same of 16 points with root 2.  Results within 26,000. */
static inline void points16(vec *x)
{
    for (int i = 0; i < 8; i++)
        BUTTERFLY(x[i], x[i + 8]);
    x[9] = _mm_slli_epi16(x[9], 1);
    x[10] = _mm_slli_epi16(x[10], 2);
    x[11] = _mm_slli_epi16(x[11], 3);
    x[12] = SHIFT(x[12], 4);
    x[13] = SHIFT(x[13], 5);
    x[14] = SHIFT(x[14], 6);
    x[15] = SHIFT(x[15], 7);

    for (int i = 0; i < 4; i++) {
        BUTTERFLY(x[i], x[i + 4]);
        BUTTERFLY(x[i + 8], x[i + 12]);
    }
    x[5] = _mm_slli_epi16(x[5], 2);
    x[6] = _mm_slli_epi16(x[6], 4);
    x[7] = SHIFT(x[7], 6);
    x[13] = _mm_slli_epi16(x[13], 2);
    x[14] = SHIFT(x[14], 4);
    x[15] = SHIFT(x[15], 6);

    for (int i = 0; i < 16; i += 4) {
        BUTTERFLY(x[i], x[i + 2]);
        BUTTERFLY(x[i + 1], x[i + 3]);
        x[i + 3] = SHIFT(x[i + 3], 4);
    }
    for (int i = 0; i < 16; i += 2)
        BUTTERFLY(x[i], x[i + 1]);
}

static inline void transpose8(vec *x)
{
    vec a[8], b[8];
    for (int i = 0; i < 4; i++) {
        a[2 * i] = _mm_unpacklo_epi16(x[i], x[i + 4]);
        a[2 * i + 1] = _mm_unpackhi_epi16(x[i], x[i + 4]);
    }
    for (int i = 0; i < 4; i++) {
        b[2 * i] = _mm_unpacklo_epi16(a[i], a[i + 4]);
        b[2 * i + 1] = _mm_unpackhi_epi16(a[i], a[i + 4]);
    }
    for (int i = 0; i < 4; i++) {
        x[2 * i] = _mm_unpacklo_epi16(b[i], b[i + 4]);
        x[2 * i + 1] = _mm_unpackhi_epi16(b[i], b[i + 4]);
    }
}

/* Place k of the result of points8 or points16.  The roots fit: 46^8 and
   139^16 are 4, and 139^8 is 2. */
#define AT8(k) ((((k) & 1) << 2) | ((k) & 2) | (((k) & 4) >> 2))
#define AT16(k) ((AT8((k) & 7) << 1) | (((k) & 8) >> 3))

#define LOAD(table, k) _mm_load_si128((const vec *)(table) + (k))

/* 64 points with root 46, results centred with the offsets added. */
static inline void transform64(vec *x, const int16_t *offset, vec *y)
{
    vec t[8];
    points8(x);
    for (int k = 0; k < 8; k++)
        t[k] = mul(x[AT8(k)], LOAD(SMALL_TWIDDLE, k));
    transpose8(t);
    points8(t);
    for (int k = 0; k < 8; k++)
        y[k] = centre(_mm_add_epi16(t[AT8(k)], LOAD(offset, k)));
}

/* 128 points with root 139. */
static inline void transform128(vec *x, const int16_t *offset, vec *y)
{
    vec t[16];
    points16(x);
    for (int k = 0; k < 16; k++)
        t[k] = mul(x[AT16(k)], LOAD(LARGE_TWIDDLE, k));
    transpose8(t);
    points8(t);
    transpose8(t + 8);
    points8(t + 8);
    for (int k = 0; k < 8; k++) {
        y[2 * k] = centre(_mm_add_epi16(t[AT8(k)], LOAD(offset, 2 * k)));
        y[2 * k + 1] = centre(_mm_add_epi16(t[8 + AT8(k)], LOAD(offset, 2 * k + 1)));
    }
}

/* The rows of Z from the even and odd places, 2 * half vectors each. */
static inline void matrix(const vec *even, const vec *odd, int half, vec *z)
{
    const vec c185 = _mm_set1_epi16(185), c233 = _mm_set1_epi16(233);
    for (int m = 0; m < 2 * half; m++) {
        vec e = _mm_mullo_epi16(even[m], c185), o = _mm_mullo_epi16(odd[m], c185);
        z[2 * m] = _mm_unpacklo_epi16(e, o);
        z[2 * m + 1] = _mm_unpackhi_epi16(e, o);
    }
    for (int m = 0; m < half; m++) {
        vec lo = _mm_mullo_epi16(even[m], c233), hi = _mm_mullo_epi16(even[m + half], c233);
        z[4 * half + 2 * m] = _mm_unpacklo_epi16(lo, hi);
        z[4 * half + 2 * m + 1] = _mm_unpackhi_epi16(lo, hi);
        lo = _mm_mullo_epi16(odd[m], c233), hi = _mm_mullo_epi16(odd[m + half], c233);
        z[6 * half + 2 * m] = _mm_unpacklo_epi16(lo, hi);
        z[6 * half + 2 * m + 1] = _mm_unpackhi_epi16(lo, hi);
    }
}

static inline void expand_small(int last, const uint8_t *block, vec *z)
{
    const int16_t *offset = last ? SMALL_OFFSET_LAST : SMALL_OFFSET;
    const vec zero = _mm_setzero_si128();
    vec x[8], u[8], even[8], odd[8];
    for (int k = 0; k < 4; k++) {
        vec bytes = _mm_loadu_si128((const vec *)block + k);
        x[2 * k] = _mm_unpacklo_epi8(bytes, zero);
        x[2 * k + 1] = _mm_unpackhi_epi8(bytes, zero);
    }
    for (int k = 0; k < 8; k++)
        u[k] = reduce(_mm_mullo_epi16(x[k], LOAD(SMALL_POWERS, k)));
    transform64(x, offset, even);
    transform64(u, offset + 64, odd);
    matrix(even, odd, 4, z);
}

static inline void expand_large(int last, const uint8_t *block, vec *z)
{
    const int16_t *offset = last ? LARGE_OFFSET_LAST : LARGE_OFFSET;
    const vec zero = _mm_setzero_si128();
    vec x[16], u[16], even[16], odd[16];
    for (int k = 0; k < 8; k++) {
        vec bytes = _mm_loadu_si128((const vec *)block + k);
        x[2 * k] = _mm_unpacklo_epi8(bytes, zero);
        x[2 * k + 1] = _mm_unpackhi_epi8(bytes, zero);
    }
    for (int k = 0; k < 16; k++)
        u[k] = reduce(_mm_mullo_epi16(x[k], LOAD(LARGE_POWERS, k)));
    transform128(x, offset, even);
    transform128(u, offset + 128, odd);
    matrix(even, odd, 8, z);
}

/* Steps */

#define ROTL(x, n) _mm_or_si128(_mm_slli_epi32(x, n), _mm_srli_epi32(x, 32 - (n)))
#define F_IF(a, b, c) _mm_xor_si128(_mm_and_si128(_mm_xor_si128(b, c), a), c)
#define F_MAJ(a, b, c) \
    _mm_or_si128(_mm_and_si128(_mm_or_si128(b, c), a), _mm_and_si128(b, c))

/* Row j gets row j xor x, x from 0 to 3. */
#define EXCHANGE(v, x) \
    _mm_shuffle_epi32(v, (0 ^ (x)) | (1 ^ (x)) << 2 | (2 ^ (x)) << 4 | (3 ^ (x)) << 6)

/* After a step the columns are d, a, b, c. */
#define STEP4(a, b, c, d, w, f, r, s, x) do {                              \
    vec t_ = _mm_add_epi32(_mm_add_epi32(d, w), f(a, b, c));               \
    a = ROTL(a, r);                                                        \
    d = _mm_add_epi32(ROTL(t_, s), EXCHANGE(a, x));                        \
} while (0)

#define STEP8(a, b, c, d, w0, w1, f, r, s, x) do {                         \
    vec t0_ = _mm_add_epi32(_mm_add_epi32(d##0, w0), f(a##0, b##0, c##0)); \
    vec t1_ = _mm_add_epi32(_mm_add_epi32(d##1, w1), f(a##1, b##1, c##1)); \
    a##0 = ROTL(a##0, r);                                                  \
    a##1 = ROTL(a##1, r);                                                  \
    d##0 = _mm_add_epi32(ROTL(t0_, s), EXCHANGE((x) & 4 ? a##1 : a##0, (x) & 3)); \
    d##1 = _mm_add_epi32(ROTL(t1_, s), EXCHANGE((x) & 4 ? a##0 : a##1, (x) & 3)); \
} while (0)

/* One round: rows of Z in the order of the expanded message, rotations, and
   the row exchanges of its eight steps. */
#define ROUND(S, z0, z1, z2, z3, z4, z5, z6, z7, p0, p1, p2, p3,           \
              x0, x1, x2, x3, x4, x5, x6, x7) do {                         \
    S(A, B, C, D, z0, F_IF, p0, p1, x0);                                   \
    S(D, A, B, C, z1, F_IF, p1, p2, x1);                                   \
    S(C, D, A, B, z2, F_IF, p2, p3, x2);                                   \
    S(B, C, D, A, z3, F_IF, p3, p0, x3);                                   \
    S(A, B, C, D, z4, F_MAJ, p0, p1, x4);                                  \
    S(D, A, B, C, z5, F_MAJ, p1, p2, x5);                                  \
    S(C, D, A, B, z6, F_MAJ, p2, p3, x6);                                  \
    S(B, C, D, A, z7, F_MAJ, p3, p0, x7);                                  \
} while (0)

#define S4(a, b, c, d, i, f, r, s, x) STEP4(a, b, c, d, z[i], f, r, s, x)
#define S8(a, b, c, d, i, f, r, s, x) \
    STEP8(a, b, c, d, z[2 * (i)], z[2 * (i) + 1], f, r, s, x)

static void compress_small(int last, uint32_t *state, const uint8_t *block)
{
    vec z[32];
    vec *h = (vec *)state;
    const vec *m = (const vec *)block;
    expand_small(last, block, z);

    vec A0 = _mm_loadu_si128(h), B0 = _mm_loadu_si128(h + 1);
    vec C0 = _mm_loadu_si128(h + 2), D0 = _mm_loadu_si128(h + 3);
    vec A = _mm_xor_si128(A0, _mm_loadu_si128(m));
    vec B = _mm_xor_si128(B0, _mm_loadu_si128(m + 1));
    vec C = _mm_xor_si128(C0, _mm_loadu_si128(m + 2));
    vec D = _mm_xor_si128(D0, _mm_loadu_si128(m + 3));

    ROUND(S4, 4, 6, 0, 2, 7, 5, 3, 1, 3, 23, 17, 27, 1, 2, 3, 1, 2, 3, 1, 2);
    ROUND(S4, 15, 11, 12, 8, 9, 13, 10, 14, 28, 19, 22, 7, 3, 1, 2, 3, 1, 2, 3, 1);
    ROUND(S4, 17, 18, 23, 20, 22, 21, 16, 19, 29, 9, 15, 5, 2, 3, 1, 2, 3, 1, 2, 3);
    ROUND(S4, 30, 24, 25, 31, 27, 29, 28, 26, 4, 13, 10, 25, 1, 2, 3, 1, 2, 3, 1, 2);
    STEP4(A, B, C, D, A0, F_IF, 4, 13, 3);
    STEP4(D, A, B, C, B0, F_IF, 13, 10, 1);
    STEP4(C, D, A, B, C0, F_IF, 10, 25, 2);
    STEP4(B, C, D, A, D0, F_IF, 25, 4, 3);

    _mm_storeu_si128(h, A);
    _mm_storeu_si128(h + 1, B);
    _mm_storeu_si128(h + 2, C);
    _mm_storeu_si128(h + 3, D);
}

static void compress_large(int last, uint32_t *state, const uint8_t *block)
{
    vec z[64];
    vec *h = (vec *)state;
    const vec *m = (const vec *)block;
    expand_large(last, block, z);

#define START(k) _mm_xor_si128(_mm_loadu_si128(h + (k)), _mm_loadu_si128(m + (k)))
#define OLD(k) _mm_loadu_si128(h + (k))
    vec A0 = START(0), A1 = START(1), B0 = START(2), B1 = START(3);
    vec C0 = START(4), C1 = START(5), D0 = START(6), D1 = START(7);

    ROUND(S8, 4, 6, 0, 2, 7, 5, 3, 1, 3, 23, 17, 27, 1, 6, 2, 3, 5, 7, 4, 1);
    ROUND(S8, 15, 11, 12, 8, 9, 13, 10, 14, 28, 19, 22, 7, 6, 2, 3, 5, 7, 4, 1, 6);
    ROUND(S8, 17, 18, 23, 20, 22, 21, 16, 19, 29, 9, 15, 5, 2, 3, 5, 7, 4, 1, 6, 2);
    ROUND(S8, 30, 24, 25, 31, 27, 29, 28, 26, 4, 13, 10, 25, 3, 5, 7, 4, 1, 6, 2, 3);
    STEP8(A, B, C, D, OLD(0), OLD(1), F_IF, 4, 13, 5);
    STEP8(D, A, B, C, OLD(2), OLD(3), F_IF, 13, 10, 7);
    STEP8(C, D, A, B, OLD(4), OLD(5), F_IF, 10, 25, 4);
    STEP8(B, C, D, A, OLD(6), OLD(7), F_IF, 25, 4, 1);

    _mm_storeu_si128(h, A0);
    _mm_storeu_si128(h + 1, A1);
    _mm_storeu_si128(h + 2, B0);
    _mm_storeu_si128(h + 3, B1);
    _mm_storeu_si128(h + 4, C0);
    _mm_storeu_si128(h + 5, C1);
    _mm_storeu_si128(h + 6, D0);
    _mm_storeu_si128(h + 7, D1);
}

void sse2_compress(int large, int last, uint32_t *state, const uint8_t *block)
{
    if (large)
        compress_large(last, state, block);
    else
        compress_small(last, state, block);
}
