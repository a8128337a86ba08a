/* simd.h - SIMD v1.1: digests and keyed seals of bit strings, comparison,
   sealing tape, ledger page, quotes, indexes of long records

   C99 and C++11, on x86-64.  Link with -lsimd, or with libsimd.a by its path.

   WIDTHS AND FAMILIES
     A width is 224, 256, 384 or 512, the bits of the digest.  Widths 224 and
     256 are the small family, 384 and 512 the large one.  The sizes below
     follow from the width.
     The parameter has 16 bits.  C cuts a larger number before the call sees it:
     65,792 arrives as 256 and is accepted.  Check a width that comes from
     outside before it is narrowed, as stream.c below does.

   TERMS
     Elsewhere an open hash is called a hashing context, a stored form the
     serialized context, a width the digest size, to feed a piece to update, to
     take a digest to finalize (here the hash stays open), a state the chaining
     value, and messages that meet a collision of the whole state.  A keyed seal
     is a message authentication code, its bytes are the tag, and to check a tag
     is to verify it.

   MESSAGES
     A message is a string of bits, given as bytes and a count of bits; so is a
     piece of one, and PART of a tape.  In a byte the first bit is the highest.
     What is past the count is ignored, in the last byte used and in the bytes
     behind it: it may be anything, and no answer depends on it.
     A message has at most SIMD_BITS_MAX bits, 2^64 - 1, and no count can be above
     that.  So SIMD_REFUSED_TOTAL is met by a piece after earlier ones, by a key, and
     by a message under a key, which counts with a block for the key; a message given
     whole and without a key never meets it, and has it listed for the order alone.

   ANSWERS
     Each call returns 0, or the number of the refusal.  Where several
     conditions are met, the one listed first under the call is answered.  A
     refused call writes to nothing that it was lent, also not to the numbers
     behind pointers; simd_tape, whose answer has more parts, says what it
     writes.  An output that is longer than needed keeps its remaining
     elements.

   POINTERS
     Each call is defined for all values of its arguments, as long as
       - a pointer with a length points to that many elements; it is not null,
         also where the length is 0;
       - a pointer without a length points to one number;
       - pointers are aligned for their type;
       - what a call writes to overlaps nothing else that it was given.
     Where there is nothing to point to, any other aligned pointer will do, as
     the address of a local variable: with length 0 it is neither read nor
     written.  An empty std::vector may have a null data(); vector.cpp below
     shows what to hand over for it.

   MEMORY
     A call uses the caller's stack and what it was lent, and nothing else: no
     heap, and no variable that outlives the call.  So it keeps nothing between
     calls, and several threads may call at once, each on buffers of its own.
     SIMD_STACK_HASH and its like below bound the stack.  Of the C library it
     needs memcpy and memset only.

   EXAMPLES
     Each is a whole file and compiles without warnings.

     whole.c: the digest of a message at hand.

       #include <stdio.h>
       #include "simd.h"

       int main(void)
       {
           const uint8_t message[3] = {'a', 'b', 'c'};
           uint8_t digest[SIMD_DIGEST(256)];
           uint8_t refusal = simd_hash(256, message, sizeof message, 8 * sizeof message,
                                       digest, sizeof digest);
           if (refusal != SIMD_ACCEPTED) {
               fprintf(stderr, "refused %d: %s\n", refusal, simd_refusal_text(refusal));
               return 1;
           }
           for (int k = 0; k < SIMD_DIGEST(256); k++)
               printf("%02x", digest[k]);
           putchar('\n');
           return 0;
       }

     stream.c: the digest of standard input, at a width that is known only when
     the program runs.  An array of SIMD_FORM_LARGE bytes holds an open hash of
     any width; the calls are handed its first SIMD_FORM(width) bytes.

       #include <stdio.h>
       #include <stdlib.h>
       #include "simd.h"

       int main(int argc, char **argv)
       {
           long asked = argc > 1 ? strtol(argv[1], NULL, 10) : 256;
           uint16_t width = asked < 0 || asked > UINT16_MAX ? 0 : (uint16_t)asked;
           uint8_t form[SIMD_FORM_LARGE], piece[4096], digest[SIMD_DIGEST_MAX];
           uint64_t blocks;
           size_t got;
           uint8_t refusal = simd_open(width, form, sizeof form);
           while (refusal == SIMD_ACCEPTED && (got = fread(piece, 1, sizeof piece, stdin)) > 0)
               refusal = simd_feed(form, SIMD_FORM(width), piece, got, 8 * (uint64_t)got, &blocks);
           if (refusal == SIMD_ACCEPTED)
               refusal = simd_take(form, SIMD_FORM(width), digest, sizeof digest, &blocks);
           if (refusal != SIMD_ACCEPTED) {
               fprintf(stderr, "refused %d: %s\n", refusal, simd_refusal_text(refusal));
               return 1;
           }
           if (ferror(stdin)) {
               perror("standard input");
               return 1;
           }
           for (int k = 0; k < SIMD_DIGEST(width); k++)
               printf("%02x", digest[k]);
           putchar('\n');
           return 0;
       }

     restore.c: a hash that was stored while forms had 4 length bytes goes on.  The
     old form, here of width 256 and 24 bits, with the tail "abc", is restored into
     one of today's size before it is fed; to take its digest it could stay as it is.

       #include <stdio.h>
       #include <string.h>
       #include "simd.h"

       static const uint8_t OLD[SIMD_OLD_FORM(256)] =
           "\x00\x01" "\x18\x00\x00\x00"
           "\x83\x79\x56\x4d\xa9\x0b\x19\x07\x7b\x57\x74\x84\xe9\x26\xd7\x39"
           "\x25\xd9\xf3\xaa\x03\x0b\xe2\x3e\x51\xe7\xd5\xaf\xd3\x06\x60\xc9"
           "\x14\xba\xc2\xc2\xb4\xbc\xb3\x49\x46\xaf\x7c\xf6\xc9\x26\x86\x66"
           "\xd2\xa8\xea\xe2\x33\x78\xf4\x1f\xa5\x61\xc6\xd0\xe1\x3d\x69\x55"
           "abc";

       int main(void)
       {
           const uint8_t message[6] = {'a', 'b', 'c', 'd', 'e', 'f'};
           uint8_t form[SIMD_FORM(256)], digest[SIMD_DIGEST(256)], whole[SIMD_DIGEST(256)];
           uint64_t blocks;
           uint8_t refusal = simd_restore(OLD, sizeof OLD, form, sizeof form);
           if (refusal == SIMD_ACCEPTED)
               refusal = simd_feed(form, sizeof form, message + 3, 3, 24, &blocks);
           if (refusal == SIMD_ACCEPTED)
               refusal = simd_take(form, sizeof form, digest, sizeof digest, &blocks);
           if (refusal == SIMD_ACCEPTED)
               refusal = simd_hash(256, message, sizeof message, 8 * sizeof message,
                                   whole, sizeof whole);
           if (refusal != SIMD_ACCEPTED) {
               fprintf(stderr, "refused %d: %s\n", refusal, simd_refusal_text(refusal));
               return 1;
           }
           for (int k = 0; k < SIMD_DIGEST(256); k++)
               printf("%02x", digest[k]);
           printf(" %s\n", memcmp(digest, whole, sizeof whole) == 0 ? "same" : "other");
           return 0;
       }

     keyed.c: a keyed seal, made in one call and checked in pieces.  The tag is
     right only where nothing is refused and right is 1.  The form is as secret
     as the key and is wiped, through a volatile pointer: a memset just before
     the end may be left out by the compiler.

       #include <stdio.h>
       #include "simd.h"

       static const uint8_t KEY[5] = {'g', 'r', 'o', 'u', 'p'};

       static void wipe(uint8_t *bytes, size_t len)
       {
           volatile uint8_t *byte = bytes;
           while (len-- > 0)
               *byte++ = 0;
       }

       static bool is_right(const uint8_t *message, size_t message_len,
                            const uint8_t *tag, size_t tag_len)
       {
           uint8_t form[SIMD_HMAC_FORM(256)];
           uint64_t blocks, right = 0;
           uint8_t refusal = simd_hmac_open(256, KEY, sizeof KEY, form, sizeof form);
           for (size_t k = 0; refusal == SIMD_ACCEPTED && k < message_len; k++)
               refusal = simd_hmac_feed(form, sizeof form, message + k, 1, 8, &blocks);
           if (refusal == SIMD_ACCEPTED)
               refusal = simd_hmac_check(form, sizeof form, tag, tag_len, &right);
           wipe(form, sizeof form);
           return refusal == SIMD_ACCEPTED && right == 1;
       }

       int main(void)
       {
           uint8_t message[3] = {'a', 'b', 'c'}, tag[SIMD_DIGEST(256)];
           uint8_t refusal = simd_hmac(256, KEY, sizeof KEY, message, sizeof message,
                                       8 * sizeof message, tag, sizeof tag);
           if (refusal != SIMD_ACCEPTED) {
               fprintf(stderr, "refused %d: %s\n", refusal, simd_refusal_text(refusal));
               return 1;
           }
           for (int k = 0; k < SIMD_DIGEST(256); k++)
               printf("%02x", tag[k]);
           printf(" %s\n", is_right(message, sizeof message, tag, sizeof tag) ? "right" : "wrong");
           message[0] ^= 1;
           puts(is_right(message, sizeof message, tag, sizeof tag) ? "right" : "wrong");
           return 0;
       }

     page.c: a page of two entries for the ledger binder, printed.  Each entry goes
     straight after the one before it; the page is bytes, and no 0 ends them.

       #include <stdio.h>
       #include "simd.h"

       static const struct {
           uint64_t number;
           uint16_t width;
       } ENTRIES[2] = {{9, 256}, {10, 512}};

       int main(void)
       {
           const uint8_t message[3] = {'a', 'b', 'c'};
           uint8_t digest[SIMD_DIGEST_MAX], page[2 * SIMD_ENTRY_MAX];
           size_t used = 0;
           for (int k = 0; k < 2; k++) {
               uint16_t width = ENTRIES[k].width;
               uint8_t refusal = simd_hash(width, message, sizeof message, 8 * sizeof message,
                                           digest, sizeof digest);
               if (refusal == SIMD_ACCEPTED)
                   refusal = simd_page_entry(ENTRIES[k].number, width, digest, SIMD_DIGEST(width),
                                             page + used, sizeof page - used);
               if (refusal != SIMD_ACCEPTED) {
                   fprintf(stderr, "refused %d: %s\n", refusal, simd_refusal_text(refusal));
                   return 1;
               }
               used += SIMD_ENTRY(width);
           }
           return fwrite(page, 1, used, stdout) == used ? 0 : 1;
       }

     quote.c: the quote of a digest, checked, and checked again after a slip: two
     digits change places.  The quote is bytes, and no zero byte ends them.

       #include <stdio.h>
       #include "simd.h"

       static void print(const uint8_t *quote, size_t len)
       {
           uint64_t right = 0;
           uint8_t refusal = simd_quote_check(quote, len, &right);
           printf("%.*s %s\n", (int)len, (const char *)quote,
                  refusal == SIMD_ACCEPTED && right == 1 ? "right" : "wrong");
       }

       int main(void)
       {
           const uint8_t message[3] = {'a', 'b', 'c'};
           uint8_t digest[SIMD_DIGEST(256)], quote[SIMD_QUOTE(256)], first;
           uint8_t refusal = simd_hash(256, message, sizeof message, 8 * sizeof message,
                                       digest, sizeof digest);
           if (refusal == SIMD_ACCEPTED)
               refusal = simd_quote(256, digest, sizeof digest, quote, sizeof quote);
           if (refusal != SIMD_ACCEPTED) {
               fprintf(stderr, "refused %d: %s\n", refusal, simd_refusal_text(refusal));
               return 1;
           }
           print(quote, sizeof quote);
           first = quote[0];
           quote[0] = quote[1];
           quote[1] = first;
           print(quote, sizeof quote);
           return 0;
       }

     index.c: the digest of a record and its index; then a reading late in the
     record is corrected, and only the blocks from the last state kept before it on
     are compressed again.  The old index and the new one are two buffers.

       #include <stdio.h>
       #include "simd.h"

       enum { BYTES = 10000, BITS = 8 * BYTES, SIZE = SIMD_INDEX(256, BITS) };

       static uint8_t record[BYTES], before[SIZE], after[SIZE];

       static void print(const uint8_t *digest, uint64_t blocks)
       {
           for (int k = 0; k < SIMD_DIGEST(256); k++)
               printf("%02x", digest[k]);
           printf(" %lu\n", (unsigned long)blocks);
       }

       int main(void)
       {
           const size_t place = 9876;
           uint8_t digest[SIMD_DIGEST(256)];
           uint64_t blocks;
           uint8_t refusal = simd_index(256, record, BYTES, BITS, before, SIZE,
                                        digest, sizeof digest, &blocks);
           if (refusal == SIMD_ACCEPTED) {
               print(digest, blocks);
               record[place] = 37;
               refusal = simd_reindex(256, record, BYTES, BITS, before, SIZE,
                                      place / SIMD_BLOCK(256), after, SIZE,
                                      digest, sizeof digest, &blocks);
           }
           if (refusal != SIMD_ACCEPTED) {
               fprintf(stderr, "refused %d: %s\n", refusal, simd_refusal_text(refusal));
               return 1;
           }
           print(digest, blocks);
           return 0;
       }

     vector.cpp: a std::vector, which may be empty.

       #include <cstdio>
       #include <vector>
       #include "simd.h"

       static bool hash_vector(const std::vector<uint8_t> &message, uint8_t *digest)
       {
           static const uint8_t none = 0;
           return simd_hash(512, message.empty() ? &none : message.data(), message.size(),
                            8 * static_cast<uint64_t>(message.size()),
                            digest, SIMD_DIGEST(512)) == SIMD_ACCEPTED;
       }

       int main()
       {
           uint8_t digest[SIMD_DIGEST(512)];
           if (!hash_vector(std::vector<uint8_t>(), digest))
               return 1;
           for (uint8_t byte : digest)
               std::printf("%02x", byte);
           std::putchar('\n');
           return 0;
       } */

#ifndef SIMD_H
#define SIMD_H

#include <stddef.h>
#include <stdint.h>

#ifdef __cplusplus
extern "C" {
#else
#include <stdbool.h>
#endif

/* VERSION of this library; that of the function is always SIMD v1.1 */

#define SIMD_VERSION_MAJOR 2
#define SIMD_VERSION_MINOR 0
#define SIMD_VERSION_PATCH 0
#define SIMD_VERSION "2.0.0"

/* Marks each call: where the compiler knows how, it warns of an answer that is
   not looked at, and of a null pointer that it sees in a call. */
#if defined(__GNUC__)
#define SIMD_CALL __attribute__((warn_unused_result, nonnull))
#else
#define SIMD_CALL
#endif

/* SIZES, in bytes unless said otherwise */

#define SIMD_BLOCK_SMALL 64     /* a block, and a state, of the small family */
#define SIMD_BLOCK_LARGE 128    /* and of the large family */
#define SIMD_HEAD 10            /* what stored forms and indexes begin with: width, bit length */
#define SIMD_FORM_SMALL 138     /* a stored form: head, state, block */
#define SIMD_FORM_LARGE 266
#define SIMD_OLD_FORM_SMALL 134     /* an old stored form, with 4 length bytes in place of 8 */
#define SIMD_OLD_FORM_LARGE 262
#define SIMD_HMAC_FORM_SMALL 276    /* a keyed form: two stored forms */
#define SIMD_HMAC_FORM_LARGE 532
#define SIMD_OLD_HMAC_FORM_SMALL 268    /* an old keyed form: two old stored forms */
#define SIMD_OLD_HMAC_FORM_LARGE 524
#define SIMD_WORDS_SMALL 128    /* an expanded block, in words of 32 bits */
#define SIMD_WORDS_LARGE 256
#define SIMD_DIGEST_MAX 64      /* the longest digest */
#define SIMD_LINE 76            /* a line of a page: 75 columns and a newline */
#define SIMD_ENTRY_MAX 152      /* the longest entry of a page: two lines */
#define SIMD_QUOTE_MAX 18       /* the longest quote: 16 digits and 2 check digits */
#define SIMD_INDEX_SPAN 16      /* the blocks from one state of an index to the next */

/* The same for one of the four widths. */
#define SIMD_BLOCK(width) ((width) <= 256 ? SIMD_BLOCK_SMALL : SIMD_BLOCK_LARGE)
#define SIMD_FORM(width) ((width) <= 256 ? SIMD_FORM_SMALL : SIMD_FORM_LARGE)
#define SIMD_OLD_FORM(width) ((width) <= 256 ? SIMD_OLD_FORM_SMALL : SIMD_OLD_FORM_LARGE)
#define SIMD_HMAC_FORM(width) ((width) <= 256 ? SIMD_HMAC_FORM_SMALL : SIMD_HMAC_FORM_LARGE)
#define SIMD_OLD_HMAC_FORM(width) \
    ((width) <= 256 ? SIMD_OLD_HMAC_FORM_SMALL : SIMD_OLD_HMAC_FORM_LARGE)
#define SIMD_WORDS(width) ((width) <= 256 ? SIMD_WORDS_SMALL : SIMD_WORDS_LARGE)
#define SIMD_DIGEST(width) ((width) / 8)
#define SIMD_ENTRY(width) ((width) <= 256 ? SIMD_LINE : 2 * SIMD_LINE)
#define SIMD_QUOTE(width) SIMD_QUOTE_MAX

/* The same for one of the four widths and a count of bits: an index has a head, and a
   state for each of the full blocks 0, 16, 32 and so on. */
#define SIMD_INDEX_STATES(full) (((full) + SIMD_INDEX_SPAN - 1) / SIMD_INDEX_SPAN)
#define SIMD_INDEX_SMALL(bits) \
    (SIMD_HEAD + SIMD_BLOCK_SMALL * SIMD_INDEX_STATES((bits) / (8 * SIMD_BLOCK_SMALL)))
#define SIMD_INDEX_LARGE(bits) \
    (SIMD_HEAD + SIMD_BLOCK_LARGE * SIMD_INDEX_STATES((bits) / (8 * SIMD_BLOCK_LARGE)))
#define SIMD_INDEX(width, bits) \
    ((width) <= 256 ? SIMD_INDEX_SMALL(bits) : SIMD_INDEX_LARGE(bits))

/* The most bits of a message; of a keyed hash, of its key, and of its message with
   one block for the key. */
#define SIMD_BITS_MAX UINT64_C(18446744073709551615)

/* The greatest number of an entry of a page. */
#define SIMD_NUMBER_MAX UINT64_C(999999)

/* The most stack of a call, in bytes, at any width and for all arguments, with
   its arguments and return address.  Rounded up from what was measured and from
   what the machine code can need at all; the library's tests do both again
   (tests/c/stack.c, tests/c/frames.py).  Where memcpy and memset are bound only
   when they are first called, the loader's stack for that comes on top. */
#define SIMD_STACK_OPEN 512
#define SIMD_STACK_FEED 8192
#define SIMD_STACK_TAKE 6912
#define SIMD_STACK_RESTORE 832
#define SIMD_STACK_HASH 6912
#define SIMD_STACK_HMAC_OPEN 10240
#define SIMD_STACK_HMAC_FEED 8704
#define SIMD_STACK_HMAC_TAKE 9216
#define SIMD_STACK_HMAC_CHECK 9216
#define SIMD_STACK_HMAC 10752
#define SIMD_STACK_EXPAND 3840
#define SIMD_STACK_STEPS 5952
#define SIMD_STACK_UNSTEPS 5952
#define SIMD_STACK_COMPARE 7680
#define SIMD_STACK_TAPE 8192
#define SIMD_STACK_PAGE_ENTRY 320
#define SIMD_STACK_QUOTE 128
#define SIMD_STACK_QUOTE_CHECK 128
#define SIMD_STACK_INDEX 7168
#define SIMD_STACK_REINDEX 7168
#define SIMD_STACK_MAX 10752    /* of all calls */

/* REFUSALS */

#define SIMD_ACCEPTED 0
#define SIMD_REFUSED_WIDTH 1     /* the width is none of the four */
#define SIMD_REFUSED_COUNT 2     /* more bits than the bytes have */
#define SIMD_REFUSED_SPARE 3     /* retired: no call answers it since bits past the count are
                                    ignored; the name stays so that callers compile */
#define SIMD_REFUSED_TOTAL 4     /* more than SIMD_BITS_MAX bits in all; also of a key, and of
                                    a message with one key block */
#define SIMD_REFUSED_HASH 5      /* an open hash that is none; here, two stored forms that no
                                    keyed hash holds */
#define SIMD_REFUSED_OUTPUT 6    /* the output is too short; so is an old form, fed in place */
#define SIMD_REFUSED_BLOCK 7     /* a block or state of another size than the width's; a digest
                                    of another length than its width asks */
#define SIMD_REFUSED_FORM 8      /* a stored form of another size than the two of its width */
#define SIMD_REFUSED_TAIL 9      /* a stored form with a bit set past the tail */
#define SIMD_REFUSED_COMMAND 10  /* tape: no such command */
#define SIMD_REFUSED_END 11      /* tape: ends in a command, or before STOP */
#define SIMD_REFUSED_ORDER 12    /* tape: OPEN while open; FULL, PART, TAKE while not */
#define SIMD_REFUSED_TAPE 13     /* program seal: tape above 65,536 bytes; no call here answers it */
#define SIMD_REFUSED_ENTRY 14    /* page: an entry number above SIMD_NUMBER_MAX */
#define SIMD_REFUSED_INDEX 15    /* an index whose width, length or size does not fit the given
                                    width and message; a block number above the length block's */

/* simd_refusal_text - an answer in words, for programs that print it

   Never null; a number that stands for no refusal has a text of its own. */
static inline const char *simd_refusal_text(uint8_t refusal)
{
    switch (refusal) {
    case SIMD_ACCEPTED: return "accepted";
    case SIMD_REFUSED_WIDTH: return "the width is none of 224, 256, 384 and 512";
    case SIMD_REFUSED_COUNT: return "more bits than the bytes have";
    case SIMD_REFUSED_SPARE: return "retired: bits past the count are ignored";
    case SIMD_REFUSED_TOTAL: return "more than 18446744073709551615 bits in all";
    case SIMD_REFUSED_HASH: return "the open or keyed hash is none";
    case SIMD_REFUSED_OUTPUT: return "the output, or an old form fed in place, is too short";
    case SIMD_REFUSED_BLOCK: return "the block, state or digest has not the width's size";
    case SIMD_REFUSED_FORM: return "the stored form has neither of its width's sizes";
    case SIMD_REFUSED_TAIL: return "a bit of the stored form is set past its tail";
    case SIMD_REFUSED_COMMAND: return "no such command on the tape";
    case SIMD_REFUSED_END: return "the tape ends in a command or before STOP";
    case SIMD_REFUSED_ORDER: return "the tape opens an open hash, or uses one that is not open";
    case SIMD_REFUSED_TAPE: return "the tape has more than 65536 bytes";
    case SIMD_REFUSED_ENTRY: return "the entry number is above 999999";
    case SIMD_REFUSED_INDEX: return "the index or the block number does not fit the message";
    default: return "no such refusal";
    }
}

/* VERDICTS of simd_compare */

#define SIMD_SAME 0
#define SIMD_APART 1
#define SIMD_MEET 2

/* OPEN HASH

   An open hash is held by the caller as its stored form, SIMD_FORM(width)
   bytes: the width (2 bytes, little endian), the bit length so far (8 bytes,
   little endian), the state after all full blocks (words little endian, in the
   order A0, A1, .., B0, .., D3 or D7), then one block with the bits that fill no
   block yet and zeros after them.  To store a hash is to keep these bytes.
   A form with a state that no message reaches is accepted, and what follows is
   worked out from that state.  The zeros after the tail belong to the form: it is
   not a piece, and a bit set there is refused.

   OLD FORMS have 4 length bytes, and so SIMD_OLD_FORM(width) bytes in all; they were
   written while a hash held its length in 32 bits.  Such a form is told by its size
   and stands for the one with four zero bytes put behind its length.
     - simd_take takes it as it is, and so do simd_hmac_take and simd_hmac_check an
       old keyed form.
     - To feed it, simd_restore it first, into a buffer of SIMD_FORM(width) bytes, as
       restore.c above does.  Fed in place, it has no room for the length:
       SIMD_REFUSED_OUTPUT, after all other refusals, with nothing changed; that is
       found only when the piece has been hashed.
   So no call writes an old form; to store a restored one again is to keep it in
   today's size.  The size is all that tells the two apart: hand over exactly as many
   bytes as were stored.  An old form in a longer buffer, handed over with the length
   of the buffer, is read as one of today's size, if that is its length.

   A form handed over is refused with
     SIMD_REFUSED_FORM    form_len is below 2
     SIMD_REFUSED_WIDTH   its width is none of the four
     SIMD_REFUSED_FORM    form_len is neither SIMD_FORM(width) nor
                          SIMD_OLD_FORM(width)
     SIMD_REFUSED_TAIL    a bit of its last block is set past the tail, which has
                          as many bits as the length leaves over full blocks
   in this order; below, "those of a form". */

/* simd_open - open a hash

   Writes the stored form of the empty hash to the first SIMD_FORM(width) bytes
   of form.

   Refusals, in order:
     SIMD_REFUSED_WIDTH
     SIMD_REFUSED_OUTPUT  form_len is below SIMD_FORM(width) */
SIMD_CALL uint8_t simd_open(uint16_t width, uint8_t *form, size_t form_len);

/* simd_feed - feed a piece of a message

   Feeds the first bits bits of piece to the hash in form, in place.  They
   follow directly on the bits fed before, also where those are no whole number
   of bytes.  bits may be 0.  Two pieces that agree in their first bits bits leave
   one form.  *blocks becomes the number of blocks compressed.

   Refusals, in order:
     those of a form
     SIMD_REFUSED_COUNT   bits is above 8 * piece_len
     SIMD_REFUSED_TOTAL   the hash would have more than SIMD_BITS_MAX bits
     SIMD_REFUSED_OUTPUT  form is an old one: simd_restore it first */
SIMD_CALL uint8_t simd_feed(uint8_t *form, size_t form_len,
                            const uint8_t *piece, size_t piece_len, uint64_t bits,
                            uint64_t *blocks);

/* simd_take - take the digest of what was fed

   Writes the digest to the first SIMD_DIGEST(width) bytes of out; the width is
   the form's.  The hash stays open: form is not changed and may be fed on, an old
   one once it is restored.  *blocks becomes the number of blocks compressed: 2 where
   bits were left over full blocks, else 1.

   Refusals, in order:
     those of a form
     SIMD_REFUSED_OUTPUT  out_len is below SIMD_DIGEST(width) */
SIMD_CALL uint8_t simd_take(const uint8_t *form, size_t form_len,
                            uint8_t *out, size_t out_len, uint64_t *blocks);

/* simd_restore - a stored form of either size, in today's

   Writes the form of the hash in stored to the first SIMD_FORM(width) bytes of
   form; the width is that of stored.  Of an old form this is the one that it stands
   for, of a form of today's size the same bytes.  form may then be fed, taken and
   kept as any other.  stored and form are two buffers that do not overlap.

   Refusals, in order:
     those of a form, by stored and stored_len
     SIMD_REFUSED_OUTPUT  form_len is below SIMD_FORM(width) */
SIMD_CALL uint8_t simd_restore(const uint8_t *stored, size_t stored_len,
                               uint8_t *form, size_t form_len);

/* ONE CALL FOR A WHOLE MESSAGE */

/* simd_hash - the digest of a message

   Writes the digest of the first bits bits of message to the first
   SIMD_DIGEST(width) bytes of out: the digest that simd_open, simd_feed and
   simd_take give, worked out in one pass.

   Refusals, in order:
     SIMD_REFUSED_WIDTH
     SIMD_REFUSED_COUNT   bits is above 8 * message_len
     SIMD_REFUSED_TOTAL   never: bits cannot be above SIMD_BITS_MAX
     SIMD_REFUSED_OUTPUT  out_len is below SIMD_DIGEST(width) */
SIMD_CALL uint8_t simd_hash(uint16_t width, const uint8_t *message, size_t message_len,
                            uint64_t bits, uint8_t *out, size_t out_len);

/* KEYED SEALS

   HMAC of FIPS 198-1 over the digest of the width.  A key is 0 to
   2,305,843,009,213,693,951 whole bytes: one that is longer than SIMD_BLOCK(width)
   bytes is hashed first, one of exactly so many is not.  A tag has
   SIMD_DIGEST(width) bytes.

   A keyed hash is held by the caller as its keyed form, SIMD_HMAC_FORM(width)
   bytes: the stored form of the inner hash, which has taken the key block and what
   was fed, and then that of the outer one, which has taken the key block alone.
   To store a keyed hash is to keep these bytes.

   An OLD KEYED FORM is two old forms, SIMD_OLD_HMAC_FORM(width) bytes, and is taken
   and checked as it is.  To feed it, restore both halves first: simd_restore its
   first SIMD_OLD_FORM(width) bytes into the first SIMD_FORM(width) of a buffer of
   SIMD_HMAC_FORM(width), and its others into the others.

   A KEYED FORM IS AS SECRET AS ITS KEY: who has it can make seals under that key.
   Store it as a key is stored, and wipe it once it is not needed any more, as
   keyed.c above does; so also an old one that was restored.  No call clears the
   stack that it used: parts of a key or of a form may be left there.

   0 MEANS "NOT REFUSED", NOT "RIGHT": the verdict of a check is in *right.

   simd_hmac_check compares a tag of the right length with no early end, wherever
   a byte differs.  No other call compares tags, and nothing else here is made to
   take the same time for all data.

   A keyed form handed over is refused with
     those of a form      its first form_len / 2 bytes as a stored form
     those of a form      the bytes after these as a stored form
     SIMD_REFUSED_HASH    the two have unequal widths, the inner one has fewer bits
                          than a key block, or the outer one has not exactly those
                          of a key block: 512, or 1,024 in the large family
   in this order; below, "those of a keyed form". */

/* simd_hmac_open - open a keyed hash

   Writes the keyed form of key, with nothing fed, to the first
   SIMD_HMAC_FORM(width) bytes of form.

   Refusals, in order:
     SIMD_REFUSED_WIDTH
     SIMD_REFUSED_TOTAL   8 * key_len is above SIMD_BITS_MAX
     SIMD_REFUSED_OUTPUT  form_len is below SIMD_HMAC_FORM(width) */
SIMD_CALL uint8_t simd_hmac_open(uint16_t width, const uint8_t *key, size_t key_len,
                                 uint8_t *form, size_t form_len);

/* simd_hmac_feed - feed a piece of a message to a keyed hash

   As simd_feed.

   Refusals, in order:
     those of a keyed form
     SIMD_REFUSED_COUNT   bits is above 8 * piece_len
     SIMD_REFUSED_TOTAL   key block and message would have more than SIMD_BITS_MAX
                          bits
     SIMD_REFUSED_OUTPUT  form is an old one: simd_restore its halves first */
SIMD_CALL uint8_t simd_hmac_feed(uint8_t *form, size_t form_len,
                                 const uint8_t *piece, size_t piece_len, uint64_t bits,
                                 uint64_t *blocks);

/* simd_hmac_take - take the tag of what was fed

   Writes the tag to the first SIMD_DIGEST(width) bytes of tag; the width is the
   form's.  The keyed hash stays open: form is not changed and may be fed on, an old
   one once its halves are restored.  *blocks becomes the number of blocks compressed:
   4 where bits were left over full blocks, else 3; 2 of them are the outer hash's.

   Refusals, in order:
     those of a keyed form
     SIMD_REFUSED_OUTPUT  tag_len is below SIMD_DIGEST(width) */
SIMD_CALL uint8_t simd_hmac_take(const uint8_t *form, size_t form_len,
                                 uint8_t *tag, size_t tag_len, uint64_t *blocks);

/* simd_hmac_check - check given bytes against the tag of what was fed

   *right becomes 1 where the tag_len bytes of tag are the whole tag, neither
   shorter nor longer nor other, and else 0.  A tag of another length, also an
   empty one, is not refused: *right becomes 0.  On a refusal *right is left as it
   was; set it to 0 before the call.  The keyed hash stays open.  form may be an old
   one.

   Refusals:
     those of a keyed form */
SIMD_CALL uint8_t simd_hmac_check(const uint8_t *form, size_t form_len,
                                  const uint8_t *tag, size_t tag_len, uint64_t *right);

/* simd_hmac - the tag of a message, in one call

   Writes the tag of the first bits bits of message under key to the first
   SIMD_DIGEST(width) bytes of tag: the one that simd_hmac_open, simd_hmac_feed
   and simd_hmac_take give, worked out in one pass.  key and message may overlap.

   Refusals, in order:
     SIMD_REFUSED_WIDTH
     SIMD_REFUSED_TOTAL   8 * key_len is above SIMD_BITS_MAX
     SIMD_REFUSED_COUNT   bits is above 8 * message_len
     SIMD_REFUSED_TOTAL   bits and those of a key block, 8 * SIMD_BLOCK(width), are
                          above SIMD_BITS_MAX
     SIMD_REFUSED_OUTPUT  tag_len is below SIMD_DIGEST(width) */
SIMD_CALL uint8_t simd_hmac(uint16_t width, const uint8_t *key, size_t key_len,
                            const uint8_t *message, size_t message_len, uint64_t bits,
                            uint8_t *tag, size_t tag_len);

/* PARTS OF THE COMPRESSION

   last tells whether the block is a message block (false) or the length block
   (true), which is expanded in another way.  States are bytes: words little
   endian, in the order of the stored form. */

/* simd_expand - the expanded message of one block

   Writes SIMD_WORDS(width) words to out: 32 rows of 4 (small family) or 8
   words, row after row, in the order in which the steps use them.  out_len
   counts words.

   Refusals, in order:
     SIMD_REFUSED_WIDTH
     SIMD_REFUSED_BLOCK   block_len is not SIMD_BLOCK(width)
     SIMD_REFUSED_OUTPUT  out_len is below SIMD_WORDS(width) */
SIMD_CALL uint8_t simd_expand(uint16_t width, bool last,
                              const uint8_t *block, size_t block_len,
                              uint32_t *out, size_t out_len);

/* simd_steps, simd_unsteps - the 32 steps, forward and backward

   simd_steps writes the state after the 32 steps with the block's expanded
   message to the first SIMD_BLOCK(width) bytes of out.  state is the one
   before step 0, that is, already xored with the block.
   simd_unsteps is the inverse: from the state after the 32 steps it writes the
   one before step 0.

   Refusals, in order:
     SIMD_REFUSED_WIDTH
     SIMD_REFUSED_BLOCK   state_len or block_len is not SIMD_BLOCK(width)
     SIMD_REFUSED_OUTPUT  out_len is below SIMD_BLOCK(width) */
SIMD_CALL uint8_t simd_steps(uint16_t width, bool last,
                             const uint8_t *state, size_t state_len,
                             const uint8_t *block, size_t block_len,
                             uint8_t *out, size_t out_len);
SIMD_CALL uint8_t simd_unsteps(uint16_t width, bool last,
                               const uint8_t *state, size_t state_len,
                               const uint8_t *block, size_t block_len,
                               uint8_t *out, size_t out_len);

/* COMPARISON */

/* simd_compare - compare two messages under one width

   *verdict becomes
     SIMD_SAME   lengths and bits are equal, whatever is past the counts
     SIMD_APART  the messages differ, and so do their final states
     SIMD_MEET   the messages differ and their final states are equal: a
                 collision of the whole state
   At SIMD_MEET *block becomes the number of the block that shows it, else 0.
   Blocks are counted back: 0 is the length block, 1 the last message block, and
   so on.  It is the smallest number at which the state before the block or the
   block itself differs; both messages have a block of that number, one kind of
   compression takes both, and one state comes out.

   a and b may overlap.

   Refusals, in order:
     SIMD_REFUSED_WIDTH
     SIMD_REFUSED_COUNT   of a: a_bits is above 8 * a_len
     SIMD_REFUSED_TOTAL   of a: never, since a_bits cannot be above SIMD_BITS_MAX
     the same two of b */
SIMD_CALL uint8_t simd_compare(uint16_t width,
                               const uint8_t *a, size_t a_len, uint64_t a_bits,
                               const uint8_t *b, size_t b_len, uint64_t b_bits,
                               uint64_t *verdict, uint64_t *block);

/* TAPE */

/* simd_tape - run a tape of commands

     01  OPEN  width (2 bytes, little endian)   opens a hash
     02  FULL  32 bytes                         feeds 256 bits
     03  PART  count (1 byte), 32 bytes         feeds the first count bits, 0 to 255
     04  TAKE                                   writes a digest, closes the hash
     05  STOP                                   ends the tape; also with a hash open

   Command bytes are hexadecimal.  A PART has 32 bytes whatever its count; the bits
   past the count are ignored.  Digests are written to out straight after each
   other.  Bytes after STOP are not read.

   *count becomes the number of digests written, on every answer.  On a refusal
   *place becomes the offset in the tape of the command that is refused, and
   out keeps the digests of earlier commands; nothing else of it is written.
   Where nothing is refused, *place is not written.

   Refusals of a command, in order:
     SIMD_REFUSED_COMMAND its first byte is none of the five
     SIMD_REFUSED_END     the tape ends in it; also where the tape ends before
                          STOP, with *place the length of the tape
     SIMD_REFUSED_ORDER   OPEN while a hash is open, or FULL, PART or TAKE while
                          none is
     SIMD_REFUSED_WIDTH   OPEN
     SIMD_REFUSED_TOTAL   FULL, PART: the hash would have more than SIMD_BITS_MAX
                          bits
     SIMD_REFUSED_OUTPUT  TAKE: less of out is left than the digest needs */
SIMD_CALL uint8_t simd_tape(const uint8_t *tape, size_t tape_len,
                            uint8_t *out, size_t out_len,
                            uint64_t *count, uint64_t *place);

/* PAGE

   A page for the ledger binder is the lines of its entries in turn.  Each line has
   75 columns, of ASCII, and a newline:

     columns 1 to 6    the entry's number in decimal, right-aligned
     column 7          a space
     columns 8 to 10   the width, right-aligned
     column 11         a space
     columns 12 to 75  the first 64 hexadecimal digits of the digest, lowercase, two
                       for each byte, filled with spaces on the right

   A digest of more than 64 digits, that is of width 384 or 512, has a second line:
   11 spaces, then its other digits, filled in the same way.

   Two lists of entries that print one page are one list, order and repetitions
   included. */

/* simd_page_entry - print one entry of a page

   Writes the entry's lines to the first SIMD_ENTRY(width) bytes of out, with no 0
   after them.  number is 0 to SIMD_NUMBER_MAX.  Any bytes will do as a digest; a
   tag is printed in the same way.

   Refusals, in order:
     SIMD_REFUSED_WIDTH
     SIMD_REFUSED_BLOCK   digest_len is not SIMD_DIGEST(width)
     SIMD_REFUSED_ENTRY   number is above SIMD_NUMBER_MAX
     SIMD_REFUSED_OUTPUT  out_len is below SIMD_ENTRY(width) */
SIMD_CALL uint8_t simd_page_entry(uint64_t number, uint16_t width,
                                  const uint8_t *digest, size_t digest_len,
                                  uint8_t *out, size_t out_len);

/* QUOTE

   The quote of a digest is what invoices and listings name it by: 18 characters of
   ASCII, the 16 hexadecimal digits of the digest's first 8 bytes, lowercase, and
   two decimal check digits.  With the 16 read as a number N, the first digit the
   highest, the check is 98 - (100 * N modulo 97), from 02 to 98, always with two
   digits:

     N = 0              000000000000000098
     N = 1              000000000000000195
     N = 31             000000000000001f05
     N = 32             000000000000002002
     N = 2^64 - 1       ffffffffffffffff15

   This is the reckoning of ISO 7064, MOD 97-10.

   18 characters are a right quote where the first 16 are such digits and the others
   are the check digits of these.  The quote of every digest is right.  A right quote
   in which one hexadecimal digit is changed to anything else, or two unequal
   neighbours among the 16 are exchanged, and whose check digits are kept, is not
   right any more.

   A CHECK FINDS A SLIP, NOT A FORGERY: anyone can work out the check digits of any
   16 digits, and a right quote need not be that of the digest in question.  To tell
   that, compare the quotes, which is to compare 64 bits of the digests, or compare
   whole digests. */

/* simd_quote - the quote of a digest

   Writes the quote to the first SIMD_QUOTE(width) bytes of out, with no zero byte
   after them.  Any bytes will do as a digest; a tag is quoted in the same way.

   Refusals, in order:
     SIMD_REFUSED_WIDTH
     SIMD_REFUSED_BLOCK   digest_len is not SIMD_DIGEST(width)
     SIMD_REFUSED_OUTPUT  out_len is below SIMD_QUOTE(width) */
SIMD_CALL uint8_t simd_quote(uint16_t width, const uint8_t *digest, size_t digest_len,
                             uint8_t *out, size_t out_len);

/* simd_quote_check - whether given bytes are a right quote

   *right becomes 1 where the quote_len bytes of quote are a right quote, and else
   0: also where they are fewer or more than 18, where a letter is a capital, and
   where a space, a newline or a zero byte is among them.

   Nothing is refused: it always returns SIMD_ACCEPTED, and that means "not
   refused", not "right".  The verdict is in *right, as at simd_hmac_check, and is
   written by every call. */
SIMD_CALL uint8_t simd_quote_check(const uint8_t *quote, size_t quote_len, uint64_t *right);

/* INDEX

   An index is kept beside a long record.  When a reading late in the record is
   corrected and the length stays, the new digest and the new index follow from the old
   index and the blocks after the last state kept before the correction.

   It has SIMD_INDEX(width, bits) bytes: the width (2 bytes, little endian), the bit
   length (8 bytes, little endian), then the states before blocks 0, 16, 32 and so on,
   one for every full block so numbered, each SIMD_BLOCK(width) bytes in the order of
   the stored form.  A last block that is not full and the length block keep none, and a
   record of less than a block has an index of SIMD_HEAD bytes.

   AN OLD INDEX, with 4 length bytes, is not taken: it has another size, and so is
   SIMD_REFUSED_INDEX.  Make it again from the record with simd_index.

   Blocks are counted from the front: the first is 0, and the number of the length
   block is that of all message blocks, the last one counted also where it is not full.
   (simd_compare counts them back.)

   THE STATES OF AN INDEX ARE TAKEN AS THEY ARE.  A correction starts from one of them,
   also where that is the first, and cannot tell whether a message has such a state.  So
   the digest is right only where the index is; who can change the index can change the
   digest.  Keep an index as safe as its record, or make it anew. */

/* simd_index - the digest of a message, and its index

   Writes the index of the first bits bits of message to the first
   SIMD_INDEX(width, bits) bytes of index, and their digest, that of simd_hash, to the
   first SIMD_DIGEST(width) bytes of out.  *blocks becomes the number of blocks
   compressed: all message blocks and the length block.

   Refusals, in order:
     SIMD_REFUSED_WIDTH
     SIMD_REFUSED_COUNT   bits is above 8 * message_len
     SIMD_REFUSED_TOTAL   never: bits cannot be above SIMD_BITS_MAX
     SIMD_REFUSED_OUTPUT  index_len is below SIMD_INDEX(width, bits), or out_len below
                          SIMD_DIGEST(width) */
SIMD_CALL uint8_t simd_index(uint16_t width, const uint8_t *message, size_t message_len,
                             uint64_t bits, uint8_t *index, size_t index_len,
                             uint8_t *out, size_t out_len, uint64_t *blocks);

/* simd_reindex - the digest and the index of a corrected message

   message is the corrected one, old the index that was kept, and block the number of
   the first block that was corrected, from 0 to that of the length block.  The work
   starts at the last state in old that is kept for this block or one before it, or at
   the width's starting state where old has no state.  The states up to that one are
   carried into index unchanged, the others are made from the message.  So a correction
   in the last message block compresses at most 18 blocks, however long the record is.

   Writes to index and out as simd_index does.  *blocks becomes the number of blocks
   compressed: as many as simd_index reports less those before the start.

   Where old is the index that simd_index makes of an earlier message of the same length
   that equals this one in all blocks before block, index and out become what simd_index
   makes of this one.  Any other index of the right shape is accepted too, and so is a
   number behind the first corrected block, up to the length block's: the results are
   then what the states of old give.  A number before it costs time alone.

   old and index are two buffers that do not overlap.

   Refusals, in order:
     SIMD_REFUSED_WIDTH
     SIMD_REFUSED_COUNT   bits is above 8 * message_len
     SIMD_REFUSED_TOTAL   never: bits cannot be above SIMD_BITS_MAX
     SIMD_REFUSED_INDEX   old_len is not SIMD_INDEX(width, bits), the width or the bit
                          length in old is not that given, or block is above the number
                          of the length block
     SIMD_REFUSED_OUTPUT  index_len is below SIMD_INDEX(width, bits), or out_len below
                          SIMD_DIGEST(width) */
SIMD_CALL uint8_t simd_reindex(uint16_t width, const uint8_t *message, size_t message_len,
                               uint64_t bits, const uint8_t *old, size_t old_len,
                               uint64_t block, uint8_t *index, size_t index_len,
                               uint8_t *out, size_t out_len, uint64_t *blocks);

#ifdef __cplusplus
}
#endif

#endif
