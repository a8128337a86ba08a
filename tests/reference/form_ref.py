#!/usr/bin/env python3
"""The stored form of an open hash and the head of an index, written from the scope and from the change
requests, for checking other code.  All their sizes stand here.

    BITS_MAX                           the most bits of a message
    HEAD, OLD_HEAD                     the bytes of a width and a bit length, today and in old forms and indexes
    size(width), old_size(width)       the bytes of a stored form
    keyed_size(width), old_keyed_size  those of a keyed form, which is two of them
    head(width, bits), old_head        a width and a bit length, both low byte first
    made(width, bits, state, block)    a form, of the bytes of a state and of a last block
    old(width, bits, state, block)     an old form
    refusal(form)                      8, 1, 8 or 9, or 0 for a form of either size
    parts(form)                        (width, bit length, state, last block) of one that is not refused
    renewed(form)                      the form of today's size of either
    as_old(form)                       the old form of one of today's size, whose length fits 4 bytes
"""

import sys

import simd_ref as ref

WIDTH_BYTES, LENGTH_BYTES, OLD_LENGTH_BYTES = 2, 8, 4
HEAD, OLD_HEAD = WIDTH_BYTES + LENGTH_BYTES, WIDTH_BYTES + OLD_LENGTH_BYTES
BITS_MAX, OLD_BITS_MAX = 256 ** LENGTH_BYTES - 1, 256 ** OLD_LENGTH_BYTES - 1


def size(width):
    return HEAD + 2 * ref.block_bytes(width)


def old_size(width):
    return OLD_HEAD + 2 * ref.block_bytes(width)


def keyed_size(width):
    return 2 * size(width)


def old_keyed_size(width):
    return 2 * old_size(width)


def head(width, bits, length_bytes=LENGTH_BYTES):
    return width.to_bytes(WIDTH_BYTES, "little") + bits.to_bytes(length_bytes, "little")


def old_head(width, bits):
    return head(width, bits, OLD_LENGTH_BYTES)


def made(width, bits, state, block):
    return head(width, bits) + state + block


def old(width, bits, state, block):
    return old_head(width, bits) + state + block


def width_of(data):
    """The width that a form or an index begins with."""
    return int.from_bytes(data[:WIDTH_BYTES], "little")


def bits_of(data):
    """The bit length that a form of today's size or an index begins with."""
    return int.from_bytes(data[WIDTH_BYTES:HEAD], "little")


def state_of(form):
    """The state of a form of today's size."""
    return form[HEAD:HEAD + ref.block_bytes(width_of(form))]


def parts(form):
    """State and last block are the last two blocks of either size; what is before them and behind the width is
    the bit length."""
    width = width_of(form)
    block = ref.block_bytes(width)
    front, state, last = form[:-2 * block], form[-2 * block:-block], form[-block:]
    return width, int.from_bytes(front[WIDTH_BYTES:], "little"), state, last


def refusal(form):
    if len(form) < WIDTH_BYTES:
        return 8
    width = width_of(form)
    if width not in ref.WIDTHS:
        return 1
    if len(form) not in (size(width), old_size(width)):
        return 8
    _, bits, _, last = parts(form)
    past = ref.block_bits(width) - bits % ref.block_bits(width)
    return 9 if int.from_bytes(last, "big") % 2 ** past else 0


def renewed(form):
    return made(*parts(form))


def as_old(form):
    return old(*parts(form))


# Self check

# (width, form, old form, keyed form, old keyed form), typed.
SIZES = ((224, 138, 134, 276, 268), (256, 138, 134, 276, 268), (384, 266, 262, 532, 524), (512, 266, 262, 532, 524))
# (size, refusal at each width), of zeros but for the width; typed.
REFUSALS = ((0, 8, 8, 8, 8), (1, 8, 8, 8, 8), (2, 8, 8, 8, 8), (133, 8, 8, 8, 8), (134, 0, 0, 8, 8), (135, 8, 8, 8, 8),
            (136, 8, 8, 8, 8), (137, 8, 8, 8, 8), (138, 0, 0, 8, 8), (139, 8, 8, 8, 8), (261, 8, 8, 8, 8),
            (262, 8, 8, 0, 0), (263, 8, 8, 8, 8), (265, 8, 8, 8, 8), (266, 8, 8, 0, 0), (267, 8, 8, 8, 8))
# (width, bit length, its last block's first bytes, refusal), typed; of either size where the length fits.
TAILS = ((256, 0, "", 0), (256, 0, "80", 9), (256, 1, "80", 0), (256, 1, "40", 9), (224, 7, "fe", 0), (224, 7, "ff", 9),
         (384, 8, "ff", 0), (384, 8, "ff80", 9), (512, 9, "ff80", 0), (512, 9, "ffc0", 9), (256, 512, "80", 9),
         (512, 512, "ff" * 64, 0), (512, 512, "ff" * 64 + "80", 9), (256, 511, "ff" * 63 + "fe", 0),
         (256, 511, "ff" * 64, 9), (512, 1023, "ff" * 127 + "fe", 0), (256, 4294967295, "ff" * 63 + "fe", 0),
         (256, 4294967295, "ff" * 64, 9), (256, 4294967296, "80", 9), (256, 4294967297, "80", 0),
         (224, 18446744073709551615, "ff" * 63 + "fe", 0), (512, 18446744073709551615, "ff" * 128, 9))


def self_check():
    """The values typed above, and two forms with their heads, typed.  Returns the list of failures."""
    failures = []
    if (BITS_MAX, OLD_BITS_MAX, HEAD, OLD_HEAD) != (18446744073709551615, 4294967295, 10, 6):
        failures.append("the limits and the heads")
    for width, *typed in SIZES:
        if [size(width), old_size(width), keyed_size(width), old_keyed_size(width)] != typed:
            failures.append("the sizes at %d" % width)
    for count, *typed in REFUSALS:
        if [refusal(width.to_bytes(2, "little").ljust(count, b"\0")[:count]) for width in ref.WIDTHS] != typed:
            failures.append("the refusals of %d bytes" % count)
    for width in (0, 1, 255, 257, 65535):
        if {refusal(width.to_bytes(2, "little").ljust(count, b"\0")) for count in (2, 134, 138, 266)} != {1}:
            failures.append("the refusal of width %d" % width)
    for width, bits, tail, typed in TAILS:
        block = ref.block_bytes(width)
        fields = width, bits, bytes(range(block)), bytes.fromhex(tail).ljust(block, b"\0")
        kinds = (made, old) if bits < 2 ** 32 else (made,)
        for kind in kinds:
            if (refusal(kind(*fields)), parts(kind(*fields))) != (typed, fields):
                failures.append("a tail after %d bits at %d" % (bits, width))
        if len(kinds) == 2 and (renewed(old(*fields)), as_old(made(*fields))) != (made(*fields), old(*fields)):
            failures.append("either from the other, %d bits at %d" % (bits, width))
    state, block = bytes(range(64)), b"\xe0" + bytes(63)
    if old(256, 0x01020403, state, block).hex() != "000103040201" + state.hex() + block.hex():
        failures.append("an old form")
    if renewed(old(256, 0x01020403, state, block)).hex() != "00010304020100000000" + state.hex() + block.hex():
        failures.append("an old form renewed")
    if made(384, 0x0102030405060708, 2 * state, 2 * block).hex()[:20] != "80010807060504030201":
        failures.append("the head of a form")
    return failures


def main():
    failures = self_check()
    for line in failures:
        print(line)
    print("form_ref: %s" % ("FAILED" if failures else "sizes, refusals and heads as typed: ok"))
    return 1 if failures else 0


if __name__ == "__main__":
    sys.exit(main())
