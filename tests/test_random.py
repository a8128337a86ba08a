#!/usr/bin/env python3
"""Random messages in random cuts against the reference.

    test_random.py [--seed S] [--count N]

N messages of 0 to 10,000 bits, each at all four widths: digests of the pieces
and of the whole message, and the blocks reported.
"""

import sys

from tally import Tally, bits_of, message, random_arguments
import form_ref
import product
import simd_ref as ref

BITS = 10000


def length(rng):
    """Any number of bits; every fourth time one next to full blocks."""
    if rng.randrange(4):
        return rng.randint(0, BITS)
    return max(0, min(BITS, 512 * rng.randint(0, BITS // 512) + rng.randint(-9, 9)))


def cut(rng, bits):
    """The sizes of the pieces, which add up to the bits."""
    longest = rng.choice((9, 64, 600, 3000, BITS))
    sizes = []
    while bits > 0 or not sizes:
        sizes.append(min(bits, rng.randint(0, longest)))
        bits -= sizes[-1]
    return sizes


def in_pieces(width, data, sizes):
    """(refusal, digest, blocks reported) of a message fed in pieces."""
    refusal, form = product.open(width, bytes(form_ref.size(width)))
    total, at = 0, 0
    for size in sizes:
        if not refusal:
            refusal, form, blocks = product.feed(form, bits_of(data, at, size), size)
            total, at = total + blocks, at + size
    if refusal:
        return refusal, b"", total
    refusal, out, blocks = product.take(form, bytes(width // 8))
    return refusal, out, total + blocks


def main():
    rng, count = random_arguments(1, 500)
    tally = Tally("random")
    for k in range(count):
        bits = length(rng)
        data, sizes = message(rng, bits), cut(rng, bits)
        for width in ref.WIDTHS:
            what = "message %d of %d bits at %d" % (k, bits, width)
            digest = ref.digest(width, data, bits)
            tally.equal(in_pieces(width, data, sizes),
                        (0, digest, ref.compressions(width, bits)), what + ", in pieces")
            tally.equal(product.hash(width, data, bits, bytes(width // 8)), (0, digest), what)
    return tally.finish("%d messages" % count)


if __name__ == "__main__":
    sys.exit(main())
