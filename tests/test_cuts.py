#!/usr/bin/env python3
"""The messages of appendix A, fed in pieces.

Each piece is fed to the stored form that the piece before it left, so every
feed restores and stores the hash.  After the last piece the digest is the
published one and the blocks reported add up to the message's compressions.
"""

import itertools
import sys

from tally import Tally, bits_of
import check
import form_ref
import product
import simd_ref as ref

# Name and the sizes of the pieces in bits, in turn, over and over.
CUTS = (
    ("whole", (2 ** 32,)),
    ("bit by bit", (1,)),
    ("byte by byte", (8,)),
    ("with empty pieces", (0, 8, 0, 1)),
    ("3 bits", (3,)),
    ("7 and 9 bits", (7, 9)),
    ("13 bits", (13,)),
    ("1, 2, 4, .. bits", (1, 2, 4, 8, 16, 32, 64, 128, 256, 512)),
    ("a block less a bit", (511, 1)),
    ("a block and a bit", (513,)),
    ("a large block less a bit", (1023, 1)),
    ("bytes after a bit", (1, 8, 8, 8, 8, 8, 8, 8)),
)


def pieces(bits, sizes):
    """(start, count) of each piece."""
    at = 0
    for size in itertools.cycle(sizes):
        count = min(size, bits - at)
        yield at, count
        at += count
        if at == bits:
            return


def main():
    tally, feeds = Tally("cuts"), 0
    for width in ref.WIDTHS:
        for m, (data, bits, digest) in enumerate(check.messages(width), 1):
            for name, sizes in CUTS:
                what = "SIMD-%d message %d, %s" % (width, m, name)
                refusal, form = product.open(width, bytes(form_ref.size(width)))
                tally.equal(refusal, 0, what + ": open")
                total = 0
                for start, count in pieces(bits, sizes):
                    refusal, form, blocks = product.feed(form, bits_of(data, start, count), count)
                    tally.equal(refusal, 0, what + ": feed at %d" % start)
                    total += blocks
                    feeds += 1
                refusal, out, blocks = product.take(form, bytes(width // 8))
                tally.equal((refusal, out.hex(), total + blocks),
                            (0, digest, ref.compressions(width, bits)), what)
                tally.equal(product.take(form, bytes(width // 8)), (0, out, blocks),
                            what + ": a second take")
    return tally.finish("12 messages, %d cuttings, %d feeds" % (len(CUTS), feeds))


if __name__ == "__main__":
    sys.exit(main())
