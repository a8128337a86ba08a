#!/usr/bin/env python3
"""The bits apart of expanded blocks, sampled, beside the proved bounds.

    test_distance.py [--seed S] [--count N]

N pairs of each kind at each width: random ones, ones that differ in a bit or
in a byte, and close ones, whose transforms differ at no more places than they
have to (65 or 129).  Both blocks are expanded as message or both as length.
The first pair of each kind is also compared with the reference.
"""

import sys

from tally import Tally, random_arguments
import door_ref
import product
import simd_ref as ref

# R: the proved bound on the bits apart, and all bits.
BOUND = {4: (520, 4096), 8: (1032, 8192)}


def random_pair(rng, width):
    size = ref.block_bytes(width)
    return rng.randbytes(size), rng.randbytes(size)


def bit_pair(rng, width):
    block = bytearray(rng.randbytes(ref.block_bytes(width)))
    other = bytearray(block)
    other[rng.randrange(len(block))] ^= 1 << rng.randrange(8)
    return bytes(block), bytes(other)


def byte_pair(rng, width):
    block = bytearray(rng.randbytes(ref.block_bytes(width)))
    other = bytearray(block)
    other[rng.randrange(len(block))] ^= rng.randint(1, 255)
    return bytes(block), bytes(other)


def close_pair(rng, width):
    """The difference, as a polynomial, has as many roots among the powers of
    w as its degree."""
    r = ref.rows(width)
    roots = rng.sample(ref.POWERS[r], 16 * r - 1)
    difference = [rng.randint(1, 256)]
    for root in roots:
        difference = [(high - root * low) % 257
                      for low, high in zip(difference + [0], [0] + difference)]
    pair = []
    for d in difference:
        pair.append(rng.choice([(b, (b + d) % 257) for b in range(256) if (b + d) % 257 < 256]))
    return bytes(b for b, _ in pair), bytes(b for _, b in pair)


KINDS = (("random", random_pair), ("one bit", bit_pair), ("one byte", byte_pair),
         ("close", close_pair))


def apart(x, y):
    return sum(bin(a ^ b).count("1") for a, b in zip(x, y))


def main():
    rng, count = random_arguments(5, 150)
    tally = Tally("distance")
    smallest = {r: {} for r in BOUND}
    for width in ref.WIDTHS:
        r = ref.rows(width)
        bound, _ = BOUND[r]
        for name, pair in KINDS:
            for k in range(count):
                last, out = bool(k % 2), [0] * (32 * r)
                blocks = pair(rng, width)
                results = [product.expand(width, last, block, out) for block in blocks]
                if k < 2:
                    for block, result in zip(blocks, results):
                        tally.equal(result, door_ref.expand(width, last, block, out), "expand")
                found = apart(*(words for _, words in results))
                if blocks[0] != blocks[1]:
                    tally.equal(found >= bound, True, "%s pair at %d: %d" % (name, width, found))
                    smallest[r][name] = min(found, smallest[r].get(name, found))
    for r, (bound, bits) in BOUND.items():
        print("distance, %s family: smallest found of %d bits: %s; proved bound %d" % (
            "small" if r == 4 else "large", bits,
            ", ".join("%s %d" % item for item in smallest[r].items()), bound))
    return tally.finish("%d pairs of each of %d kinds at each width" % (count, len(KINDS)))


if __name__ == "__main__":
    sys.exit(main())
