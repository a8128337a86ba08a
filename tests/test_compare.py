#!/usr/bin/env python3
"""The comparison of two messages.

    test_compare.py [--seed S] [--count N]

Equal, nearly equal, shorter, longer and empty messages at all widths, and N
random pairs, against the reference.  No two messages that meet are known, so
the product's answer Meet is proved and not run; the reference's rule for it
is tried on a toy compression of 3 bits, whose messages meet all the time.
"""

import itertools
import sys

from tally import Tally, message, random_arguments
import door_ref
import product
import simd_ref as ref

LENGTHS = (0, 1, 7, 8, 9, 504, 511, 512, 513, 1016, 1023, 1024, 1025, 1536, 2048, 2500)
NUMBER = 0x0123456789ABCDEF


def flipped(data, at):
    changed = bytearray(data)
    changed[at // 8] ^= 0x80 >> at % 8
    return bytes(changed)


def variants(rng, width, data, bits):
    """(name, data, bits) of messages near the given one; the first two are equal to it."""
    block = ref.block_bits(width)
    room = data + bytes(2 * block // 8)
    yield "equal", data, bits
    yield "equal, with bytes after it", data + rng.randbytes(3), bits
    if bits:
        for at in sorted({0, bits // 2, bits - 1, rng.randrange(bits)}):
            yield "bit %d changed" % at, flipped(data, at), bits
        cut = bits - 1
        shorter = bytearray(data[:-(-cut // 8)])
        if cut % 8:
            shorter[-1] &= 0xFF00 >> cut % 8
        yield "a bit shorter", bytes(shorter), cut
        yield "empty", b"", 0
    yield "a 0 longer", room, bits + 1
    yield "a 1 longer", flipped(room, bits), bits + 1
    if bits % block:
        yield "zeros to the full block", room, bits + block - bits % block
    yield "a block of zeros longer", room, bits + block
    if bits > block:
        yield "without its first block", data[block // 8:], bits - block
    yield "another", message(rng, bits + 5), bits + 5


# The reference's Meet, on a toy compression

TOY_BLOCKS, TOY_LENGTH = 4, 3


def toy_compress(last, state, block):
    return (5 * state + 3 * block * block + block + 6 * last) % 8


def toy_run(blocks):
    """The states before each block, the final one, and all blocks."""
    blocks = [(False, b) for b in blocks] + [(True, len(blocks))]
    states = [1]
    for last, block in blocks:
        states.append(toy_compress(last, states[-1], block))
    return states, blocks


def check_toy(tally):
    """How many pairs of toy messages meet."""
    toys = [m for n in range(TOY_LENGTH + 1)
            for m in itertools.product(range(TOY_BLOCKS), repeat=n)]
    meetings = 0
    for a, b in itertools.product(toys, repeat=2):
        (s, x), (t, y) = toy_run(a), toy_run(b)
        verdict, k = door_ref.verdict_of(a == b, s[-1], t[-1], door_ref.pairs(s, x),
                                         door_ref.pairs(t, y))
        if verdict != door_ref.MEET:
            tally.equal((verdict, a == b, s[-1] != t[-1]), (verdict, verdict == door_ref.SAME,
                        verdict == door_ref.APART), "toy %r %r" % (a, b))
            continue
        meetings += 1
        # Block k, counted back, is entry -1 - k of the blocks and -2 - k of the states.
        i, j = -1 - k, -2 - k
        differ = (s[j], x[i]) != (t[j], y[i])
        equal_after = all((s[j + n], x[i + n]) == (t[j + n], y[i + n]) for n in range(1, k + 1))
        one_kind = x[i][0] == y[i][0]
        tally.equal((differ, equal_after, one_kind, s[j + 1] == t[j + 1]), (True,) * 4,
                    "toy %r %r" % (a, b))
    return meetings


def main():
    rng, count = random_arguments(4, 60)
    tally, verdicts = Tally("compare"), {0: 0, 1: 0, 2: 0}

    def check(width, a, b, what, same=None):
        found = product.compare(width, *a, *b, NUMBER, NUMBER)
        tally.equal(found, door_ref.compare(width, *a, *b, NUMBER, NUMBER), what)
        if same is not None:
            tally.equal(found[1] == door_ref.SAME, same, what + ": same")
        verdicts[found[1]] = verdicts.get(found[1], 0) + 1

    for width in ref.WIDTHS:
        for bits in LENGTHS:
            data = message(rng, bits)
            for k, (name, other, size) in enumerate(variants(rng, width, data, bits)):
                what = "%d bits at %d and %s" % (bits, width, name)
                check(width, (data, bits), (other, size), what, k < 2)
                check(width, (other, size), (data, bits), what + ", the other way", k < 2)
    for k in range(count):
        width = rng.choice(ref.WIDTHS)
        a, b = (rng.randrange(4000) for _ in range(2))
        check(width, (message(rng, a), a), (message(rng, b), b), "random pair %d" % k)
    meetings = check_toy(tally)
    return tally.finish("Same %d, Apart %d, Meet %d; %d meetings of the toy"
                        % (verdicts[0], verdicts[1], verdicts[2], meetings))


if __name__ == "__main__":
    sys.exit(main())
