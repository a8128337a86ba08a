#!/usr/bin/env python3
"""The tape run of the library.

    test_tape.py [--seed S] [--count N]

The cases of tests/tape/cases.txt, a tape cut at every byte, tapes at
65,536 bytes and around, tapes of hundreds of records, and N random tapes, most
of them damaged, against the reference; with the output exact, longer and too
short.
"""

import collections
import sys

from tally import Tally, random_arguments
import door_ref
import product
import tapes

LENT = bytes((113 * k + 29) % 256 for k in range(4096))


def lent(size):
    return (LENT * (size // len(LENT) + 1))[:size]


def main():
    rng, count = random_arguments(2, 500)
    tally, met = Tally("tape"), collections.Counter()

    def check(tape, room, what):
        """The answer, held to the reference's."""
        found = product.tape(tape, lent(room), 5, 6)
        tally.equal(found, door_ref.tape(tape, lent(room), 5, 6), what)
        met[found[0]] += 1
        return found

    for tape, room, listing in tapes.cases():
        digests, refusal, place = tapes.answer(listing)
        written = b"".join(digests)
        out = lent(len(written) + 64 if room is None else room)
        expected = refusal, written + out[len(written):], len(digests), place if refusal else 6
        tally.equal(product.tape(tape, out, 5, 6), expected, "cases.txt: " + tape.hex()[:60])
        met[refusal] += 1

    for tape, place in tapes.cuts():
        found = check(tape, 96, "cut at %d" % len(tape))
        tally.equal((found[0], found[3]), (11, place), "cut at %d" % len(tape))

    for size in (65535, 65536, 65537):
        for end in (b"", tapes.TAKE + tapes.STOP):
            check(tapes.of_length(size, end), 32, "tape of %d bytes" % size)

    records = 0
    for n in (200, 400):
        check(tapes.long_tape(rng, n), 64 * n, "tape of %d records" % n)
        records += n

    for k in range(count):
        tape = tapes.random_tape(rng)
        found = check(tape, 4 * 64, "random tape %d" % k)
        if found[2]:                     # again, with room for some digests only
            check(tape, rng.randrange(64 * found[2]), "random tape %d, less room" % k)

    return tally.finish("%d records in two tapes, %d random tapes, answers %s" % (
        records, count, ", ".join("%d: %d" % item for item in sorted(met.items()))))


if __name__ == "__main__":
    sys.exit(main())
