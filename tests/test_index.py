#!/usr/bin/env python3
"""Indexes of records, and their corrections, against a plain loop.

    test_index.py [--seed S] [--count N]

At all widths, records of 0 to 50 blocks with every kind of end: a fresh run of
each, and a correction from every block number.  Then states that no message has,
block numbers behind the correction, indexes and numbers that do not fit, outputs of
every size, every set of broken rules for the order of refusals, bits past the count,
corrections one after the other, records of 64 KiB, and N random calls.

What is expected comes from the loop of reference/index_ref.py: of fresh runs over the
reference's compression, of the many corrections over that of baseline/portable.c,
which is held to the other one on the fresh runs.
"""

import ctypes
import functools
import itertools
import os
import sys

from tally import Tally, cleaned, message, random_arguments
from test_rubbish import soiled
import form_ref
import index_ref
import product
import simd_ref as ref

BLOCKS = 50
HEAD = form_ref.HEAD
NUMBER = 0x0123456789ABCDEF
OTHER = {224: 256, 256: 224, 384: 512, 512: 384}     # the other width of the family
UNKNOWN = (0, 1, 64, 128, 160, 223, 225, 255, 257, 383, 385, 511, 513, 1024, 65535)
BIT, BLOCK, REST = KINDS = ("a bit of the block", "the block", "all from the block on")
# By how many bytes the two outputs are longer than what is written.
SPARES = ((0, 0), (1, 0), (0, 1), (64, 64), (300, 9))

baseline = ctypes.CDLL(os.path.join(product.BUILT, "libbaseline.so"))
by_reference = functools.lru_cache(maxsize=None)(ref.compress)


def by_baseline(width, last, state, block):
    rows = ref.rows(width)
    words = (ctypes.c_uint32 * (4 * rows))(*itertools.chain(*state))
    baseline.base_compress(int(width > 256), int(last), words, bytes(block))
    return tuple(tuple(words[rows * c:rows * c + rows]) for c in range(4))


def fresh(width, data, bits):
    return index_ref.fresh(width, data, bits, by_baseline)


def corrected(width, data, bits, old, block):
    return index_ref.corrected(width, data, bits, old, block, by_baseline)


def lengths(width):
    """Whole blocks, and of a further block 1, 7, 8, 9 bits and all but one."""
    size = ref.block_bits(width)
    return [n * size + end for n in range(BLOCKS) for end in (0, 1, 7, 8, 9, size - 1)] + [BLOCKS * size]


def states(width, bits):
    """How many an index has."""
    return (bits // ref.block_bits(width) + 15) // 16


def size_of(width, bits):
    return HEAD + ref.block_bytes(width) * states(width, bits)


def last_number(width, bits):
    """That of the length block."""
    return -(-bits // ref.block_bits(width))


def skipped(width, bits, block):
    """The blocks before the start of a correction."""
    return 16 * min(block // 16, max(states(width, bits) - 1, 0))


def changed(rng, width, data, bits, block, kind):
    """A message with other bits in a block, and after it where all from it on is changed.  The length block has
    none of its bits."""
    size = ref.block_bits(width)
    first, end = block * size, bits if kind == REST else min((block + 1) * size, bits)
    if first >= bits:
        return data
    if kind == BIT:
        first = rng.randrange(first, end)
        end = first + 1
    other = rng.getrandbits(end - first) | 1 | 1 << (end - first - 1)
    return (int.from_bytes(data, "big") ^ other << (8 * len(data) - end)).to_bytes(len(data), "big")


def with_state(width, index, place, state):
    """An index with another state at a place."""
    size = ref.block_bytes(width)
    at = HEAD + size * place
    return index[:at] + state + index[at + size:]


def state_at(width, index, place):
    size = ref.block_bytes(width)
    return index[HEAD + size * place:][:size]


def call(width, data, bits, given, rooms):
    """A fresh run, or where an index and a block number are given, a correction."""
    if given is None:
        return product.index(width, data, bits, *rooms, NUMBER)
    return product.reindex(width, data, bits, *given, *rooms, NUMBER)


class Calls:
    """Calls of both kinds, each held to what it is to answer."""

    def __init__(self, tally, rng):
        self.tally, self.rng, self.count = tally, rng, 0

    def accepted(self, width, data, bits, given, made, what):
        """Index, digest and compressions; the rest of a longer output stays."""
        index, digest, count = made
        spare = SPARES[self.count % len(SPARES)]
        rooms = self.rng.randbytes(len(index) + spare[0]), self.rng.randbytes(len(digest) + spare[1])
        self.tally.equal(call(width, data, bits, given, rooms),
                         (0, index + rooms[0][len(index):], digest + rooms[1][len(digest):], count), what)
        self.count += 1

    def refused(self, width, data, bits, given, refusal, what, rooms=None):
        """Nothing is written; the outputs have room enough, unless they are given."""
        if rooms is None:
            rooms = self.rng.randbytes(size_of(width, bits)), self.rng.randbytes(64)
        self.tally.equal(call(width, data, bits, given, rooms), (refusal, *rooms, NUMBER), what)
        self.count += 1


def name(width, bits):
    return "SIMD-%d, %d bits" % (width, bits)


def check_fresh(calls, rng):
    """Every record; returns {(width, bits): (its bytes, its index, its digest)}."""
    tally, records = calls.tally, {}
    for width in ref.WIDTHS:
        size, stream = ref.block_bytes(width), rng.randbytes(BLOCKS * ref.block_bytes(width))
        for bits in lengths(width):
            data, what = cleaned(stream, bits), name(width, bits)
            made = index_ref.fresh(width, data, bits, by_reference)
            index, digest, count = made
            tally.equal(fresh(width, data, bits), made, what + ": the baseline's loop")
            tally.equal((len(index), count), (size_of(width, bits), last_number(width, bits) + 1), what + ": sizes")
            calls.accepted(width, data, bits, None, made, what)
            tally.equal(product.hash(width, data, bits, bytes(width // 8)), (0, digest), what + ": the digest alone")
            records[width, bits] = data, index, digest
        # The states of the longest record are those of an open hash that was fed so many blocks.
        form = product.open(width, bytes(form_ref.size(width)))[1]
        for place in range(states(width, BLOCKS * 8 * size)):
            tally.equal(form_ref.state_of(form), state_at(width, index, place), "SIMD-%d, state %d" % (width, place))
            form = product.feed(form, stream[16 * size * place:][:16 * size], 128 * size)[1]
    return records


def check_corrections(calls, rng, records):
    """From every block number the fresh run of the corrected record, less the blocks skipped."""
    kinds = itertools.cycle(KINDS)
    for (width, bits), (data, old, _) in records.items():
        total = last_number(width, bits) + 1
        for block, kind in zip(range(total), kinds):
            what = "%s, %s %d" % (name(width, bits), kind, block)
            new = changed(rng, width, data, bits, block, kind)
            index, digest, count = fresh(width, new, bits)
            made = index, digest, count - skipped(width, bits, block)
            calls.tally.equal(corrected(width, new, bits, old, block), made, what + ": the loop")
            calls.accepted(width, new, bits, (old, block), made, what)


def some_records(width, records, blocks, ends=(0, 1, -1)):
    """Those of so many blocks, and a bit more or less."""
    size = ref.block_bits(width)
    for bits in sorted({n * size + end for n in blocks for end in ends}):
        if (width, bits) in records:
            yield bits, *records[width, bits]


def some_numbers(width, bits):
    """Block numbers round those of kept states, and the last ones."""
    last = last_number(width, bits)
    found = {16 * k + more for k in range(5) for more in (-1, 0, 1)} | {last - 1, last}
    return sorted(k for k in found if 0 <= k <= last)


def check_forged(calls, rng, records):
    """What the states give.  One that is not reached by any message: before the start it is carried, at the start,
    also at block 0, all that follows is made from it, and behind the start it is made anew.  At last all at once."""
    tally = calls.tally
    for width in ref.WIDTHS:
        for bits, data, old, digest in some_records(width, records, (1, 2, 15, 16, 17, 31, 32, 33, 48, 49, 50)):
            for block, kind in zip(some_numbers(width, bits), itertools.cycle(KINDS)):
                new = changed(rng, width, data, bits, block, kind)
                honest = corrected(width, new, bits, old, block)
                start = skipped(width, bits, block) // 16
                for place in range(states(width, bits)):
                    what = "%s from block %d, state %d forged" % (name(width, bits), block, place)
                    state = rng.randbytes(ref.block_bytes(width))
                    forged = with_state(width, old, place, state)
                    made = corrected(width, new, bits, forged, block)
                    if place == start:
                        found = state_at(width, made[0], place), made[1] == honest[1]
                        tally.equal(found, (state, False), what + ": the start")
                    else:
                        index = with_state(width, honest[0], place, state) if place < start else honest[0]
                        tally.equal(made, (index, *honest[1:]), what + ": not the start")
                    calls.accepted(width, new, bits, (forged, block), made, what)
                forged = old[:HEAD] + rng.randbytes(len(old) - HEAD)
                calls.accepted(width, new, bits, (forged, block), corrected(width, new, bits, forged, block),
                               "%s from block %d, all states forged" % (name(width, bits), block))


def check_late(calls, rng, records):
    """A number behind the corrected block: while the start is not behind it, as a fresh run; else the index and the
    digest of the record as it was, for that is what its states give."""
    tally = calls.tally
    for width in ref.WIDTHS:
        for bits, data, old, digest in some_records(width, records, (17, 34, 50)):
            for block in (0, 1, 15, 16, 17, 31, 32, 33):
                if block >= last_number(width, bits):
                    continue
                new = changed(rng, width, data, bits, block, BIT)
                index, right, count = fresh(width, new, bits)
                for number in range(block, last_number(width, bits) + 1):
                    what = "%s, corrected in block %d, from %d" % (name(width, bits), block, number)
                    first = skipped(width, bits, number)
                    made = (old, digest, count - first) if first > block else (index, right, count - first)
                    tally.equal(corrected(width, new, bits, old, number), made, what + ": the loop")
                    tally.equal(made[1] == right, first <= block, what + ": the digest")
                    calls.accepted(width, new, bits, (old, number), made, what)


def check_shapes(calls, rng, records):
    """Indexes of another size, width or length, and block numbers, on both sides of what fits."""
    for width in ref.WIDTHS:
        size = ref.block_bits(width)
        for bits, data, old, digest in some_records(width, records, (0, 1, 2, 16, 17, 33), (0, 1, 7, -1)):
            last, what = last_number(width, bits), name(width, bits)
            for number in range(last + 1):
                calls.accepted(width, data, bits, (old, number), corrected(width, data, bits, old, number),
                               "%s, block %d" % (what, number))
            for number in (last + 1, last + 2, last + 16, last + 17, *(2 ** k + more for k in (8, 16, 31, 32, 33, 63)
                                                                      for more in (0, 1, last)), 2 ** 64 - 1):
                calls.refused(width, data, bits, (old, number), 15, "%s, block %d" % (what, number))

            others = [(old[:HEAD] + rng.randbytes(ref.block_bytes(width) * k), "%d states" % k)
                      for k in range(states(width, bits) + 3) if k != states(width, bits)]
            longer = old + rng.randbytes(2 * size // 8)
            others += [(longer[:k], "%d bytes" % k) for k in range(len(longer)) if k != len(old)]
            head = int.from_bytes(old[:HEAD], "little")
            others += [((head ^ 1 << k).to_bytes(HEAD, "little") + old[HEAD:], "bit %d of the front changed" % k)
                       for k in range(8 * HEAD)]
            others += [(other.to_bytes(2, "little") + old[2:], "width %d in it" % other)
                       for other in (*ref.WIDTHS, *UNKNOWN) if other != width]
            others += [(fresh(other, data, bits)[0], "that at %d" % other) for other in ref.WIDTHS if other != width]
            others += [(fresh(width, data + bytes(1), other)[0], "that of %d bits" % other)
                       for other in (bits - 8, bits - 1, bits + 1, bits + 8) if other >= 0]
            others += [(old[2:HEAD] + old[:2] + old[HEAD:], "length in front of the width"),
                       (old[:2][::-1] + old[2:], "high byte of the width first"),
                       (old[:2] + old[2:HEAD][::-1] + old[HEAD:], "high byte of the length first"),
                       (index_ref.as_old(old), "4 length bytes")]
            for other, why in others:
                if other != old:
                    for number in {0, last}:
                        calls.refused(width, data, bits, (other, number), 15, "%s, block %d: %s" % (what, number, why))


def check_rooms(calls, rng, records):
    """Outputs of every size: either that is too short is 6, and neither is written."""
    for width in ref.WIDTHS:
        for bits, data, old, digest in some_records(width, records, (0, 1, 17, 33)):
            right, what, last = len(old), name(width, bits), last_number(width, bits)
            for given in (None, (old, 0), (old, last)):
                for room in (*range(right), right, right + 1):
                    for digest_room in (0, width // 8 - 1, width // 8, 64):
                        if room >= right and digest_room >= width // 8:
                            continue
                        calls.refused(width, data, bits, given, 6, "%s to %d and %d bytes" % (what, room, digest_room),
                                      (rng.randbytes(room), rng.randbytes(digest_room)))
                for digest_room in range(width // 8):
                    calls.refused(width, data, bits, given, 6, "%s, a digest to %d bytes" % (what, digest_room),
                                  (rng.randbytes(right), rng.randbytes(digest_room)))


def check_order(calls, rng, records):
    """Every set of broken rules, in every way that they are broken here: the first in the order 1, 2, 15, 6 is
    answered, of a fresh run without 15.  4 comes after 2, but no count that is given has more bits than a message
    may have."""
    tally = calls.tally
    for width in ref.WIDTHS:
        bits = 17 * ref.block_bits(width) + 1
        data, old, digest = records[width, bits]
        last, most = last_number(width, bits), 8 * len(data)
        messages = (((data, bits),),
                    ((data, most + 1), (b"", bits), (data, 2 ** 32), (data, 2 ** 32 + bits), (b"", 2 ** 64 - 1)))
        widths = ((width,), (0, 160, width + 1, 65535))
        shapes = (((old, 0), (old, last)),
                  ((old[:-1], last), (old + b"\0", 0), (b"", 0), (old[:HEAD], last), (index_ref.as_old(old), 0),
                   (OTHER[width].to_bytes(2, "little") + old[2:], 0), (form_ref.head(width, 0) + old[HEAD:], last),
                   (form_ref.head(width, 2 ** 32 + bits) + old[HEAD:], last),
                   (old, last + 1), (old, 2 ** 32), (b"", 2 ** 64 - 1)))
        rooms = (((len(old), width // 8), (len(old) + 9, 64)),
                 ((len(old) - 1, width // 8), (len(old), width // 8 - 1), (0, 0), (HEAD, 64), (500, 0)))
        for broken in itertools.product((False, True), repeat=4):
            fails = dict(zip((1, 2, 15, 6), broken))
            expected = next((refusal for refusal, is_broken in fails.items() if is_broken), 0)
            ways = itertools.product(widths[fails[1]], messages[fails[2]], shapes[fails[15]], rooms[fails[6]])
            for asked, (given, asked_bits), (index, block), room in ways:
                lent = [rng.randbytes(size) for size in room]
                what = "%d bits at %d, %d bytes of index, block %d, to %d and %d" % (
                    asked_bits, asked, len(index), block, *room)
                runs = [(product.library.simd_reindex, (product.const(index), block), corrected, (index, block))]
                if not fails[15]:
                    runs.append((product.library.simd_index, (), fresh, ()))
                for function, more, loop, same in runs:
                    outputs = [*map(product.Lent, lent), product.LentNumber(NUMBER)]
                    found = product.call(function, asked, product.const(given), asked_bits, *more, *outputs)
                    after = expected, *lent, NUMBER
                    if not expected:
                        *made, blocks = loop(width, data, bits, *same)
                        after = 0, *(new + before[len(new):] for new, before in zip(made, lent)), blocks
                    tally.equal(found, after, "%s: %s" % (function.__name__, what))


def check_rubbish(calls, rng, records):
    """Bits and bytes past the count have no effect."""
    for width in ref.WIDTHS:
        for bits, data, old, digest in some_records(width, records, (0, 1, 2, 16, 17, 33), (0, 1, 7, 9, -1)):
            numbers = some_numbers(width, bits)
            for what, dirty in soiled(rng, data, bits):
                what = "%s, %s" % (name(width, bits), what)
                calls.accepted(width, dirty, bits, None, (old, digest, last_number(width, bits) + 1), what)
                for number in (numbers[0], numbers[-1], rng.choice(numbers)):
                    calls.accepted(width, dirty, bits, (old, number), corrected(width, data, bits, old, number),
                                   "%s from block %d" % (what, number))


def check_chains(calls, rng, records):
    """Corrections one after the other, each from the index that the last one left."""
    for width in ref.WIDTHS:
        for bits, data, index, digest in some_records(width, records, (16, 17, 50), (0, 1, 8, -1)):
            for k, kind in zip(range(12), itertools.cycle(KINDS)):
                block = rng.randrange(last_number(width, bits) + 1)
                data = changed(rng, width, data, bits, block, kind)
                expected = fresh(width, data, bits)
                rooms = bytes(len(index)), bytes(width // 8)
                found = product.reindex(width, data, bits, index, block, *rooms)
                calls.tally.equal(found, (0, *expected[:2], expected[2] - skipped(width, bits, block)),
                                  "%s, correction %d, in block %d" % (name(width, bits), k, block))
                index = found[1]


def check_long(calls, rng):
    """64 KiB, and a bit more: in the last blocks at most 18 compressions."""
    for width in ref.WIDTHS:
        for bits in (524288, 524289):
            data, last = message(rng, bits), last_number(width, bits)
            old, digest, total = fresh(width, data, bits)
            calls.accepted(width, data, bits, None, (old, digest, total), name(width, bits))
            for block in (last, last - 1, last - 2, last - 16, last - 17, last // 2):
                new = changed(rng, width, data, bits, block, BIT)
                index, digest, _ = fresh(width, new, bits)
                what = "%s, block %d" % (name(width, bits), block)
                calls.accepted(width, new, bits, (old, block), (index, digest, total - skipped(width, bits, block)), what)
                if block >= last - 1:
                    count = product.reindex(width, new, bits, old, block, bytes(len(old)), bytes(64))[3]
                    calls.tally.equal(count <= 18, True, "%s: %d compressions" % (what, count))


def check_random(calls, rng, count):
    """Any record, index, states and block number; some that do not fit."""
    for k in range(count):
        width = rng.choice(ref.WIDTHS)
        size = ref.block_bits(width)
        bits = max(0, rng.choice((rng.randrange(70 * size), size * rng.randrange(70) + rng.randint(-9, 9))))
        data, last = message(rng, bits), last_number(width, bits)
        what = "random call %d, %s" % (k, name(width, bits))
        made = fresh(width, data, bits)
        calls.accepted(width, data, bits, None, made, what)
        old, block = bytearray(made[0]), rng.randrange(last + 1)
        new = changed(rng, width, data, bits, block, rng.choice(KINDS))
        kind = rng.randrange(6)
        if kind == 0:
            old[HEAD:] = rng.randbytes(len(old) - HEAD)
        elif kind == 1:
            old[rng.randrange(len(old))] ^= 1 << rng.randrange(8)
        elif kind == 2:
            block = rng.choice((rng.randrange(2 * last + 2), rng.randrange(2 ** 64)))
        elif kind == 3:
            old = rng.choice((old[:rng.randrange(len(old))], old + rng.randbytes(rng.choice((1, size // 8)))))
        given = bytes(old), block
        if index_ref.fits(width, bits, *given):
            calls.accepted(width, new, bits, given, corrected(width, new, bits, *given), what + ", corrected")
        else:
            calls.refused(width, new, bits, given, 15, what + ", corrected")


def main():
    rng, count = random_arguments(11, 500)
    tally = Tally("index")
    tally.equal(index_ref.self_check(), [], "the reference")
    calls = Calls(tally, rng)
    records = check_fresh(calls, rng)
    for check in (check_corrections, check_forged, check_late, check_shapes, check_rooms, check_order, check_rubbish,
                  check_chains):
        before = tally.compared
        check(calls, rng, records)
        print("index, %s: %d" % (check.__name__[6:], tally.compared - before))
    check_long(calls, rng)
    check_random(calls, rng, count)
    return tally.finish("%d records of 0 to %d blocks, %d random ones" % (len(records), BLOCKS, count))


if __name__ == "__main__":
    sys.exit(main())
