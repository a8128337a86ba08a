#!/usr/bin/env python3
"""The index of a record and its correction, by a plain loop over the reference, for checking other code.

    kept(width, bits)                         the numbers of the blocks whose states an index keeps
    size(width, bits)                         the bytes of an index
    fresh(width, data, bits)                  (index, digest, compressions) of a fresh run
    fits(width, bits, old, block)             whether an index and a block number fit a message
    start(width, bits, block)                 the number of the block at which a correction starts
    corrected(width, data, bits, old, block)  (index, digest, compressions) of a correction
    as_old(index)                             the same with 4 length bytes, as it was once kept

An index is the width (2 bytes) and the bit length (8), both low byte first, then the state before
block 0, 16, 32 and so on, for every full block so numbered.  Blocks are counted from the front; the
length block comes after all message blocks.  fresh and corrected can be given another compression.
"""

import sys

from form_ref import HEAD, bits_of, head, old_head, width_of
import simd_ref as ref

SPAN = 16


def kept(width, bits):
    """0, 16, 32 and so on, of the full blocks."""
    return range(0, bits // ref.block_bits(width), SPAN)


def size(width, bits):
    return HEAD + ref.block_bytes(width) * len(kept(width, bits))


def length_number(width, bits):
    """The number of the length block."""
    return len(ref.message_blocks(width, bytes(-(-bits // 8)), bits))


def run(width, data, bits, first, state, compress):
    """From the state before block `first`: (the states kept from there on, digest, compressions)."""
    states, count = b"", 0
    for number, (last, block) in enumerate(ref.all_blocks(width, data, bits)):
        if number < first:
            continue
        if number in kept(width, bits):
            states += ref.state_to_bytes(state)
        state = compress(width, last, state, block)
        count += 1
    return states, ref.state_to_bytes(state)[:width // 8], count


def fresh(width, data, bits, compress=ref.compress):
    states, digest, count = run(width, data, bits, 0, ref.start_state(width), compress)
    return head(width, bits) + states, digest, count


def fits(width, bits, old, block):
    return (len(old) == size(width, bits) and old[:HEAD] == head(width, bits)
            and block <= length_number(width, bits))


def as_old(index):
    return old_head(width_of(index), bits_of(index)) + index[HEAD:]


def start(width, bits, block):
    """The last kept state at or before the block, by its number; None where none is kept."""
    return max((number for number in kept(width, bits) if number <= block), default=None)


def corrected(width, data, bits, old, block, compress=ref.compress):
    first = start(width, bits, block)
    if first is None:
        return fresh(width, data, bits, compress)
    at = HEAD + ref.block_bytes(width) * (first // SPAN)
    state = ref.state_from_bytes(width, old[at:at + ref.block_bytes(width)])
    states, digest, count = run(width, data, bits, first, state, compress)
    return old[:at] + states, digest, count


# Self check

# (width, bits, bytes of the index, number of the length block), typed.
SIZES = ((224, 0, 10, 0), (256, 1, 10, 1), (256, 511, 10, 1), (224, 512, 74, 1), (256, 513, 74, 2), (256, 8192, 74, 16),
         (256, 8703, 74, 17), (256, 8704, 138, 17), (224, 8705, 138, 18), (256, 524288, 4106, 1024),
         (384, 1023, 10, 1), (512, 1024, 138, 1), (384, 17407, 138, 17), (512, 17408, 266, 17), (512, 524288, 4106, 512))
# (width, bits, bytes of the index) of records that are not run here, typed.
LONG_SIZES = ((256, 4294967295, 33554442), (224, 4294967296, 33554442), (512, 4294967808, 33554442),
              (256, 4294967808, 33554506), (224, 18446744073709551615, 144115188075855882),
              (384, 18446744073709551615, 144115188075855882))
# (width, bits, block, where a correction starts), typed.
STARTS = ((256, 511, 0, None), (256, 511, 1, None), (256, 512, 0, 0), (256, 513, 2, 0), (224, 8192, 15, 0),
          (224, 8192, 16, 0), (224, 8193, 17, 0), (256, 8704, 15, 0), (256, 8704, 16, 16), (256, 8704, 17, 16),
          (384, 8704, 8, 0), (512, 33792, 31, 16), (512, 33792, 32, 32), (512, 33792, 33, 32))


def self_check():
    """The values typed above; the front of an index, typed; its states, beside those of the reference; and
    corrections of a bit in each kind of block.  Returns the list of failures."""
    failures = []
    for width, bits, expected, number in SIZES:
        if (size(width, bits), length_number(width, bits)) != (expected, number):
            failures.append("the sizes of %d bits at %d" % (bits, width))
    for width, bits, block, expected in STARTS:
        if start(width, bits, block) != expected:
            failures.append("the start of %d bits at %d from block %d" % (bits, width, block))
    for width, bits, expected in LONG_SIZES:
        if size(width, bits) != expected:
            failures.append("the size of %d bits at %d" % (bits, width))
    for width, typed in ((256, "00010142000000000000"), (512, "00020184000000000000")):
        bits = 33 * ref.block_bits(width) + 1
        data = bytes(7 * k % 251 for k in range(bits // 8 + 1))
        states = [ref.state_to_bytes(state) for state in ref.states_between(width, data, bits)]
        index, digest, count = fresh(width, data, bits)
        if index.hex() != typed + b"".join(states[k] for k in (0, 16, 32)).hex():
            failures.append("the index of 33 blocks and a bit at %d" % width)
        if as_old(index).hex() != typed[:12] + index[10:].hex():
            failures.append("the old index of 33 blocks and a bit at %d" % width)
        if (digest, count) != (states[-1][:width // 8], 35):
            failures.append("the digest of 33 blocks and a bit at %d" % width)
        for block, skipped in ((16, 16), (31, 16), (32, 32), (33, 32), (34, 32)):
            changed = bytearray(data)
            if block < 34:
                changed[block * ref.block_bytes(width)] ^= 0x80
            *expected, count = fresh(width, changed, bits)
            if corrected(width, changed, bits, index, block) != (*expected, count - skipped):
                failures.append("a correction in block %d at %d" % (block, width))
    return failures


def main():
    failures = self_check()
    for line in failures:
        print(line)
    print("index_ref: %s" % ("FAILED" if failures else "as typed, and corrections as fresh runs: ok"))
    return 1 if failures else 0


if __name__ == "__main__":
    sys.exit(main())
