#!/usr/bin/env python3
"""The product against the values listed in appendix A (tests/appendix_a).

The door gives the state before each block (I), the expanded rows (W), the
state after the 32 steps (S 31), the same run back (X), the state after each
message block (O) and the digests.  The test-only library `trace` gives the
transform (y), the matrix (Z) and the states after each single step (S 0 to
S 35), of which the last is the state after the block (O).
"""

import sys

from tally import Tally
import check
import form_ref
import product
import simd_ref as ref


def accepted(result):
    """What a call returned beside its refusal, which is to be 0."""
    assert result[0] == 0, "refusal %d" % result[0]
    return result[1]


def word_columns(width, words):
    r = ref.rows(width)
    return [words[r * c:r * c + r] for c in range(4)]


def byte_columns(width, data):
    return word_columns(width, product.values_of(data))


def by_rows(name, width, words):
    r = ref.rows(width)
    return {"%s %d" % (name, i): words[r * i:r * i + r] for i in range(32)}


class Door:
    """The calls of include/simd.h; a state is its bytes."""

    # The bytes of a block are handed to the calls, not given by them.
    without = ("M",)

    @staticmethod
    def digest(width, data, bits):
        return accepted(product.hash(width, data, bits, bytes(width // 8)))

    @staticmethod
    def empty(width):
        return accepted(product.open(width, bytes(form_ref.size(width))))

    @classmethod
    def start(cls, width):
        return form_ref.state_of(cls.empty(width))

    @classmethod
    def compression(cls, width, last, state, block):
        size, r = ref.block_bytes(width), ref.rows(width)
        values = check.columns("I", byte_columns(width, state))
        y = accepted(product.trace_transform(width, last, block, [0] * (32 * r)))
        values.update({"y %d" % i: y[i:i + 8] for i in range(0, len(y), 8)})
        values.update(by_rows("Z", width, accepted(
            product.trace_matrix(width, last, block, [0] * (32 * r)))))
        values.update(by_rows("W", width, accepted(
            product.expand(width, last, block, [0] * (32 * r)))))
        words = accepted(product.trace_steps(width, last, state, block, [0] * (36 * 4 * r)))
        states = [word_columns(width, words[4 * r * i:4 * r * (i + 1)]) for i in range(36)]
        for i, columns in enumerate(states):
            values.update(check.columns("S %d" % i, columns))
        values.update(check.columns("O", states[35]))
        xored = bytes(s ^ b for s, b in zip(state, block))
        end = accepted(product.steps(width, last, xored, block, bytes(size)))
        assert byte_columns(width, end) == states[31], "the 32 steps end elsewhere"
        start = accepted(product.unsteps(width, last, end, block, bytes(size)))
        values.update(check.columns("X", byte_columns(width, start)))
        if last:
            return values, None
        # Fed to a hash with this state and no tail, the block is compressed.
        form = accepted(product.feed(form_ref.made(width, 0, state, bytes(size)), block, 8 * size))
        assert byte_columns(width, form_ref.state_of(form)) == states[35], "a feed ends elsewhere"
        return values, form_ref.state_of(form)


def main():
    tally, kinds = Tally("appendix_a"), {}
    for width in check.WIDTHS:
        counts, failures = check.check(width, Door)
        for kind, n in counts.items():
            kinds[kind] = kinds.get(kind, 0) + n
        tally.compared += sum(counts.values())
        tally.differ += len(failures)
        for line in failures[:10]:
            print("  simd%d.txt %s" % (width, line))
    return tally.finish(", ".join("%s %d" % item for item in kinds.items()))


if __name__ == "__main__":
    sys.exit(main())
