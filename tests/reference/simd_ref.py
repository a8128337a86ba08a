#!/usr/bin/env python3
"""SIMD v1.1 written straight from its definition, for checking other code.

The transform is the plain sum modulo 257, the starting states come from the
rule of section 1.2.5 of the submission document, and nothing is optimised.

A width is 224, 256, 384 or 512.  A block is a bytes object of 64 or 128
bytes.  A state is a tuple of four columns (A, B, C, D), each a tuple of R
words; R is 4 for the small family (224, 256) and 8 for the large one.

    transform(width, last, block)      the 32R values y
    matrix(width, last, block)         the 32 rows of Z
    expand(width, last, block)         the 32 expanded rows W
    step_states(width, last, s, block) the 33 states before, between and after
    steps / unsteps                    the 32 steps forward / backward
    compress(width, last, state, block)
    message_blocks(width, data, bits)  the zero-filled message blocks
    length_block(width, bits)
    compressions(width, bits)
    final_state / digest
"""

import operator
import sys

WIDTHS = (224, 256, 384, 512)
MASK = 0xFFFFFFFF

# Expanded row i is row P[i] of Z.
P = (4, 6, 0, 2, 7, 5, 3, 1, 15, 11, 12, 8, 9, 13, 10, 14,
     17, 18, 23, 20, 22, 21, 16, 19, 30, 24, 25, 31, 27, 29, 28, 26)

# Rotation counts, one quadruple for each round of 8 steps.
ROTATIONS = ((3, 23, 17, 27), (28, 19, 22, 7), (29, 9, 15, 5), (4, 13, 10, 25))

# In step i, row j takes A of row j xor EXCHANGE[R][i mod len].
EXCHANGE = {4: (1, 2, 3), 8: (1, 6, 2, 3, 5, 7, 4)}

# Table 1.2, columns A, B, C, D; used only to check start_state().
TABLE_1_2 = {
    224: """33586e9f 12fff033 b2d9f64d 6f8fea53
            de943106 2742e439 4fbab5ac 62b9ff96
            22e7b0af c862b3a8 33e00cdc 236b86a6
            f64ae77c fa373b76 7dc1ee5b 7fb29ce8""",
    256: """4d567983 07190ba9 8474577b 39d726e9
            aaf3d925 3ee20b03 afd5e751 c96006d3
            c2c2ba14 49b3bcb4 f67caf46 668626c9
            e2eaa8d2 1ff47833 d0c661a5 55693de1""",
    384: """8a36eebc 94a3bd90 d1537b83 b25b070b f463f1b5 b6f81e20 0055c339 b4d144d1
            7360ca61 18361a03 17dcb4b9 3414c45a a699a9d2 e39e9664 468bfe77 51d062f8
            b9e3bfe8 63bece2a 8fe506b9 f8cc4ac2 7ae11542 b1aadda1 64b06794 28d2f462
            e64071ec 1deb91a8 8ac8db23 3f782ab5 039b5cb8 71ddd962 fade2cea 1416df71""",
    512: """0ba16b95 72f999ad 9fecc2ae ba3264fc 5e894929 8e9f30e5 2f1daa37 f0f2c558
            ac506643 a90635a5 e25b878b aab7878f 88817f7a 0a02892b 559a7550 598f657e
            7eef60a1 6b70e3e8 9c1714d1 b958e2a8 ab02675e ed1c014f cd8d65bb fdb7a257
            09254899 d699c7bc 9019b6dc 2b9022e4 8fa14956 21bf9bd3 b94d0943 6ffddc22""",
}

# The digests at the head of appendix A, for the messages of
# appendix_a_messages(); used only to check digest().
APPENDIX_A_DIGESTS = {
    224: ["43e1d53656d7b85d10d5499e28afdef90bb497730d2853c8609b534b",
          "cbb4f8a9304b4b043093a94b7059ee36e43ff94a21dc46611f1a7769",
          "19499a44b7541c7f27b867b207f87269d7351d2cbb405f7c0cb491aa"],
    256: ["8029e81e7320e13ed9001dc3d8021fec695b7a25cd43ad805260181c35fcaea8",
          "5bebdb816cd3e6c8c2b5a42867a6f41570c4b917f1d3b15aabc17f24679e6acd",
          "e80b4eeb8a370e6ca918e7810400441f6dd0da1eb4559cade791c314f82d524a"],
    384: ["5fdd62778fc213221890ad3bac742a4af107ce2692d6112e"
          "795b54b25dcd5e0f4bf3ef1b770ab34b38f074a5e0ecfcb5",
          "5e02e645868ef837f535f44609a268a0a146476584d50f83"
          "683ce3e7cb355caaf7e8eb81cb28db3ccf40d25313f16950",
          "e999b35b42301eca3a9c648fef39635b13059b2ac3be16f5"
          "c9372d3e773a716f1b2a23b784f3c1e231e42d87d2c950f3"],
    512: ["51a5af7e243cd9a5989f7792c880c4c3168c3d60c4518725fe5757d1f7a69c63"
          "66977eaba7905ce2da5d7cfd07773725f0935b55f3efb954996689a49b6d29e0",
          "8851ad0a57426b4af57af3294706c0448fa6accf24683fc239871be58ca913fb"
          "ee53e35c1dedd88016ebd131f2eb0761e97a3048de6e696787fd5f54981d6f2c",
          "c060fa9aae2414715a3a27c5df22dbd41469e3d09056b093861f0f6b9bdc311a"
          "24ac743811e88358dc69094ad444036bbbf7708ed8bdeaf1e8ed871dfb79c218"],
}


# Sizes

def rows(width):
    """R: the rows of the state."""
    if width not in WIDTHS:
        raise ValueError("no such width: %r" % (width,))
    return 4 if width <= 256 else 8


def block_bytes(width):
    return 16 * rows(width)


def block_bits(width):
    return 128 * rows(width)


# Transform and expansion

# OMEGA[R] is a root of unity of order 32R modulo 257; POWERS[R] lists its
# powers, so the power with exponent e (of either sign) is POWERS[R][e % (32R)].
OMEGA = {4: 139, 8: 41}
POWERS = {r: [pow(w, e, 257) for e in range(32 * r)] for r, w in OMEGA.items()}

# ROOTS[R][i][j] = w^(ij), the factor of byte j in y_i.
ROOTS = {r: [[POWERS[r][i * j % (32 * r)] for j in range(16 * r)]
             for i in range(32 * r)] for r in OMEGA}


def transform(width, last, block):
    """y_i = sum of b_j w^(ij), plus w^(-i), plus w^(-3i) for the length block."""
    r = rows(width)
    n = 32 * r
    if len(block) != block_bytes(width):
        raise ValueError("block of %d bytes" % len(block))
    y = []
    for i in range(n):
        total = sum(map(operator.mul, block, ROOTS[r][i]))
        total += POWERS[r][-i % n]
        if last:
            total += POWERS[r][-3 * i % n]
        y.append(total % 257)
    return y


def lift(y):
    """The number from -128 to 128 that equals y modulo 257."""
    return y if y <= 128 else y - 257


def code(c, x, y):
    """The word with c * lift(x) in its low half and c * lift(y) in its high half."""
    return (c * lift(x) % 65536) | (c * lift(y) % 65536) << 16


def matrix_of(width, y):
    """The 32 rows of Z from the values y."""
    r = rows(width)
    z = []
    for i in range(32):
        row = []
        for j in range(r):
            if i < 16:
                k = 2 * r * i + 2 * j
                row.append(code(185, y[k], y[k + 1]))
            elif i < 24:
                k = 2 * r * (i - 16) + 2 * j
                row.append(code(233, y[k], y[k + 16 * r]))
            else:
                k = 2 * r * (i - 24) + 2 * j + 1
                row.append(code(233, y[k], y[k + 16 * r]))
        z.append(row)
    return z


def matrix(width, last, block):
    """The 32 rows of Z."""
    return matrix_of(width, transform(width, last, block))


def expand(width, last, block):
    """The 32 expanded rows W of R words."""
    z = matrix(width, last, block)
    return [z[P[i]] for i in range(32)]


# Steps

def rotl(x, n):
    return ((x << n) | (x >> (32 - n))) & MASK


def f_if(a, b, c):
    return (a & b) | (~a & MASK & c)


def f_maj(a, b, c):
    return (a & b) | (a & c) | (b & c)


def step_parameters(i, r_rows):
    """(function, r, s, exchange) of step i, 0 to 35."""
    if i < 32:
        quadruple = ROTATIONS[i // 8]
        k = i % 8
        f = f_if if k < 4 else f_maj
    else:
        quadruple = ROTATIONS[3]
        k = i - 32
        f = f_if
    exchange = EXCHANGE[r_rows]
    return f, quadruple[k % 4], quadruple[(k + 1) % 4], exchange[i % len(exchange)]


def step(i, state, words):
    """Step i, 0 to 35, with one word for each row."""
    a, b, c, d = state
    n = len(a)
    f, r, s, x = step_parameters(i, n)
    new_b = tuple(rotl(a[j], r) for j in range(n))
    new_a = tuple(
        (rotl((d[j] + words[j] + f(a[j], b[j], c[j])) & MASK, s) + new_b[j ^ x]) & MASK
        for j in range(n))
    return new_a, new_b, b, c


def unstep(i, state, words):
    """The state before step i, from the state after it."""
    new_a, new_b, new_c, new_d = state
    n = len(new_a)
    f, r, s, x = step_parameters(i, n)
    a = tuple(rotl(new_b[j], 32 - r) for j in range(n))
    b, c = new_c, new_d
    d = tuple(
        (rotl((new_a[j] - new_b[j ^ x]) & MASK, 32 - s) - words[j] - f(a[j], b[j], c[j])) & MASK
        for j in range(n))
    return a, b, c, d


def step_states(width, last, state, block):
    """The states before step 0 and after each of the 32 steps: 33 states.

    The state given is the one already xored with the block."""
    w = expand(width, last, block)
    states = [state]
    for i in range(32):
        states.append(step(i, states[-1], w[i]))
    return states


def steps(width, last, state, block):
    """The 32 steps, from the state already xored with the block."""
    return step_states(width, last, state, block)[-1]


def unstep_states(width, last, state, block):
    """The 33 states of step_states(), worked out backward from the end.

    The order is that of the steps: entry 0 is the state before step 0."""
    w = expand(width, last, block)
    states = [state]
    for i in reversed(range(32)):
        states.append(unstep(i, states[-1], w[i]))
    states.reverse()
    return states


def unsteps(width, last, state, block):
    """The 32 steps backward: gives the state xored with the block."""
    return unstep_states(width, last, state, block)[0]


# Compression

def state_from_bytes(width, data):
    """Little-endian words in the order A0, A1, .., B0, .., D(R-1)."""
    r = rows(width)
    if len(data) != 16 * r:
        raise ValueError("state of %d bytes" % len(data))
    words = [int.from_bytes(data[4 * k:4 * k + 4], "little") for k in range(4 * r)]
    return tuple(tuple(words[r * c:r * c + r]) for c in range(4))


def state_to_bytes(state):
    return b"".join(word.to_bytes(4, "little") for column in state for word in column)


def xor_block(width, state, block):
    """The state xored with the block, column by column."""
    return tuple(tuple(s ^ m for s, m in zip(s_col, m_col))
                 for s_col, m_col in zip(state, state_from_bytes(width, block)))


def compress_states(width, last, state, block):
    """All 37 states: before step 0 and after each of the steps 0 to 35."""
    states = step_states(width, last, xor_block(width, state, block), block)
    for k in range(4):
        states.append(step(32 + k, states[-1], state[k]))
    return states


def compress(width, last, state, block):
    return compress_states(width, last, state, block)[-1]


_START = {}


def start_state(width):
    """Section 1.2.5: the compression, from the zero state, of the function's
    name as a message block."""
    if width not in _START:
        zero = ((0,) * rows(width),) * 4
        name = ("SIMD-%d v1.1" % width).encode("ascii").ljust(block_bytes(width), b"\0")
        _START[width] = compress(width, False, zero, name)
    return _START[width]


# Messages

def compressions(width, bits):
    """The number of compressions that a message of that many bits takes."""
    return -(-bits // block_bits(width)) + 1


def message_blocks(width, data, bits):
    """The message blocks, the last one filled with zeros; no length block."""
    if bits > 8 * len(data):
        raise ValueError("%d bits in %d bytes" % (bits, len(data)))
    data = bytearray(data[:-(-bits // 8)])
    if bits % 8:
        data[-1] &= 0xFF00 >> (bits % 8)
    size = block_bytes(width)
    data += bytes(-len(data) % size)
    return [bytes(data[k:k + size]) for k in range(0, len(data), size)]


def length_block(width, bits):
    """The bit length, low byte first, zeros after."""
    size = block_bytes(width)
    return (bits % 2 ** (8 * size)).to_bytes(size, "little")


def all_blocks(width, data, bits):
    """Pairs (last, block) in the order they are compressed."""
    return ([(False, block) for block in message_blocks(width, data, bits)]
            + [(True, length_block(width, bits))])


def states_between(width, data, bits):
    """The states before each compression, then the final state."""
    states = [start_state(width)]
    for last, block in all_blocks(width, data, bits):
        states.append(compress(width, last, states[-1], block))
    return states


def final_state(width, data, bits):
    return states_between(width, data, bits)[-1]


def digest(width, data, bits):
    """The first width/8 bytes of the final state."""
    return state_to_bytes(final_state(width, data, bits))[:width // 8]


# Self check

def ones(bits):
    """The bytes of a message of that many 1 bits."""
    data = bytearray(b"\xff" * (bits // 8))
    if bits % 8:
        data.append((0xFF00 >> (bits % 8)) & 0xFF)
    return bytes(data)


def appendix_a_messages(width):
    """The three messages of appendix A for a width, as (data, bits) pairs."""
    size = block_bytes(width)
    count = 700 if size == 64 else 1079
    return [(b"", 0), (bytes(range(size)), 8 * size), (ones(count), count)]


def self_check():
    """Starting states against table 1.2, the twelve digests of appendix A and
    the backward steps.  Returns the list of failures."""
    failures = []
    for width in WIDTHS:
        r = rows(width)
        table = [int(word, 16) for word in TABLE_1_2[width].split()]
        if start_state(width) != tuple(tuple(table[r * c:r * c + r]) for c in range(4)):
            failures.append("SIMD-%d: starting state differs from table 1.2" % width)
        for k, (data, bits) in enumerate(appendix_a_messages(width)):
            found = digest(width, data, bits).hex()
            if found != APPENDIX_A_DIGESTS[width][k]:
                failures.append("SIMD-%d message %d: %s" % (width, k + 1, found))
            blocks = all_blocks(width, data, bits)
            if len(blocks) != compressions(width, bits):
                failures.append("SIMD-%d message %d: %d blocks" % (width, k + 1, len(blocks)))
            last, block = blocks[-1]
            forward = step_states(width, last, start_state(width), block)
            if unstep_states(width, last, forward[-1], block) != forward:
                failures.append("SIMD-%d message %d: backward steps" % (width, k + 1))
    return failures


def main():
    failures = self_check()
    for line in failures:
        print(line)
    print("simd_ref: %s" % ("FAILED" if failures else "12 digests, 4 starting states: ok"))
    return 1 if failures else 0


if __name__ == "__main__":
    sys.exit(main())
