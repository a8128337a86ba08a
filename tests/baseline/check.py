#!/usr/bin/env python3
"""Check portable.c and sse2.c against the reference on random inputs.

    check.py [COUNT]

Builds both with $CC (or cc) and compares COUNT random blocks of each family,
the digests of appendix A and of random messages, and runs over some blocks."""

import ctypes
import os
import random
import subprocess
import sys
import tempfile

sys.dont_write_bytecode = True
HERE = os.path.dirname(os.path.abspath(__file__))
sys.path.insert(0, os.path.join(HERE, os.pardir, "reference"))
import simd_ref as ref  # noqa: E402


def build(folder):
    path = os.path.join(folder, "baseline.so")
    subprocess.check_call([os.environ.get("CC", "cc"), "-std=c99", "-O2", "-Wall", "-Wextra",
                           "-msse2", "-shared", "-fPIC", "-o", path,
                           os.path.join(HERE, "portable.c"), os.path.join(HERE, "sse2.c")])
    return ctypes.CDLL(path)


def random_block(rng, size, k):
    """Random bytes; some blocks of extreme bytes."""
    if k % 4 == 0:
        return bytes(rng.choice((0, 255)) for _ in range(size))
    return bytes(rng.randrange(256) for _ in range(size))


def check_blocks(lib, rng, count):
    failures = 0
    for width in (256, 512):
        r, size, large = ref.rows(width), ref.block_bytes(width), int(width > 256)
        fixed = [bytes(size), b"\xff" * size, b"\0\xff" * (size // 2), b"\xff\0" * (size // 2)]
        for k in range(count):
            block = fixed[k] if k < len(fixed) else random_block(rng, size, k)
            state = random_block(rng, size, k + 1)
            for last in (False, True):
                y = (ctypes.c_uint16 * (32 * r))()
                lib.base_transform(large, int(last), block, y)
                failures += list(y) != ref.transform(width, last, block)
                w = (ctypes.c_uint32 * (32 * r))()
                lib.base_expand(large, int(last), block, w)
                failures += list(w) != sum(ref.expand(width, last, block), [])
                expected = ref.state_to_bytes(ref.compress(
                    width, last, ref.state_from_bytes(width, state), block))
                for compress in (lib.base_compress, lib.sse2_compress):
                    s = (ctypes.c_uint32 * (4 * r)).from_buffer_copy(state)
                    compress(large, int(last), s, block)
                    failures += bytes(s) != expected
    return failures


def extreme_blocks(width):
    """Blocks that make one place of the transform as large or small as they
    can, to test the bounds of the 16-bit lanes."""
    r = ref.rows(width)
    for roots in ref.ROOTS[r]:
        yield bytes(255 * (ref.lift(w) > 0) for w in roots)
        yield bytes(255 * (ref.lift(w) < 0) for w in roots)


def check_agreement(lib, rng, count):
    """sse2.c against portable.c on extreme blocks and many random ones."""
    failures = 0
    for width in (256, 512):
        size, large = ref.block_bytes(width), int(width > 256)
        blocks = list(extreme_blocks(width))
        blocks += [random_block(rng, size, k) for k in range(50 * count)]
        state = rng.randbytes(size)
        for k, block in enumerate(blocks):
            states = [ctypes.create_string_buffer(state, size) for _ in range(2)]
            lib.base_compress(large, k % 2, states[0], block)
            lib.sse2_compress(large, k % 2, states[1], block)
            failures += states[0].raw != states[1].raw
            state = states[0].raw
    return failures


def check_messages(lib, rng):
    failures = 0
    for width in ref.WIDTHS:
        messages = ref.appendix_a_messages(width)
        for bits in (1, 7, 8, 511, 512, 513, 1023, 1024, 1025, 2048, rng.randrange(5000)):
            messages.append((rng.randbytes((bits + 7) // 8), bits))
        for data, bits in messages:
            out = (ctypes.c_uint8 * (width // 8))()
            lib.base_hash(width, data, ctypes.c_uint64(bits), out)
            failures += bytes(out) != ref.digest(width, data, bits)
    return failures


def check_runs(lib, rng):
    """Some blocks from any state on, and the states kept of them; nothing behind those is written."""
    failures = 0
    for width in (256, 512):
        size, large = ref.block_bytes(width), int(width > 256)
        for count in (0, 1, 15, 16, 17, 33):
            start, data = rng.randbytes(size), rng.randbytes(size * count)
            states = [ref.state_from_bytes(width, start)]
            for k in range(count):
                states.append(ref.compress(width, False, states[-1], data[size * k:size * (k + 1)]))
            expected = b"".join(map(ref.state_to_bytes, states[:-1][::16]))
            state = ctypes.create_string_buffer(start, size)
            kept = ctypes.create_string_buffer(b"\xa5" * (len(expected) + size), len(expected) + size)
            lib.base_blocks(large, state, data, ctypes.c_uint64(count), kept)
            failures += (state.raw, kept.raw) != (ref.state_to_bytes(states[-1]), expected + b"\xa5" * size)
            state = ctypes.create_string_buffer(start, size)
            lib.base_blocks(large, state, data, ctypes.c_uint64(count), None)
            failures += state.raw != ref.state_to_bytes(states[-1])
    return failures


def main(argv):
    count = int(argv[1]) if len(argv) > 1 else 60
    rng = random.Random(1)
    with tempfile.TemporaryDirectory() as folder:
        lib = build(folder)
        failures = (check_blocks(lib, rng, count) + check_messages(lib, rng) + check_runs(lib, rng)
                    + check_agreement(lib, rng, count))
    print("baseline: %d blocks of each family, %d failures" % (count, failures))
    return 1 if failures else 0


if __name__ == "__main__":
    sys.exit(main(sys.argv))
