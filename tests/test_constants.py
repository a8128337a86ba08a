#!/usr/bin/env python3
"""The constants that the transform adds: none is stored, and all are right.

They are four rows of numbers modulo 257: w^(-i) for a message block and
w^(-i) + w^(-3i) for a length block, where w is 139 in the small family and 41 in the
large one.  They are worked out here, by inverses that are searched for.

The bytes of the archive, and of the program `seal` if it is there, hold no part of a
row, nor of w^(-3i) alone.  A part is 16 bytes of neighbours, from any place on, as
numbers of 8, 16 or 32 bits: a vector has so many, and into such parts the compiler
cuts a table.  First, that the search finds rows and parts that were put into other
bytes, and none in the tables that stay; it finds the powers of 41 where they are.

Then the transform is run, at all widths and for both kinds: of the zero block, place
by place; of blocks with one byte, 1 or 255, at each place; and of blocks whose
quarters are zeros or ff in every way, at which the numbers of its first pass are
smallest and greatest.  Each block is also expanded.
"""

import itertools
import operator
import os
import sys

from tally import HERE, Tally
import product
import simd_ref as ref

ROOT = os.path.dirname(HERE)
ARCHIVE = os.path.join(ROOT, "target", "staticlib", "libsimd_c.a")
SEAL = os.path.join(ROOT, "target", "bin", "seal")
FAMILY = {4: ("small", 139), 8: ("large", 41)}
PART = 16
SIZES = (1, 2, 4)


def powers(base, count):
    """1, base, base^2, .. modulo 257."""
    found = [1]
    while len(found) < count:
        found.append(found[-1] * base % 257)
    return found


def inverse(number):
    return next(v for v in range(257) if number * v % 257 == 1)


def inverse_powers(r, exponent):
    """w^(-i) for 1, w^(-3i) for 3, at each place i."""
    _, w = FAMILY[r]
    return powers(inverse(w ** exponent % 257), 32 * r)


def added(r, last):
    """What is added at each place of a message or a length block."""
    first, third = inverse_powers(r, 1), inverse_powers(r, 3)
    return [(a + b) % 257 for a, b in zip(first, third)] if last else first


def rows():
    """The four rows by name, and the powers with which those of a length block could be made."""
    found = {}
    for r, (name, _) in FAMILY.items():
        found[name + " message"] = added(r, False)
        found[name + " length"] = added(r, True)
        found[name + " third powers"] = inverse_powers(r, 3)
    return found


def kept():
    """The tables that stay: the powers of 41, and the rows of roots, with each number again, 255 times."""
    table = powers(41, 256)
    roots = [257] + [table[128 // count * k] for count in (1, 2, 4, 8, 16, 32, 64, 128) for k in range(count)]
    return table, roots + [255 * root for root in roots]


# The bytes of what was built

def stored(numbers, size):
    return b"".join(number.to_bytes(size, "little") for number in numbers)


def parts(row):
    """(size, place, bytes) of every part of a row whose numbers fit their size."""
    for size in SIZES:
        count = PART // size
        for place in range(len(row) - count + 1):
            run = row[place:place + count]
            if max(run) < 256 ** size:
                yield size, place, stored(run, size)


def found(row, data):
    """Size and place of each part of a row that some bytes hold."""
    return [(size, place) for size, place, part in parts(row) if part in data]


def check_search(tally):
    """What is put into other bytes is found, at an even and at an odd place; the tables that stay hold none of it."""
    room = bytes(89 * k % 251 for k in range(2048))
    for name, row in rows().items():
        tally.equal(found(row, room), [], "%s in other bytes" % name)
        for table, size in itertools.product(kept(), (2, 4)):
            tally.equal(found(row, stored(table, size)), [], "%s in a table that stays" % name)
        every = list(parts(row))
        for lead, size in itertools.product((1000, 1001), (2, 4)):
            data = room[:lead] + stored(row, size) + room[lead:]
            held = [(s, place) for s, place, _ in every if s == size]
            tally.equal([at for at in found(row, data) if at[0] == size], held, "all of %s, planted" % name)
        for size, place, part in every[::7] + every[-1:]:
            data = room[:1001] + part + room[1001:]
            tally.equal((size, place) in found(row, data), True,
                        "%s from %d on, size %d, planted" % (name, place, size))


def check_file(tally, path):
    """How many parts of the rows, and of the powers of 41, a file holds."""
    with open(path, "rb") as f:
        data = f.read()
    name, count = os.path.basename(path), 0
    for row, numbers in rows().items():
        at = found(numbers, data)
        tally.equal(at, [], "%s: (size, place) of %d parts of %s" % (name, len(at), row))
        count += len(at)
    left = len(found(powers(41, 256), data))
    tally.equal(left > 0, True, "%s: some of the powers of 41" % name)
    return "%s with %d parts of the rows and %d of the powers of 41" % (name, count, left)


# The transform

def blocks(r):
    """Blocks, with what they are."""
    size = 16 * r
    yield "the zero block", bytes(size)
    for place, byte in itertools.product(range(size), (1, 255)):
        yield "%d at place %d" % (byte, place), bytes(place) + bytes([byte]) + bytes(size - 1 - place)
    for quarters in itertools.product((0, 255), repeat=4):
        yield "quarters of %s" % (quarters,), b"".join(bytes([byte]) * (size // 4) for byte in quarters)


def expanded(width, y):
    """The words of a block from the values of its transform."""
    z = ref.matrix_of(width, y)
    return [word for i in ref.P for word in z[i]]


def check_transform(tally, width):
    """How many blocks were transformed and expanded, as both kinds."""
    r, count = ref.rows(width), 0
    constants = {last: added(r, last) for last in (False, True)}
    factors = [powers(root, 16 * r) for root in powers(FAMILY[r][1], 32 * r)]
    for name, block in blocks(r):
        sums = [sum(map(operator.mul, block, row)) for row in factors]
        for last in constants:
            what = "%s as %s at %d" % (name, "length" if last else "message", width)
            y = [(a + b) % 257 for a, b in zip(sums, constants[last])]
            refusal, values = product.trace_transform(width, last, block, [999] * len(y))
            tally.equal((refusal, values), (0, y), what)
            if not any(block):
                for i, constant in enumerate(constants[last]):
                    tally.equal(values[i], constant, "%s, value %d" % (what, i))
            tally.equal(product.expand(width, last, block, [0] * len(y)), (0, expanded(width, y)),
                        what + ", expanded")
        count += 1
    return count


def main():
    tally = Tally("constants")
    check_search(tally)
    files = [ARCHIVE]
    if os.path.exists(SEAL):
        files.append(SEAL)
    held = [check_file(tally, path) for path in files]
    count = sum(check_transform(tally, width) for width in ref.WIDTHS)
    return tally.finish("%s; %d blocks as both kinds" % (", ".join(held), count))


if __name__ == "__main__":
    sys.exit(main())
