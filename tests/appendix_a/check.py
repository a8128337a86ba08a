#!/usr/bin/env python3
"""Compare the data files of this folder with an implementation.

Run alone, with the reference.  `check` takes any subject with

    digest(width, data, bits)               the digest
    start(width)                            the state before the first block
    compression(width, last, state, block)  {label: list of values}, new state
    without                                 the kinds of values it does not give

States are the subject's own.  Labels are those of README.md, as "W 3" or
"S 31 A".  A label of a file that the subject does not know is a failure, unless
its kind is one of `without`; so is a kind of which fewer or more values were
compared than COUNTS says.
"""

import collections
import os
import sys

sys.dont_write_bytecode = True
HERE = os.path.dirname(os.path.abspath(__file__))
sys.path.insert(0, os.path.join(HERE, os.pardir, "reference"))
import simd_ref as ref  # noqa: E402


WIDTHS = (224, 256, 384, 512)

# How many values of each kind the file of a width has.
COUNTS = {
    "digest": (3, 3, 3, 3),
    "M": (104, 128, 360, 344),
    "y": (767, 766, 1535, 1535),
    "Z": (767, 735, 1525, 1528),
    "W": (688, 679, 1521, 1494),
    "I": (96, 96, 184, 192),
    "X": (96, 96, 192, 192),
    "S": (3455, 3455, 6909, 6861),
    "O": (80, 36, 112, 36),
}


def columns(name, state):
    """The labels of a state given by its columns."""
    return {"%s %s" % (name, c): words for c, words in zip("ABCD", state)}


class Reference:
    """The reference implementation as a subject."""

    without = ()
    digest = staticmethod(ref.digest)
    start = staticmethod(ref.start_state)

    @staticmethod
    def compression(width, last, state, block):
        values = {}
        y = ref.transform(width, last, block)
        for i in range(0, len(block), 8):
            values["M %d" % i] = block[i:i + 8]
        for i in range(0, len(y), 8):
            values["y %d" % i] = y[i:i + 8]
        for i, row in enumerate(ref.matrix(width, last, block)):
            values["Z %d" % i] = row
        for i, row in enumerate(ref.expand(width, last, block)):
            values["W %d" % i] = row
        states = ref.compress_states(width, last, state, block)
        values.update(columns("I", state))
        values.update(columns("X", states[0]))
        for i, s in enumerate(states[1:]):
            values.update(columns("S %d" % i, s))
        values.update(columns("O", states[-1]))
        return values, states[-1]


def path_of(width):
    return os.path.join(HERE, "simd%d.txt" % width)


def messages(width):
    """(data, bits, digest) of each message in a width's file."""
    found = []
    with open(path_of(width), encoding="ascii") as f:
        for field in map(str.split, f):
            if field[0] == "message":
                bits = int(field[3])
            elif field[0] == "data":
                data = b"" if field[1] == "-" else bytes.fromhex(field[1])
            elif field[0] == "digest":
                found.append((data, bits, field[1]))
    return found


def check(width, subject):
    """(values compared by kind, failures) of a width's file."""
    assert set(subject.without) <= set(COUNTS)
    counts, failures = collections.Counter(), []

    def compare(kind, found, expected, line):
        counts[kind] += 1
        if found != expected:
            failures.append("line %d" % line)

    with open(path_of(width), encoding="ascii") as f:
        for n, line in enumerate(f, 1):
            field = line.split()
            kind = field[0]
            if kind == "width":
                assert int(field[1]) == width
            elif kind == "message":
                bits = int(field[3])
            elif kind == "data":
                data = b"" if field[1] == "-" else bytes.fromhex(field[1])
                blocks = ref.all_blocks(width, data, bits)
                state = subject.start(width)
            elif kind == "digest":
                compare(kind, subject.digest(width, data, bits).hex(), field[1], n)
            elif kind == "block":
                last, block = blocks[int(field[1])]
                assert last == bool(int(field[3]))
                values, state = subject.compression(width, last, state, block)
            else:
                if kind in subject.without:
                    continue
                keys = 3 if kind == "S" else 2
                base = 10 if kind == "y" else 16
                label = " ".join(field[:keys])
                found = values.get(label, ())
                if len(found) != len(field) - keys:
                    failures.append("line %d: %d values of %s, not %d"
                                    % (n, len(found), label, len(field) - keys))
                    continue
                for text, value in zip(field[keys:], found):
                    if text != "-":
                        compare(kind, value, int(text, base), n)
    for kind, by_width in COUNTS.items():
        expected = 0 if kind in subject.without else by_width[WIDTHS.index(width)]
        if counts[kind] != expected:
            failures.append("%d values of kind %s compared, not %d"
                            % (counts[kind], kind, expected))
    return counts, failures


def broken(change):
    """The reference with each {label: values} changed."""
    class Subject(Reference):
        @staticmethod
        def compression(width, last, state, block):
            values, state = Reference.compression(width, last, state, block)
            return change(values), state
    return Subject


# Subjects that `check` has to find wrong.
WRONG = {
    "W, S and X misnamed": broken(
        lambda values: {label.translate({ord(c): c.lower() for c in "WSX"}): found
                        for label, found in values.items()}),
    "one label less": broken(
        lambda values: {label: found for label, found in values.items() if label != "S 31 A"}),
    "a row cut short": broken(
        lambda values: {label: found[:-1] if label == "y 8" else found
                        for label, found in values.items()}),
    "one value wrong": broken(
        lambda values: dict(values, **{"O B": [w ^ 1 for w in values["O B"]]})),
}


def main():
    bad = 0
    for width in WIDTHS:
        counts, failures = check(width, Reference)
        print("simd%d.txt: %d values, %d failures"
              % (width, sum(counts.values()), len(failures)))
        for line in failures:
            print("  " + line)
        bad += len(failures)
    unseen = [name for name, subject in WRONG.items() if not check(WIDTHS[0], subject)[1]]
    print("%d wrong subjects, %d not seen" % (len(WRONG), len(unseen)))
    for name in unseen:
        print("  " + name)
    return 1 if bad or unseen else 0


if __name__ == "__main__":
    sys.exit(main())
