"""What the test programs share: counting, and the arguments of the random ones."""

import argparse
import os
import random
import sys

sys.dont_write_bytecode = True
HERE = os.path.dirname(os.path.abspath(__file__))
sys.path[:0] = [os.path.join(HERE, name) for name in ("reference", "appendix_a", "tape")]

SHOWN = 10


class Tally:
    """Counts comparisons and shows the first that differ."""

    def __init__(self, name):
        self.name, self.compared, self.differ = name, 0, 0

    def equal(self, found, expected, what):
        self.compared += 1
        if found != expected:
            self.differ += 1
            if self.differ <= SHOWN:
                print("  %s: %.200r, expected %.200r" % (what, found, expected))

    def finish(self, note=""):
        """Prints the program's line; the exit status."""
        print("%s: %s%d compared, %d differ"
              % (self.name, note and note + ": ", self.compared, self.differ))
        return 1 if self.differ or not self.compared else 0


def random_arguments(seed, count):
    """(generator, count) from --seed and --count, with these defaults."""
    parser = argparse.ArgumentParser()
    parser.add_argument("--seed", type=int, default=seed)
    parser.add_argument("--count", type=int, default=count)
    arguments = parser.parse_args()
    return random.Random(arguments.seed), arguments.count


def read_bytes(text):
    """The bytes of a data file: ff00*3,80 is ff 00 ff 00 ff 00 80, - is none."""
    data = b""
    for part in text.replace(",", " ").split():
        value, _, times = part.partition("*")
        data += b"" if value == "-" else bytes.fromhex(value) * int(times or 1)
    return data


def message(rng, bits):
    """Random bytes of a message of that many bits, zeros after the last."""
    data = bytearray(rng.randbytes(-(-bits // 8)))
    if bits % 8:
        data[-1] &= 0xFF00 >> bits % 8
    return bytes(data)


def cleaned(data, bits):
    """The bytes that a message uses, zeros after its last bit; all as they are if they have not so many bits."""
    return bits_of(data, 0, bits) if bits <= 8 * len(data) else data


def bits_of(data, start, count):
    """Some bits of a byte string, as a piece of their own."""
    value = int.from_bytes(data, "big") >> (8 * len(data) - start - count)
    size = -(-count // 8)
    return (value % 2 ** count << (8 * size - count)).to_bytes(size, "big")
