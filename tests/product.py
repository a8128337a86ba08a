"""The calls of include/simd.h, for the tests.

Each function takes the arguments of the C call.  A lent buffer or number is
given by its contents before the call and returned by its contents after it,
behind the refusal; lengths follow from the contents.

Every buffer stands between guard bytes, and byte buffers start at every
alignment in turn.  GuardError tells that a call changed a guard byte or an
input.
"""

import ctypes
import os
import sys

ROOT = os.path.dirname(os.path.dirname(os.path.abspath(__file__)))
BUILT = os.path.join(ROOT, "target", "tests")

GUARD = 64
PATTERN = bytes((167 * k + 90) % 256 for k in range(GUARD + 16))

WIDTH, FLAG, BITS, NUMBER = ctypes.c_uint16, ctypes.c_bool, ctypes.c_uint64, ctypes.c_void_p
ENTRY, BLOCK = ctypes.c_uint64, ctypes.c_uint64
SLICE = (ctypes.c_void_p, ctypes.c_size_t)

CALLS = {
    "simd_open": (WIDTH, *SLICE),
    "simd_feed": (*SLICE, *SLICE, BITS, NUMBER),
    "simd_take": (*SLICE, *SLICE, NUMBER),
    "simd_restore": (*SLICE, *SLICE),
    "simd_hash": (WIDTH, *SLICE, BITS, *SLICE),
    "simd_hmac_open": (WIDTH, *SLICE, *SLICE),
    "simd_hmac_feed": (*SLICE, *SLICE, BITS, NUMBER),
    "simd_hmac_take": (*SLICE, *SLICE, NUMBER),
    "simd_hmac_check": (*SLICE, *SLICE, NUMBER),
    "simd_hmac": (WIDTH, *SLICE, *SLICE, BITS, *SLICE),
    "simd_expand": (WIDTH, FLAG, *SLICE, *SLICE),
    "simd_steps": (WIDTH, FLAG, *SLICE, *SLICE, *SLICE),
    "simd_unsteps": (WIDTH, FLAG, *SLICE, *SLICE, *SLICE),
    "simd_compare": (WIDTH, *SLICE, BITS, *SLICE, BITS, NUMBER, NUMBER),
    "simd_tape": (*SLICE, *SLICE, NUMBER, NUMBER),
    "simd_page_entry": (ENTRY, WIDTH, *SLICE, *SLICE),
    "simd_quote": (WIDTH, *SLICE, *SLICE),
    "simd_quote_check": (*SLICE, NUMBER),
    "simd_index": (WIDTH, *SLICE, BITS, *SLICE, *SLICE, NUMBER),
    "simd_reindex": (WIDTH, *SLICE, BITS, *SLICE, BLOCK, *SLICE, *SLICE, NUMBER),
}
TRACE_CALLS = {
    "trace_transform": (WIDTH, FLAG, *SLICE, *SLICE),
    "trace_matrix": (WIDTH, FLAG, *SLICE, *SLICE),
    "trace_steps": (WIDTH, FLAG, *SLICE, *SLICE, *SLICE),
}


class GuardError(Exception):
    pass


class Lent:
    """Elements lent to a call, each of `size` bytes; `const` ones may not change."""

    turn = 0

    def __init__(self, data, size=1, const=False):
        lead = GUARD
        if size == 1:
            lead += Lent.turn % 16
            Lent.turn += 1
        self.lead, self.length, self.size, self.const = lead, len(data), size, const
        self.before = PATTERN[:lead] + data + PATTERN[:GUARD]
        words = -(-len(self.before) // 8)
        self.memory = (ctypes.c_uint64 * words).from_buffer_copy(self.before.ljust(8 * words, b"\0"))

    def arguments(self):
        return ctypes.addressof(self.memory) + self.lead, self.length // self.size

    def after(self):
        """The contents after the call."""
        memory = bytes(self.memory)[:len(self.before)]
        data = memory[self.lead:self.lead + self.length]
        expected = self.before if self.const else PATTERN[:self.lead] + data + PATTERN[:GUARD]
        if memory != expected:
            raise GuardError("a call wrote outside what it was lent")
        return data


class LentNumber(Lent):
    """One number of 64 bits behind a pointer."""

    def __init__(self, value):
        super().__init__(value.to_bytes(8, "little"), 8)

    def arguments(self):
        return super().arguments()[:1]

    def after(self):
        return int.from_bytes(super().after(), "little")


def const(data):
    return Lent(data, const=True)


def words(values, size=4):
    return Lent(b"".join(v.to_bytes(size, "little") for v in values), size)


def values_of(data, size=4):
    return [int.from_bytes(data[k:k + size], "little") for k in range(0, len(data), size)]


def load(name, calls):
    path = os.path.join(BUILT, "lib%s.so" % name)
    if not os.path.exists(path):
        return None
    library = ctypes.CDLL(path)
    for call, types in calls.items():
        function = getattr(library, call)
        function.argtypes, function.restype = types, ctypes.c_uint8
    return library


library = load("simd_c", CALLS)
if library is None:
    sys.exit("no target/tests/libsimd_c.so: run tests/run")
trace = load("trace", TRACE_CALLS)


def call(function, *arguments):
    """The refusal, then the contents after the call of what is not const."""
    flat = []
    for argument in arguments:
        flat += argument.arguments() if isinstance(argument, Lent) else [argument]
    refusal = function(*flat)
    contents = [(a.const, a.after()) for a in arguments if isinstance(a, Lent)]
    return (refusal, *(after for is_const, after in contents if not is_const))


def open(width, form):
    return call(library.simd_open, width, Lent(form))


def feed(form, piece, bits, blocks=0):
    return call(library.simd_feed, Lent(form), const(piece), bits, LentNumber(blocks))


def take(form, out, blocks=0):
    return call(library.simd_take, const(form), Lent(out), LentNumber(blocks))


def restore(stored, form):
    return call(library.simd_restore, const(stored), Lent(form))


def hash(width, message, bits, out):
    return call(library.simd_hash, width, const(message), bits, Lent(out))


def hmac_open(width, key, form):
    return call(library.simd_hmac_open, width, const(key), Lent(form))


def hmac_feed(form, piece, bits, blocks=0):
    return call(library.simd_hmac_feed, Lent(form), const(piece), bits, LentNumber(blocks))


def hmac_take(form, tag, blocks=0):
    return call(library.simd_hmac_take, const(form), Lent(tag), LentNumber(blocks))


def hmac_check(form, tag, right=0):
    return call(library.simd_hmac_check, const(form), const(tag), LentNumber(right))


def hmac(width, key, message, bits, tag):
    return call(library.simd_hmac, width, const(key), const(message), bits, Lent(tag))


def expand(width, last, block, out):
    """out is a list of words."""
    refusal, data = call(library.simd_expand, width, last, const(block), words(out))
    return refusal, values_of(data)


def steps(width, last, state, block, out):
    return call(library.simd_steps, width, last, const(state), const(block), Lent(out))


def unsteps(width, last, state, block, out):
    return call(library.simd_unsteps, width, last, const(state), const(block), Lent(out))


def compare(width, a, a_bits, b, b_bits, verdict=0, block=0):
    return call(library.simd_compare, width, const(a), a_bits, const(b), b_bits,
                LentNumber(verdict), LentNumber(block))


def tape(data, out, count=0, place=0):
    return call(library.simd_tape, const(data), Lent(out), LentNumber(count), LentNumber(place))


def page_entry(number, width, digest, out):
    return call(library.simd_page_entry, number, width, const(digest), Lent(out))


def quote(width, digest, out):
    return call(library.simd_quote, width, const(digest), Lent(out))


def quote_check(quote, right=0):
    return call(library.simd_quote_check, const(quote), LentNumber(right))


def index(width, message, bits, index, out, blocks=0):
    return call(library.simd_index, width, const(message), bits, Lent(index), Lent(out), LentNumber(blocks))


def reindex(width, message, bits, old, block, index, out, blocks=0):
    return call(library.simd_reindex, width, const(message), bits, const(old), block, Lent(index), Lent(out),
                LentNumber(blocks))


# The test-only library

def trace_transform(width, last, block, out):
    """out is a list of numbers of 16 bits."""
    refusal, data = call(trace.trace_transform, width, last, const(block), words(out, 2))
    return refusal, values_of(data, 2)


def trace_matrix(width, last, block, out):
    refusal, data = call(trace.trace_matrix, width, last, const(block), words(out))
    return refusal, values_of(data)


def trace_steps(width, last, state, block, out):
    refusal, data = call(trace.trace_steps, width, last, const(state), const(block), words(out))
    return refusal, values_of(data)
