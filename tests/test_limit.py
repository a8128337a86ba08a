#!/usr/bin/env python3
"""The limit of 18,446,744,073,709,551,615 bits, and messages of more than 4,294,967,295.

No memory holds as many bits as the limit allows.  It is reached from stored forms,
whose digest follows from the length, state and tail that they hold, and messages
under a key from keyed forms of a large inner length.  Refusals that go by lengths
alone are asked with lengths of pieces, messages and keys that are named over a page
which cannot be read.

Messages of 2^32 - 1, 2^32 and 2^32 + 1 bits go through every call that takes one, and
one of 2^20 + 3 bits more than 2^32 whole and in pieces.  They are zeros in memory that
is mapped and never stored, but for their last pages.  The tapes are one file of 4,096
FULL commands, mapped 4,096 times in a row.  What is expected comes from the states
that tests/baseline/portable.c reaches, and from the reference for the last blocks.
Each call runs at one or two widths, so that all of it takes one to two minutes.
"""

import ctypes
import itertools
import mmap
import os
import random
import sys
import tempfile

from tally import Tally, bits_of, cleaned, message
from test_rubbish import some_form, with_bit
import door_ref
import form_ref
import index_ref
import product
import simd_ref as ref
import tapes

LIMIT = form_ref.BITS_MAX
TURN = 2 ** 32                          # where a count of 32 bits is 0 again
LENGTHS = (TURN - 1, TURN, TURN + 1)
LONGER = TURN + 2 ** 20 + 3
PAGE = 4096
ENDING = TURN // 8 - 2 * PAGE           # the bytes of a message before it are zeros
NUMBER = 0x0123456789ABCDEF
REST = b"\xa5" * 9                      # stays behind an output

door = product.library
baseline = ctypes.CDLL(os.path.join(product.BUILT, "libbaseline.so"))
libc = ctypes.CDLL(None, use_errno=True)
libc.mmap.restype = ctypes.c_void_p
libc.mmap.argtypes = (ctypes.c_void_p, ctypes.c_size_t, ctypes.c_int, ctypes.c_int,
                      ctypes.c_int, ctypes.c_long)
libc.munmap.argtypes = (ctypes.c_void_p, ctypes.c_size_t)
libc.memcmp.argtypes = (ctypes.c_void_p, ctypes.c_void_p, ctypes.c_size_t)
MAP_FIXED, MAP_NORESERVE = 0x10, 0x4000
PROT_NONE = 0


def map_memory(size, address=None, file=-1, use=mmap.PROT_READ | mmap.PROT_WRITE):
    flags = mmap.MAP_PRIVATE | MAP_NORESERVE
    flags |= mmap.MAP_ANONYMOUS if file < 0 else 0
    flags |= MAP_FIXED if address else 0
    found = libc.mmap(address, size, use, flags, file, 0)
    if found in (None, ctypes.c_void_p(-1).value):
        raise OSError(ctypes.get_errno(), "mmap")
    return found


def size_of(bits):
    return -(-bits // 8)


def opened(width):
    return product.open(width, bytes(form_ref.size(width)))[1]


def number():
    return product.LentNumber(NUMBER)


# Long messages

def ending():
    """The bytes of the long messages from ENDING on, with a page behind the longest.  The first three bits are 0;
    on both sides of bit TURN there are ones, so that no bit there is as at the front."""
    data = bytearray(random.Random(12).randbytes(size_of(LONGER) - ENDING + PAGE))
    data[0] = 0
    turn = TURN // 8 - ENDING
    data[turn - 1:turn + 1] = b"\xff\xff"
    return bytes(data)


def mapped(data):
    """Memory of zeros up to ENDING, then of some bytes."""
    address = map_memory(ENDING + len(data))
    ctypes.memmove(address + ENDING, data, len(data))
    return address


def as_mapped(address, data):
    """Whether that memory is as it was."""
    return (ctypes.string_at(address, 1) == b"\0" and libc.memcmp(address, address + 1, ENDING - 1) == 0
            and ctypes.string_at(address + ENDING, len(data)) == data)


def flip(address, bit):
    ctypes.c_uint8.from_address(address + bit // 8).value ^= 0x80 >> bit % 8


class Run:
    """The states of the longest message by the baseline: all its full blocks in one go, the state before each 16th
    kept.  It starts from the width's starting state, or from a state that so many bits before the message left.
    What follows the last kept state is worked out by the reference."""

    def __init__(self, width, address, state=None, before=0):
        self.width, self.address, self.before, self.size = width, address, before, ref.block_bytes(width)
        self.blocks = LONGER // (8 * self.size)
        self.kept = map_memory(self.size * (self.blocks // 16 + 1))
        state = state or ref.state_to_bytes(ref.start_state(width))
        baseline.base_blocks(int(width > 256), ctypes.create_string_buffer(state, self.size), ctypes.c_void_p(address),
                             ctypes.c_uint64(self.blocks), ctypes.c_void_p(self.kept))

    def last(self, bits, changed):
        """(how many kept states are the baseline's, those kept behind them, stored form) of the first bits as they lie
        in memory now.  What was changed in it since the baseline ran is in the block of that number, or behind it."""
        full = bits // (8 * self.size)
        first = min(full if changed is None else changed, self.blocks - 1) // 16
        state = ref.state_from_bytes(self.width, ctypes.string_at(self.kept + self.size * first, self.size))
        states = b""
        for k in range(16 * first, full):
            if k % 16 == 0:
                states += ref.state_to_bytes(state)
            state = ref.compress(self.width, False, state, ctypes.string_at(self.address + self.size * k, self.size))
        tail = ctypes.string_at(self.address + self.size * full, self.size)
        tail = cleaned(tail, bits % (8 * self.size)).ljust(self.size, b"\0")
        return first, states, form_ref.made(self.width, self.before + bits, ref.state_to_bytes(state), tail)

    def index(self, bits, changed=None):
        first, states, _ = self.last(bits, changed)
        return form_ref.head(self.width, bits) + ctypes.string_at(self.kept, self.size * first) + states

    def form(self, bits, changed=None):
        return self.last(bits, changed)[2]

    def taken(self, bits, changed=None):
        """(digest, blocks of a take)."""
        return door_ref.take(self.form(bits, changed), bytes(self.width // 8))[1:]

    def digest(self, bits, changed=None):
        return self.taken(bits, changed)[0]


class Room:
    """Mapped memory that is lent for an index, between two pages that stay as they are."""

    def __init__(self, size):
        self.size, self.start = size, map_memory(PAGE + size + PAGE)
        self.address = self.start + PAGE
        for guard in (self.start, self.address + size):
            ctypes.memset(guard, 0xA5, PAGE)

    def holds(self, data):
        """Whether it is some bytes, and nothing round it was written."""
        guards = ctypes.string_at(self.start, PAGE) + ctypes.string_at(self.address + self.size, PAGE)
        return (len(data) == self.size and libc.memcmp(self.address, data, self.size) == 0
                and guards == b"\xa5" * 2 * PAGE)

    def put(self, data):
        ctypes.memmove(self.address, data, len(data))

    def close(self):
        libc.munmap(self.start, PAGE + self.size + PAGE)


def check_whole(tally, run, in_pieces):
    """Digests in one call: those of the run, and of the longest message those of the baseline's own call, also at the
    width at which it is fed in pieces."""
    digests = [(run.width, bits, run.digest(bits)) for bits in LENGTHS]
    for width in (224, in_pieces.width):
        longest = (ctypes.c_uint8 * (width // 8))()
        baseline.base_hash(width, ctypes.c_void_p(run.address), ctypes.c_uint64(LONGER), longest)
        digests.append((width, LONGER, bytes(longest)))
    tally.equal(in_pieces.digest(LONGER), bytes(longest), "%d bits by the baseline, block by block and in one call" % LONGER)
    for width, bits, digest in digests:
        what, room = "%d bits at %d" % (bits, width), bytes(width // 8) + REST
        given = width, run.address, size_of(bits)
        tally.equal(product.call(door.simd_hash, *given, bits, product.Lent(room)), (0, digest + REST), what)
        tally.equal(product.call(door.simd_hash, *given, 8 * size_of(bits) + 1, product.Lent(room)), (2, room),
                    what + ": more bits than bytes")


def check_pieces(tally, run):
    """Open hashes: a whole message in one piece, in one piece after three bits, and in pieces at odd places; then the
    old form of the longest message that one held, restored and fed on."""
    width, block, end = run.width, 8 * run.size, ending()

    def feed(form, address, bits):
        return product.call(door.simd_feed, product.Lent(form), address, size_of(bits), bits, number())

    def check(form, bits, what):
        """The open hash of so many bits, and its digest, twice."""
        tally.equal(form, run.form(bits), what)
        for _ in range(2):
            tally.equal(product.take(form, bytes(width // 8), NUMBER), (0, *run.taken(bits)), what + ": taken")
        tally.equal(product.restore(form, bytes(len(form))), (0, form), what + ": restored")

    for bits in LENGTHS:
        what = "%d bits at %d in one piece" % (bits, width)
        refusal, form, blocks = feed(opened(width), run.address, bits)
        tally.equal((refusal, blocks), (0, bits // block), what + ": the answer")
        check(form, bits, what)

    what = "3 bits at %d and then %d" % (width, LONGER - 3)
    shifted = mapped(bits_of(end, 3, 8 * len(end) - 3))
    refusal, form, blocks = feed(product.feed(opened(width), b"\0", 3)[1], shifted, LONGER - 3)
    tally.equal((refusal, blocks), (0, LONGER // block), what + ": the answer")
    check(form, LONGER, what)

    # Zeros up to 6 bits before the ending, then bits of the ending up to 517 before TURN.
    form, fed, total = opened(width), 0, 0
    for bits in (5, 2 ** 31 + 2, 2 ** 30 + 7, 8 * ENDING - 6 - 5 - 2 ** 31 - 2 - 2 ** 30 - 7):
        refusal, form, blocks = feed(form, run.address, bits)
        tally.equal(refusal, 0, "a piece of %d bits at %d" % (bits, width))
        fed, total = fed + bits, total + blocks
    source, start = b"\0" + end, 8 * ENDING - 8

    def feed_to(form, fed, bits):
        return product.feed(form, bits_of(source, fed - start, bits - fed), bits - fed, NUMBER)

    refusal, form, blocks = feed_to(form, fed, TURN - 517)
    tally.equal((refusal, total + blocks), (0, (TURN - 517) // block), "pieces at %d: the blocks" % width)
    check(form, TURN - 517, "pieces at %d" % width)
    for bits in (*LENGTHS, LONGER):
        refusal, later, blocks = feed_to(form, TURN - 517, bits)
        what = "pieces at %d, %d bits" % (width, bits)
        tally.equal((refusal, blocks), (0, bits // block - (TURN - 517) // block), what + ": the answer")
        check(later, bits, what)

    old, what = form_ref.as_old(run.form(TURN - 1)), "an old form of %d bits at %d" % (TURN - 1, width)
    tally.equal(product.take(old, bytes(width // 8), NUMBER), (0, *run.taken(TURN - 1)), what + ": taken")
    for bits in (TURN, TURN + 1, LONGER):
        tally.equal(feed_to(old, TURN - 1, bits), (6, old, NUMBER), what + ": fed in place")
        refusal, form = product.restore(old, bytes(form_ref.size(width)))
        refused, form, _ = feed_to(form, TURN - 1, bits)
        tally.equal((refusal, refused), (0, 0), what + ": the answers")
        check(form, bits, what + ", fed on to %d" % bits)


def check_indexes(tally, runs):
    """Indexes of 262,144 states and more, and corrections in their last blocks and from the first block on."""
    for width, counts in ((256, LENGTHS), (512, (LONGER,))):
        run = runs[width]
        block, nothing = 8 * run.size, bytes(width // 8)
        for bits in counts:
            what = "an index of %d bits at %d" % (bits, width)
            index, digest, last = run.index(bits), run.digest(bits), -(-bits // block)
            size, kept = index_ref.size(width, bits), (bits // block - 1) // 16
            old, new, given = Room(size), Room(size), (width, run.address, size_of(bits), bits)
            tally.equal(len(index), size, what + ": its size")

            def check(call, arguments, made, expected, what):
                """A call that is lent a room and its size: its answer, and what the room holds then."""
                room, room_size = arguments[-2:]
                found = product.call(call, *given, *arguments[:-2], room.address, room_size, product.Lent(nothing), number())
                tally.equal((found, room.holds(made)), (expected, True), what)

            check(door.simd_index, (old, size), index, (0, digest, last + 1), what)
            # A bit of the last block, and one so far before it that a state behind it is kept.
            for place, numbers in ((bits - 1, (last - 1, last)), (block * (16 * kept - 3) + 5, (16 * kept - 3,))):
                changed = place // block
                flip(run.address, place)
                made, other = run.index(bits, changed), run.digest(bits, changed)
                for first in numbers:
                    start = 16 * min(first // 16, kept)
                    check(door.simd_reindex, (old.address, size, first, new, size), made, (0, other, last + 1 - start),
                          what + ": corrected from block %d" % first)
                flip(run.address, place)
                tally.equal(other == digest, False, what + ": another digest")
            tally.equal(made == index, False, what + ": another index")
            if bits == TURN + 1:
                check(door.simd_reindex, (old.address, size, 0, new, size), index, (0, digest, last + 1),
                      what + ": from block 0")
                made = index

            # The new index is as it was.
            for length, first in ((size, last + 1), (size, TURN), (size, TURN + last), (size, LIMIT), (size - 1, 0),
                                  (size + 1, 0), (size - 4, last), (0, 0)):
                check(door.simd_reindex, (old.address, length, first, new, size), made, (15, nothing, NUMBER),
                      what + ": %d bytes of it, from block %d" % (length, first))
            for count in (bits - 1, bits ^ TURN, bits ^ 2 ** 63):
                old.put(form_ref.head(width, count))
                check(door.simd_reindex, (old.address, size, 0, new, size), made, (15, nothing, NUMBER),
                      what + ": of %d bits" % count)
            old.put(form_ref.head(width, bits))
            check(door.simd_reindex, (old.address, size, last, new, size - 1), made, (6, nothing, NUMBER),
                  what + ": a byte short")
            check(door.simd_index, (new, size - 1), made, (6, nothing, NUMBER), what + ": fresh, a byte short")
            tally.equal(old.holds(index), True, what + ": the one given is as it was")
            if bits < TURN:
                old.put(index_ref.as_old(index))
                check(door.simd_reindex, (old.address, size - 4, last, new, size), made, (15, nothing, NUMBER),
                      what + ": with 4 length bytes")
            old.close()
            new.close()


def check_comparisons(tally, runs):
    """Equal messages, also with other bits past the count, messages whose last bit differs, and ones that are longer, by
    2^32 bits too; that the digests of these differ is the baseline's."""
    address, other = runs[256].address, mapped(ending())

    def compare(width, a_bits, b_bits):
        return product.call(door.simd_compare, width, address, size_of(a_bits), a_bits, other, size_of(b_bits), b_bits,
                            number(), number())

    for width, bits in zip((384, 224, 512), LENGTHS):
        what = "%d bits compared at %d" % (bits, width)
        flip(other, bits)
        tally.equal(compare(width, bits, bits), (0, door_ref.SAME, 0), what + ": equal, but not behind")
        flip(other, bits)
        flip(other, bits - 1)
        tally.equal(compare(width, bits, bits), (0, door_ref.APART, 0), what + ": the last bit differs")
        flip(other, bits - 1)
    for width, a_bits, b_bits in ((256, TURN, TURN - 1), (512, LONGER, LONGER - TURN), (256, LONGER - TURN, LONGER)):
        what = "%d bits compared with %d at %d" % (a_bits, b_bits, width)
        tally.equal(runs[width].digest(a_bits) == runs[width].digest(b_bits), False, what + ": the digests")
        tally.equal(compare(width, a_bits, b_bits), (0, door_ref.APART, 0), what)


def check_turns(tally):
    """Messages of zeros whose lengths are equal modulo 2^32: no bit tells them apart but their number.  Some in the
    other order too."""
    address, other = (map_memory(TURN // 8 + PAGE) for _ in range(2))
    for width, bits in zip((224, 256, 384, 512, 256), (0, 1, 511, 512, 4096)):
        what = "%d and %d zeros at %d" % (bits, bits + TURN, width)
        short = address, size_of(bits), bits
        long = other, size_of(bits + TURN), bits + TURN
        for a, b in ((short, long), (long, short)) if bits in (0, 512) else ((short, long),):
            tally.equal(product.call(door.simd_compare, width, *a, *b, number(), number()), (0, door_ref.APART, 0), what)
        again = address, size_of(bits + TURN), bits + TURN
        tally.equal(product.call(door.simd_compare, width, *again, *long, number(), number()), (0, door_ref.SAME, 0),
                    what + ": the longer one twice")


def check_keyed(tally, address):
    """Messages under a key, in one call and in one piece to an open hash."""
    width = 384
    size, key = ref.block_bytes(width), b"the key of a group"
    fresh = product.hmac_open(width, key, bytes(form_ref.keyed_size(width)))[1]
    tally.equal(fresh, door_ref.hmac_open(width, key, bytes(len(fresh)))[1], "opened with a key")
    inner, outer = door_ref.halves(fresh)
    run = Run(width, address, form_ref.state_of(inner), 8 * size)
    for bits in LENGTHS:
        what, lent = "%d bits under a key at %d" % (bits, width), product.const(key)
        held = run.form(bits) + outer
        tag, last = door_ref.tag_of(held)
        given = address, size_of(bits), bits
        room = product.Lent(bytes(len(tag)) + REST)
        tally.equal(product.call(door.simd_hmac, width, lent, *given, room), (0, tag + REST), what)
        found = product.call(door.simd_hmac_feed, product.Lent(fresh), *given, number())
        tally.equal(found, (0, held, bits // (8 * size)), what + ": fed")
        tally.equal(product.hmac_take(found[1], bytes(len(tag)), NUMBER), (0, tag, last), what + ": taken")
        for one, right in ((tag, 1), (tag[:-1] + bytes([tag[-1] ^ 1]), 0)):
            tally.equal(product.hmac_check(found[1], one, NUMBER), (0, right), what + ": checked")
    tally.equal(form_ref.bits_of(held), TURN + 1 + 8 * size, "the inner length")


def check_long_keys(tally, opened_at, whole_at):
    """Keys of 2^32 bits, and of a byte less and more, which are hashed first: opened at one width, in one call at
    another."""
    piece = b"a reading"
    for bits in (TURN - 8, TURN, TURN + 8):
        for run, call in ((opened_at, door.simd_hmac_open), (whole_at, door.simd_hmac)):
            fresh = bytes(form_ref.keyed_size(run.width))
            form, key = door_ref.hmac_open(run.width, run.digest(bits), fresh)[1], (run.width, run.address, bits // 8)
            if call is door.simd_hmac_open:
                given, expected = (product.Lent(fresh),), form
            else:
                expected = door_ref.tag_of(door_ref.hmac_feed(form, piece, 8 * len(piece))[1])[0]
                given = product.const(piece), 8 * len(piece), product.Lent(bytes(len(expected)))
            tally.equal(product.call(call, *key, *given), (0, expected), "%s, a key of %d bits" % (call.__name__, bits))


def check_tapes(tally, run):
    """Tapes of FULLs, with a PART at their end where the message is no whole number of them; ones past each count."""
    period = tapes.full(bytes(32)) * PAGE           # a whole number of pages
    periods = TURN // 256 // PAGE
    start = map_memory(PAGE + periods * len(period) + PAGE)
    with tempfile.TemporaryFile() as file:
        file.write(period)
        file.flush()
        for k in range(periods):
            map_memory(len(period), start + PAGE + k * len(period), file.fileno())
    tape = start + PAGE - 3
    ctypes.memmove(tape, tapes.opening(run.width), 3)
    end = ending()
    for at in range(ENDING, TURN // 8, 32):
        command = tapes.full(end[at - ENDING:at - ENDING + 32])
        ctypes.memmove(tape + 3 + at // 32 * len(command), command, len(command))
    ones = b"\xff" * 32
    last = end[TURN // 8 - ENDING - 32:TURN // 8 - ENDING]
    # By bits: whether the last FULL is left out, and what follows.
    for bits, short, rest in ((TURN, 0, b""), (TURN + 1, 0, tapes.part(1, ones)), (TURN - 1, 1, tapes.part(255, last))):
        what = "a tape of %d bits at %d" % (bits, run.width)
        commands = rest + tapes.part(0, ones) + tapes.TAKE + tapes.STOP
        at = 3 + (TURN // 256 - short) * len(tapes.full(last))
        ctypes.memmove(tape + at, commands, len(commands))
        found = product.call(door.simd_tape, tape, at + len(commands), product.Lent(bytes(run.width // 8) + REST),
                             product.LentNumber(5), number())
        tally.equal(found, (0, run.digest(bits) + REST, 1, NUMBER), what)


# The limit

def check_stored(tally, rng):
    """One bit below the limit, at it and above it, from stored forms of any state; then lengths between."""
    tally.equal([ref.length_block(width, LIMIT) for width in (256, 512)], [b"\xff" * 8 + bytes(56), b"\xff" * 8 + bytes(120)],
                "the reference's length block")
    for width in ref.WIDTHS:
        size, room = ref.block_bits(width), bytes(width // 8)
        for count, total in itertools.product((0, 1, 2, 7, 8, 9, size - 1, size, size + 1, 2 * size + 3),
                                              (LIMIT - 1, LIMIT, LIMIT + 1)):
            if total - count > LIMIT:
                continue
            piece, form = message(rng, count), some_form(rng, width, total - count)
            what = "SIMD-%d, %d bits where %d are left" % (width, count, LIMIT - form_ref.bits_of(form))
            found = product.feed(form, piece, count, NUMBER)
            tally.equal(found, door_ref.feed(form, piece, count, NUMBER), what)
            tally.equal(product.take(form, room, NUMBER), door_ref.take(form, room, NUMBER), what + ": taken before")
            if total > LIMIT:
                tally.equal(found, (4, form, NUMBER), what + ": all as it was")
                # 2 comes first, and 9 before both.
                tally.equal(product.feed(form, piece, 8 * len(piece) + 1, NUMBER), (2, form, NUMBER), what + ": 2")
                tally.equal(product.feed(form, piece + b"\xff", count, NUMBER), (4, form, NUMBER), what + ": a byte behind")
                bad = with_bit(form, form_ref.HEAD + size // 8, size - 1)
                tally.equal(product.feed(bad, piece, 8 * len(piece) + 1, NUMBER), (9, bad, NUMBER), what + ": 9")
                continue
            full = found[1]
            tally.equal((found[0], form_ref.bits_of(full)), (0, total), what + ": accepted")
            tally.equal(product.take(full, room, NUMBER), door_ref.take(full, room, NUMBER), what + ": taken")
            tally.equal(product.restore(full, bytes(len(full))), (0, full), what + ": restored")
            tally.equal(product.feed(full, b"\xff", 0, NUMBER), (0, full, 0), what + ": 0 bits more")
            more = product.feed(full, b"\x80", 1, NUMBER)
            tally.equal(more, door_ref.feed(full, b"\x80", 1, NUMBER), what + ": a bit more")
            tally.equal(more[0], 4 if total == LIMIT else 0, what + ": a bit more, refusal")
        for power, more in itertools.product((31, 32, 33, 40, 48, 56, 62, 63), (-1, 0, 1)):
            form, piece = some_form(rng, width, 2 ** power + more), rng.randbytes(2)
            what = "SIMD-%d, a stored length of 2^%d %+d" % (width, power, more)
            tally.equal(product.feed(form, piece, 9, NUMBER), door_ref.feed(form, piece, 9, NUMBER), what + ": fed")
            tally.equal(product.take(form, room, NUMBER), door_ref.take(form, room, NUMBER), what + ": taken")


def check_stored_keyed(tally, rng):
    """The same of the inner length of keyed forms: 5 before 2, 2 before 4."""
    for width in ref.WIDTHS:
        size, room = ref.block_bits(width), bytes(width // 8)
        outer = some_form(rng, width, size)
        for count, total in itertools.product((0, 1, 9, size + 1), (LIMIT - 1, LIMIT, LIMIT + 1)):
            if total - count > LIMIT:
                continue
            piece, inner = message(rng, count), some_form(rng, width, total - count)
            form, what = inner + outer, "SIMD-%d, keyed, %d bits to a total of %d" % (width, count, total)
            found = product.hmac_feed(form, piece, count, NUMBER)
            tally.equal(found, door_ref.hmac_feed(form, piece, count, NUMBER), what)
            tally.equal(found[0], 4 if total > LIMIT else 0, what + ": refusal")
            taken = product.hmac_take(found[1], room, NUMBER)
            tally.equal(taken, door_ref.hmac_take(found[1], room, NUMBER), what + ": taken")
            tally.equal(product.hmac_check(found[1], taken[1], NUMBER), (0, 1), what + ": checked")
            if total > LIMIT:
                tally.equal(found, (4, form, NUMBER), what + ": all as it was")
                tally.equal(product.hmac_feed(form, piece, 8 * len(piece) + 1, NUMBER), (2, form, NUMBER), what + ": 2")
                for bad in (inner + some_form(rng, width, 2 * size), inner + inner):
                    tally.equal(product.hmac_feed(bad, piece, 8 * len(piece) + 1, NUMBER), (5, bad, NUMBER), what + ": 5")


def check_named(tally, rng):
    """Lengths that no memory has, over a page that cannot be read: a count of the most bits has 2^61 bytes, and that
    is refused neither with 2 nor with 4; with bits before it, or a key block, it is 4."""
    closed, most = map_memory(PAGE, use=PROT_NONE), 2 ** 61
    nothing = product.Lent(b"")
    tally.equal((8 * most - 1, 8 * (most - 1) < LIMIT), (LIMIT, True), "the bytes of the most bits")
    for width in ref.WIDTHS:
        size, full = ref.block_bits(width), -(-LIMIT // ref.block_bits(width))
        for count, length, refusal in ((LIMIT - 1, most, 0), (LIMIT, most, 0), (LIMIT, 2 ** 64 - 1, 0), (LIMIT, most - 1, 2),
                                       (LIMIT - 6, most - 1, 2), (LIMIT - 7, most - 1, 0), (LIMIT, 0, 2)):
            given, what = (closed, length, count), "%d bits in %d bytes at %d" % (count, length, width)
            tally.equal(product.call(door.simd_hash, width, *given, nothing), (refusal or 6, b""), what + ": hash")
            tally.equal(product.call(door.simd_index, width, *given, nothing, nothing, number()),
                        (refusal or 6, b"", b"", NUMBER), what + ": index")
            tally.equal(product.call(door.simd_reindex, width, *given, product.const(b""), 0, nothing, nothing, number()),
                        (refusal or 15, b"", b"", NUMBER), what + ": correction")
            # Of the other message: 2, which is asked after the first.
            for a, b in ((given, (closed, 0, 1)), ((closed, 0, 1), given)):
                tally.equal(product.call(door.simd_compare, width, *a, *b, number(), number()), (2, NUMBER, NUMBER),
                            what + ": comparison")
        # Of an index at the limit the front is read, and the number of the length block is 2^55 or 2^54.
        head = product.const(form_ref.head(width, LIMIT))
        for block, refusal in ((0, 6), (full - 1, 6), (full, 6), (full + 1, 15), (LIMIT, 15)):
            old = head.arguments()[0], index_ref.size(width, LIMIT), block
            tally.equal(product.call(door.simd_reindex, width, closed, most, LIMIT, *old, nothing, nothing, number()),
                        (refusal, b"", b"", NUMBER), "a correction of %d bits at %d from block %d" % (LIMIT, width, block))
        tally.equal(head.after(), form_ref.head(width, LIMIT), "the front of an index")

        # A piece after some bits: of an old form too, and 6 comes last.
        for before in (1, 2, size - 1, size, TURN - 1):
            form, outer = some_form(rng, width, before), some_form(rng, width, size)
            forms = [(door.simd_feed, form), (door.simd_feed, form_ref.as_old(form))]
            if before >= size:
                forms += [(door.simd_hmac_feed, form + outer),
                          (door.simd_hmac_feed, form_ref.as_old(form) + form_ref.as_old(outer))]
            for (call, one), (count, length, refusal) in itertools.product(forms, (
                    (LIMIT - before + 1, most, 4), (LIMIT, most, 4), (LIMIT, 2 ** 64 - 1, 4), (LIMIT, most - 1, 2))):
                tally.equal(product.call(call, product.Lent(one), closed, length, count, number()), (refusal, one, NUMBER),
                            "%s at %d, %d bits in %d bytes after %d, a form of %d bytes"
                            % (call.__name__, width, count, length, before, len(one)))

        # A message under a key, in one call: with one key block above the limit.
        key = product.const(b"a key")
        for count, length, refusal in ((LIMIT - size + 1, most, 4), (LIMIT - size + 2, most, 4), (LIMIT, most, 4),
                                       (LIMIT, 2 ** 64 - 1, 4), (LIMIT, most - 1, 2), (LIMIT - 6, most - 1, 2)):
            for room in (b"", bytes(64)):
                found = product.call(door.simd_hmac, width, key, closed, length, count, product.Lent(room))
                tally.equal(found, (refusal, room), "%d bits in %d bytes at %d under a key" % (count, length, width))


def check_keys(tally):
    """Keys above the limit: after 1, before 2 and 4 of a message and before 6.  One of 2^61 - 1 bytes is not, but
    would be read."""
    closed, most = map_memory(PAGE, use=PROT_NONE), 2 ** 61
    for size in (most, most + 1, 2 ** 62, 2 ** 63, 2 ** 64 - 1):
        for width in (*ref.WIDTHS, 0, 160, 225, 65535):
            refusal, what = 4 if width in ref.WIDTHS else 1, "a key of %d bytes at %d" % (size, width)
            for room in (b"\xa5" * 600, b""):
                tally.equal(product.call(door.simd_hmac_open, width, closed, size, product.Lent(room)), (refusal, room),
                            what + ": open")
                for length, count in ((0, 0), (8, 64), (8, 65), (most, LIMIT), (0, LIMIT)):
                    tally.equal(product.call(door.simd_hmac, width, closed, size, closed, length, count, product.Lent(room)),
                                (refusal, room), what + ": one call")


def main():
    tally, rng = Tally("limit"), random.Random(13)
    check_stored(tally, rng)
    check_stored_keyed(tally, rng)
    check_named(tally, rng)
    check_keys(tally)
    address = mapped(ending())
    runs = {width: Run(width, address) for width in (256, 512)}
    check_whole(tally, runs[256], runs[512])
    check_pieces(tally, runs[512])
    check_indexes(tally, runs)
    check_comparisons(tally, runs)
    check_turns(tally)
    check_keyed(tally, address)
    check_long_keys(tally, runs[256], runs[512])
    check_tapes(tally, runs[256])
    tally.equal(as_mapped(address, ending()), True, "the message as it was")
    return tally.finish("forms and lengths at 18,446,744,073,709,551,615 bits, messages of 4,294,967,295 and more")


if __name__ == "__main__":
    sys.exit(main())
