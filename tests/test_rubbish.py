#!/usr/bin/env python3
"""What is past the count of a piece, a message or a PART is ignored.

    test_rubbish.py [--seed S] [--count N]

Every call that takes a count is given the same bits with zeros after them, with
ones, with single bits and with random ones, and with bytes behind the last one
used.  All have one answer: the reference's digest, form, verdict, tag, index or
listing of the bits alone, which the reference is given without what is past the
count.
Then that a bit past the tail of a stored form is still refused, that 2 and 4 are
answered as before, and N messages that come through one buffer, whose old bits
lie behind each piece.
"""

import os
import subprocess
import sys

from tally import HERE, Tally, bits_of, message, random_arguments
from test_random import cut, length
import door_ref
import form_ref
import hmac_ref
import index_ref
import product
import simd_ref as ref
import tape_ref
import tapes

COUNTS = (0, 1, 7, 8, 9, 511, 512, 513, 1023, 1024, 1025)
TAILS = (0, 3, 8, 511)
LIMIT = form_ref.BITS_MAX
NUMBER = 0x0123456789ABCDEF
CLEAN = "zeros"
ROOT = os.path.dirname(HERE)
SEALS = (os.path.join(ROOT, "seal"), os.path.join(ROOT, "target", "bin", "seal"))


def soiled(rng, data, bits):
    """(what, bytes) of a message, given with zeros after its last bit, with others after it: in its last byte,
    behind that, and both."""
    spare = -bits % 8
    lasts = [(CLEAN, 0)]
    if spare:
        lasts += [("ones", 2 ** spare - 1), ("the next bit", 2 ** (spare - 1)), ("the last bit", 1),
                  ("random bits", rng.randrange(1, 2 ** spare))]
    behind = [("nothing", b""), ("a byte", b"\xff"), ("bytes", rng.randbytes(rng.randrange(2, 140))),
              ("blocks of ones", b"\xff" * 300)]
    for last, value in lasts:
        for name, more in behind:
            if value or more:
                changed = data[:-1] + bytes([data[-1] | value]) if value else data
                yield "%s, then %s" % (last, name), changed + more


def joined(data, bits, more, count):
    """Two bit strings, one after the other."""
    text = tape_ref.bit_string(data, bits) + tape_ref.bit_string(more, count)
    return tape_ref.to_bytes(text)


def with_last_bit(data, bits):
    """A message whose last bit is the other."""
    changed = bytearray(data)
    changed[(bits - 1) // 8] ^= 0x80 >> (bits - 1) % 8
    return bytes(changed)


def with_bit(data, start, place):
    """Bytes with one bit set, counted from a byte."""
    changed = bytearray(data)
    changed[start + place // 8] |= 0x80 >> place % 8
    return bytes(changed)


def some_form(rng, width, length):
    """A form of that length, with any state."""
    size = ref.block_bytes(width)
    tail = message(rng, length % (8 * size)).ljust(size, b"\0")
    return form_ref.made(width, length, rng.randbytes(size), tail)


def each(rng, counts=COUNTS):
    """(width, count, message) of all widths and counts."""
    for width in ref.WIDTHS:
        for count in counts:
            yield width, count, message(rng, count)


# Pieces

def check_feeds(tally, rng):
    """The open hash after a feed, and the digest of all bits fed."""
    for width, count, piece in each(rng):
        for tail in TAILS:
            start = product.open(width, bytes(form_ref.size(width)))[1]
            front = message(rng, tail)
            where = "SIMD-%d, %d bits after %d" % (width, count, tail)
            digest = ref.digest(width, joined(front, tail, piece, count), tail + count)
            form = product.feed(start, front, tail)[1]
            expected = door_ref.feed(form, piece, count, NUMBER)
            taken = door_ref.take(expected[1], bytes(64), NUMBER)
            tally.equal((expected[0], taken[1][:width // 8]), (0, digest), where + ": the reference")
            tally.equal(product.feed(form, piece, count, NUMBER), expected, where + ": clean")
            for what, dirty in soiled(rng, piece, count):
                found = product.feed(form, dirty, count, NUMBER)
                tally.equal(found, expected, "%s: %s" % (where, what))
                tally.equal(product.take(found[1], bytes(64), NUMBER), taken, "%s: %s: taken" % (where, what))
            # The tail itself came with bits past its count.
            for what, dirty in soiled(rng, front, tail):
                tally.equal(product.feed(start, dirty, tail, NUMBER)[1], form, "%s: tail, %s" % (where, what))
            # From a state that no message reaches, and up to the limit.
            for fed in (rng.randrange(2 ** 53) * 1024 + tail, LIMIT - count):
                other = some_form(rng, width, fed)
                expected = door_ref.feed(other, piece, count, NUMBER)
                tally.equal(expected[0], 0, where + ": a form is accepted")
                for what, dirty in soiled(rng, piece, count):
                    tally.equal(product.feed(other, dirty, count, NUMBER), expected,
                                "%s, from %d: %s" % (where, fed, what))


def check_keyed_feeds(tally, rng):
    """The keyed hash after a feed, the tag of all bits fed, and what a check says of it."""
    for width, count, piece in each(rng):
        size = form_ref.keyed_size(width)
        for tail in TAILS:
            key, front = rng.randbytes(rng.choice((0, 20, 64, 128, 150))), message(rng, tail)
            where = "SIMD-%d, keyed, %d bits after %d" % (width, count, tail)
            tag = hmac_ref.tag(width, key, joined(front, tail, piece, count), tail + count)
            start = product.hmac_open(width, key, bytes(size))[1]
            form = product.hmac_feed(start, front, tail)[1]
            expected = door_ref.hmac_feed(form, piece, count, NUMBER)
            taken = door_ref.hmac_take(expected[1], bytes(64), NUMBER)
            tally.equal((expected[0], taken[1][:width // 8]), (0, tag), where + ": the reference")
            tally.equal(product.hmac_feed(form, piece, count, NUMBER), expected, where + ": clean")
            for what, dirty in soiled(rng, piece, count):
                found = product.hmac_feed(form, dirty, count, NUMBER)
                tally.equal(found, expected, "%s: %s" % (where, what))
                tally.equal(product.hmac_take(found[1], bytes(64), NUMBER), taken, "%s: %s: taken" % (where, what))
                for given, right in ((tag, 1), (with_last_bit(tag, width), 0), (tag[:-1], 0)):
                    tally.equal(product.hmac_check(found[1], given, NUMBER), (0, right),
                                "%s: %s: checked" % (where, what))
            for what, dirty in soiled(rng, front, tail):
                tally.equal(product.hmac_feed(start, dirty, tail, NUMBER)[1], form, "%s: tail, %s" % (where, what))


# Messages

def check_whole(tally, rng):
    """The one-call digest and tag, with the output exact and longer."""
    counts = sorted({*COUNTS, *range(18), 505, 510, 519, 520, 1017, 1022, 1031, 1032, 1535, 1537, 2047, 2049, 4001})
    for width, count, data in each(rng, counts):
        where = "SIMD-%d, %d bits" % (width, count)
        key = rng.randbytes(rng.choice((0, 20, 64, 128, 150)))
        digest, tag = ref.digest(width, data, count), hmac_ref.tag(width, key, data, count)
        tally.equal(product.hash(width, data, count, bytes(width // 8)), (0, digest), where + ": clean digest")
        tally.equal(product.hmac(width, key, data, count, bytes(width // 8)), (0, tag), where + ": clean tag")
        for what, dirty in soiled(rng, data, count):
            for rest in (b"", b"\xa5" * 9):
                room = bytes(width // 8) + rest
                tally.equal(product.hash(width, dirty, count, room), (0, digest + rest),
                            "%s: digest, %s" % (where, what))
                tally.equal(product.hmac(width, key, dirty, count, room), (0, tag + rest),
                            "%s: tag, %s" % (where, what))


def check_comparisons(tally, rng):
    """Rubbish in the first message, in the second and in both."""
    def check(a, a_bits, b, b_bits, verdict, what):
        tally.equal(product.compare(width, a, a_bits, b, b_bits, NUMBER, NUMBER), (0, verdict, 0), what)

    for width, count, data in each(rng):
        where = "SIMD-%d, compared over %d bits" % (width, count)
        longer = joined(data, count, b"\x80", 1)
        pairs = [("equal messages", data, count, door_ref.SAME), ("one a bit longer", longer, count + 1, door_ref.APART)]
        if count:
            pairs.append(("the last bit changed", with_last_bit(data, count), count, door_ref.APART))
        for name, other, bits, verdict in pairs:
            expected = door_ref.compare(width, data, count, other, bits, NUMBER, NUMBER)
            tally.equal(expected, (0, verdict, 0), "%s: %s: the reference" % (where, name))
            mine, theirs = list(soiled(rng, data, count)), list(soiled(rng, other, bits))
            tries = [("clean", data, other)]
            tries += [("in the first: " + what, dirty, other) for what, dirty in mine]
            tries += [("in the second: " + what, data, dirty) for what, dirty in theirs]
            tries += [("in both: " + what, mine[k % len(mine)][1], dirty) for k, (what, dirty) in enumerate(theirs, 1)]
            for what, a, b in tries:
                check(a, count, b, bits, verdict, "%s: %s, %s" % (where, name, what))
                check(b, bits, a, count, verdict, "%s: %s, %s, exchanged" % (where, name, what))
        # The same bytes are two messages where the counts differ.
        both = longer + b"\xff" * 3
        check(both, count, both, count, door_ref.SAME, where + ": the same bytes")
        check(both, count, both, count + 1, door_ref.APART, where + ": the same bytes, one bit more of them")


def check_indexes(tally, rng):
    """Index, digest and compressions of a fresh run, and of a correction from the index of another message."""
    for width, count, data in each(rng, (*COUNTS, 8703, 8705, 17407, 17409)):
        where = "SIMD-%d, an index of %d bits" % (width, count)
        old, block = index_ref.fresh(width, message(rng, count), count)[0], rng.randrange(ref.compressions(width, count))
        rooms = rng.randbytes(len(old)), rng.randbytes(width // 8 + 9)
        fresh = door_ref.index(width, data, count, *rooms, NUMBER)
        corrected = door_ref.reindex(width, data, count, old, block, *rooms, NUMBER)
        tally.equal((fresh[0], corrected[0]), (0, 0), where + ": the reference")
        for what, given in ((CLEAN, data), *soiled(rng, data, count)):
            tally.equal(product.index(width, given, count, *rooms, NUMBER), fresh, "%s: %s" % (where, what))
            tally.equal(product.reindex(width, given, count, old, block, *rooms, NUMBER), corrected,
                        "%s: %s, corrected" % (where, what))


# Tapes

def fillings(rng, count):
    """(what, 32 bytes) that begin with the same bits of a PART, the clean ones first."""
    used = message(rng, count).ljust(32, b"\0")
    value, past = int.from_bytes(used, "big"), 256 - count
    for what, rest in ((CLEAN, 0), ("ones", 2 ** past - 1), ("the next bit", 2 ** (past - 1)), ("the last bit", 1),
                       ("random bits", rng.randrange(1, 2 ** past)), ("random bits again", rng.randrange(1, 2 ** past))):
        yield what, (value | rest).to_bytes(32, "big")


def fronts(rng):
    """(bits, their bytes, the commands that feed them)."""
    yield 0, b"", b""
    few, many = message(rng, 5), rng.randbytes(32)
    yield 5, few, tapes.part(5, (few + b"\xff" * 32)[:32])
    yield 256, many, tapes.full(many)


def check_parts(tally, rng):
    """PART of every count, first and behind other bits, by the library; then by seal, which gets all counts with
    one kind of rubbish as the records of a tape."""
    for width in ref.WIDTHS:
        for behind, front, commands in fronts(rng):
            head, digests, tape_of = tapes.opening(width) + commands, [], {}
            for count in range(256):
                where = "SIMD-%d, PART of %d bits after %d" % (width, count, behind)
                for what, data in fillings(rng, count):
                    if what == CLEAN:
                        digests.append(ref.digest(width, joined(front, behind, data, count), behind + count))
                    record = head + tapes.part(count, data) + tapes.TAKE
                    out = digests[-1] + b"\x5a" * 7
                    tally.equal(product.tape(record + tapes.STOP, b"\x5a" * len(out), 5, NUMBER), (0, out, 1, NUMBER),
                                "%s: %s" % (where, what))
                    tape_of[what] = tape_of.get(what, b"") + record
            lines = [tape_ref.line(n, width, digest) for n, digest in enumerate(digests, 1)]
            listing = "\n".join(lines) + "\ndone 256\n"
            for what, tape in tape_of.items():
                for program in SEALS:
                    done = subprocess.run([program], input=tape + tapes.STOP, stdout=subprocess.PIPE,
                                          stderr=subprocess.PIPE, timeout=60)
                    tally.equal((done.stdout.decode(), done.stderr.decode(), done.returncode), (listing, "", 0),
                                "%s, SIMD-%d, PARTs after %d bits: %s"
                                % (os.path.relpath(program, ROOT), width, behind, what))


def cleaned_tape(tape):
    """A tape with zeros past the count of each PART that can be read."""
    clean, at = b"", 0
    try:
        while True:
            command, rest, following = tape_ref.read(tape, at)
            if command == tape_ref.PART:
                rest = rest[:1] + bits_of(rest[1:], 0, rest[0]).ljust(32, b"\0")
            clean, at = clean + tape[at:at + 1] + rest, following
            if command == tape_ref.STOP:
                return clean + tape[at:]
    except tape_ref.Refused:
        return clean + tape[at:]


def check_tapes(tally, rng, count):
    """Random tapes, damaged ones too, have the answer of the tape with zeros past each count."""
    dirty = 0
    for k in range(count):
        tape = tapes.random_tape(rng)
        clean = cleaned_tape(tape)
        dirty += clean != tape
        tally.equal(len(clean), len(tape), "random tape %d: as long" % k)
        for room in (4 * 64, rng.randrange(4 * 64)):
            out = rng.randbytes(room)
            expected = door_ref.tape(clean, out, 5, NUMBER)
            tally.equal(product.tape(tape, out, 5, NUMBER), expected, "random tape %d" % k)
            tally.equal(product.tape(clean, out, 5, NUMBER), expected, "random tape %d, cleaned" % k)
    # About half of them; a handful may have none.
    if count >= 100:
        tally.equal(dirty > count // 4, True, "tapes with bits past a count")
    return dirty


# What is refused, as before

def check_stored(tally, rng):
    """Every bit past the tail of a stored form, an old one too, is refused with 9, whatever is fed, and nothing is
    written; so in both halves of a keyed form."""
    piece = b"\xff\xff"
    for width in ref.WIDTHS:
        size = ref.block_bytes(width)
        out, room = rng.randbytes(64), rng.randbytes(form_ref.size(width))
        keyed = product.hmac_open(width, b"a key", bytes(form_ref.keyed_size(width)))[1]
        for tail in (*TAILS, 8 * size - 1):
            form = some_form(rng, width, 1024 * 5 + tail)
            fed = product.hmac_feed(keyed, message(rng, tail), tail)[1]
            half = len(fed) // 2
            tally.equal([product.take(form, out)[0], product.restore(form_ref.as_old(form), room)[0],
                         product.hmac_take(fed, out)[0]], [0, 0, 0], "forms as they are")
            for place in range(tail, 8 * size):
                what = "SIMD-%d, a tail of %d bits, bit %d" % (width, tail, place)
                bad = with_bit(form, form_ref.HEAD + size, place)
                for stored in (bad, form_ref.as_old(bad)):
                    tally.equal(product.feed(stored, piece, 11, NUMBER), (9, stored, NUMBER), what + ": feed")
                    tally.equal(product.take(stored, out, NUMBER), (9, out, NUMBER), what + ": take")
                    tally.equal(product.restore(stored, room), (9, room), what + ": restore")
                # Not every bit of these: they are many, and one rule refuses them.
                if place % 37 and place not in (tail, 8 * size - 1):
                    continue
                # The outer hash has no tail.
                for start in (0, half) if tail == 0 else (0,):
                    bad = with_bit(fed, start + form_ref.HEAD + size, place)
                    tally.equal(product.hmac_feed(bad, piece, 11, NUMBER), (9, bad, NUMBER), what + ": keyed feed")
                    tally.equal(product.hmac_take(bad, out, NUMBER), (9, out, NUMBER), what + ": keyed take")
                    tally.equal(product.hmac_check(bad, out, NUMBER), (9, NUMBER), what + ": keyed check")


def check_refusals(tally, rng):
    """Bits past the count hide no refusal and make none; nothing is written."""
    for width in ref.WIDTHS:
        size = form_ref.size(width)
        key_bits = ref.block_bits(width)
        out = rng.randbytes(64)
        dirty = b"\xff" * 9
        keyed = product.hmac_open(width, b"a key", bytes(form_ref.keyed_size(width)))[1]
        for bits in (1, 7, 8, 9, 65, 71):
            what = "SIMD-%d, %d bits" % (width, bits)
            for left, refusal in ((bits, 0), (bits - 1, 4)):
                form = some_form(rng, width, LIMIT - left)
                tally.equal(product.feed(form, dirty, bits, NUMBER)[0], refusal, "%s, %d left: feed" % (what, left))
                held = some_form(rng, width, LIMIT - left) + keyed[size:]
                tally.equal(product.hmac_feed(held, dirty, bits, NUMBER)[0], refusal, "%s, %d left: keyed" % (what, left))
                if refusal:
                    tally.equal(product.feed(form, dirty, bits, NUMBER), (4, form, NUMBER), what + ": all as it was")
                    tally.equal(product.hmac_feed(held, dirty, bits, NUMBER), (4, held, NUMBER), what + ": keyed, as it was")
            form = some_form(rng, width, key_bits)
            tally.equal(product.hash(width + 1, dirty, bits, out), (1, out), what + ": hash, 1")
            tally.equal(product.hmac(width + 1, b"k", dirty, bits, out), (1, out), what + ": tag, 1")
            tally.equal(product.compare(width + 1, dirty, bits, dirty, bits, 8, 9), (1, 8, 9), what + ": compare, 1")
            short = dirty[:-(-bits // 8) - 1]
            tally.equal(product.feed(form, short, bits, NUMBER), (2, form, NUMBER), what + ": feed, 2")
            tally.equal(product.hmac_feed(keyed, short, bits, NUMBER), (2, keyed, NUMBER), what + ": keyed feed, 2")
            tally.equal(product.hash(width, short, bits, out), (2, out), what + ": hash, 2")
            tally.equal(product.hmac(width, b"k", short, bits, out), (2, out), what + ": tag, 2")
            for a, b in ((short, dirty), (dirty, short), (short, short)):
                tally.equal(product.compare(width, a, bits, b, bits, 8, 9), (2, 8, 9), what + ": compare, 2")
            few = out[:width // 8 - 1]
            tally.equal(product.hash(width, dirty, bits, few), (6, few), what + ": hash, 6")
            tally.equal(product.hmac(width, b"k", dirty, bits, few), (6, few), what + ": tag, 6")


# Streams

def check_streams(tally, rng, count):
    """Messages in random cuts through one buffer: each piece is written over the front of it, bit by bit, and
    what was there stays behind it."""
    for k in range(count):
        bits = length(rng)
        data, sizes = message(rng, bits), cut(rng, bits)
        key = rng.randbytes(rng.choice((0, 20, 64, 128, 150)))
        for width in ref.WIDTHS:
            where = "message %d of %d bits at %d" % (k, bits, width)
            form = product.open(width, bytes(form_ref.size(width)))[1]
            keyed = product.hmac_open(width, key, bytes(form_ref.keyed_size(width)))[1]
            room = 8 * (max(sizes) // 8 + 40)
            buffer, at, refusals, blocks, keyed_blocks = rng.getrandbits(room), 0, set(), 0, 0
            for n in sizes:
                piece = int.from_bytes(bits_of(data, at, n), "big") >> -n % 8
                buffer = buffer % 2 ** (room - n) | piece << (room - n)
                given = buffer.to_bytes(room // 8, "big")
                refusal, form, more = product.feed(form, given, n)
                again, keyed, same = product.hmac_feed(keyed, given, n)
                refusals |= {refusal, again}
                blocks, keyed_blocks, at = blocks + more, keyed_blocks + same, at + n
            tally.equal((refusals, keyed_blocks), ({0}, blocks), where + ": refusals and blocks")
            digest, tag = ref.digest(width, data, bits), hmac_ref.tag(width, key, data, bits)
            refusal, out, last = product.take(form, bytes(width // 8))
            tally.equal((refusal, out, blocks + last), (0, digest, ref.compressions(width, bits)), where + ": digest")
            tally.equal(product.hmac_take(keyed, bytes(width // 8))[:2], (0, tag), where + ": tag")
            tally.equal(product.hmac_check(keyed, tag, NUMBER), (0, 1), where + ": checked")


def main():
    rng, count = random_arguments(8, 60)
    if not os.path.exists(SEALS[1]):
        sys.exit("no target/bin/seal: run tests/run")
    tally = Tally("rubbish")
    for check in (check_feeds, check_keyed_feeds, check_whole, check_comparisons, check_indexes, check_parts, check_stored,
                  check_refusals):
        before = tally.compared
        check(tally, rng)
        print("rubbish, %s: %d" % (check.__name__[6:].replace("_", " "), tally.compared - before))
    dirty = check_tapes(tally, rng, 5 * count)
    check_streams(tally, rng, count)
    return tally.finish("%d counts after %d tails, PART of all counts, %d dirty tapes, %d messages"
                        % (len(COUNTS), len(TAILS), dirty, count))


if __name__ == "__main__":
    sys.exit(main())
