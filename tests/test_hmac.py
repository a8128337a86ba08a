#!/usr/bin/env python3
"""Keyed seals against an independent HMAC.

    test_hmac.py [--seed S] [--count N]

Keys of all kinds of length, messages in one call and in pieces, tags that are
right, cut, longer or changed, damaged keyed forms, and lengths at the limit;
then N random keys and messages in random cuts.  Tags of whole bytes are those of
Python's hmac module over the reference, others those of the standard's formula.
"""

import sys

from tally import Tally, bits_of, message, random_arguments
from test_cuts import CUTS, pieces
from test_random import cut, length
import door_ref
import form_ref
import hmac_ref
import product
import simd_ref as ref

LIMIT = form_ref.BITS_MAX
NUMBER = 0x0123456789ABCDEF
OTHER = {224: 256, 256: 224, 384: 512, 512: 384}     # the other width of the family


def some_bytes(size, seed=0):
    return bytes((89 * k + 31 * (k >> 8) + seed) % 256 for k in range(size))


def message_of(bits):
    """A message without a pattern of 8 bits, zeros after it."""
    return bits_of(some_bytes(-(-bits // 8) + 1, 5), 0, bits)


def expected_tag(width, key, data, bits):
    if bits % 8:
        return hmac_ref.tag(width, key, data, bits)
    return hmac_ref.module_tag(width, key, data[:bits // 8])


def opened(width, key):
    return product.hmac_open(width, key, bytes(form_ref.keyed_size(width)))[1]


def in_pieces(width, key, data, sizes):
    """(refusal, tag, blocks reported) of a message fed in pieces.  The form that a call leaves is
    all that the next one gets."""
    refusal, form = product.hmac_open(width, key, bytes(form_ref.keyed_size(width)))
    total, at = 0, 0
    for size in sizes:
        if not refusal:
            refusal, form, blocks = product.hmac_feed(form, bits_of(data, at, size), size)
            total, at = total + blocks, at + size
    if refusal:
        return refusal, b"", total
    refusal, tag, blocks = product.hmac_take(form, bytes(width // 8))
    return refusal, tag, total + blocks


def blocks_of(width, bits):
    """The blocks that feeds and take report: the message's and its length block, then two of the
    outer hash.  Those of the key are compressed by the open."""
    return ref.compressions(width, bits) + 2


def check_keys(tally):
    """Every kind of key with every kind of message, in one call and in one piece; the form of an
    opened hash is two stored forms."""
    for width in ref.WIDTHS:
        size = ref.block_bytes(width)
        for key_size in (0, 1, size - 1, size, size + 1, 2 * size, 300):
            key = some_bytes(key_size, width % 251)
            what = "SIMD-%d, a key of %d bytes" % (width, key_size)
            block = hmac_ref.key_block(size, lambda data, bits: ref.digest(width, data, bits), key)
            plain = product.open(width, bytes(form_ref.size(width)))[1]
            stored = b"".join(product.feed(plain, hmac_ref.padded(block, pad), 8 * size)[1]
                              for pad in (hmac_ref.IPAD, hmac_ref.OPAD))
            tally.equal(product.hmac_open(width, key, bytes(form_ref.keyed_size(width))), (0, stored), what + ": its form")
            for bits in (0, 1, 3, 8, 24, 8 * size - 1, 8 * size, 8 * size + 1, 1079):
                data = message_of(bits)
                tag = expected_tag(width, key, data, bits)
                tally.equal(product.hmac(width, key, data, bits, bytes(width // 8)), (0, tag),
                            what + ", %d bits in one call" % bits)
                tally.equal(in_pieces(width, key, data, [bits]), (0, tag, blocks_of(width, bits)),
                            what + ", %d bits in one piece" % bits)
        # Zeros at a key's end make no other key, up to a block.
        key = some_bytes(9)
        tally.equal(opened(width, key), opened(width, key + bytes(size - 9)), "a key filled with zeros")
        tally.equal(opened(width, key) == opened(width, key + bytes(size - 8)), False, "a key longer by a zero")


def check_cuts(tally):
    """One message in the cuttings of test_cuts.py and in every two pieces; the form after each feed
    is the reference's, and a take leaves it."""
    bits = 1079
    for width in ref.WIDTHS:
        key, data = some_bytes(20, width % 251), message_of(bits)
        expected = expected_tag(width, key, data, bits), blocks_of(width, bits)
        for name, sizes in CUTS:
            what = "SIMD-%d, %s" % (width, name)
            counts = [count for _, count in pieces(bits, sizes)]
            tally.equal(in_pieces(width, key, data, counts), (0, *expected), what)
        for first in range(bits + 1):
            tally.equal(in_pieces(width, key, data, [first, bits - first]), (0, *expected),
                        "SIMD-%d, %d bits and the rest" % (width, first))
        form = opened(width, key)
        for at, count in pieces(bits, (0, 7, 9, 130, 511)):
            piece = bits_of(data, at, count)
            found = product.hmac_feed(form, piece, count, NUMBER)
            tally.equal(found, door_ref.hmac_feed(form, piece, count, NUMBER), "SIMD-%d, the form at %d" % (width, at))
            form = found[1]
            so_far = expected_tag(width, key, bits_of(data, 0, at + count), at + count)
            for _ in range(2):
                tally.equal(product.hmac_take(form, bytes(width // 8))[:2], (0, so_far),
                            "SIMD-%d, taken at %d" % (width, at))


def check_tags(tally):
    """Yes exactly to the whole tag."""
    for width in ref.WIDTHS:
        key, data, size = some_bytes(40, width % 251), message_of(700), width // 8
        form = product.hmac_feed(opened(width, key), data, 700)[1]
        tag = expected_tag(width, key, data, 700)

        def check(given, right, what):
            for before in (0, 1, NUMBER):
                tally.equal(product.hmac_check(form, given, before), (0, right), "SIMD-%d, %s" % (width, what))

        check(tag, 1, "the tag")
        for cut_at in range(size):
            check(tag[:cut_at], 0, "the first %d bytes of the tag" % cut_at)
            check(tag[size - cut_at:], 0, "the last %d bytes of the tag" % cut_at)
        for more in (b"\0", b"\x01", tag[:1], bytes(64 - size % 64), tag, bytes(1000)):
            check(tag + more, 0, "the tag and %d bytes" % len(more))
            check(more + tag, 0, "%d bytes and the tag" % len(more))
        for bit in range(8 * size):
            changed = int.from_bytes(tag, "big") ^ 1 << bit
            check(changed.to_bytes(size, "big"), 0, "bit %d of the tag changed" % bit)
        # Changes that cancel in a sum, or in an exclusive or, of the bytes.
        for j, k in ((0, 1), (0, size - 1), (size // 2, size - 1)):
            swapped, twice = bytearray(tag), bytearray(tag)
            swapped[j], swapped[k] = tag[k], tag[j]
            twice[j], twice[k] = tag[j] ^ 0x80, tag[k] ^ 0x80
            check(bytes(swapped), int(tag[j] == tag[k]), "bytes %d and %d exchanged" % (j, k))
            check(bytes(twice), 0, "bytes %d and %d changed alike" % (j, k))
        check(bytes(255 - byte for byte in tag), 0, "every bit changed")
        check(bytes(size), 0, "zeros")
        inner = product.take(form[:len(form) // 2], bytes(size))[1]
        check(inner, 0, "the inner digest")
        check(ref.digest(width, data, 700), 0, "the digest")
        check(expected_tag(width, key + b"\x01", data, 700), 0, "the tag under another key")
        check(expected_tag(width, key, message_of(699), 699), 0, "the tag of another message")
        check(expected_tag(OTHER[width], key, data, 700), 0, "the tag of another width")
        check(expected_tag(OTHER[width], key, data, 700)[:size], 0, "the tag of another width, cut")
        # Fed a bit 0 more, the old tag is wrong.
        form = product.hmac_feed(form, b"\0", 1)[1]
        check(tag, 0, "the tag of a part")
        check(expected_tag(width, key, data, 701), 1, "the tag of the longer message")


def with_length(form, count):
    """A form with another bit length and nothing in its last block."""
    width, _, state, block = form_ref.parts(form)
    return form_ref.made(width, count, state, bytes(len(block)))


def with_width(form, width):
    return width.to_bytes(2, "little") + form[2:]


def with_bit(form, place=-1):
    """A form with a bit changed, else in its last byte, which is past its tail."""
    changed = bytearray(form)
    changed[place] ^= 1
    return bytes(changed)


def damaged(width):
    """(what, keyed form, refusal)."""
    key, size = some_bytes(50), 8 * ref.block_bytes(width)
    fresh = opened(width, key)
    fed = product.hmac_feed(fresh, b"\xff\xc0", 10)[1]
    half = len(fed) // 2
    inner, outer = fed[:half], fed[half:]
    other = OTHER[width]
    elsewhere = opened(other, key)[half:]
    far = opened(512 if width <= 256 else 256, key)
    far_width = int.from_bytes(far[:2], "little")

    # What a keyed hash may hold: 5.
    yield "as it is", fed, 0
    yield "as it was opened", fresh, 0
    yield "opened, halves exchanged", fresh[half:] + fresh[:half], 0
    yield "fed, halves exchanged", outer + inner, 5
    yield "the inner one twice", inner + inner, 5
    yield "the outer one twice", outer + outer, 0
    yield "the outer one of another width", inner + elsewhere, 5
    yield "the inner one of another width", elsewhere + outer, 5
    yield "the outer one's width changed", inner + with_width(outer, other), 5
    yield "the inner one's width changed", with_width(inner, other) + outer, 5
    yield "both widths changed", with_width(inner, other) + with_width(outer, other), 0
    for count, refusal in ((0, 5), (1, 5), (size // 2, 5), (size - 8, 5), (size - 1, 5), (size, 0), (size + 1, 0),
                           (2 * size, 0), (2 ** 32 - 1, 0), (2 ** 32, 0), (2 ** 32 + size, 0), (LIMIT - 1, 0), (LIMIT, 0)):
        yield "an inner one of %d bits" % count, with_length(inner, count) + outer, refusal
    for count, refusal in ((0, 5), (1, 5), (size - 1, 5), (size, 0), (size + 1, 5), (size + 8, 5), (2 * size, 5),
                           (2 ** 32, 5), (2 ** 32 + size, 5), (LIMIT, 5)):
        yield "an outer one of %d bits" % count, inner + with_length(outer, count), refusal
    yield "a state that no key reaches", with_bit(with_bit(fed, form_ref.HEAD), half + form_ref.HEAD), 0

    # Each half as a stored form: 8, 1, 8, 9, the inner one first.
    yield "a bit past the inner tail", with_bit(inner) + outer, 9
    yield "a bit past the outer tail", inner + with_bit(outer), 9
    yield "the first bit past the inner tail", inner[:half - size // 8] + b"\xff\xe0" + bytes(size // 8 - 2) + outer, 9
    for bad in (0, 1, 160, width - 1, width + 1, 65535):
        yield "an inner width of %d" % bad, with_width(inner, bad) + outer, 1
        yield "an outer width of %d" % bad, inner + with_width(outer, bad), 1
    yield "the inner width is the other family's", with_width(inner, far_width) + outer, 8
    yield "the outer width is the other family's", inner + with_width(outer, far_width), 8
    for count in range(5):
        yield "%d bytes" % count, fed[:count], 8
    yield "4 bytes of no width", bytes(4), 1
    yield "the inner one alone", inner, 8
    yield "a byte short", fed[:-1], 8
    yield "two bytes short", fed[:-2], 8
    yield "a byte longer", fed + b"\0", 8
    yield "two bytes longer", fed + bytes(2), 8
    yield "a byte in front", b"\0" + fed, 1
    yield "a byte short in the inner one", inner[:-1] + outer, 8
    yield "a byte more between them", inner + b"\0" + outer, 1
    yield "three halves", inner + outer + outer, 8
    yield "twice", fed + fed, 8
    yield "the other family's", far, 0
    yield "the inner one of the other family", far[:len(far) // 2] + outer, 8

    # The first of several.
    yield "9 before an outer 1", with_bit(inner) + with_width(outer, 0), 9
    yield "1 before an outer 9", with_width(inner, 0) + with_bit(outer), 1
    yield "1 before an outer 8", with_width(inner, 0) + outer[:-1], 1
    yield "an outer 9 before 5", inner + with_bit(with_width(outer, other)), 9
    yield "an inner 9 before 5", with_bit(with_width(inner, other)) + outer, 9
    yield "an outer 1 before 5", with_length(inner, 0) + with_width(outer, 0), 1


def check_forms(tally):
    """Damaged keyed forms, to each call that takes one.  Where the form is refused, no other argument
    matters; where it is not, the answer is the reference's."""
    count = 0
    for width in ref.WIDTHS:
        for what, form, refusal in damaged(width):
            what = "SIMD-%d, %s" % (width, what)
            count += 1
            calls = [("feed", (form, piece, bits, NUMBER)) for piece, bits in ((b"", 0), (b"\xff", 9), (b"\xff", 7))]
            calls += [("take", (form, some_bytes(size), NUMBER)) for size in (64, 0)]
            calls += [("check", (form, some_bytes(size), NUMBER)) for size in (32, 0)]
            for name, arguments in calls:
                found = getattr(product, "hmac_" + name)(*arguments)
                tally.equal(found, getattr(door_ref, "hmac_" + name)(*arguments), "%s: %s" % (what, name))
                if refusal:
                    kept = {"feed": (form, NUMBER), "take": (arguments[1], NUMBER), "check": (NUMBER,)}[name]
                    tally.equal(found, (refusal, *kept), "%s: %s, all as it was" % (what, name))
            tally.equal(product.hmac_take(form, bytes(64), NUMBER)[0], refusal, what)
            if not refusal:
                tag = door_ref.tag_of(form)[0]
                tally.equal(product.hmac_check(form, tag, NUMBER), (0, 1), what + ": its tag")
    return count


def check_limit(tally):
    """Both sides of 18,446,744,073,709,551,615 bits with the key block, from forms of a length near it."""
    for width in ref.WIDTHS:
        fresh = opened(width, some_bytes(33))
        half, size = len(fresh) // 2, 8 * ref.block_bytes(width)
        for count in (1, 7, 8, 9, size - 1, size, size + 1, 2 * size + 3):
            piece = message_of(count)
            for left, refusal in ((count, 0), (count - 1, 4)):
                what = "SIMD-%d, %d bits where %d are left" % (width, count, left)
                form = with_length(fresh[:half], LIMIT - left) + fresh[half:]
                found = product.hmac_feed(form, piece, count, NUMBER)
                tally.equal(found, door_ref.hmac_feed(form, piece, count, NUMBER), what)
                tally.equal(found[0], refusal, what + ": refusal")
                if refusal:
                    tally.equal(found, (refusal, form, NUMBER), what + ": all as it was")
                    # 2 comes first; a bit past the count is ignored.
                    tally.equal(product.hmac_feed(form, piece, 8 * len(piece) + 1, NUMBER), (2, form, NUMBER),
                                what + ": 2")
                    if count % 8:
                        tally.equal(product.hmac_feed(form, with_bit(piece), count, NUMBER), (4, form, NUMBER),
                                    what + ": a bit past the count")
                    continue
                if count % 8:
                    tally.equal(product.hmac_feed(form, with_bit(piece), count, NUMBER), found,
                                what + ": a bit past the count")
                full = found[1]
                tally.equal(form_ref.bits_of(full), LIMIT, what + ": its length")
                taken = product.hmac_take(full, bytes(width // 8), NUMBER)
                tally.equal(taken, door_ref.hmac_take(full, bytes(width // 8), NUMBER), what + ": its tag")
                tally.equal(product.hmac_check(full, taken[1], NUMBER), (0, 1), what + ": checked")
                tally.equal(product.hmac_feed(full, b"", 0, NUMBER), (0, full, 0), what + ": 0 bits more")
                tally.equal(product.hmac_feed(full, b"\x80", 1, NUMBER), (4, full, NUMBER), what + ": a bit more")


def check_random(tally, rng, count):
    for k in range(count):
        bits = length(rng)
        data, sizes = message(rng, bits), cut(rng, bits)
        key = rng.randbytes(rng.choice((rng.randrange(64), rng.randrange(300), 64, 128)))
        for width in ref.WIDTHS:
            what = "message %d of %d bits, a key of %d bytes, at %d" % (k, bits, len(key), width)
            tag = expected_tag(width, key, data, bits)
            tally.equal(in_pieces(width, key, data, sizes), (0, tag, blocks_of(width, bits)), what + ", in pieces")
            tally.equal(product.hmac(width, key, data, bits, bytes(width // 8)), (0, tag), what)


def main():
    rng, count = random_arguments(7, 100)
    tally = Tally("hmac")
    tally.equal(hmac_ref.self_check(), [], "the reference")
    check_keys(tally)
    check_cuts(tally)
    check_tags(tally)
    forms = check_forms(tally)
    check_limit(tally)
    check_random(tally, rng, count)
    return tally.finish("7 kinds of key, %d forms, %d random messages" % (forms, count))


if __name__ == "__main__":
    sys.exit(main())
