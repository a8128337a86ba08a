#!/usr/bin/env python3
"""Stored forms, keyed forms and indexes of the time when a bit length had 4 bytes.

    test_old_forms.py [--seed S] [--count N]

Old forms of every kind, at all widths: tails of every kind, states that messages
reach and others, lengths from 0 to 4,294,967,295.  What is taken from each is the
reference's; restored, it is the same bytes with four zeros behind its length, and goes
on as the reference does, also across 4,294,967,295 bits.  Fed in place it is refused
with 6, after every other refusal, and nothing is written.  So keyed forms, whose
halves are restored one by one, and mixed ones, which are refused.  Old indexes are
refused, and made again they correct.  What the library of that time wrote is recorded
in tests/edges/old_forms.txt, and is read as the rest is.  Every set of broken rules is tried for the order
of refusals; then N random messages, each stored in an old form at a random place.
"""

import itertools
import os
import pathlib
import sys

from tally import Tally, bits_of, message, random_arguments
from test_limit import PROT_NONE, map_memory
from test_random import length
from test_rubbish import joined, some_form, with_bit
import door_ref
import form_ref
import hmac_ref
import index_ref
import product
import simd_ref as ref

OLD_LIMIT = form_ref.OLD_BITS_MAX
LIMIT = form_ref.BITS_MAX
NUMBER = 0x0123456789ABCDEF
OTHER = {224: 256, 256: 224, 384: 512, 512: 384}     # the other width of the family
FAR = {224: 512, 256: 384, 384: 256, 512: 224}       # one of the other family
UNKNOWN = (0, 1, 128, 160, 223, 225, 255, 257, 383, 385, 511, 513, 65535)
SPARES = (0, 1, 4, 200)     # by how much a room is longer than what is written
OLD_LARGE = 262
RECORDED = os.path.join(os.path.dirname(os.path.abspath(__file__)), "edges", "old_forms.txt")
RECORDED_KEY = b"the key of a group"


def tails(width):
    """Tails of no bit, of whole bytes and of others, and of all bits but one."""
    return 0, 1, 7, 8, 9, ref.block_bits(width) - 1


def renewed(old):
    """By hand: four zeros behind the four bytes of the length."""
    return old[:6] + b"\0\0\0\0" + old[6:]


def renewed_keyed(old):
    half = len(old) // 2
    return renewed(old[:half]) + renewed(old[half:])


def aged(form):
    """By hand, of a form whose length has no more than 4 bytes."""
    assert form[6:10] == b"\0\0\0\0"
    return form[:6] + form[10:]


def aged_keyed(form):
    half = len(form) // 2
    return aged(form[:half]) + aged(form[half:])


def opened(width):
    return product.open(width, bytes(form_ref.size(width)))[1]


def lengths(width):
    """Lengths with every kind of tail: the least, some between and the greatest; and those next to the greatest."""
    size = ref.block_bits(width)
    for tail in tails(width):
        for blocks in (0, 1, 5, 2 ** 31 // size, OLD_LIMIT // size):
            yield blocks * size + tail
    yield from (OLD_LIMIT, OLD_LIMIT - 1, OLD_LIMIT - 2, 2 ** 24, 2 ** 31 - 1, 2 ** 31)


def honest_form(width, data, bits):
    return product.feed(opened(width), data, bits)[1]


def honest(rng, width, bits):
    """(a message, the form that it leaves)."""
    data = message(rng, bits)
    return data, honest_form(width, data, bits)


# Forms

class Forms:
    def __init__(self, tally, rng):
        self.tally, self.rng, self.count = tally, rng, 0

    def check(self, old, what):
        """All that is done with an old form which is not refused; the form that it is restored to."""
        tally, rng = self.tally, self.rng
        width, new = form_ref.width_of(old), renewed(old)
        self.count += 1
        tally.equal((len(old), len(new)), (form_ref.old_size(width), form_ref.size(width)), what + ": the sizes")
        tally.equal((form_ref.renewed(old), form_ref.refusal(old)), (new, 0), what + ": the reference")

        # Taken, it gives what the new one does; the rest of a longer output stays.
        room = rng.randbytes(width // 8 + SPARES[self.count % 4])
        taken, short = door_ref.take(new, room, NUMBER), room[:width // 8 - 1]
        for form in (old, new):
            tally.equal(product.take(form, room, NUMBER), taken, what + ": taken")
            tally.equal(product.take(form, short, NUMBER), (6, short, NUMBER), what + ": no room")

        # Restored, it is stored in today's size; stored again it is the same bytes.
        for spare in SPARES:
            room = rng.randbytes(len(new) + spare)
            tally.equal(product.restore(old, room), (0, new + room[len(new):]), what + ": restored")
            tally.equal(product.restore(new, room), (0, new + room[len(new):]), what + ": restored again")
        for size in (len(new) - 1, len(old), form_ref.HEAD, 0):
            room = rng.randbytes(size)
            for form in (old, new):
                tally.equal(product.restore(form, room), (6, room), what + ": restored to %d bytes" % size)
        tally.equal(product.feed(new, b"", 0, NUMBER), (0, new, 0), what + ": stored again")

        # In place it is not fed.
        for piece, bits in ((b"", 0), (b"\x80", 1), (b"\xff" * 200, 1599)):
            tally.equal(product.feed(old, piece, bits, NUMBER), (6, old, NUMBER), what + ": %d bits in place" % bits)
            tally.equal(product.feed(old, piece, 8 * len(piece) + 1, NUMBER), (2, old, NUMBER), what + ": too few bytes")
        return new

    def go_on(self, form, counts, what):
        """Fed on as the reference is."""
        for bits in counts:
            piece = message(self.rng, bits)
            found = product.feed(form, piece, bits, NUMBER)
            self.tally.equal(found, door_ref.feed(form, piece, bits, NUMBER), what + ": fed %d bits more" % bits)
            room = bytes(form_ref.width_of(form) // 8)
            self.tally.equal(product.take(found[1], room, NUMBER), door_ref.take(found[1], room, NUMBER),
                             what + ": taken after %d bits more" % bits)


def check_forms(tally, rng):
    """Any state, with every kind of length and tail; how many forms."""
    forms = Forms(tally, rng)
    for width in ref.WIDTHS:
        size = ref.block_bits(width)
        for bits in sorted(set(lengths(width))):
            what = "SIMD-%d, %d bits" % (width, bits)
            new = forms.check(aged(some_form(rng, width, bits)), what)
            left = OLD_LIMIT - bits
            # Also to the old limit, and across it.
            counts = {0, 1, 9, size + 3} | ({left, left + 1, left + 2, left + size} if left < 3 * size else set())
            forms.go_on(new, sorted(counts), what)
            if left < size:
                refusal, past, _ = product.feed(new, bytes(size), left + 1, NUMBER)
                tally.equal((refusal, form_ref.bits_of(past)), (0, OLD_LIMIT + 1), what + ": past the old limit")
    return forms.count


def check_honest(tally, rng):
    """Forms that messages leave, and the digests of these messages, cut there or longer."""
    forms = Forms(tally, rng)
    for width in ref.WIDTHS:
        size = ref.block_bits(width)
        for bits in sorted({blocks * size + tail for blocks in (0, 1, 2) for tail in tails(width)}):
            what = "SIMD-%d, a message of %d bits" % (width, bits)
            data, form = honest(rng, width, bits)
            old = aged(form)
            tally.equal(forms.check(old, what), form, what + ": the form it leaves")
            tally.equal(product.take(old, bytes(width // 8), NUMBER)[:2], (0, ref.digest(width, data, bits)), what + ": digest")
            for count in (1, 8, 13, size):
                piece = message(rng, count)
                longer = product.feed(product.restore(old, bytes(len(form)))[1], piece, count)[1]
                digest = ref.digest(width, joined(data, bits, piece, count), bits + count)
                tally.equal(product.take(longer, bytes(width // 8))[:2], (0, digest), what + " and %d" % count)
    return forms.count


def check_recorded(tally):
    """Forms, keyed forms and indexes that the library wrote while a length had 4 bytes, with the digests and tags that
    it gave (tests/edges/old_forms.txt)."""
    lines = [line.split() for line in pathlib.Path(RECORDED).read_text(encoding="utf-8").splitlines()]
    lines = [line for line in lines if line and line[0] != "#"]
    for kind, width, bits, stored, result in lines:
        width, bits, stored, result = int(width), int(bits), bytes.fromhex(stored), bytes.fromhex(result)
        data = bytes((7 * k + 3) % 256 for k in range(-(-bits // 8)))
        what, room = "%s of %d bits at %d, by the library then" % (kind, bits, width), bytes(width // 8)
        piece, more = b"\x5a\xc3", 13
        longer = joined(data, bits, piece, more), bits + more
        if kind == "form":
            tally.equal(product.take(stored, room)[:2], (0, result), what + ": taken")
            tally.equal(ref.digest(width, data, bits), result, what + ": the reference")
            refusal, new = product.restore(stored, bytes(form_ref.size(width)))
            tally.equal((refusal, new), (0, honest_form(width, data, bits)), what + ": restored")
            fed = product.feed(new, piece, more)[1]
            tally.equal(product.take(fed, room)[:2], (0, ref.digest(width, *longer)), what + ": fed on")
        elif kind == "keyed":
            tally.equal(product.hmac_take(stored, room)[:2], (0, result), what + ": taken")
            tally.equal(hmac_ref.tag(width, RECORDED_KEY, data, bits), result, what + ": the reference")
            tally.equal(product.hmac_check(stored, result, NUMBER), (0, 1), what + ": checked")
            new = b"".join(product.restore(one, bytes(form_ref.size(width)))[1] for one in door_ref.halves(stored))
            fed = product.hmac_feed(new, piece, more)[1]
            tag = hmac_ref.tag(width, RECORDED_KEY, *longer)
            tally.equal(product.hmac_take(fed, room)[:2], (0, tag), what + ": fed on")
        else:
            size = index_ref.size(width, bits)
            tally.equal(ref.digest(width, data, bits), result, what + ": the reference")
            for number in (0, bits // ref.block_bits(width)):
                found = product.reindex(width, data, bits, stored, number, bytes(size), room, NUMBER)
                tally.equal(found, (15, bytes(size), room, NUMBER), what + ": refused")
            refusal, index, digest, _ = product.index(width, data, bits, bytes(size), room)
            tally.equal((refusal, digest, index[form_ref.HEAD:]), (0, result, stored[form_ref.OLD_HEAD:]), what + ": made again")
    kinds = set(itertools.product(("form", "keyed", "index"), ref.WIDTHS))
    tally.equal({(kind, int(width)) for kind, width, *_ in lines}, kinds, "the kinds recorded")
    return len(lines)


def check_old_programs(tally):
    """What a program meets that was compiled with the old sizes, and lends the larger one of them at every width."""
    for width in ref.WIDTHS:
        refusal, form = product.open(width, bytes(OLD_LARGE))
        tally.equal(refusal, 6 if width > 256 else 0, "%d bytes lent at %d" % (OLD_LARGE, width))
        if not refusal:
            given = form[:form_ref.old_size(width)]
            tally.equal(product.feed(given, b"abc", 24, NUMBER), (9, given, NUMBER), "then fed by the old size at %d" % width)


def check_sizes(tally, rng):
    """Zeros of every size, by every width: of two sizes each is accepted, and the old one is restored."""
    for width in (*ref.WIDTHS, 0, 257, 65535):
        for size in range(300):
            stored, what = width.to_bytes(2, "little").ljust(size, b"\0")[:size], "%d zeros at %d" % (size, width)
            room = rng.randbytes(300)
            expected = 8 if size < 2 else 1 if width not in ref.WIDTHS else 0
            if not expected and size not in ((134, 138) if width <= 256 else (262, 266)):
                expected = 8
            old = size in (134, 262)
            new = renewed(stored) if old else stored
            after = room if expected else new + room[len(new):]
            tally.equal(product.restore(stored, room), (expected, after), what + ": restored")
            tally.equal(product.take(stored, room, NUMBER)[0], expected, what + ": taken")
            tally.equal(product.feed(stored, b"", 0, NUMBER)[0], expected or (6 if old else 0), what + ": fed")


# The order of refusals

def check_order(tally, rng):
    """Every set of broken rules, in every way that they are broken here, of feed, restore and take: the first in
    the order 8, 1, 8, 9, then 2 and 4, or none, and then 6 is answered.

    With a form of at most 2^32 - 1 bits a total above the limit has a piece of more bytes than there are: its length
    is named over a page that cannot be read."""
    closed, count = map_memory(4096, use=PROT_NONE), 0
    for width in ref.WIDTHS:
        block, sizes = ref.block_bits(width), (form_ref.old_size(width), form_ref.size(width))
        others = (form_ref.old_size(FAR[width]), form_ref.size(FAR[width]), sizes[0] - 1, *range(sizes[0] + 1, sizes[1]),
                  sizes[1] + 1)
        for old in (True, False):
            for broken in itertools.product((False, True), repeat=6):
                fails = dict(zip(("short", 1, 8, 9, 2, 4), broken))
                expected = next((8 if rule == "short" else rule for rule, is_broken in fails.items() if is_broken), 0)
                # An old form next to the most bits that one has, or a form next to the limit.
                bits = OLD_LIMIT - 3 if old else LIMIT - 5
                form = some_form(rng, width, bits) if not old else aged(some_form(rng, width, bits))
                if fails[9]:
                    form = with_bit(form, len(form) - block // 8, rng.randrange(bits % block, block))
                if fails[1]:
                    form = rng.choice(UNKNOWN).to_bytes(2, "little") + form[2:]
                # By whether 2 and 4 are broken: the count, and the bytes that are named for it.
                pieces = {(False, False): ((4, 1), (5, 1)), (True, False): ((5, 0), (1, 0)),
                          (False, True): ((LIMIT, 2 ** 61), (LIMIT - bits + 1, 2 ** 61), (LIMIT, 2 ** 64 - 1)),
                          (True, True): ((LIMIT, 2 ** 61 - 1), (LIMIT, 0))}[fails[2], fails[4]]
                for size in others if fails[8] else (len(form),):
                    given = (form + rng.randbytes(300))[:size % 2 if fails["short"] else size]
                    what = "SIMD-%d, %d bytes, %s broken" % (width, len(given), [rule for rule in fails if fails[rule]])
                    for asked, named in pieces if expected or old else ():
                        # An old form may be fed and not stored, so that the piece is read.
                        piece = (product.const(b"\x5a"),) if named == 1 else (closed, named)
                        found = product.call(product.library.simd_feed, product.Lent(given), *piece, asked,
                                             product.LentNumber(NUMBER))
                        tally.equal(found, (expected or 6, given, NUMBER), what + ": feed of %d bits" % asked)
                        count += 1
                    if fails[2] or fails[4]:
                        continue
                    for room in (form_ref.size(width), form_ref.size(width) - 1, form_ref.old_size(width), 0, 300):
                        lent = rng.randbytes(room)
                        if expected or room < form_ref.size(width):
                            after = expected or 6, lent
                        else:
                            new = renewed(given) if old else given
                            after = 0, new + lent[len(new):]
                        tally.equal(product.restore(given, lent), after, what + ": restored to %d" % room)
                        count += 1
                    for room in (width // 8, width // 8 - 1, 0):
                        lent = rng.randbytes(room)
                        found = product.take(given, lent, NUMBER)
                        if expected or room < width // 8:
                            tally.equal(found, (expected or 6, lent, NUMBER), what + ": taken to %d" % room)
                        else:
                            tally.equal(found, door_ref.take(given, lent, NUMBER), what + ": taken to %d" % room)
                        count += 1
    return count


# Keyed forms

def check_keyed(tally, rng):
    """Taken and checked as they are; not fed; fed on once both halves are restored."""
    count = 0
    for width in ref.WIDTHS:
        size, room = ref.block_bits(width), bytes(width // 8)
        half = form_ref.size(width)
        for bits in sorted({blocks * size + tail for blocks in (0, 1) for tail in tails(width)}):
            key, data = rng.randbytes(rng.choice((0, 20, 64, 128, 150))), message(rng, bits)
            what = "SIMD-%d, keyed, %d bits" % (width, bits)
            fresh = product.hmac_open(width, key, bytes(form_ref.keyed_size(width)))[1]
            form = product.hmac_feed(fresh, data, bits)[1]
            old, tag = aged_keyed(form), hmac_ref.tag(width, key, data, bits)
            count += 1
            tally.equal((len(old), renewed_keyed(old)), (form_ref.old_keyed_size(width), form), what + ": the sizes")
            taken = product.hmac_take(old, room, NUMBER)
            tally.equal(taken, door_ref.hmac_take(form, room, NUMBER), what + ": taken")
            tally.equal(taken[1], tag, what + ": the tag")
            tally.equal(product.hmac_take(old, room[1:], NUMBER), (6, room[1:], NUMBER), what + ": no room")
            for given, right in ((tag, 1), (tag[:-1], 0), (tag + b"\0", 0), (bytes([tag[0] ^ 1]) + tag[1:], 0), (b"", 0)):
                tally.equal(product.hmac_check(old, given, NUMBER), (0, right), what + ": checked")
            for piece, more in ((b"", 0), (b"\x80", 1), (b"\xff" * 200, 1599)):
                tally.equal(product.hmac_feed(old, piece, more, NUMBER), (6, old, NUMBER), what + ": %d bits in place" % more)
            tally.equal(product.hmac_feed(old, b"\xff", 9, NUMBER), (2, old, NUMBER), what + ": too few bytes")

            # Each half to its half of one buffer.
            made = rng.randbytes(2 * half)
            for k, one in enumerate(door_ref.halves(old)):
                refusal, after = product.restore(one, made[k * half:])
                tally.equal(refusal, 0, what + ": half %d" % k)
                made = made[:k * half] + after
            tally.equal(made, form, what + ": both halves")
            for more in (1, 9, size):
                piece = message(rng, more)
                found = product.hmac_feed(made, piece, more, NUMBER)
                tally.equal(found, door_ref.hmac_feed(form, piece, more, NUMBER), what + ": fed %d bits more" % more)
                tag = hmac_ref.tag(width, key, joined(data, bits, piece, more), bits + more)
                tally.equal(product.hmac_take(found[1], room)[:2], (0, tag), what + ": the tag of %d bits more" % more)

        # Any states, up to the old limit and across it.
        for bits in (size, size + 9, OLD_LIMIT - 1, OLD_LIMIT):
            inner, outer = some_form(rng, width, bits), some_form(rng, width, size)
            old, what = aged(inner) + aged(outer), "SIMD-%d, an inner length of %d bits" % (width, bits)
            count += 1
            tally.equal(product.hmac_take(old, room, NUMBER), door_ref.hmac_take(inner + outer, room, NUMBER), what + ": taken")
            tally.equal(product.hmac_check(old, door_ref.tag_of(inner + outer)[0], NUMBER), (0, 1), what + ": checked")
            made = b"".join(product.restore(one, bytes(half))[1] for one in door_ref.halves(old))
            for more in (1, 2, size):
                piece = message(rng, more)
                tally.equal(product.hmac_feed(old, piece, more, NUMBER), (6, old, NUMBER), what + ": %d bits in place" % more)
                found = product.hmac_feed(made, piece, more, NUMBER)
                tally.equal(found, door_ref.hmac_feed(inner + outer, piece, more, NUMBER), what + ": fed %d bits more" % more)
                tally.equal(found[0], 0, what + ": accepted")
    return count


def keyed_kinds(rng, width):
    """(what, keyed form, refusal of a take, of a feed)."""
    size = ref.block_bits(width)
    inner, outer = some_form(rng, width, size + 5), some_form(rng, width, size)
    old_inner, old_outer = aged(inner), aged(outer)
    other, far = aged(some_form(rng, OTHER[width], size)), aged(some_form(rng, FAR[width], ref.block_bits(FAR[width])))
    spoiled = with_bit(old_inner, form_ref.OLD_HEAD + size // 8, size - 1)
    yield "both old", old_inner + old_outer, 0, 6
    yield "both new", inner + outer, 0, 0
    # Of unequal sizes: cut in the middle, neither half has a size of its width.
    yield "an old inner one", old_inner + outer, 8, 8
    yield "an old outer one", inner + old_outer, 8, 8
    # Half the length of these is the size of one of them.
    yield "an old inner one, a byte behind", old_inner + old_outer + b"\0", 8, 8
    yield "a new one, a byte behind", inner + outer + b"\0", 8, 8
    yield "a byte short", (old_inner + old_outer)[:-1], 8, 8
    yield "two bytes short", (old_inner + old_outer)[:-2], 8, 8
    yield "eight zeros behind", old_inner + old_outer + bytes(8), None, None
    yield "eight bytes short", (inner + outer)[:-8], None, None
    yield "four zeros between", old_inner + bytes(4) + old_outer, None, None
    yield "the old inner one alone", old_inner, 8, 8
    yield "three old ones", old_inner + old_outer + old_outer, 8, 8
    # What a keyed hash may hold.
    yield "exchanged", old_outer + old_inner, 5, 5
    yield "the outer one twice", old_outer + old_outer, 0, 6
    yield "the inner one twice", old_inner + old_inner, 5, 5
    yield "an outer one of another width", old_inner + other, 5, 5
    yield "an inner one of another width", other + old_outer, 5, 5
    for bits in (0, 1, size - 1):
        yield "an inner one of %d bits" % bits, aged(some_form(rng, width, bits)) + old_outer, 5, 5
    for bits in (0, size - 1, size + 1, 2 * size, OLD_LIMIT):
        yield "an outer one of %d bits" % bits, old_inner + aged(some_form(rng, width, bits)), 5, 5
    # Each half as a form, the inner one first.
    yield "an inner one of the other family", far + old_outer, 8, 8
    yield "an outer width of the other family", old_inner + FAR[width].to_bytes(2, "little") + old_outer[2:], 8, 8
    yield "no width in the inner one", b"\0\0" + old_inner[2:] + old_outer, 1, 1
    yield "no width in the outer one", old_inner + b"\0\0" + old_outer[2:], 1, 1
    yield "a bit past the inner tail", spoiled + old_outer, 9, 9
    yield "a bit past the outer tail", old_inner + with_bit(old_outer, form_ref.OLD_HEAD + size // 8, 0), 9, 9
    yield "9 before an outer 1", spoiled + b"\0\0" + old_outer[2:], 9, 9
    yield "9 before 5", spoiled + other, 9, 9
    yield "an outer 1 before 5", old_outer + b"\0\0" + old_inner[2:], 1, 1


def check_keyed_kinds(tally, rng):
    """Mixed and damaged ones: as typed, and as the reference says; 5 before 2, 2 and 4 before 6.  Nothing is written."""
    closed, count = map_memory(4096, use=PROT_NONE), 0
    for width in ref.WIDTHS:
        for what, form, taken, fed in keyed_kinds(rng, width):
            what, tag = "SIMD-%d, %s" % (width, what), rng.randbytes(width // 8)
            count += 1
            found = product.hmac_take(form, tag, NUMBER)
            tally.equal(found, door_ref.hmac_take(form, tag, NUMBER), what + ": taken")
            check = product.hmac_check(form, found[1], NUMBER)
            tally.equal(check, door_ref.hmac_check(form, found[1], NUMBER), what + ": checked")
            pieces = ((b"", 0), (b"\xa5" * 20, 155))
            answers = [product.hmac_feed(form, *piece, NUMBER) for piece in pieces]
            tally.equal(answers, [door_ref.hmac_feed(form, *piece, NUMBER) for piece in pieces], what + ": fed")
            if taken is None:
                continue
            tally.equal((found[0], check[0], *(answer[0] for answer in answers)), (taken, taken, fed, fed), what + ": as typed")
            if taken:
                tally.equal((found[1:], check[1:]), ((tag, NUMBER), (NUMBER,)), what + ": nothing written")
            if fed:
                tally.equal([answer[1:] for answer in answers], [(form, NUMBER)] * 2, what + ": all as it was")
            # Whatever the halves are, their refusal comes first; then 2, then 4, then 6.
            for bits, named, refusal in ((LIMIT, 2 ** 61 - 1, 2), (1, 0, 2), (LIMIT, 2 ** 61, 4)):
                answer = product.call(product.library.simd_hmac_feed, product.Lent(form), closed, named, bits,
                                      product.LentNumber(NUMBER))
                tally.equal(answer, (taken or refusal, form, NUMBER), what + ": %d bits in %d bytes" % (bits, named))
    return count


# Indexes

def check_indexes(tally, rng):
    """Refused with 15 from every block, whatever the room; made again, they correct."""
    count = 0
    for width in ref.WIDTHS:
        size = ref.block_bits(width)
        for bits in (0, 1, size - 1, size, size + 1, 16 * size, 16 * size + 9, 17 * size, 33 * size + 1):
            what, data = "SIMD-%d, an index of %d bits" % (width, bits), message(rng, bits)
            last = -(-bits // size)
            index, right, total = index_ref.fresh(width, data, bits)
            rooms = rng.randbytes(len(index)), rng.randbytes(width // 8)
            # Of a state that begins with four zeros, the first ten bytes are those of an index of today.
            zeros = index_ref.as_old(index[:10] + bytes(4) + index[14:])
            others = [index_ref.as_old(index), index_ref.as_old(index) + bytes(4), index_ref.as_old(index)[:-4]]
            others += [zeros, zeros + bytes(4)] if len(index) > 10 else []
            if bits:
                others.append(index[:6] + index[10:] + index[6:10])
            for old in others:
                if old == index:
                    continue
                count += 1
                for block in sorted({0, 1, last // 2, last, last + 1, LIMIT}):
                    found = product.reindex(width, data, bits, old, block, *rooms, NUMBER)
                    if len(old) != len(index):
                        tally.equal(found, (15, *rooms, NUMBER), what + ": %d bytes, from block %d" % (len(old), block))
                    tally.equal(found, door_ref.reindex(width, data, bits, old, block, *rooms, NUMBER),
                                what + ": %d bytes, from block %d: the reference" % (len(old), block))
                for refused, given in ((1, (width + 1, data, bits)), (2, (width, data, 8 * len(data) + 1)),
                                       (15, (width, data, bits))):
                    if refused == 15 and len(old) == len(index):
                        continue
                    tally.equal(product.reindex(*given, old, 0, b"", b"", NUMBER), (refused, b"", b"", NUMBER),
                                what + ": no room, %d" % refused)

            made = product.index(width, data, bits, *rooms, NUMBER)
            tally.equal(made, (0, index, right, total), what + ": made again")
            block = rng.randrange(last + 1)
            new = bytearray(data)
            if block < last:
                new[block * size // 8] ^= 0x80
            found = product.reindex(width, bytes(new), bits, made[1], block, *rooms, NUMBER)
            tally.equal(found, (0, *index_ref.corrected(width, bytes(new), bits, index, block)), what + ": corrected")
            tally.equal(found[1:3], index_ref.fresh(width, bytes(new), bits)[:2], what + ": as a fresh run")
    return count


# Random

def check_random(tally, rng, count):
    """Messages whose hash lies in an old form somewhere, and goes on in the one that it is restored to; under a key
    too."""
    for k in range(count):
        width, bits = rng.choice(ref.WIDTHS), length(rng)
        place, data, key = rng.randint(0, bits), message(rng, bits), rng.randbytes(rng.choice((0, 20, 64, 128, 150)))
        what = "message %d of %d bits at %d, stored after %d" % (k, bits, width, place)
        front, back, room = bits_of(data, 0, place), bits_of(data, place, bits - place), bytes(width // 8)
        old = aged(product.feed(opened(width), front, place)[1])
        tally.equal(product.take(old, room)[:2], (0, ref.digest(width, front, place)), what + ": taken")
        refusal, form = product.restore(old, rng.randbytes(form_ref.size(width)))
        tally.equal((refusal, form), (0, renewed(old)), what + ": restored")
        tally.equal(product.take(product.feed(form, back, bits - place)[1], room)[:2], (0, ref.digest(width, data, bits)), what)

        fresh = product.hmac_open(width, key, bytes(form_ref.keyed_size(width)))[1]
        old = aged_keyed(product.hmac_feed(fresh, front, place)[1])
        tag = hmac_ref.tag(width, key, front, place)
        tally.equal(product.hmac_check(old, tag, NUMBER), (0, 1), what + ": checked")
        form = b"".join(product.restore(one, bytes(form_ref.size(width)))[1] for one in door_ref.halves(old))
        form = product.hmac_feed(form, back, bits - place)[1]
        tally.equal(product.hmac_take(form, room)[:2], (0, hmac_ref.tag(width, key, data, bits)), what + ": keyed")


def main():
    rng, count = random_arguments(14, 200)
    tally = Tally("old forms")
    tally.equal(form_ref.self_check(), [], "the reference")
    counts = []
    for check in (check_forms, check_honest, check_sizes, check_order, check_keyed, check_keyed_kinds, check_indexes):
        before = tally.compared
        counts.append(check(tally, rng))
        print("old forms, %s: %d" % (check.__name__[6:].replace("_", " "), tally.compared - before))
    recorded = check_recorded(tally)
    check_old_programs(tally)
    check_random(tally, rng, count)
    return tally.finish("%d forms, %d for the order, %d keyed ones, %d indexes, %d recorded ones, %d random messages"
                        % (counts[0] + counts[1], counts[3], counts[4] + counts[5], counts[6], recorded, count))


if __name__ == "__main__":
    sys.exit(main())
