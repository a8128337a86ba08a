#!/usr/bin/env python3
"""Random calls of every function of the C door against the reference.

    test_fuzz.py [--seed S] [--count N]

N calls with random sizes, widths, counts and damaged forms, old ones among them,
each held to the reference's answer and to every byte lent; guard bytes stand round
every buffer.  Where a count leaves bits or bytes over, the reference is not given
them.  Forms that calls return are used again.
"""

import collections
import sys

from tally import Tally, message, random_arguments
import door_ref
import form_ref
import index_ref
import product
import quote_ref
import simd_ref as ref
import tapes
from test_edges import with_zeros

LIMIT = form_ref.BITS_MAX
SPARE_WIDTHS = (0, 1, 2, 128, 223, 225, 255, 257, 383, 385, 511, 513, 65535)


def near(rng, size):
    """A size, often the given one or next to it."""
    kind = rng.randrange(8)
    if kind < 4:
        return size
    if kind < 6:
        return max(0, size + rng.choice((-1, 1)))
    return rng.choice((0, rng.randrange(2 * size + 1)))


def a_width(rng):
    return rng.choice(ref.WIDTHS) if rng.randrange(8) else rng.choice(SPARE_WIDTHS)


def known(width):
    """A width that has sizes."""
    return width if width in ref.WIDTHS else 256


def block_size(width):
    return ref.block_bytes(known(width))


def a_message(rng, longest):
    """(bytes, bits): some with bits or bytes past the count, or too few bytes."""
    bits = rng.randrange(8 * longest)
    data = message(rng, bits)
    kind = rng.randrange(6)
    if kind == 0:
        return rng.randbytes(len(data)), bits
    if kind == 1:
        return rng.choice((data, rng.randbytes(len(data)))) + rng.randbytes(rng.randrange(20)), bits
    if kind == 2:
        return data, rng.choice((bits + 1, bits + 8, 8 * len(data) + 1, 2 ** 64 - 1))
    return data, bits


class Calls:
    """Arguments for each call, in the order of tests/product.py."""

    def __init__(self, rng):
        self.rng = rng
        self.forms, self.keyed_forms, self.indexes = [], [], []    # some that calls returned

    def lent(self, size):
        return self.rng.randbytes(near(self.rng, size))

    def number(self):
        return self.rng.randrange(2 ** 64)

    def made(self, width, length):
        """A form of that length, with any state and tail."""
        size = ref.block_bytes(width)
        tail = message(self.rng, length % (8 * size)).ljust(size, b"\0")
        return form_ref.made(width, length, self.rng.randbytes(size), tail)

    def a_length(self, least):
        """A bit length, often next to the least one, to the limit or to that of old forms."""
        rng = self.rng
        return rng.choice((least + rng.randrange(256), rng.randrange(least, LIMIT + 1),
                           LIMIT - rng.randrange(3000), LIMIT,
                           form_ref.OLD_BITS_MAX - rng.randrange(3000), form_ref.OLD_BITS_MAX + rng.randint(-1, 2),
                           rng.randrange(least, form_ref.OLD_BITS_MAX)))

    def aged(self, form, often=4):
        """A form, at times the old one where its length fits that."""
        short = form_ref.bits_of(form) <= form_ref.OLD_BITS_MAX
        return form_ref.as_old(form) if short and not self.rng.randrange(often) else form

    def form(self, often=4):
        rng = self.rng
        if self.forms and rng.randrange(2):
            return self.damaged(self.aged(rng.choice(self.forms), often))
        return self.damaged(self.aged(self.made(rng.choice(ref.WIDTHS), self.a_length(0)), often))

    def keyed_form(self):
        """Two forms: most often such as a keyed hash holds, else exchanged, one of them twice, of
        unequal widths, or of lengths next to those it holds.  Some are old, some half old."""
        rng = self.rng
        if self.keyed_forms and rng.randrange(2):
            return self.damaged(self.aged_halves(*door_ref.halves(rng.choice(self.keyed_forms))))
        width = rng.choice(ref.WIDTHS)
        key_bits = ref.block_bits(width)
        inner, outer = self.made(width, self.a_length(key_bits)), self.made(width, key_bits)
        kind = rng.randrange(12)
        if kind == 0:
            inner, outer = rng.choice(((outer, inner), (inner, inner), (outer, outer)))
        elif kind == 1:
            outer = self.made(rng.choice(ref.WIDTHS), key_bits)
        elif kind == 2:
            inner = self.made(width, rng.choice((0, key_bits - 1, key_bits, key_bits + 1)))
        elif kind == 3:
            outer = self.made(width, rng.choice((0, key_bits - 1, key_bits + 1, 2 * key_bits)))
        elif kind == 4:
            inner, outer = rng.choice(((self.damaged(inner), outer), (inner, self.damaged(outer))))
            return inner + outer
        form = self.aged_halves(inner, outer)
        return self.damaged(form) if kind > 8 else form

    def aged_halves(self, inner, outer):
        """A keyed form of two of today's size: at times both old, seldom one of them."""
        rng = self.rng
        if max(map(form_ref.bits_of, (inner, outer))) > form_ref.OLD_BITS_MAX or rng.randrange(3):
            return inner + outer
        if rng.randrange(6):
            return form_ref.as_old(inner) + form_ref.as_old(outer)
        return rng.choice((form_ref.as_old(inner) + outer, inner + form_ref.as_old(outer)))

    def damaged(self, form):
        """A form, most often as it is."""
        rng, form = self.rng, bytearray(form)
        kind = rng.randrange(10)
        if kind == 0:                    # a bit changed, or in the last bytes
            place = rng.choice((rng.randrange(len(form)), len(form) - 1 - rng.randrange(8)))
            form[place] ^= 1 << rng.randrange(8)
        elif kind == 1:
            form[:2] = a_width(rng).to_bytes(2, "little")
        elif kind == 2:                  # by 4: from today's size to the old one, or the other way
            form = form[:rng.choice((rng.randrange(len(form)), max(0, len(form) - 4)))]
        elif kind == 3:
            form += rng.choice((rng.randbytes(rng.choice((1, 4, 128))), bytes(4)))
        return bytes(form)

    def keep(self, name, form):
        """A form is kept without what stayed behind it in a longer buffer."""
        if name in ("feed", "restore"):
            self.forms = self.forms[-20:] + [form[:form_ref.size(form_ref.width_of(form))]]
        elif name in ("hmac_open", "hmac_feed"):
            self.keyed_forms = self.keyed_forms[-20:] + [form[:form_ref.keyed_size(form_ref.width_of(form))]]
        elif name in ("index", "reindex"):
            self.indexes = self.indexes[-20:] + [form]

    def open(self):
        width = a_width(self.rng)
        return width, self.lent(form_ref.size(known(width)))

    def feed(self):
        return self.form(), *a_message(self.rng, 300), self.number()

    def take(self):
        form = self.form()
        return form, self.lent(form_ref.width_of(form) % 1024 // 8), self.number()

    def restore(self):
        """Every second form an old one; a room for it, or of the old size."""
        form = self.form(2)
        size = form_ref.size(known(form_ref.width_of(form)))
        return form, self.lent(self.rng.choice((size, size, size, len(form))))

    def hash(self):
        width = a_width(self.rng)
        return width, *a_message(self.rng, 300), self.lent(width % 1024 // 8)

    def key(self, size):
        rng = self.rng
        return rng.randbytes(rng.choice((0, size - 1, size, size + 1, rng.randrange(300))))

    def hmac_open(self):
        width = a_width(self.rng)
        size = block_size(width)
        return width, self.key(size), self.lent(form_ref.keyed_size(known(width)))

    def hmac_feed(self):
        return self.keyed_form(), *a_message(self.rng, 300), self.number()

    def hmac_take(self):
        form = self.keyed_form()
        return form, self.lent(form_ref.width_of(form) % 1024 // 8), self.number()

    def hmac_check(self):
        """Most often the right tag or one next to it."""
        rng, form = self.rng, self.keyed_form()
        if door_ref.keyed_refusal(form) or not rng.randrange(6):
            return form, self.lent(32), self.number()
        tag = bytearray(door_ref.tag_of(form)[0])
        kind = rng.randrange(6)
        if kind == 0:
            tag[rng.randrange(len(tag))] ^= 1 << rng.randrange(8)
        elif kind == 1:
            tag = tag[:rng.randrange(len(tag))]
        elif kind == 2:
            tag += rng.randbytes(rng.choice((1, 32)))
        return form, bytes(tag), self.number()

    def hmac(self):
        width = a_width(self.rng)
        return (width, self.key(block_size(width)), *a_message(self.rng, 300),
                self.lent(width % 1024 // 8))

    def expand(self):
        width = a_width(self.rng)
        size = block_size(width)
        words = [self.rng.randrange(2 ** 32) for _ in range(near(self.rng, 2 * size))]
        return width, bool(self.rng.randrange(2)), self.lent(size), words

    def steps(self):
        width = a_width(self.rng)
        size = block_size(width)
        return width, bool(self.rng.randrange(2)), self.lent(size), self.lent(size), self.lent(size)

    unsteps = steps

    def compare(self):
        rng, width = self.rng, a_width(self.rng)
        a = a_message(rng, 200)
        b = a if rng.randrange(2) else a_message(rng, 200)
        if a[0] and not rng.randrange(3):
            changed = bytearray(a[0])
            changed[rng.randrange(len(changed))] ^= 1 << rng.randrange(8)
            b = bytes(changed), a[1]
        return (width, *a, *b, self.number(), self.number())

    def tape(self):
        tape = tapes.random_tape(self.rng)
        return tape, self.rng.randbytes(self.rng.randrange(257)), self.number(), self.number()

    def page_entry(self):
        """A number of any count of digits, up to 20, often the greatest allowed or next to it."""
        rng, width = self.rng, a_width(self.rng)
        number = rng.choice((min(rng.randrange(10 ** rng.randrange(21)), 2 ** 64 - 1), rng.randrange(10 ** 6),
                             rng.choice((0, 999998, 999999, 1000000, 2 ** 32 + 1, 2 ** 64 - 1))))
        return number, width, self.lent(width % 1024 // 8), self.lent(76 if width <= 256 else 152)

    def quote(self):
        """A digest that begins with a number of any count of bits."""
        rng, width = self.rng, a_width(self.rng)
        digest = self.lent(width % 1024 // 8)
        head = rng.randrange(2 ** rng.randrange(65)).to_bytes(8, "big")
        return width, rng.choice((digest, (head + digest[8:])[:len(digest)])), self.lent(18)

    def quote_check(self):
        """Most often a right quote or one next to it; characters of other kinds too."""
        rng = self.rng
        quote = bytearray(quote_ref.with_check(b"%016x" % rng.randrange(2 ** rng.randrange(65))))
        kind, place = rng.randrange(10), rng.randrange(18)
        if kind == 0:
            quote[place] = rng.choice((rng.randrange(256), *b"0123456789abcdefABCDEF/:`g@G "))
        elif kind == 1:
            place = rng.randrange(15)
            quote[place:place + 2] = quote[place:place + 2][::-1]
        elif kind == 2:
            quote[16:] = rng.choice((b"%02d" % rng.randrange(100), b"%02x" % rng.randrange(256)))
        elif kind == 3:
            del quote[place:]
        elif kind == 4:
            quote[place:place] = rng.choice((b"0", b" ", b"\0", rng.randbytes(rng.randint(1, 20))))
        elif kind == 5:
            quote = quote.upper()
        elif kind == 6:
            quote = rng.randbytes(near(rng, 18))
        return bytes(quote), rng.choice((self.number(), 0, 1))

    def index(self):
        """Some of more than 16 blocks, which keep two states and more."""
        rng, width = self.rng, a_width(self.rng)
        data, bits = a_message(rng, rng.choice((300, 300, 3000)))
        return width, data, bits, *self.rooms(width, bits), self.number()

    def rooms(self, width, bits):
        """For an index and a digest; a count that no message here has asks for no more than the longest."""
        lent = self.rng.choice((self.lent, self.rng.randbytes))
        return lent(index_ref.size(known(width), min(bits, 10 ** 5))), lent(width % 1024 // 8)

    def reindex(self):
        """From an index that a call returned, with a message of its length, or from one with any states; some of
        them old, some damaged, some messages of another length.  Most often a block number that there is."""
        rng, width = self.rng, self.rng.choice(ref.WIDTHS)
        data, bits = a_message(rng, rng.choice((300, 300, 3000)))
        if self.indexes and rng.randrange(3):
            old = rng.choice(self.indexes)
            width, bits = form_ref.width_of(old), form_ref.bits_of(old)
            old, data = old[:index_ref.size(width, bits)], message(rng, bits) + rng.randbytes(rng.choice((0, 0, 9)))
        else:
            old = form_ref.head(width, bits)
            old += rng.randbytes(index_ref.size(width, min(bits, 10 ** 5)) - len(old))
        numbers = min(bits, 10 ** 5) // ref.block_bits(width) + 2
        block = rng.choice((rng.randrange(numbers), rng.randrange(numbers), numbers - 1, self.number()))
        if not rng.randrange(12):
            width = a_width(rng)
        if not rng.randrange(12):
            bits = min(max(0, bits + rng.choice((-1, 1))), 2 ** 64 - 1)
        if bits <= form_ref.OLD_BITS_MAX and not rng.randrange(12):
            old = index_ref.as_old(old)
        elif rng.randrange(2):
            old = self.damaged(old)
        return width, data, bits, old, block, *self.rooms(width, bits), self.number()


NAMES = ("open", "feed", "take", "restore", "hash", "hmac_open", "hmac_feed", "hmac_take", "hmac_check", "hmac",
         "expand", "steps", "unsteps", "compare", "tape", "page_entry", "quote", "quote_check", "index", "reindex")


def main():
    rng, count = random_arguments(6, 8000)
    tally, calls = Tally("fuzz"), Calls(rng)
    met = {name: collections.Counter() for name in NAMES}
    verdicts = {name: collections.Counter() for name in ("hmac_check", "quote_check")}
    for k in range(count):
        name = NAMES[k % len(NAMES)]
        arguments = getattr(calls, name)()
        found = getattr(product, name)(*arguments)
        expected = getattr(door_ref, name)(*with_zeros(name, arguments))
        tally.equal(found, expected, "call %d, %s" % (k, name))
        met[name][found[0]] += 1
        if found[0] == 0:
            calls.keep(name, found[1])
        if name in verdicts and found[0] == 0:
            verdicts[name][found[1]] += 1
    for name in NAMES:
        print("fuzz, %s: %s" % (name, ", ".join("%d: %d" % item for item in sorted(met[name].items()))))
    for name, counted in verdicts.items():
        print("fuzz, verdicts of %s: %d right, %d not" % (name, counted[1], counted[0]))
    return tally.finish("%d calls" % count)


if __name__ == "__main__":
    sys.exit(main())
