#!/usr/bin/env python3
"""Quotes of digests and their check against an independent reckoning.

    test_quote.py [--seed S] [--count N]

Quotes of numbers at all widths: those of the request, round multiples of 97, round
2^64, and where 100 times the number passes a multiple of 2^64; every refusal on both
sides of its boundary and every set of broken rules for their order.  Then checks:
every other character at every place of right quotes, every exchange of two places,
all hundred pairs of check digits, other lengths, capitals, and characters that a
careless reading takes for digits; and N random digests, whose quotes are checked as
they are, with every two neighbours exchanged, and damaged.  At the end, that the
stored listings are those that listings.py makes.
"""

import itertools
import sys

from tally import Tally, random_arguments
import door_ref
import listings
import product
import quote_ref
import simd_ref as ref

SIZE, DIGITS = 18, 16
TOP = 2 ** 64
MULTIPLE = TOP // 97 * 97        # the last multiple of 97 that 8 bytes hold
# Typed, for the reference is held to them too.
WORKED = {0: b"000000000000000098", 1: b"000000000000000195", 31: b"000000000000001f05",
          32: b"000000000000002002", 96: b"000000000000006004", 97: b"000000000000006198",
          98: b"000000000000006295", TOP - 1: b"ffffffffffffffff15"}
UNKNOWN = (0, 1, 3, 64, 128, 160, 223, 225, 255, 257, 383, 385, 511, 513, 1024, 32768, 65535)
NUMBER = 0x0123456789ABCDEF


def some_bytes(size, seed=0):
    return bytes((89 * k + 31 * (k >> 8) + seed) % 256 for k in range(size))


def digest_of(width, number, seed=0):
    """A digest that begins with a number."""
    return number.to_bytes(8, "big") + some_bytes(width // 8 - 8, seed)


def numbers():
    """All remainders modulo 97, with the greatest of each; each digit, and each bit, alone; round 2^63 and
    the last multiples of 97; on both sides of where 100 N, or 3 N, passes a multiple of 2^64."""
    found = set(WORKED) | set(range(200)) | set(range(TOP - 200, TOP))
    found |= {digit << 4 * place for digit in range(16) for place in range(DIGITS)} | {1 << bit for bit in range(64)}
    found |= {2 ** 63 + k for k in range(-3, 4)} | {2 ** 32 + k for k in range(-3, 4)}
    found |= {MULTIPLE - 97 * k + more for k in range(50) for more in range(-2, 3)}
    found |= {factor * TOP // by + k for by in (3, 100) for factor in range(1, by) for k in (-1, 0, 1)}
    return sorted(found)


class Checks:
    """Checks of quotes, with how many."""

    def __init__(self, tally):
        self.tally, self.count, self.right = tally, 0, 0

    def expect(self, quote, right, what):
        """The verdict, written over the other one and over a number that is neither."""
        for before in (1 - right, NUMBER):
            self.tally.equal(product.quote_check(quote, before), (0, right), "%s: %r" % (what, quote))
        self.count += 1
        self.right += right

    def reference(self, quote, what):
        self.expect(quote, int(quote_ref.is_right(quote)), what)


def changed(quote, *changes):
    """A quote with other characters at some places."""
    text = bytearray(quote)
    for place, character in changes:
        text[place] = character
    return bytes(text)


def exchanged(quote, j, k):
    return changed(quote, (j, quote[k]), (k, quote[j]))


def check_numbers(tally, checks):
    """At every width, whatever the digest's other bytes are, in an output of the right size and in longer ones."""
    found = numbers()
    for number, width in itertools.product(found, ref.WIDTHS):
        what = "the quote of %#x at %d" % (number, width)
        digest = digest_of(width, number, number % 251)
        quote = quote_ref.quote(digest)
        tally.equal(quote, WORKED.get(number, quote), what + ": the reference")
        for spare in (0, 1, 300):
            out = some_bytes(SIZE + spare, number % 241)
            tally.equal(product.quote(width, digest, out), (0, quote + out[SIZE:]), what)
        for rest in (bytes(56), b"\xff" * 56, digest[::-1]):
            other = (digest[:8] + rest)[:width // 8]
            tally.equal(product.quote(width, other, bytes(SIZE)), (0, quote), what + ", other bytes behind")
        checks.expect(quote, 1, what)
    return len(found)


def check_refusals(tally):
    """Each alone, on both sides of its boundary; nothing is written."""
    for width in ref.WIDTHS:
        digest = digest_of(width, NUMBER, 7)
        quote = quote_ref.quote(digest)

        def check(width, digest, room, refusal):
            out = some_bytes(room, 5)
            found = product.quote(width, digest, out)
            what = "a quote at %d, %d bytes to %d" % (width, len(digest), room)
            tally.equal(found, (refusal, out if refusal else quote + out[SIZE:]), what)
            tally.equal(found, door_ref.quote(width, digest, out), what + ": the reference")

        for room in (*range(0, 160), 500):
            check(width, digest, room, 6 if room < SIZE else 0)
        # A prefix of a digest and a digest with more behind it, that of another width, and its digits.
        longer = digest + bytes(70)
        for length in (*range(0, 70), width // 8 * 2, width // 8 + 70):
            check(width, longer[:length], SIZE, 0 if length == width // 8 else 7)
        check(width, digest.hex().encode("ascii"), SIZE, 7)
        for unknown in UNKNOWN:
            check(unknown, digest, SIZE, 1)
            check(unknown, longer[:unknown // 8], SIZE, 1)


def check_order(tally):
    """Every set of broken rules, in every way that they are broken here: the first in the order
    1, 7, 6 is answered."""
    count = 0
    for width in ref.WIDTHS:
        digest = digest_of(width, TOP - 32, 3)
        ways = {
            1: ((width,), (0, 64, 160, width - 1, width + 1, 65535)),
            7: ((digest,), (b"", digest[:8], digest[:-1], digest + b"\0", digest * 2)),
            6: ((SIZE, SIZE + 1), (0, 1, DIGITS, SIZE - 1)),
        }
        for broken in itertools.product((False, True), repeat=3):
            expected = next((refusal for refusal, is_broken in zip(ways, broken) if is_broken), 0)
            chosen = (pair[is_broken] for pair, is_broken in zip(ways.values(), broken))
            for asked, given, room in itertools.product(*chosen):
                out = some_bytes(room, 9)
                after = out if expected else quote_ref.quote(given) + out[SIZE:]
                tally.equal(product.quote(asked, given, out), (expected, after),
                            "a quote at %d, %d bytes to %d" % (asked, len(given), room))
                count += 1
    return count


def right_quotes(rng, count):
    """Right quotes without a pattern, and some with one."""
    typed = [WORKED[0], WORKED[TOP - 1], quote_ref.with_check(b"0123456789abcdef"),
             quote_ref.with_check(b"fedcba9876543210"), quote_ref.with_check(b"00ff00ff11223344")]
    return typed + [quote_ref.quote(rng.randbytes(8)) for _ in range(count)]


def check_changes(checks, rng):
    """Every other byte at every place, also at those of the check digits."""
    for quote in right_quotes(rng, 12):
        for place, byte in itertools.product(range(SIZE), range(256)):
            checks.expect(changed(quote, (place, byte)), int(byte == quote[place]), "character %d" % place)


def check_exchanges(checks, rng):
    """Of two neighbours among the 16, and of the check digits: wrong exactly where they are unequal.  Of any two
    places, as the reference has it: some stay right, for 16^12 is 1 modulo 97."""
    for quote in right_quotes(rng, 40):
        for k in (*range(DIGITS - 1), DIGITS):
            checks.expect(exchanged(quote, k, k + 1), int(quote[k] == quote[k + 1]), "places %d and %d" % (k, k + 1))
        for j, k in itertools.combinations(range(SIZE), 2):
            checks.reference(exchanged(quote, j, k), "places %d and %d" % (j, k))


def check_check_digits(tally, checks):
    """Of all hundred pairs one is right: not 00, 01 or 99 either, which are 97, 98 and 02 modulo 97."""
    for number in (*range(97), TOP - 1, NUMBER):
        digits, pairs = b"%016x" % number, [b"%02d" % k for k in range(100)]
        for pair in pairs:
            checks.reference(digits + pair, "check digits of %#x" % number)
        tally.equal([pair for pair in pairs if product.quote_check(digits + pair) == (0, 1)],
                    [quote_ref.check_digits(number)], "the right check digits of %#x" % number)


def careless(quote):
    """What has the value of a right quote for one who does not look at the kind: other characters counted from the
    digit 0 or the letter a or A, a digit of 16 and more, check digits above 9."""
    values = [int(chr(character), 16) for character in quote[:DIGITS]]
    for k, value in enumerate(values):
        yield changed(quote, (k, ord("0") + value)), "digit %d counted from 0" % k
        yield changed(quote, (k, ord("a") - 10 + value)), "digit %d counted from a" % k
        yield changed(quote, (k, ord("A") - 10 + value)), "digit %d counted from A" % k
        yield changed(quote, (k, value)), "digit %d as a number" % k
        yield changed(quote, (k, quote[k] | 128)), "digit %d with the high bit" % k
    for k in range(DIGITS - 1):
        if values[k]:
            yield changed(quote, (k, b"0123456789abcdef"[values[k] - 1]), (k + 1, ord("g") + values[k + 1])), \
                "16 and more at %d" % (k + 1)
    check = int(quote[DIGITS:])
    for tens in range(-4, 14):
        ones = check - 10 * tens
        if (tens, ones) != divmod(check, 10) and -48 <= ones < 208:
            yield changed(quote, (DIGITS, 48 + tens), (DIGITS + 1, 48 + ones)), "check digits above 9"
    yield quote[:DIGITS] + b"%02x" % check, "a check in hexadecimal"
    yield quote[:DIGITS] + b"%2d" % check, "a check with a space"
    yield quote[:DIGITS] + quote[DIGITS:][::-1], "check digits exchanged"
    for letters in (b"aa", b"a0", b"0a", b"ff", b"f5"):
        yield quote[:DIGITS] + letters, "letters as check digits"


def check_kinds(checks, rng):
    """Other lengths, capitals, and what looks like digits."""
    for quote in right_quotes(rng, 40):
        for text, what in careless(quote):
            if text != quote:
                checks.expect(text, 0, what)
        for length in range(SIZE):
            checks.expect(quote[:length], 0, "the first %d" % length)
            checks.expect(quote[SIZE - length:], 0, "the last %d" % length)
        for more in range(1, 2 * SIZE):
            checks.expect(quote + (2 * quote)[:more], 0, "%d more" % more)
        for byte in (0, 9, 10, 32, 48, 57, 255):
            for place in range(SIZE + 1):
                checks.expect(quote[:place] + bytes([byte]) + quote[place:], 0, "%d put in at %d" % (byte, place))
        # Moved by a place, in the same 18 bytes.
        for more in (b"\0", b" ", b"\n", b"0"):
            checks.reference(more + quote[:-1], "behind %r" % more)
            checks.reference(quote[1:] + more, "before %r" % more)
        if quote.upper() != quote:
            checks.expect(quote.upper(), 0, "in capitals")
        for k in range(DIGITS):
            if quote[k:k + 1].isalpha():
                checks.expect(changed(quote, (k, quote[k] - 32)), 0, "a capital at %d" % k)
    # The check of a number that stands there in capitals, and of one read from the other end.
    checks.expect(b"ABCDEF0123456789" + quote_ref.check_digits(0xABCDEF0123456789), 0, "all in capitals")
    checks.reference(b"0123456789abcdef" + quote_ref.check_digits(0xFEDCBA9876543210), "read backwards")
    for text in (b"-", b"8029e81e", b"0x0000000000000098", b"0" * SIZE, b"9" * SIZE, b" " * SIZE, bytes(SIZE),
                 b"\xff" * SIZE):
        checks.expect(text, 0, "no quote")


def check_random(tally, checks, rng, count):
    for k in range(count):
        width = rng.choice(ref.WIDTHS)
        digest = rng.randbytes(width // 8)
        quote, out = quote_ref.quote(digest), rng.randbytes(SIZE + rng.randrange(40))
        tally.equal(product.quote(width, digest, out), (0, quote + out[SIZE:]), "random digest %d" % k)
        checks.expect(quote, 1, "random quote")
        for place in range(DIGITS - 1):
            checks.expect(exchanged(quote, place, place + 1), int(quote[place] == quote[place + 1]),
                          "random quote, places %d and %d" % (place, place + 1))
        # Several characters at once: about one in 97 is right.
        for _ in range(20):
            places = rng.sample(range(SIZE), rng.randint(2, 5))
            digits = b"0123456789abcdef"[:10 if max(places) >= DIGITS else 16]
            checks.reference(changed(quote, *((place, rng.choice(digits)) for place in places)), "random changes")
        checks.reference(rng.randbytes(rng.randrange(40)), "random bytes")


def main():
    rng, count = random_arguments(10, 500)
    tally = Tally("quote")
    checks = Checks(tally)
    tally.equal(quote_ref.self_check(), [], "the reference")
    tried = check_numbers(tally, checks)
    check_refusals(tally)
    orders = check_order(tally)
    check_changes(checks, rng)
    check_exchanges(checks, rng)
    check_check_digits(tally, checks)
    check_kinds(checks, rng)
    check_random(tally, checks, rng, count)
    tally.equal(listings.faults(), [], "stored listings")
    return tally.finish("%d numbers, %d calls for the order, %d random digests, %d checks of which %d right"
                        % (tried, orders, count, checks.count, checks.right))


if __name__ == "__main__":
    sys.exit(main())
