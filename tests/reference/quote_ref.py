#!/usr/bin/env python3
"""The quote of a digest, reckoned from the words of the request, for checking other code.

    quote(digest)    the quote, as bytes
    is_quote(text)   whether bytes are of the kind of a quote
    is_right(text)   whether they are a right quote

A quote is the 16 lowercase hexadecimal digits of the digest's first 8 bytes, then two decimal check
digits.  With the 16 read as a number N, the check is 98 minus (100 x N modulo 97), with a leading
zero where needed.
"""

import random
import re
import sys

HEAD, DIGITS = 8, 16
SIZE = DIGITS + 2
KIND = re.compile(rb"[0-9a-f]{16}[0-9]{2}")


def check_digits(number):
    return b"%02d" % (98 - (100 * number) % 97)


def with_check(digits):
    """16 digits with their check digits behind them."""
    return digits + check_digits(int(digits, 16))


def quote(digest):
    return with_check(digest[:HEAD].hex().encode("ascii"))


def is_quote(text):
    return KIND.fullmatch(text) is not None


def is_right(text):
    return is_quote(text) and text == with_check(text[:DIGITS])


# Self check

# N and its check digits, typed: those of the request, and worked out by hand.
TYPED = ((0, "98"), (1, "95"), (31, "05"), (32, "02"), (96, "04"), (97, "98"), (98, "95"), (2 ** 64 - 1, "15"))
# Typed: right ones, and others with another kind or check.
RIGHT = ("000000000000000098", "000000000000000195", "000000000000001f05", "000000000000002002",
         "ffffffffffffffff15")
WRONG = ("", "98", "00000000000000098", "0000000000000000980", "000000000000000001", "000000000000000000",
         "000000000000001F05", "000000000000001f5", "000000000000001f 5", "00000000000000200002", "ffffffffffffffff0f",
         "ffffffffffffffff15\n", " fffffffffffffff15", "0x0000000000000098", "00_000000000000098")


def self_check():
    """The values typed above; and of random numbers, that the decimal digits of N and the check digits
    behind them are a number that leaves 1 modulo 97 (ISO 7064, MOD 97-10), which one pair from 02 to 98
    does.  Returns the list of failures."""
    failures = []
    for number, typed in TYPED:
        if check_digits(number) != typed.encode("ascii"):
            failures.append("the check digits of %d" % number)
    for text in RIGHT + WRONG:
        if is_right(text.encode("ascii")) != (text in RIGHT):
            failures.append("the verdict of %r" % text)
    if quote(bytes(range(28))) != b"000102030405060746":
        failures.append("the quote of 00 01 02 ..")
    rng = random.Random(97)
    for number in (rng.randrange(2 ** rng.randrange(65)) for _ in range(1000)):
        found = check_digits(number).decode("ascii")
        pairs = ["%02d" % k for k in range(2, 99) if int("%d%02d" % (number, k)) % 97 == 1]
        if pairs != [found]:
            failures.append("%d and %s modulo 97" % (number, found))
    return failures


def main():
    failures = self_check()
    for line in failures:
        print(line)
    print("quote_ref: %s" % ("FAILED" if failures else "as typed, and 1 modulo 97: ok"))
    return 1 if failures else 0


if __name__ == "__main__":
    sys.exit(main())
