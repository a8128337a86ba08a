#!/usr/bin/env python3
"""Pages for the ledger binder against an independent printer.

    test_page.py [--seed S] [--count N]

Entries at all widths, with every number, every byte at every place of a digest,
digests and rooms next to the right size, and every set of broken rules for the
order of refusals; then pages of many entries in one buffer, in any order of
printing, and N random pages, which are also read back.
"""

import itertools
import sys

from tally import Tally, random_arguments
import door_ref
import page_ref
import product
import simd_ref as ref

LIMIT = 999999
NUMBERS = (0, 1, 9, 10, 11, 99, 100, 999, 1000, 9999, 10000, 65535, 65536, 99999, 100000, 123456,
           999998, LIMIT)
# The last are small again where one keeps fewer bits of them, or 6 digits.
ABOVE = (LIMIT + 1, LIMIT + 2, 1234567, 9999999, 10000000, 2 ** 31, 2 ** 32, 2 ** 32 + 7, 2 ** 40 + 256,
         2 ** 48 + 10, 2 ** 63, 2 ** 64 - LIMIT - 1, 2 ** 64 - 1, 5000000)
UNKNOWN = (0, 1, 3, 128, 160, 223, 225, 255, 257, 383, 385, 511, 513, 1024, 32768, 65535)


def some_bytes(size, seed=0):
    return bytes((89 * k + 31 * (k >> 8) + seed) % 256 for k in range(size))


def entry_size(width):
    return 76 if width in (224, 256) else 152


def digest_of(width, seed):
    """The digest of a message of some bytes."""
    return ref.digest(width, some_bytes(seed % 40, seed), 8 * (seed % 40))


class Page:
    """A page in one buffer with guard bytes on both sides, to which entries are printed."""

    def __init__(self, contents):
        self.lent = product.Lent(contents)

    def put(self, entry, at, room):
        """The refusal of an entry that is lent a part of the page."""
        number, width, digest = entry
        address, size = self.lent.arguments()
        assert 0 <= at and at + room <= size
        given = product.const(digest)
        refusal = product.library.simd_page_entry(number, width, *given.arguments(), address + at, room)
        given.after()
        return refusal

    def contents(self):
        return self.lent.after()


def places(entries):
    """Where the lines of each entry begin, and the page's size."""
    return list(itertools.accumulate((entry_size(width) for _, width, _ in entries), initial=0))


def printed(entries, spare=0):
    """A page, each entry lent all that is left; behind it some bytes that stay."""
    *starts, size = places(entries)
    rest = some_bytes(spare, 77)
    page = Page(bytes(size) + rest)
    refusals = {page.put(entry, at, size + spare - at) for entry, at in zip(entries, starts)}
    found = page.contents()
    return refusals - {0}, found[:size], found[size:] == rest


def read_back(page):
    try:
        return page_ref.entries_of(page)
    except ValueError as error:
        return str(error)


def check_entries(tally):
    """Every kind of number at every width, in an output of the right size and in longer ones."""
    for width in ref.WIDTHS:
        size = entry_size(width)
        digests = [digest_of(width, 9 * k + 1) for k in range(3)]
        digests += [bytes(width // 8), b"\xff" * (width // 8), b" " * (width // 8), b"\n" * (width // 8)]
        for number, digest in itertools.product(NUMBERS, digests):
            what = "entry %d, %d" % (number, width)
            lines = page_ref.entry(number, width, digest)
            tally.equal(len(lines), size, what + ": the size")
            for spare in (0, 1, 76, 300):
                out = some_bytes(size + spare, number % 251)
                tally.equal(product.page_entry(number, width, digest, out), (0, lines + out[size:]), what)
        # Every byte at every place.
        for shift in range(256):
            digest = bytes((k + shift) % 256 for k in range(width // 8))
            tally.equal(product.page_entry(shift, width, digest, bytes(size)),
                        (0, page_ref.entry(shift, width, digest)), "SIMD-%d, bytes from %d on" % (width, shift))


def check_numbers(tally):
    """Every number, in pages of a thousand entries."""
    for first in range(0, LIMIT + 1, 1000):
        width = ref.WIDTHS[first // 1000 % 4]
        digest = some_bytes(width // 8, first % 253)
        given, size = product.const(digest), entry_size(width)
        page = product.Lent(bytes(1000 * size))
        address, _ = page.arguments()
        arguments = given.arguments()
        refusals = {product.library.simd_page_entry(first + k, width, *arguments, address + k * size, size)
                    for k in range(1000)}
        given.after()
        expected = page_ref.page((first + k, width, digest) for k in range(1000))
        tally.equal((refusals, page.after()), ({0}, expected), "entries %d to %d" % (first, first + 999))


def check_refusals(tally):
    """Each alone, on both sides of its boundary; nothing is written."""
    for width in ref.WIDTHS:
        size, digest = entry_size(width), digest_of(width, 7)
        lines = page_ref.entry(LIMIT, width, digest)

        def check(number, width, digest, room, refusal):
            out = some_bytes(room, 5)
            found = product.page_entry(number, width, digest, out)
            what = "entry %d, %d, %d bytes to %d" % (number, width, len(digest), room)
            tally.equal(found, (refusal, out if refusal else lines + out[size:]), what)
            tally.equal(found, door_ref.page_entry(number, width, digest, out), what + ": the reference")

        for room in (*range(0, 160), 500):
            check(LIMIT, width, digest, room, 6 if room < size else 0)
        for number in (LIMIT, *ABOVE):
            check(number, width, digest, 152, 0 if number == LIMIT else 14)
        # A prefix of a digest and a digest with more behind it, that of another width, and its digits.
        longer = digest + bytes(70)
        for length in (*range(0, 70), width // 8 * 2, width // 8 + 70):
            check(LIMIT, width, longer[:length], 152, 0 if length == width // 8 else 7)
        check(LIMIT, width, digest.hex().encode("ascii"), 152, 7)
        for unknown in UNKNOWN:
            check(LIMIT, unknown, digest, 152, 1)
            check(LIMIT, unknown, longer[:unknown // 8], 152, 1)


def check_order(tally):
    """Every set of broken rules, in every way that they are broken here: the first in the order
    1, 7, 14, 6 is answered."""
    count = 0
    for width in ref.WIDTHS:
        size, digest = entry_size(width), digest_of(width, 3)
        ways = {
            1: ((width,), (0, 160, width - 1, width + 1, 65535)),
            7: ((digest,), (b"", digest[:-1], digest + b"\0", digest * 2)),
            14: ((0, LIMIT), (LIMIT + 1, 2 ** 32, 2 ** 64 - 1)),
            6: ((size, size + 1), (0, 1, size - 1)),
        }
        for broken in itertools.product((False, True), repeat=4):
            expected = next((refusal for refusal, is_broken in zip(ways, broken) if is_broken), 0)
            chosen = (pair[is_broken] for pair, is_broken in zip(ways.values(), broken))
            for asked, given, number, room in itertools.product(*chosen):
                out = some_bytes(room, 9)
                after = out if expected else page_ref.entry(number, asked, given) + out[size:]
                tally.equal(product.page_entry(number, asked, given, out), (expected, after),
                            "entry %d, %d, %d bytes to %d" % (number, asked, len(given), room))
                count += 1
    return count


def some_entries(count):
    """Entries of all widths and kinds of number, some of them repeated."""
    found = []
    for k in range(count):
        width = ref.WIDTHS[k * k // 3 % 4]
        found.append((NUMBERS[5 * k % len(NUMBERS)], width, digest_of(width, k % 17)))
    return found


def check_page(tally):
    """A page of many entries, printed in turn and in other orders into exactly their rooms; a page
    without room for the last; every line in its place."""
    for count in (0, 1, 2, 7, 300):
        entries = some_entries(count)
        *starts, size = places(entries)
        expected = page_ref.page(entries)
        what = "a page of %d entries" % count
        tally.equal(len(expected), size, what + ": the size")
        for spare in (0, 1, 500):
            tally.equal(printed(entries, spare), (set(), expected, True), what)
        tally.equal([k for k, byte in enumerate(printed(entries)[1]) if byte == 10],
                    list(range(75, size, 76)), what + ": the newlines")
        tally.equal(read_back(printed(entries)[1]), entries, what + ": read back")

        # Each entry in its own room: neither its neighbours nor the order of printing matter.
        numbered = list(enumerate(entries))
        for order in (numbered, numbered[::-1], numbered[::2] + numbered[1::2]):
            page = Page(some_bytes(size, 3))
            refusals = {page.put(entry, starts[k], entry_size(entry[1])) for k, entry in order}
            tally.equal((refusals - {0}, page.contents()), (set(), expected), what + ", in another order")

        # Refused entries between the others leave the page as it is.
        page = Page(bytes(size))
        for entry, at in zip(entries, starts):
            number, width, digest = entry
            tally.equal([page.put(bad, at, size - at) for bad in ((number, 160, digest), (number, width, digest[1:]),
                                                                  (LIMIT + 1, width, digest))],
                        [1, 7, 14], what + ": refused")
            tally.equal(page.put(entry, at, entry_size(width) - 1), 6, what + ": refused for its room")
            tally.equal(page.contents()[at:], bytes(size - at), what + ": nothing is written")
            tally.equal(page.put(entry, at, size - at), 0, what + ": not refused")
        tally.equal(page.contents(), expected, what + " with refusals between")

        # A byte too few for the last one.
        if entries:
            page = Page(bytes(size - 1))
            refusals = [page.put(entry, at, size - 1 - at) for entry, at in zip(entries, starts)]
            tally.equal(refusals, [0] * (count - 1) + [6], what + ", a byte too few")
            tally.equal(page.contents(), expected[:starts[-1]] + bytes(size - 1 - starts[-1]),
                        what + ", a byte too few: the others")


def check_distinct(tally):
    """Lists that differ a little print pages that differ."""
    entries = some_entries(12)
    lists = [entries, [], entries[::-1], entries + entries]
    for k, (number, width, digest) in enumerate(entries):
        rest = entries[:k], entries[k + 1:]
        changed = [(other, width, digest) for other in NUMBERS if other != number]
        changed += [(number, other, digest_of(other, 5)) for other in ref.WIDTHS if other != width]
        # The same digits as far as both have them.
        changed += [(number, other, (3 * digest)[:other // 8]) for other in ref.WIDTHS if other != width]
        changed += [(number, width, bytes(byte ^ 1 << bit % 8 if place == bit // 8 else byte
                                          for place, byte in enumerate(digest))) for bit in range(width)]
        lists += [rest[0] + [one] + rest[1] for one in changed]
        lists += [rest[0] + rest[1], rest[0] + 2 * [entries[k]] + rest[1]]
        if k:
            lists.append(entries[:k - 1] + [entries[k], entries[k - 1]] + rest[1])
    pages = {}
    for listed in lists:
        refused, page, _ = printed(listed)
        tally.equal(refused, set(), "not refused")
        tally.equal(pages.setdefault(page, listed), listed, "one list for one page")
        tally.equal(read_back(page), listed, "read back")
    return len(pages)


def check_random(tally, rng, count):
    for k in range(count):
        entries = []
        for _ in range(rng.randrange(40)):
            width = rng.choice(ref.WIDTHS)
            entries.append((rng.randrange(10 ** rng.randrange(1, 7)), width, rng.randbytes(width // 8)))
        refused, page, kept = printed(entries, rng.randrange(200))
        tally.equal((refused, page, kept), (set(), page_ref.page(entries), True), "random page %d" % k)
        tally.equal(read_back(page), entries, "random page %d, read back" % k)


def main():
    rng, count = random_arguments(8, 500)
    tally = Tally("page")
    tally.equal(page_ref.self_check(), [], "the reference")
    check_entries(tally)
    check_numbers(tally)
    check_refusals(tally)
    orders = check_order(tally)
    check_page(tally)
    pages = check_distinct(tally)
    check_random(tally, rng, count)
    return tally.finish("every number, %d calls for the order, %d pages that differ, %d random pages"
                        % (orders, pages, count))


if __name__ == "__main__":
    sys.exit(main())
