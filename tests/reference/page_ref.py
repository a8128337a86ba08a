#!/usr/bin/env python3
"""The page of the ledger binder, written from the words of the request, for checking other code.

    entry(number, width, digest)  the lines of one entry, as bytes
    page(entries)                 the entries' lines in turn
    entries_of(page)              the entries of a page, read by its columns

A line has 75 columns and a newline: the entry's number in 6, right-aligned; a space; the width in
3; a space; 64 lowercase hexadecimal digits, filled with spaces on the right.  Digits past the 64th
have a second line, whose first 11 columns are spaces.
"""

import sys

COLUMNS, DIGITS = 75, 64
LINE = COLUMNS + 1
NUMBER_MAX = 999999


def entry(number, width, digest):
    digits = digest.hex()
    lines = "%6d %3d %-64s\n" % (number, width, digits[:DIGITS])
    if len(digits) > DIGITS:
        lines += "%11s%-64s\n" % ("", digits[DIGITS:])
    return lines.encode("ascii")


def page(entries):
    return b"".join(entry(*one) for one in entries)


def entries_of(text):
    """The list whose page this is; ValueError where there is none.  A line that begins with 11
    spaces goes on with the entry before it; an entry's first line has digits there."""
    lines = [text[k:k + LINE].decode("ascii") for k in range(0, len(text), LINE)]
    found = []
    for line in lines:
        if len(line) != LINE or line.index("\n") != COLUMNS:
            raise ValueError("a line of another width")
        head, digits = line[:11], line[11:COLUMNS].rstrip(" ")
        if head.strip(" "):
            found.append([int(head[:6]), int(head[7:10]), digits])
        elif found:
            found[-1][2] += digits
    found = [(number, width, bytes.fromhex(digits)) for number, width, digits in found]
    if page(found) != text:
        raise ValueError("no page")
    return found


# Self check

# Typed out, not printed.
TYPED = (
    ((0, 224, bytes(range(28))),
     "     0 224 000102030405060708090a0b0c0d0e0f101112131415161718191a1b        \n"),
    ((9, 256, bytes(range(224, 256))),
     "     9 256 e0e1e2e3e4e5e6e7e8e9eaebecedeeeff0f1f2f3f4f5f6f7f8f9fafbfcfdfeff\n"),
    ((99999, 384, bytes(range(160, 208))),
     " 99999 384 a0a1a2a3a4a5a6a7a8a9aaabacadaeafb0b1b2b3b4b5b6b7b8b9babbbcbdbebf\n"
     "           c0c1c2c3c4c5c6c7c8c9cacbcccdcecf                                \n"),
    ((999999, 512, bytes(range(16, 80))),
     "999999 512 101112131415161718191a1b1c1d1e1f202122232425262728292a2b2c2d2e2f\n"
     "           303132333435363738393a3b3c3d3e3f404142434445464748494a4b4c4d4e4f\n"),
)


def self_check():
    """The lines typed above, alone and as a page, and pages that are none.  Returns the list of
    failures."""
    failures = []
    for one, typed in TYPED:
        if entry(*one) != typed.encode("ascii"):
            failures.append("entry %d" % one[0])
        if [len(line) for line in typed.splitlines()] != [COLUMNS] * typed.count("\n"):
            failures.append("columns of entry %d" % one[0])
    whole = "".join(typed for _, typed in TYPED).encode("ascii")
    listed = [one for one, _ in TYPED]
    if page(listed) != whole or entries_of(whole) != listed or entries_of(b"") != []:
        failures.append("a page")
    lines = whole.decode("ascii").splitlines(keepends=True)
    damaged = ("\n", lines[0][1:], lines[0][:-1], lines[0] + " ", lines[0].replace("     0", "0     "),
               lines[0].replace("     0", "000000"), lines[1].replace("ff\n", "FF\n"), lines[3])
    for text in damaged:
        try:
            entries_of(text.encode("ascii"))
            failures.append("read as a page: %r" % text)
        except ValueError:
            pass
    return failures


def main():
    failures = self_check()
    for line in failures:
        print(line)
    print("page_ref: %s" % ("FAILED" if failures else "as typed: ok"))
    return 1 if failures else 0


if __name__ == "__main__":
    sys.exit(main())
