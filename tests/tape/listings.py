#!/usr/bin/env python3
"""Makes every stored listing of `seal` anew, by the reference alone.

    listings.py            writes the files that differ
    listings.py --check    writes nothing; the exit status is 1 where a file differs

Stored are crates/seal/stdout, which the program is held to when it is built, tests/tape/cases.txt, and the
examples of README.md and man/seal.1, whose tapes are what their commands hand to `seal`.  A line of a listing
that stands elsewhere is told too.
"""

import os
import re
import subprocess
import sys

HERE = os.path.dirname(os.path.abspath(__file__))
sys.path.insert(0, os.path.dirname(HERE))
from tally import read_bytes  # noqa: E402
import tape_ref  # noqa: E402

ROOT = os.path.dirname(os.path.dirname(HERE))
LINE = re.compile(rb"^ *digest \d+ \d+ [0-9a-f]{56,} ", re.M)
LISTING = r"(?P<listing>(?:digest .*\n)*(?:done|refused) .*\n)"


def read(path):
    with open(os.path.join(ROOT, path), "rb") as f:
        return f.read()


def of_program(match):
    return tape_ref.listing(read("crates/seal/stdin"))


def of_case(match):
    room = match["room"]
    return tape_ref.listing(read_bytes(match["tape"]), int(room) if room else None)


def of_commands(match):
    """Of shell commands that make a tape; in a manual they are written for troff."""
    commands = match["commands"].replace(r"\(aq", "'").replace(r"\e", "\\")
    return tape_ref.listing(subprocess.run(["sh", "-c", commands], stdout=subprocess.PIPE, check=True).stdout)


# How a listing is found in each file, and made from what is found.
STORED = {
    "crates/seal/stdout": (r"\A" + LISTING, of_program),
    "tests/tape/cases.txt": (r"^tape (?P<tape>.*)\n(?:room (?P<room>\d+)\n)?" + LISTING, of_case),
    "README.md": (r"^```sh\n(?P<commands>(?:(?!```).*\n)*.*) \| \./seal\n```\n\n```\n" + LISTING, of_commands),
    "man/seal.1": (r"^\$ (?P<commands>.*) \| seal\n" + LISTING, of_commands),
}


def made_anew(path):
    """(the file's text, the same with its listings made anew, how many)."""
    pattern, made = STORED[path]

    def replaced(match):
        return match.group()[:match.start("listing") - match.start()] + made(match)

    text = read(path).decode("utf-8")
    return (text, *re.subn(pattern, replaced, text, flags=re.M))


def shipped():
    """The files in which a listing may stand; not what a user, or rt in out/, leaves beside them."""
    yield from ("README.md", "CHANGELOG.md", "seal")
    for top in ("bench", "crates", "docs", "include", "man", "rust", "tests"):
        for folder, folders, names in os.walk(os.path.join(ROOT, top)):
            folders[:] = [name for name in folders if name not in ("target", "out", "__pycache__")]
            paths = (os.path.join(folder, name) for name in names)
            yield from (os.path.relpath(path, ROOT) for path in paths if os.path.isfile(path))


def unknown():
    """The files with a line of a listing that is not made here."""
    found = []
    for path in shipped():
        text = read(path)
        if path in STORED:
            text = re.sub(STORED[path][0], "", text.decode("utf-8"), flags=re.M).encode("utf-8")
        if LINE.search(text):
            found.append(path)
    return found


def faults(write=False):
    """What is wrong with the stored listings, a line for each; what differs may be written."""
    found = ["%s: a listing that is not made anew" % path for path in unknown()]
    for path in STORED:
        text, anew, count = made_anew(path)
        if not count:
            found.append("%s: no listing found" % path)
        elif anew != text and write:
            with open(os.path.join(ROOT, path), "w", encoding="utf-8") as f:
                f.write(anew)
            print("%s: written" % path)
        elif anew != text:
            found.append("%s: a listing differs" % path)
    return found


def main():
    if sys.argv[1:] not in ([], ["--check"]):
        sys.exit("usage: listings.py [--check]")
    found = faults(write=not sys.argv[1:])
    for fault in found:
        print(fault)
    print("listings: %d files, %d faults" % (len(STORED), len(found)))
    return 1 if found else 0


if __name__ == "__main__":
    sys.exit(main())
