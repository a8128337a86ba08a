#!/usr/bin/env python3
"""README's table "What is refused", number by number, against tests/c/refusals.c.

The program in C meets every condition and lists the words of the row that it tried.
Here each word of a row, but "or", must be among them, each listed word must stand in
the row of its number, and the table must have the numbers that the header and the
Rust crate define, from 1 on.  Then tables, lists and headers that are wrong in one
way each, and calls that answer or write wrongly, which must not pass.  Needs
target/staticlib/libsimd_c.a, target/bin/seal and gcc.
"""

import os
import re
import subprocess
import sys
import tempfile

from tally import HERE, Tally

ROOT = os.path.dirname(HERE)
TIMEOUT = 120
RETIRED = 3
OF_SEAL = 13        # no call answers it


def read(*parts):
    with open(os.path.join(ROOT, *parts), encoding="utf-8") as f:
        return f.read()


def table(text):
    """[(number, condition)] of the table under the heading."""
    part = re.search(r"^## What is refused\n(.*?)^## ", text, re.M | re.S)
    return [(int(number), words) for number, words in re.findall(r"^\| (\d+) \| (.*) \|$", part.group(1) if part else "", re.M)]


def header_numbers(text):
    return [int(number) for number in re.findall(r"^#define SIMD_REFUSED_\w+ (\d+)\b", text, re.M)]


def rust_numbers(text):
    body = re.search(r"^pub enum Refusal \{\n(.*?)^\}", text, re.M | re.S)
    return [int(number) for number in re.findall(r"^    \w+ = (\d+),$", body.group(1) if body else "", re.M)]


def places(row, words):
    """(start, end) in the row of each part of some words, .. between them; None where they do not stand there."""
    found, at = [], 0
    for part in words.split(" .. "):
        start = row.find(part, at)
        if start < 0:
            return None
        at = start + len(part)
        found.append((start, at))
    return found


def untried(row, tried):
    """What is left of a row without the words that were tried."""
    left = list(row)
    for words in tried:
        for start, end in places(row, words) or ():
            left[start:end] = " " * (end - start)
    return re.findall(r"\w+", re.sub(r"\bor\b", "", "".join(left)))


def faults(rows, tried, in_header, in_rust):
    """What is wrong with a table, as sentences; tried is (number, words) of each provocation."""
    found = []
    numbers = [number for number, _ in rows]
    all_numbers = list(range(1, max(in_header, default=0) + 1))
    if numbers != all_numbers:
        found.append("the rows are %s" % numbers)
    if in_header != all_numbers:
        found.append("the header defines %s" % in_header)
    if in_rust != [number for number in all_numbers if number != OF_SEAL]:
        found.append("the crate defines %s" % in_rust)
    of_row = dict(rows)
    for number, words in sorted(set(tried)):
        if places(of_row.get(number, ""), words) is None:
            found.append("row %d has no '%s'" % (number, words))
    for number, row in rows:
        mine = {words for tried_number, words in tried if tried_number == number}
        if not mine:
            found.append("%d is not provoked" % number)
        elif untried(row, mine):
            found.append("%d: not tried: %s" % (number, " ".join(untried(row, mine))))
        if row.startswith("retired: ") != (number == RETIRED):
            found.append("%d: retired or not" % number)
    return found


def compiled(room, source):
    """An object file, and what gcc said."""
    made = os.path.join(room, os.path.basename(source) + ".o")
    done = subprocess.run(["gcc", "-std=c99", "-Wall", "-Wextra", "-Wpedantic", "-Werror", "-Iinclude", "-c", "-o", made, source],
                          cwd=ROOT, stdout=subprocess.PIPE, stderr=subprocess.STDOUT, text=True, timeout=TIMEOUT)
    return made, done.stdout


def run(room, *parts):
    """(status, output) of the program in C with --list, linked from some parts and the library."""
    program = os.path.join(room, "refusals")
    linked = subprocess.run(["gcc", "-o", program, *parts, "target/staticlib/libsimd_c.a"], cwd=ROOT, timeout=TIMEOUT)
    if linked.returncode:
        return 2, ""
    done = subprocess.run([program, "--list"], cwd=ROOT, stdout=subprocess.PIPE, text=True, timeout=TIMEOUT)
    return done.returncode, done.stdout


def provoked(tally, room, program):
    """(number, words) of all that the program in C tries."""
    status, output = run(room, program)
    *lines, last = output.splitlines() or [""]
    tried = [(int(number), words) for number, words in re.findall(r"^(\d+) (.+)$", "\n".join(lines), re.M)]
    tally.equal((status, [line for line in lines if line.startswith(" ")]), (0, []),
                "every provocation has its answer and changes nothing")
    tally.equal((last, len(tried)), ("refusals from C: %d compared, 0 differ" % (len(lines) + 1), len(lines)), "the program's lines")
    return tried


# Calls that are wrong in one way each: what is done before the refusal is returned.
WRONG = (
    ("simd_hash", "if (refusal == 1) refusal = 7;"),
    ("simd_compare", "if (refusal == 2) refusal = 0;"),
    ("simd_feed", "if (bits % 8 && piece_len > 1) refusal = 3;"),
    ("simd_hmac_open", "if (refusal == 4) refusal = 0;"),
    ("simd_hmac_check", "if (refusal == 5) *right = 0;"),
    ("simd_feed", "if (refusal == 6) *blocks = 0;"),
    ("simd_expand", "if (refusal == 7) out[0] = 0;"),
    ("simd_restore", "if (refusal == 8) form[0] = 0;"),
    ("simd_take", "if (refusal == 9) out[0] = 0;"),
    ("simd_tape", "if (refusal == 10) *place += 1;"),
    ("simd_tape", "if (refusal == 11) *count += 1;"),
    ("simd_tape", "if (refusal == 12) refusal = 11;"),
    ("simd_page_entry", "if (refusal == 14) out[out_len - 1] = 0;"),
    ("simd_reindex", "if (refusal == 15) index[0] = 0;"),
)
WRAPPED = """#include "simd.h"
uint8_t __real_%(call)s(%(parameters)s);
uint8_t __wrap_%(call)s(%(parameters)s)
{
    uint8_t refusal = __real_%(call)s(%(names)s);
    %(body)s
    return refusal;
}
"""


def check_wrong(tally, room, program, header):
    """The program in C finds each of these."""
    parameters = dict(re.findall(r"^SIMD_CALL uint8_t (\w+)\(([^)]*)\);", header, re.M))
    source = os.path.join(room, "wrong.c")
    for call, body in WRONG:
        names = ", ".join(re.findall(r"(\w+)(?:,|$)", parameters[call]))
        with open(source, "w", encoding="utf-8") as f:
            f.write(WRAPPED % {"call": call, "parameters": parameters[call], "names": names, "body": body})
        wrong, said = compiled(room, source)
        status, output = run(room, program, wrong, "-Wl,--wrap=" + call)
        tally.equal((said, status, "\n  line " in output), ("", 1, True), "%s with %s" % (call, body))


def check_checks(tally, rows, tried, in_header, in_rust):
    """What is wrong in one way is found."""
    def without(number):
        return [row for row in rows if row[0] != number]

    def changed(number, change):
        return [(k, change(row) if k == number else row) for k, row in rows]

    last = max(in_header)
    for name, arguments in (
            ("a row more", (rows + [(last + 1, "a full moon")], tried, in_header, in_rust)),
            ("a row and its number more", (rows + [(last + 1, "a full moon")], tried, in_header + [last + 1], in_rust + [last + 1])),
            ("a number more in the header", (rows, tried, in_header + [last + 1], in_rust)),
            ("a number less in the header", (rows, tried, in_header[:-1], in_rust)),
            ("a number less in the crate", (rows, tried, in_header, in_rust[1:])),
            ("rows in another order", (rows[::-1], tried, in_header, in_rust)),
            ("no rows", ([], tried, in_header, in_rust)),
            ("3 not retired", (changed(RETIRED, lambda row: row.replace("retired: ", "")), tried, in_header, in_rust)),
            ("4 retired", (changed(4, lambda row: "retired: " + row), tried, in_header, in_rust)),
            ("a provocation of no number", (rows, tried + [(last + 1, "a full moon")], in_header, in_rust)),
            ("a provocation of no words", (rows, tried + [(last, "a full moon")], in_header, in_rust))):
        tally.equal(faults(*arguments) != [], True, name)
    for number, row in rows:
        what = "%d: " % number
        tally.equal(faults(without(number), tried, in_header, in_rust) != [], True, what + "no row")
        tally.equal(faults(rows, [one for one in tried if one[0] != number], in_header, in_rust) != [], True, what + "no provocation")
        more = changed(number, lambda row: row + ", or a full moon")
        tally.equal(faults(more, tried, in_header, in_rust), ["%d: not tried: a full moon" % number], what + "a condition more")
        for words in {words for k, words in tried if k == number}:
            rest = [one for one in tried if one != (number, words)]
            tally.equal(faults(rows, rest, in_header, in_rust) != [], True, what + "without '%s'" % words)


def main():
    tally = Tally("refusals")
    rows = table(read("README.md"))
    header = read("include", "simd.h")
    in_header, in_rust = header_numbers(header), rust_numbers(read("rust", "src", "refusal.rs"))
    with tempfile.TemporaryDirectory() as room:
        program, said = compiled(room, "tests/c/refusals.c")
        tally.equal(said, "", "compiled")
        tried = provoked(tally, room, program)
        check_wrong(tally, room, program, header)
    tally.equal(faults(rows, tried, in_header, in_rust), [], "README's table")
    check_checks(tally, rows, tried, in_header, in_rust)
    return tally.finish("%d numbers, %d conditions" % (len(rows), len(set(tried))))


if __name__ == "__main__":
    sys.exit(main())
