#!/usr/bin/env python3
"""include/simd.h as a file: what compilers say to it, its examples and README's
as they stand, README's table of its calls, its texts and version, the memory that
the library uses, and that the instructions of a check do not tell where a tag is
wrong.

    tests/c/check.py

Needs target/staticlib/libsimd_c.a, gcc, g++, nm, objdump and valgrind; clang is
used where it is there.  What the calls do is tried by door.c and the test programs
above.
"""

import os
import re
import shutil
import subprocess
import sys

HERE = os.path.dirname(os.path.abspath(__file__))
ROOT = os.path.dirname(os.path.dirname(HERE))
sys.path.insert(0, os.path.dirname(HERE))
from tally import Tally  # noqa: E402
import hmac_ref  # noqa: E402
import index_ref  # noqa: E402
import page_ref  # noqa: E402
import quote_ref  # noqa: E402
import simd_ref as ref  # noqa: E402
import frames  # noqa: E402

BUILT = os.path.join(ROOT, "target", "tests", "c")
ARCHIVE = os.path.join(ROOT, "target", "staticlib", "libsimd_c.a")
INCLUDE = "-I" + os.path.join(ROOT, "include")
STRICT = ["-Wall", "-Wextra", "-Wpedantic", "-Werror"]
STRICTER = STRICT + ["-Wconversion", "-Wsign-conversion", "-Wshadow", "-Wcast-qual", "-Wundef",
                     "-Wunused"]
ALLOWED = {"memcpy", "memset"}
RECORD = (10000, 9876, 37)      # of the examples: its bytes, the place that is corrected and its new value

tally = Tally("header")


def read(*parts):
    with open(os.path.join(ROOT, *parts), encoding="utf-8") as f:
        return f.read()


HEADER = read("include", "simd.h")


def run(command, **options):
    """(status, standard output, standard error) of a command."""
    done = subprocess.run(command, stdout=subprocess.PIPE, stderr=subprocess.PIPE, **options)
    return done.returncode, done.stdout.decode(), done.stderr.decode()


def written(name, text):
    path = os.path.join(BUILT, name)
    with open(path, "w", encoding="utf-8") as f:
        f.write(text)
    return path


def compilers(source):
    """Commands that a source file has to compile under: C also as C++."""
    commands = []
    if source.endswith(".c"):
        commands += [["gcc", "-std=c99"], ["gcc", "-std=c11"], ["clang", "-std=c99"]]
    for compiler in ("g++", "clang++"):
        commands += [[compiler, "-x", "c++", "-std=" + c] for c in ("c++11", "c++17")]
    return [c for c in commands if not c[0].startswith("clang") or shutil.which(c[0])]


def program(source, compiler):
    """The program built from a source file, None where it does not compile."""
    out = os.path.join(BUILT, os.path.splitext(os.path.basename(source))[0])
    status, _, errors = run([*compiler, *STRICT, "-O2", INCLUDE, "-o", out, source,
                             "-x", "none", ARCHIVE])
    tally.equal((status, errors), (0, ""), "%s: %s" % (" ".join(compiler), os.path.basename(source)))
    return None if status else out


def examples(text):
    """{file name: source} of the examples in the header's first comment."""
    found, name = {}, None
    for line in text[:text.index("*/") + 2].split("\n"):
        head = re.match(r" {5}(\w+\.(?:c|cpp)): ", line)
        if head:
            name, found[head.group(1)] = head.group(1), []
        elif name and line.startswith(7 * " "):
            found[name].append(line[7:].removesuffix(" */"))
        elif name and not line and found[name]:
            found[name].append("")
    return {name: "\n".join(lines).rstrip() + "\n" for name, lines in found.items()}


def fenced(text, language):
    return re.findall(r"^```%s\n(.*?)^```$" % language, text, re.M | re.S)


def digest(width, data):
    return ref.digest(width, data, 8 * len(data)).hex() + "\n"


def check_compilers():
    """The header alone, included twice, with nothing of it used."""
    for name in ("alone.c", "alone.cpp"):
        source = written(name, '#include "simd.h"\n#include "simd.h"\n')
        for compiler in compilers(source):
            status, _, errors = run([*compiler, *STRICTER, INCLUDE, "-fsyntax-only", source])
            tally.equal((status, errors), (0, ""), "%s: the header alone" % " ".join(compiler))
    # A compiler without attributes gets none.
    stubs = os.path.join(BUILT, "stubs")
    os.makedirs(stubs, exist_ok=True)
    for name in ("stddef.h", "stdint.h", "stdbool.h"):
        written(os.path.join("stubs", name), "")
    status, text, _ = run(["gcc", "-std=c99", "-E", "-P", "-U__GNUC__", "-nostdinc", "-I" + stubs,
                           INCLUDE, os.path.join(BUILT, "alone.c")])
    tally.equal((status, text.count("uint8_t simd_"), "__attribute__" in text), (0, 20, False),
                "no attributes where they are not known")


CARELESS = '''#include "simd.h"
void careless(uint8_t *out, uint64_t *number)
{
    uint8_t form[SIMD_FORM(256)], answer = 0;
    %s
    (void)form; (void)answer; (void)out; (void)number;
}
'''
CARELESS_CALLS = [
    ("-Werror=unused-result", "simd_open(256, form, sizeof form);"),
    ("-Werror=unused-result", "simd_hash(256, form, 1, 8, out, 32);"),
    ("-Werror=unused-result", "simd_tape(form, 1, out, 32, number, number + 1);"),
    ("-Werror=unused-result", "simd_restore(form, sizeof form, out, SIMD_FORM(256));"),
    ("-Werror=unused-result", "simd_hmac_check(form, sizeof form, out, 32, number);"),
    ("-Werror=unused-result", "simd_page_entry(1, 256, form, 32, out, 76);"),
    ("-Werror=unused-result", "simd_quote(256, form, 32, out, 18);"),
    ("-Werror=unused-result", "simd_quote_check(out, 18, number);"),
    ("-Werror=unused-result", "simd_index(256, form, 1, 8, out, SIMD_HEAD, out + SIMD_HEAD, 32, number);"),
    ("-Werror=unused-result", "simd_reindex(256, form, 1, 8, form, SIMD_HEAD, 0, out, SIMD_HEAD, out + SIMD_HEAD, 32, number);"),
    ("-Werror=nonnull", "answer = simd_open(256, NULL, 0);"),
    ("-Werror=nonnull", "answer = simd_feed(form, sizeof form, NULL, 0, 0, number);"),
    ("-Werror=nonnull", "answer = simd_hash(256, NULL, 0, 0, out, 32);"),
    ("-Werror=nonnull", "answer = simd_take(form, sizeof form, out, 32, NULL);"),
    ("-Werror=nonnull", "answer = simd_restore(NULL, 0, form, sizeof form);"),
    ("-Werror=nonnull", "answer = simd_restore(form, sizeof form, NULL, 0);"),
    ("-Werror=nonnull", "answer = simd_hmac_open(256, NULL, 0, form, sizeof form);"),
    ("-Werror=nonnull", "answer = simd_hmac_check(form, sizeof form, NULL, 0, number);"),
    ("-Werror=nonnull", "answer = simd_page_entry(1, 256, NULL, 0, out, 76);"),
    ("-Werror=nonnull", "answer = simd_page_entry(1, 256, form, 32, NULL, 0);"),
    ("-Werror=nonnull", "answer = simd_quote(256, NULL, 0, out, 18);"),
    ("-Werror=nonnull", "answer = simd_quote(256, form, 32, NULL, 0);"),
    ("-Werror=nonnull", "answer = simd_quote_check(NULL, 0, number);"),
    ("-Werror=nonnull", "answer = simd_quote_check(out, 18, NULL);"),
    ("-Werror=nonnull", "answer = simd_index(256, NULL, 0, 0, out, SIMD_HEAD, out + SIMD_HEAD, 32, number);"),
    ("-Werror=nonnull", "answer = simd_index(256, form, 1, 8, out, SIMD_HEAD, out + SIMD_HEAD, 32, NULL);"),
    ("-Werror=nonnull", "answer = simd_reindex(256, form, 1, 8, NULL, 0, 0, out, SIMD_HEAD, out + SIMD_HEAD, 32, number);"),
    ("-Werror=nonnull", "answer = simd_reindex(256, form, 1, 8, form, SIMD_HEAD, 0, NULL, 0, out, 32, number);"),
    ("-Werror=overflow", "answer = simd_open(65792, form, sizeof form);"),
]


def check_warnings():
    """What the compiler says of an answer not looked at, of a null pointer and of
    a width that does not fit."""
    for k, (flag, call) in enumerate(CARELESS_CALLS):
        source = written("careless%d.c" % k, CARELESS % call)
        status, _, errors = run(["gcc", "-std=c99", flag, INCLUDE, "-c", "-o", os.devnull, source])
        tally.equal((status, "[%s]" % flag in errors), (1, True), "a warning of " + call)
    source = written("careful.c", CARELESS % "answer = simd_open(256, form, sizeof form);")
    tally.equal(run(["gcc", "-std=c99", *STRICT, INCLUDE, "-fsyntax-only", source])[0], 0,
                "no warning of a right call")


def keyed(key, data):
    """What the programs print that make a seal of 256 bits, check it, and check it with a message
    that was changed."""
    return hmac_ref.module_tag(256, key, data).hex() + " right\nwrong\n"


def page(data):
    """What the programs print that enter two digests of a message in a page."""
    entries = [(number, width, ref.digest(width, data, 8 * len(data))) for number, width in ((9, 256), (10, 512))]
    return page_ref.page(entries).decode("ascii")


def quotes(data):
    """What the programs print that quote the digest of a message, and check the quote before and after
    its first two digits are exchanged."""
    quote = quote_ref.quote(ref.digest(256, data, 8 * len(data))).decode("ascii")
    return "%s right\n%s%s%s wrong\n" % (quote, quote[1], quote[0], quote[2:])


def indexed(size, place, value):
    """What the programs print that index a record of zeros and correct one byte of it: digest and
    compressions of both runs."""
    record, block = bytearray(size), place // ref.block_bytes(256)
    old, first, total = index_ref.fresh(256, record, 8 * size)
    record[place] = value
    _, second, fewer = index_ref.corrected(256, record, 8 * size, old, block)
    tally.equal(second, ref.digest(256, record, 8 * size), "the digest of the corrected record")
    return "%s %d\n%s %d\n" % (first.hex(), total, second.hex(), fewer)


def check_examples():
    found = examples(HEADER)
    tally.equal(sorted(found), ["index.c", "keyed.c", "page.c", "quote.c", "restore.c", "stream.c", "vector.cpp", "whole.c"],
                "the header's examples")
    for name, text in found.items():
        source = written(name, text)
        for compiler in compilers(source):
            built = program(source, compiler)
            if not built:
                continue
            if name == "whole.c":
                tally.equal(run([built]), (0, digest(256, b"abc"), ""), name)
            elif name == "restore.c":
                tally.equal(run([built]), (0, digest(256, b"abcdef").replace("\n", " same\n"), ""), name)
            elif name == "keyed.c":
                tally.equal(run([built]), (0, keyed(b"group", b"abc"), ""), name)
            elif name == "page.c":
                tally.equal(run([built]), (0, page(b"abc"), ""), name)
            elif name == "quote.c":
                tally.equal(run([built]), (0, quotes(b"abc"), ""), name)
            elif name == "index.c":
                tally.equal(run([built]), (0, indexed(*RECORD), ""), name)
            elif name == "vector.cpp":
                tally.equal(run([built]), (0, digest(512, b""), ""), name)
            else:
                check_stream(built)


def check_stream(built):
    """65,792 is 256 once C has cut it to 16 bits."""
    tally.equal(run([built], input=b"abc"), (0, digest(256, b"abc"), ""), "stream")
    for width in ref.WIDTHS:
        for size in (0, 1, 4095, 4096, 4097, 10000):
            data = bytes(k * 37 % 251 for k in range(size))
            tally.equal(run([built, str(width)], input=data), (0, digest(width, data), ""),
                        "stream of %d bytes at %d" % (size, width))
    for width in ("160", "65792", "-1", "0", "x"):
        tally.equal(run([built, width], input=b"abc"),
                    (1, "", "refused 1: the width is none of 224, 256, 384 and 512\n"),
                    "stream at width " + width)


def check_readme():
    """README's programs in C, as they stand, and what it shows of the output of all but the first."""
    readme = read("README.md")
    texts = fenced(readme, "c")
    printed = [digest(256, b"abc"), keyed(b"group", b"abc"), page(b"abc"), quotes(b"abc"), indexed(*RECORD)]
    tally.equal(len(texts), len(printed), "the programs in C")
    for expected in printed[1:]:
        tally.equal("\n```\n%s```\n" % expected in readme, True, "README's output of a program in C")
    for text, expected in zip(texts, printed):
        built = program(written("readme.c", text), ["gcc", "-std=c99"])
        if built:
            tally.equal(run([built]), (0, expected, ""), "README's program in C")


def documented_refusals():
    """{call: the numbers that the header lists under it, in order}; a form's and a keyed form's are words."""
    numbers = dict(re.findall(r"^#define (SIMD_REFUSED_\w+) (\d+)", HEADER, re.M))
    found = {}
    for names, text in re.findall(r"^/\* (simd_\w+(?:, simd_\w+)*) - (.*?)\*/", HEADER, re.M | re.S):
        lines, entries = text.partition("\n   Refusals")[2], []
        for line in re.sub(r"\n {10,}", " ", lines).split("\n"):
            entry = re.match(r" {5}(?:(SIMD_REFUSED_\w+)|those of a ((?:keyed )?form)|(the same two of b))", line)
            if entry and "never" not in line:
                name, form, again = entry.groups()
                entries += entries[-1:] if again else [numbers[name] if name else form]
        for name in names.split(", "):
            found[name] = ", ".join(entries) or "none"
    return found


def check_calls():
    """README's table of the calls has each, with its refusals in the header's order."""
    table = re.search(r"^### The calls\n(.*?)^### ", read("README.md"), re.M | re.S)
    rows = re.findall(r"^\| (`simd_.*?`) \| .* \| (.*) \|$", table.group(1) if table else "", re.M)
    found = {name: refusals for names, refusals in rows for name in re.findall(r"simd_\w+", names)}
    expected = documented_refusals()
    expected.pop("simd_refusal_text")
    tally.equal(len(expected), 20, "the calls that the header documents")
    for name in sorted(set(expected) | set(found)):
        tally.equal(found.get(name), expected.get(name), "README: the refusals of " + name)


TEXTS = '''#include <stdio.h>
#include "simd.h"
int main(void)
{
    for (int k = 0; k < 256; k++)
        puts(simd_refusal_text((uint8_t)k));
    printf("%d.%d.%d\\n", SIMD_VERSION_MAJOR, SIMD_VERSION_MINOR, SIMD_VERSION_PATCH);
    puts(SIMD_VERSION);
    return 0;
}
'''


def check_texts():
    """A text of its own for each number; one version in all places."""
    numbers = [int(n) for n in re.findall(r"^#define SIMD_(?:ACCEPTED|REFUSED_\w+) (\d+)", HEADER, re.M)]
    tally.equal(numbers, list(range(16)), "the numbers")
    built = program(written("texts.c", TEXTS), ["gcc", "-std=c99"])
    if not built:
        return
    *texts, joined, version = run([built])[1].splitlines()
    tally.equal(len(set(texts[:16])), 16, "a text for each number")
    tally.equal([k for k in range(16) if texts[k].startswith("retired: ")], [3], "the retired number")
    tally.equal(set(texts[16:]), {"no such refusal"}, "no text for other numbers")
    tally.equal(version, joined, "SIMD_VERSION and its parts")
    cargo = re.search(r'^version = "(.*)"', read("rust", "Cargo.toml"), re.M).group(1)
    tally.equal(cargo, version, "the version in rust/Cargo.toml")
    tally.equal(re.findall(r"^## \[(\d.*?)\]", read("CHANGELOG.md"), re.M)[:1], [version],
                "the last version in CHANGELOG.md")


def check_memory():
    """No heap and no variables: what the archive asks of others, and what it has
    besides code and constants; the stack by measurement."""
    _, undefined, _ = run(["nm", "-u", ARCHIVE])
    _, defined, _ = run(["nm", "--defined-only", ARCHIVE])
    wanted = set(re.findall(r"^\s+U (\S+)$", undefined, re.M))
    here = set(re.findall(r"^\S+ \w (\S+)$", defined, re.M))
    tally.equal(sorted(wanted - here - ALLOWED), [], "what the library calls")
    variables = re.findall(r"^\S+ [bBcCdDgGsS] (\S+)$", defined, re.M)
    tally.equal(variables, [], "variables of the library")
    # Bound at its start: the stack on which a loader finds memset is not the library's.
    built = program(os.path.join(HERE, "stack.c"), ["gcc", "-std=c99", "-Wl,-z,now"])
    if not built:
        return
    status, output, errors = run([built])
    print(output, end="")
    tally.equal((status, errors), (0, ""), "the stack that the header names")
    check_frames({name: int(used) for name, used in re.findall(r"^(simd_\w+) +(\d+) of", output, re.M)})


def pushed(parameters):
    """The bytes of a call's arguments on the stack, in whole pairs of words: six go by registers."""
    return (max(parameters - 6, 0) + 1) // 2 * 16


def check_frames(measured):
    """What was measured, in whole words, is at most what the code can need with what
    its caller pushes, and that at most what the header names."""
    named = {"simd_" + name.lower(): int(size)
             for name, size in re.findall(r"^#define SIMD_STACK_(\w+) (\d+)", HEADER, re.M)}
    named.pop("simd_max")
    parameters = {name: words.count(",") + 1
                  for name, words in re.findall(r"^SIMD_CALL uint8_t (\w+)\(([^)]*)\);", HEADER, re.M)}
    needed = frames.bounds(ARCHIVE)
    for known, what in ((needed, "a bound"), (measured, "a measurement"), (parameters, "a declaration")):
        tally.equal(set(known), set(named), what + " of each call")
    for name in sorted(set(named) & set(needed) & set(measured) & set(parameters)):
        most = (needed[name] + 7) // 8 * 8 + pushed(parameters[name])
        tally.equal(measured[name] <= most <= named[name], True,
                    "%s: measured %d, at most %d by its code, %d in the header"
                    % (name, measured[name], most, named[name]))


CHECKS = '''#include <stdlib.h>
#include "simd.h"
static uint8_t form[SIMD_HMAC_FORM_LARGE], tag[SIMD_DIGEST_MAX];
int main(int count, char **words)
{
    uint16_t width = (uint16_t)(count == 3 ? atoi(words[1]) : 0);
    int place = count == 3 ? atoi(words[2]) : 0;
    uint64_t blocks, right = 7;
    if (simd_hmac_open(width, (const uint8_t *)"key", 3, form, sizeof form)
        || simd_hmac_take(form, SIMD_HMAC_FORM(width), tag, sizeof tag, &blocks))
        return 2;
    if (place >= 0)
        tag[place] ^= 1;
    if (simd_hmac_check(form, SIMD_HMAC_FORM(width), tag, SIMD_DIGEST(width), &right))
        return 2;
    return right == (place < 0) ? 0 : 1;
}
'''


def check_time():
    """A check takes as many instructions wherever a byte of the tag differs, and where none does."""
    built = program(written("checks.c", CHECKS), ["gcc", "-std=c99"])
    if not built:
        return
    for width in ref.WIDTHS:
        counts = []
        for place in (-1, 0, 1, width // 16, width // 8 - 1):
            # Two digits always: longer words would move the stack, and memcpy goes by alignment.
            status, _, errors = run(["valgrind", "--tool=callgrind", "--callgrind-out-file=/dev/null",
                                     "--collect-atstart=no", "--toggle-collect=simd_hmac_check", built,
                                     str(width), "%02d" % place])
            tally.equal(status, 0, "a check at %d" % width)
            counts += re.findall(r"Collected : (\d+)", errors)
        tally.equal((len(counts), len(set(counts)), "0" in counts), (5, 1, False),
                    "instructions of checks at %d: %s" % (width, " ".join(counts)))


def main():
    os.makedirs(BUILT, exist_ok=True)
    check_compilers()
    check_warnings()
    check_examples()
    check_readme()
    check_calls()
    check_texts()
    check_memory()
    check_time()
    return tally.finish()


if __name__ == "__main__":
    sys.exit(main())
