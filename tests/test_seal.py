#!/usr/bin/env python3
"""The program `seal`: standard output, standard error and exit status, to the byte.

    test_seal.py [--seed S] [--count N]

Two subjects: ./seal, which people run, and target/bin/seal, the program behind
it, which has no status of its own and always ends with 0.

Each is tried on input that is closed, a folder, fails midway, comes byte by
byte, never ends, or has 65,535 to 65,537 bytes, and on output that is full,
closed or left by its reader; the program also on when it writes each line.
Then the cases of tests/tape/cases.txt, a tape cut at every byte, a tape of
hundreds of records, N random tapes, most of them damaged, against the
reference; and README's example as it stands.  At the end the checks are tried
themselves, on programs that are broken in one way each.  Needs Linux's /proc,
to look into the memory of a program that it started.
"""

import functools
import os
import pty
import re
import shlex
import subprocess
import sys
import tempfile
import time
import tty

from tally import HERE, Tally, random_arguments
import tape_ref
import tapes

ROOT = os.path.dirname(HERE)
PROGRAM = os.path.join(ROOT, "target", "bin", "seal")
TIMEOUT = 60

# The reference is slow on long tapes, and several are met again and again.
listing_of = functools.lru_cache(maxsize=None)(tape_ref.listing)

EMPTY = tapes.opening(256) + tapes.TAKE + tapes.STOP
WORKED = tapes.opening(256) + tapes.part(1, b"\x80" + bytes(31)) + tapes.opening(256)


class Subject:
    """A command that is to be `seal`, with the statuses 0, 1, 2 of ./seal; or
    the program alone, whose status is always 0."""

    def __init__(self, name, command, has_status, env=None):
        self.name, self.command, self.has_status = name, command, has_status
        self.env = dict(os.environ, **env or {})

    def status(self, listing):
        """The status after this listing; 2 where it is not whole."""
        last = listing.splitlines()[-1:] or [""]
        return (2, 0, 1)[last[0].startswith("done ") + 2 * last[0].startswith("refused ")] \
            if self.has_status else 0

    def start(self, **options):
        return subprocess.Popen(self.command, env=self.env, **options)

    def run(self, tape=None, **options):
        """(standard output, standard error, status)."""
        if tape is not None:
            options["input"] = tape
        done = subprocess.run(self.command, env=self.env, timeout=TIMEOUT,
                              **{"stdout": subprocess.PIPE, "stderr": subprocess.PIPE, **options})
        return (done.stdout or b"").decode(), done.stderr.decode(), done.returncode

    def by_shell(self, redirection):
        """With descriptors as the shell's redirection leaves them."""
        command = "exec %s %s" % (" ".join(map(shlex.quote, self.command)), redirection)
        done = subprocess.run(["sh", "-c", command], env=self.env, timeout=TIMEOUT, input=EMPTY,
                              stdout=subprocess.PIPE, stderr=subprocess.PIPE)
        return done.stdout.decode(), done.stderr.decode(), done.returncode

    def expected(self, listing):
        return listing, "", self.status(listing)

    def failed(self, what):
        """No line at all, and what is said of it."""
        return "", "seal: %s\n" % what, self.status("")


LAUNCHER = Subject("./seal", [os.path.join(ROOT, "seal")], True)
ALONE = Subject("target/bin/seal", [PROGRAM], False)


# Input

def byte_by_byte(subject, tape):
    """Each read of the input gives one byte: a pipe of packets, written one by one."""
    inward, outward = os.pipe2(os.O_DIRECT | os.O_CLOEXEC)
    process = subject.start(stdin=inward, stdout=subprocess.PIPE, stderr=subprocess.PIPE)
    os.close(inward)
    for k in range(len(tape)):
        os.write(outward, tape[k:k + 1])
    os.close(outward)
    out, err = process.communicate(timeout=TIMEOUT)
    return out.decode(), err.decode(), process.returncode


def failing_midway(tape):
    """An input that gives these bytes and then fails with EIO: a terminal's
    controlling side, after the other side was closed."""
    inward, outward = pty.openpty()
    tty.setraw(outward)
    os.write(outward, tape)
    os.close(outward)
    return inward


def with_input(subject, descriptor):
    try:
        return subject.run(stdin=descriptor)
    finally:
        os.close(descriptor)


def check_input(tally, subject):
    def same(found, expected, what):
        tally.equal(found, expected, what)

    probe = failing_midway(EMPTY)
    same(os.read(probe, 100), EMPTY, "input that fails midway gives its bytes first")
    os.close(probe)
    same(subject.by_shell("<&-"), subject.failed("standard input: Bad file descriptor"), "closed input")
    same(with_input(subject, os.open(ROOT, os.O_RDONLY)),
         subject.failed("standard input: Is a directory"), "a folder as input")
    same(with_input(subject, failing_midway(EMPTY)),
         subject.failed("standard input: Input/output error"), "input that fails midway")
    same(with_input(subject, os.open("/dev/null", os.O_RDONLY)),
         subject.expected("refused 11 at 0\n"), "no byte of input")
    same(subject.run(EMPTY), subject.expected(listing_of(EMPTY)), "a tape with a digest")
    same(subject.run(WORKED), subject.expected("refused 12 at 37\n"), "the worked tape")
    for tape, what in ((EMPTY, "done"), (WORKED, "refused")):
        same(byte_by_byte(subject, tape), subject.expected(listing_of(tape)),
             "byte by byte, " + what)

    # The same tape below the limit, at it and above it.
    for size in (65535, 65536):
        same(subject.run(tapes.of_length(size)), subject.expected("refused 11 at %d\n" % size),
             "%d bytes" % size)
    too_long = subject.expected("refused 13 at 65536\n")
    for size in (65537, 65538, 200000):
        same(subject.run(tapes.of_length(size)), too_long, "%d bytes" % size)
    taken = tapes.of_length(65536, tapes.TAKE + tapes.STOP)
    same(subject.run(taken), subject.expected(listing_of(taken)), "65536 bytes with TAKE and STOP")
    same(subject.run(taken + b"\x05"), too_long, "a byte after STOP too many")
    same(subject.run(EMPTY.ljust(65536, b"\xff")), subject.expected(listing_of(EMPTY)),
         "filled to 65536 bytes")
    same(subject.run(EMPTY.ljust(65537, b"\xff")), too_long, "filled to 65537 bytes")
    same(with_input(subject, os.open("/dev/zero", os.O_RDONLY)), too_long, "input that never ends")
    with tempfile.TemporaryFile() as file:
        file.write(bytes(70000))
        file.seek(0)
        same(subject.run(stdin=file), too_long, "a file of 70000 bytes")
        same(os.lseek(file.fileno(), 0, os.SEEK_CUR), 65537, "bytes read of it")


# Output

def left_by_reader(subject, tape, size, told=True):
    """(the bytes read before the reader leaves, standard error, status); told
    is whether the signal for it is left to do its work, or ignored."""
    process = subject.start(stdin=subprocess.PIPE, stdout=subprocess.PIPE, stderr=subprocess.PIPE,
                            restore_signals=told)
    found = b""
    if not size:
        process.stdout.close()
    process.stdin.write(tape)
    process.stdin.close()
    if size:
        found = process.stdout.read(size)
        process.stdout.close()
    err = process.stderr.read()
    process.stderr.close()
    return found.decode(), err.decode(), process.wait(timeout=TIMEOUT)


def check_output(tally, subject, many):
    tally.equal(subject.by_shell(">/dev/full"),
                subject.failed("standard output: No space left on device"), "/dev/full")
    tally.equal(subject.by_shell(">&-"),
                subject.failed("standard output: Bad file descriptor"), "closed output")
    listing = listing_of(many)
    # The program ignores SIGPIPE from its start, so that the write fails.
    said, status = ("", 2) if subject.has_status else subject.failed("standard output: Broken pipe")[1:]
    for size in (0, 1, 100, 5000):
        tally.equal(left_by_reader(subject, many, size), (listing[:size], said, status),
                    "a reader that leaves after %d bytes" % size)
    tally.equal(left_by_reader(subject, many, 0, told=False), ("", said, status), "a reader that leaves, SIGPIPE ignored")
    out, inside = tempfile.TemporaryFile(), b"what was there\n"
    with out:
        out.write(inside)
        out.flush()
        tally.equal(subject.run(EMPTY, stdout=out), ("", "", subject.status("done 1")),
                    "output to a file")
        out.seek(0)
        tally.equal(out.read(), inside + listing_of(EMPTY).encode(), "the file's bytes")


# When a line is written

def packets(subject, tape):
    """What each write to standard output is handed."""
    inward, outward = os.pipe2(os.O_DIRECT | os.O_CLOEXEC)
    process = subject.start(stdin=subprocess.PIPE, stdout=outward)
    os.close(outward)
    process.stdin.write(tape)
    process.stdin.close()
    found = list(iter(lambda: os.read(inward, 65536), b""))
    os.close(inward)
    process.wait(timeout=TIMEOUT)
    return [packet.decode() for packet in found]


def writable(pid):
    """The places of a process's memory that it may write to."""
    with open("/proc/%d/maps" % pid, encoding="ascii") as f:
        for line in f:
            extent, rights = line.split()[:2]
            if rights.startswith("rw"):
                yield [int(place, 16) for place in extent.split("-")]


def replace_in_memory(pid, old, new):
    """Replaces some bytes wherever they are in a process's memory; how often."""
    count = 0
    with open("/proc/%d/mem" % pid, "r+b", buffering=0) as memory:
        for start, end in writable(pid):
            memory.seek(start)
            try:
                data = memory.read(end - start)
            except OSError:
                continue
            at = data.find(old)
            while at >= 0:
                memory.seek(start + at)
                memory.write(new)
                count += 1
                at = data.find(old, at + len(old))
    return count


def changed_at_first_line(subject, tape, changed):
    """What is written if the tape is changed in the process's memory while it
    waits to write its first line, because the pipe is full."""
    inward, outward = os.pipe()
    os.set_blocking(outward, False)
    filling = 0
    try:
        while True:
            filling += os.write(outward, b"x")
    except BlockingIOError:
        os.set_blocking(outward, True)
    with tempfile.TemporaryFile() as file:
        file.write(tape)
        file.seek(0)
        process = subject.start(stdin=file, stdout=outward)
    os.close(outward)
    deadline = time.monotonic() + TIMEOUT
    # write is call 1 of x86-64, and its first argument the descriptor.
    while time.monotonic() < deadline:
        with open("/proc/%d/syscall" % process.pid, encoding="ascii") as f:
            if f.read().split()[:2] == ["1", "0x1"]:
                break
        time.sleep(0.002)
    count = replace_in_memory(process.pid, tape, changed)
    found = b"".join(iter(lambda: os.read(inward, 65536), b""))
    os.close(inward)
    process.wait(timeout=TIMEOUT)
    return count > 0, found[filling:].decode()


def check_lines(tally, subject, rng):
    """Each line is written as its TAKE is met, by a write of its own."""
    commands = sum((tapes.record(rng, 3) for _ in range(20)), []) + [tapes.STOP]
    tape = b"".join(commands)
    lines = listing_of(tape).splitlines(keepends=True)
    tally.equal(packets(subject, tape), lines, "a write for each line")

    # Of two tapes that differ after the first TAKE, each line but the first is the second's.
    first = tapes.opening(256) + tapes.full(rng.randbytes(32)) + tapes.TAKE
    second, third = rng.randbytes(32), rng.randbytes(32)
    tape, changed = (first + tapes.opening(512) + tapes.full(data) + tapes.TAKE + tapes.STOP
                     for data in (second, third))
    tally.equal(changed_at_first_line(subject, tape, changed), (True, listing_of(changed)),
                "a line written before the next record is read")


# README

def readme_example():
    """The commands of README that pipe a tape to ./seal, and the listing below them."""
    with open(os.path.join(ROOT, "README.md"), encoding="utf-8") as f:
        blocks = re.findall(r"^```(\w*)\n(.*?)^```$", f.read(), re.M | re.S)
    found = [(text, blocks[k + 1]) for k, (language, text) in enumerate(blocks[:-1])
             if language == "sh" and "| ./seal" in text]
    return [(commands, listing) for commands, (language, listing) in found if not language]


def check_readme(tally):
    examples = readme_example()
    tally.equal(len(examples) > 0, True, "README has an example")
    for commands, listing in examples:
        done = subprocess.run(["sh", "-c", commands], cwd=ROOT, timeout=TIMEOUT,
                              stdout=subprocess.PIPE, stderr=subprocess.PIPE)
        tally.equal((done.stdout.decode(), done.stderr.decode(), done.returncode),
                    LAUNCHER.expected(listing), "README's example")


# The checks themselves

class Recorder(Tally):
    """Keeps the names of the checks that differ and prints nothing."""

    def __init__(self):
        super().__init__("")
        self.names = set()

    def equal(self, found, expected, what):
        self.compared += 1
        if found != expected:
            self.differ += 1
            self.names.add(what)


SCRIPT = "#!/bin/sh\n%s\n"
STATUS_0 = "status 0 on unreadable input"   # which is right of the program alone
AT_ONCE = '"$SEAL" >"$ROOM/out"; status=$?; cat "$ROOM/out"; exit $status'

# Broken in one way each: (name, text of a script that stands for "$SEAL", a check that must fail).
BROKEN = (
    ("always status 1", '"$SEAL"; exit 1', "a tape with a digest"),
    ("noise on standard error", 'echo noise >&2; exec "$SEAL"', "a tape with a digest"),
    ("silent on unreadable input",
     '"$SEAL" 2>"$ROOM/err"; status=$?; grep -v "standard input" "$ROOM/err" >&2; exit $status',
     "a folder as input"),
    ("'refused 0 at 0' on unreadable input",
     '"$SEAL" >"$ROOM/out"; status=$?; [ -s "$ROOM/out" ] || echo refused 0 at 0\n'
     'cat "$ROOM/out"; exit $status', "input that fails midway"),
    (STATUS_0,
     '"$SEAL"; status=$?; [ $status -eq 2 ] && exit 0; exit $status', "closed input"),
    ("silent where the output is full", '"$SEAL" 2>/dev/null', "/dev/full"),
)
# Broken in when it writes; only the program alone is tried on that.
LATE = (
    ("all lines written at the end", AT_ONCE, "a write for each line"),
    ("all lines worked out, then written one by one",
     'exec %s -B "$ROOM/late.py"' % shlex.quote(sys.executable),
     "a line written before the next record is read"),
)
LATE_PROGRAM = """import os, sys
sys.path[:0] = [%r]
import tally, tape_ref
tape = os.read(0, 65537)
for line in tape_ref.listing(tape).splitlines(keepends=True):
    os.write(1, line.encode())
""" % HERE


def check_checks(tally, rng, many):
    """The programs above fail the checks, and one that is not broken passes them."""
    with tempfile.TemporaryDirectory() as room:
        with open(os.path.join(room, "late.py"), "w", encoding="utf-8") as f:
            f.write(LATE_PROGRAM)

        def stand_in(real, number, name, text, must_fail, checks):
            path = os.path.join(room, "seal%d" % number)
            with open(path, "w", encoding="utf-8") as f:
                f.write(SCRIPT % text)
            os.chmod(path, 0o755)
            record = Recorder()
            checks(record, Subject(name, [path], real.has_status, {"SEAL": real.command[0], "ROOM": room}))
            what = "%s in place of %s" % (name, real.name)
            if must_fail is None:
                tally.equal(sorted(record.names), [], what)
            else:
                tally.equal(must_fail in record.names, True, "%s fails '%s'" % (what, must_fail))

        def whole(record, subject):
            check_subject(record, subject, rng, many)

        def streams(record, subject):
            check_input(record, subject)
            check_output(record, subject, many)

        def lines(record, subject):
            check_lines(record, subject, rng)

        number = 0
        for real in (LAUNCHER, ALONE):
            number += 1
            stand_in(real, number, "not broken", 'exec "$SEAL"', None, whole)
            for name, text, must_fail in BROKEN:
                if real.has_status or name != STATUS_0:
                    number += 1
                    stand_in(real, number, name, text, must_fail, streams)
        for name, text, must_fail in LATE:
            number += 1
            stand_in(ALONE, number, name, text, must_fail, lines)
        return number - 2


def check_subject(tally, subject, rng, many):
    check_input(tally, subject)
    check_output(tally, subject, many)
    if not subject.has_status:
        check_lines(tally, subject, rng)


def main():
    rng, count = random_arguments(3, 500)
    if not os.path.exists(PROGRAM):
        sys.exit("no target/bin/seal: run tests/run")
    tally = Tally("seal")
    # Its listing has more bytes than a pipe holds.
    many = (tapes.opening(512) + tapes.TAKE) * 1000 + tapes.STOP
    for subject in (LAUNCHER, ALONE):
        check_subject(tally, subject, rng, many)

        def same(tape, listing, what):
            tally.equal(subject.run(tape), subject.expected(listing), "%s: %s" % (subject.name, what))

        same(many, listing_of(many), "1000 digests")
        for tape, room, listing in tapes.cases():
            if room is None:
                same(tape, listing, "cases.txt: " + tape.hex()[:60])
    for tape, place in tapes.cuts():
        found = LAUNCHER.run(tape)
        tally.equal(found, LAUNCHER.expected(listing_of(tape)), "cut at %d" % len(tape))
        tally.equal(found[0].splitlines()[-1:], ["refused 11 at %d" % place], "cut at %d" % len(tape))
    check_readme(tally)

    tape = tapes.long_tape(rng, 300)
    tally.equal(LAUNCHER.run(tape), LAUNCHER.expected(listing_of(tape)), "300 records")
    for k in range(count):
        tape = tapes.random_tape(rng)
        tally.equal(LAUNCHER.run(tape), LAUNCHER.expected(listing_of(tape)), "random tape %d" % k)
    broken = check_checks(tally, rng, many)
    return tally.finish("a tape of 300 records, %d random tapes, %d broken programs" % (count, broken))


if __name__ == "__main__":
    sys.exit(main())
