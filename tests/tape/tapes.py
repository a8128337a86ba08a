"""Tapes for the tests: those of cases.txt, and random ones."""

import os

from tally import message, read_bytes
import simd_ref as ref

HERE = os.path.dirname(os.path.abspath(__file__))
TAKE, STOP = b"\x04", b"\x05"


def opening(width):
    return b"\x01" + width.to_bytes(2, "little")


def full(data):
    return b"\x02" + data


def part(count, data):
    return b"\x03" + bytes([count]) + data


def cases():
    """(tape, room or None, listing) of each case of cases.txt."""
    found = []
    with open(os.path.join(HERE, "cases.txt"), encoding="ascii") as f:
        for line in f:
            word = line.split(" ", 1)[0].strip()
            if word == "tape":
                found.append([read_bytes(line[5:]), None, ""])
            elif word == "room":
                found[-1][1] = int(line.split()[1])
            elif word in ("digest", "refused", "done"):
                found[-1][2] += line
    return found


def answer(listing):
    """([digest], refusal, place) that a listing tells."""
    lines = [line.split() for line in listing.splitlines()]
    digests = [bytes.fromhex(field[3]) for field in lines[:-1]]
    last = lines[-1]
    return digests, *((int(last[1]), int(last[3])) if last[0] == "refused" else (0, 0))


def cuts():
    """(tape, place) of a tape with every command, cut at every byte; the place
    is that of its refusal 11."""
    commands = [opening(256), full(bytes(range(32))), part(9, b"\xa5\x80" + bytes(30)), TAKE,
                opening(512), TAKE, STOP]
    tape, starts = b"".join(commands), [0]
    for command in commands:
        starts.append(starts[-1] + len(command))
    return [(tape[:n], max(start for start in starts if start <= n)) for n in range(len(tape))]


# Random tapes, as lists of commands

def record(rng, longest):
    """OPEN, some FULL and PART, TAKE."""
    commands = [opening(rng.choice(ref.WIDTHS))]
    for _ in range(rng.randint(0, longest)):
        if rng.randrange(2):
            commands.append(full(rng.randbytes(32)))
        else:
            count = rng.choice((0, 1, 255, rng.randrange(256)))
            clean = message(rng, count).ljust(32, b"\0")
            commands.append(part(count, rng.choice((clean, rng.randbytes(32)))))
    return commands + [TAKE]


def long_tape(rng, records):
    return b"".join(b"".join(record(rng, 4)) for _ in range(records)) + STOP


def of_length(length, end=b""):
    """A tape of that many bytes: OPEN, FULL, PART, then the end given."""
    parts = (length - 3 - len(end)) % 33
    fulls = (length - 3 - len(end) - 34 * parts) // 33
    data = opening(256) + full(bytes(range(32))) * fulls + part(9, b"\xa5\x80" + bytes(30)) * parts
    assert len(data + end) == length
    return data + end


def damaged(rng, commands):
    """The bytes of a tape with at most one thing wrong in it."""
    kind = rng.randrange(8)
    at = rng.randrange(len(commands))
    if kind == 0:                        # a command left out or doubled
        moved = commands.pop(at)
        commands[at:at] = rng.choice(([], [moved, moved]))
    elif kind == 1:                      # one of another place put in
        commands[at:at] = [commands[rng.randrange(len(commands))]]
    elif kind == 2:                      # a width changed
        commands[at:at] = [opening(rng.choice((0, 1, 255, 257, 511, rng.randrange(65536))))]
    elif kind == 3:                      # a bit set, perhaps past the count, where it is ignored
        count, data = rng.randrange(256), bytearray(32)
        data[rng.randrange(32)] = 1 << rng.randrange(8)
        commands[at:at] = [part(count, bytes(data))]
    tape = bytearray(b"".join(commands))
    place = rng.randrange(len(tape))
    if kind == 4:
        del tape[place:]
    elif kind == 5:
        tape[place] ^= 1 << rng.randrange(8)
    elif kind == 6:
        tape[place:place + 1] = rng.choice((b"", rng.randbytes(2)))
    return bytes(tape)


def random_tape(rng):
    """A tape of up to four records, most of them damaged; or small bytes."""
    if not rng.randrange(10):
        return bytes(rng.randrange(7) for _ in range(rng.randrange(60)))
    commands = sum((record(rng, 3) for _ in range(rng.randint(1, 4))), [])
    return damaged(rng, commands + [STOP])
