"""The tape of commands and the listing of `seal`, written from the scope and from
the change requests: what is past the count of a PART is ignored, and a line ends
with the quote of its digest.

    read(tape, at)       the command at a place and the next place, or Refused
    run(tape, room)      its digests, the refusal and its place
    listing(tape, room)  what `seal` prints

Run alone, it prints the listing of the tape on standard input.
"""

import sys

import form_ref
import quote_ref
import simd_ref as ref

OPEN, FULL, PART, TAKE, STOP = 1, 2, 3, 4, 5
TAPE_MAX = 65536


class Refused(Exception):
    """A refusal's number and place."""


def read(tape, at):
    """(command, its bytes after the command byte, the next place)."""
    if at >= len(tape):
        raise Refused(11, len(tape))
    command = tape[at]
    if command not in (OPEN, FULL, PART, TAKE, STOP):
        raise Refused(10, at)
    size = {OPEN: 2, FULL: 32, PART: 33, TAKE: 0, STOP: 0}[command]
    if at + 1 + size > len(tape):
        raise Refused(11, at)
    return command, tape[at + 1:at + 1 + size], at + 1 + size


def bit_string(data, count):
    """The first bits of some bytes, as text."""
    return "".join("{:08b}".format(byte) for byte in data)[:count]


def to_bytes(bits):
    """The bytes of a bit string, zeros after its last bit."""
    padded = bits + "0" * (-len(bits) % 8)
    return bytes(int(padded[k:k + 8], 2) for k in range(0, len(padded), 8))


def run(tape, room=None):
    """([(width, digest)], refusal, place); refusal and place are 0 at STOP.

    room is the size of the output, None for one without end."""
    digests, at, width, message = [], 0, None, None
    try:
        while True:
            command, rest, following = read(tape, at)
            if command == STOP:
                return digests, 0, 0
            if (command == OPEN) != (width is None):
                raise Refused(12, at)
            if command == OPEN:
                asked = rest[0] + 256 * rest[1]
                if asked not in ref.WIDTHS:
                    raise Refused(1, at)
                width, message = asked, []
            elif command == TAKE:
                if room is not None and room < width // 8:
                    raise Refused(6, at)
                bits = "".join(message)
                digests.append((width, ref.digest(width, to_bytes(bits), len(bits))))
                if room is not None:
                    room -= width // 8
                width, message = None, None
            else:
                count, data = (256, rest) if command == FULL else (rest[0], rest[1:])
                if sum(map(len, message)) + count > form_ref.BITS_MAX:
                    raise Refused(4, at)
                message.append(bit_string(data, count))
            at = following
    except Refused as refused:
        return (digests, *refused.args)


def line(number, width, digest):
    return "digest %d %d %s %s" % (number, width, digest.hex(), quote_ref.quote(digest).decode("ascii"))


def listing(tape, room=None):
    """The standard output of `seal`; of a seal with no more than that room, where one is given."""
    if len(tape) > TAPE_MAX:
        return "refused 13 at 65536\n"
    digests, refusal, place = run(tape, room)
    lines = [line(n, width, digest) for n, (width, digest) in enumerate(digests, 1)]
    lines.append("refused %d at %d" % (refusal, place) if refusal else "done %d" % len(digests))
    return "\n".join(lines) + "\n"


if __name__ == "__main__":
    sys.stdout.write(listing(sys.stdin.buffer.read()))
