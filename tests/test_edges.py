#!/usr/bin/env python3
"""The refusals of tests/edges/cases.txt.

Each case is held to the refusal that its line states and to the reference's
answer, of the arguments as they are and of those with zeros past the counts; a
refused call leaves everything it was lent as it was.
"""

import os
import sys

from tally import HERE, Tally, cleaned, read_bytes
import door_ref
import form_ref
import product

LENT = bytes((91 * k + 7) % 256 for k in range(600))
STATE = bytes((59 * k + 3) % 256 for k in range(128))
NUMBER = 0x0123456789ABCDEF
OLD = "old:"


def read_head(text):
    """(what makes the front of a form or an index, the rest of its text)."""
    return (form_ref.old_head, text[len(OLD):]) if text.startswith(OLD) else (form_ref.head, text)


def read_form(text):
    head, text = read_head(text)
    width, length, tail, size = text.split("/")
    width, size = int(width), int(size)
    block = 128 if width > 256 else 64
    form = head(width, int(length)) + STATE[:block] + read_bytes(tail).ljust(block, b"\0")
    return form[:size].ljust(size, b"\0")


def read_keyed(text):
    return b"".join(map(read_form, text.split("+")))


def read_index(text, given):
    """An index with states that no message reaches."""
    head, text = read_head(text)
    width, length, size = text.split("/")
    width, size = given if width == "-" else int(width), int(size)
    return (head(width, int(length)) + LENT)[:size]


def arguments(call, field):
    """The arguments, in the order of tests/product.py, from the fields of a line."""
    lent = {key: LENT[:int(field[key])] for key in ("out", "state", "block", "key", "tag", "digest", "index")
            if key in field}
    width = int(field["width"]) if "width" in field else None
    if call == "open":
        return width, LENT[:int(field["form"])]
    if call == "feed":
        return (read_form(field["form"]), read_bytes(field["piece"]), int(field["bits"]), NUMBER)
    if call == "take":
        return read_form(field["form"]), lent["out"], NUMBER
    if call == "restore":
        return read_form(field["stored"]), LENT[:int(field["form"])]
    if call == "hash":
        return width, read_bytes(field["message"]), int(field["bits"]), lent["out"]
    if call == "hmac_open":
        return width, lent["key"], LENT[:int(field["form"])]
    if call == "hmac_feed":
        return (read_keyed(field["form"]), read_bytes(field["piece"]), int(field["bits"]), NUMBER)
    if call in ("hmac_take", "hmac_check"):
        return read_keyed(field["form"]), lent["tag"], NUMBER
    if call == "hmac":
        return width, lent["key"], read_bytes(field["message"]), int(field["bits"]), lent["tag"]
    if call == "expand":
        return width, False, lent["block"], [NUMBER % 2 ** 32 + k for k in range(int(field["out"]))]
    if call in ("steps", "unsteps"):
        return width, False, lent["state"], lent["block"], lent["out"]
    if call == "compare":
        return (width, read_bytes(field["a"]), int(field["a_bits"]),
                read_bytes(field["b"]), int(field["b_bits"]), NUMBER, NUMBER)
    if call == "page_entry":
        return int(field["number"]), width, lent["digest"], lent["out"]
    if call == "quote":
        return width, lent["digest"], lent["out"]
    if call == "quote_check":
        return read_bytes(field["quote"]), NUMBER
    if call == "index":
        return width, read_bytes(field["message"]), int(field["bits"]), lent["index"], lent["out"], NUMBER
    if call == "reindex":
        return (width, read_bytes(field["message"]), int(field["bits"]), read_index(field["old"], width),
                int(field["number"]), lent["index"], lent["out"], NUMBER)
    raise ValueError(call)


# The places, among the arguments, of what each call is lent to write to.
WRITTEN = {"open": (1,), "feed": (0, 3), "take": (1, 2), "restore": (1,), "hash": (3,), "hmac_open": (2,),
           "hmac_feed": (0, 3), "hmac_take": (1, 2), "hmac_check": (2,), "hmac": (4,), "expand": (3,),
           "steps": (4,), "unsteps": (4,), "compare": (5, 6), "page_entry": (3,),
           "quote": (2,), "quote_check": (1,), "index": (3, 4, 5), "reindex": (5, 6, 7)}


# The places of each piece or message and of its count behind it.
COUNTED = {"feed": (1,), "hash": (1,), "hmac_feed": (1,), "hmac": (2,), "compare": (1, 3),
           "index": (1,), "reindex": (1,)}


def with_zeros(call, args):
    """The arguments with what is past each count cleared or left out."""
    args = list(args)
    for k in COUNTED.get(call, ()):
        args[k] = cleaned(args[k], args[k + 1])
    return args


def cases(path):
    """(line number, call, arguments, refusal) of each case."""
    with open(path, encoding="ascii") as f:
        for n, line in enumerate(f, 1):
            if line.startswith("#") or not line.strip():
                continue
            text, refusal = line.rsplit(":", 1)
            call, *fields = text.split()
            field = dict(item.split("=", 1) for item in fields)
            for width in field.get("width", "-").split(","):
                if "width" in field:
                    field["width"] = width
                yield n, call, arguments(call, field), int(refusal)


def main():
    tally, count, refusals = Tally("edges"), 0, set()
    for n, call, args, refusal in cases(os.path.join(HERE, "edges", "cases.txt")):
        what = "line %d, %s" % (n, call)
        result = getattr(product, call)(*args)
        tally.equal(result[0], refusal, what + ": refusal")
        tally.equal(result, getattr(door_ref, call)(*args), what + ": answer")
        tally.equal(result, getattr(door_ref, call)(*with_zeros(call, args)), what + ": answer to the cleaned input")
        if refusal:
            tally.equal(list(result[1:]), [args[k] for k in WRITTEN[call]], what + ": unchanged")
        count += 1
        refusals.add((call, refusal))
    return tally.finish("%d cases of %d pairs of call and answer" % (count, len(refusals)))


if __name__ == "__main__":
    sys.exit(main())
