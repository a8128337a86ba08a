#!/usr/bin/env python3
"""Write tables.h: the constants of the transform, from their definitions."""

# Root of unity of each family and its order.
FAMILIES = (("SMALL", 139, 128), ("LARGE", 41, 256))


def centred(value):
    """The number from -128 to 128 that equals value modulo 257."""
    value %= 257
    return value if value <= 128 else value - 257


def table(name, comment, values):
    lines = ["", "/* %s */" % comment, "static const int16_t %s[%d] TABLE_ALIGN = {"
             % (name, len(values))]
    for k in range(0, len(values), 16):
        lines.append("    " + " ".join("%d," % v for v in values[k:k + 16]))
    lines.append("};")
    return lines


def main():
    out = ["/* Constants of the transform modulo 257, centred to -128 .. 128.",
           "   Written by tables.py. */",
           "#ifndef TABLES_H", "#define TABLES_H", "", "#include <stdint.h>", "",
           "#if defined(__GNUC__)",
           "#define TABLE_ALIGN __attribute__((aligned(16), unused))",
           "#else", "#define TABLE_ALIGN", "#endif"]
    for name, w, n in FAMILIES:
        half = n // 2
        out += table(name + "_POWERS", "w^j, w = %d" % w,
                     [centred(pow(w, j, 257)) for j in range(half)])
        # Places 0, 2, 4, .. first, then 1, 3, 5, ..
        order = list(range(0, n, 2)) + list(range(1, n, 2))
        inverse = pow(w, n - 1, 257)
        plain = [pow(inverse, i, 257) for i in range(n)]
        last = [pow(inverse, i, 257) + pow(inverse, 3 * i, 257) for i in range(n)]
        out += table(name + "_OFFSET", "w^(-i): even i, then odd i",
                     [centred(plain[i]) for i in order])
        out += table(name + "_OFFSET_LAST", "w^(-i) + w^(-3i): even i, then odd i",
                     [centred(last[i]) for i in order])
        # Twiddle factors between the two halves of a transform of n/2 points
        # with root w^2: row k, column b is w^(2kb).
        out += table(name + "_TWIDDLE", "w^(2kb): row k, column b from 0 to 7",
                     [centred(pow(w, 2 * k * b, 257))
                      for k in range(half // 8) for b in range(8)])
    out += ["", "#endif", ""]
    print("\n".join(out), end="")


if __name__ == "__main__":
    main()
