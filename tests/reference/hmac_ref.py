#!/usr/bin/env python3
"""HMAC of FIPS 198-1 over the reference's digest, for checking other code.

    tag(width, key, data, bits)   by the standard's formula, for any count of bits
    module_tag(width, key, data)  by Python's hmac module, for whole bytes

The two share nothing but the digest.  The formula is also written over any hash,
so that it can be held to the hmac module over SHA-2 and to the vectors of RFC 4231.
A key is whole bytes; in a byte the first bit of a message is the highest.
"""

import hashlib
import hmac
import sys

import simd_ref as ref

IPAD, OPAD = 0x36, 0x5C


# The formula

def key_block(size, digest, key):
    """K0, steps 1 to 3 of the standard's table 1: a key that is longer than a block is hashed,
    one of exactly a block is not; zeros after."""
    if len(key) > size:
        key = digest(key, 8 * len(key))
    return key.ljust(size, b"\0")


def padded(block, pad):
    return bytes(byte ^ pad for byte in block)


def formula(size, digest, key, data, bits):
    """Steps 4 to 9: H((K0 xor opad) || H((K0 xor ipad) || text)).

    digest takes bytes and a count of bits; size is its block in bytes."""
    block = key_block(size, digest, key)
    inner = digest(padded(block, IPAD) + data, 8 * size + bits)
    return digest(padded(block, OPAD) + inner, 8 * size + 8 * len(inner))


def tag(width, key, data, bits):
    return formula(ref.block_bytes(width), lambda d, n: ref.digest(width, d, n), key, data, bits)


# Python's module

def digest_module(width):
    """The reference's digest as the hmac module wants a hash."""
    class Simd:
        name = "simd%d" % width
        digest_size, block_size = width // 8, ref.block_bytes(width)

        def __init__(self, data=b""):
            self.data = data

        def update(self, data):
            self.data += data

        def copy(self):
            return Simd(self.data)

        def digest(self):
            return ref.digest(width, self.data, 8 * len(self.data))

    return Simd


def module_tag(width, key, data):
    return hmac.new(key, data, digest_module(width)).digest()


# Self check

# RFC 4231, HMAC-SHA-256: test cases 1, 2, 3, 6 and 7.
RFC_4231 = (
    (b"\x0b" * 20, b"Hi There",
     "b0344c61d8db38535ca8afceaf0bf12b881dc200c9833da726e9376c2e32cff7"),
    (b"Jefe", b"what do ya want for nothing?",
     "5bdcc146bf60754e6a042426089575c75a003f089d2739839dec58b964ec3843"),
    (b"\xaa" * 20, b"\xdd" * 50,
     "773ea91e36800e46854db8ebd09181a72959098b3ef8c122d9635514ced565fe"),
    (b"\xaa" * 131, b"Test Using Larger Than Block-Size Key - Hash Key First",
     "60e431591ee0b67f0d8a26aacbf5b77f8e0bc6213728c5140546040f0ee37f54"),
    (b"\xaa" * 131, b"This is a test using a larger than block-size key and a larger than "
     b"block-size data. The key needs to be hashed before being used by the HMAC algorithm.",
     "9b09ffa71b942fcb27635fbcd5b0e944bfdc63644f0713938a7f51535c3a35e2"),
)


def some_bytes(size):
    return bytes((73 * k + size) % 251 for k in range(size))


def by_formula(name, key, data):
    """The formula over a hash of hashlib's, which takes whole bytes."""
    def digest(text, bits):
        assert bits == 8 * len(text)
        return hashlib.new(name, text).digest()
    return formula(hashlib.new(name).block_size, digest, key, data, 8 * len(data))


def self_check():
    """The formula over SHA-2 with RFC 4231 and with the hmac module, and over the
    reference's digest with the module.  Returns the list of failures."""
    failures = []
    for k, (key, data, expected) in enumerate(RFC_4231):
        if by_formula("sha256", key, data).hex() != expected:
            failures.append("RFC 4231, vector %d" % k)
    for name in ("sha224", "sha256", "sha384", "sha512"):
        size = hashlib.new(name).block_size
        for key_size in (*range(2 * size + 2), 300):
            key, data = some_bytes(key_size), some_bytes(3 * key_size % 200)
            if by_formula(name, key, data) != hmac.new(key, data, name).digest():
                failures.append("%s, a key of %d bytes" % (name, key_size))
    for width in ref.WIDTHS:
        size = ref.block_bytes(width)
        for key_size in (0, 1, size - 1, size, size + 1, 2 * size):
            key, data = some_bytes(key_size), some_bytes(3 * key_size % 200)
            if tag(width, key, data, 8 * len(data)) != module_tag(width, key, data):
                failures.append("SIMD-%d, a key of %d bytes" % (width, key_size))
    return failures


def main():
    failures = self_check()
    for line in failures:
        print(line)
    print("hmac_ref: %s" % ("FAILED" if failures else "formula and module agree: ok"))
    return 1 if failures else 0


if __name__ == "__main__":
    sys.exit(main())
