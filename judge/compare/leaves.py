#!/usr/bin/env python3
"""The stored list `leaves`: texts as hex and what the lowest crates are to say of them, a line each.

After the text: UTF-8 (0, or 1 and the start of the first bad sequence); the number without a sign (0, value, end; 1 for
2^64 or more; 2 for no digit); the number with one (0, value, end; or 1); then, where there is a first byte, its class
(0 letter, 1 digit, 2 wildcard, 3 mark, 4 the rest) and whether it may stand in a pattern, a reference, a name, and is a
blank, or a space or tab; then, where there are four bytes, the double of the little-endian float that they are.

Nothing of the product is used: UTF-8 is Python's own decoder, which places a fault as RFC 3629's table does; doubles are
Python's for finite floats and infinities, and IEEE 754's rule for NaN; numbers and classes are read off the scope.
"""
import struct, sys

LETTERS = b"ABCDEFGHIJKLMNOPQRSTUVWXYZabcdefghijklmnopqrstuvwxyz"
DIGITS = b"0123456789"
WILDCARDS = b"*?"
MARKS = b"!#%&+-/:=@^_|"


def utf8(t):
    try:
        t.decode("utf-8")
        return [0]
    except UnicodeDecodeError as e:
        return [1, e.start]


def digits(t, i):
    j = i
    while j < len(t) and t[j] in DIGITS:
        j += 1
    return j


def unsigned(t):
    j = digits(t, 0)
    if j == 0:
        return [2]
    n = int(t[:j])
    return [0, n, j] if n < 2**64 else [1]


def signed(t):
    i = 1 if t[:1] == b"-" else 0
    j = digits(t, i)
    if j == i:
        return [1]
    n = int(t[i:j]) * (-1 if i else 1)
    return [0, n, j] if -(2**63) <= n < 2**63 else [1]


def byte(b):
    c = 0 if b in LETTERS else 1 if b in DIGITS else 2 if b in WILDCARDS else 3 if b in MARKS else 4
    blank = b in b" \n"
    return [c, int(c < 4), int(c < 2 or b == 0x5F), int(b < 128 and not blank), int(blank), int(b in b" \t")]


def widen(t):
    (bits,) = struct.unpack("<I", t[:4])
    if bits >> 23 & 0xFF == 0xFF and bits & 0x7FFFFF:
        return (bits >> 31) << 63 | 0x7FF << 52 | 1 << 51 | (bits & 0x7FFFFF) << 29
    return struct.unpack("<Q", struct.pack("<d", struct.unpack("<f", t[:4])[0]))[0]


def line(t):
    ns = utf8(t) + unsigned(t) + signed(t)
    if t:
        ns += byte(t[0])
    if len(t) >= 4:
        ns.append(widen(t))
    return t.hex() + "".join(f" {n}" for n in ns)


def texts():
    # RFC 3629, 7: its three examples and the byte order mark
    yield bytes.fromhex("41e289a2ce912e")
    yield bytes.fromhex("ed959ceab5adec96b4")
    yield bytes.fromhex("e697a5e69cace8aa9e")
    yield bytes.fromhex("efbbbff0a38eb4")
    # RFC 3629, 4: each edge of the table, whole, one short, one beyond, and with each continuation at and past its ends
    edges = "00 7f c280 dfbf e0a080 e0bfbf e18080 ecbfbf ed8080 ed9fbf ee8080 efbfbf f0908080 f0bfbfbf f1808080 f3bfbfbf f4808080 f48fbfbf"
    bad = "80 bf c080 c1bf c27f c2c0 dfc0 e09f80 e0c080 e08080 eda080 edbfbf ed8079 e180c0 e1807f f08f8080 f0c08080 f0808080 f4908080 f4bfbfbf f5808080 f7bfbfbf f8888080 80 fc fe ff f18080c0 f180c080 c0af e080af f08080af"
    for x in (edges + " " + bad).split():
        t = bytes.fromhex(x)
        for k in range(len(t) + 1):
            yield t[:k]
            yield b"a" + t[:k] + b"b"
            yield b"\xe3\x81\x82" + t[:k]
            yield t[:k] + b"\xe3\x81\x82"
    # every byte alone and first of two: each class and each test to its ends
    for b in range(256):
        yield bytes([b])
        yield bytes([b]) + b"0"
    # both readers of numbers at each boundary
    for n in (0, 1, 9, 10, 2**31, 2**32, 2**53, 2**63 - 1, 2**63, 2**63 + 1, 2**64 - 1, 2**64, 2**64 + 1, 10**19, 10**20, 18446744073709551609, 18446744073709551620, 9223372036854775800, 9223372036854775809, 92233720368547758070):
        for sign in ("", "-", "--", "+"):
            for zeros in ("", "0", "0" * 40):
                for after in ("", " ", "x", "-", "_1"):
                    yield (sign + zeros + str(n) + after).encode()
    for t in ("-", "-x", "", "-0", "-00", "00", "0x1"):
        yield t.encode()
    # floats: the scope's three, and each exponent with the ends of its fractions, both signs
    for bits in (0x00000001, 0x007FFFFF, 0x7F800001):
        yield struct.pack("<I", bits)
    for s in (0, 1):
        for e in range(256):
            for f in (0, 1, 0x3FFFFF, 0x400000, 0x7FFFFF):
                yield struct.pack("<I", s << 31 | e << 23 | f)
        for k in range(23):
            yield struct.pack("<I", s << 31 | 1 << k)
            yield struct.pack("<I", s << 31 | (2 << k) - 1)


seen = set()
for t in texts():
    if t not in seen:
        seen.add(t)
        sys.stdout.write(line(t) + "\n")
