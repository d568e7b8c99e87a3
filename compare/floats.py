"""f32 arithmetic on Python's f64.

A sum, product, quotient or root of two f32 taken in f64 and then rounded to f32 is the f32 result:
53 bits are more than twice 24 and two, so the second rounding never meets a tie that the first made.
"""
import ctypes
import math
import struct

NAN_BITS = 0x7FC00000


def f32(x):
    """x rounded once to f32, ties to even, too large to infinity."""
    return ctypes.c_float(x).value


def bits32(x):
    return NAN_BITS if x != x else struct.unpack("<I", struct.pack("<f", x))[0]


def show32(x):
    return "nan" if x != x else f"{bits32(x):08x}"


def show64(x):
    return "nan" if x != x else f"{struct.unpack('<Q', struct.pack('<d', x))[0]:016x}"


def dot(a, b):
    """Products added left to right, each operation rounded."""
    total = f32(a[0] * b[0])
    for x, y in zip(a[1:], b[1:]):
        total = f32(total + f32(x * y))
    return total


def column(m, j):
    return (m[j], m[4 + j], m[8 + j], m[12 + j])


def product(a, b):
    """a times b, both sixteen numbers row by row."""
    return [dot(a[4 * i:4 * i + 4], column(b, j)) for i in range(4) for j in range(4)]


def point(position, m):
    """The row (x, y, z, 1) times m."""
    return [dot((*position, 1.0), column(m, j)) for j in range(4)]


def turned(m, v):
    """m times v on the upper 3x3."""
    return [dot(m[4 * i:4 * i + 3], v) for i in range(3)]


def unit(v):
    """v times 1/length, or times 0 where the length is not above 0."""
    length = f32(math.sqrt(dot(v, v)))
    factor = f32(1.0 / length) if length > 0.0 else 0.0
    return [f32(x * factor) for x in v]


IDENTITY = [1.0 if k % 5 == 0 else 0.0 for k in range(16)]
