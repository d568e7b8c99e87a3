#!/usr/bin/env python3
"""data.py BATCHES COUNT: the bytes that both sides of ./bench read, on standard output.

At 0 the number of batches and the vertices of a load; at 16 256 vertices, at 4112 32 matrices, the first a projection, at 6160 a viewport, at
6176 three lights, at 6256 512 slots over all 256, at 8304 128 slots of a strip of 24. The same bytes each time.
"""
import random
import struct
import sys

PROJECTION = [1.2, 0, 0, 0, 0, 1.6, 0, 0, 0, 0, -1.01, -1, 0, 0, -20.1, 0]


def vertex(r):
    """A position, texture coordinates and a colour."""
    place = [r.randint(-300, 300) for _ in range(3)]
    return struct.pack(">hhhHhhBBBB", *place, 0, r.randint(-2000, 2000), r.randint(-2000, 2000), *[r.randint(0, 255) for _ in range(4)])


def matrix(numbers):
    """Sixteen numbers in 16.16, the whole halves before the others."""
    words = [round(x * 65536) & 0xFFFFFFFF for x in numbers]
    return struct.pack(">16H", *[w >> 16 for w in words]) + struct.pack(">16H", *[w & 0xFFFF for w in words])


def model(r):
    """A matrix that brings an object before the eye."""
    m = [r.uniform(-1, 1) for _ in range(16)]
    m[3] = m[7] = m[11] = 0
    m[15] = 1
    m[12:15] = r.uniform(-200, 200), r.uniform(-200, 200), r.uniform(-900, -400)
    return m


def data(batches, count):
    r = random.Random(5)
    out = struct.pack("<IIII", batches, count, 0, 0)
    out += b"".join(vertex(r) for _ in range(256))
    out += matrix(PROJECTION) + b"".join(matrix(model(r)) for _ in range(31))
    out += struct.pack(">8h", 600, 440, 500, 0, 620, 460, 505, 0)
    out += b"".join(struct.pack(">8B8b", 200, 100, 50, 0, 200, 100, 50, 0, 40 + k, -70, 90, 0, 0, 0, 0, 0) for k in range(3))
    out += bytes(6256 - len(out))
    out += struct.pack("<512I", *[[i * 7 % 256, (i * 11 + 3) % 256, (i * 13 + 6) % 256][i % 3] for i in range(512)])
    return out + struct.pack("<128I", *[min(23, i // 3 * 22 // 30 + i % 3) for i in range(128)])


if __name__ == "__main__":
    sys.stdout.buffer.write(data(int(sys.argv[1]), int(sys.argv[2])))
