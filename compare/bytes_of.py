"""Random bytes for the commands that read data: matrices, vertices, viewports, lights."""
import struct

# Where rounding to 24 bits meets a tie or its neighbours: wholes of 9 to 15 bits with long fractions.
TIES = (0x0001, 0x0080, 0x0100, 0x017F, 0x0180, 0x0181, 0x8000, 0xFF7F, 0xFF80, 0xFFFF)
HALVES = (-32768, -32767, -1024, -4, -1, 0, 1, 2, 3, 4, 511, 1023, 32766, 32767)
BYTES = (0, 1, 2, 127, 128, 129, 254, 255)


def entry(x):
    """A number as whole part and fraction."""
    fixed = round(x * 65536) & 0xFFFFFFFF
    return fixed >> 16, fixed & 0xFFFF


def matrix(numbers):
    parts = [entry(x) for x in numbers]
    return struct.pack(">32H", *[p[0] for p in parts], *[p[1] for p in parts])


def diagonal(*d):
    return [d[k // 5] if k % 5 == 0 else 0.0 for k in range(16)]


def identity(rng):
    return diagonal(1, 1, 1, 1)


def scaling(rng):
    return diagonal(*[rng.choice((-2, -1, -0.5, 0, 0.25, 0.5, 1, 2, 3)) for _ in range(4)])


def perspective(rng):
    m = diagonal(rng.uniform(0.5, 2), rng.uniform(0.5, 2), -1.0, 0.0)
    m[11], m[14] = -1.0, -rng.uniform(1, 60)
    return m


def moved(rng):
    return [rng.uniform(-2, 2) if k < 12 and k % 4 < 3 else rng.uniform(-300, 300) if k < 15 and k > 11 else float(k == 15)
            for k in range(16)]


def sparse(rng):
    return [rng.choice((0, 0, 0, 1, -1, 2, -0.5)) for _ in range(16)]


def huge(rng):
    return [rng.choice((-32768, 32767.99, -32767, 30000.5, rng.uniform(-32768, 32767))) for _ in range(16)]


def far(rng):
    """Only one of the four numbers of a transformed point grows."""
    k = rng.randrange(4)
    return diagonal(*[32767 if j == k else 1 for j in range(4)])


def tiny(rng):
    return [rng.choice((0, 1, -1, 2, -3, 77)) / 65536 for _ in range(16)]


def ties(rng):
    return [rng.choice((-1, 1)) * (rng.randrange(32768) + rng.choice(TIES) / 65536) for _ in range(16)]


def any_bits(rng):
    return [rng.randrange(-1 << 31, 1 << 31) / 65536 for _ in range(16)]


def zeros(rng):
    return [0.0] * 16


def twos(rng):
    return [2.0] * 16


def one_column(rng):
    """Rows with one number, all in the same column, and a row of zeros."""
    k, empty = rng.randrange(4), rng.randrange(4)
    return [rng.choice((1, 2, -1, 0.5)) if c == k and r != empty else 0.0 for r in range(4) for c in range(4)]


MATRICES = (identity, identity, scaling, scaling, perspective, moved, moved, sparse, sparse, huge, tiny, ties, any_bits, zeros,
            twos, one_column)


def half(rng, near):
    """An i16: mostly a small number, at times one from the ends."""
    return rng.randint(-near, near) if rng.random() < 0.7 else rng.choice((*HALVES, rng.randint(-32768, 32767)))


def vertex(rng, colours):
    near = rng.choice((1, 3, 100))
    numbers = [half(rng, near) for _ in range(3)] + [rng.randrange(-32768, 32768), half(rng, 2000), half(rng, 2000)]
    return struct.pack(">6h", *numbers) + rng.choice(colours)


def placed(rng, position, colours):
    """A vertex at a given place."""
    return struct.pack(">6h", *position, 0, half(rng, 2000), half(rng, 2000)) + rng.choice(colours)


def viewport(rng):
    plain = rng.random() < 0.4
    return struct.pack(">8h", *((640, 480, 511, 0) * 2 if plain else [half(rng, 700) for _ in range(8)]))


def some(rng, n):
    return bytes(rng.choice((rng.randrange(256), rng.choice(BYTES))) for _ in range(n))


def light(rng, least):
    """At least so many bytes; at times directions of length zero, at times bytes beyond the need."""
    n = least + (rng.randrange(6) if rng.random() < 0.2 else 0)
    return bytes(n) if rng.random() < 0.1 else some(rng, n)
