#!/usr/bin/env python3
"""Makes the test vectors of the program `vectors`: the script `stdin`, and `stdout`, the lines that must come out.

    python3 crates/vectors/make.py           writes both files, the same bytes each time
    python3 crates/vectors/make.py --list    prints the vectors to read: function, arguments, answer
    python3 crates/vectors/make.py --count   prints how many vectors each function has
    python3 crates/vectors/make.py --kinds   prints how many of the stored ones are of each kind of KINDS, for the functions that round a root or a
                                             fraction; an error where there is none of a kind

Each answer is calculated here with whole numbers and fractions alone, from what the documents say and not from the code
under test. No float of Python's takes part: a float is a sign and a fraction, read from its bits by `value` and written
as bits by `bits`. An operation is carried out exactly and its result rounded once by `nearest`, to nearest, ties to even;
a root is found by `math.isqrt`, with an exact comparison of squares for the rounding. A quotient by a constant and a
matrix entry are one fraction, rounded once. Sums of products go from left to right, rounded at each step.

A record of the script is one byte, the place of the function in FUNCTIONS from 1 on, and its arguments, words of 32 bits,
low byte first. An answer is one line: a float by its bits in hexadecimal, any NaN as `nan`, a signed number as the f32 of
the same value, a matrix entry with its exact mark, a clip code by its bits, and `none` where there is no answer.
"""
import os
import sys
from collections import Counter, namedtuple
from fractions import Fraction
from itertools import product
from math import isqrt

# ---- floats as fractions

Format = namedtuple("Format", "width prec low")  # low: the exponent of the least normal number
SINGLE = Format(32, 24, -126)
DOUBLE = Format(64, 53, -1022)

Float = namedtuple("Float", "kind negative size")  # kind: nan, inf or fin; size: a fraction, for fin
NAN = Float("nan", False, None)
HALF = Fraction(1, 2)


def inf(negative):
    return Float("inf", negative, None)


def fin(negative, size):
    return Float("fin", negative, Fraction(size))


def power(e):
    return Fraction(2) ** e


def exponent(size):
    """The e with 2^e <= size < 2^(e + 1)."""
    e = size.numerator.bit_length() - size.denominator.bit_length()
    return e if power(e) <= size else e - 1


def unit(f, e):
    """The distance of neighbours in the format from 2^e on."""
    return power(max(e, f.low) - f.prec + 1)


def top(f):
    """The first power of two that is too large for the format."""
    return power(2 - f.low)


def in_range(f, negative, size):
    return inf(negative) if size >= top(f) else fin(negative, size)


def nearest(f, negative, size):
    """The fraction rounded to the format, to nearest, ties to even."""
    if size == 0:
        return fin(negative, 0)
    u = unit(f, exponent(size))
    q, rest = divmod(size / u, 1)
    if rest > HALF or (rest == HALF and q % 2 == 1):
        q += 1
    return in_range(f, negative, q * u)


def value(f, b):
    """What the bits b mean."""
    sign, rest = divmod(b, 2 ** (f.width - 1))
    e, digits = divmod(rest, 2 ** (f.prec - 1))
    if e == 2 ** (f.width - f.prec) - 1:
        return NAN if digits else inf(sign == 1)
    if e > 0:
        digits += 2 ** (f.prec - 1)
    return fin(sign == 1, digits * unit(f, f.low + max(e - 1, 0)))


def bits(f, x):
    """The bits of x, which is no NaN and which the format holds."""
    sign = 2 ** (f.width - 1) if x.negative else 0
    if x.kind == "inf":
        return sign + (2 ** (f.width - f.prec) - 1) * 2 ** (f.prec - 1)
    if x.size == 0:
        return sign
    e = max(exponent(x.size), f.low)
    digits = x.size / unit(f, e)
    assert digits.denominator == 1 and digits < 2 ** f.prec
    return sign + (e - f.low) * 2 ** (f.prec - 1) + int(digits)


def signed(x):
    return -x.size if x.negative else x.size


def of(f, number, negative=False):
    """A fraction with its sign, rounded; `negative` is the sign of a zero."""
    return nearest(f, number < 0 if number else negative, abs(number))


def add(f, x, y):
    if "nan" in (x.kind, y.kind):
        return NAN
    if x.kind == y.kind == "inf":
        return x if x.negative == y.negative else NAN
    if "inf" in (x.kind, y.kind):
        return x if x.kind == "inf" else y
    return of(f, signed(x) + signed(y), x.negative and y.negative)


def mul(f, x, y):
    if "nan" in (x.kind, y.kind):
        return NAN
    negative = x.negative != y.negative
    if "inf" in (x.kind, y.kind):
        return NAN if 0 in (x.size, y.size) else inf(negative)
    return nearest(f, negative, x.size * y.size)


def div(f, x, y):
    if "nan" in (x.kind, y.kind) or x.kind == y.kind == "inf" or x.size == y.size == 0:
        return NAN
    negative = x.negative != y.negative
    if x.kind == "inf" or y.size == 0:
        return inf(negative)
    return fin(negative, 0) if y.kind == "inf" else nearest(f, negative, x.size / y.size)


def root(f, x):
    """The square root of IEEE 754: that of -0 is -0, that of another negative number is a NaN."""
    if x.kind == "nan" or x.size == 0:
        return x
    if x.negative:
        return NAN
    if x.kind == "inf":
        return x
    u = unit(f, exponent(x.size) // 2)
    n = x.size / (u * u)
    q = isqrt(n.numerator // n.denominator)
    middle = (2 * q + 1) ** 2
    if 4 * n > middle or (4 * n == middle and q % 2 == 1):
        q += 1
    return in_range(f, False, q * u)


def place(x):
    """Where x, no NaN, lies in the order of all floats."""
    return (-1 if x.negative else 1, 0) if x.kind == "inf" else (0, signed(x))


def less(x, y):
    return "nan" not in (x.kind, y.kind) and place(x) < place(y)


def opposite(x):
    return x._replace(negative=not x.negative)


# ---- answers


def text(f, x):
    return "nan" if x.kind == "nan" else "%0*x" % (f.width // 4, bits(f, x))


def truth(b):
    return "yes" if b else "no"


def single(w):
    return value(SINGLE, w)


def singles(ws):
    return [single(w) for w in ws]


def texts(xs):
    return " ".join(text(SINGLE, x) for x in xs)


def with_sign(width, n):
    n %= 2 ** width
    return n - 2 ** width if n >= 2 ** (width - 1) else n


def quotient(read, below, f=SINGLE):
    """read(word) / below, rounded once."""
    return lambda ws: text(f, of(f, Fraction(read(ws[0]), below)))


def half(w):
    return with_sign(16, w)


def byte(w):
    return with_sign(8, w)


def plain(w):
    return w


def is_finite_f64(ws):
    return truth(value(DOUBLE, ws[0] + ws[1] * 2 ** 32).kind == "fin")


def matrix_entry(ws):
    exact = Fraction(with_sign(16, ws[0]) * 65536 + ws[1] % 65536, 65536)
    x = of(SINGLE, exact)
    return text(SINGLE, x) + " " + truth(signed(x) == exact)


def sum_of_products(f, pairs):
    """From left to right."""
    terms = [mul(f, x, y) for x, y in pairs]
    total = terms[0]
    for t in terms[1:]:
        total = add(f, total, t)
    return total


def squared_pairs(xs):
    return [[(x, x) for x in xs]]


def length(ws):
    return root(SINGLE, sum_of_products(SINGLE, *squared_pairs(singles(ws))))


def inverse_length(ws):
    ell = length(ws)
    return div(SINGLE, fin(False, 1), ell) if less(fin(False, 0), ell) else fin(False, 0)


def row_pairs(v, m):
    """The pairs of each column of the row v times the matrix m, sixteen numbers row by row."""
    return [[(v[k], m[4 * k + c]) for k in range(4)] for c in range(4)]


def column_pairs(m, v):
    return [[(m[4 * r + k], v[k]) for k in range(3)] for r in range(3)]


def all_pairs(name, xs):
    """The pairs behind each number of a product's answer."""
    if name == "mul_row_vec4":
        return row_pairs(xs[:4], xs[4:])
    if name == "mul_col_vec3":
        return column_pairs(xs[:16], xs[16:])
    return [ps for r in range(4) for ps in row_pairs(xs[4 * r:4 * r + 4], xs[16:])]


def products(name):
    return lambda ws: texts(sum_of_products(SINGLE, ps) for ps in all_pairs(name, singles(ws)))


def clip_code(ws):
    p = singles(ws)
    if any(x.kind != "fin" for x in p):
        return "none"
    tests = [t for x in p[:3] for t in (less(x, opposite(p[3])), less(p[3], x))]
    return "%02x" % sum(2 ** i for i, t in enumerate(tests) if t)


def screen_z(ws):
    x, y, z, w = singles(ws[:4])
    scale, translation = singles(ws[5:])
    f = DOUBLE
    s = mul(f, add(f, mul(f, div(f, z, w), scale), translation), fin(False, 1024))
    return text(f, s) if ws[4] and w.size != 0 and s.kind == "fin" else "none"


Function = namedtuple("Function", "name words answer")
FUNCTIONS = [
    Function("signed_half", 1, quotient(half, 1)),
    Function("signed_byte", 1, quotient(byte, 1)),
    Function("whole_half", 1, quotient(half, 1)),
    Function("whole_byte", 1, quotient(byte, 1)),
    Function("by_4", 1, quotient(half, 4)),
    Function("by_32", 1, quotient(half, 32)),
    Function("by_1024", 1, quotient(half, 1024)),
    Function("by_127", 1, quotient(byte, 127)),
    Function("by_255", 1, quotient(plain, 255)),
    Function("by_65536", 1, quotient(plain, 65536)),
    Function("by_2097152", 1, quotient(plain, 2097152)),
    Function("by_67108864", 1, quotient(plain, 67108864)),
    Function("sqrt_f32", 1, lambda ws: text(SINGLE, root(SINGLE, single(ws[0])))),
    Function("wide_by_65536", 1, quotient(plain, 65536, DOUBLE)),
    Function("f64_from_f32", 1, lambda ws: text(DOUBLE, single(ws[0]))),
    Function("is_finite_f32", 1, lambda ws: truth(single(ws[0]).kind == "fin")),
    Function("is_finite_f64", 2, is_finite_f64),
    Function("matrix_entry", 2, matrix_entry),
    Function("length", 3, lambda ws: text(SINGLE, length(ws))),
    Function("inverse_length", 3, lambda ws: text(SINGLE, inverse_length(ws))),
    Function("clip_code", 4, clip_code),
    Function("screen_z", 7, screen_z),
    Function("mul_row_vec4", 20, products("mul_row_vec4")),
    Function("mul_col_vec3", 19, products("mul_col_vec3")),
    Function("mul4", 32, products("mul4")),
]

# ---- arguments: numbers from a fixed seed, and the places where a mistake would show


def chance(seed):
    """Whole numbers below 2^32, the same for the same seed."""
    while True:
        seed = (seed * 6364136223846793005 + 1442695040888963407) % 2 ** 64
        yield seed >> 32


SOURCE = chance(64)


def below(n):
    return next(SOURCE) % n


def some(count, n=2 ** 32):
    return [below(n) for _ in range(count)]


def near(e, spread):
    """The bits of an f32 of either sign and a size from 2^(e - spread) to 2^(e + spread + 1)."""
    return below(2) * 2 ** 31 + (127 + e - spread + below(2 * spread + 1)) * 2 ** 23 + below(2 ** 23)


def single_bits(number):
    """The bits of a fraction that an f32 holds."""
    return bits(SINGLE, fin(number < 0, abs(Fraction(number))))


ZERO, MINUS_ZERO, INF, MINUS_INF = 0, 0x80000000, 0x7F800000, 0xFF800000
ONE, LARGEST = 0x3F800000, 0x7F7FFFFF
NANS = [0x7FC00000, 0xFFC00000, 0x7F800001, 0xFF800001, 0x7FFFFFFF, 0xFFFFFFFF, 0x7FA5A5A5]
ENDS = [1, 2, 0x7FFFFE, 0x7FFFFF, 0x800000, 0x800001, ONE - 1, ONE, ONE + 1, LARGEST - 1, LARGEST]
EDGES = [ZERO, INF] + ENDS
BOTH_SIGNS = EDGES + [MINUS_ZERO + b for b in EDGES] + NANS


def ones(values):
    return [[v] for v in values]


def around(values, least, most):
    """The values and their neighbours, each once, from `least` to `most`."""
    return sorted({v + d for v in values for d in (-1, 0, 1) if least <= v + d <= most})


def halves(count):
    return around([2 ** k for k in range(16)] + [3 * 2 ** 14, 65535], 0, 65535) + some(count, 65536)


def ties(width):
    """Whole numbers of 25 to `width` binary digits in the middle of two neighbours of 24, the lower one even or odd, and
    beside that middle; with the last, which is rounded up to the next power of two."""
    kept = [2 ** 23, 2 ** 23 + 1, 2 ** 24 - 2, 2 ** 24 - 1] + [2 ** 23 + below(2 ** 23) for _ in range(4)]
    middles = [(2 * q + 1) * 2 ** (s - 1) for s in range(1, width - 23) for q in kept]
    return around(middles, 0, 2 ** width - 1)


def by_67108864():
    powers = [2 ** k for k in range(33)]
    return ones(around(powers, 0, 2 ** 32 - 1) + ties(32) + some(60))


def wide_by_65536():
    return ones(around([2 ** k for k in range(33)], 0, 2 ** 32 - 1) + some(60))


def entry_words(parts):
    return [parts // 65536 % 65536, parts % 65536]


def matrix_entries():
    sizes = around([2 ** k for k in range(32)], 0, 2 ** 31) + ties(31) + some(60, 2 ** 31)
    return [entry_words(n) for size in sizes for n in (size, -size) if -2 ** 31 <= n < 2 ** 31]


def lifted(d, digits):
    """The two q below 2^digits with q * q + q + d a multiple of 2^digits, for an even d: one digit at a time."""
    qs = [0, 1]
    for k in range(2, digits + 1):
        qs = [p for q in qs for p in (q, q + 2 ** (k - 1)) if (p * p + p + d) % 2 ** k == 0]
    return qs


def close_roots():
    """f32 whose root lies as close to the middle of two neighbours as any: q + 1/2 is the root of q * q + q + 1/4, and
    here q * q + q + d has 24 digits and then zeros. From d = 2 on it is rounded up."""
    out = []
    for d, digits in product(range(-24, 26, 2), (23, 24)):
        for r in lifted(d, digits):
            for q in (r, r + 2 ** 23):
                n = q * q + q + d
                if q < 2 ** 23 or n.bit_length() != digits + 24 or n % 2 ** digits:
                    continue
                out += [single_bits(n * power(2 * t)) for t in (-23, below(38) - 85, below(40))]
    return out


def squares():
    roots = [1, 2, 3, 4095, 4094, 2896, 2897] + [1 + below(4095) for _ in range(33)]
    return around([single_bits(k * k * power(2 * (below(100) - 60))) for k in roots], 1, LARGEST)


def roots():
    powers = around([single_bits(power(e)) for e in range(-149, 128)], 1, LARGEST)
    small = some(80, 2 ** 23) + [below(2 ** k) + 1 for k in range(1, 23)]
    negative = [MINUS_ZERO + below(INF) for _ in range(20)]
    return ones(BOTH_SIGNS + powers + squares() + close_roots() + small + some(150, INF) + negative)


def patterns_64():
    largest = 0x7FEFFFFFFFFFFFFF
    edges = around([0, 1, 0x000FFFFFFFFFFFFF, 0x3FF0000000000000, largest, largest + 2], 0, 2 ** 63 - 1)
    random = [below(2 ** 31) * 2 ** 32 + below(2 ** 32) for _ in range(40)]
    nans = [0x7FF8000000000000, 0x7FF0000100000000, 0x7FFFFFFFFFFFFFFF]
    return [[(b + s) % 2 ** 32, (b + s) // 2 ** 32] for b in edges + random + nans for s in (0, 2 ** 63)]


# Other ways to calculate a sum of products; some vectors are there to tell each from the right one.


def from_the_right(pairs):
    return sum_of_products(SINGLE, pairs[::-1])


def in_halves(pairs):
    return add(SINGLE, sum_of_products(SINGLE, pairs[:2]), sum_of_products(SINGLE, pairs[2:]))


def fused(pairs):
    """Each product after the first is added before it is rounded."""
    total = mul(SINGLE, *pairs[0])
    for x, y in pairs[1:]:
        total = of(SINGLE, signed(total) + signed(x) * signed(y))
    return total


def first_fused(pairs):
    """The first product is added to the second before it is rounded."""
    (x, y), second, *rest = pairs
    total = of(SINGLE, signed(x) * signed(y) + signed(mul(SINGLE, *second)))
    for pair in rest:
        total = add(SINGLE, total, mul(SINGLE, *pair))
    return total


def once(pairs):
    return of(SINGLE, sum(signed(x) * signed(y) for x, y in pairs))


OTHERS_OF_THREE = [from_the_right, fused, first_fused, once]
OTHERS_OF_FOUR = OTHERS_OF_THREE + [in_halves]


def telling(draw, pairs_of, others, count):
    """For each other way `count` arguments, drawn by chance, at which every sum of products differs from it."""
    out = []
    for other in others:
        found = 0
        while found < count:
            ws = draw()
            if all(signed(other(ps)) != signed(sum_of_products(SINGLE, ps)) for ps in pairs_of(singles(ws))):
                out.append(ws)
                found += 1
    return out


def spread_through(ws, values):
    """The words with each of the values at each place in turn."""
    return [ws[:i] + [v] + ws[i + 1:] for i in range(len(ws)) for v in values]


def directions():
    out = spread_through([ZERO, ZERO, ZERO], BOTH_SIGNS)
    out += [[MINUS_ZERO] * 3, [INF, MINUS_INF, NANS[0]], [INF] * 3, [NANS[0]] * 3]
    for a, b, c in [(3, 4, 0), (0, -3, 4), (1, 2, 2), (2, 3, 6), (-4, 4, 7), (1, 1, 1), (127, -127, 127), (-128, 0, 0)]:
        out += [[single_bits(x * power(e)) for x in (a, b, c)] for e in (0, -60, 50)]
    for e in (-76, -75, -74, -70, -63, 60, 62, 63, 64):
        out += [[near(e, 0), near(e, 0), near(e, 0)] for _ in range(4)]
    out += [[single_bits(power(63)) + d] * 3 for d in (-1, 0, 1)] + [[single_bits(power(63) * 3 / 2)] * 3]
    return out + telling(lambda: [near(0, 2) for _ in range(3)], squared_pairs, OTHERS_OF_THREE, 15)


def counted(n):
    return [single_bits(k + 1) for k in range(n)]


def matrices(name, words, others, count):
    out = [counted(words), [single_bits(-(k * k) - 1) for k in range(words)]]
    out += [[near(0, 3) for _ in range(words)] for _ in range(count)]
    out += spread_through([near(0, 1) for _ in range(words)], [INF]) + spread_through(counted(words), [NANS[0]])
    out += [[v] * words for v in (ZERO, MINUS_ZERO, 1, 0x1FFFFFFF, 0x5F000000, LARGEST, INF, NANS[2])]
    out += [[BOTH_SIGNS[below(len(BOTH_SIGNS))] for _ in range(words)] for _ in range(count)]
    out += [[near(e, 1) for _ in range(words)] for e in (-75, -74, -70, 62, 63) for _ in range(2)]
    return out + telling(lambda: [near(0, 1) for _ in range(words)], lambda xs: all_pairs(name, xs), others, count)


def clip_positions():
    out = spread_through(counted(4), [INF, MINUS_INF] + NANS) + [[near(0, 2) for _ in range(4)] for _ in range(80)]
    for w in [ONE, MINUS_ZERO + ONE, single_bits(100), ZERO, MINUS_ZERO, 1, LARGEST, near(0, 5)]:
        sizes = around([w % MINUS_ZERO], 0, INF)
        out += [p + [w] for p in spread_through([ZERO] * 3, sizes + [MINUS_ZERO + size for size in sizes])]
    return out


def screen_steps(ws):
    z, w = singles(ws[2:4])
    return z, w, *singles(ws[5:])


def screen_fused(ws):
    """The product is added before it is rounded."""
    z, w, scale, translation = screen_steps(ws)
    q = div(DOUBLE, z, w)
    return of(DOUBLE, (signed(q) * signed(scale) + signed(translation)) * 1024)


def screen_scaled_first(ws):
    z, w, scale, translation = screen_steps(ws)
    return of(DOUBLE, 1024 * signed(add(DOUBLE, div(DOUBLE, mul(DOUBLE, z, scale), w), translation)))


def screen_in_single(ws):
    z, w, scale, translation = screen_steps(ws)
    return of(DOUBLE, 1024 * signed(add(SINGLE, mul(SINGLE, div(SINGLE, z, w), scale), translation)))


def screen_words(coded=1):
    return [near(0, 2), near(0, 2), near(3, 6), near(3, 6), coded, near(8, 2), near(8, 2)]


def screen_positions():
    out = [screen_words(below(2)) for _ in range(40)]
    for at in (2, 3, 5, 6):
        base = screen_words()
        out += [base[:at] + [v] + base[at + 1:] for v in BOTH_SIGNS]
    out += [[NANS[0], INF] + screen_words()[2:], [ONE, ONE, LARGEST, 1, 1, LARGEST, LARGEST]]
    out += [[ONE, ONE, 1, LARGEST, 1, 1, 1]]
    out += [screen_words()[:4] + [v] + screen_words()[5:] for v in (0, 1, 2, 2 ** 31)]
    for other in (screen_fused, screen_scaled_first, screen_in_single):
        found = 0
        while found < 20:
            ws = screen_words()
            if text(DOUBLE, other(ws)) != screen_z(ws):
                out.append(ws)
                found += 1
    return out


def vectors():
    """Each vector as a function and its words."""
    bytes_ = ones(range(256))
    arguments = {"signed_byte": bytes_, "whole_byte": bytes_, "by_127": bytes_, "by_255": bytes_}
    for name in ("signed_half", "whole_half", "by_4", "by_32", "by_1024", "by_65536", "by_2097152"):
        arguments[name] = ones(halves(40))
    arguments["by_67108864"] = by_67108864()
    arguments["sqrt_f32"] = roots()
    arguments["wide_by_65536"] = wide_by_65536()
    arguments["f64_from_f32"] = ones(BOTH_SIGNS + some(20, 2 ** 23) + some(60))
    arguments["is_finite_f32"] = ones(BOTH_SIGNS + around([INF, MINUS_INF], 0, 2 ** 32 - 1) + some(40))
    arguments["is_finite_f64"] = patterns_64()
    arguments["matrix_entry"] = matrix_entries()
    arguments["length"] = arguments["inverse_length"] = directions()
    arguments["clip_code"] = clip_positions()
    arguments["screen_z"] = screen_positions()
    arguments["mul_row_vec4"] = matrices("mul_row_vec4", 20, OTHERS_OF_FOUR, 8)
    arguments["mul_col_vec3"] = matrices("mul_col_vec3", 19, OTHERS_OF_THREE, 8)
    arguments["mul4"] = matrices("mul4", 32, [], 8)
    return [(f, ws) for f in FUNCTIONS for ws in arguments[f.name]]


# ---- what kinds of arguments the stored vectors have

ROUNDED = ["held exactly", "a tie, to the even number below", "a tie, to the even number above", "just below a tie", "just above a tie", "rounded, no such case"]
KINDS = {
    "sqrt_f32": ["NaN", "+infinity", "-infinity", "+0", "-0", "subnormal below 0", "normal below 0", "subnormal above 0", "normal above 0", "exact root",
                 "beside an exact root", "root just below a middle", "root just above a middle"],
    "by_67108864": ROUNDED,
    "matrix_entry": ROUNDED + ["whole part below 0", "marked exact", "not marked exact"],
}


def root_scaled(x):
    """The size of x, above 0, in squared steps of its root, and the whole part of the root in steps."""
    u = unit(SINGLE, exponent(x.size) // 2)
    n = x.size / (u * u)
    return n, isqrt(n.numerator // n.denominator)


def is_square(b):
    x = single(b)
    if x.kind != "fin" or x.negative or x.size == 0:
        return False
    n, q = root_scaled(x)
    return q * q == n


def root_kinds(ws):
    """A middle, q + 1/2 steps, is no f32's root: that would be the root of q * q + q + 1/4. So `just below` and `just above` stand for a tie and its
    neighbours: of less than 25 squared steps from a middle's square, of some 2^47."""
    x = single(ws[0])
    sign = "-" if x.negative else "+"
    if x.kind == "nan":
        return ["NaN"]
    if x.kind == "inf" or x.size == 0:
        return [sign + ("infinity" if x.kind == "inf" else "0")]
    out = [("subnormal" if x.size < power(SINGLE.low) else "normal") + (" below 0" if x.negative else " above 0")]
    if not x.negative:
        n, q = root_scaled(x)
        apart = n - Fraction((2 * q + 1) ** 2, 4)
        out += ["exact root"] * is_square(ws[0]) + ["beside an exact root"] * (is_square(ws[0] - 1) or is_square(ws[0] + 1))
        out += ["root just below a middle"] * (-25 < apart < 0) + ["root just above a middle"] * (0 < apart < 25)
    return out


def rounded_kinds(parts, size):
    """Of the fraction `size`, a whole number of `parts`: how it lies between two neighbours."""
    if size == 0:
        return ["held exactly"]
    u = unit(SINGLE, exponent(size))
    q, rest = divmod(size / u, 1)
    apart = (rest - HALF) * u / parts
    return [{0: ROUNDED[1 + q % 2], -1: ROUNDED[3], 1: ROUNDED[4]}.get(apart, ROUNDED[5]) if rest else ROUNDED[0]]


def entry_kinds(ws):
    whole = with_sign(16, ws[0])
    marked = matrix_entry(ws).endswith("yes")
    return rounded_kinds(Fraction(1, 65536), abs(Fraction(whole * 65536 + ws[1], 65536))) + ["whole part below 0"] * (whole < 0) + [
        "marked exact" if marked else "not marked exact"]


def stored():
    """Each stored vector as a function and its words."""
    with open(os.path.join(os.path.dirname(os.path.abspath(__file__)), "stdin"), "rb") as script:
        left = script.read()
    while left:
        f = FUNCTIONS[left[0] - 1]
        yield f, [int.from_bytes(left[1 + 4 * k:5 + 4 * k], "little") for k in range(f.words)]
        left = left[1 + 4 * f.words:]


def kinds():
    ways = {"sqrt_f32": root_kinds, "by_67108864": lambda ws: rounded_kinds(Fraction(1, 2 ** 26), Fraction(ws[0], 2 ** 26)), "matrix_entry": entry_kinds}
    count = Counter((f.name, kind) for f, ws in stored() if f.name in ways for kind in ways[f.name](ws))
    for name, wanted in KINDS.items():
        for kind in wanted:
            print("%6d %s: %s" % (count[name, kind], name, kind))
    missing = [f"{name}: {kind}" for name, wanted in KINDS.items() for kind in wanted if not count[name, kind]]
    if missing:
        sys.exit("no vector of " + ", of ".join(missing))


def record(f, ws):
    assert len(ws) == f.words and all(0 <= w < 2 ** 32 for w in ws)
    return bytes([FUNCTIONS.index(f) + 1]) + b"".join(w.to_bytes(4, "little") for w in ws)


def main(wish):
    if wish == "--kinds":
        return kinds()
    made = vectors()
    if wish == "--count":
        for name, count in Counter(f.name for f, _ in made).items():
            print("%6d %s" % (count, name))
        print("%6d in all" % len(made))
    elif wish == "--list":
        for f, ws in made:
            print(f.name, *("%08x" % w for w in ws), "->", f.answer(ws))
    else:
        here = os.path.dirname(os.path.abspath(__file__))
        with open(os.path.join(here, "stdin"), "wb") as script:
            script.write(b"".join(record(f, ws) for f, ws in made))
        with open(os.path.join(here, "stdout"), "w", newline="\n") as lines:
            lines.write("".join(f.answer(ws) + "\n" for f, ws in made))


if __name__ == "__main__":
    main(sys.argv[1] if len(sys.argv) > 1 else "")
