"""Cases and limits as traces, each with lines that the rules ask of the output."""
import struct

import bytes_of
import model
import tracefile
from floats import f32
from tracefile import WIDTHS, Op

ROOMY = [n * w for n, w in zip((40, 8, 8, 40, 8, 4, 300, 300, 60, 8), WIDTHS)]
DRAW = [0, 0, 0, 0]
IDENTITY = bytes_of.matrix(bytes_of.diagonal(1, 1, 1, 1))
F32 = lambda x: struct.pack(">f", x).hex()
F64 = lambda x: struct.pack(">d", x).hex()


def op(name, *args, data=None):
    return Op(name, list(args), data)


def vertices(*points, colour=(1, 2, 3, 4)):
    return b"".join(struct.pack(">6h4B", *p, 0, 0, 0, *colour) for p in points)


def load(first, *points, colour=(1, 2, 3, 4)):
    return op("load", first, len(points), data=vertices(*points, colour=colour))


def many(first, count):
    return op("load", first, count, data=vertices(*[(1, 2, 3)] * count))


def entries(table, n):
    """ROOMY, with room for n entries in one table."""
    lengths = list(ROOMY)
    for a in tracefile.TABLE_AREAS[table]:
        lengths[a] = n * WIDTHS[a]
    return lengths


def matrix(flags, numbers):
    return op("matrix", flags, data=bytes_of.matrix(numbers))


def force(numbers):
    return op("force", data=bytes_of.matrix(numbers))


def placed(first, *codes):
    """A load of points that have these clip codes where w is 1. Where it is -1 a bit stands for all but the one of the plane across."""
    return load(first, *[[2 * (code >> axis + 1 & 1) - 2 * (code >> axis & 1) for axis in (0, 2, 4)] for code in codes])


def pushes(n):
    """n pushes of matrices that all differ."""
    return [matrix(3, bytes_of.diagonal(1, 1, 1, k + 2)) for k in range(n)]


def both_signs(sizes):
    """Matrix entries of these sizes in 65536ths."""
    return [sign * n / 65536 for n in sizes for sign in (1, -1)]


# From the highest 1 to the lowest 24 binary digits, above a power of 2 and below one, or a single digit; then 25 and more.
EXACT = ([0, -32768] + both_signs((1 << k) + (1 << k - 23) for k in range(24, 31)),
         both_signs((1 << k) - (1 << k - 24) for k in range(24, 32)), both_signs(1 << k for k in range(0, 31, 4)))
INEXACT = (both_signs([(1 << k) + (1 << k - 24) for k in range(24, 31)] + [(1 << 30) + 1]),
           both_signs([(1 << k) - (1 << k - 25) for k in range(25, 32)] + [(1 << 31) - 1]))


def inexact_at(places):
    return [INEXACT[0][k] if k in places else EXACT[0][k] for k in range(16)]


def told(first, name, numbers):
    """The answers to commands in a row."""
    return [f"{first + k} {name} 0 {n}" for k, n in enumerate(numbers)]


def read_as_both(given, numbers):
    """Each given matrix loaded, then each forced; of both these numbers are told."""
    return ([op("open")] + [matrix(2, m) for m in given] + [force(m) for m in given],
            told(1, "matrix", numbers) + told(1 + len(given), "force", numbers))


START = [op("open"), op("matrix", 2, data=IDENTITY)]
CORNERS = START + [load(0, (0, 0, 1)), load(1, (0, 0, 1)), load(2, (0, 0, 1))]
# Lit, with one light, and loaded; then the lighting bit turned over, and back.
LIGHTED = START + [op("lightnum", 24), op("light", 0, data=bytes(range(11))), op("geom", 0, 0x20000), load(0, (0, 0, 1))]
OVER, BACK = (0xFFFDFFFF, 0), (0xFFFFFFFF, 0x20000)
# A corner without light, the same word under the ambient light alone, a word of zeros there; drawn and counted.
HALF_LIT = [op("open"), load(0, (0, 0, 0)), op("geom", 0, 0x20000), load(1, (0, 0, 0)), load(2, (0, 0, 0), colour=(0, 0, 0, 0)),
            op("draw", 0, 1, 2, *DRAW), op("ink", 0x04030201), op("ink", 0)]
# name: commands after which the output has these lines; the areas are ROOMY unless said.
CASES = {
    "01-entries": (START + [force([1.5, -0.5, 32767 + 65535 / 65536] + [0] * 13)],
                   ["2 force 0 1", "t1 1 " + " ".join(map(F32, [1.5, -0.5, 32768.0] + [0.0] * 13))]),
    "02-colour": (START + [load(0, (0, 0, 0)), op("modify", 0, 0x10, 0x11223344), op("draw", 0, 0, 0, *DRAW),
                           op("ink", 0x44332211)], ["5 ink 0 3"]),
    "03-texture": (START + [load(0, (0, 0, 0)), op("modify", 0, 0x14, 0xFFE00040)],
                   ["t7 0 " + " ".join(map(F32, [0.0] * 3 + [-1.0, 2.0] + [0.0] * 4)) + " 0 0 0 1 67305985 0 0 0 0 0"]),
    "04-screen": (START + [load(0, (0, 0, 0)), op("modify", 0, 0x18, 0x0004FFFE)],
                  ["t7 0 " + " ".join(map(F32, [0.0] * 5 + [1.0, -0.5, 0.0, 0.0])) + " 1 0 0 0 67305985 0 0 0 0 0"]),
    "05-depth": (START + [load(0, (0, 0, 0)), load(1, (0, 0, 0)), op("modify", 0, 0x1C, 16777217), op("modify", 1, 0x1C, 0xFFFFFFFF)],
                 ["slot 0 0 1 0 0 " + F64(16777217 / 65536), "slot 1 1 1 0 0 " + F64(0xFFFFFFFF / 65536),
                  "t7 0 " + " ".join(map(F32, [0.0] * 7 + [0.25, 0.0])) + " 2 0 0 0 67305985 0 0 0 0 0",
                  "t7 1 " + " ".join(map(F32, [0.0] * 7 + [64.0, 0.0])) + " 2 0 0 0 67305985 0 0 0 0 0"]),
    **{f"06-lights-{n}": (START + [op("lightnum", n)], [f"state 1 0 0 1 0 0 0 0 0 0 0 {want}"])
       for n, want in ((23, 0), (48, 2), (191, 7), (500, 7))},
    "08-viewport": (START + [op("viewport", data=struct.pack(">8h", 640, 480, 511, 0, 0, 0, 0, 0))],
                    ["vp " + " ".join(map(F32, (160.0, 120.0, 0.4990234375, 0.0, 0.0, 0.0)))]),
    "09-codes": (START + [load(0, (1, 0, 0), (2, 0, 0), (2, -3, 4))],
                 [f"slot {k} {k} 1 0 {code} {F64(0.0)}" for k, code in enumerate((0, 2, 38))]),
    "10-not-culled": (START + [load(0, (2, 0, 4), (0, 0, 4)), op("cull", 0, 1), op("cull", 0, 0)], ["3 cull 0 0", "4 cull 0 1"]),
    "11-depth-test": (START + [op("viewport", data=struct.pack(">8h", 0, 0, 511, 0, 0, 0, 511, 0)), load(0, (0, 0, 1)),
                               op("depth", 0, 66977792), op("depth", 0, 66977791)],
                      ["4 depth 0 1", "5 depth 0 0", "slot 0 0 1 0 0 " + F64(1022.0)]),
    "12-draw-twice": (CORNERS + [op("draw", 0, 1, 2, *DRAW), op("modify", 1, 0x10, 5), op("draw", 0, 1, 2, *DRAW)],
                      [f"t8 {k} {row}" for k, row in enumerate((0, 1, 2, 0, 3, 2))] + ["t9 0 0 0 0 0 0 0 0 6", "slot 1 3 1 1 0 " + F64(0.0)]),
    "13-over-and-back": (LIGHTED + [op("geom", *OVER), op("geom", *BACK), load(1, (0, 0, 1))],
                         ["counts 1 1 1 4 0 0 2 0 0", "state 1 131072 0 1 0 0 0 0 0 0 0 1"]),
    "13-joined": (LIGHTED + [op("geom", *model.joined(OVER, BACK)), load(1, (0, 0, 1))],
                  ["counts 1 1 1 2 0 0 2 0 0", "state 1 131072 0 1 0 0 0 0 0 0 0 1"]),
    "14-lit-and-unlit": (HALF_LIT, ["6 ink 0 1", "7 ink 0 0"] +
                         [f"t7 {k} " + " ".join([F32(0.0)] * 9) + f" 0 0 0 0 {word} 0 {lights} 0 0 0"
                          for k, (word, lights) in enumerate(((0x04030201, 0), (0x04030201, 1), (0, 1)))]),
    "15-recoloured": (HALF_LIT + [op("modify", 1, 0x10, 0x01020304), op("draw", 1, 1, 1, *DRAW), op("ink", 0x04030201)],
                      ["6 ink 0 1", "10 ink 0 4", "t7 3 " + " ".join([F32(0.0)] * 9) + " 0 0 0 0 67305985 0 0 0 0 0"]),
    "load-256-from-0": (START + [many(0, 256)], ["2 load 0 0", "counts 1 1 1 0 0 0 256 0 0"]),
    "load-256-from-1": (START + [many(1, 256)], ["2 load 1 256 1", "counts 1 1 0 0 0 0 0 0 0"]),
    "load-0-from-256": (START + [many(256, 0)], ["2 load 0 0", "counts 1 1 1 0 0 0 0 0 0"]),
    "load-0-from-257": (START + [many(257, 0)], ["2 load 1 0 257"]),
    "push-31": ([op("open")] + pushes(31), ["31 matrix 0 0", "counts 32 1 0 0 0 0 0 0 0", "state 32 0 0 1 0 0 0 0 0 0 0 0"]),
    "push-32": ([op("open")] + pushes(32), ["32 matrix 0 0", "counts 33 1 0 0 0 0 0 0 0", "state 32 0 0 1 0 0 0 0 0 0 0 0"]),
    "notice": ([op("open"), load(0, (0, 0, 0)), load(0, (0, 0, 0))], ["1 load 0 1", "2 load 0 1"]),
    "microcode-still-draws": (CORNERS + [op("ucode", 1), op("draw", 0, 1, 2, *DRAW), op("cull", 0, 2)],
                              ["6 draw 0", "7 cull 3 0", "t9 0 0 0 0 0 0 1 0 3"]),
}
FIVE = inexact_at(range(5))
SOME = [-32768, 255 + 65535 / 65536, 256 + 1 / 65536, 32767 + 65535 / 65536] + [0] * 12
AS_READ = [f32(x) for x in FIVE]
THREE = bytes_of.diagonal(*[256 + 1 / 65536] * 3, 1)
# How many entries of a matrix are inexact is told where it is read, whatever becomes of it.
ROUNDED = {
    "16-none-rounded": read_as_both([[-32768 + 255 / 256] * 16], [0]),
    "17-all-rounded": read_as_both([[32767 + 65535 / 65536] * 16], [16]),
    "18-some-rounded": ([op("open"), matrix(2, SOME), matrix(2, SOME)], told(1, "matrix", [2] * 2) + ["counts 2 1 0 0 0 0 0 0 0"]),
    "inexact-none": read_as_both(EXACT, [0] * 3),
    "inexact-all": read_as_both(INEXACT, [16] * 2),
    "inexact-count": read_as_both([inexact_at(range(n)) for n in range(17)], range(17)),
    "inexact-one": read_as_both([inexact_at([k]) for k in range(16)], [1] * 16),
    "inexact-flags": ([op("open")] + [matrix(flags, THREE) for flags in (*range(8), 255)], told(1, "matrix", [3] * 9)),
    "inexact-not-appended": ([op("open"), matrix(2, FIVE), matrix(2, FIVE), matrix(2, AS_READ), force(AS_READ), force(FIVE), matrix(6, [0] * 16),
                              matrix(3, INEXACT[0])],
                             told(1, "matrix", (5, 5, 0)) + told(4, "force", (0, 5)) + told(6, "matrix", (0, 16)) + ["counts 3 1 0 0 0 0 0 0 0"]),
    "inexact-pop": ([op("open"), matrix(3, FIVE), matrix(3, INEXACT[0]), op("pop", 1), op("pop", 0), op("pop", 9)],
                    told(1, "matrix", (5, 16)) + ["3 pop 0", "4 pop 0", "5 pop 0"]),
}
# name: lengths, commands, lines.
TIGHT = {
    "inexact-refused": (entries(1, 2), [op("open"), matrix(2, FIVE), matrix(7, INEXACT[0]), matrix(3, INEXACT[0]), force(INEXACT[0]), matrix(2, FIVE),
                                        op("matrix", 3, data=bytes(63)), op("force", data=bytes(63)), op("lend", 0, 31), matrix(3, FIVE), force(FIVE),
                                        op("lend", 0, 32), op("poke", 0, 0, 0), matrix(3, FIVE), force(FIVE), op("poke", 0, 0, 1), force(FIVE)],
                        ["1 matrix 0 5", "2 matrix 9 1", "3 matrix 9 1", "4 force 9 1", "5 matrix 0 5", "6 matrix 7 64", "7 force 7 64", "9 matrix 8 1",
                         "10 force 8 1", "13 matrix 10", "14 force 10", "16 force 0 5", "counts 2 1 0 0 0 0 0 0 0", "state 1 0 0 1 0 0 0 0 0 0 0 0",
                         "stack 0 " + " ".join(map(F32, AS_READ)), "proj " + " ".join(map(F32, bytes_of.diagonal(1, 1, 1, 1)))]),
    "rows-fit": (entries(7, 3), CORNERS, ["4 load 0 0", "counts 1 1 1 0 0 0 3 0 0"]),
    "one-row-short": (entries(7, 2), CORNERS, ["4 load 9 7", "counts 1 1 1 0 0 0 2 0 0"]),
    "one-number-short": ([n - 1 if a == 6 else n for a, n in enumerate(entries(7, 3))], CORNERS, ["4 load 9 7"]),
    "one-index-short": (entries(8, 2), CORNERS + [op("draw", 0, 1, 2, *DRAW)], ["5 draw 9 8"]),
    "no-run": (entries(9, 0), CORNERS + [op("draw", 0, 1, 2, *DRAW)], ["5 draw 9 9", "slot 1 1 1 0 0 " + F64(0.0)]),
    "unit-scale-short": (entries(3, 1), CORNERS + [op("draw", 0, 0, 0, *DRAW), op("modify", 0, 0x14, 0)],
                         ["6 modify 9 3", "counts 1 1 1 0 0 0 3 3 1"]),
    "lent-past-the-end": (entries(8, 3), CORNERS + [op("lend", 8, 6), op("draw", 0, 1, 2, *DRAW), op("draw", 0, 1, 2, *DRAW)],
                          ["6 draw 0", "7 draw 9 8"]),
    "no-matrix": (entries(1, 0), [op("open"), op("pop", 0)], ["0 open 9 1", "1 pop 10", "open 0"]),
    "no-viewport": (entries(2, 0), [op("open"), op("geom", 0, 0)], ["0 open 9 2", "1 geom 10", "open 0"]),
}


def short(*areas):
    """Nothing lent of these areas."""
    return [op("lend", a, 0) for a in areas]


def first_light(row, first, count):
    """The caller's own numbers for the lights of a row."""
    return [op("write", 7, 10 * row + 5, first), op("write", 7, 10 * row + 6, count)]


def far_away(column):
    """Products under which one number of every point grows past f32."""
    grown = bytes_of.matrix(bytes_of.diagonal(*[32767 if k == column else 1 for k in range(4)]))
    return [op("matrix", 4, data=grown)] * 10


DRAWN = CORNERS + [op("draw", 0, 1, 2, *DRAW)]                                  # six commands
LIT = START + [op("geom", 0, 0xF0000), load(0, (0, 0, 1)), op("light", 1, data=bytes(11)), op("lookat", 0, data=bytes(11)),
               op("fog", 1, 1), op("texture", 0, 0, 0, 9, 9), force([2.0] * 16), op("ucode", 0)]
CULLED = op("geom", 0, 0x600)
FRONT = op("geom", 0, 0x200)
WRONG_RUN = op("write", 9, 6, 1)
# Several faults at once: the order of REFERENCE 3.2, and the least table.
ORDER = {
    "load-1-7-8": (CORNERS + short(0, 2, 6) + [op("load", 1, 256, data=b""), op("load", 0, 257, data=b""), op("load", 0, 2, data=bytes(31)),
                                               many(0, 2)], ["8 load 1 256 1", "9 load 1 257 0", "10 load 7 32", "11 load 8 1"]),
    "load-8-least": (LIT + short(6, 5, 4, 3, 2) + [many(0, 1), op("lend", 2, 4), many(0, 1), op("lend", 3, 12), many(0, 1), op("lend", 4, 6),
                                                   many(0, 1), op("lend", 5, 2), many(0, 1), op("lend", 6, 9), op("lend", 7, 9), many(0, 1)],
                     ["15 load 8 3", "17 load 8 4", "19 load 8 5", "21 load 8 6", "23 load 8 7", "26 load 8 7"]),
    "load-9-least": (LIT + [op("lend", a, n) for a, n in ((0, 47), (2, 7), (3, 11), (4, 11), (5, 3), (6, 17), (7, 19))] +
                     [many(0, 1), op("lend", 0, 48), many(0, 1), op("lend", 2, 8), many(0, 1), op("lend", 3, 12), many(0, 1),
                      op("lend", 4, 12), many(0, 1), op("lend", 5, 4), many(0, 1), op("lend", 6, 18), many(0, 1), op("lend", 7, 20), many(0, 1)],
                     ["17 load 9 1", "19 load 9 3", "21 load 9 4", "23 load 9 5", "25 load 9 6", "27 load 9 7", "29 load 9 7", "31 load 0 1"]),
    "data-before-room": (START + short(0, 1) + [op("matrix", 2, data=bytes(63)), op("matrix", 2, data=IDENTITY), op("force", data=bytes(63)),
                                                op("force", data=IDENTITY), op("viewport", data=bytes(15)), op("viewport", data=bytes(16)),
                                                op("pop", 0)],
                         ["4 matrix 7 64", "5 matrix 8 1", "6 force 7 64", "7 force 8 1", "8 viewport 7 16", "9 viewport 8 2", "10 pop 8 1"]),
    "cull-3-4": (START + far_away(3) + [load(0, (0, 0, 1)), load(2, (0, 0, 1)), op("cull", 0, 1), op("cull", 1, 2), op("cull", 2, 1),
                                        op("cull", 1, 256), op("depth", 0, 0), op("depth", 1, 0), op("depth", 256, 0)],
                 ["14 cull 4 0", "15 cull 3 1", "16 cull 2 2 1", "17 cull 2 1 256", "18 depth 4 0", "19 depth 3 1", "20 depth 3 256"]),
    **{f"no-code-{k}": (START + far_away(k) + [load(0, (1, 1, 1))], ["slot 0 0 1 0 - -"]) for k in range(4)},
    "code-without-z": (START + [op("force", data=bytes(64)), load(0, (1, 1, 1)), op("cull", 0, 0), op("depth", 0, 0)],
                       ["slot 0 0 1 0 0 -", "4 cull 0 0", "5 depth 4 0"]),
    "modify-5-10-8-9": (DRAWN + [op("poke", 4, 0, 3), op("lend", 2, 4), *short(6), op("modify", 0, 0x11, 0), op("modify", 0, 0x14, 0),
                                 op("poke", 4, 0, 0), op("modify", 0, 0x14, 0), op("lend", 6, 27), op("modify", 0, 0x14, 0),
                                 op("lend", 2, 8), op("modify", 0, 0x14, 0), op("lend", 6, 36), op("modify", 0, 0x14, 0)],
                        ["9 modify 5 0 17", "10 modify 10", "12 modify 8 7", "14 modify 9 3", "16 modify 9 7", "18 modify 0"]),
    "modify-8-least": (CORNERS + short(2, 7) + [op("modify", 0, 0x10, 0)], ["7 modify 8 3"]),
    "draw-exit-first": (CORNERS + short(8, 9) + [CULLED, op("draw", 300, 301, 302, *DRAW), op("poke", 1, 0, 0), op("draw", 0, 1, 2, *DRAW)],
                        ["8 draw 0", "10 draw 10"]),
    "draw-6-before-exchange": (CORNERS + [FRONT, op("draw", 7, 0, 8, *DRAW), op("draw", 0, 256, 9, *DRAW), op("draw", 2, 1, 0, *DRAW)],
                               ["6 draw 6 7", "7 draw 6 256", "8 draw 0", "t8 0 0", "t8 2 2", "t9 0 0 0 0 0 1 0 0 3"]),
    "draw-6-10-8-10-9": (DRAWN + [WRONG_RUN, op("poke", 4, 0, 3), op("lend", 8, 2), op("lend", 9, 7), op("draw", 0, 9, 1, *DRAW),
                                  op("draw", 1, 1, 0, *DRAW), op("poke", 4, 0, 0), op("draw", 0, 1, 2, *DRAW), op("lend", 8, 5),
                                  op("draw", 0, 1, 2, *DRAW), op("lend", 9, 8), op("draw", 0, 1, 2, *DRAW), op("write", 9, 6, 0),
                                  op("draw", 0, 1, 2, *DRAW), op("draw", 0, 1, 2, 1, 0, 0, 0), op("lend", 8, 6),
                                  op("draw", 0, 1, 2, 1, 0, 0, 0), op("draw", 0, 1, 2, *DRAW)],
                         ["10 draw 6 9", "11 draw 10", "13 draw 8 8", "15 draw 8 9", "17 draw 10", "19 draw 9 8", "20 draw 9 8",
                          "22 draw 9 9", "23 draw 0"]),
    "last-run-does-not-wrap": (DRAWN + [op("write", 9, 6, 0xFFFFFFFF), op("write", 9, 7, 4), op("draw", 0, 1, 2, *DRAW)], ["8 draw 10"]),
    "indices-without-run": (DRAWN + [op("poke", 3, 9, 0), op("draw", 0, 1, 2, *DRAW)], ["7 draw 0", "t9 0 0 0 0 0 0 0 3 3"]),
    "ink-least": (DRAWN + short(8, 6) + [op("ink", 0), op("lend", 6, 27), op("ink", 0), op("lend", 8, 3), op("ink", 0x04030201)],
                  ["8 ink 8 7", "10 ink 8 8", "12 ink 0 3"]),
    "ink-beyond-rows": (DRAWN + [op("write", 8, 1, 5), op("ink", 7), op("ink", 0x04030201), op("poke", 3, 7, 2), op("ink", 0x04030201)],
                        ["7 ink 0 0", "8 ink 0 2", "10 ink 0 1"]),
    "ink-first-light": (LIGHTED + [op("light", 1, data=bytes(3)), load(1, (0, 0, 1)), op("geom", *OVER), load(2, (0, 0, 1)),
                                   op("draw", 0, 1, 2, *DRAW), op("ink", 0x04030201), *first_light(1, 3, 0), op("ink", 0x04030201),
                                   *first_light(2, 0, 3), op("ink", 0x04030201)],
                        ["11 ink 0 1", "14 ink 0 2", "17 ink 0 1", "counts 1 1 1 4 0 0 3 3 1"]),
    "others-not-judged": (DRAWN + short(1, 8, 9) + [load(0, (0, 0, 1)), op("pop", 0), op("modify", 0, 0x10, 0), *short(*range(10)), op("lend", 8, 60),
                                                    op("lend", 9, 64), op("draw", 0, 1, 2, *DRAW), op("lend", 9, 0), op("lend", 6, 90), op("lend", 7, 90),
                                                    op("ink", 0), op("lend", 7, 0), op("lend", 0, 16), op("force", data=IDENTITY), op("pop", 0),
                                                    op("matrix", 2, data=IDENTITY), op("lend", 0, 0), op("lend", 1, 6), op("viewport", data=bytes(16))],
                          ["9 load 0 0", "10 pop 0", "11 modify 0", "24 draw 0", "28 ink 0 1", "31 force 0 0", "32 pop 0", "33 matrix 0 0", "36 viewport 0"]),
    "open-least": (short(0, 1) + [op("open"), op("lend", 0, 16), op("open"), op("lend", 1, 6), op("open"), *short(0), op("open")],
                   ["2 open 9 1", "4 open 9 2", "6 open 0", "8 open 9 1", "open 0"]),
    "open-again": (DRAWN + [op("open"), op("draw", 0, 1, 2, *DRAW)], ["6 open 0", "7 draw 6 0", "counts 1 1 0 0 0 0 0 0 0"]),
    "light-bytes": (START + [op("light", 0, data=bytes(2)), op("light", 0, data=bytes(3)), op("light", 1, data=bytes(10)),
                             op("light", 8, data=b""), op("light", 8, data=bytes(11)), op("lookat", 1, data=bytes(10)),
                             op("lookat", 2, data=b""), op("lookat", 2, data=bytes(11))],
                    ["2 light 7 3", "3 light 0", "4 light 7 11", "5 light 7 11", "6 light 0", "7 lookat 7 11", "8 lookat 7 11", "9 lookat 0"]),
    **{f"state-{name}": (DRAWN + [op("poke", *poked), op("geom", 0, 0), op("load", 300, 300, data=b""), op("cull", 9, 0), op("ink", 0),
                                  op("draw", 300, 0, 0, *DRAW)], ["7 geom 10", "8 load 10", "9 cull 10", "10 ink 10", "11 draw 10"])
       for name, poked in (("closed", (0, 0, 0)), ("depth-0", (1, 0, 0)), ("depth-33", (1, 0, 33)), ("lights-8", (2, 0, 8)),
                           ("no-matrix", (3, 1, 0)), ("no-viewport", (3, 2, 0)), *((f"table-{t}", (3, t, 1048577)) for t in range(1, 10)))},
}
# Numbers that are no area's, places outside those that take numbers, and what DRAWN leaves.
BEYOND = (10, 11, 12, 13, 0xFFFFFFFF)
OUTSIDE = [op("write", a, place, 1) for a in tracefile.WRITTEN for place in (ROOMY[a], 0xFFFFFFFF)]
UNTOUCHED = ["counts 1 1 1 0 0 0 3 3 1", "state 1 0 0 1 0 0 0 0 0 0 0 0", f"area 5 {model.area_hash([7] * ROOMY[5])}",
             f"area 8 {model.area_hash([0, 1, 2] + [7] * (ROOMY[8] - 3))}"]
# Acts of the driver: most name nothing, and change nothing.
ACTS = {
    "second-header": (CORNERS + short(*BEYOND) + [op("pop", 0), op("draw", 0, 1, 2, *DRAW), op("write", 12, 0, 1), op("lend", 12, 1024),
                                                  op("ink", 0x04030201)],
                      ["5 lend 0", "6 lend 0", "7 lend 0", "10 pop 0", "11 draw 0", "12 write 0", "13 lend 0", "14 ink 0 3", *UNTOUCHED]),
    "write-not-lent": (DRAWN + short(8) + [op("write", 8, 1, 2), op("write", 8, 59, 1)], ["7 write 0", "8 write 0", "t8 1 2"]),
    "writes-to-nothing": (DRAWN + OUTSIDE + [op("write", a, 0, 1) for a in (0, 1, 2, 3, 4, 6, *BEYOND)] + [op("ink", 0x04030201)],
                          ["6 write 0", "25 ink 0 3", *UNTOUCHED]),
    "pokes-of-nothing": (DRAWN + [op("poke", *p) for p in ((5, 0, 9), (0xFFFFFFFF, 0, 9), (3, 0, 9), (3, 10, 9), (3, 0xFFFFFFFF, 9))] +
                         [op("ink", 0x04030201)], ["6 poke 0", "11 ink 0 3", *UNTOUCHED]),
    "pokes-by-low-bits": (DRAWN + [op("poke", 0, 0, 2), op("geom", 0, 0), op("poke", 0, 0, 3), op("geom", 0, 0), op("poke", 4, 0x103, 2),
                                   op("draw", 3, 3, 3, *DRAW)], ["7 geom 10", "9 geom 0", "11 draw 0", "t8 3 2", "slot 3 2 0 1 - -"]),
}


def explain(*ranges):
    return [op("explain", *each) for each in ranges]


def explained(first, *answers):
    """The answers to explain in a row."""
    return [f"{first + k} explain {each}" for k, each in enumerate(answers)]


SPOILT = ((0, 0, 0, 1), (1, 0, 0, 1), (1, 0, 33, 1), (2, 0, 8, 0), (3, 1, 0, 1), (3, 2, 0, 1), *((3, t, 1048577, 1) for t in (1, 2, 3)),
          (3, 7, 1048577, 3), (3, 9, 1048577, 0))
TURNED = START[:1] + [matrix(2, bytes_of.diagonal(1, 1, 1, -1))]
# Why a range of slots is culled or not, by its first slot and its last.
EXPLAINED = {
    "19-lowest-plane": (START + [load(0, (-5, -5, 0), (5, -5, 0)), op("cull", 0, 1)] + explain((0, 1), (0, 0)), ["3 cull 0 1"] + explained(4, "0 1 2", "0 1 0")),
    "20-first-inside": (START + [load(0, (2, 0, 4), (0, 0, 4)), op("cull", 0, 1)] + explain((0, 1), (1, 1)), ["3 cull 0 0"] + explained(4, "0 0 0 1 0 0", "0 0 1 1 1 1")),
    "21-refused-behind-it": (START + [load(0, (1, 0, 0))] + explain((0, 1), (1, 0)), explained(3, "3 1", "2 1 0")),
    # All four planes have slot 100 outside; one after the other drops out, and at last none is left.
    "explain-each-plane": (TURNED + [placed(100, 0, 1 << 1, 1 << 0, 1 << 3, 1 << 2)] + explain(*((100, 100 + k) for k in range(5)), (101, 104), (104, 104)),
                           [f"slot 10{k} {k} 1 0 {63 - (1 << k >> 1)} {F64(0.0)}" for k in range(5)] +
                           explained(3, "0 1 0", "0 1 1", "0 1 2", "0 1 3", "0 0 101 102 103 104", "0 0 101 102 103 104", "0 1 0")),
    "explain-plane-alone": (START + [placed(0, 1, 2, 4, 8)] + explain((0, 0), (1, 1), (2, 2), (3, 3), (0, 3), (0, 1), (2, 3)),
                            explained(3, "0 1 0", "0 1 1", "0 1 2", "0 1 3", "0 0 1 0 0 0", "0 0 1 0 0 0", "0 0 2 2 3 2")),
    "explain-lowest-of-two": (START + [placed(7, 10, 10, 42), placed(20, 5, 21, 5), placed(30, 6, 6, 22, 9)] +
                              explain((7, 9), (20, 22), (30, 32), (30, 33), (33, 33)),
                              explained(5, "0 1 1", "0 1 0", "0 1 1", "0 0 30 33 33 30", "0 1 0")),
    "explain-near-and-far": (START + [placed(4, 16, 16, 32, 48, 33, 34)] + explain((4, 5), (6, 6), (6, 7), (8, 8), (8, 9), (4, 9)),
                             explained(3, *["0 0 4 4 4 4", "0 0 6 6 6 6", "0 0 6 6 6 6", "0 1 0", "0 0 9 8 8 8", "0 0 4 4 4 4"])),
    # Slot 3 is not loaded and slot 5 has no code, and that no is certain before does not matter.
    "explain-refused-at-the-end": (START + [placed(0, 0, 0, 0), placed(4, 0)] + far_away(3) + [load(5, (1, 1, 1))] +
                                   explain((0, 2), (0, 3), (0, 5), (4, 5), (5, 5), (3, 5), (4, 6), (2, 255)),
                                   explained(15, "0 0 0 0 0 0", "3 3", "3 3", "4 5", "4 5", "3 3", "4 5", "3 3")),
    "explain-no-code-first": (START + [placed(2, 0)] + far_away(0) + [load(0, (1, 1, 1))] + explain((0, 0), (0, 1), (0, 2), (1, 2), (2, 2)),
                              explained(14, "4 0", "4 0", "4 0", "3 1", "0 0 2 2 2 2")),
    "explain-bad-range": (START + [placed(0, 2, 2)] + explain((1, 0), (0, 256), (256, 256), (257, 256), (0, 0xFFFFFFFF), (0xFFFFFFFF, 0), (0, 1)),
                          explained(3, "2 1 0", "2 0 256", "2 256 256", "2 257 256", "2 0 4294967295", "2 4294967295 0", "0 1 1")),
    "explain-last-slots": (START + [placed(253, 8, 9, 2)] + explain((255, 255), (254, 254), (253, 254), (254, 255), (253, 255), (255, 256), (252, 255)),
                           explained(3, "0 1 1", "0 1 0", "0 1 3", "0 0 255 254 254 255", "0 0 253 253 253 255", "2 255 256", "3 252")),
    "explain-all-slots": (START + [placed(0, *[5] * 256)] + explain((0, 255)) + [placed(255, 6)] + explain((0, 255)) + [placed(128, 8)] +
                          explain((0, 255), (127, 129)),
                          explained(3, "0 1 0") + explained(5, "0 1 2") + explained(7, "0 0 128 0 128 0", "0 0 128 127 128 127")),
    "explain-after-microcode": (START + [placed(0, 2, 2)] + explain((0, 1)) + [op("ucode", 1)] + explain((0, 1), (1, 1)) + [placed(0, 2)] + explain((0, 1), (0, 0)),
                                explained(3, "0 1 1") + explained(5, "3 0", "3 1") + explained(8, "3 1", "0 1 1")),
    "explain-not-opened": (explain((0, 0), (1, 0), (0, 256)) + START + explain((0, 0)) + short(0) + [op("open")] + explain((0, 0), (1, 0)),
                           explained(0, "10", "10", "10") + explained(5, "3 0") + explained(8, "10", "10")),
    # Each number out of range, with a range that would be refused and one that would not, and then as it was.
    "explain-state": (START + [placed(0, 2, 2, 2)] + [each for field, index, bad, good in SPOILT for each in
                                                     (op("poke", field, index, bad), *explain((1, 0), (0, 2)), op("poke", field, index, good))] + explain((0, 2)),
                      [f"{4 * k + n} explain 10" for k in range(len(SPOILT)) for n in (4, 5)] + [f"{4 * len(SPOILT) + 3} explain 0 1 1"]),
    # Slots drawn or not, changed, with rows that are gone, and nothing lent.
    "explain-changes-nothing": (DRAWN + short(*range(10)) + explain((0, 2), (1, 2), (0, 3)) + [op("poke", 4, 0, 99)] + explain((0, 2)),
                                explained(16, "0 0 0 0 0 0", "0 0 1 1 1 1", "3 3") + explained(20, "0 0 0 0 0 0") +
                                [*UNTOUCHED, "slot 0 99 1 1 0 " + F64(0.0), "slot 1 1 1 1 0 " + F64(0.0)]),
    # A loaded mark taken away and given back; one given to a slot that has no code and was never loaded.
    "explain-poked-loaded": (START + [placed(0, 2, 2)] + explain((0, 1)) + [op("poke", 7, 1, 0)] + explain((0, 1), (0, 0)) + [op("poke", 7, 0x101, 3)] +
                             explain((0, 1)) + [op("poke", 7, 5, 1)] + explain((5, 5)) + [op("draw", 5, 5, 5, *DRAW), op("modify", 5, 0x10, 7),
                                                                                        op("poke", 7, 5, 2)] + explain((5, 5)),
                             explained(3, "0 1 1") + explained(5, "3 1", "0 1 1") + explained(8, "0 1 1") + explained(10, "4 5") +
                             ["11 draw 6 5", "12 modify 0"] + explained(14, "3 5")),
    "explain-keeps-drawn": (DRAWN + explain((0, 2)) + [load(3, (0, 0, 1))] + explain((0, 3)) + [op("modify", 1, 0x18, 0x00080008), op("modify", 3, 0x10, 5)] +
                            explain((1, 3)), explained(6, "0 0 0 0 0 0") + explained(8, "0 0 0 0 0 0") + explained(11, "0 0 1 1 1 1") +
                            ["slot 1 4 1 0 0 " + F64(0.0), "slot 3 3 1 0 0 " + F64(0.0), "counts 1 1 1 0 0 0 5 3 1"]),
    "explain-beside-cull": (START + [placed(0, 2, 10, 6, 8)] + [op(name, *each) for each in ((0, 2), (0, 3), (1, 3), (3, 3), (3, 4), (4, 3))
                                                                for name in ("cull", "explain")],
                            ["3 cull 0 1", "4 explain 0 1 1", "5 cull 0 0", "6 explain 0 0 0 3 0 0", "7 cull 0 0", "8 explain 0 0 1 3 1 2", "9 cull 0 1",
                             "10 explain 0 1 3", "11 cull 3 4", "12 explain 3 4", "13 cull 2 4 3", "14 explain 2 4 3"]),
}
ALL = {**{name: (ROOMY, *case) for name, case in (CASES | ROUNDED | ORDER | ACTS | EXPLAINED).items()}, **TIGHT}
# Under GST2.
SECOND = {**{name: tracefile.made_for(2, 6, 10) for name in ("14-lit-and-unlit", "15-recoloured", "second-header")},
          **{name: tracefile.made_for(2, 6, 9, 10) for name in ("inexact-count", "inexact-not-appended")},
          **{name: tracefile.made_for(2, 4, 6, 9, 10) for name in EXPLAINED}}


def scripts():
    """Pairs of a name and a script."""
    return {name: tracefile.write(lengths, ops, *SECOND.get(name, ())) for name, (lengths, ops, _) in ALL.items()}


def missing(name, output):
    """The lines that the rules ask for and the output has not."""
    have = set(output.split("\n"))
    return [line for line in ALL[name][2] if line not in have]


# What explain answers in these cases, as show.py says it.
SENTENCES = (
    "culled: slot 100 lies outside the left plane (x < -w)",
    "culled: every slot from 100 to 101 lies outside the right plane (x > w); not so of the left plane",
    "culled: every slot from 100 to 102 lies outside the bottom plane (y < -w); not so of the left and right planes",
    "culled: every slot from 100 to 103 lies outside the top plane (y > w); not so of the left, right and bottom planes",
    "not culled: the first slot that is not outside the left plane is 101, the right 102, the bottom 103, the top 104",
)
