#!/usr/bin/env python3
"""Makes random traces.

  make.py KIND SEED [--size N] [--plain] > FILE        one trace of about N commands
  make.py --batch DIR --from SEED --count N [--kind KIND] [--size N] [--plain]

Kinds: domain (REFERENCE 18), numbers (there too: conversions and roundings),
culled (there too: slots in a row outside the side planes, most of them),
refusal (bad arguments, short data, short and full areas), forged (state and areas tampered with),
edge (areas that fit exactly or lack one number).
Explain is strewn in, at every cull test and elsewhere, and the header is GST2; with --plain neither is so.
The same kind, seed and size make the same bytes.
"""
import argparse
import functools
import pathlib
import random
import sys

import bytes_of
import model
import tracefile
from tracefile import BOUNDS, TABLE_AREAS, WIDTHS, Op

LIGHTING, TEXGEN, LINEAR, FOG, FRONT, BACK = 0x20000, 0x40000, 0x80000, 0x10000, 0x200, 0x400
BITS = (LIGHTING, TEXGEN, LINEAR, FOG, FRONT, BACK)
WORDS = (0, 1, 2, 255, 256, 257, 0x7FFF, 0x8000, 0xFFFF, 0x10000, 0x00FFFFFF, 0x01000001, 0x01000003, 0x7FFFFFFF, 0x80000000,
         0x80000080, 0xFFE00040, 0x0004FFFE, 0xFFFFFF7F, 0xFFFFFF80, 0xFFFFFFFF)
ALL = 0xFFFFFFFF
REQUESTS = tracefile.made_for(2, 4, 6, 9, 10)


def shared(codes):
    """Whether one side plane has all of these outside it."""
    return None not in codes and functools.reduce(int.__and__, codes, 0x0F) != 0


class Maker:
    """Builds a script while the model plays it, so that arguments can aim at the state as it is."""

    def __init__(self, rng, lengths, keeps=lambda number: True):
        self.rng, self.lengths, self.keeps = rng, list(lengths), keeps
        self.driver, self.ops = model.Driver(lengths), []
        self.pool = [bytes_of.matrix(rng.choice(bytes_of.MATRICES)(rng)) for _ in range(4)]
        self.colours = [bytes_of.some(rng, 4) for _ in range(4)]
        self.fogs = [(rng.choice(WORDS) & 0xFFFF, rng.choice(WORDS) & 0xFFFF) for _ in range(3)]
        self.draws = [self.settings() for _ in range(3)]

    @property
    def state(self):
        return self.driver.state

    def do(self, name, *args, data=None):
        """Plays one command and keeps it, unless its answer is not wanted; then it has changed nothing."""
        op = Op(name, list(args), data)
        number = self.driver.step(op)[0]
        if self.keeps(number):
            self.ops.append(op)
        return number

    def script(self):
        return tracefile.write(self.lengths, self.ops)

    # Choices.

    def word(self):
        return self.rng.choice((self.rng.choice(WORDS), self.rng.getrandbits(32)))

    def settings(self):
        """Material, render mode, fog colour, primitive depth."""
        return [self.rng.choice((0, 1, 7, self.word())) for _ in range(4)]

    def slots(self, test):
        return [k for k, slot in enumerate(self.state.slots) if test(slot)]

    def slot(self, test):
        """A slot that passes the test, if there is one; now and then any slot."""
        found = self.slots(test)
        return self.rng.choice(found) if found and self.rng.random() < 0.93 else self.rng.randrange(258)

    def matrix_bytes(self):
        if self.rng.random() < 0.3:
            return self.rng.choice(self.pool)
        made = bytes_of.matrix(self.rng.choice(bytes_of.MATRICES)(self.rng))
        self.pool[self.rng.randrange(4)] = made
        return made + bytes(self.rng.choice((0, 0, 0, 5)))

    # One command each, with sound arguments.

    def matrix(self):
        self.do("matrix", self.rng.choice((0, 1, 1, 2, 2, 3, 3, 4, 5, 6, 6, 7, 10, 255)), data=self.matrix_bytes())

    def force(self):
        self.do("force", data=self.matrix_bytes())

    def pop(self):
        self.do("pop", self.rng.choice((0, 1, 1, 1, 2, 3, 5, 31, 32, 1000)))

    def geom(self):
        chosen = 0
        for bit in BITS:
            chosen |= bit if self.rng.random() < (0.15 if bit in (FRONT, BACK) else 0.5) else 0
        off = self.rng.choice((0, ALL, ALL & ~chosen, ALL & ~self.rng.choice(BITS), self.word()))
        self.do("geom", off & ~(FRONT | BACK) if self.rng.random() < 0.5 else off, self.rng.choice((0, chosen, chosen, chosen | 4)))

    def viewport(self):
        self.do("viewport", data=bytes_of.viewport(self.rng))

    def texture(self):
        scale = lambda: self.rng.choice((0, 1, 0x8000, 0xFFFF, self.rng.randrange(65536)))
        self.do("texture", self.rng.randrange(256), self.rng.randrange(256), self.rng.randrange(2), scale(), scale())

    def fog(self):
        if self.rng.random() < 0.3:
            self.fogs[self.rng.randrange(3)] = (self.rng.getrandbits(16), self.rng.getrandbits(16))
        self.do("fog", *self.rng.choice(self.fogs))

    def lightnum(self):
        n = self.rng.randrange(9) * 24 + self.rng.choice((-1, 0, 0, 0, 1))
        self.do("lightnum", self.rng.choice((max(n, 0), max(n, 0), max(n, 0), 500, self.word())))

    def light(self):
        slot = self.rng.choice((*range(8), self.state.light_count, 8, 9, self.word()))
        self.do("light", slot, data=bytes_of.light(self.rng, 3 if slot == self.state.light_count else 11))

    def lookat(self):
        self.do("lookat", self.rng.choice((0, 0, 1, 1, 2, self.word())), data=bytes_of.light(self.rng, 11))

    def load(self):
        count = self.rng.choice((0, 1, 1, 2, 3, 3, 4, 7))
        first = self.rng.choice((0, 0, 1, 5, 256 - count, self.rng.randrange(257 - count)))
        self.load_of(first, count)

    def load_of(self, first, count):
        data = b"".join(bytes_of.vertex(self.rng, self.colours) for _ in range(count))
        self.do("load", first, count, data=data + bytes(self.rng.choice((0, 0, 0, 9))))

    def cull(self):
        first = self.slot(lambda s: s.loaded)
        last = first
        while last < 255 and self.state.slots[last + 1].loaded and self.rng.random() < 0.8:
            last += 1
        self.do("cull", *self.rng.choice(((first, last),) * 5 + ((first, last + 1), (last + 1, first), (first, 256))))

    def reach(self, first, holds):
        """The last slot from first on up to which this holds of all codes; first itself where it never does."""
        last = first
        while last < 255 and self.state.slots[last + 1].loaded and holds([s.code for s in self.state.slots[first:last + 2]]):
            last += 1
        return last

    def ranges(self):
        """Ranges from a loaded slot on: it alone, as far as one plane has all outside it and one more, as far as there are codes or slots
        and one more; and ranges that are none, or reach over everything."""
        first = self.slot(lambda s: s.loaded)
        tight = self.reach(first, shared)
        coded, wide = self.reach(first, lambda codes: None not in codes), self.reach(first, lambda codes: True)
        return [(first, first), (first, tight), (first, min(tight + 1, wide)), (first, coded), (first, coded + 1), (first, wide), (first, wide + 1),
                (max(first - 1, 0), wide), (wide + 1, first), (first, 256), (0, 255), (first, self.word())]

    def explain(self):
        self.do("explain", *self.rng.choices(self.ranges(), (2, 4, 4, 3, 2, 3, 2, 1, 1, 1, 0.2, 0.5))[0])

    def depth(self):
        hidden = self.rng.random() < 0.1
        slot = self.slot(lambda s: s.loaded and (s.depth is None) == hidden)
        self.do("depth", slot, self.rng.choice((self.word(), *self.thresholds(slot))))

    def thresholds(self, slot):
        """The least threshold that says yes, and its neighbours, where a threshold can say it."""
        z = self.state.slots[slot].depth if slot < 256 else None
        if z is None or not 1 <= z * 65536 < ALL:
            return [0, 1]
        edge = -int(-z * 65536 // 1)
        return [edge, edge - 1, min(edge + 1, ALL)] * 2

    def modify(self):
        slot = self.slot(lambda s: s.loaded and s.drawn == (self.rng.random() < 0.5))
        attribute = self.rng.choice((0x10, 0x14, 0x18, 0x1C) * 5 + (0, 0x11, 0x20, ALL))
        self.do("modify", slot, attribute, self.word())

    def draw(self):
        if self.rng.random() < 0.2:
            self.draws[self.rng.randrange(3)] = self.settings()
        self.do("draw", *[self.slot(lambda s: s.ever) for _ in range(3)], *self.rng.choice(self.draws))

    def ucode(self):
        self.do("ucode", self.rng.randrange(2))

    def ink(self):
        # 7 is what numbers that nobody wrote are.
        colours = [int.from_bytes(c, "little") for c in self.colours] + [0, 7]
        self.do("ink", self.rng.choice(colours))

    # A few commands in a row that random choice seldom brings together.

    def deep_stack(self):
        """Pushes up to the 32nd place and past it."""
        for _ in range(33 - self.state.depth + self.rng.randrange(3)):
            self.do("matrix", 3 if self.rng.random() < 0.8 else 1, data=self.rng.choice(self.pool))

    def overflow(self):
        """Products of huge or tiny matrices until infinities, NaN or denormals stand there."""
        made = bytes_of.matrix(self.rng.choice((bytes_of.huge, bytes_of.tiny, bytes_of.far))(self.rng))
        flags = self.rng.choice((0, 0, 4))
        for _ in range(self.rng.randint(6, 12)):
            self.do("matrix", flags, data=made)
        if self.rng.random() < 0.3:
            self.ucode()
        for _ in range(3):
            self.rng.choice((self.load, self.load, self.lit_scene, self.cull, self.depth))()
        self.do("matrix", flags | 2, data=bytes_of.matrix(bytes_of.moved(self.rng)))

    def zero_signs(self):
        """Combined matrices that differ in zeros' signs only."""
        signs = [self.rng.choice((1, 2)) * -1.0 for _ in range(16)]
        top = self.rng.choice((bytes_of.zeros, bytes_of.one_column))(self.rng)
        column = next((k % 4 for k, x in enumerate(top) if x), 0)
        other = [x if k // 4 == column else self.rng.choice((x, -x)) for k, x in enumerate(signs)]
        self.do("matrix", 2, data=bytes_of.matrix(top))
        for each in (signs, other, signs):
            self.do("matrix", 6, data=bytes_of.matrix(each))
            self.load()
        if self.rng.random() < 0.5:
            self.do("force", data=bytes_of.matrix([0.0] * 16))

    def lit_scene(self):
        """Lights, lookat and texgen under one model matrix, loaded twice and under another."""
        self.do("geom", ALL & ~(FRONT | BACK), LIGHTING | self.rng.choice((0, TEXGEN, TEXGEN | LINEAR)) | self.rng.choice((0, FOG)))
        self.load()
        self.rng.choice((self.matrix, self.light, self.lookat, self.geom, self.lightnum, self.load))()
        self.load()

    def drawn_and_changed(self):
        """A triangle, a change of one of its slots, the triangle again."""
        named = [self.slot(lambda s: s.loaded) for _ in range(3)]
        settings = self.rng.choice(self.draws)
        self.do("draw", *named, *settings)
        for _ in range(self.rng.randint(1, 2)):
            self.do("modify", self.rng.choice(named), self.rng.choice((0x10, 0x14, 0x18, 0x1C)), self.word())
            self.do("draw", *named, *settings)

    def fog_pairs(self):
        """A fog pair that was in use before, but not last."""
        self.do("geom", ALL, FOG)
        for pair in (self.fogs[0], self.fogs[1], self.fogs[0]):
            self.do("fog", *pair)
            self.load()

    def full_load(self):
        self.load_of(0, 256)


PLAIN = ((Maker.matrix, 8), (Maker.force, 2), (Maker.pop, 4), (Maker.geom, 6), (Maker.viewport, 3), (Maker.texture, 3),
         (Maker.fog, 3), (Maker.lightnum, 2), (Maker.light, 5), (Maker.lookat, 3), (Maker.load, 10), (Maker.cull, 4),
         (Maker.depth, 5), (Maker.modify, 10), (Maker.draw, 12), (Maker.ucode, 1), (Maker.ink, 2), (Maker.lit_scene, 3),
         (Maker.drawn_and_changed, 3), (Maker.zero_signs, 1), (Maker.fog_pairs, 0.7))
LARGE = ((Maker.deep_stack, 1), (Maker.overflow, 2), (Maker.full_load, 0.3))


def play(maker, size, mix):
    acts, weights = zip(*mix)
    while len(maker.ops) < size:
        maker.rng.choices(acts, weights)[0](maker)


def prologue(m):
    """The start of a comparison."""
    m.do("open")
    m.do("pop", 32)
    m.do("matrix", 2, data=m.matrix_bytes())
    m.do("matrix", 6, data=m.matrix_bytes())
    m.viewport()
    m.do("geom", 0, m.rng.choice((0, LIGHTING, FOG, LIGHTING | TEXGEN | FOG, m.word() & ~(FRONT | BACK))))
    m.texture()
    m.fog()
    m.do("lightnum", 168)
    for slot in range(8):
        m.do("light", slot, data=bytes_of.light(m.rng, 11))
    for slot in range(2):
        m.do("lookat", slot, data=bytes_of.light(m.rng, 11))
    m.load_of(m.rng.randrange(256), 1)
    m.do("mark")


def fitted(counts, rng, slack):
    """Lengths that hold so many entries and a few more."""
    lengths = [0] * 10
    for table, areas in TABLE_AREAS.items():
        for a in areas:
            lengths[a] = min(BOUNDS[a], (counts[table] + rng.randrange(slack + 1)) * WIDTHS[a])
    return lengths


def comparable(rng):
    """A start from which only what both sides do is kept: the original has refusals 1 to 5 too."""
    m = Maker(rng, BOUNDS, keeps=lambda number: number <= 5)
    prologue(m)
    return m


def domain(rng, size, seed):
    m = comparable(rng)
    play(m, len(m.ops) + size, PLAIN + LARGE if size > 40 else PLAIN)
    m.lengths = fitted(m.state.counts, rng, 3)
    return m.script()


# Slots outside the side planes.

def piece(m):
    """Slots in a row that lie outside the same planes, one of them seldom not; under no matrix, or one that turns the sides over."""
    m.do("force", data=bytes_of.matrix(bytes_of.diagonal(1, 1, 1, m.rng.choice((1, 1, 1, -1)))))
    common = [m.rng.choice((-5, 0, 5)) for _ in range(2)]
    count = m.rng.choice((1, 2, 3, 3, 5, 8, 20))
    first = m.rng.choice((0, m.rng.randrange(257 - count), 256 - count))
    places = [[n if n and m.rng.random() < 0.93 else m.rng.choice((-5, 0, 5)) for n in common + [0]] for _ in range(count)]
    m.do("load", first, count, data=b"".join(bytes_of.placed(m.rng, place, m.colours) for place in places))
    for _ in range(m.rng.randint(1, 4)):
        m.cull()


def culled(rng, size, seed):
    m = comparable(rng)
    play(m, len(m.ops) + size, PLAIN + ((piece, 15), (Maker.cull, 6), (unseen, 2)))
    m.lengths = fitted(m.state.counts, rng, 3)
    return m.script()


# Numbers from bytes.

def twins(seed, join=model.joined, size=20):
    """A domain trace that ends in a row of mode words, and one that ends in what they are joined to."""
    m = comparable(random.Random(f"twins {seed}"))
    play(m, len(m.ops) + size, PLAIN)
    shared = m.ops[:]
    for _ in range(m.rng.randrange(2, 7)):
        m.geom()
    one = functools.reduce(join, [op.args for op in m.ops[len(shared):]], (ALL, 0))
    return m.script(), tracefile.write(m.lengths, shared + [Op("geom", list(one), None)])


def swept(start, n):
    """n bytes from start on, each one more than the last."""
    return bytes((start + k) % 256 for k in range(n))


def sweep(m, start):
    """24 colour bytes and 24 direction bytes through the lights, 6 through lookat, all beginning with start."""
    for k in range(8):
        m.do("light", k, data=swept(start + 3 * k, 3) + bytes(5) + swept(start + 3 * k, 3))
    for k in range(2):
        m.do("lookat", k, data=bytes(8) + swept(start + 24 + 3 * k, 3))


def numbers(rng, size, seed):
    """Rounds of conversions; the lights of seeds 1 to 11 have every byte in them."""
    m = comparable(rng)
    m.do("geom", 0, LIGHTING | TEXGEN | FOG)
    while len(m.ops) < size:
        m.do("force", data=bytes_of.matrix(m.rng.choice((bytes_of.ties, bytes_of.ties, bytes_of.any_bits))(m.rng)))
        m.do("matrix", 2, data=bytes_of.matrix(m.rng.choice((bytes_of.moved, bytes_of.ties, bytes_of.tiny, bytes_of.sparse))(m.rng)))
        m.viewport()
        m.texture()
        m.load_of(0, 3)
        for attribute in (0x14, 0x18, 0x1C):
            m.do("modify", m.rng.randrange(3), attribute, m.word())
        m.depth()
        m.draw()
    m.do("lightnum", 168 + 24)
    sweep(m, 24 * (seed - 1))
    m.do("lightnum", 0)
    m.do("light", 7, data=swept(24 * (seed - 1) + 21, 3) + bytes(5) + swept(24 * (seed - 1) + 21, 3))
    m.load()
    m.lengths = fitted(m.state.counts, rng, 3)
    return m.script()


# Areas that fit what is put in them.

def edge_ends(m):
    """Loads at the ends of the slots, pushes at the end of the stack."""
    m.load_of(*m.rng.choice(((0, 256), (1, 256), (256, 0), (257, 0), (255, 1), (255, 2), (0, 257), (1, 255))))
    for _ in range(m.rng.choice((0, 30, 31, 32))):
        m.do("matrix", 3, data=m.pool[0])


def edge(rng, size, seed):
    """A script played once in ample areas; then the areas are cut to what it used, or to less."""
    m = Maker(rng, BOUNDS)
    m.do("open")
    if rng.random() < 0.2:
        edge_ends(m)
        size //= 2
    play(m, size, PLAIN)
    lengths = fitted(m.state.counts, rng, 0)
    for _ in range(rng.choice((0, 1, 1, 1, 2, 3))):
        a = rng.choice((0, 1, 2, 3, 4, 5, 6, 7, 8, 9))
        lengths[a] = max(0, lengths[a] - rng.choice((1, 1, WIDTHS[a], WIDTHS[a] + 1, 3 * WIDTHS[a])))
    return tracefile.write(lengths, m.ops)


# Arguments that are refused.

def bad_data(m):
    """A command whose bytes may be too few."""
    name, args, need = m.rng.choice((("matrix", [m.rng.randrange(8)], 64), ("force", [], 64), ("viewport", [], 16),
                                     ("light", [m.rng.choice((m.state.light_count, m.rng.randrange(10)))], 11),
                                     ("lookat", [m.rng.randrange(4)], 11)))
    given = m.rng.choice((0, 2, 3, need // 2, need - 1, need - 1, need))
    m.do(name, *args, data=bytes_of.some(m.rng, given))


def bad_load(m):
    first = m.rng.choice((0, 1, 255, 256, 257, ALL, m.rng.randrange(256)))
    count = m.rng.choice((0, 1, 2, 3, 255 if m.rng.random() < 0.1 else 4, 257, ALL))
    need = 16 * count if count < 300 else 16
    given = m.rng.choice((0, max(0, need - 1), need, need))
    m.do("load", first, count, data=b"".join(bytes_of.vertex(m.rng, m.colours) for _ in range(given // 16 + 1))[:given])


def bad_slots(m):
    any_slot = lambda: m.rng.choice((m.rng.randrange(256), m.slot(lambda s: s.loaded), 255, 256, ALL))
    act = m.rng.randrange(4)
    if act == 0:
        m.do("cull", any_slot(), any_slot())
    elif act == 1:
        m.do("depth", any_slot(), m.word())
    elif act == 2:
        m.do("modify", any_slot(), m.rng.choice((0x10, 0x14, 0x18, 0x1C, 0x12, 0)), m.word())
    else:
        m.do("draw", *[m.rng.choice((any_slot(), m.slot(lambda s: s.ever))) for _ in range(3)], *m.rng.choice(m.draws))


def lend(m):
    """Lends an area at, just below or far below what is in use, or whole again."""
    table = m.rng.randint(1, 9)
    a = m.rng.choice(TABLE_AREAS[table])
    used = m.state.counts[table] * WIDTHS[a]
    length = m.rng.choice((m.lengths[a], m.lengths[a], used, used, used + WIDTHS[a], used + 3 * WIDTHS[a], used - 1, 0))
    m.do("lend", a, max(0, min(length, m.lengths[a])))


def lend_all(m):
    for a in range(10):
        m.do("lend", a, m.lengths[a])


def squeeze(m, *tables):
    """Lends some of these tables just what is in use, some less."""
    for t in m.rng.sample(tables, m.rng.randint(1, len(tables))):
        a = m.rng.choice(TABLE_AREAS[t])
        used = m.state.counts[t] * WIDTHS[a]
        m.do("lend", a, max(0, min(used - m.rng.choice((0, 0, 1, WIDTHS[a])), m.lengths[a])))


def drawn_change(m):
    """The change that may append to two tables at once."""
    m.do("modify", m.slot(lambda s: s.loaded and s.drawn), 0x14, m.word())


SQUEEZED = (((1, 3, 4, 5, 6, 7), (Maker.load, Maker.load, bad_load, Maker.lit_scene)), ((3, 7), (drawn_change, Maker.modify, bad_slots)),
            ((8, 9), (Maker.draw, Maker.draw, bad_slots)), ((7, 8), (Maker.ink,)), ((1, 2), (Maker.matrix, Maker.pop, Maker.viewport, bad_data)))


def short_and_wrong(m):
    """Areas at or below what is in use, and commands that are wrong in other ways too."""
    tables, acts = m.rng.choice(SQUEEZED)
    squeeze(m, *tables)
    for _ in range(m.rng.randint(1, 3)):
        m.rng.choice(acts)(m)
    if m.rng.random() < 0.8:
        lend_all(m)


def unseen(m):
    """Slots without clip code or without screen z, some beside slots that are not loaded."""
    if m.rng.random() < 0.6:
        for _ in range(10):
            m.do("matrix", 0, data=bytes_of.matrix(m.rng.choice((bytes_of.huge, bytes_of.far))(m.rng)))
    else:
        m.do("force", data=bytes_of.matrix([0.0] * 16))
    m.load()
    found = m.slots(lambda s: s.loaded and s.depth is None)
    if found:
        slot = m.rng.choice(found)
        m.do("depth", slot, m.word())
        m.do("cull", max(0, slot - m.rng.randrange(2)), min(255, slot + m.rng.randrange(2)))


def both_sides(m):
    """Draws that the cull bits end before anything else is judged, and the same without."""
    m.do("geom", ALL, FRONT | BACK)
    bad_slots(m)
    m.do("draw", m.rng.randrange(300), m.word(), m.rng.randrange(300), *m.rng.choice(m.draws))
    m.do("geom", ALL & ~m.rng.choice((FRONT, BACK, FRONT | BACK)), 0)
    m.draw()


BAD = ((bad_data, 5), (bad_load, 5), (bad_slots, 10), (lend, 3), (lend_all, 1), (short_and_wrong, 4), (unseen, 1), (both_sides, 1))


def small_lengths(rng):
    """Areas of a few entries; now and then hardly any, or a part of one more."""
    entries = lambda: rng.choice((0, 1, 2, 3)) if rng.random() < 0.1 else rng.choice((5, 8, 12, 20, 30, 40, 60))
    lengths = [entries() * w + (rng.randrange(w) if rng.random() < 0.3 else 0) for w in WIDTHS]
    if rng.random() < 0.95:
        lengths[0], lengths[1] = max(lengths[0], 16), max(lengths[1], 6)
    return lengths


def started(m):
    """An opening, seldom none, and most often something loaded and drawn."""
    while m.rng.random() < 0.1:
        m.rng.choice((m.geom, m.texture, m.fog, m.ucode, m.ink, m.pop, m.draw, m.load, m.viewport, m.lightnum, m.light, m.lookat))()
    if m.rng.random() < 0.97:
        m.do("open")
    if m.rng.random() < 0.8:
        m.load_of(m.rng.randrange(4), 3)
        m.draw()
        m.lit_scene()


def refusal(rng, size, seed):
    m = Maker(rng, small_lengths(rng))
    started(m)
    play(m, size, PLAIN + BAD + ((lambda m: m.do("open"), 0.5),))
    return m.script()


# A state and areas that no command left so.

def poke_state(m):
    """The state's own numbers: out of range for a while, or another number in range."""
    s = m.state
    t = m.rng.randint(3, 9)
    field, index, now, bad = m.rng.choice(((0, 0, int(s.opened), (0,)), (1, 0, s.depth, (0, 33, ALL)), (2, 0, s.light_count, (8, ALL)),
                                           (3, 1, s.counts[1], (0, 1048577)), (3, 2, s.counts[2], (0, 1048577, ALL)),
                                           (3, t, s.counts[t], (1048577, ALL))))
    m.do("poke", field, index, m.rng.choice(bad))
    for _ in range(m.rng.randint(1, 4)):
        m.rng.choice((m.geom, m.texture, m.fog, m.ucode, m.ink, m.pop, m.draw, m.load, m.viewport, m.lightnum, m.light, m.lookat,
                      m.matrix, m.force, m.cull, m.depth, m.modify, lambda: bad_slots(m), lambda: bad_data(m)))()
    m.do("poke", field, index, now)


def poke_in_range(m):
    """A number that is in range and yet not what the commands made of it."""
    room = lambda t: m.driver.areas.room(t)
    t = m.rng.randint(1, 9)
    field, index, value = m.rng.choice(((1, 0, m.rng.randint(1, 32)), (2, 0, m.rng.randrange(8)),
                                        (3, t, m.rng.randint(1 if t < 3 else 0, max(1, room(t)))),
                                        (3, t, room(t)), (3, t, room(t) + 1), (3, t, 1048576)))
    m.do("poke", field, index, value)


def poke_row(m):
    value = m.rng.choice((0, m.state.counts[7], max(0, m.state.counts[7] - 1), ALL, m.rng.randrange(40)))
    slot = m.slot(lambda s: s.loaded) % 256
    m.do("poke", 4, slot, value)
    if m.rng.random() < 0.4:
        squeeze(m, 3, 7, 8, 9)
    m.do("modify", slot, m.rng.choice((0x10, 0x14, 0x18, 0x1C, 0)), m.word())
    m.do("draw", *m.rng.sample((slot, m.slot(lambda s: s.ever), m.slot(lambda s: s.ever)), 3), *m.rng.choice(m.draws))
    if m.rng.random() < 0.8:
        lend_all(m)


def write_area(m):
    """The caller writes where entries are, or beyond them."""
    table, area = m.rng.choice(((6, 5), (7, 7), (8, 8), (9, 9)))
    length = m.lengths[area]
    used = min(length, m.state.counts[table] * WIDTHS[area])
    if length:
        place = m.rng.randrange(used) if used and m.rng.random() < 0.8 else m.rng.randrange(length)
        m.do("write", area, place, m.rng.choice((m.word(), m.rng.randrange(12), m.fogs[0][0])))


def write_run(m):
    """The last run's start and count: a sum that still fits, one that wraps, one off."""
    n, indices = m.state.counts[9], m.state.counts[8]
    at = (n - 1) * 8 + 6
    if n and at + 1 < m.lengths[9]:
        start, count = m.rng.choice(((0, indices), (indices, 0), (ALL, indices + 1), (indices, 1), (ALL, ALL), (max(0, indices - 3), 3)))
        m.do("write", 9, at, start)
        m.do("write", 9, at + 1, count)
        m.draw()


FORGED = ((poke_state, 4), (poke_in_range, 6), (poke_row, 5), (write_area, 8), (write_run, 3), (Maker.ink, 4), (bad_slots, 3),
          (lend, 2), (lend_all, 1))


def forged(rng, size, seed):
    m = Maker(rng, small_lengths(rng))
    started(m)
    play(m, size, PLAIN + FORGED + ((lambda m: m.do("open"), 0.7),))
    return m.script()


KINDS = {"domain": domain, "numbers": numbers, "culled": culled, "refusal": refusal, "forged": forged, "edge": edge}
SIZES = (10, 20, 40, 80, 160, 300)


def plain(kind, seed, size=None):
    """The bytes of one trace as its kind has it; without a size the seed chooses one."""
    rng = random.Random(f"{kind} {seed} {size}")
    script = KINDS[kind](rng, size or rng.choice(SIZES), seed)
    if len(script) > tracefile.MOST_BYTES:
        return plain(kind, seed, 40)
    return script


def played(script, rng):
    """A maker that goes on where a script ends, and the script's commands one by one while it plays them."""
    lengths, ops = tracefile.read(script)
    m = Maker(rng, lengths)

    def steps():
        for op in ops:
            m.do(op.name, *op.args, data=op.data)
            yield op

    return m, steps()


def make(kind, seed, size=None):
    """One trace with explain strewn in: at each cull test by its range, there and elsewhere by others. It changes nothing, so all else fits as before."""
    m, steps = played(plain(kind, seed, size), random.Random(f"explained {kind} {seed} {size}"))
    for op in steps:
        if op.name == "cull":
            m.do("explain", *op.args)
        if m.rng.random() < (0.6 if op.name == "cull" else 0.1):
            m.explain()
    script = tracefile.write(m.lengths, m.ops, *REQUESTS)
    return script if len(script) <= tracefile.MOST_BYTES else make(kind, seed, 40)


def asked(seed):
    """(ranges, a trace that ends in a cull test of each, the same with explain for every cull test)."""
    kind = list(KINDS)[seed % len(KINDS)]
    m, steps = played(make(kind, seed, 40), random.Random(f"asked {seed}"))
    before = [(Op("cull", op.args, None) if op.name == "explain" else op) for op in steps]
    ranges = [each for _ in range(2) for each in m.ranges()]
    ops = before + [Op("cull", list(each), None) for each in ranges]
    explained = [(Op("explain", op.args, None) if op.name == "cull" else op) for op in ops]
    return ranges, *(tracefile.write(m.lengths, each, *REQUESTS) for each in (ops, explained))


def batch(args):
    folder = pathlib.Path(args.batch)
    folder.mkdir(parents=True, exist_ok=True)
    for kind in [args.kind] if args.kind else KINDS:
        for seed in range(args.first, args.first + args.count):
            (folder / f"{kind}-{seed}.trace").write_bytes(args.make(kind, seed, args.size))


def main():
    parser = argparse.ArgumentParser(usage=__doc__)
    parser.add_argument("which", nargs="*")
    parser.add_argument("--batch")
    parser.add_argument("--from", dest="first", type=int, default=1)
    parser.add_argument("--count", type=int, default=1)
    parser.add_argument("--kind", choices=KINDS)
    parser.add_argument("--size", type=int)
    parser.add_argument("--plain", dest="make", action="store_const", const=plain, default=make)
    args = parser.parse_args()
    if args.batch:
        batch(args)
    elif len(args.which) == 2 and args.which[0] in KINDS:
        sys.stdout.buffer.write(args.make(args.which[0], int(args.which[1]), args.size))
    else:
        parser.error("a kind and a seed, or --batch")


if __name__ == "__main__":
    main()
