#!/usr/bin/env python3
"""The stage as docs/REFERENCE.md says it, in Python: reads a trace on standard input, prints the answers.

It shares no text with the stage or with the original, and so it is a second opinion on both.
"""
import math
import struct
import sys

import tracefile
from floats import IDENTITY, bits32, f32, point, product, show32, show64, turned, unit

MOST_ENTRIES = 1048576
LIGHTING, TEXGEN, LINEAR, FOG = 0x20000, 0x40000, 0x80000, 0x10000
FRONT, BACK = 0x200, 0x400
ATTRIBUTES = (0x10, 0x14, 0x18, 0x1C)


class Refused(Exception):
    """A refusal: its number and the values that it returns."""

    def __init__(self, *values):
        super().__init__(values)
        self.values = values


class Areas:
    """What the caller owns, and how much of it is lent."""

    def __init__(self, lengths):
        self.numbers = [[7.0 if k in tracefile.F32_AREAS else 7] * n for k, n in enumerate(lengths)]
        self.lent = list(lengths)

    def room(self, table):
        rooms = [self.lent[a] // tracefile.WIDTHS[a] for a in tracefile.TABLE_AREAS[table]]
        return min(*rooms, MOST_ENTRIES)

    def inside(self, table):
        """Entries that the whole area holds, lent or not."""
        return min(len(self.numbers[a]) // tracefile.WIDTHS[a] for a in tracefile.TABLE_AREAS[table])

    def entry(self, table, k):
        out = []
        for a in tracefile.TABLE_AREAS[table]:
            w = tracefile.WIDTHS[a]
            out += self.numbers[a][k * w:k * w + w]
        return out

    def put(self, table, k, values):
        for a in tracefile.TABLE_AREAS[table]:
            w = tracefile.WIDTHS[a]
            self.numbers[a][k * w:k * w + w] = values[:w]
            values = values[w:]

    def lend(self, area, length):
        if area < len(self.lent):
            self.lent[area] = min(length, len(self.numbers[area]))

    def write(self, area, place, value):
        if area in tracefile.WRITTEN and place < len(self.numbers[area]):
            self.numbers[area][place] = signed(value) if area == tracefile.I16_AREA else value


class Slot:
    def __init__(self):
        self.row = 0
        self.ever = self.loaded = self.drawn = False
        self.code = self.depth = None

    def unload(self):
        self.loaded = self.drawn = False
        self.code = self.depth = None

    def is_new(self):
        return not (self.ever or self.loaded or self.drawn) and self.code is None and self.depth is None


class State:
    """Every number zero: the state that is not opened."""

    def __init__(self):
        self.opened = False
        self.counts = [None] + [0] * 9               # by table number
        self.depth = 0
        self.stack = [[0.0] * 16 for _ in range(32)]
        self.proj = [0.0] * 16
        self.combined = [0.0] * 16
        self.defined = False
        self.viewport = [0.0] * 6
        self.geom = self.ucode = 0
        self.tile = self.level = self.on = self.sc = self.tc = 0
        self.fog = (0, 0)
        self.light_count = 0
        self.lights = [[0.0] * 6 for _ in range(8)]
        self.ambient = [0.0] * 3
        self.look = [[0.0] * 3, [0.0] * 3]
        self.light_fold = Fold()
        self.look_fold = Fold()
        self.unit_scale = None
        self.slots = [Slot() for _ in range(256)]

    def top(self):
        return self.stack[self.depth - 1]


class Fold:
    """What was last folded for lights or lookat: the top it was folded under and where it lies."""

    def __init__(self):
        self.top, self.changed, self.first = None, False, 0

    def stale(self, top):
        return self.top is None or self.changed or not same(self.top, top)

    def done(self, top, first):
        self.top, self.changed, self.first = list(top), False, first


def opening(areas):
    state = State()
    for table in (1, 2):
        if areas.room(table) < 1:
            return state, (9, table)
    state.opened = True
    state.depth = 1
    state.stack[0] = list(IDENTITY)
    state.proj, state.combined = list(IDENTITY), list(IDENTITY)
    state.counts[1] = state.counts[2] = 1
    areas.put(1, 0, IDENTITY)
    areas.put(2, 0, state.viewport)
    return state, (0,)


# Judges, in the order of REFERENCE 3.2.

def judge_state(s):
    counts_fit = all(n <= MOST_ENTRIES for n in s.counts[1:]) and s.counts[1] >= 1 and s.counts[2] >= 1
    if not (s.opened and 1 <= s.depth <= 32 and s.light_count <= 7 and counts_fit):
        raise Refused(10)


def judge_data(data, need):
    if len(data) < need:
        raise Refused(7, need)


def judge_lent(s, areas, *tables):
    for t in tables:
        if areas.room(t) < s.counts[t]:
            raise Refused(8, t)


def judge_room(s, areas, added):
    """added: pairs of a table and the entries that it would get, in order."""
    for t, n in added:
        if s.counts[t] + n > areas.room(t):
            raise Refused(9, t)


def judge_row(s, slot):
    if s.slots[slot].row >= s.counts[7]:
        raise Refused(10)


# Numbers from bytes.

def entries_of(data):
    """A matrix's sixteen entries, each in 65536ths."""
    whole, parts = struct.unpack(">16h", data[:32]), struct.unpack(">16H", data[32:64])
    return [65536 * w + p for w, p in zip(whole, parts)]


def matrix_of(data):
    return [f32(e / 65536) for e in entries_of(data)]


def is_exact(entry):
    """Whether an f32 holds it: behind the highest 24 binary digits there are only zeros."""
    size = abs(entry)
    return size % (1 << max(0, size.bit_length() - 24)) == 0


def inexact(data):
    """How many of a matrix's sixteen entries are rounded when they are read."""
    return sum(1 for e in entries_of(data) if not is_exact(e))


def viewport_of(data):
    h = struct.unpack(">8h", data[:16])
    return [f32(h[0] / 4), f32(h[1] / 4), f32(h[2] / 1024), f32(h[4] / 4), f32(h[5] / 4), f32(h[6] / 1024)]


def colour_of(data):
    return [f32(b / 255) for b in data[:3]]


def direction_of(data):
    return [f32(b / 127) for b in struct.unpack("3b", data[8:11])]


def signed(half):
    return (half & 0xFFFF) - ((half & 0x8000) << 1)


def halves_of(word):
    return signed(word >> 16), signed(word)


# Entries appended unless equal to the last. A list's == takes one NaN for equal to itself; this does not.

def same(a, b):
    return all(x == y for x, y in zip(a, b))


def last(s, areas, table):
    n = s.counts[table]
    return areas.entry(table, n - 1) if n else None


def append(s, areas, table, values):
    areas.put(table, s.counts[table], values)
    s.counts[table] += 1


def append_new(s, areas, table, values):
    """Judges room and appends, if values differ from the last entry."""
    if not same(values, last(s, areas, table)):
        judge_room(s, areas, [(table, 1)])
        append(s, areas, table, values)


def set_combined(s, areas, values):
    append_new(s, areas, 1, values)
    s.combined, s.defined = values, True


# Commands. Each gets the state, the areas, its numbers and its data, and returns the values of its answer.

def do_matrix(s, areas, args, data):
    judge_data(data, 64)
    judge_lent(s, areas, 1)
    flags, given = args[0], matrix_of(data)
    depth, top, proj = s.depth, s.top(), s.proj
    if flags & 4:
        proj = given if flags & 2 else product(given, proj)
    else:
        depth += 1 if flags & 1 and depth < 32 else 0
        top = given if flags & 2 else product(given, top)
    set_combined(s, areas, product(top, proj))
    s.depth, s.proj = depth, proj
    s.stack[depth - 1] = list(top)
    return (inexact(data),)


def do_force(s, areas, args, data):
    judge_data(data, 64)
    judge_lent(s, areas, 1)
    set_combined(s, areas, matrix_of(data))
    return (inexact(data),)


def do_pop(s, areas, args, data):
    judge_lent(s, areas, 1)
    depth = max(1, s.depth - args[0])
    if depth != s.depth:
        set_combined(s, areas, product(s.stack[depth - 1], s.proj))
        s.depth = depth
    return ()


def geometry_after(off, on, old):
    return (old & off) | on


def joined(first, second):
    """Two mode words in a row, each off and on, as one."""
    return first[0] & second[0], (first[1] & second[0]) | second[1]


def do_geom(s, areas, args, data):
    old = s.geom
    s.geom = geometry_after(*args, old)
    if (old ^ s.geom) & LIGHTING:
        s.light_fold.changed = True
    return ()


def do_viewport(s, areas, args, data):
    judge_data(data, 16)
    judge_lent(s, areas, 2)
    given = viewport_of(data)
    append_new(s, areas, 2, given)
    s.viewport = given
    return ()


def do_texture(s, areas, args, data):
    s.tile, s.level, s.on, s.sc, s.tc = args
    return ()


def do_fog(s, areas, args, data):
    s.fog = (signed(args[0]), signed(args[1]))
    return ()


def do_lightnum(s, areas, args, data):
    s.light_count = min(7, args[0] // 24)
    s.light_fold.changed = True
    return ()


def do_light(s, areas, args, data):
    slot, = args
    judge_data(data, 3 if slot == s.light_count else 11)
    if slot == s.light_count:
        s.ambient = colour_of(data)
    elif slot < 8:
        s.lights[slot] = direction_of(data) + colour_of(data)
    s.light_fold.changed = True
    return ()


def do_lookat(s, areas, args, data):
    judge_data(data, 11)
    if args[0] < 2:
        s.look[args[0]] = direction_of(data)
    s.look_fold.changed = True
    return ()


class Settled:
    """What a load decides before its rows: the entries that each table would get."""

    def __init__(self, s, areas):
        self.lit = bool(s.geom & LIGHTING)
        self.texgen = 0 if not (self.lit and s.geom & TEXGEN) else 2 if s.geom & LINEAR else 1
        self.combined = s.combined if s.defined else product(s.top(), s.proj)
        self.new = {t: [] for t in (1, 3, 4, 5, 6)}
        if not s.defined and not same(self.combined, last(s, areas, 1)):
            self.new[1] = [self.combined]
        self.settle_scales(s, areas)
        self.settle_folds(s)
        self.fog = self.settle_fog(s, areas)

    def settle_scales(self, s, areas):
        pairs = [f32(n / d) for d in (2097152, 65536) for n in (s.sc, s.tc)]
        before = last(s, areas, 3)
        if before is None or not same(pairs[:2], before[:2]):
            self.new[3] = [pairs]

    def settle_folds(self, s):
        top = s.top()
        if self.lit and s.light_fold.stale(top):
            lights = [unit(turned(top, light[:3])) + light[3:] for light in s.lights[:s.light_count]]
            self.new[4] = lights + [[0.0] * 3 + s.ambient]
        if self.texgen and s.look_fold.stale(top):
            self.new[5] = [unit(turned(top, s.look[0])) + unit(turned(top, s.look[1]))]

    def settle_fog(self, s, areas):
        if not s.geom & FOG:
            return 0
        for k in range(s.counts[6]):
            if tuple(areas.entry(6, k)) == s.fog:
                return k + 1
        self.new[6] = [list(s.fog)]
        return s.counts[6] + 1


def take_settled(s, areas, settled):
    if settled.new[4]:
        s.light_fold.done(s.top(), s.counts[4])
    if settled.new[5]:
        s.look_fold.done(s.top(), s.counts[5])
    for table, entries in settled.new.items():
        for entry in entries:
            append(s, areas, table, entry)
    s.combined = settled.combined


def row_numbers(s, settled):
    """The u32 of a new row, its colour left to the vertex."""
    lights = (s.light_fold.first, s.light_count + 1) if settled.lit else (0, 0)
    look = s.look_fold.first if settled.texgen else 0
    return [0, s.counts[1] - 1, s.counts[2] - 1, s.counts[3] - 1, None, *lights, settled.texgen, settled.fog, look]


def clip_code(x, y, z, w):
    outside = (x < -w, x > w, y < -w, y > w, z < -w, z > w)
    return sum(1 << k for k, out in enumerate(outside) if out)


def seen(s, position):
    """Clip code and screen z of a position, each None where there is none."""
    clip = point(position, s.combined)
    if not all(math.isfinite(v) for v in clip):
        return None, None
    z, w = clip[2:]
    if w == 0:
        return clip_code(*clip), None
    depth = (z / w * s.viewport[2] + s.viewport[5]) * 1024.0
    return clip_code(*clip), depth if math.isfinite(depth) else None


def load_vertex(s, areas, slot, data, numbers):
    x, y, z, _, u, v = struct.unpack(">6h", data[:12])
    colour = int.from_bytes(data[12:16], "little")
    position = [float(x), float(y), float(z)]
    slot.row, slot.ever, slot.loaded, slot.drawn = s.counts[7], True, True, False
    slot.code, slot.depth = seen(s, position)
    append(s, areas, 7, position + [float(u), float(v)] + [0.0] * 4 + numbers[:4] + [colour] + numbers[5:])


def do_load(s, areas, args, data):
    first, count = args
    if count > 256 or first + count > 256:
        raise Refused(1, count, first)
    judge_data(data, 16 * count)
    judge_lent(s, areas, 1, 3, 4, 5, 6, 7)
    settled = Settled(s, areas)
    judge_room(s, areas, [(t, len(e)) for t, e in settled.new.items()] + [(7, count)])
    take_settled(s, areas, settled)
    numbers = row_numbers(s, settled)
    for k in range(count):
        load_vertex(s, areas, s.slots[first + k], data[16 * k:16 * k + 16], numbers)
    return (0 if s.defined else 1,)


def codes_of(s, first, final):
    """The clip codes of the slots first to final, judged in turn."""
    if first > final or final > 255:
        raise Refused(2, first, final)
    codes = []
    for k in range(first, final + 1):
        if not s.slots[k].loaded:
            raise Refused(3, k)
        if s.slots[k].code is None:
            raise Refused(4, k)
        codes.append(s.slots[k].code)
    return codes


def do_cull(s, areas, args, data):
    common = 0x0F
    for code in codes_of(s, *args):
        common &= code
    return (int(common != 0),)


def first_not_outside(plane, codes, first):
    """The first slot that is not outside a plane, None where every one is."""
    return next((first + k for k, code in enumerate(codes) if not code >> plane & 1), None)


def do_explain(s, areas, args, data):
    codes = codes_of(s, *args)
    found = [first_not_outside(plane, codes, args[0]) for plane in range(4)]
    return (1, found.index(None)) if None in found else (0, *found)


def do_depth(s, areas, args, data):
    slot, threshold = args
    if slot > 255 or not s.slots[slot].loaded:
        raise Refused(3, slot)
    if s.slots[slot].depth is None:
        raise Refused(4, slot)
    return (int(s.slots[slot].depth <= threshold / 65536),)


def change_row(s, slot, attribute, value, row):
    """One of the four kinds of change, on the numbers of a row."""
    high, low = halves_of(value)
    if attribute == 0x10:
        row[13] = int.from_bytes(value.to_bytes(4, "big"), "little")
        row[14] = row[15] = row[17] = 0
    elif attribute == 0x14:
        row[3:5] = [f32(high / 32), f32(low / 32)]
        row[12] = s.unit_scale
        row[16] = row[18] = 0
    elif attribute == 0x18:
        row[5:7] = [f32(high / 4), f32(low / 4)]
        row[9] |= 1
    else:
        row[7] = f32(f32(value) / 67108864)
        row[9] |= 2
        if slot.depth is not None:
            slot.depth = value / 65536


def do_modify(s, areas, args, data):
    k, attribute, value = args
    if k > 255 or not s.slots[k].loaded or attribute not in ATTRIBUTES:
        raise Refused(5, k, attribute)
    judge_row(s, k)
    judge_lent(s, areas, 3, 7)
    slot = s.slots[k]
    new_unit = attribute == 0x14 and s.unit_scale is None
    judge_room(s, areas, [(3, int(new_unit)), (7, int(slot.drawn))])
    if new_unit:
        s.unit_scale = s.counts[3]
        append(s, areas, 3, [1.0, 1.0, 0.0, 0.0])
    row = areas.entry(7, slot.row)
    if slot.drawn:
        slot.row, slot.drawn = s.counts[7], False
        s.counts[7] += 1
    change_row(s, slot, attribute, value, row)
    areas.put(7, slot.row, row)
    return ()


def do_draw(s, areas, args, data):
    named, settings = args[:3], args[3:]
    cull = s.geom & (FRONT | BACK)
    if cull == FRONT | BACK:
        return ()
    for k in named:
        if k > 255 or not s.slots[k].ever:
            raise Refused(6, k)
    for k in named:
        judge_row(s, k)
    judge_lent(s, areas, 8, 9)
    run = last(s, areas, 9)
    if run is not None and run[6] + run[7] != s.counts[8]:
        raise Refused(10)
    settings = settings + [int(cull != 0), s.ucode]
    grows = run is not None and run[:6] == settings
    judge_room(s, areas, [(8, 3), (9, int(not grows))])
    if grows:
        areas.put(9, s.counts[9] - 1, settings + [run[6], run[7] + 3])
    else:
        append(s, areas, 9, settings + [s.counts[8], 3])
    for k in reversed(named) if cull == FRONT else named:
        s.slots[k].drawn = True
        append(s, areas, 8, [s.slots[k].row])
    return ()


def do_ucode(s, areas, args, data):
    s.ucode, s.defined = args[0], False
    for slot in s.slots:
        slot.unload()
    return ()


def inked(row, colour):
    """Whether a row has this colour: where it has lights, its colour word is a normal."""
    return row[15] == 0 and row[13] == colour


def do_ink(s, areas, args, data):
    judge_lent(s, areas, 7, 8)
    rows = [areas.entry(8, k)[0] for k in range(s.counts[8])]
    return (sum(1 for r in rows if r < s.counts[7] and inked(areas.entry(7, r), args[0])),)


COMMANDS = {name[3:]: body for name, body in list(globals().items()) if name.startswith("do_")}


# Acts of the driver.

def poke(s, field, index, value):
    if field == 0:
        s.opened = value % 2 == 1
    elif field == 1:
        s.depth = value
    elif field == 2:
        s.light_count = value
    elif field == 3 and 1 <= index <= 9:
        s.counts[index] = value
    elif field == 4:
        slot = s.slots[index % 256]
        slot.row, slot.ever = value, True
    elif field == 7:
        s.slots[index % 256].loaded = value % 2 == 1


class Driver:
    def __init__(self, lengths):
        self.areas, self.state = Areas(lengths), State()

    def step(self, op):
        """The numbers of the answer."""
        if op.name == "open":
            self.state, answer = opening(self.areas)
            return answer
        if op.name in COMMANDS:
            return self.command(op)
        return (0, *self.act(op))

    def command(self, op):
        try:
            judge_state(self.state)
            return (0, *COMMANDS[op.name](self.state, self.areas, op.args, op.data))
        except Refused as refusal:
            return refusal.values

    def act(self, op):
        if op.name == "mark":
            return self.state.counts[1:]
        if op.name == "lend":
            self.areas.lend(*op.args)
        elif op.name == "write":
            self.areas.write(*op.args)
        else:
            poke(self.state, *op.args)
        return ()


# The dump.

def texts(numbers):
    return [show32(v) if isinstance(v, float) else str(v) for v in numbers]


def line(*parts):
    return " ".join(str(p) for p in parts)


def dump_state(s):
    yield line("counts", *s.counts[1:])
    yield line("state", s.depth, s.geom, s.ucode, int(s.defined), s.tile, s.level, s.on, s.sc, s.tc, *s.fog, s.light_count)
    for k in range(min(s.depth, 32)):
        yield line("stack", k, *texts(s.stack[k]))
    yield line("proj", *texts(s.proj))
    yield line("vp", *texts(s.viewport))
    for k, light in enumerate(s.lights):
        yield line("light", k, *texts(light))
    yield line("ambient", *texts(s.ambient))
    for k, axis in enumerate(s.look):
        yield line("look", k, *texts(axis))


def dump_tables(s, areas):
    for table in range(1, 10):
        for k in range(min(s.counts[table], areas.inside(table))):
            yield line(f"t{table}", k, *texts(areas.entry(table, k)))


def dump_slots(s):
    for k, slot in enumerate(s.slots):
        if not slot.is_new():
            yield line("slot", k, slot.row if slot.ever else "-", int(slot.loaded), int(slot.drawn),
                       "-" if slot.code is None else slot.code, "-" if slot.depth is None else show64(slot.depth))


def area_hash(numbers):
    h = 0
    for v in numbers:
        h = (h * 65599 + (bits32(v) if isinstance(v, float) else v & 0xFFFF if v < 0 else v)) % 4294967291
    return h


def dump(s, areas):
    yield "end"
    yield line("open", int(s.opened))
    if s.opened:
        yield from dump_state(s)
        yield from dump_tables(s, areas)
        yield from dump_slots(s)
    for k, numbers in enumerate(areas.numbers):
        yield line("area", k, area_hash(numbers))


def answers(script):
    """The whole text that a driver prints for a script."""
    lengths, ops = tracefile.read(script)
    driver = Driver(lengths)
    lines = [line(k, op.name, *driver.step(op)) for k, op in enumerate(ops)]
    lines += dump(driver.state, driver.areas)
    return "\n".join(lines) + "\n"


def main():
    script = sys.stdin.buffer.read()
    served, fault = tracefile.fault(script)
    if served:
        sys.stdout.write(answers(script))
    if fault:
        print(f"replay: {fault}", file=sys.stderr)


if __name__ == "__main__":
    main()
