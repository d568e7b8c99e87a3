"""What a list of commands exercises, in words; the model plays along."""
import model
from tracefile import BOUNDS, Op

LIGHTING, TEXGEN, LINEAR, FOG, BOTH = 0x20000, 0x40000, 0x80000, 0x10000, 0x600
CULLS = {0: "no culling", 0x200: "front culling", 0x400: "back culling", 0x600: "both culled"}
MODEL = ("multiplied", "pushed and multiplied", "loaded", "pushed and loaded")
ROUNDED = ("no entry rounded", "some entries rounded", "every entry rounded")

WANTED = {
    *(f"matrix {how}" for how in MODEL), "projection loaded", "projection multiplied", "forced matrix", "load under a forced matrix",
    *ROUNDED, "pop", "pop of nothing", "new viewport", "same viewport", "lighting switched",
    *(f"lit load, {n} lights" for n in range(8)), "lit load, nothing new", "texgen 1", "texgen 2", "lookat kept", "load with fog",
    "fog pair found again", "new scales", "same scales", "ambient colour", "light", "light slot past the last", "lookat axis",
    *(f"modify {a:#x} {how}" for a in model.ATTRIBUTES for how in ("drawn", "not drawn")), "unit scale found again",
    *(f"draw, {how}" for how in CULLS.values()), "draw into the last run", "draw of a new run", "draw with NoN",
    "microcode", "load with the notice", "draw after the microcode", "cull yes", "cull no", "depth yes", "depth no",
    "slot without code", "slot with code and no z", "refused 2", "refused 3", "refused 4", "refused 5",
}


def rounded(answer):
    return ROUNDED[(answer[1] > 0) + (answer[1] == 16)]


def of_force(s, op, answer, before):
    yield "forced matrix"
    yield rounded(answer)


def of_matrix(s, op, answer, before):
    flags = op.args[0]
    yield rounded(answer)
    if flags & 4:
        yield "projection loaded" if flags & 2 else "projection multiplied"
    else:
        yield f"matrix {MODEL[flags & 3]}"


def of_pop(s, op, answer, before):
    yield "pop" if s.depth < before.depth else "pop of nothing"


def of_viewport(s, op, answer, before):
    yield "new viewport" if s.counts[2] > before.counts[2] else "same viewport"


def of_geom(s, op, answer, before):
    if (s.geom ^ before.geom) & LIGHTING:
        yield "lighting switched"


def of_light(s, op, answer, before):
    slot = op.args[0]
    yield "ambient colour" if slot == s.light_count else "light" if slot < 8 else "light slot past the last"


def of_lookat(s, op, answer, before):
    if op.args[0] < 2:
        yield "lookat axis"


def of_load(s, op, answer, before):
    first, count = op.args
    if not count:
        return
    grown = lambda table: s.counts[table] > before.counts[table]
    if answer[1]:
        yield "load with the notice"
    if before.forced:
        yield "load under a forced matrix"
    if s.geom & LIGHTING:
        yield f"lit load, {s.light_count} lights" if grown(4) else "lit load, nothing new"
    if s.geom & LIGHTING and s.geom & TEXGEN:
        yield "texgen 2" if s.geom & LINEAR else "texgen 1"
        if not grown(5):
            yield "lookat kept"
    if s.geom & FOG:
        yield "load with fog" if grown(6) else "fog pair found again"
    yield "new scales" if grown(3) else "same scales"
    for slot in s.slots[first:first + count]:
        if slot.code is None:
            yield "slot without code"
        elif slot.depth is None:
            yield "slot with code and no z"


def of_modify(s, op, answer, before):
    slot, attribute, _ = op.args
    yield f"modify {attribute:#x} {'drawn' if before.drawn[slot] else 'not drawn'}"
    if attribute == 0x14 and s.counts[3] == before.counts[3]:
        yield "unit scale found again"


def of_draw(s, op, answer, before):
    yield f"draw, {CULLS[s.geom & BOTH]}"
    if s.geom & BOTH == BOTH:
        return
    yield "draw of a new run" if s.counts[9] > before.counts[9] else "draw into the last run"
    if s.ucode:
        yield "draw with NoN"
    if not all(s.slots[k].loaded for k in op.args[:3]):
        yield "draw after the microcode"


def told(s, op, answer, before):
    yield f"{op.name} {'yes' if answer[1] else 'no'}"


def named(name):
    return lambda s, op, answer, before: [name]


BY_NAME = {"matrix": of_matrix, "force": of_force, "pop": of_pop, "viewport": of_viewport, "geom": of_geom, "light": of_light,
           "lookat": of_lookat, "load": of_load, "modify": of_modify, "draw": of_draw, "cull": told, "depth": told, "ucode": named("microcode")}


class Before:
    """What a command may change, as it was."""

    def __init__(self, s, forced):
        self.depth, self.geom, self.counts = s.depth, s.geom, list(s.counts)
        self.drawn, self.forced = [slot.drawn for slot in s.slots], forced


def of(ops):
    """Everything that these commands exercise, behind `open`."""
    driver, found, forced = model.Driver(BOUNDS), set(), False
    driver.step(Op("open", [], None))
    for op in ops:
        before = Before(driver.state, forced)
        answer = driver.step(op)
        forced = op.name == "force" or forced and op.name not in ("matrix", "pop", "ucode")
        found |= set(BY_NAME.get(op.name, named(op.name))(driver.state, op, answer, before)) if not answer[0] else {f"refused {answer[0]}"}
    return found
