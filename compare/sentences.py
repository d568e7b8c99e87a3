"""Answers in words, for a person. An answer that its command cannot have given is Unfit."""
import re

PLANES = (("left", "x < -w"), ("right", "x > w"), ("bottom", "y < -w"), ("top", "y > w"))
TABLES = ("matrices", "viewports", "texture scales", "lights", "lookat", "fog", "rows", "indices", "runs")
ATTRIBUTES = (0x10, 0x14, 0x18, 0x1C)
SLOTS = 256
RANGED = ("cull", "explain")
# Which numbers each op can answer with, from the table of REFERENCE 3.2.
NUMBERS = {"open": (0, 9), "matrix": (0, 7, 8, 9, 10), "force": (0, 7, 8, 9, 10), "pop": (0, 8, 9, 10), "geom": (0, 10),
           "viewport": (0, 7, 8, 9, 10), "texture": (0, 10), "fog": (0, 10), "lightnum": (0, 10), "light": (0, 7, 10),
           "lookat": (0, 7, 10), "load": (0, 1, 7, 8, 9, 10), "cull": (0, 2, 3, 4, 10), "depth": (0, 3, 4, 10),
           "modify": (0, 5, 8, 9, 10), "draw": (0, 6, 8, 9, 10), "ucode": (0, 10), "ink": (0, 8, 10), "explain": (0, 2, 3, 4, 10),
           "lend": (0,), "mark": (0,), "poke": (0,), "write": (0,)}


class Unfit(ValueError):
    """An output that is not one of this trace."""


def listed(parts):
    """One, two and three."""
    return " and ".join([", ".join(parts[:-1])] * (len(parts) > 1) + parts[-1:])


def every_slot(op):
    first, last = op.args
    return f"slot {first}" if first == last else f"every slot from {first} to {last}"


def asked(op):
    """The slots that a command asks after: a range, the three of a draw, or one."""
    if op.name in RANGED:
        return range(op.args[0], op.args[1] + 1)
    return op.args[:3] if op.name == "draw" else op.args[:1]


def table(t):
    return f"table {t}, {TABLES[t - 1]},"


# Where a command is done: its values in words, by its name.

def of_entries(op, n):
    return f"done: {n} of the sixteen entries {'is' if n == 1 else 'are'} not exact" if n else "done: each of the sixteen entries is exact"


def of_load(op, notice):
    return "done, with the notice that no combined matrix is defined: the product of model matrix and projection was taken" if notice else "done"


def of_cull(op, yes):
    if not yes:
        return f"not culled: no side plane has {every_slot(op)} outside it"
    return f"culled: {every_slot(op)} lies outside {'a' if op.args[0] == op.args[1] else 'one and the same'} side plane"


def of_depth(op, yes):
    slot, threshold = op.args
    return f"{'yes' if yes else 'no'}: the screen z of slot {slot} is {'at most' if yes else 'above'} {threshold / 65536:.10g}"


def of_ink(op, n):
    return f"done: {n} {'corner shows' if n == 1 else 'corners show'} this colour and no light"


def of_mark(op, *counts):
    return "done: in use are " + ", ".join(f"{n} {name}" for name, n in zip(TABLES, counts))


def of_explain(op, verdict, *reason):
    return of_plane(op, *reason) if verdict else of_slots(op, *reason)


def of_plane(op, plane):
    (name, condition), lower = PLANES[plane], [n for n, _ in PLANES[:plane]]
    but = f"; not so of the {listed(lower)} plane{'s' * (len(lower) > 1)}" if lower else ""
    return f"culled: {every_slot(op)} lies outside the {name} plane ({condition}){but}"


def of_slots(op, *found):
    each = [f"the {name} {slot}" for (name, _), slot in zip(PLANES, found)]
    return f"not culled: the first slot that is not outside the {PLANES[0][0]} plane is {found[0]}, {', '.join(each[1:])}"


def is_flag(op, *values):
    return values in ((0,), (1,))


def is_reason(op, *values):
    if values[:1] == (1,):
        return len(values) == 2 and values[1] < len(PLANES)
    return values[:1] == (0,) and len(values) == 1 + len(PLANES) and all(k in asked(op) for k in values[1:])


def is_inexact(op, *values):
    return len(values) == 1 and values[0] <= 16


def are(n):
    """So many values."""
    return lambda op, *values: len(values) == n


# Whether the values can be, and the words.
DONE = {"matrix": (is_inexact, of_entries), "force": (is_inexact, of_entries), "load": (is_flag, of_load), "cull": (is_flag, of_cull),
        "depth": (is_flag, of_depth), "explain": (is_reason, of_explain), "ink": (are(1), of_ink), "mark": (are(len(TABLES)), of_mark)}
PLAIN = (are(0), lambda op: "done")


# Refusals.

def of_range(op, first, last):
    return f"{first} to {last} is no range of slots, since " + ("the first is above the last" if first > last else f"the last slot is {SLOTS - 1}")


def of_slot(words):
    return lambda op, slot: f"slot {slot} {words}" if slot < SLOTS else f"there is no slot {slot}"


def of_modify(op, slot, attribute):
    if slot >= SLOTS:
        return f"there is no slot {slot} to change in attribute {attribute:#x}"
    why = "the slot is not loaded" if attribute in ATTRIBUTES else f"the attribute is none of {listed([f'{a:#x}' for a in ATTRIBUTES])}"
    return f"slot {slot} cannot be changed in attribute {attribute:#x}: {why}"


def of_state(op):
    row = {"modify": ", or the slot's row is not in use", "draw": ", or a slot's row is not in use, or the last run does not end where the indices do"}
    return "the state is not open or has a number out of range" + row.get(op.name, "")


def is_asked(op, *values):
    return len(values) == 1 and values[0] in asked(op)


def is_table(op, *values):
    return len(values) == 1 and 1 <= values[0] <= len(TABLES)


REFUSED = {
    1: (lambda op, *values: values == (op.args[1], op.args[0]), lambda op, count, first: f"{count} vertices from slot {first} on do not fit in {SLOTS} slots"),
    2: (lambda op, *values: values == tuple(op.args), of_range),
    3: (is_asked, of_slot("is not loaded")),
    4: (is_asked, lambda op, slot: f"slot {slot} has no {'screen z' if op.name == 'depth' else 'clip code'}"),
    5: (lambda op, *values: values == tuple(op.args[:2]), of_modify),
    6: (is_asked, of_slot("was never loaded since opening")),
    7: (lambda op, *values: len(values) == 1 and values[0] > len(op.data), lambda op, need: f"{need} bytes of data are needed, and there are {len(op.data)}"),
    8: (is_table, lambda op, t: f"what is lent of {table(t)} is less than its entries in use"),
    9: (is_table, lambda op, t: f"{table(t)} has no room for what would be appended"),
    10: (are(0), of_state),
}


def answer(op, number, *values):
    """What a command was answered, in a sentence."""
    fits, words = REFUSED.get(number) or DONE.get(op.name, PLAIN)
    if number not in NUMBERS[op.name] or not fits(op, *values):
        raise Unfit(f"'{op.name} {' '.join(map(str, (number, *values)))}' answers nothing that op asks")
    return f"refused ({number}): {words(op, *values)}" if number else words(op, *values)


# A whole output.

def numbers(k, op, line):
    """The numbers of answer k, which is to be this command's."""
    found = re.fullmatch(rf"{k} {op.name}((?: [0-9]+)+)", line)
    if not found:
        raise Unfit(f"line {k + 1} is '{line[:60]}', which does not answer op {k}, {op.name}")
    return [int(n) for n in found[1].split()]


def answers(ops, output):
    """The answers to these commands in words, from what a program printed for them."""
    lines = output.split("\n")
    given = lines.index("end") if "end" in lines else len(lines) - 1
    if given != len(ops):
        raise Unfit(f"it has {given} answers, and the trace {len(ops)} ops")
    if not re.search(r"\narea 9 [0-9]+\n\Z", output):
        raise Unfit("it does not end in a whole dump")
    return [answer(op, *numbers(k, op, line)) for k, (op, line) in enumerate(zip(ops, lines))]
