"""Holds two outputs of one domain trace against each other, and explain against the cull test.

Tables 1 to 3 begin differently on the two sides, so their entries and the numbers that name them are
taken relative to the last entry at the mark, that one included. All else is compared as it stands;
NaN is printed as `nan` on both sides. The areas, which the original has not, are left out. So is the number of
inexact entries that matrix and force tell, but on our side it must be there.
"""

RELATIVE = (1, 2, 3)
TABLES = range(1, 10)
STATE = ("depth", "geometry", "microcode", "defined", "tile", "level", "on", "sc", "tc", "fog multiplier",
         "fog offset", "light count")
ROW = ("x", "y", "z", "s", "t", "screen 0", "screen 1", "screen 2", "screen 3", "flags", "matrix", "viewport",
       "scale", "colour", "first light", "light count", "texgen", "fog", "lookat")
RUN = ("material", "render mode", "fog colour", "primitive depth", "cull", "unclipped", "start", "count")
SLOT = ("row", "loaded", "drawn", "code", "depth")
NAMES = {"state": STATE, "t7": ROW, "t9": RUN, "slot": SLOT}
# Where a row names an entry of tables 1 to 3.
NAMED = {ROW.index("matrix"): 1, ROW.index("viewport"): 2, ROW.index("scale"): 3}
# Answers that have the number of inexact entries behind them, and what that can be.
TELLING = (["matrix", "0"], ["force", "0"])
TOLD = [[str(n)] for n in range(17)]


class Unreadable(Exception):
    """The text is not a whole output of a trace with a mark."""


class Output:
    """One output, taken apart: answers, and the dump's lines by their first word."""

    def __init__(self, text):
        lines = text.split("\n")
        if "end" not in lines or lines[-1] != "":
            raise Unreadable("the output does not end as an output does")
        cut = lines.index("end")
        self.answers = lines[:cut]
        self.dump = {}
        for each in lines[cut + 1:-1]:
            kind, *rest = each.split(" ")
            self.dump.setdefault(kind, []).append(rest)
        if self.dump.get("open") != [["1"]]:
            raise Unreadable("not open at the end")
        self.base = self.bases()

    def bases(self):
        marks = [a.split(" ")[3:] for a in self.answers if a.split(" ")[1:3] == ["mark", "0"]]
        if len(marks) != 1:
            raise Unreadable("no mark, or more than one")
        bases = {t: int(marks[0][t - 1]) - 1 for t in RELATIVE}
        if min(bases.values()) < 0:
            raise Unreadable("a table without an entry at the mark")
        return bases

    def table(self, t):
        """Entries without their places; tables 1 to 3 from the base on."""
        entries = self.dump.get(f"t{t}", [])
        if [e[0] for e in entries] != [str(k) for k in range(len(entries))]:
            raise Unreadable(f"table {t} is not in order")
        values = [e[1:] for e in entries[self.base.get(t, 0):]]
        return [self.relative_row(v) for v in values] if t == 7 else values

    def relative_row(self, row):
        return [str(int(v) - self.base[NAMED[k]]) if k in NAMED else v for k, v in enumerate(row)]

    def counts(self):
        numbers = [int(n) for n in self.dump["counts"][0]]
        return [str(n - self.base.get(t, 0)) for t, n in zip(TABLES, numbers)]

    def relative_answers(self):
        """The answers, without the mark's counts of tables 1 to 3."""
        return [" ".join(w[:3] + w[6:]) if w[1:2] == ["mark"] else " ".join(w)
                for w in (a.split(" ") for a in self.answers)]


def named(kind, k, field):
    names = NAMES.get(kind, ())
    return names[field] if field < len(names) else f"number {field}"


def fields(kind, k, a, b):
    """Differences of two entries, a field each."""
    if len(a) != len(b):
        yield f"{kind} {k}: {len(a)} numbers against {len(b)}"
    for field, (x, y) in enumerate(zip(a, b)):
        if x != y:
            yield f"{kind} {k}, {named(kind, k, field)}: {x} against {y}"


def lists(kind, a, b):
    if len(a) != len(b):
        yield f"{kind}: {len(a)} entries against {len(b)}"
    for k, (x, y) in enumerate(zip(a, b)):
        yield from fields(kind, k, x, y)


def as_original(answer):
    """Our answer without the number of inexact entries."""
    words = answer.split(" ")
    if words[1:3] not in TELLING:
        return answer
    if words[3:] not in TOLD:
        raise Unreadable(f"answer '{answer}' does not tell a number from 0 to 16")
    return " ".join(words[:3])


def in_answers(a, b):
    first, second = [as_original(x) for x in a.relative_answers()], b.relative_answers()
    if len(first) != len(second):
        yield f"answers: {len(first)} against {len(second)}"
    for x, y in zip(first, second):
        if x != y:
            yield f"answer '{x}' against '{y}'"


def corner(out, rows, index):
    """A row with each number of a table replaced by the entry's values."""
    row = rows[index]
    shown = row[:10] + row[13:14] + row[15:17]
    for field, t in NAMED.items():
        if int(row[field]) < 0:
            raise Unreadable(f"row {index} names an entry of table {t} before the mark's")
        shown.append(out.table_entries[t][int(row[field])])
    first, count, texgen, fog, look = (int(v) for v in row[14:19])
    shown.append(out.table_entries[4][first:first + count])
    shown.append(out.table_entries[6][fog - 1] if fog else None)
    shown.append(out.table_entries[5][look] if texgen else None)
    return shown


def corners(out):
    """All corners as shown, in the order of the indices."""
    out.table_entries = {t: out.table(t) for t in TABLES}
    rows = out.table_entries[7]
    seen = {k: corner(out, rows, k) for k in {int(i[0]) for i in out.table_entries[8]}}
    return [seen[int(i[0])] for i in out.table_entries[8]]


def in_corners(a, b):
    for k, (x, y) in enumerate(zip(corners(a), corners(b))):
        if x != y:
            yield f"corner {k} shows {x} against {y}"


def in_dump(a, b):
    yield from fields("counts", "", a.counts(), b.counts())
    yield from fields("state", "", a.dump["state"][0], b.dump["state"][0])
    for kind in ("stack", "proj", "vp", "light", "ambient", "look"):
        yield from lists(kind, a.dump[kind], b.dump[kind])
    for t in TABLES:
        yield from lists(f"t{t}", a.table(t), b.table(t))
    yield from in_slots(a, b)


def in_slots(a, b):
    first, second = ({s[0]: s[1:] for s in out.dump.get("slot", [])} for out in (a, b))
    for k in sorted(first.keys() | second.keys(), key=int):
        if k not in first or k not in second:
            yield f"slot {k}: only on one side"
        else:
            yield from fields("slot", k, first[k], second[k])


def differences(ours, theirs):
    """Every difference, in words: ours against the original's."""
    try:
        a, b = Output(ours), Output(theirs)
        return [*in_answers(a, b), *in_dump(a, b), *in_corners(a, b)]
    except (Unreadable, KeyError, IndexError, ValueError) as fault:
        return [f"cannot be compared: {type(fault).__name__} {fault}"]


# Explain and the cull test, from outputs of any kind of trace alone: what is true of the slots is read from the dump.

SIDES = range(4)


def as_cull(answer):
    """An answer to explain as the cull test would give it: yes and no without the reason, a refusal as it is."""
    words = answer.split(" ")
    return " ".join([words[0], "cull", *(words[2:4] if words[2:3] == ["0"] else words[2:])]) if words[1:2] == ["explain"] else answer


def taken_apart(text):
    """Answers, and the dump as it stands."""
    answers, end, dump = text.partition("\nend\n")
    if not end:
        raise Unreadable("an output without a dump")
    return answers.split("\n"), dump


def clip_codes(dump):
    """By slot, of those that are loaded; None for one without."""
    slots = [each.split(" ")[1:] for each in dump.split("\n") if each.startswith("slot ")]
    return {int(k): None if code == "-" else int(code) for k, _, loaded, _, code, _ in slots if loaded == "1"}


def outside(codes, plane, slots):
    return all(codes[k] >> plane & 1 for k in slots)


def is_reason(values, codes, first, last):
    """Whether these values of a done explain are the reason, by the codes: the lowest plane, or four slots."""
    verdict, *reason = values
    if verdict == 1 and len(reason) == 1 and reason[0] in SIDES:
        every = range(first, last + 1)
        return outside(codes, reason[0], every) and not any(outside(codes, lower, every) for lower in range(reason[0]))
    return verdict == 0 and len(reason) == len(SIDES) and all(
        first <= k <= last and not outside(codes, plane, [k]) and outside(codes, plane, range(first, k)) for plane, k in zip(SIDES, reason))


def is_refusal(number, values, codes, first, last):
    """Whether a range of slots is refused so, the state being sound."""
    if first > last or last > 255:
        return (number, values) == (2, [first, last])
    refused = next((k for k in range(first, last + 1) if codes.get(k) is None), None)
    return refused is not None and (number, values) == (4 if refused in codes else 3, [refused])


def untrue(answer, codes, asked):
    """Whether an answer to explain is not true of these codes. That a state is not sound, which 10 says, is not seen from them."""
    number, *values = [int(n) for n in answer.split(" ")[2:]]
    try:
        return not (is_refusal(number, values, codes, *asked) if number else is_reason(values, codes, *asked))
    except (KeyError, TypeError, ValueError):
        return True


def in_reasons(answers, dump, ranges):
    codes = clip_codes(dump)
    for answer, asked in zip(answers[-len(ranges):], ranges):
        if not answer.endswith(" explain 10") and untrue(answer, codes, asked):
            yield f"'{answer}' is not so of the slots from {asked[0]} to {asked[1]}"


def explained(tested, told, ranges):
    """Every difference between an output with cull tests and one with explain in their place, which ends in one of each range."""
    try:
        (first, dump), (second, same) = taken_apart(tested), taken_apart(told)
        found = [f"'{x}' against '{y}'" for x, y in zip(first, second) if x != as_cull(y)]
        if len(first) != len(second):
            found.append(f"{len(first)} answers against {len(second)}")
        if dump != same:
            found.append("another dump")
        return found + list(in_reasons(second, same, ranges))
    except (Unreadable, IndexError, ValueError) as fault:
        return [f"cannot be compared: {type(fault).__name__} {fault}"]
