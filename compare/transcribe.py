#!/usr/bin/env python3
"""Holds the transcription of the original (crates/original/specs) against what the original itself prints.

  transcribe.py [TRACE..]       writes the antt file: each trace's commands, and that they come to the driver's numbers
  transcribe.py --check         whether the file in the repository is what would be written, and the traces exercise enough
  transcribe.py --cut N TRACE   the trace up to its N-th command of the stage, on standard output
  --original CMD                the original's driver (default: what rust/build builds)

Traces are those of transcribed/ unless named. `open` comes first; a trace counts up to the first op that is not the
original's. `mark`, `ink` and `explain` are left out, and commands that the original refuses, except the last: it then is the result.
The last line of --check is 'N passed, M failed'; the exit code is 0 if nothing failed.
"""
import argparse
import pathlib
import re
import shlex
import subprocess
import sys

import covered
import tracefile

HERE = pathlib.Path(__file__).resolve().parent
FOLDER = HERE / "transcribed"
OUT = HERE.parent / "crates" / "original" / "proofs" / "Traced.antt"
SECONDS = 60
LEFT_OUT = ("mark", "ink", "explain")
NOT_THE_ORIGINALS = ("open", "lend", "poke", "write")
NAN = "7fc00000"      # the pattern that to_bits writes

USES = """\
-- Traces that the original itself has run: the transcription computes the numbers that its driver printed. Assumes nothing.
-- Written by compare/transcribe.py from compare/transcribed; `compare/transcribe.py --check` says whether it still would be.
use mathlib.Core.Path.{◌≡◌, refl}
use Prim.Native.Nat.{ℕ}
use mathlib.Core.Bool.{true, false}
use mathlib.Core.List.{List, [], ◌∷◌}
use mathlib.Core.Option.{none, some}
use lib.IntN.{pos, negsuc}
use lib.Ieee.{to_bits, of_int, round, add, mul, div, neg, lt, le, eq}
use Rattle.numbers.specs.Choice.{pick}
use Rattle.numbers.specs.Sqrt.{sqrt}
use Rattle.areas.specs.Area.{eqbℤ}
use Rattle.stage.specs.declared.settings.Microcode.TheVariants.{F3dex2, F3dex2NoN}
use Rattle.sequence.specs.Sequence.{Command, matrix, force, pop, viewport, geometry, texture, fog, number, light, lookat, microcode, load, cull, depth, modify, draw}
use Rattle.original.specs.Math.{mul_row_vec4, mul_col_vec3, mul4}
use Rattle.original.specs.Memory.{read_matrix, read_vertex}
use Rattle.original.specs.Rsp.{eq_mat, last_is, key_is, switch_microcode, recompute_mvp, push_model, write_top, matrix_fn, force_matrix, popped_size, pop_matrix, prepare_vertex, set_viewport, set_num_lights, set_light, set_lookat}
use Rattle.original.specs.Drawing.{push, as_f32, texcoords_then, unit_length, fold_lights, lighting_then, lighting_entries, texgen_of, looking_then, lookat_entries, position, clip_code, screen_z_of, slot_then, made_by, vertices, slots_then, columns_then, sharing_of, set_vertex, InvalidCullRange, InvalidConditionalVertex, InvalidVertexTransform, InvalidModifyVertex, Result, Ok, Err, made_at, unit_index, unit_then, modify_colour, modify_texture, modify_screen_at, copied_slots, change_at, modify_vertex, common, cull_display_list, branch_z, runs_then, draw_tri}
use Rattle.original.specs.Walk.{start, execute}
use Rattle.original.specs.Domain.{walk}
use Rattle.original.proofs.Dump.{laid_out, slot-lines, Dump, dump, outcome}
"""
DEFINED = """
-- what commands come to from the start
unfoldable pub comes-to : List Command → Result (List (List ℕ) × Dump)
unfolding {unfolded}
comes-to cs = outcome (walk cs start)
"""
# What is unfolded: every name of these modules that the file brings and that is no constructor or type.
UNFOLDED = re.compile(r"^use (?:lib\.Ieee|Rattle\.numbers|Rattle\.areas|Rattle\.original)\.\S*\{([^}]*)\}", re.M)


class Unfit(Exception):
    """A trace that cannot be put into antt."""


# ---- antt's notation

def chain(items):
    return " ∷ ".join([*items, "[]"])


def nested(rows):
    """A list of lists, each given as text."""
    return chain(f"({row})" if row != "[]" else row for row in rows)


def integer(n):
    return f"pos {n}" if n >= 0 else f"negsuc {-n - 1}"


def integers(numbers):
    return chain(integer(int(n)) for n in numbers)


def half(word):
    """An i16 of a word's low bits, as an argument."""
    low = word & 0xFFFF
    return f"({integer(low - 65536 if low >= 32768 else low)})"


def bits(text):
    """A float as the driver prints it."""
    return f"0x{(NAN if text == 'nan' else text).upper()}"


def floats(texts):
    return chain(bits(t) for t in texts)


def argument(data):
    return f"({chain(str(b) for b in data)})" if data else "[]"


# ---- commands

NAMES = {"geom": "geometry", "lightnum": "number", "ucode": "microcode"}
SHORT = {
    "matrix": (lambda n: n & 255,),
    "texture": (lambda n: n & 255, lambda n: n & 255, lambda n: "true" if n else "false", lambda n: n & 0xFFFF, lambda n: n & 0xFFFF),
    "fog": (half, half),
    "ucode": (lambda n: "F3dex2NoN" if n else "F3dex2",),
}


def command(op):
    """One command of the stage, with each argument cut to the driver's type; data is read from its first byte on."""
    given = [cut(n) for cut, n in zip(SHORT[op.name], op.args)] if op.name in SHORT else op.args
    data = [argument(op.data), 0] if op.data is not None else []
    return " ".join(str(word) for word in (NAMES.get(op.name, op.name), *given, *data))


# ---- the driver's output

REFUSALS = {"2": "InvalidCullRange", "3": "InvalidConditionalVertex", "4": "InvalidVertexTransform", "5": "InvalidModifyVertex"}


class Output:
    """The driver's output: the words of the answers behind `open`, and the dump's lines by their first word."""

    def __init__(self, text):
        answers, _, dump = text.partition("\nend\n")
        self.answers = [line.split(" ")[2:] for line in answers.split("\n")[1:]]
        self.lines = {}
        for line in dump.splitlines():
            kind, *words = line.split(" ")
            self.lines.setdefault(kind, []).append(words)

    def line(self, kind):
        return self.lines[kind][0]

    def table(self, kind):
        """The lines without their places."""
        return [words[1:] for words in self.lines.get(kind, [])]


def is_the_originals(answer):
    """Done, or refused by the original and not by the driver."""
    return answer[0] == "0" or answer[0] in REFUSALS


def tables(out, kind, first=None, last=None):
    """The floats of each line of a kind, or some of them."""
    return nested(floats(entry[first:last]) for entry in out.table(kind))


def option(text, before=""):
    return "none" if text == "-" else f"some {before}{text.upper()}"


def slot(words):
    place, row, loaded, drawn, code, z = words
    return f"({chain((place, row, loaded, drawn))}, {option(code)}, {option(z, '0x')})"


def as_default(words):
    return words[1:] == ["0", "0", "0", "-", "-"]


INTEGERS = ("modify_flags", "mtx_index", "viewport_index", "texcoord_index", "cn", "light_index", "light_count", "texgen_mode", "fog_index",
            "lookat_index")


def fields(out):
    """The fields of Dump, in its order."""
    state = out.line("state")
    return {
        "counts": chain(out.line("counts")),
        "state": chain(state[:9] + state[11:]),
        "fog": integers(state[9:11]),
        "stack": tables(out, "stack"),
        "projection": floats(out.line("proj")),
        "viewport": floats(out.line("vp")),
        "lights": tables(out, "light"),
        "ambient": floats(out.line("ambient")),
        "lookat": tables(out, "look"),
        "matrices": tables(out, "t1"),
        "viewports": tables(out, "t2"),
        "texcoords": tables(out, "t3", 0, 2),
        "texgens": tables(out, "t3", 2, 4),
        "folded-lights": tables(out, "t4"),
        "folded-lookats": tables(out, "t5"),
        "fogs": nested(integers(entry) for entry in out.table("t6")),
        "raw_pos": tables(out, "t7", 0, 3),
        "raw_st": tables(out, "t7", 3, 5),
        "modify_screen": tables(out, "t7", 5, 9),
        **{name: chain(row[9 + k] for row in out.table("t7")) for k, name in enumerate(INTEGERS)},
        "indices": chain(entry[0] for entry in out.table("t8")),
        "runs": nested(chain(entry) for entry in out.table("t9")),
        "slots": chain(slot(words) for words in out.lines.get("slot", []) if not as_default(words)),
    }


# ---- one trace

class Played:
    """A trace's commands as far as they count, and what the driver prints for just those."""

    def __init__(self, path, original):
        self.name = path.stem
        lengths, ops = tracefile.read(path.read_bytes())
        ops = counting(ops)
        whole = run(original, lengths, ops)
        self.ops = [op for k, op in enumerate(ops) if whole.answers[k][0] == "0" or k == len(ops) - 1]
        self.out = run(original, lengths, self.ops)
        self.answers = self.out.answers
        if self.out.lines != whole.lines:
            raise Unfit(f"{self.name}: a refused command has changed something")
        if not all(is_the_originals(a) for a in whole.answers):
            raise Unfit(f"{self.name}: the driver does not hand each command to the original")


def counting(ops):
    """The commands behind the first `open`, up to the first op that is not the original's."""
    if not ops or ops[0].name != "open":
        raise Unfit("a trace that does not begin with open")
    kept = [op for op in ops[1:] if op.name not in LEFT_OUT]
    return kept[:next((k for k, op in enumerate(kept) if op.name in NOT_THE_ORIGINALS), len(kept))]


def script_of(lengths, ops):
    return tracefile.write(lengths, [tracefile.Op("open", [], None), *ops])


def run(original, lengths, ops):
    done = subprocess.run(original, input=script_of(lengths, ops), capture_output=True, timeout=SECONDS, check=True)
    return Output(done.stdout.decode())


def result(played):
    """What the commands come to, as the driver printed it."""
    number, *values = played.answers[-1]
    if number in REFUSALS:
        return [f"    Err ({REFUSALS[number]} {' '.join(values)})"]
    told = nested(chain(values) for _, *values in played.answers)
    return ["    Ok (", f"      {told},", "      record {", *[f"        {name} = {text};" for name, text in fields(played.out).items()],
            "      },", "    )"]


def piece(played):
    """The text for one trace: its commands, what the original printed, and that they come to it."""
    name = played.name
    return "\n".join([
        "", f"abbrev {name}-commands : List Command", f"{name}-commands =",
        *[("    " if k == 0 else "    ∷ ") + command(op) for k, op in enumerate(played.ops)], "    ∷ []",
        "", f"abbrev {name}-result : Result (List (List ℕ) × Dump)", f"{name}-result =", *result(played),
        "", f"pub {name} : comes-to {name}-commands ≡ {name}-result", "unfolding comes-to", f"{name} = refl", ""])


# ---- the file

def head():
    names = [n for group in UNFOLDED.findall(USES) for n in group.split(", ")]
    return USES + DEFINED.format(unfolded=" ".join(n for n in names if n[0].islower()))


def whole(found):
    return head() + "".join(found.values())


def pieces(played):
    return {each.name: piece(each) for each in played}


def missing(played):
    """What does not stand in the file as it would be written, and what no trace exercises."""
    text = OUT.read_text() if OUT.exists() else ""
    found = pieces(played)
    yield from (f"{name}: not what {OUT.name} has" for name, part in found.items() if part not in text)
    if text != whole(found):
        yield f"{OUT.name}: not what would be written"
    yield from sorted(f"not exercised: {each}" for each in covered.WANTED.difference(*(covered.of(each.ops) for each in played)))


def check(played):
    failures = list(missing(played))
    for each in failures:
        print(each)
    print(f"{len(played) + 1 + len(covered.WANTED) - len(failures)} passed, {len(failures)} failed")
    return 1 if failures else 0


def built_original():
    built = subprocess.run([HERE / "rust" / "build"], capture_output=True, text=True)
    if built.returncode:
        sys.exit(f"the original cannot be built: {built.stderr[-400:]}")
    return built.stdout.strip()


def cut(path, n):
    lengths, ops = tracefile.read(path.read_bytes())
    sys.stdout.buffer.write(script_of(lengths, counting(ops)[:n]))


def arguments():
    parser = argparse.ArgumentParser(usage=__doc__)
    parser.add_argument("traces", nargs="*", type=pathlib.Path)
    parser.add_argument("--check", action="store_true")
    parser.add_argument("--cut", type=int)
    parser.add_argument("--original")
    return parser.parse_args()


def main():
    args = arguments()
    if args.cut is not None:
        return cut(args.traces[0], args.cut)
    original = shlex.split(args.original or built_original())
    played = [Played(path, original) for path in args.traces or sorted(FOLDER.glob("*.trace"))]
    if args.check:
        return check(played)
    OUT.write_text(whole(pieces(played)))
    return 0


if __name__ == "__main__":
    sys.exit(main())
