#!/usr/bin/env python3
"""Respells this repository's own names as Rattle's own are spelt: definitions, fields and lemmas in snake case, in proofs, specs, clauses and edits.

usage: tools/respell.py          at the top of a checkout that port.py has turned: rewrites the files under crates/ in place
       tools/respell.py --names  prints old and new names only

A camel-case word becomes words with underscores; a hyphen in a name that specs/ declares becomes an underscore, while a lemma keeps its hyphens, which
join the parts of its statement. Names that would fall together in one file get the new name of TOGETHER.
"""

import glob
import re
import sys

# old names whose plain respelling is another name in a file that uses them
TOGETHER = {
    "screen-of": "screen_z_of",
    "with-matrices": "with_rsp_matrices",
    "lights-then": "lighting_then",
    "light-entries": "lighting_entries",
}

NAME = re.compile(r"[\w'\-]+")
DECLARED = re.compile(r"^\s*(?:(?:unfoldable|abbrev|opaque)\s+)?(?:pub\s+)?(?:(?:unfoldable|abbrev)\s+)?([^\s:(){}]+)\s*(?:[({][^)}]*[)}]\s*)*:\s")
FORMED = re.compile(r"^\s*(?:pub\s+)?(?:abbrev\s+|unfoldable\s+)?(?:pub\s+)?(?:record|data|module)\s+(?:pub\s+)?([^\s:(){}]+)")


def texts():
    for kind in ("specs/**/*.antt", "proofs/**/*.antt", "src/*.rt", "must-fail/*.edit", "long/*.edit"):
        for p in sorted(glob.glob("crates/*/" + kind, recursive=True)):
            if "/out/" not in p:
                yield p


def snake(word):
    """geometryAfter is geometry_after, screenX is screen_x; words that begin upper stay."""
    if not word[:1].islower():
        return word
    return re.sub(r"([a-z0-9])([A-Z])", lambda m: m.group(1) + "_" + m.group(2).lower(), word)


def respelt(name, of_specs):
    parts = [snake(w) for w in name.split("-")]
    return ("_" if of_specs else "-").join(parts)


def declared():
    """The names that the repository declares: of specs/, and of proofs/."""
    specs, proofs = set(), set()
    for p in texts():
        if not p.endswith(".antt"):
            continue
        with open(p, encoding="utf-8") as f:
            for line in f:
                m = DECLARED.match(line) or FORMED.match(line)
                if m and NAME.fullmatch(m.group(1)) and "\u25cc" not in m.group(1):
                    (specs if "/specs/" in p else proofs).add(m.group(1))
    return specs, proofs


def table():
    specs, proofs = declared()
    new = {}
    for n in specs | proofs:
        r = TOGETHER.get(n) or respelt(n, n in specs)
        if r != n:
            new[n] = r
    return new


def turned(text, new, path):
    """The text with each name respelt; string literals of a .rt file stay."""
    def one(m):
        return new.get(m.group(0), m.group(0))

    if not path.endswith(".rt"):
        return NAME.sub(one, text)
    pieces = re.split(r'(b?"(?:[^"\\]|\\.)*")', text)
    return "".join(p if i % 2 else NAME.sub(one, p) for i, p in enumerate(pieces))


def together(new):
    """Per file: names that the table would make one."""
    found = []
    for p in texts():
        with open(p, encoding="utf-8") as f:
            words = set(NAME.findall(f.read()))
        made = {}
        for w in words:
            made.setdefault(new.get(w, w), set()).add(w)
        found += [(p, r, sorted(ws)) for r, ws in made.items() if len(ws) > 1]
    return found


def main(argv):
    new = table()
    if argv == ["--names"]:
        for n in sorted(new):
            print(n, new[n])
        return 0
    both = together(new)
    for p, r, ws in both:
        print(f"{p}: {', '.join(ws)} would all be {r}")
    if argv == ["--together"]:
        return bool(both)
    for p in texts():
        with open(p, encoding="utf-8") as f:
            text = f.read()
        t = turned(text, new, p)
        if t != text:
            with open(p, "w", encoding="utf-8") as f:
                f.write(t)
    return 0


if __name__ == "__main__":
    raise SystemExit(main(sys.argv[1:]))
