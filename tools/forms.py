"""Counts in crates/*/src the places that docs/DESIGN-PASS.md speaks of, point by point.

Usage: tools/forms.py [ROOT]. Prints each place that it finds under its point, and a count a point. What it finds are candidates: the page says of
each what became of it. Point 8 is of proofs, and is counted in lines by `wc`.
"""
import collections
import pathlib
import re
import sys

KEYWORDS = set("let mut if else while for in match return fn pub self as struct enum impl break continue loop true false".split())
TOKEN = re.compile(r'b?"[^"]*"|[A-Za-z_][A-Za-z_0-9]*|\d[\w.]*|[^\sA-Za-z_0-9]')
CONVERTS = re.compile(r"\b(to_bits|from_bits|from_be_bytes|from_le_bytes|swap_bytes|cast_signed)\b")


def sources(root):
    for path in sorted(root.glob("crates/*/src/*.rt")):
        text = re.sub(r"//[^\n]*", "", path.read_text())
        yield f"{path.parts[-3]}::{path.stem}", text


def functions(text):
    """The name, parameters and body of each function."""
    for m in re.finditer(r"\bfn ([a-z_0-9]+)(<[^(]*>)?\(", text):
        depth, k = 1, m.end()
        while depth:
            depth += {"(": 1, ")": -1}.get(text[k], 0)
            k += 1
        parameters = text[m.end():k - 1]
        depth = 0
        while not (text[k] == "{" and text[k + 1] == "\n" and depth == 0) and text[k] != ";":
            depth += {"{": 1, "}": -1, "[": 1, "]": -1}.get(text[k], 0)
            if text[k + 1] == ";" and depth:
                k += 1
            k += 1
        if text[k] == ";":
            continue
        body, depth = k, 0
        while True:
            depth += {"{": 1, "}": -1}.get(text[k], 0)
            k += 1
            if depth == 0:
                break
        yield m.group(1), [p.strip() for p in split(parameters) if p.strip()], text[body:k]


def split(parameters):
    part, depth = "", 0
    for c in parameters:
        depth += {"(": 1, "[": 1, "<": 1, ")": -1, "]": -1, ">": -1}.get(c, 0)
        if c == "," and depth == 0:
            yield part
            part = ""
        else:
            part += c
    yield part


def shape(body):
    names, out = {}, []
    for token in TOKEN.findall(body):
        if token[0].isdigit() or token[0] == '"' or token.startswith('b"'):
            out.append("0")
        elif (token[0].isalpha() or token[0] == "_") and token not in KEYWORDS:
            out.append("n%d" % names.setdefault(token, len(names)))
        else:
            out.append(token)
    return " ".join(out)


def one(root):
    for module, text in sources(root):
        for m in re.finditer(r"\benum ([A-Za-z]+)", text):
            yield f"{module}::{m.group(1)} (enum)"
        for m in re.finditer(r"\bstruct ([A-Za-z]+)[^{;]*\{(.*?)\n\}", text, re.S):
            marks = re.findall(r"(\w+): bool", m.group(2))
            if marks:
                yield f"{module}::{m.group(1)} (marks: {', '.join(marks)})"
        codes = re.findall(r"\bconst ([A-Z0-9_]+): u8", text)
        if len(codes) > 1:
            yield f"{module} ({len(codes)} number codes, {codes[0]} ..)"


def two(root):
    groups = collections.defaultdict(list)
    for module, text in sources(root):
        for name, _, body in functions(text):
            s = shape(body)
            if len(s.split()) >= 8:
                groups[s].append(f"{module}::{name}")
    return ["  ".join(g) for _, g in sorted(groups.items(), key=lambda x: len(x[0])) if len(g) > 1]


def three(root):
    for module, text in sources(root):
        for name, _, body in functions(text):
            for m in re.finditer(r"\n *(?:'\w+: )?((?:while|loop)\b[^{]*|for \w+ in [\w.]*\.\.[^{]*)\{", body):
                yield f"{module}::{name}: {m.group(1).strip()}"


def four(root):
    for module, text in sources(root):
        for name, _, body in functions(text):
            shifts = re.search(r"\* (?:256|65536|16777216)|/ (?:256|65536)\b", body)
            tests = len(re.findall(r"\] == \w+\.\w+", body)) > 2
            copies = len(re.findall(r"\n +\w+\[(?:at|k|i)[^\]]*\] = ", body)) > 2
            numbers = re.search(r"(?:=> \d+,\s*\n.*){3}", body)
            if shifts or tests or copies or numbers or CONVERTS.search(body):
                why = [w for w, x in (("bytes", shifts), ("equality", tests), ("copy", copies), ("numbers", numbers), ("bits", CONVERTS.search(body))) if x]
                yield f"{module}::{name} ({', '.join(why)})"


def five(root):
    together = collections.defaultdict(set)
    for module, text in sources(root):
        for name, parameters, _ in functions(text):
            names = [p.split(":")[0].replace("mut ", "") for p in parameters]
            if len(names) > 7:
                yield f"{module}::{name} ({len(names)} parameters)"
            for i in range(len(names) - 2):
                together[tuple(names[i:i + 3])].add(f"{module}::{name}")
    for names, where in sorted(together.items()):
        if len(where) > 2:
            yield f"{', '.join(names)} together in {len(where)} functions"


def six(root):
    for module, text in sources(root):
        for m in re.finditer(r"\bstruct ([A-Za-z]+)[^{;]*\{(.*?)\n\}", text, re.S):
            arrays = re.findall(r"(\w+): \[[\w\[\]; ]+\]", m.group(2))
            counts = re.findall(r"(\w+): u(?:8|32|size)\b", m.group(2))
            if len(arrays) > 1 or (arrays and "count" in counts):
                yield f"{module}::{m.group(1)} (arrays: {', '.join(arrays)})"


def seven(root):
    for module, text in sources(root):
        for name, _, body in functions(text):
            arms = re.findall(r"=> *\{?\s*(?:return )?[\w:.]+\(", body)
            if len(arms) > 4:
                yield f"{module}::{name} ({len(arms)} arms that call)"


def main():
    root = pathlib.Path(sys.argv[1] if len(sys.argv) > 1 else ".")
    for number, find in enumerate((one, two, three, four, five, six, seven), 1):
        found = list(find(root))
        print(f"point {number}: {len(found)}")
        for place in found:
            print("   ", place)


main()
