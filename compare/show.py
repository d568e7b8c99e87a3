#!/usr/bin/env python3
"""Prints traces in words.

  show.py FILE..                     each command
  show.py --answers OUTPUT FILE      each command and under it what was answered, OUTPUT being what a program printed for it ('-': standard input)

A file that is no trace, and an output that is not one of the trace, are refused with a sentence and status 1.
"""
import argparse
import pathlib
import signal
import struct
import sys

import sentences
import tracefile


def matrix(data):
    """Sixteen entries as decimal numbers."""
    numbers = struct.unpack(">16h16H", data[:64])
    return " ".join(f"{numbers[k] + numbers[16 + k] / 65536:g}" for k in range(16))


def halves(data):
    return " ".join(str(h) for h in struct.unpack(f">{len(data) // 2}h", data[:len(data) // 2 * 2]))


def vertex(data):
    x, y, z, _, s, t, *colour = struct.unpack(">6h4B", data)
    return f"({x} {y} {z} st {s} {t} colour {bytes(colour).hex()})"


def vertices(data):
    whole = [vertex(data[k:k + 16]) for k in range(0, len(data) - 15, 16)]
    return " ".join(whole[:3]) + (f" .. {len(whole)} in all" if len(whole) > 3 else "")


READINGS = {"matrix": (matrix, 64), "force": (matrix, 64), "viewport": (halves, 16), "load": (vertices, 0)}


def command(op):
    """One command in words."""
    _, names, _ = tracefile.CODES[op.name]
    text = " ".join([op.name] + [f"{n}={a:#x}" if a > 9999 else f"{n}={a}" for n, a in zip(names, op.args)])
    if op.data is None:
        return text
    reading, least = READINGS.get(op.name, (bytes.hex, 0))
    return f"{text} [{len(op.data)}] " + (reading(op.data) if len(op.data) >= least else op.data.hex())


def header(requests, lengths):
    """The requests that a header names, if it is of a kind that does, and the areas."""
    for word in requests:
        yield "requests " + (" ".join(f"P{k + 1}" for k in range(32) if word >> k & 1) or "none")
    areas = [f"{n // w}*{w}" + (f"+{n % w}" if n % w else "") for n, w in zip(lengths, tracefile.WIDTHS)]
    yield " ".join(["areas", *areas, *(f"({n})" for n in lengths[len(areas):])])


def lines(script, output):
    """A trace in words, with the answers if there is an output."""
    reader = tracefile.Reader(script)
    yield from header(*tracefile.read_header(reader))
    ops, fault = tracefile.read_ops(reader)
    answers = None if output is None else sentences.answers(ops, output)
    for k, op in enumerate(ops):
        yield f"{k} {command(op)}"
        if answers:
            yield "    " + answers[k]
    if fault:
        yield f"the script ends here: {fault}"


def show(path, output=None):
    """Prints a trace, or says why not; the status."""
    try:
        shown = list(lines(pathlib.Path(path).read_bytes(), output))
    except (OSError, tracefile.Unfit) as fault:
        return refused(path, fault)
    except sentences.Unfit as fault:
        return refused(path, f"the output is not one of this trace: {fault}")
    print(path, *shown, sep="\n")
    return 0


def refused(path, fault):
    print(f"show: {path}: {fault}", file=sys.stderr)
    return 1


def printed(path):
    """What a program printed."""
    bytes_read = sys.stdin.buffer.read() if path == "-" else pathlib.Path(path).read_bytes()
    return bytes_read.decode(errors="replace")


def main():
    parser = argparse.ArgumentParser(usage=__doc__)
    parser.add_argument("--answers", metavar="OUTPUT")
    parser.add_argument("files", nargs="+")
    args = parser.parse_args()
    if args.answers is None:
        return max(show(each) for each in args.files)
    if len(args.files) > 1:
        parser.error("--answers goes with one trace")
    try:
        return show(args.files[0], printed(args.answers))
    except OSError as fault:
        return refused(args.answers, fault)


if __name__ == "__main__":
    signal.signal(signal.SIGPIPE, signal.SIG_DFL)     # a reader that has gone ends this without a word
    sys.exit(main())
