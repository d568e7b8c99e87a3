"""Checks of ../replay and show.py by what they print and end with. The kit and the program are stand-ins, and the program that is built too where there is one."""
import contextlib
import os
import pathlib
import select
import shutil
import subprocess
import sys
import tempfile
import time

import cases
import model
import tracefile

HERE = pathlib.Path(__file__).resolve().parent
PROGRAM = "crates/replay/out/replay"          # where rt leaves it
BUILT = HERE.parent / PROGRAM
SECONDS = 20
TOOLS = ("bash", "sh", "cat", "cp", "dirname", "env", "head", "mktemp", "rm", "sed", "sleep", "tail", "tee", "uname", "yes", "python3")
EMULATOR = '#!/bin/sh\nexec "$@"\n'
KIT = '#!/bin/sh\necho "${{PWD##*/}}: $*" >>"{calls}"\n{checks}\n'
# As rt run has it, on standard error: what it has proved anew, and what has not changed. What the program prints goes to standard output.
PROVED = ('echo "rt: chose --jobs 2 for numbers" >&2; echo "crate numbers: modules loaded=4 checked=3" >&2; echo "logic=proved functions=24 sum=0" >&2; '
          'echo "rt: areas: nothing has changed since the last proved build" >&2; echo end')
WAITS = 'n=0; while [ ! -e "{go}" ] && [ $n -lt 400 ]; do sleep 0.05; n=$((n + 1)); done'
HEADER = tracefile.write(cases.ROOMY, [])
GOOD = tracefile.write(cases.ROOMY, cases.DRAWN + cases.explain((0, 2), (0, 3)))
# Files that are no trace, and files that are one up to some op.
NO_TRACE = {"empty": b"", "letters": b"GST0" + GOOD[4:], "text": b"a text, and no trace at all, of more than 44 bytes", "cut-letters": b"GST",
            "cut-header": GOOD[:43], "cut-second": tracefile.write(cases.ROOMY, [], 0)[:59], "bound": HEADER[:4] + b"\1\x20\0\0" + HEADER[8:],
            "long": GOOD + bytes(tracefile.MOST_BYTES + 1 - len(GOOD))}
CUT = {"cut-argument": GOOD[:-1], "cut-op": GOOD + b"\x0d\0\0", "cut-data": GOOD + b"\3\x40\0\0\0" + bytes(63), "no-op": GOOD + b"\x1f" + GOOD[44:],
       "zero": GOOD + b"\0", "no-op-first": HEADER + b"\xff"}
SHOWN_TOO = ("long", "bound")          # what no driver serves and show.py shows
NOT_CULLED = "not culled: the first slot that is not outside the left plane is 0, the right 0, the bottom 0, the top 0"


class Workplace:
    """A copy of what ../replay needs, in a folder of its own; texts maps a file's name to what stands in its place."""

    def __init__(self, folder, texts):
        self.root = pathlib.Path(folder).resolve()
        self.put("replay", texts.get("replay", (HERE.parent / "replay").read_text()))
        for each in ("show.py", "sentences.py", "tracefile.py"):
            self.put(f"compare/{each}", texts.get(each, (HERE / each).read_text()))
        self.calls, self.go = self.root / "calls", self.root / "go"
        self.put("bin/qemu-x86_64", EMULATOR)
        for folder, tools in (("tools", TOOLS), ("without-python", TOOLS[:-1])):
            self.link(folder, tools)
        self.kit(PROVED)
        self.program(f'exec "{sys.executable}" "{HERE / "model.py"}"')

    def put(self, name, text):
        path = self.root / name
        path.parent.mkdir(parents=True, exist_ok=True)
        path.write_bytes(text.encode() if isinstance(text, str) else text)
        path.chmod(0o755)
        return path

    def link(self, folder, tools):
        (self.root / folder).mkdir()
        for tool in tools:
            (self.root / folder / tool).symlink_to(shutil.which(tool))

    def kit(self, checks):
        self.put("bin/rt", KIT.format(calls=self.calls, checks=checks.format(go=self.go)))

    def program(self, body):
        self.put(PROGRAM, "#!/bin/sh\n" + body.format(go=self.go) + "\n")

    def env(self, *, kit="bin", tools="tools"):
        return {**os.environ, "PATH": f"{self.root / kit}:{self.root / tools}", "TMPDIR": str(self.root)}

    def start(self, *args, **where):
        return subprocess.Popen([self.root / "replay", *args], env=self.env(**where), cwd=self.root, stdin=subprocess.DEVNULL, stdout=subprocess.PIPE,
                                stderr=subprocess.PIPE)

    def run(self, *args, **where):
        """(status, standard output, standard error)."""
        process = self.start(*args, **where)
        out, said = process.communicate(timeout=SECONDS)
        return process.returncode, out, said.decode()


@contextlib.contextmanager
def workplace(texts=None):
    with tempfile.TemporaryDirectory() as folder:
        yield Workplace(folder, texts or {})


def comes(stream, wanted):
    """Whether this line comes from a process that has not ended."""
    end, got = time.monotonic() + 5, b""
    while wanted not in got and time.monotonic() < end:
        if select.select([stream], [], [], 0.1)[0]:
            more = os.read(stream.fileno(), 4096)
            if not more:
                return False
            got += more
    return wanted in got


def waited_for(place, stream, wanted, *args):
    """Whether a line comes while what prints it still waits."""
    process = place.start(*args)
    came = comes(getattr(process, stream), wanted)
    place.go.touch()
    process.communicate(timeout=SECONDS)
    place.go.unlink()
    return came


def named_in(said, path):
    """Lines of standard error that name a file and say something of it."""
    return [each for each in said.split("\n") if each.startswith(f"replay: {path}: ") and len(each) > len(f"replay: {path}: ") + 8]


def of_progress(said):
    """What standard error has beside the lines of proving."""
    return [each for each in said.split("\n") if each and not each.endswith(" proved") and "proving and building" not in each]


def check_usage(checks, place):
    for args in ((), ("--words",)):
        status, out, said = place.run(*args)
        checks.expect((status, out) == (2, b"") and said.startswith("usage: ./replay "), f"replay {args} does not tell the usage")
    status, out, said = place.run("--replay")
    checks.expect((status, out) == (2, b"") and "--replay" in said, "an option that there is not")
    for option in ("--help", "-h"):
        status, out, said = place.run(option, kit="none")
        checks.expect((status, said) == (0, ""), f"{option}: status 0, nothing on standard error")
        for each in ("FILE..", "--words", "--build", "--command", "docs/TRACE.md", "Status:", "\n  0  ", "\n  1  ", "\n  2  "):
            checks.expect(each in out.decode(), f"{option} says nothing of {each.strip()}")
    checks.expect(not place.calls.exists(), "usage and help call the kit")


def check_unreadable(checks, place):
    good = place.put("good.trace", GOOD)
    for file in ("nosuch.trace", "bin"):
        status, out, said = place.run(good, file)
        checks.expect((status, out) == (1, b"") and file in said, f"{file} cannot be read")
    checks.expect(not place.calls.exists(), "what cannot be read is found before building")


def check_good(checks, place):
    good, other, want = place.put("good.trace", GOOD), place.put("a b.trace", HEADER), [model.answers(s).encode() for s in (GOOD, HEADER)]
    status, out, said = place.run(good, other, good)
    checks.expect((status, out) == (0, want[0] + want[1] + want[0]) and not of_progress(said), "three traces are replayed one after the other")
    checks.expect("replay: numbers proved\n" in said and "areas" not in said, "what is proved anew is told")
    checks.expect(place.calls.read_text() == "replay: run\n", "the program is built once")
    checks.expect(not list(place.root.glob("tmp.*")), "something is left behind")
    odd = b"\n\n1\0\xff \n\n\n"
    place.put("odd", odd)
    place.program(f'cat "{place.root / "odd"}"')
    checks.expect(place.run(good)[:2] == (0, odd), "standard output goes through unchanged")
    place.program(f'echo line; {WAITS}')
    checks.expect(waited_for(place, "stdout", b"line\n", good), "standard output is held back")


def check_broken(checks, place, said_by="the stand-in"):
    """Files that are no trace or cut short, alone and beside good ones."""
    good, whole = place.put("good.trace", GOOD), model.answers(GOOD).encode()
    for name, script in {**NO_TRACE, **CUT}.items():
        path, want = place.put(f"{name}.trace", script), b"" if name in NO_TRACE else model.answers(script).encode()
        status, out, said = place.run(good, path, good)
        checks.expect(status == 1, f"{said_by}, {name}: status {status}")
        checks.expect(out == whole + want + whole, f"{said_by}, {name}: not the output that is due")
        checks.expect(len(named_in(said, path)) == 1 == len(of_progress(said)), f"{said_by}, {name}: said is '{said}'")
    status, out, said = place.run(good)
    checks.expect((status, out, of_progress(said)) == (0, whole, []), f"{said_by}: a good trace")


def check_failing(checks, place):
    good = place.put("good.trace", GOOD)
    place.program("echo half; exit 3")
    status, out, said = place.run(good)
    checks.expect((status, out) == (1, b"half\n") and len(named_in(said, good)) == 1, "a program that ends badly")
    place.program("echo 'replay: first' >&2; echo second >&2")
    status, out, said = place.run(good)
    checks.expect(status == 1 and of_progress(said) == [f"replay: {good}: first", f"replay: {good}: second"], "two lines on standard error")
    place.program("exec yes")
    piped = subprocess.run(["bash", "-c", '"$0" "$1" | head -n 1', place.root / "replay", good], capture_output=True, env=place.env(), timeout=SECONDS)
    checks.expect(piped.stdout == b"y\n" and not of_progress(piped.stderr.decode()), f"a reader that has gone: {piped.stderr[:200]}")
    place.program("echo y; echo 'Error: Os {{ code: 32, kind: BrokenPipe, message: \"Broken pipe\" }}' >&2; exit 1")
    status, out, said = place.run(good)
    checks.expect((status, of_progress(said)) == (141, []), "a reader that has gone, as a Rattle program tells it")


def check_build(checks, place):
    good = place.put("good.trace", GOOD)
    status, out, said = place.run("--build")
    checks.expect((status, out) == (0, b"") and "replay: numbers proved\n" in said, "--build")
    checks.expect("proving and building" not in said, "a later build is announced")
    program = place.root / PROGRAM
    other = program.rename(place.root / "built")
    place.kit(f'{PROVED}; cp "{other}" "{program}"')
    status, out, said = place.run("--command")
    checks.expect(status == 0 and out.decode().split("\n")[-2:] == [str(program), ""], "--command")
    checks.expect("proving and building" in said, "a first build is not announced")
    place.kit(f'{PROVED}; {WAITS}')
    checks.expect(waited_for(place, "stderr", b"replay: numbers proved\n", "--build"), "progress is held back")
    program.unlink()
    place.kit(PROVED)
    status, out, said = place.run("--command")
    checks.expect((status, out) == (1, b"") and said.endswith("could not be proved and built\n"), "no program is there, and it is not told")
    other.rename(program)
    place.kit("echo 'logic=not-proved' >&2; exit 1")
    for args in ((good,), ("--build",), ("--command",), ("--words", good)):
        status, out, said = place.run(*args)
        checks.expect((status, out) == (1, b"") and "logic=not-proved\n" in said and said.endswith("could not be proved and built\n"), f"{args}: not proved")
        status, out, said = place.run(*args, kit="none")
        checks.expect((status, out) == (1, b"") and said.startswith("replay: there is no rt on the PATH") and said.count("\n") == 1, f"{args}: no kit: {said}")


def check_words(checks, place):
    good, cut, bad = place.put("good.trace", GOOD), place.put("cut.trace", CUT["no-op"]), place.put("bad.trace", NO_TRACE["letters"])
    status, out, said = place.run("--words", good)
    lines = out.decode().split("\n")
    checks.expect(status == 0 and not of_progress(said) and lines[0] == str(good), "--words")
    checks.expect(lines[-5:-1] == ["6 explain first=0 last=2", "    " + NOT_CULLED, "7 explain first=0 last=3", "    refused (3): slot 3 is not loaded"],
                  "--words has answers")
    status, both, said = place.run("--words", bad, cut, good)
    checks.expect(status == 1 and len(named_in(said, bad)) == len(named_in(said, cut)) == 1 and len(of_progress(said)) == 2,
                  f"--words, no trace and a cut one: {said}")
    checks.expect(both.endswith(out) and both.startswith(str(cut).encode()) and b"the script ends here: " in both, "--words shows what comes before the cut")
    status, _, said = place.run("--words", good, tools="without-python")
    checks.expect(status == 1 and said.startswith("replay: there is no python3 on the PATH"), f"--words without Python: {said}")
    place.program("echo 0 open 0")
    status, out, said = place.run("--words", good)
    checks.expect((status, out) == (1, b"") and len(named_in(said, good)) == 1, "--words, an output that is not the trace's")
    place.program("exit 0")
    checks.expect(place.run("--words", good)[:2] == (1, b""), "--words, no output")


def shown(place, *args, given=b""):
    done = subprocess.run([place.root / "compare" / "show.py", *args], input=given, capture_output=True, timeout=SECONDS)
    return done.returncode, done.stdout.decode(), done.stderr.decode()


def misfits(text):
    """Outputs that are none of the good trace: what is wrong, the text."""
    lines = text.split("\n")
    instead = lambda k, line: "\n".join(lines[:k] + [line] + lines[k + 1:])
    yield from (("nothing", ""), ("one answer less", "\n".join(lines[1:])), ("one answer more", "0 open 0\n" + text), ("no end", text.replace("end\n", "")),
                ("no dump", text.partition("open 1")[0]), ("a cut dump", text[:-20]), ("no last line's end", text[:-1]), ("another trace's", model.answers(HEADER)),
                ("a sentence", "replay: the header is cut short\n"))
    yield from ((line, instead(k, line)) for k, line in (
        (1, "1 force 0 0"), (1, "2 matrix 0 0"), (1, "1 matrix 0"), (1, "1 matrix 0 17"), (1, "1 matrix 0 x"), (1, "1 matrix 6 0"), (1, "1 matrix"),
        (2, "2 load 0 2"), (2, "2 load 1 1 1"), (5, "5 draw 6 3"), (5, "5 draw 0 0"), (5, "5 draw 11"), (5, "5 draw 8 10"), (6, "6 explain 0"),
        (6, "6 explain 0 1 4"), (6, "6 explain 0 0 0 0 0 3"), (6, "6 explain 0 0 0 0 0"), (6, "6 explain 0 2 0"), (6, "6 explain 2 0 3"), (6, "6 explain 3 3"),
        (6, "6 explain 8 1"), (6, "6 cull 0 0"), (6, " 6 explain 0 1 1")))


def check_show(checks, place):
    good, output = place.put("good.trace", GOOD), place.put("good.answer", model.answers(GOOD))
    status, plain, said = shown(place, good)
    checks.expect((status, said) == (0, "") and plain.startswith(f"{good}\nareas ") and plain.endswith("\n7 explain first=0 last=3\n"), "show FILE")
    status, text, said = shown(place, "--answers", output, good)
    commands = [each for each in text.split("\n") if not each.startswith("    ")]
    checks.expect((status, said) == (0, "") and commands == plain.split("\n"), "show --answers has the commands")
    checks.expect(shown(place, "--answers", "-", good, given=output.read_bytes()) == (0, text, ""), "show --answers - reads standard input")
    for name, script in NO_TRACE.items():
        path = place.put(f"{name}.trace", script)
        status, text, said = shown(place, path)
        checks.expect(name in SHOWN_TOO or (status, text) == (1, "") and said.startswith(f"show: {path}: "), f"show, {name}")
    for name, script in CUT.items():
        status, text, said = shown(place, place.put(f"{name}.trace", script))
        checks.expect(status == 0 and "\nthe script ends here: " in text, f"show, {name}")
    for args in (("--answers", place.root / "nosuch", good), (place.root / "nosuch",), ("--answers", output, good, good)):
        checks.expect(shown(place, *args)[0] in (1, 2) and "Traceback" not in shown(place, *args)[2], f"show {args}")


def check_misfits(checks, place):
    good = place.put("good.trace", GOOD)
    for what, text in misfits(model.answers(GOOD)):
        status, out, said = shown(place, "--answers", "-", good, given=text.encode())
        checks.expect((status, out) == (1, "") and said.startswith(f"show: {good}: the output is not one of this trace: ") and said.count("\n") == 1,
                      f"shown as if it fitted: {what}")


def check_built(checks, place):
    """The program that is built."""
    if not BUILT.exists():
        return
    place.kit("")
    shutil.copy(BUILT, place.root / PROGRAM)
    check_broken(checks, place, "the program")
    status, out, said = place.run("--words", place.put("good.trace", GOOD))
    checks.expect(status == 0 and f"\n    {NOT_CULLED}\n".encode() in out and not of_progress(said), f"the program in words: {said}")
    # more output than a pipe holds
    piped = subprocess.run(["bash", "-c", '"$0" "$@" | head -n 1', place.root / "replay", *[place.put("good.trace", GOOD)] * 200], capture_output=True, env=place.env(), timeout=SECONDS)
    checks.expect(piped.stdout.count(b"\n") == 1 and not of_progress(piped.stderr.decode()), f"a reader of the program that has gone: {piped.stderr[:200]}")


CHECKS = (check_usage, check_unreadable, check_good, check_broken, check_failing, check_build, check_words, check_show, check_misfits)


def check(checks, texts=None, all_of=CHECKS):
    """Each in a workplace of its own."""
    for each in all_of:
        with workplace(texts) as place:
            each(checks, place)
