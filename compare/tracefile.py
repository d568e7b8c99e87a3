"""The trace format: reading a script into commands, and writing commands into a script."""
import struct

# Letters of a header: how many words of requests follow, a bit for each request, and how many lengths.
# Of GST2 the requests and the lengths past the areas' are not looked at.
HEADERS = {b"GST1": (0, 10), b"GST2": (1, 13)}
WIDTHS = (16, 6, 4, 6, 6, 2, 9, 10, 1, 8)          # numbers per entry, by area
F32_AREAS = (0, 1, 2, 3, 4, 6)
I16_AREA = 5
WRITTEN = (5, 7, 8, 9)                             # where `write` stores
# Which areas hold the entries of table 1..9.
TABLE_AREAS = {1: (0,), 2: (1,), 3: (2,), 4: (3,), 5: (4,), 6: (5,), 7: (6, 7), 8: (8,), 9: (9,)}
BOUNDS = (8192, 3072, 4096, 24576, 6144, 1024, 36864, 45056, 12288, 16384)
MOST_BYTES = 262144

# op: name, names of the arguments, whether data follows
OPS = {
    0x01: ("open", (), False),
    0x02: ("matrix", ("flags",), True),
    0x03: ("force", (), True),
    0x04: ("pop", ("count",), False),
    0x05: ("geom", ("off", "on"), False),
    0x06: ("viewport", (), True),
    0x07: ("texture", ("tile", "level", "on", "sc", "tc"), False),
    0x08: ("fog", ("multiplier", "offset"), False),
    0x09: ("lightnum", ("bytes",), False),
    0x0A: ("light", ("slot",), True),
    0x0B: ("lookat", ("slot",), True),
    0x0C: ("load", ("first", "count"), True),
    0x0D: ("cull", ("first", "last"), False),
    0x0E: ("depth", ("slot", "threshold"), False),
    0x0F: ("modify", ("slot", "attribute", "value"), False),
    0x10: ("draw", ("a", "b", "c", "material", "mode", "fogcolour", "primdepth"), False),
    0x11: ("ucode", ("which",), False),
    0x12: ("ink", ("colour",), False),
    0x14: ("explain", ("first", "last"), False),
    0x20: ("lend", ("area", "length"), False),
    0x21: ("mark", (), False),
    0x22: ("poke", ("field", "index", "value"), False),
    0x23: ("write", ("area", "place", "value"), False),
}
CODES = {name: (code, names, data) for code, (name, names, data) in OPS.items()}


class Op:
    """One command: its name, its numbers, and its bytes if it has data."""

    def __init__(self, name, args, data):
        self.name, self.args, self.data = name, args, data


class Unfit(ValueError):
    """What stands there is no header or no op, or the script ends inside it."""


class Reader:
    def __init__(self, script):
        self.script, self.at = script, 0

    def take(self, n):
        if self.at + n > len(self.script):
            raise Unfit(f"cut short at byte {len(self.script)}, where {self.at + n - len(self.script)} more are due")
        piece = self.script[self.at:self.at + n]
        self.at += n
        return piece

    def u32(self):
        return struct.unpack("<I", self.take(4))[0]


def read_op(reader):
    """The next command."""
    code = reader.take(1)[0]
    if code not in OPS:
        raise Unfit(f"byte {reader.at - 1} is {code:#04x}, which is no op")
    name, names, has_data = OPS[code]
    args = [reader.u32() for _ in names]
    return Op(name, args, reader.take(reader.u32()) if has_data else None)


def read_header(reader):
    """(words of requests, lengths), as many as the letters say."""
    letters = reader.take(4)
    if letters not in HEADERS:
        raise Unfit("no trace: it begins with neither GST1 nor GST2")
    return tuple([reader.u32() for _ in range(n)] for n in HEADERS[letters])


def read_ops(reader):
    """(commands, what ended them before the script's end, in words, or None)."""
    ops = []
    try:
        while reader.at < len(reader.script):
            ops.append(read_op(reader))
    except Unfit as fault:
        return ops, str(fault)
    return ops, None


def read_lengths(reader):
    """The lengths of the ten areas."""
    return read_header(reader)[1][:len(WIDTHS)]


def read(script):
    """(lengths of the ten areas, commands)."""
    reader = Reader(script)
    return read_lengths(reader), read_ops(reader)[0]


def fault(script):
    """(whether a driver serves the script, what is wrong with it in words, or None)."""
    reader = Reader(script)
    try:
        if len(script) > MOST_BYTES:
            raise Unfit(f"longer than {MOST_BYTES} bytes")
        if any(n > most for n, most in zip(read_lengths(reader), BOUNDS)):
            raise Unfit("it asks for an area over its bound")
    except Unfit as found:
        return False, str(found)
    return True, read_ops(reader)[1]


def put(op):
    """The bytes of one command."""
    code, names, has_data = CODES[op.name]
    if len(names) != len(op.args) or has_data != (op.data is not None):
        raise ValueError(f"{op.name} does not take {op.args}")
    out = bytes([code]) + b"".join(struct.pack("<I", a & 0xFFFFFFFF) for a in op.args)
    return out + struct.pack("<I", len(op.data)) + op.data if has_data else out


def write(lengths, ops, requests=None, others=(0, 0, 0)):
    """The script of a trace; under GST2, with the other lengths, where a word of requests is given."""
    letters, words = (b"GST1", lengths) if requests is None else (b"GST2", [requests, *lengths, *others])
    return letters + struct.pack(f"<{len(words)}I", *words) + b"".join(put(op) for op in ops)


def made_for(*requests):
    """What a second header has beside the areas' lengths: the word of requests, three lengths."""
    return sum(1 << k - 1 for k in requests), (512, 2304, 1024)
