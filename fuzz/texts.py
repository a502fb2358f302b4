"""Sources of the assembler at random, and mutations of any text."""
import re

from making import LIMITS, record

REGISTERS = ["r%d" % k for k in range(16)] + ["g%d" % k for k in range(16)] + ["pfp", "sp", "rip", "fp"]
NAMES = ["a", "b0", "start", "loop", "_", "x" * 63]

# Mnemonics by what stands behind them: s a source, p a source of two words, d a destination, e one of two, t of three,
# q of four, m an address, l a register or literal to be compared with r, and j a target.
SHAPES = {
    "ssd": "notbit and andnot setbit notand xor or nor xnor ornot clrbit notor nand alterbit addo addi subo subi shro "
    "shrdi shri shlo rotate shli cmpinco cmpinci cmpdeco cmpdeci addc subc atadd modac modtc mulo remo divo muli remi "
    "modi divi atmod modify extract modpc sysctl",
    "sse": "emul",
    "spe": "ediv",
    "sst": "sdma",
    "sd": "not mov spanbit scanbit",
    "pe": "movl",
    "qq": "movq",
    "ss": "cmpo cmpi concmpo concmpi scanbyte chkbit",
    "s": "calls",
    "": "udma mark fmark flushreg syncf ret faultno faultg faulte faultge faultl faultne faultle faulto",
    "d": "testno testg teste testge testl testne testle testo",
    "lrj": "bbc cmpobg cmpobe cmpobge cmpobl cmpobne cmpoble bbs cmpibno cmpibg cmpibe cmpibge cmpibl cmpibne cmpible "
    "cmpibo",
    "j": "b call bal bno bg be bge bl bne ble bo",
    "md": "ldob ldos lda ld ldib ldis balx",
    "me": "ldl",
    "mq": "ldq ldt",
    "dm": "stob stos st stib stis",
    "em": "stl",
    "qm": "stq stt",
    "m": "bx callx",
}
INSTRUCTIONS = [(name, shape) for shape, names in SHAPES.items() for name in names.split()]


class Writer:
    """Writes statements; `wild` says how often a part is one that may be refused."""

    def __init__(self, r, wild):
        self.r, self.wild = r, wild

    def is_wild(self):
        return self.r.random() < self.wild

    def value(self):
        r, kind = self.r, self.r.random()
        if self.is_wild():
            limit = r.choice(LIMITS)
            return r.choice([str(limit), str(limit), str(-limit), "0x%X" % limit, "+1", "0x", "r16", "-a"])
        if kind < 0.5:
            return r.choice([str(r.randrange(32)), "0x%x" % r.getrandbits(6), "-%d" % r.randrange(9), "007"])
        name = r.choice(NAMES)
        return name if kind < 0.85 else "%s%s%s" % (name, r.choice("+-"), r.choice(["4", "0x10", "1000000"]))

    def memory(self):
        r = self.r
        scale = 3 if self.is_wild() else r.choice([1, 2, 4, 8, 16])
        register, index = r.choice(REGISTERS), "[%s*%d]" % (r.choice(REGISTERS), scale)
        offset = r.choice([str(r.randrange(4096)), self.value(), "0x%X" % r.getrandbits(32)])
        plain = [offset, "%s(%s)" % (offset, register), "(%s)" % register]
        scaled = ["%s(ip)" % offset, "(%s)%s" % (register, index), offset + index]
        scaled.append("%s(%s)%s" % (offset, register, index))
        if r.random() < 0.2:
            return "!" + r.choice(plain + scaled if self.is_wild() else plain)
        return r.choice(plain + scaled)

    def operand(self, kind):
        r, grouped = self.r, {"p": 2, "e": 2, "t": 4, "q": 4}.get(kind, 1)
        if kind == "m":
            return self.memory()
        if kind == "j":
            return self.value() if self.is_wild() else r.choice(NAMES)
        if kind in "splq" and r.random() < 0.4:
            return self.value() if self.is_wild() else str(r.randrange(32))
        if kind in "sd" and self.is_wild():
            return "sf%d" % r.randrange(4)
        return "%s%d" % (r.choice("rg"), r.randrange(16) if self.is_wild() else r.randrange(0, 16, grouped))

    def directive(self):
        r, kind = self.r, self.r.choice(["org", "word", "word", "short", "byte", "ascii", "space", "align", "set"])
        if kind == "ascii":
            pieces = ["a", " ", "#", r"\n", r"\0", r"\"", r"\\", "~", "0"] + [r"\q", '"', "\x7f"] * self.is_wild()
            return '.ascii "%s"' % "".join(r.choice(pieces) for _ in range(6))
        if kind in ("org", "space", "align"):
            places = {"org": [0x1000, 0xFFFFFF10, 0x4000, 0xFFFFFFF0], "space": [0, 1, 7, 64], "align": [2, 4, 4096]}
            return ".%s %s" % (kind, self.value() if self.is_wild() else r.choice(places[kind]))
        if kind == "set":
            return ".set %s, %s" % (r.choice(NAMES) if self.is_wild() else "n%d" % r.getrandbits(40), r.randrange(5000))
        small = kind == "word" or self.is_wild()
        values = [self.value() if small else str(r.randrange(256)) for _ in range(r.randrange(1, 5))]
        return ".%s %s" % (kind, r.choice([", ", ",", " ,\t"]).join(values))

    def statement(self):
        r = self.r
        if r.random() < 0.2:
            return self.directive()
        name, shape = r.choice(INSTRUCTIONS)
        if shape in ("lrj", "j") and name not in ("b", "call", "bal") and r.random() < 0.3:
            name += r.choice([".f", ".t"])
        text = name + r.choice([" ", "\t", "   "]) + r.choice([", ", ","]).join(map(self.operand, shape))
        return text.rstrip() + (r.choice([" {3800}", " {0}", " {60}", "{1}"]) if self.is_wild() else "")


def source(r):
    """A source whose labels come in order; most of them are accepted."""
    writer = Writer(r, r.choice([0, 0, 0.003, 0.1]))
    lines = ["        .org 0xFFFFFF10", "        .word start, 0x800", "        .org 0x1000"] if r.random() < 0.9 else []
    count = r.choice([1, 4, 8, 20, 60])
    labels = dict(zip(sorted(r.choices(range(count), k=len(NAMES))), NAMES))
    for place in range(count):
        label = labels.get(place, "")
        lines.append((label + ":" if label else "") + r.choice([" ", "\t", "   "]) + writer.statement())
        if r.random() < 0.1:
            lines[-1] += "  # a comment"
    missing = [name for name in NAMES if name not in labels.values()]
    lines += ["        .set %s, 0x%X" % (name, 0x1000 + 4 * r.randrange(64)) for name in missing]
    return "\n".join(lines).encode() + b"\n" * r.randrange(2)


# Mutations.


def some_lines(r, text):
    lines = text.split(b"\n")
    k, m = r.randrange(len(lines)), r.randrange(len(lines))
    kind = r.randrange(5)
    if kind == 0:
        del lines[k]
    elif kind == 1:
        lines.insert(m, lines[k])
    elif kind == 2:
        lines[k], lines[m] = lines[m], lines[k]
    elif kind == 3:
        lines.insert(k, r.choice([b"", b" \t", b"#", b"# a comment", b"at 0 nmi", b":00000001FF", b"turn 1", b"schedule 2", b"at 1 low 0"]))
    else:
        lines[k] = lines[k] * r.choice([2, 100, 5000])
    return b"\n".join(lines)


def some_bytes(r, text):
    k = r.randrange(len(text) + 1)
    kind = r.randrange(4)
    if kind == 0 and k < len(text):
        return text[:k] + bytes([text[k] ^ 1 << r.randrange(8)]) + text[k + 1 :]
    if kind == 1:
        return text[:k] + text[k + r.randrange(1, 4) :]
    if kind == 2:
        odd = [b"\0", b"\xff", b"\xc3\xa4", b"\r", b"\n", b"\t", b" ", b":", b"#", b"-", b"+"]
        return text[:k] + r.choice(odd) + text[k:]
    return text[:k] + bytes([r.getrandbits(8)]) + text[k:]


def some_number(r, text):
    """A number of the text becomes one at a limit."""
    found = list(re.finditer(rb"[0-9]+", text[:20000]))
    if not found:
        return text
    place = r.choice(found)
    value = r.choice(LIMITS)
    limit = b"%d" % value
    limit = r.choice([limit, limit, b"0" * r.choice([1, 9, 12]) + limit, b"-" + limit, b"%X" % value, b"0x%X" % value])
    return text[: place.start()] + limit + text[place.end() :]


def mutated(r, text, others):
    """A text with one to four changes."""
    for _ in range(r.choice([1, 1, 2, 4])):
        kind = r.random()
        if kind < 0.3:
            text = some_lines(r, text)
        elif kind < 0.6:
            text = some_bytes(r, text)
        elif kind < 0.8:
            text = some_number(r, text)
        elif kind < 0.86:
            text = text[: r.randrange(len(text) + 1)]
        elif kind < 0.9:
            text = text.replace(b"\n", b"\r\n")
        elif kind < 0.96:
            other = r.choice(others)
            text = text[: r.randrange(len(text) + 1)] + other[r.randrange(len(other) + 1) :]
        elif kind < 0.98:
            text = r.choice([b"", b"\n", b"\0", b"\xff" * 40, b"#" * 70000, b"a" * 100000, b"\r\n\r\n"])
        else:
            text = text + b"\n" + record(r, r.randrange(8), r.getrandbits(16), r.randbytes(r.randrange(20)))
    return text
