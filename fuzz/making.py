"""Images, schedules, sources and scripts at random, by grammars of their own, and mutations of texts."""

# Opcodes of the register format, each with its extensions; then those of the other formats.
REG = {
    0x58: "012346789ABCDEF", 0x59: "01238ABCDE", 0x5A: "01234567CE", 0x5B: "02", 0x5C: "C", 0x5D: "C", 0x5E: "C",
    0x5F: "C", 0x61: "02", 0x63: "01", 0x64: "015", 0x65: "01459", 0x66: "0BCDF", 0x67: "01", 0x70: "18B", 0x74: "189B",
}  # fmt: skip
COBR = list(range(0x20, 0x28)) + list(range(0x30, 0x40))
CTRL = [0x08, 0x09, 0x0A, 0x0B] + list(range(0x10, 0x20))
MEM = list(bytes.fromhex("80 82 84 85 86 88 8A 8C 90 92 98 9A A0 A2 B0 B2 C0 C2 C8 CA"))
MODES = [0x4, 0x5, 0x7, 0xC, 0xD, 0xE, 0xF, 0x6]
CODE, PRCB, STACK = 0x1000, 0x800, 0x3000
PLACES = [
    0, CODE, CODE + 0x40, PRCB, 0x900, 0xA00, 0xB00, 0x1800, 0x2000, STACK, STACK + 16, STACK + 0x40, STACK + 0x80,
    0x4000, 0xFFC0, 0x7FFFFFFC, 0x80000000, 0xDFFFFFF0, 0xE0000000, 0xE0000004, 0xE0000FFC, 0xE0001000, 0xFFFFFF00,
    0xFFFFFF10, 0xFFFFFFF0, 0xFFFFFFFE,
]  # fmt: skip
LIMITS = [
    0, 1, 3, 4, 7, 8, 15, 16, 31, 32, 63, 64, 65, 127, 128, 255, 256, 4092, 4095, 4096, 65535, 65536, 1000000, 1000001,
    1048576, 1048577, 4194304, 8388604, 8388608, 10000000, 10000001, 2147483647, 2147483648, 4294967295, 4294967296,
    1000000000000, 1000000000001, 9999999999, 10000000000, 99999999999999,
]  # fmt: skip


def word_bytes(words, order="little"):
    return b"".join((word % 2**32).to_bytes(4, order) for word in words)


# Instructions.


def reg_word(r):
    opcode = r.choice(list(REG))
    word = opcode << 24 | int(r.choice(REG[opcode]), 16) << 7
    for place in (19, 14, 0):
        register = r.randrange(32)
        word |= (register & 28 if opcode in (0x5D, 0x5E, 0x5F, 0x63, 0x67) else register) << place
    for bit in (11, 12):
        word |= (r.random() < 0.4) << bit
    return word | (r.getrandbits(32) & 0x2060 if r.random() < 0.05 else 0)


def branch_word(r, here, count):
    """A branch to a word of the code, or now and then anywhere."""
    target = 4 * (r.randrange(count) - here) if r.random() < 0.95 else r.getrandbits(24)
    if r.random() < 0.5:
        return r.choice(CTRL) << 24 | target & 0xFFFFFC | 2 * r.getrandbits(1)
    operands = r.getrandbits(10) << 14 | r.getrandbits(1) << 13
    return r.choice(COBR) << 24 | operands | target & 0x1FFC | (r.getrandbits(2) if r.random() < 0.1 else 0)


def mem_words(r, count):
    """A load, a store or the like; its base is mostly a register that holds an address."""
    word = r.choice(MEM) << 24 | (r.randrange(32) & r.choice([28, 31])) << 19
    word |= r.choice([r.randrange(16, 28), r.randrange(32), r.randrange(3)]) << 14
    if r.random() < 0.6:
        return [word | r.getrandbits(1) << 13 | r.choice([r.randrange(4096), 16 * r.randrange(16), 4 * r.randrange(8)])]
    mode = r.choice(MODES)
    word |= 1 << 12 | mode << 10 | r.randrange(5) << 7 | r.randrange(32)
    if mode in (0x4, 0x7, 0x6):
        return [word]
    if r.random() < 0.3:
        return [word, CODE + 4 * r.randrange(count)]
    return [word, r.choice(PLACES) + r.choice([0, 0, 1, 4, 60, -4])]


def flow_words(r, here, count):
    """Calls, returns, flushes, and what changes the state of the processor."""
    target = 4 * (r.randrange(count) - here) & 0xFFFFFC
    return r.choice([
        [0x09000000 | target], [0x09000000 | target], [0x0A000000], [0x0A000000], [0x66000680], [0x66000780],
        [0x86003000, CODE + 4 * r.randrange(count)], [0x66000800 | r.randrange(32)], [0x66000000 | r.randrange(32)],
        [0x65000280 | r.getrandbits(24) & 0xF83800 | r.randrange(32) | r.getrandbits(5) << 14],
        [0x65000480 | r.getrandbits(24) & 0xFFF81F], [0x63000000 | r.getrandbits(24) & 0xFFF81F],
        [0x5C002E00 | r.randrange(3) << 19 | r.randrange(32)], [0x5C000E00 | r.randrange(3) << 19 | r.randrange(32)],
    ])  # fmt: skip


def code(r, count):
    """Words of a firmware: registers are given addresses, then comes a body that mostly goes round."""
    words = []
    for register in range(16, 28):
        if r.random() < 0.8:
            words += [0x8C003000 | register << 19, r.choice([r.choice(PLACES), r.getrandbits(32), r.randrange(64)])]
    if r.random() < 0.4:  # The priority is lowered, in supervisor mode, and lines are let in.
        words += [0x8C003000 | 24 << 19, 0x1F2003, 0x5C980E00 | r.choice([0, 1]), 0x65980298 | 24 << 14]
        words += [0x8C003000 | 25 << 19, r.getrandbits(12), 0x5C082E00 | 25, 0x5C102E00 | r.randrange(32)]
    count += len(words)
    while len(words) < count:
        kind = r.random()
        if kind < 0.35:
            words.append(reg_word(r))
        elif kind < 0.65:
            words += mem_words(r, count)
        elif kind < 0.78:
            words.append(branch_word(r, len(words), count))
        elif kind < 0.95:
            words += flow_words(r, len(words), count)
        else:
            words.append(r.getrandbits(32))
    return words + [0x08000000 | -4 * len(words) & 0xFFFFFC]


# Images.


def address(r):
    return r.choice([r.choice(PLACES), r.choice(PLACES) + r.randrange(64), r.getrandbits(32)]) % 2**32


def control_table(r, config):
    """Interrupts are in dedicated mode; the regions of tables and code have the order of the words."""
    odd = [0, 0xF8, 0x1F000, 0x400000, r.getrandbits(32)]
    regions = [r.choice(odd) if r.random() < 0.2 else config for _ in range(14)]
    words = [0, 0, 0, 0] + [r.getrandbits(16) for _ in range(3)] + [0]
    words += [config | r.choice([0, 0xF8, 0x1F000])] + regions + [config]
    breaks = [r.choice([CODE, CODE + 4, STACK, r.getrandbits(32)]) if r.random() < 0.3 else 0 for _ in range(4)]
    words[:4] = breaks if r.random() < 0.3 else words[:4]
    return words + [0, r.choice([0, r.getrandbits(32)]), r.choice([0, 0xFE, r.getrandbits(32)]), r.getrandbits(3)]


def tables(r, config):
    """The PRCB and the tables that it names, mostly sound, each word at random now and then."""
    loose = r.choice([0, 0, 0.002, 0.03])

    def some(word):
        return word if r.random() >= loose else r.choice([r.getrandbits(32), r.choice(PLACES), word + r.randrange(16)])

    ac = r.choice([0, 0x8000, 0x9000, 0x1000, r.getrandbits(32)])
    prcb = [0x900, 0xA00, ac, r.choice([0x40000000, 0]), 0x2000, 0xB00, 0, STACK, 0, r.randrange(16)]
    handler = r.choice([[0x1800], [0x1800, 0x1804, CODE], [0x1800, 0x1808, 2, 0x402], [CODE]])
    faults = [word for _ in range(32) for word in (r.choice(handler), 0x27F)]
    calls = [0, 0, 0, STACK + 0x1000, 0, 0, 0, 0, 0, 0, 0, 0]
    calls += [r.choice([0x1800, 0x1802, 0x1806, CODE, CODE + 0x22]) for _ in range(260)]
    pending = [r.getrandbits(32) if r.random() < 0.05 else 0 for _ in range(9)]
    vectors = [r.choice([0x1800, 0x1804, CODE]) for _ in range(248)]
    at = {PRCB: prcb, 0x900: faults, 0xA00: control_table(r, config), 0xB00: calls, 0x2000: pending + vectors}
    return [(start, list(map(some, words))) for start, words in at.items()]


def handlers(r):
    """Words at 1800: g13 counts, and each 32nd entry goes to the start of the code; else they return."""
    count = [0x59000801 | 29 << 19 | 29 << 14, 0x30002000 | r.choice([0, 1, 5, 5, 31]) << 19 | 29 << 14 | 12]
    return count + [0x84003000, CODE, 0x0A000000] + code(r, r.randrange(6))


def firmware(r):
    """The segments of an image that boots and does what its random words say."""
    is_big = r.random() < 0.12
    config = 0x400000 if is_big else 0
    boot = [CODE if r.random() < 0.98 else r.getrandbits(32), PRCB if r.random() < 0.97 else r.choice(PLACES)]
    boot_byte = bytes([config >> 16 if r.random() < 0.98 else r.getrandbits(8)])
    words = [(0xFFFFFF10, boot)] + tables(r, config)
    words += [(0x1800, handlers(r)), (CODE, code(r, r.choice([3, 10, 30, 100])))]
    segments = [(0xFFFFFF08, boot_byte)]
    segments += [(start, word_bytes(some, "big" if is_big else "little")) for start, some in words]
    for _ in range(r.choice([0, 0, 0, 1, 2])):
        segments.append((address(r), r.randbytes(r.randrange(40))))
    return segments


def record(r, kind, start, body):
    data = bytes([len(body), start >> 8, start & 255, kind]) + body
    text = b":" + (data + bytes([-sum(data) % 256])).hex().encode()
    return (text if r.random() < 0.05 else text.upper()) + (b"\r\n" if r.random() < 0.01 else b"\n")


def hex_text(r, segments):
    """Intel HEX of segments, in records of any length, under origins of types 02 and 04."""
    lines = [record(r, 3, 0, bytes(4))] if r.random() < 0.1 else []
    upper, most = None, r.choice([1, 4, 16, 16, 16, 255])
    for start, body in segments:
        while body:
            size = min(most, len(body), 0x10000 - start % 0x10000)
            if start < 0x100000 and r.random() < 0.05:
                lines.append(record(r, 2, 0, (start >> 16 << 12).to_bytes(2, "big")))
                upper = None
            elif upper != start >> 16:
                upper = start >> 16
                lines.append(record(r, 4, 0, upper.to_bytes(2, "big")))
            lines.append(record(r, 0, start & 0xFFFF, body[:size]))
            start, body = (start + size) % 2**32, body[size:]
    if r.random() < 0.1:
        lines.append(record(r, 5, 0, bytes(4)))
    return b"".join(lines) + record(r, 1, 0, b"")


def repaired(text):
    """The same lines, with the number of bytes and the check byte of each record set right, and an end record."""
    lines = []
    for line in text.split(b"\n"):
        digits = line.strip(b":\r \t")
        if len(digits) < 10 or digits.strip(b"0123456789ABCDEFabcdef") or digits[6:8] == b"01":
            continue
        data = bytes.fromhex(digits[: len(digits) & -2].decode())[:260]
        body = data[4:-1]
        kind = data[3] if data[3] in (0, 2, 4) else 0
        body = body if kind == 0 else (body + bytes(2))[:2]
        data = bytes([len(body), data[1], data[2], kind]) + body
        lines.append(b":" + (data + bytes([-sum(data) % 256])).hex().upper().encode())
    return b"\n".join(lines + [b":00000001FF", b""])


# Schedules and scripts.


def event(r, version):
    kind = r.randrange(10)
    if kind < 4:
        return "%s %d" % (r.choice(["pin", "low", "high"] if version == 2 else ["pin"]), r.randrange(8))
    if kind < 5:
        return "nmi"
    if kind < 7:
        return "show %X %d" % (address(r), r.choice([1, 4, 16, 64]))
    if kind < 8:
        return "dma %d" % r.randrange(4)
    return "feed %d %s" % (r.randrange(4), r.randbytes(r.choice([1, 2, 4, 16])).hex())


def schedule(r, by_turns):
    """A schedule that is accepted."""
    time, version = 0, r.choice([1, 1, 2])
    lines = ["schedule 2"] if version == 2 else []
    for _ in range(r.choice([1, 3, 10, 60])):
        time = min(time + r.choice([0, 0, 1, 2, 5, 30, 400]), 10**7)
        lines.append("%s %d %s" % ("turn" if by_turns else "at", time, event(r, version)))
    if r.random() < 0.1:
        lines.append("turn 1000000000000 nmi" if by_turns else "at 10000000 nmi")
    if r.random() < 0.3:
        lines.insert(r.randrange(len(lines)), r.choice(["", "# a comment", " \t ", "#"]))
    return "\n".join(lines).encode() + b"\n" * r.randrange(2)


def question(r):
    kind = r.randrange(5)
    if kind < 3:
        return ("regs", "raw", "held")[kind]
    return "%s %X %d" % ("mem" if kind == 3 else "rawmem", address(r), r.choice([1, 4, 17, 64]))


def script(r, ends):
    """A script that is accepted; it waits for an address only where the run is known to end."""
    lines = []
    for _ in range(r.choice([1, 4, 12, 40])):
        drive = r.random()
        if drive < 0.35:
            lines.append("turn %d" % r.choice([1, 1, 2, 3, 10, 100, 700]))
        elif drive < 0.5 and ends:
            lines += ["until %X" % (CODE + 4 * r.randrange(60))] + ["regs"] * r.randrange(2)
        else:
            lines.append(question(r))
    return "\n".join(lines).encode() + b"\n" * r.randrange(2)
