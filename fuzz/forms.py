"""What README.md, docs/COMMAND.md, docs/DEBUGGING.md and docs/ASSEMBLER.md say of words, of files and of what is printed.

`expected` works out from the words and the files alone which refusal comes, if any. `Run`, `Session` and `listed` read
what was printed; each raises `Wrong` at the first piece that no page allows.
"""
import functools
import re

FILE_LIMIT = 16777216
MOST_DATA = 4194304
MAX_LENGTH = 10000000


class Wrong(Exception):
    """Something that was printed or answered is not as the pages say."""


def number(word, base, most, low, high):
    """The number of a word of one to `most` digits, where it is from `low` to `high`."""
    digits = b"0123456789ABCDEFabcdef" if base == 16 else b"0123456789"
    if not 1 <= len(word) <= most or word.strip(digits):
        return None
    value = int(word, base)
    return value if low <= value <= high else None


def lines_of(text):
    """The lines of a text, each without one carriage return at its end."""
    return [line[:-1] if line.endswith(b"\r") else line for line in text.split(b"\n")]


def words_of(line):
    return [word for word in line.replace(b"\t", b" ").split(b" ") if word]


# Images.

COUNTS = {1: 0, 2: 2, 3: 4, 4: 2, 5: 4}


def record_fault(line):
    """The bytes of a record, or the kind of its fault."""
    digits = line[1:]
    if line[:1] != b":":
        return None, 1
    if len(digits) % 2 or digits.strip(b"0123456789ABCDEFabcdef"):
        return None, 2
    data = bytes.fromhex(digits.decode())
    if len(data) < 5 or len(data) != data[0] + 5:
        return None, 3
    if sum(data) % 256:
        return None, 4
    if data[3] > 5:
        return None, 5
    if data[0] != COUNTS.get(data[3], data[0]):
        return None, 3
    return data, None


@functools.lru_cache(8)
def read_image(text):
    """The bytes of an image by their addresses, and None; or None, and the line and the kind of its first fault."""
    image, base, is_upper, ended, count = {}, 0, True, False, 0
    lines = lines_of(text)
    for place, line in enumerate(lines, 1):
        if not line:
            continue
        data, kind = (None, 7) if ended else record_fault(line)
        if kind:
            return None, (place, kind)
        start, body = data[1] * 256 + data[2], data[4:-1]
        if data[3] == 0:
            count += len(body)
            if count > MOST_DATA:
                return None, (place, 8)
            for k, byte in enumerate(body):
                offset = start + k
                image[(base + offset) % 2**32 if is_upper else base + offset % 65536] = byte
        elif data[3] == 1:
            ended = True
        elif data[3] in (2, 4):
            is_upper = data[3] == 4
            base = (body[0] * 256 + body[1]) * (65536 if is_upper else 16)
    return (image, None) if ended else (None, (len(lines), 6))


# Schedules and scripts.


LEVELS = (b"low", b"high")


def event_kind(words, version):
    """The kind of the fault of an event's words in a version, or None."""
    name, operands = words[0], words[1:]
    if name in LEVELS and version == 1:
        return 2
    if name in (b"pin", *LEVELS) and len(operands) == 1:
        good = number(operands[0], 10, 10, 0, 7) is not None
    elif name == b"nmi":
        good = not operands
    elif name == b"dma" and len(operands) == 1:
        good = number(operands[0], 10, 10, 0, 3) is not None
    elif name == b"show" and len(operands) == 2:
        good = number(operands[0], 16, 8, 0, 2**32) is not None and number(operands[1], 10, 10, 1, 64) is not None
    elif name == b"feed" and len(operands) == 2:
        good = number(operands[0], 10, 10, 0, 3) is not None and len(operands[1]) in (2, 4, 8, 32)
        good = good and number(operands[1], 16, 32, 0, 2**128) is not None
    else:
        return 3 if name in (b"pin", b"dma", b"show", b"feed", *LEVELS) else 2
    return None if good else 3


@functools.lru_cache(4096)
def event_line(line, version):
    """Nothing, or the clock and the time of a line's event in a version, or the kind of its fault."""
    if line.strip(bytes(range(128))):
        return 1
    words = words_of(line)
    if line[:1] == b"#" or not words:
        return None
    if words[0] not in (b"at", b"turn"):
        return 1
    if len(words) < 3:
        return 2
    most = MAX_LENGTH if words[0] == b"at" else 10**12
    time = number(words[1], 10, 13, 0, most)
    kind = event_kind(words[2:], version)
    return kind or (3 if time is None else (words[0], time))


def version_of(text):
    """The version of a schedule, or None where its first line names none, and how many lines stand up to that one."""
    for place, line in enumerate(lines_of(text), 1):
        words = words_of(line)
        if line[:1] == b"#" or not words:
            continue
        if words[0] != b"schedule" or line.strip(bytes(range(128))):
            break
        return (2 if words[1:] == [b"2"] else None), place
    return 1, 0


def schedule_fault(text):
    """The line and the kind of a schedule's first fault, or None."""
    last, count = None, 0
    lines = lines_of(text)
    version, start = version_of(text)
    if version is None:
        return start, 3
    for place, line in enumerate(lines[start:], start + 1):
        said = event_line(line, version)
        if said is None:
            continue
        if isinstance(said, int):
            return place, said
        if last and last[0] != said[0]:
            return place, 4
        if last and said[1] < last[1]:
            return place, 5
        last, count = said, count + 1
        if count > 1000000:
            return place, 6
    return None


def is_by_turns(text):
    """Whether an accepted schedule is one by turns."""
    version, start = version_of(text)
    events = [said for said in (event_line(line, version) for line in lines_of(text)[start:]) if said]
    return bool(events) and events[0][0] == b"turn"


def command_of(words):
    """A command of the debugger, or the kind of its fault."""
    name, operands = words[0].decode("latin-1"), words[1:]
    if name in ("turn", "until"):
        rule = (10, 10, 1, 1000000) if name == "turn" else (16, 8, 0, 2**32)
        value = number(operands[0], *rule) if len(operands) == 1 else None
        return 2 if value is None else (name, value)
    if name in ("regs", "raw", "held"):
        return 2 if operands else (name,)
    if name in ("mem", "rawmem"):
        if len(operands) != 2:
            return 2
        start, size = number(operands[0], 16, 8, 0, 2**32), number(operands[1], 10, 10, 1, 64)
        return 2 if start is None or size is None else (name, start, size)
    return 1


@functools.lru_cache(8)
def read_script(text):
    """The commands of a script, and None; or None, and the line and the kind of its first fault."""
    commands = []
    for place, line in enumerate(lines_of(text), 1):
        if line.strip(bytes(range(128))):
            return None, (place, 1)
        words = words_of(line)
        if line[:1] == b"#" or not words:
            continue
        command = command_of(words)
        if isinstance(command, int):
            return None, (place, command)
        if len(commands) == 100000:
            return None, (place, 3)
        commands.append(command)
    return commands, None


# The words, and what refuses them.


def form_of(words):
    """The form of the words, or None."""
    coded = [word.encode() for word in words]
    name = words[0] if words else ""

    def is_number(k, most):
        return number(coded[k], 10, 10, 0, most) is not None

    def are_sets(k):
        return coded[k] == b"-" or number(coded[k], 10, 10, 1, 15) is not None

    def is_address(k):
        return number(coded[k], 16, 8, 0, 2**32) is not None

    if name in ("asm", "dis"):
        return name if len(words) == 2 and words[1] else None
    if name == "gen":
        return name if len(words) == 3 and is_number(1, 2**32 - 1) and are_sets(2) else None
    if name not in ("run", "trace", "debug") or len(words) != (7 if name == "trace" else 5):
        return None
    if not words[1] or not words[2] or not are_sets(3):
        return None
    if name == "debug":
        return name if words[4] else None
    if name == "trace" and not (is_address(5) and is_address(6)):
        return None
    return name if is_number(4, MAX_LENGTH) else None


@functools.lru_cache(16)
def refusal(kind, text):
    """The line that refuses a file of this kind, with its status, or None where it is accepted or not foreseen here."""
    status = 2 if kind == "image" else 3
    if text is None:
        return 5, b"#read\n"
    if len(text) > FILE_LIMIT:
        return status, b"#%s too long\n" % kind.encode()
    if kind == "source":
        return None
    fault = schedule_fault(text) if kind == "schedule" else (read_script if kind == "script" else read_image)(text)[1]
    return fault and (status, b"#%s line %d kind %d\n" % ((kind.encode(),) + fault))


def expected(words, files):
    """The status and the line of what is refused first, or None. A file that is not in `files` is missing."""
    form = form_of(words)
    if form is None:
        return 1, b"#words\n"
    if form == "gen":
        return None
    if form in ("asm", "dis"):
        return refusal("source" if form == "asm" else "image", files.get(words[1]))
    found = refusal("image", files.get(words[1]))
    if not found and words[2] != "-":
        found = refusal("schedule", files.get(words[2]))
    if not found and form == "debug":
        found = refusal("script", files.get(words[4]))
    return found


def check_source_refusal(text, out):
    """The line and the kind that refuse a source."""
    found = re.fullmatch(rb"#source line (\d+) kind ([1-8])\n", out)
    if not found or not 1 <= int(found[1]) <= text.count(b"\n") + 1:
        raise Wrong("a source is refused by %r" % out[:100])
    return int(found[1]), int(found[2])
