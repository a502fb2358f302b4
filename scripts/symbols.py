"""The names and the lines of a source with their values, as the assembler itself gives them.

The assembler prints bytes alone. So a source is assembled once more with a table of words behind it, one word for each name;
the table is the last segment of what is printed, and its bytes are the values. Lines without a label get one for that.
"""
import os
import pathlib
import re
import subprocess
import sys
import tempfile
from typing import NamedTuple

TOP = pathlib.Path(__file__).resolve().parent.parent
NAME = r"[A-Za-z_][A-Za-z0-9_]{0,62}"
LABEL = re.compile(rf"[ \t]*({NAME}):")
SET = re.compile(rf"[ \t]*\.set[ \t]+({NAME})[ \t]*,")
# What writes no bytes.
SILENT = (".org", ".align", ".set")


class Symbol(NamedTuple):
    """A name of a source, with its value and the number of the line that defines it. A label's value is an address."""
    name: str
    value: int
    line: int
    is_label: bool


class Line(NamedTuple):
    """A line of a source that writes bytes, with the address of the first of them."""
    address: int
    number: int
    text: str


class Refused(Exception):
    """The program refuses the source; the text is the line that says so."""


def program():
    """The program, which the environment may name in PROGRAM."""
    return os.environ.get("PROGRAM", str(TOP / "i960"))


def without_comment(line):
    """A line up to its comment, which begins at a `#` outside of a string."""
    return re.match(r'(?:[^"#]|"(?:[^"\\]|\\.)*"?)*', line)[0]


def statement(line):
    """What a line has behind its label, without its comment."""
    code = without_comment(line)
    label = LABEL.match(code)
    return code[label.end():].strip() if label else code.strip()


def data_of(hex_text):
    """The data bytes of all records of an Intel HEX text, in the order of the text."""
    records = [bytes.fromhex(line[1:]) for line in hex_text.split() if line.startswith(":")]
    return b"".join(record[4:-1] for record in records if record[3] == 0)


def values_of(text, names):
    """The values of these names at the end of a source. `Refused` where the source is refused."""
    if not names:
        return []
    table = "".join(f"\n.word {name}" for name in names)
    with tempfile.NamedTemporaryFile("w", suffix=".s", encoding="latin-1") as file:
        file.write(f"{text}\n.org 0{table}\n")
        file.flush()
        done = subprocess.run([program(), "asm", file.name], capture_output=True, text=True, check=False)
    if done.returncode:
        raise Refused(done.stdout.strip())
    data = data_of(done.stdout)[-4 * len(names):]
    return [int.from_bytes(data[place:place + 4], "little") for place in range(0, len(data), 4)]


def symbols_of(text):
    """The names of a source in the order of their definitions."""
    found = []
    for number, line in enumerate(text.split("\n"), 1):
        code = without_comment(line)
        label = LABEL.match(code)
        if label:
            found.append((label[1], number, True))
        set_name = SET.match(code[label.end():] if label else code)
        if set_name:
            found.append((set_name[1], number, False))
    values = values_of(text, [name for name, _, _ in found])
    return [Symbol(name, value, number, is_label) for (name, number, is_label), value in zip(found, values)]


def lines_of(text):
    """The lines of a source that write bytes, in its order."""
    prefix, lines = "line_", text.split("\n")
    while prefix in text:
        prefix += "_"
    labels, marked = [], []
    for number, line in enumerate(lines, 1):
        words = statement(line).split()
        label = LABEL.match(line)
        writes = bool(words) and words[0] not in SILENT
        if writes:
            labels.append((label[1] if label else f"{prefix}{number}", number))
        marked.append(f"{prefix}{number}: {line}" if writes and not label else line)
    values = values_of("\n".join(marked), [label for label, _ in labels])
    return [Line(value, number, lines[number - 1].strip()) for (_, number), value in zip(labels, values)]


def read_source(name):
    """The text of a source, one character for each byte."""
    try:
        return pathlib.Path(name).read_bytes().decode("latin-1").replace("\r\n", "\n")
    except OSError as why:
        sys.exit(f"{name}: {why.strerror}")
