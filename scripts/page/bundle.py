#!/usr/bin/env python3
"""Makes one file of the page, which opens from a disk with no server: bundle.py PAGE_FOLDER MODULE CHECKSUM >i960.html."""
import base64
import pathlib
import re
import sys

FOLDER, MODULE, CHECKSUM = pathlib.Path(sys.argv[1]), pathlib.Path(sys.argv[2]), sys.argv[3]
# In the order in which they name each other.
PAGE = ["session.mjs", "course.mjs", "simulator.mjs", "board.mjs", "views.mjs", "page.mjs"]
WORKER = ["command.mjs", "course.mjs", "worker.mjs"]


def read(name):
    return (FOLDER / name).read_text(encoding="utf-8")


def joined(names):
    """Scripts as one, without the lines by which they name each other."""
    text = "\n".join(read(name) for name in names)
    text = re.sub(r"^import [^;]*;\n", "", text, flags=re.M)
    return re.sub(r"^export ", "", text, flags=re.M)


def kept(name, text):
    return f'<script type="text/plain" id="{name}">{text}</script>\n'


def main():
    page = read("index.html").replace('<link rel="stylesheet" href="page.css">', f"<style>\n{read('page.css')}</style>")
    parts = kept("words", read("words.json")) + kept("worker", joined(WORKER))
    parts += kept("module", base64.b64encode(MODULE.read_bytes()).decode())
    parts += f'<script type="module">\n{joined(PAGE)}</script>'
    page = page.replace('<script type="module" src="page.mjs"></script>', parts)
    print(page.replace("<head>", f"<head>\n<!-- built of sources with the checksum {CHECKSUM} by scripts/page/build -->", 1), end="")


main()
