#!/usr/bin/env python3
"""The checksum of the sources of the page: scripts/page/checksum.py prints it; with --compare it is compared.

The sources are src/ of i9_page and of each crate below it, page/ but for what is built there, and the scripts that build it.
`scripts/page/checksum.py --compare` ends with 1 where page/i960.html was built of other sources.
"""
import hashlib
import pathlib
import re
import sys

TOP = pathlib.Path(__file__).resolve().parent.parent.parent
BUILT = ("i960.html", "i960.wasm")
SCRIPTS = ("build", "bundle.py", "clang", "heap.c", "small_table.py")


def crates_below(name):
    """The crate and all of this repository's crates on which it stands."""
    lines = [re.sub("#.*", "", line).partition(":") for line in (TOP / "crates.txt").read_text().splitlines()]
    uses = {left.split()[0]: right.split() for left, colon, right in lines if colon}
    found, waiting = set(), [name]
    while waiting:
        crate = waiting.pop()
        if crate in uses and crate not in found:
            found.add(crate)
            waiting += uses[crate]
    return sorted(found)


def sources():
    for crate in crates_below("i9_page"):
        yield from sorted((TOP / "crates" / crate / "src").rglob("*.rt"))
    yield from sorted(file for file in (TOP / "page").iterdir() if file.name not in BUILT)
    yield from (TOP / "scripts" / "page" / name for name in SCRIPTS)


def checksum():
    whole = hashlib.sha256()
    for file in sources():
        content = file.read_bytes()
        whole.update(f"{file.relative_to(TOP)} {len(content)}\n".encode() + content)
    return whole.hexdigest()[:32]


def main():
    found = checksum()
    if sys.argv[1:] != ["--compare"]:
        print(found)
        return
    head = (TOP / "page" / "i960.html").read_text(encoding="utf-8")[:1000]
    built_of = re.search("with the checksum ([0-9a-f]+) by", head)
    if not built_of or built_of[1] != found:
        sys.exit("page/i960.html was built of other sources; scripts/page/build makes it anew")
    print("page/i960.html was built of these sources")


main()
