#!/usr/bin/env python3
"""The libraries that the sources of a crate name are the libraries that crates.txt lists for it.

    tests/documents/libraries.py    prints the differences

A source names a library by `Rattle.NAME`, or before `::`, as in `use NAME::..`; comments don't count. If a name is missing in
crates.txt, a check finds it too, but late. If a name is listed that no source needs, nothing else finds it, and the crate waits
for another one's proof. A library of the kit is known only if some line of crates.txt has it.
"""

import re
import sys
from pathlib import Path

TOP = Path(__file__).resolve().parent.parent.parent

OF_ANTT = re.compile(r"\bRattle\.(\w+)")
OF_CODE = re.compile(r"(?<![\w:.])(\w+)::")
MODULE = re.compile(r"(?m)^\s*(?:pub(?:\(crate\))? )?mod (\w+);")


def listed():
    """The crates of crates.txt, each with the libraries that its line has."""
    lines = (line.partition("#")[0].partition(":") for line in (TOP / "crates.txt").read_text().splitlines())
    return {names.split()[0]: libraries.split() for names, colon, libraries in lines if colon}


def named(crate, known):
    """The libraries that the sources of a crate name, each with the first file that does."""
    found, folder = {}, TOP / "crates" / crate
    own = {crate}
    for file in sorted(folder.glob("src/**/*.rt")):
        text = re.sub(r"//.*", "", file.read_text())
        own.update(MODULE.findall(text))
        for name in OF_ANTT.findall(text) + OF_CODE.findall(text):
            found.setdefault(name, file)
    for part in ("specs", "proofs"):
        for file in sorted(folder.glob("%s/**/*.antt" % part)):
            for name in OF_ANTT.findall(re.sub(r"--.*", "", file.read_text())):
                found.setdefault(name, file)
    return {name: file.relative_to(TOP) for name, file in found.items() if name in known - own}


def reasons_against(lines):
    known = set(lines).union(*lines.values())
    reasons = []
    for crate, libraries in lines.items():
        names = named(crate, known)
        reasons += ["%s lacks %s, which %s names" % (crate, name, names[name]) for name in sorted(set(names) - set(libraries))]
        reasons += ["%s lists %s, which no source of it names" % (crate, name) for name in libraries if name not in names]
        reasons += ["%s lists %s twice" % (crate, name) for name in sorted(set(libraries)) if libraries.count(name) > 1]
    return reasons


def judge(tally):
    tally.judge("crates.txt: the libraries that the sources of each crate name", reasons_against(listed()))


def main():
    reasons = reasons_against(listed())
    print("\n".join(reasons))
    return bool(reasons)


if __name__ == "__main__":
    sys.exit(main())
