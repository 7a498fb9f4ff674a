"""The names of surface.txt, and what the crate tazmulja passes on of other crates."""

import re
from pathlib import Path

CRATES = Path(__file__).resolve().parent.parent.parent / "crates"
LIST = Path(__file__).resolve().with_name("surface.txt")
CRATE_NAMES = {folder.name for folder in CRATES.iterdir() if folder.is_dir()}
ROOF = "tazmulja"


def listed():
    """Each name, with the functions that stand behind it."""
    lines = [line.partition(":") for line in LIST.read_text().splitlines() if line and not line.startswith("#")]
    return [(name, functions.split()) for name, _, functions in lines]


def passed_on(crate):
    """What the head of a crate passes on of its modules and of other crates: each name, with what it is of and its name there."""
    found = {}
    for path, names in re.findall(r"(?m)^pub use (\w+)::([^;]*);", (CRATES / crate / "src" / "lib.rt").read_text()):
        for name in names.strip("{}").split(","):
            item, _, shown = name.strip().partition(" as ")
            if item:
                found[shown or item] = (path, item)
    return found


def functions_of(crate, name):
    """The functions that others may call of a type, a trait or a public module, in the crate that it is passed on from."""
    while passed_on(crate).get(name, (crate,))[0] in CRATE_NAMES - {crate}:
        crate, name = passed_on(crate)[name]
    found = set()
    for file in CRATES.glob("%s/src/**/*.rt" % crate):
        text = file.read_text()
        for block in re.findall(r"(?ms)^impl(?:<[^{]*?>)? %s\b[^{]*\{(.*?)^\}" % name, text) + [text] * (file.stem == name):
            found.update(re.findall(r"\bpub fn (\w+)", block))
        for block in re.findall(r"(?ms)^pub (?:unsafe )?trait %s\b[^{]*\{(.*?)^\}" % name, text):
            found.update(re.findall(r"\bfn (\w+)", block))
    return found


def functions():
    """The functions that callers of the library have by the list: each by its name, a method as TYPE::NAME."""
    given = passed_on(ROOF)
    named = [(given.get(name, ("", name))[1], behind) for name, behind in listed()]
    return {name for name, behind in named if not behind} | {"%s::%s" % (name, word) for name, behind in named for word in behind}


def judge(tally):
    """What a caller of the library names: the crate tazmulja passes it on, and it has the methods that a caller calls."""
    given, reasons = passed_on(ROOF), [] if listed() else ["it lists nothing"]
    for name, behind in listed():
        if name not in given:
            reasons.append("it has no %s" % name)
        elif behind:
            there = functions_of(*given[name])
            reasons += ["%s has no %s" % (name, function) for function in behind if function not in there]
    tally.judge("tazmulja/src/lib.rt: what tests/documents/surface.txt lists", reasons)
