"""The two halves of a mirror, each used alone and completed with a new disk, by a kernel or by this program: the new disks have the
same number. What a kernel, and what this program, makes of a disk of each half."""

import hashlib

import handed
from lab import Image
from states import ONE, WRITE, blank, with_written
from members import pattern

FIRST, SECOND = pattern(41, 12), pattern(42, 12)
# Each: the disks of the one half, and then of the other, the old one first.
OLD, NEW, OTHER_OLD, OTHER_NEW = range(4)
MIXES = {"an old disk and the other half's new one": (OLD, OTHER_NEW), "the same the other way round": (OTHER_OLD, NEW)}

SCRIPT = """
half() {
  name=$1 md=$2
  assemble "$3" || return
  write 6 "$1"
  change --add "$4"
  judge 0
  stop
}
half first 1 /dev/vda1 /dev/vda2
half second 2 /dev/vda3 /dev/vda4
take_over one 3 1 /dev/vda5 /dev/vda6
take_over other 4 1 /dev/vda7 /dev/vda8
"""


def completed(lab):
    """The disks of two halves that this program completed."""
    contents = []
    for old, written in zip(lab.create([ONE, ONE]), (FIRST, SECOND)):
        half = lab.run([old, blank(30)], WRITE, [0], written)
        half = lab.run(half, ["add", "--device", Image(1)], [0])
        contents += lab.run(half, ["rebuild", "--member", 1])
    return contents


def play(tally, lab, machine):
    first, second = lab.create([ONE, ONE])
    own = completed(lab)
    mixed = [own[place] for mix in MIXES.values() for place in mix]
    given = {"first": FIRST, "second": SECOND}
    lines, after = machine.run(SCRIPT, [first, blank(30), second, blank(31)] + mixed, given)
    said = handed.told_of(lines)
    sums = {name: hashlib.sha256(with_written(ONE, 6, written)).hexdigest() for name, written in given.items()}
    for name in ("first", "second"):
        reasons = [] if said[name].one("sum") == sums[name] else ["its sum is %r" % said[name].one("sum")]
        reasons += [] if said[name].one("mismatches") == "0" else ["its members differ"]
        tally.judge("halves, the %s one in a kernel's hands" % name, reasons)
    for name, mix in zip(("one", "other"), MIXES):
        tally.judge("halves of this program's, %s: a kernel takes one alone" % mix, against_kernel(said[name], sums.values()))
    for whose, disks in (("a kernel's", after[:4]), ("this program's", own)):
        for name, (one, other) in MIXES.items():
            judge(tally, "halves of %s, %s" % (whose, name), lab, [disks[one], disks[other]])


def against_kernel(told, sums):
    if told.one("degraded") == "1" and told.one("sum") in sums:
        return []
    return ["degraded %r, sum %r" % (told.one("degraded"), told.one("sum"))]


def judge(tally, name, lab, contents):
    """Whether this program takes one of the two alone, and says of the other that it was used apart."""
    answer, _ = lab.answer(contents, ["detail", "--readonly"])
    reasons = [] if answer.status == 0 else ["its status is %d" % answer.status]
    lines = answer.output.decode().splitlines()
    states = [state for state in ("in sync", "stale") for line in lines if line.endswith(" " + state)]
    reasons += [] if states == ["in sync", "stale"] else ["the members are %r" % states]
    reasons += [] if "was used without" in answer.errors else ["nothing is told of the other half"]
    tally.judge(name, reasons)
