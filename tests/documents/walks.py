#!/usr/bin/env python3
"""Walks through the program, from `main` to a write on a device: each function of a walk calls the next one, as the sources say, and
docs/ARCHITECTURE.md says how many there are.

    tests/documents/walks.py    prints each walk, a function in a line

A walk is the way on which most of a command's writes are made. A function that comes between two of them, or one that is gone, is
found as a call that does not stand there."""

import re
import sys
from pathlib import Path

CRATES = Path(__file__).resolve().parent.parent.parent / "crates"
PAGE = CRATES.parent / "docs" / "ARCHITECTURE.md"

# From the words to an opened array.
OPENING = """
mdcli/main.rt: main
md_cli/running.rt: run
md_cli/open/arrays.rt: with_array
md_cli/open/devices.rt: change_devices open_devices
md_cli/lists/performing_and_storing.rt: perform_and_store store_and_perform
md_cli/performing.rt: perform
"""
WALKS = {
    "write": OPENING + """
md_commands/writing.rt: write_array
md_commands/writing_pieces.rt: write_in_pieces
md_write/whole_write.rt: write write_once
md_write/data.rt: write_to_members
md_array/steps/write_member.rt: write_member
md_state/data_area.rt: put_on
md_members/device_writes/one_write.rt: put
md_device/device.rt: write
""",
    "stop": OPENING + """
md_commands/stopping.rt: stop_array
md_metadata/whole_stop.rt: stop
md_metadata/records.rt: store_records
md_array/steps/record.rt: record
md_kept_members/on_devices/superblock.rt: store_superblock
md_device/device.rt: write
""",
}

HEAD = re.compile(r"^( *)(?:pub(?:\(crate\))? )?fn (\w+)", re.M)


def steps_of(walk):
    """Each function of a walk, with its file."""
    steps = []
    for line in walk.split("\n"):
        place, _, names = line.partition(": ")
        steps += [(place, name) for name in names.split()]
    return steps


def source(place):
    crate, _, rest = place.partition("/")
    return CRATES / crate / "src" / rest


def body_of(place, name):
    """The text of a function, or None: of several of one name in a file, of all of them."""
    text = re.sub(r"//.*", "", source(place).read_text())
    bodies = []
    for head in HEAD.finditer(text):
        if head.group(2) == name:
            end = re.compile(r"^%s\}" % head.group(1), re.M).search(text, head.end())
            bodies.append(text[head.end() : end.end() if end else len(text)])
    return "\n".join(bodies) or None


def reasons_against(walk):
    steps = steps_of(walk)
    reasons = ["%s has no function %s" % step for step in steps if body_of(*step) is None]
    if reasons:
        return reasons
    calls = zip(steps, steps[1:])
    return [
        "%s in %s does not call %s" % (name, place, called)
        for (place, name), (_, called) in calls
        if not re.search(r"\b%s(?:::<[^(]*>)?\(" % called, body_of(place, name))
    ]


def sentence():
    counts = {command: len(steps_of(walk)) for command, walk in WALKS.items()}
    return "From `main` to `Device::write` stand %(write)d functions in a walk of `write`, %(stop)d in one of `stop`" % counts


def judge(tally):
    for command, walk in WALKS.items():
        tally.judge("the walk of %s, from main to a write" % command, reasons_against(walk))
    said = sentence()
    tally.judge("docs/ARCHITECTURE.md: how long walks are", [] if said in PAGE.read_text() else ["it does not say `%s'" % said])


def main():
    for command, walk in WALKS.items():
        steps = steps_of(walk)
        print("%s: %d" % (command, len(steps)))
        for place, name in steps:
            print("    %s in %s" % (name, place))
        for reason in reasons_against(walk):
            print("    FAILED %s" % reason)


if __name__ == "__main__":
    sys.exit(main())
