"""What mdadm and an independent script say of the images: their texts and facts.json, read into numbers and words."""

import calendar
import json
import lzma
import re
import time
import uuid


class Unreadable(Exception):
    """A text beside the images that is not as mdadm 4.2 writes it."""


class Member:
    """One image, with what others say of it."""

    def __init__(self, folder, index, facts):
        self.name = "%s member %d" % (folder.name, index)
        self.index = index
        self.facts = facts
        self.packed = folder / (facts["image"] + ".xz")
        stem = facts["image"][: -len(".img")]
        self.examine_text = (folder / (stem + ".examine.txt")).read_text()
        self.bitmap_text = (folder / (stem + ".examine-bitmap.txt")).read_text()
        self.badblocks_text = (folder / (stem + ".examine-badblocks.txt")).read_text()

    def unpack(self, path):
        try:
            path.write_bytes(lzma.decompress(self.packed.read_bytes()))
        except (lzma.LZMAError, EOFError) as error:
            raise Unreadable("%s: %s" % (self.packed.name, error))
        if path.stat().st_size != self.facts["bytes"]:
            raise Unreadable("%s: the image is not as long as facts.json says" % self.name)


class Found:
    """What a real kernel found when it assembled the images read-only."""

    def __init__(self, facts):
        found = facts["judge_readonly"]
        if found["assembled"] != "yes":
            raise Unreadable("the kernel did not assemble these images")
        self.events = int(found["array.events"])
        self.degraded = found["array.degraded"] != "0"
        self.raid_disks = int(found["array.raid_disks"])
        self.sectors = int(found["array.size_bytes"]) // 512
        self.uuid = hyphenated(found["array.uuid"])
        self.name = found["array.name"]
        self.disks = [self.disk(found, index) for index in range(len(facts["members"]))]

    @staticmethod
    def disk(found, index):
        """The slot of a member in sync, whether the kernel took the member in, and whether it read it last."""
        own = {key: value for key, value in ((k.partition("disk.%d." % index)[2], v) for k, v in found.items()) if key}
        taken = own["in_array"] == "yes"
        state = own["state_now"].split(",") if taken else []
        return Disk(taken, int(own["slot"]) if "in_sync" in state else None, "write_mostly" in state)


class Disk:
    """One member, as the kernel found it."""

    def __init__(self, taken, slot, write_mostly):
        self.taken = taken
        self.slot = slot
        self.write_mostly = write_mostly


class Array:
    """The members of one folder, in the order of their numbers."""

    def __init__(self, folder):
        self.name = folder.name
        self.facts = json.loads((folder / "facts.json").read_text())
        self.members = [Member(folder, index, facts) for index, facts in enumerate(self.facts["members"])]
        named = {member.packed.name for member in self.members}
        there = {path.name for path in folder.glob("*.img.xz")}
        if named != there:
            raise Unreadable("%s: facts.json does not name the images that are there" % folder.name)


def labelled(text):
    """mdadm's lines `label : value`, by label."""
    found = {}
    for line in text.splitlines():
        label, colon, value = line.partition(" : ")
        if colon:
            found[label.strip()] = value.strip()
    return found


def numbers(pattern, text):
    """The numbers of a text that has to begin with the pattern."""
    match = re.match(pattern, text)
    if not match:
        raise Unreadable("%r does not begin with %r" % (text, pattern))
    return [int(group) for group in match.groups()]


def number(pattern, text):
    return numbers(pattern, text)[0]


def seconds(text):
    """Seconds since 1970 of a date that mdadm wrote where the local time was UTC."""
    return calendar.timegm(time.strptime(text, "%a %b %d %H:%M:%S %Y"))


def hyphenated(text):
    """A UUID of 32 hexadecimal digits, parted in any way."""
    return str(uuid.UUID(hex=text.replace(":", "")))


def correct_checksum(text):
    """mdadm writes no leading zeros."""
    digits, _, verdict = text.partition(" - ")
    if verdict != "correct":
        raise Unreadable("mdadm does not call the checksum correct: %r" % text)
    return int(digits, 16)


def array_name(text):
    """mdadm adds a remark where the name is of the host that it runs on."""
    return re.sub(r"\s+\(local to host .*\)$", "", text)


def listed_sectors(text):
    """The entries of a bad block log in mdadm's order, as pairs of first sector and length."""
    lines = text.splitlines()
    if len(lines) == 1 and lines[0].startswith("Bad-blocks list is empty in "):
        return []
    if not lines or not lines[0].startswith("Bad-blocks on "):
        raise Unreadable("%r is no list of bad blocks" % text)
    return [tuple(numbers(r" *(\d+) for (\d+) sectors$", line)) for line in lines[1:]]
