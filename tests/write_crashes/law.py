"""What images may hold once a command was killed within a write, or a write of it failed."""

import members
from members import SECTOR

# What a write to the array may change of a superblock, beside the roles; and where a member joins, how many roles there are.
CHANGING = ("events", "resync_offset", "sb_csum")
CHANGING_AT_JOINING = ("max_dev",)
# The superblock, the bitmap and the log of a new member stand in these sectors.
NEW_FIRST, NEW_END = 8, 2040


class Before:
    """The images as they were, and what a command may make of them: each sector of a member in sync stays, takes the
    bytes that are written, or, in a marked chunk, those of another member in sync."""

    def __init__(self, contents, first=0, new=b"", joins=None):
        self.contents = contents
        # The number of the image that joins. What it held is lost, and its data are not the array's.
        self.joins = joins
        self.found = members.Found(contents)
        self.first = first
        self.new = new
        self.old = self.found.content()

    def is_written(self, sector):
        return self.first <= sector < self.first + len(self.new) // SECTOR

    def new_at(self, sector):
        at = SECTOR * (sector - self.first)
        return self.new[at : at + SECTOR]

    def allowed(self, member, sector):
        """What a member in sync may have at a sector."""
        found = [member.data(sector, 1)]
        if member.chunk_of(sector) in self.found.marks:
            found += [other.data(sector, 1) for other in self.found.in_sync]
        if self.is_written(sector):
            found.append(self.new_at(sector))
        return found

    def expected(self, sector, answered):
        """What the array may have at a sector afterwards: where the write was answered, the new bytes alone."""
        if self.is_written(sector) and answered:
            return [self.new_at(sector)]
        return [content for member in self.found.in_sync for content in self.allowed(member, sector)]


def span_of(call):
    """The bytes of an image in which a failed write may leave anything."""
    return range(call.place, call.place + call.size) if call else range(0)


def against_joining(before, after):
    """The reasons against the image that joins: but for where a new member is laid out it is as it was."""
    old = before.contents[before.joins]
    first, end = SECTOR * NEW_FIRST, SECTOR * NEW_END
    if len(after) == len(old) and after[:first] == old[:first] and after[end:] == old[end:]:
        return []
    return ["image %d, which joins, was changed elsewhere" % before.joins]


def against_image(before, index, after, junk=range(0)):
    """The reasons against one image: what may not change, apart from `junk`, is as it was."""
    if index == before.joins:
        return against_joining(before, after)
    old = before.found.members[index]
    if after == old.content:
        return []
    if old not in before.found.in_sync and before.found.states[index] not in ("recovering", "spare"):
        return ["image %d, which is %s, was changed" % (index, before.found.states[index])]
    reasons = []
    if len(after) != len(old.content):
        reasons.append("image %d has another length" % index)
    data_at = SECTOR * old.superblock.data_offset
    for at in range(0, len(after), SECTOR):
        new = after[at : at + SECTOR]
        if new == old.content[at : at + SECTOR] or at in junk:
            continue
        if any(first <= at < end for first, end in old.metadata()):
            continue
        sector = (at - data_at) // SECTOR
        if at >= data_at and sector < old.size and old in before.found.in_sync and new in before.allowed(old, sector):
            continue
        reasons.append("image %d was changed at sector %d of the device" % (index, at // SECTOR))
        break
    changing = CHANGING if before.joins is None else CHANGING + CHANGING_AT_JOINING
    return reasons + against_metadata(index, old, after, junk, changing)


def against_metadata(index, old, after, junk, changing):
    """The reasons against the superblock and the bitmap's header: only counts, state and roles may change."""
    if junk and junk[0] < SECTOR * old.superblock.data_offset:
        return []
    try:
        new = members.Member(after)
    except members.Unreadable as error:
        return ["image %d: %s" % (index, error)]
    reasons = []
    for name in members.Superblock._fields:
        if name not in changing and getattr(new.superblock, name) != getattr(old.superblock, name):
            reasons.append("image %d: %s of its superblock was changed" % (index, name))
    for number, (role, was) in enumerate(zip(new.roles, old.roles)):
        if role not in (was, members.FAULTY_ROLE):
            reasons.append("image %d: the role of number %d became %d" % (index, number, role))
    if new.superblock.events < old.superblock.events:
        reasons.append("image %d: its event count fell" % index)
    same = {"events": 0, "events_cleared": 0}
    if new.header._replace(**same) != old.header._replace(**same):
        reasons.append("image %d: the bitmap's header was changed" % index)
    return reasons


def against_content(before, contents, answered):
    """The reasons against what the images hold once they were resynced: members in sync agree, and have no sector but
    what they may have."""
    found = members.Found(contents)
    reasons = []
    first = found.in_sync[0]
    for other in found.in_sync[1:]:
        if any(members.differing(first, other)):
            reasons.append("members %d and %d differ after the resync" % (first.number, other.number))
    if found.marks and not found.is_degraded:
        reasons.append("chunks are marked after the resync: %r" % sorted(found.marks))
    for sector in range(first.size):
        if first.data(sector, 1) not in before.expected(sector, answered):
            reasons.append("after the resync sector %d is neither as it was nor as written" % sector)
            break
    return reasons
