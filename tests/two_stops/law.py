"""What images may hold after two stops, by md_p.h and md-bitmap.h alone."""

import members
from members import SECTOR


class Law:
    """Members in sync differ only in chunks that each of them has marked, and have no sector but what a member in sync had before or what
    was written. So a member that was never rebuilt is not among them. What a recovering member has passed is as in these; so is all before its
    recovery_offset, in marked chunks too, for whoever asks no mark."""

    def __init__(self, contents, is_new, written):
        self.contents = contents
        self.is_new = is_new
        # By image and what was written to it. Many states differ in one image alone.
        self.read = {}
        self.allowed = self.first_allowed(written)

    def first_allowed(self, written):
        """By sector of the array what it may have."""
        if self.is_new:
            size = len(self.contents[0]) // SECTOR - 2048
            allowed = {at: {content[SECTOR * (2048 + at) :][:SECTOR] for content in self.contents} for at in range(size)}
        else:
            found = members.Found(self.contents)
            allowed = {
                at: {member.data(at, 1) for member in found.in_sync if not member.lists(at)} for at in range(found.freshest.size)
            }
        for first, data in written:
            for at in range(len(data) // SECTOR):
                allowed[first + at].add(data[SECTOR * at : SECTOR * (at + 1)])
        return allowed

    def content(self, index, stored):
        image = bytearray(self.contents[index])
        for sector, data in stored.items():
            image[SECTOR * sector : SECTOR * (sector + 1)] = data
        return bytes(image)

    def member(self, index, stored):
        key = (index, frozenset(stored.items()))
        if key not in self.read:
            self.read[key] = members.member_of(self.content(index, stored))
        return self.read[key]

    def against(self, stored):
        """The reasons against images of which this is on their disks."""
        try:
            found = members.Found([self.member(index, one) for index, one in enumerate(stored)])
        except members.Unreadable:
            return [] if self.is_new else ["no image can be read"]
        reasons = found.uncovered()
        for member in found.in_sync:
            wrong = [at for at in range(member.size) if not member.lists(at) and member.data(at, 1) not in self.allowed[at]]
            if wrong:
                reasons.append("member %d, in sync, has what it never had at sector %d" % (member.number, wrong[0]))
        if found.in_sync:
            reasons += self.against_recovering(found) + self.against_taken_late(found)
        return reasons

    @staticmethod
    def against_taken_late(found):
        """Kernels from before 2024 take a member that is one event behind at its own word, whatever the others say of it. While the others are
        written to without it they are one event ahead of it, until they are stopped."""
        reasons = []
        if found.freshest.superblock.resync_offset != members.CLEAN:
            return reasons
        for member in filter(None, found.members):
            own, newest = member.superblock, found.freshest.superblock
            if members.Found.role_by(member, member) >= newest.raid_disks or own.events + 1 < newest.events:
                continue
            said = own.recovery_offset if own.feature_map & members.RECOVERY_BIT else 0
            for one in found.in_sync:
                wrong = [at for at in members.differing(member, one) if at < said]
                if wrong:
                    reasons.append("member %d, for a kernel, differs at sector %d, before its recovery_offset" % (member.number, wrong[0]))
        return reasons

    @staticmethod
    def against_recovering(found):
        reasons = []
        source = found.in_sync[0]
        for place, member in enumerate(found.members):
            if found.states[place] != "recovering":
                continue
            lacks = found.lacks(place)
            wrong = [at for at in members.differing(member, source) if member.chunk_of(at) not in lacks]
            if wrong:
                reasons.append("member %d, recovering, differs at sector %d, which it has passed" % (member.number, wrong[0]))
            for one in found.in_sync:
                said = [at for at in members.differing(member, one) if at < member.superblock.recovery_offset]
                if said:
                    reasons.append("member %d, recovering, differs at sector %d, before its recovery_offset" % (member.number, said[0]))
        return reasons
