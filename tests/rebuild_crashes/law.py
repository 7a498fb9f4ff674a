"""What images may hold once a rebuild was stopped, or one of its calls failed. `failing` has, by the index of an image, the chunks
that can't be read there."""

import members
from members import SECTOR


def spans_of_target(case):
    """The bytes of the target that a rebuild may change: superblock, bitmap, log, and its data in the chunks that it lacks."""
    target = members.Member(case.contents[case.target])
    sb = target.superblock
    spans = target.metadata() + [log_of(target)]
    for chunk in case.lacks:
        first = sb.data_offset + chunk * target.chunk_sectors
        end = min(first + target.chunk_sectors, sb.data_offset + sb.size)
        spans.append((SECTOR * first, SECTOR * end))
    return spans


def log_of(member):
    first = members.SUPER_SECTOR + member.superblock.bblog_offset
    return SECTOR * first, SECTOR * (first + member.superblock.bblog_size)


def spans_of_other(case, index, failing):
    """Those of another member: superblock and bitmap, its log where it can't be read, and where a resync comes first its marked
    chunks."""
    member = members.Member(case.contents[index])
    spans = member.metadata() + ([log_of(member)] if failing.get(index) else [])
    if case.resyncs_first:
        first = SECTOR * member.superblock.data_offset
        size = SECTOR * member.chunk_sectors
        spans = spans + [(first + chunk * size, first + (chunk + 1) * size) for chunk in case.before.marks]
    return spans


def against_image(case, index, after, junk=range(0), failing={}):
    """The reasons against one image: what a rebuild may not change is as it was, apart from `junk`."""
    old = case.contents[index]
    if len(after) != len(old):
        return ["image %d has another length" % index]
    spans = spans_of_target(case) if index == case.target else spans_of_other(case, index, failing)
    for at in range(0, len(after), SECTOR):
        if after[at : at + SECTOR] == old[at : at + SECTOR] or at in junk:
            continue
        if not any(first <= at < end for first, end in spans):
            return ["image %d was changed at sector %d of the device" % (index, at // SECTOR)]
    return []


def against_lists(case, found, failing):
    """The reasons against the lists of the other members: each is what it was, or has grown by chunks that can't be read there."""
    reasons = []
    for index in case.others:
        member, before = found.members[index], members.Member(case.contents[index])
        if member is None:
            continue
        chunks = {member.chunk_of(sector - member.superblock.data_offset) for sector in member.bad - before.bad}
        if before.bad - member.bad or chunks - failing.get(index, set()):
            reasons.append("number %d lists %r, and %r before" % (member.number, sorted(member.bad), sorted(before.bad)))
    return reasons


def against_members(case, found, failing={}):
    """The reasons against the members in sync: each holds the array's content in each sector that it does not list, in chunks
    that are not marked; and two of them differ only where each has marked the chunk."""
    reasons = found.uncovered() + against_lists(case, found, failing)
    for member in found.in_sync:
        for sector in range(member.size):
            if member.lists(sector) or (case.resyncs_first and member.chunk_of(sector) in found.marks):
                continue
            if member.data(sector, 1) not in case.allowed(sector):
                reasons.append("number %d, in sync, has something else at sector %d" % (member.number, sector))
                break
    return reasons


def orphans_of(case, found):
    """The chunks that no other member can give, by the lists as they are then: each lists a sector of them."""
    others = [found.members[index] for index in case.others if found.states[index] == "in sync"]
    target = found.members[case.target]
    given = set()
    for member in others:
        listed = {member.chunk_of(sector) for sector in range(member.size) if member.lists(sector)}
        given |= set(range(target.chunks)) - listed
    return set(range(target.chunks)) - given


def against_rebuilt(case, contents, failing={}):
    """The reasons against the images once the member is rebuilt: it is in sync, it lists exactly the chunks of which some sector
    is on no other member, and the array has no mark, unless it is degraded."""
    found = members.Found(contents)
    reasons = against_members(case, found, failing)
    target = found.members[case.target]
    if found.states[case.target] != "in sync":
        return reasons + ["the member is %s" % found.states[case.target]]
    offset, chunk = target.superblock.data_offset, target.chunk_sectors
    orphans = orphans_of(case, found)
    listed = {offset + sector for sector in range(target.size) if target.chunk_of(sector) in orphans}
    if target.bad != listed:
        reasons.append("it lists %r, and not %r" % (sorted(target.bad), sorted(listed)))
    if found.marks and not found.is_degraded:
        reasons.append("chunks of %d sectors are marked: %r" % (chunk, sorted(found.marks)))
    return reasons
