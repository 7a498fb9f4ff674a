"""A rebuild of three stretches, of 16 rounds of 16 MiB each but the last, that is killed in each of them, and where it records how
far each came. What stands on the member then is read by md_p.h alone: its offset is that of the last stretch that was recorded. Run
again, the rebuild says from which chunk it goes on, copies what comes after that, and no chunk before it, and the member equals the
array. `detail` says how far it is."""

import json
import struct

import members
from scratch import KILLED, Scratch

CHUNK = 16 * 2**20
CHUNKS = 40
STRETCH = 16
# The chunk of which the source lacks a sector.
GAP = 3
DATA = 2048 * members.SECTOR
# Of superblock 1.2 in md_p.h: recovery_offset, 8 bytes.
SUPER_AT = members.SECTOR * members.SUPER_SECTOR
OFFSET_AT = SUPER_AT + 152


def marked(chunk, salt):
    """What the first sector of a chunk holds."""
    return struct.pack("<QQ", chunk, salt) * (members.SECTOR // 16)


def made(path, salt):
    """An image of which each chunk has a sector that is not zero."""
    with open(path, "wb") as image:
        image.truncate(DATA + CHUNKS * CHUNK)
        for chunk in range(CHUNKS):
            image.seek(DATA + chunk * CHUNK)
            image.write(marked(chunk, salt))


class Life:
    """A member with all of the data, and a spare."""

    def __init__(self, folder, library):
        self.scratch = Scratch(folder, library)

    def begin(self):
        made(self.scratch.path(0), 1)
        made(self.scratch.path(1), 2)
        self.make("create", "--level", "raid1", "--raid-devices", 2, "--bitmap-chunk", CHUNK // 1024, "--assume-clean", images=[0, "missing"])
        self.make("add", "--device", self.scratch.path(1), images=[0])

    def make(self, *words, images):
        answer = self.scratch.run(words, images)
        if answer.status != 0:
            raise ValueError("%s: %s" % (words[0], answer.errors))

    def rebuild(self, **settings):
        return self.scratch.run(["rebuild", "--verbose", "--member", 1], [0, 1], **settings)

    def against_far(self, chunks):
        """The reasons against what `detail` says of the new member, which has these first chunks alone."""
        answer = self.scratch.run(["detail", "--verbose"], [0, 1])
        line = "Recovering      : member 1 has %d of %d chunks (%d %%), all before sector %d but 0 marked"
        wanted = line % (chunks, CHUNKS, 100 * chunks // CHUNKS, chunks * CHUNK // members.SECTOR)
        reasons = [] if wanted in answer.output.decode().splitlines() else ["of %d chunks it says %r" % (chunks, answer.output)]
        answer = self.scratch.run(["detail", "--json"], [0, 1])
        wanted = {"index": 1, "recovery_offset": chunks * CHUNK // members.SECTOR, "missing_chunks": CHUNKS - chunks, "marked_before": 0}
        if json.loads(answer.output)["recovering"] != [wanted]:
            reasons.append("of %d chunks it says %r" % (chunks, answer.output))
        return reasons

    def chunks_passed(self):
        """How many chunks lie before the offset that the new member says."""
        with open(self.scratch.path(1), "rb") as image:
            image.seek(OFFSET_AT)
            return struct.unpack("<Q", image.read(8))[0] * members.SECTOR // CHUNK

    def against_data(self, chunks=range(CHUNKS)):
        with open(self.scratch.path(1), "rb") as image:
            for chunk in chunks:
                image.seek(DATA + chunk * CHUNK)
                if image.read(members.SECTOR) != marked(chunk, 1):
                    return ["the new member lacks chunk %d" % chunk]
        return []


def data_chunks(answer):
    """The chunks of the new member that it wrote to, in order."""
    return [(call.place - DATA) // CHUNK for call in answer.writes if call.kind == "write" and call.image.endswith("/1.img") and call.place >= DATA]


def checkpoints(answer):
    """The numbers of the writes of the new member's superblock that come after a write of its data and before its bitmap."""
    numbers, filled = [], False
    for number, call in enumerate(answer.writes, 1):
        if call.kind == "write" and call.image.endswith("/1.img"):
            if call.place >= DATA:
                filled = True
            elif call.place == SUPER_AT and filled:
                numbers.append(number)
                filled = False
    return numbers


def going_on(first):
    """What a rebuild says before it copies that begins with this chunk: nothing where it begins anew."""
    if first == 0:
        return ""
    return "mdcli: the rebuild of member 1 goes on from chunk %d, chunks missing: %d of %d\n" % (first, CHUNKS - first, CHUNKS)


def killed_at(life, number):
    """The reasons against a rebuild that is killed at this call."""
    life.begin()
    before = life.rebuild(STOPPED_CALL=str(number), STOPPED_HOW="before")
    if before.status != KILLED:
        return ["the process ended with status %d" % before.status]
    if before.errors:
        return ["before it was killed it said %r" % before.errors]
    copied = len(set(data_chunks(before)))
    # The call at which it is killed is seen, and not made.
    recorded = STRETCH * sum(made_at < number for made_at in checkpoints(before))
    passed = life.chunks_passed()
    reasons = [] if passed == recorded else ["the member says that it has %d chunks, and %d were recorded" % (passed, recorded)]
    reasons += life.against_far(recorded)
    again = life.rebuild()
    if again.errors != going_on(recorded):
        reasons.append("run again it says %r" % again.errors)
    if again.status != 0 or not again.output.endswith(b"rebuilt member 1, passes 1, orphans 0\n"):
        reasons.append("run again it answers %r, %r" % (again.output[-80:], again.errors))
    if set(data_chunks(again)) != set(range(recorded, CHUNKS)):
        reasons.append("run again it copies %d chunks, and %d are left" % (len(set(data_chunks(again))), CHUNKS - recorded))
    if copied - recorded > STRETCH:
        reasons.append("%d chunks were copied after the last stretch that was recorded" % (copied - recorded))
    return reasons + life.against_data()


def killed_past_gap(life, number):
    """The reasons against a rebuild of which the source lacks a sector of an early chunk, and that is killed at this call, long
    after that: all before the gap counts, and no more."""
    life.begin()
    gap = DATA + GAP * CHUNK
    size = life.scratch.path(0).stat().st_size
    blocks = [(0, gap, "+"), (gap, members.SECTOR, "-"), (gap + members.SECTOR, size - gap - members.SECTOR, "+")]
    lost = life.scratch.path(0).with_name("lost.map")
    lost.write_text("0 + 1\n" + "".join("%d %d %s\n" % block for block in blocks))
    masked = ["rebuild", "--verbose", "--member", 1, "--map", "%s=%s" % (life.scratch.path(0), lost)]
    before = life.scratch.run(masked, [0, 1], STOPPED_CALL=str(number), STOPPED_HOW="before")
    reasons = [] if before.status == KILLED else ["the process ended with status %d" % before.status]
    if len(set(data_chunks(before))) <= STRETCH:
        reasons.append("it was killed before a second stretch")
    if life.chunks_passed() != GAP:
        reasons.append("the member says that it has %d chunks" % life.chunks_passed())
    again = life.scratch.run(masked, [0, 1])
    if not again.errors.startswith(going_on(GAP)):
        reasons.append("run again it says %r" % again.errors)
    if again.status != 0 or not again.output.endswith(b"rebuilt member 1, passes 2, orphans 1\n"):
        reasons.append("run again it answers %r, %r" % (again.output[-80:], again.errors))
    if set(data_chunks(again)) != set(range(GAP + 1, CHUNKS)):
        reasons.append("run again it copies %d chunks" % len(set(data_chunks(again))))
    return reasons + life.against_data([chunk for chunk in range(CHUNKS) if chunk != GAP])


def judge(tally, folder, library):
    life = Life(folder, library)
    life.begin()
    whole = life.rebuild()
    ends = checkpoints(whole)
    reasons = life.against_data() if whole.status == 0 else ["it answers %r" % whole.errors]
    if len(ends) != 3:
        reasons.append("it records %d times how far it came" % len(ends))
    tally.judge("rebuild, three stretches", reasons)
    if reasons:
        return
    stops = [("the first", 6), ("its record", ends[0]), ("the second", ends[0] + 9), ("its record", ends[1]), ("the last", ends[1] + 5), ("its record", ends[2])]
    for name, number in stops:
        tally.judge("rebuild, killed in %s, call %d" % (name, number), killed_at(life, number))
    number = ends[1] + 5
    tally.judge("rebuild past a gap, killed in the last, call %d" % number, killed_past_gap(life, number))
