"""Member images read by md_p.h and md-bitmap.h alone: the superblock, the write-intent bitmap, the bad block log, the data;
and which members are in sync, by the freshest superblock. None of it comes from the program."""

import collections
import struct

SECTOR = 512
SUPER_SECTOR = 8
SUPER_SECTORS = 8
CLEAN = 2**64 - 1
FAULTY_ROLE = 0xFFFE
MOST_ROLES = 1920
BITMAP_BIT, RECOVERY_BIT, BAD_BLOCKS_BIT = 1, 2, 8

# struct mdp_superblock_1, whose roles follow.
SUPER_FORM = struct.Struct("<4I16s32sQ2IQ2IiIQ4I4Q2I16s2BHi3Q2I32s")
Superblock = collections.namedtuple(
    "Superblock",
    "magic major_version feature_map pad0 set_uuid set_name ctime level layout size chunksize raid_disks bitmap_offset"
    " new_level reshape_position delta_disks new_layout new_chunk new_offset data_offset data_size super_offset"
    " recovery_offset dev_number cnt_corrected_read device_uuid devflags bblog_shift bblog_size bblog_offset utime events"
    " resync_offset sb_csum max_dev pad3",
)
CHECKSUM_AT = 216

# struct bitmap_super_s.
HEADER_FORM = struct.Struct("<2I16s3Q6I64s")
HEADER_BYTES = 256
Header = collections.namedtuple(
    "Header",
    "magic version uuid events events_cleared sync_size state chunksize daemon_sleep write_behind sectors_reserved nodes"
    " cluster_name",
)


class Unreadable(Exception):
    """An image without a superblock or a bitmap that stands."""


def checksum(block):
    """calc_sb_1_csum: the words without the checksum's own, the half word that may be left over, the sum folded once."""
    (max_dev,) = struct.unpack_from("<I", block, CHECKSUM_AT + 4)
    summed = bytearray(block[: SUPER_FORM.size + 2 * max_dev])
    summed[CHECKSUM_AT : CHECKSUM_AT + 4] = bytes(4)
    total = sum(struct.unpack_from("<%dI" % (len(summed) // 4), summed))
    if len(summed) % 4:
        total += struct.unpack_from("<H", summed, len(summed) - 2)[0]
    return ((total & 0xFFFFFFFF) + (total >> 32)) & 0xFFFFFFFF


class Member:
    """One image, by its bytes."""

    def __init__(self, content):
        self.content = bytes(content)
        block = self.sectors(SUPER_SECTOR, SUPER_SECTORS)
        if len(block) < SUPER_SECTORS * SECTOR:
            raise Unreadable("the image is too short")
        self.superblock = sb = Superblock(*SUPER_FORM.unpack_from(block))
        if (sb.magic, sb.major_version) != (0xA92B4EFC, 1) or sb.max_dev > MOST_ROLES:
            raise Unreadable("no superblock")
        if sb.sb_csum != checksum(block):
            raise Unreadable("the superblock's checksum is wrong")
        self.roles = list(struct.unpack_from("<%dH" % sb.max_dev, block, SUPER_FORM.size))
        self.read_bitmap()
        self.bad = self.read_bad_blocks()

    def sectors(self, first, count):
        return self.content[first * SECTOR : (first + count) * SECTOR]

    def read_bitmap(self):
        sb = self.superblock
        if not sb.feature_map & BITMAP_BIT:
            raise Unreadable("no bitmap")
        self.bitmap_sector = SUPER_SECTOR + sb.bitmap_offset
        self.header = header = Header(*HEADER_FORM.unpack_from(self.sectors(self.bitmap_sector, 1)))
        if (header.magic, header.version) != (0x6D746962, 4):
            raise Unreadable("no bitmap's header")
        self.chunk_sectors = header.chunksize // SECTOR
        self.chunks = -(-sb.size // self.chunk_sectors)
        self.bitmap_sectors = -(-(HEADER_BYTES + -(-self.chunks // 8)) // SECTOR)
        bits = self.sectors(self.bitmap_sector, self.bitmap_sectors)[HEADER_BYTES:]
        self.bits = {chunk for chunk in range(self.chunks) if bits[chunk // 8] >> chunk % 8 & 1}
        self.is_accepted = (
            header.uuid == sb.set_uuid
            and header.sync_size == sb.size
            and header.state == 0
            and header.events in (sb.events, sb.events + 1)
        )
        # A bitmap that does not tell of the array marks all chunks.
        self.marks = self.bits if self.is_accepted else set(range(self.chunks))

    def read_bad_blocks(self):
        """The sectors of the device that the log lists."""
        sb = self.superblock
        if not sb.feature_map & BAD_BLOCKS_BIT or not sb.bblog_size or not sb.bblog_offset:
            return set()
        listed = set()
        for (entry,) in struct.iter_unpack("<Q", self.sectors(SUPER_SECTOR + sb.bblog_offset, sb.bblog_size)):
            if entry == CLEAN:
                break
            first = entry >> 10 << sb.bblog_shift
            listed.update(range(first, first + ((entry & 1023) << sb.bblog_shift)))
        return listed

    @property
    def size(self):
        return self.superblock.size

    @property
    def number(self):
        return self.superblock.dev_number

    @property
    def is_clean(self):
        return self.superblock.resync_offset == CLEAN

    def chunk_of(self, sector):
        return sector // self.chunk_sectors

    def data(self, first=0, count=None):
        """The bytes of sectors of the array, as this member has them."""
        return self.sectors(self.superblock.data_offset + first, self.size - first if count is None else count)

    def lists(self, sector):
        """Whether the member lists a sector of the array as bad."""
        return self.superblock.data_offset + sector in self.bad

    def metadata(self):
        """The spans of bytes in which a write to the array may change anything but its data: superblock and bitmap."""
        spans = ((SUPER_SECTOR, SUPER_SECTORS), (self.bitmap_sector, self.bitmap_sectors))
        return [(SECTOR * first, SECTOR * (first + count)) for first, count in spans]


def member_of(content):
    """The member in an image, None where it can't be read."""
    try:
        return Member(content)
    except Unreadable:
        return None


class Found:
    """The array that images make: which superblock is the freshest, and what each member is by it. An image that can't be
    read is left out. One that was read already is given as its member, or None."""

    def __init__(self, contents):
        self.members = [one if one is None or isinstance(one, Member) else member_of(one) for one in contents]
        readable = [member for member in self.members if member]
        if not readable:
            raise Unreadable("no image can be read")
        self.events = max(member.superblock.events for member in readable)
        newest = [member for member in readable if member.superblock.events == self.events]
        self.freshest = next((member for member in newest if not self.is_disputed(member, newest, readable)), newest[0])
        self.states = [self.state(member) if member else "unreadable" for member in self.members]
        self.in_sync = [member for member, state in zip(self.members, self.states) if state == "in sync"]
        # The roles of members in sync differ and are below raid_disks.
        self.is_degraded = len(self.in_sync) < self.freshest.superblock.raid_disks
        self.marks = set().union(*(member.marks for member in self.in_sync))

    def role(self, member):
        return self.role_by(self.freshest, member)

    @staticmethod
    def role_by(teller, member):
        """The role of a member by the superblock of this one."""
        return teller.roles[member.number] if member.number < len(teller.roles) else 0xFFFF

    def is_disputed(self, teller, newest, readable):
        """Whether a member that is in sync by this superblock, and has one as new, gives a member another role than it does."""
        active = [member for member in readable if self.state_by(teller, member) in ("in sync", "recovering")]
        objectors = [member for member in newest if self.state_by(teller, member) == "in sync"]
        return any(self.role_by(one, member) != self.role_by(teller, member) for one in objectors for member in active)

    def state(self, member):
        return self.state_by(self.freshest, member)

    def state_by(self, teller, member):
        role = self.role_by(teller, member)
        if role == FAULTY_ROLE:
            return "faulty"
        if role >= teller.superblock.raid_disks:
            return "spare"
        if member.superblock.events + 1 < self.events or self.role_by(member, member) != role:
            return "stale"
        return "recovering" if member.superblock.feature_map & RECOVERY_BIT else "in sync"

    def unnamed(self):
        """What is noticed of devices that have a role by the freshest superblock and are none of these images: of the first in each role."""
        numbers = {member.number for member in self.members if member}
        lines = []
        for role in range(self.freshest.superblock.raid_disks):
            missing = [number for number, own in enumerate(self.freshest.roles) if own == role and number not in numbers]
            lines += ["mdcli: device %d in role %d is not among the images\n" % (number, role) for number in missing[:1]]
        return "".join(lines)

    def lacks(self, place):
        """The chunks that the member at this place lacks: a recovering one those that are marked, and those that its offset has not
        passed; one in sync none, and any other each. An offset from before marks were last cleared tells nothing."""
        member, state = self.members[place], self.states[place]
        if state == "in sync":
            return set()
        chunks = set(range(self.in_sync[0].chunks))
        cleared = max((other.header.events_cleared for other in self.in_sync if other.is_accepted), default=self.events)
        if state != "recovering" or member.superblock.events < cleared:
            return chunks
        width = self.in_sync[0].chunk_sectors
        offset = min(member.superblock.recovery_offset, member.size)
        return {chunk for chunk in chunks if chunk in self.marks or min((chunk + 1) * width, member.size) > offset}

    def summary(self):
        words = (len(self.in_sync), self.freshest.superblock.raid_disks, self.events, len(self.marks))
        return "in sync %d of %d, events %d, marked %d\n" % words

    def in_role_order(self):
        return sorted(self.in_sync, key=self.role)

    def content(self):
        """The content of the array as a read gives it, sector by sector: None where no member in sync has it."""
        ordered = self.in_role_order()
        return [
            next((member.data(sector, 1) for member in ordered if not member.lists(sector)), None)
            for sector in range(self.freshest.size)
        ]

    def uncovered(self):
        """The reasons against the law of write intent: two members in sync differ on a sector that neither lists only
        where each member in sync has marked its chunk."""
        reasons = []
        for place, one in enumerate(self.in_sync):
            for other in self.in_sync[place + 1 :]:
                for sector in differing(one, other):
                    chunk = one.chunk_of(sector)
                    lacking = [member.number for member in self.in_sync if chunk not in member.marks]
                    if lacking:
                        text = "members %d and %d differ on sector %d, and chunk %d is not marked on %s"
                        reasons.append(text % (one.number, other.number, sector, chunk, lacking))
                        break
        return reasons


def differing(one, other):
    """The sectors of the array on which two members differ, and which neither lists."""
    if one.data() == other.data():
        return
    for sector in range(one.size):
        if one.data(sector, 1) != other.data(sector, 1) and not one.lists(sector) and not other.lists(sector):
            yield sector


def with_superblock(content, roles=None, **fields):
    """The image with other fields of its superblock, and the right checksum."""
    image = bytearray(content)
    at = SUPER_SECTOR * SECTOR
    SUPER_FORM.pack_into(image, at, *Superblock(*SUPER_FORM.unpack_from(image, at))._replace(**fields))
    for number, role in (roles or {}).items():
        struct.pack_into("<H", image, at + SUPER_FORM.size + 2 * number, role)
    struct.pack_into("<I", image, at + CHECKSUM_AT, checksum(image[at : at + SUPER_SECTORS * SECTOR]))
    return bytes(image)


def with_header(content, **fields):
    """The image with other fields of its bitmap's header."""
    image = bytearray(content)
    at = SECTOR * Member(content).bitmap_sector
    HEADER_FORM.pack_into(image, at, *Header(*HEADER_FORM.unpack_from(image, at))._replace(**fields))
    return bytes(image)


def with_bad_blocks(content, runs):
    """The image with a log of these runs of sectors of the device, each a first sector and a length."""
    member = Member(content)
    sb = member.superblock
    log = b"".join(struct.pack("<Q", first << 10 | length) for first, length in runs)
    image = bytearray(with_superblock(content, feature_map=sb.feature_map | BAD_BLOCKS_BIT))
    at = SECTOR * (SUPER_SECTOR + sb.bblog_offset)
    image[at : at + SECTOR * sb.bblog_size] = log.ljust(SECTOR * sb.bblog_size, b"\xff")
    return bytes(image)


def with_data(content, first, new):
    """The image with other bytes from a sector of the array on."""
    image = bytearray(content)
    at = SECTOR * (Member(content).superblock.data_offset + first)
    image[at : at + len(new)] = new
    return bytes(image)


def with_marks(content, chunks):
    """The image with these chunks marked too."""
    for chunk in chunks:
        if chunk not in Member(content).bits:
            content = with_other_mark(content, chunk)
    return content


def with_other_mark(content, chunk):
    """The image with a chunk marked that was not, or the other way round."""
    image = bytearray(content)
    image[SECTOR * Member(content).bitmap_sector + HEADER_BYTES + chunk // 8] ^= 1 << chunk % 8
    return bytes(image)


def pattern(seed, sectors):
    """Sectors of bytes that no two seeds share."""
    return b"".join(struct.pack("<2Q", seed, sector) * (SECTOR // 16) for sector in range(sectors))
