"""The commands on small images: what each has to answer, and which images it changes.

A case is a name, its images by their names, and its steps in turn. A step's words are those after `mdcli`.
"""

import copy
import struct
import uuid
from pathlib import Path

import members
from objects import HasValues, SaysTheSame

TOP = Path(__file__).resolve().parent.parent.parent
SECTOR = 512
SUPER = 8 * SECTOR
BITMAP = 16 * SECTOR
LOG = 2032 * SECTOR
SET = "00112233-4455-6677-8899-aabbccddeeff"
# The example member, and what `examine` has to say of it.
VAULT = (TOP / "examples" / "vault.img").read_bytes()
REPORT = (TOP / "examples" / "vault.examine.txt").read_text()
# What `scan` has to say of it, and of an array whose other member is not named.
SCANNED = (
    "ARRAY /dev/md/vault level=raid1 metadata=1.2 num-devices=2 UUID=00112233:44556677:8899aabb:ccddeeff name=vault\n"
    "   devices=a\n# device 0: a, in sync, events 10\n# device 1: missing\n"
)
ZEROS = bytes(2112 * SECTOR)
# An NBD client that greets and goes, and what it is answered: the greeting, and that it may go.
NBD_LEAVE = struct.pack(">I", 3) + b"IHAVEOPT" + struct.pack(">II", 2, 0)
NBD_LEFT = (b"NBDMAGICIHAVEOPT" + struct.pack(">HQIII", 3, 0x3E889045565A9, 2, 1, 0)).decode("utf-8", "backslashreplace")
# A sector less than an array of 64 sectors takes of a new member.
SHORT = bytes(2111 * SECTOR)


class Step:
    """A run of the program: its words, its input, its output (or the head and the tail of it, or a list of some of its lines), its
    status (where it is none of 0 and 1), its fault, or what it tells on standard error, the images that it changes, and the files that it makes. What it touches are images that
    it changes on its way, and leaves as they were where nothing comes between."""

    def __init__(self, words, output="", fault=None, told="", changes="", given=b"", made=None, touches="", status=None):
        self.words = words.split()
        self.given = given
        self.output = output
        self.status = status or (1 if fault else 0)
        self.errors = ("mdcli: %s\n" % fault if fault else "") + told
        self.changes = changes.split()
        self.touches = touches.split()
        self.fault = fault
        self.made = made or {}

    def play(self, folder, run):
        """The reasons against what a run gives and leaves."""
        before = read_images(folder)
        status, output, errors = run(self.words, self.given)
        reasons = []
        if status != self.status:
            reasons.append("the status is %r, and %d was wanted" % (status, self.status))
        if errors != self.errors:
            reasons.append("on standard error: %r, and %r was wanted" % (errors, self.errors))
        if not self.is_report(output):
            reasons.append("it wrote %r, and %r was wanted" % (output, self.output))
        return reasons + self.against_images(before, read_images(folder))

    def is_report(self, output):
        if isinstance(self.output, str):
            return output == self.output
        if isinstance(self.output, list):
            return set(self.output) <= set(output.splitlines())
        head, tail = self.output
        return output.startswith(head) and output.endswith(tail)

    def against_images(self, before, after):
        if before.keys() | self.made.keys() != after.keys():
            return ["the files are %s, and were %s" % (sorted(after), sorted(before))]
        found = [name for name in sorted(before) if before[name] != after[name]]
        reasons = [] if found == self.changes else ["it changed %r, and %r was wanted" % (found, self.changes)]
        other = [name for name in sorted(self.made) if after[name] != self.made[name]]
        return reasons + ["%s is %r, and %r was wanted" % (name, after[name], self.made[name]) for name in other]


def verbose(step):
    """The step with --verbose, by which nothing more is told of a command that is done, but for a rebuild that does not begin anew."""
    if isinstance(step, Step):
        step = copy.copy(step)
        if step.words[0] == "re-add":
            step.errors += GOES_ON
        step.words = step.words[:1] + ["--verbose"] + step.words[1:]
    return step


class Made:
    """A further image is made of one that is there."""

    def __init__(self, name, first, make):
        self.name, self.first, self.make = name, first, make

    def play(self, folder, run):
        (folder / self.name).write_bytes(self.make((folder / self.first).read_bytes()))
        return []


class Holds:
    """An image holds what is made of another one, byte for byte."""

    def __init__(self, name, first, make):
        self.name, self.first, self.make = name, first, make

    def play(self, folder, run):
        wanted = self.make((folder / self.first).read_bytes())
        found = (folder / self.name).read_bytes()
        if found == wanted:
            return []
        if len(found) != len(wanted):
            return ["%s has %d bytes, and %d were wanted" % (self.name, len(found), len(wanted))]
        return ["%s has another byte at %d" % (self.name, next(at for at in range(len(found)) if found[at] != wanted[at]))]


def changed(image, *fields):
    """The image with other values at these places."""
    image = bytearray(image)
    for place, form, value in fields:
        struct.pack_into("<" + form, image, place, value)
    return bytes(image)


def with_log(image):
    """The image with a log in units of two sectors: sectors 2000 to 2009, in entries that overlap."""
    rest = b"\xff" * (4096 - 24)
    return changed(image, (LOG, "Q", 0x000F_A004), (LOG + 8, "Q", 0x000F_A803), (LOG + 16, "Q", 0x1400), (LOG + 24, "4072s", rest))


LOGGED = with_log(VAULT)
LISTED = members.with_superblock(LOGGED, feature_map=members.BITMAP_BIT | members.BAD_BLOCKS_BIT, bblog_shift=1)
WITHOUT_BITMAP = members.with_superblock(LOGGED, feature_map=0)
# The checksum leaves out what stands after the roles.
PADDED = changed(VAULT, (SUPER + 4095, "B", 1))
UNSUMMED = changed(VAULT, (SUPER + 216, "I", 0))
# The bitmap is two events behind the superblock.
OUT_OF_DATE = members.with_header(VAULT, events=8)
# The event count can't rise any more.
SPENT = members.with_header(members.with_superblock(VAULT, events=2**64 - 1), events=2**64 - 1)

# The example array's other member.
OTHER = members.with_superblock(VAULT, dev_number=1)

# The superblock of a damaged member, and what stands in it.
DAMAGED = changed(VAULT, (SUPER, "I", 0), (SUPER + 72, "I", 5))
DAMAGED_REPORT = """\
Fault           : Magic
Fault           : Checksum
Fault           : Level
Magic           : 00000000
Major Version   : 1
Feature Map     : 0x1
Array UUID      : 00112233-4455-6677-8899-aabbccddeeff
Name            : vault
Creation Time   : 1700000000
Raid Level      : 5
Layout          : 0
Used Dev Size   : 64 sectors
Chunk Size      : 0 sectors
Raid Devices    : 2
Bitmap Offset   : 8 sectors from superblock
New Level       : 0
Reshape Place   : 0 sectors
Delta Devices   : 0
New Layout      : 0
New Chunk Size  : 0 sectors
New Offset      : 0 sectors
Data Offset     : 2048 sectors
Avail Dev Size  : 64 sectors
Super Offset    : 8 sectors
Recovery Offset : 0 sectors
Device Number   : 0
Corrected Reads : 0
Device UUID     : 11111111-1111-1111-1111-111111111111
Device Flags    : 0x0
Log Shift       : 0
Log Size        : 8 sectors
Log Offset      : 2024 sectors from superblock
Update Time     : 1700000000
Events          : 10
Resync Offset   : 18446744073709551615 sectors
Role Count      : 2
Checksum        : 8ab7c54f
Computed        : e18c7656
Role            : 0 of device 0
Role            : 1 of device 1
"""
# Every fault of a superblock at once, but for that of the checksum: it has more roles than 1920.
RUINED = changed(
    VAULT,
    (SUPER, "I", 0),
    (SUPER + 4, "I", 2),
    (SUPER + 8, "I", 133),
    (SUPER + 72, "I", 5),
    (SUPER + 92, "I", 33),
    (SUPER + 144, "Q", 9),
    (SUPER + 220, "I", 1921),
)
RUINS = "".join("Fault           : %s\n" % fault for fault in ("Magic", "Major", "MaxDev", "SuperOffset", "Feature 132", "Level", "RaidDisks"))
# Its superblock stands in a first partition, and at the place of one of version 1.0, too.
TWICE = changed(VAULT, (2056 * SECTOR, "4096s", VAULT[SUPER : SUPER + 4096]), (2096 * SECTOR, "4096s", VAULT[SUPER : SUPER + 4096]))
ELSEWHERE = "".join("Superblock At   : %d sectors, of array %s\n" % (sector, SET) for sector in (2056, 2096))
SOUND_REPORT = DAMAGED_REPORT[DAMAGED_REPORT.index("Magic ") :].replace(": 00000000", ": a92b4efc").replace("e18c7656", "8ab7c54f").replace(": 5\n", ": 1\n", 1)
# The bitmap and the log of one whose superblock has another checksum.
UNSUMMED_LOGGED = changed(LISTED, (SUPER + 216, "I", 0))
BROKEN_BITMAP = changed(UNSUMMED_LOGGED, (BITMAP, "I", 1), (BITMAP + 4, "I", 3), (BITMAP + 52, "I", 0))
RAW_LOG = """\
Super Fault     : Checksum
Log Shift       : 1
Log Size        : 8 sectors
Log Offset      : 2024 sectors from superblock
        1000 for 4 units, entry 0
        1002 for 3 units, entry 1
           5 for 0 units, entry 2
"""
RAW_BITMAP = """\
Super Fault     : Checksum
Magic           : 6d746962
Version         : 4
Array UUID      : 00112233-4455-6677-8899-aabbccddeeff
Events          : 10
Events Cleared  : 10
Sync Size       : 64 sectors
State           : 0x0
Chunk Size      : 4096 bytes
Daemon Sleep    : 5 seconds
Write Behind    : 0
Reserved        : 0 sectors
Nodes           : 0
Cluster Name    : 
Bitmap          : 8 chunks, 1 marked
"""
# A bitmap of three sectors, of which the last is past the end of the image.
CUT_BITMAP = changed(
    VAULT,
    (SUPER + 96, "i", 2110 - 8),
    (2110 * SECTOR, "256s", VAULT[BITMAP : BITMAP + 256]),
    (2110 * SECTOR + 40, "Q", 65536),
    (2110 * SECTOR + 256, "B", 3),
    (2111 * SECTOR + 511, "B", 0x80),
)

BITMAP_REPORT = """\
Magic           : 6d746962
Version         : 4
Array UUID      : 00112233-4455-6677-8899-aabbccddeeff
Events          : 10
Events Cleared  : 10
State           : 0x0
Chunk Size      : 4096 bytes
Daemon Sleep    : 5 seconds
Sync Size       : 64 sectors
Bitmap          : 8 chunks, 1 marked
"""

DETAIL = """\
Array UUID      : 00112233-4455-6677-8899-aabbccddeeff
Name            : md
Raid Devices    : 2
Array Size      : 64 sectors
In Sync         : 2
State           : clean
Events          : 1
Marked Chunks   : 0 of 8
     0      0      0 in sync
     1      1      1 in sync
"""

DETAIL_WITH_A_SPARE = """\
Array UUID      : 00112233-4455-6677-8899-aabbccddeeff
Name            : md
Raid Devices    : 3
Array Size      : 64 sectors
In Sync         : 2
State           : clean, degraded
Events          : 2
Marked Chunks   : 0 of 8
     0      0      0 in sync
     1      1      1 in sync
     2      3      - spare
"""

# One that failed came in again.
DETAIL_OF_ONE = """\
Array UUID      : 00112233-4455-6677-8899-aabbccddeeff
Name            : md
Raid Devices    : 2
Array Size      : 64 sectors
In Sync         : 1
State           : clean, degraded
Events          : 5
Marked Chunks   : 0 of 8
     0      0      0 in sync
     1      2      - spare
"""

DETAIL_AFTER_RE_ADD = """\
Array UUID      : 00112233-4455-6677-8899-aabbccddeeff
Name            : md
Raid Devices    : 2
Array Size      : 64 sectors
In Sync         : 2
State           : clean
Events          : 8
Marked Chunks   : 0 of 8
     0      1      1 in sync
     1      0      0 in sync
"""


def far(report, images, told):
    """The report with --verbose of an array whose second member is recovering, and of which this is told."""
    lines = report.splitlines()
    members = ["%s  %s" % both for both in zip(lines[8:], images.split())]
    return "\n".join(lines[:8] + ["Recovering      : member 1 has " + told, " Index Number   Role State  Image"] + members) + "\n"


# The same with the images, and a line over those of the members.
DETAIL_WITH_IMAGES = """\
Array UUID      : 00112233-4455-6677-8899-aabbccddeeff
Name            : md
Raid Devices    : 2
Array Size      : 64 sectors
In Sync         : 2
State           : clean
Events          : 8
Marked Chunks   : 0 of 8
 Index Number   Role State  Image
     0      1      1 in sync  b
     1      0      0 in sync  a
"""

DETAIL_OF_RECOVERING = """\
Array UUID      : 00112233-4455-6677-8899-aabbccddeeff
Name            : md
Raid Devices    : 2
Array Size      : 64 sectors
In Sync         : 1
State           : clean, degraded
Events          : 5
Marked Chunks   : 8 of 8
     0      0      0 in sync
     1      2      1 recovering
"""

# It lacks marked chunks alone.
DETAIL_OF_RE_ADDED = """\
Array UUID      : 00112233-4455-6677-8899-aabbccddeeff
Name            : md
Raid Devices    : 2
Array Size      : 64 sectors
In Sync         : 1
State           : clean, degraded
Events          : 1
Marked Chunks   : 0 of 8
     0      0      0 in sync
     1      1      1 re-added
"""
# Or those from one on, too.
DETAIL_OF_ONE_FROM_20 = DETAIL_OF_RE_ADDED.replace("re-added", "recovering")

# Two sectors of data, and what two sectors of a new array hold.
DATA = b"first sector".ljust(SECTOR, b".") + b"second sector".ljust(SECTOR, b".")
BLANK = "\0" * (2 * SECTOR)

# Sectors that hold their numbers, some more than a read puts out at once; and one that no member gives.
PIECE = 2048
LONG = PIECE + 8
NUMBERED = "".join("%*d\n" % (SECTOR - 1, sector) for sector in range(LONG))
LOST = PIECE + 2

CLEAN = "in sync 2 of 2, events 1, marked 0\n"
WRITTEN = "in sync 2 of 2, events 3, marked 0\n"
MARKED = "in sync 1 of 2, events 10, marked 8\n"
FAILED = "in sync 1 of 2, events 4, marked 0\n"
ALONE = "in sync 1 of 2, events 6, marked 1\n"
GOES_ON = "mdcli: the rebuild of member 1 goes on from chunk 2, chunks missing: 1 of 8\n"
AGREE = "mismatched chunks: 0\n"
DIFFER = "mismatched chunks: 1\n"
STORED = "mdcli: a: its bitmap did not tell of the array, so all chunks are marked in it now\n"
# The status of a check that is to say that members differ, where they do.
DIFFERS = 3

# What a check says of the only member in sync.
UNCOMPARED = "mdcli: %s: no other member is in sync, so nothing was compared\n"
# What a read says that was to go on past sectors which no member gives.
FILLED = "mdcli: sector %d of the array is missing: zeros stand in its place\n"
TAKEN = "mdcli: sector %d of the array may be older or newer: it is another member's\n"
# Of a device of the array that no image is, and of a member that was used alone.
UNNAMED = "mdcli: device %d in role %d is not among the images\n"
# Of what an image that is added holds.
STANDING = "mdcli: %s: is device %d%s of array " + SET + ", %s there\n"
FORGOTTEN = "mdcli: %s: is in sync in this very array, and is not among the images: its data may be newer than theirs\n"
EXT = "mdcli: %s: holds an ext2, ext3 or ext4 file system\n"
XFS = "mdcli: %s: holds an XFS file system\n"
PARTED = "mdcli: %s: was used without %s since they parted: what was written to it alone is not in this array\n"
# What a rebuild newly lists: one chunk.
BY_CHUNKS = ", also good ones of the same chunks, are now 8"
UNGIVEN = "mdcli: %s: no member gave all of it: the sectors that are listed as bad in it" + BY_CHUNKS + "\n"
# What no member gives then, and what is said of a rebuild that lists chunks.
UNGIVEN_SECTORS = "mdcli: sectors of the array that no member in sync gives: %d, the first is %d\n"
CHUNKS_LISTED = (
    "mdcli: `rebuild --salvage` would have listed only the sectors that no member gave, and not their whole chunks,"
    " as long as the logs had room\n"
)
# Why an array is not ready for a kernel.
UNREADY = "mdcli: not ready for a kernel: run mdcli %s\n"
MAY_DIFFER = UNREADY % "resync first: members in sync may differ, and it would rebuild another one before"
TOLD_BY_ONE = UNREADY % "rebuild first: no other superblock tells of the recovering member's role yet"
SAYS_MARKED = UNREADY % "rebuild first: it takes marked chunks before a recovery offset for copied"
LEFT_OUT = UNREADY % "add first, of the faulty member: one from before 2024 takes it for recovering still"
# With --verbose: what to do with an image that can't be read in a place.
COPY = "%s: copy the disk by ddrescue, and use the copy with its map (`--map`), without which zeros would count as data; or leave the image out\n"

PLAN = (
    "rounds 4, chunks 8, orphans 0\n   chunk source    round\n",
    "\ncertificate for 3 rounds: 0 1 2 3 4 5 6 7\norphans: none\n",
)

REBUILT = (PLAN[0], PLAN[1] + "rebuilt member 2, passes 1, orphans 0\n")
# Chunk 5 of the array's eight.
REBUILT_FROM_ONE = (
    "rounds 7, chunks 7, orphans 1\n   chunk source    round\n",
    "\ncertificate for 6 rounds: 0 1 2 3 4 6 7\norphans: 5\nrebuilt member 1, passes 1, orphans 1\n",
)

# The third chunk has a sector below 20, and others past it.
REBUILT_FROM_SECTOR_20 = (
    "rounds 6, chunks 6, orphans 0\n   chunk source    round\n       2      0",
    "\ncertificate for 5 rounds: 2 3 4 5 6 7\norphans: none\nrebuilt member 1, passes 1, orphans 0\n",
)

# The second member of two gets each chunk of the first one.
REBUILT_SECOND = ("rounds 8, chunks 8, orphans 0\n", "rebuilt member 1, passes 1, orphans 0\n")
# So it does, but for chunk 1, of which its copy lacks a sector.
REBUILT_BUT_ONE = (
    "rounds 7, chunks 7, orphans 1\n   chunk source    round\n"
    + "".join("%8d      0 %8d\n" % (chunk, place) for place, chunk in enumerate([0, 2, 3, 4, 5, 6, 7]))
    + "certificate for 6 rounds: 0 2 3 4 5 6 7\norphans: 1\n"
    + "rebuilt member 1, passes 1, orphans 1\n"
)
# Where its sector 9 alone is lost.
SALVAGED_BUT_ONE = REBUILT_BUT_ONE[: REBUILT_BUT_ONE.index("rebuilt")] + "rebuilt member 1, passes 1, lost sectors 1, first 9, listed besides 0\n"
ONE_UNGIVEN = (UNGIVEN % "b").replace(BY_CHUNKS, " are now 1")

TWO = {"a": ZEROS, "b": ZEROS}
TWO_LONG = {"a": bytes((2048 + LONG) * SECTOR), "b": bytes((2048 + LONG) * SECTOR)}
THREE = {"a": ZEROS, "b": ZEROS, "c": ZEROS}


def lacks(*runs):
    """ddrescue's map of a small image that lacks these runs of sectors of its data, each a first one and how many."""
    blocks, at = [], 0
    for start, count in runs:
        first = (2048 + start) * SECTOR
        blocks += [(at, first - at, "+"), (first, count * SECTOR, "-")]
        at = first + count * SECTOR
    blocks.append((at, len(ZEROS) - at, "+"))
    return ("0 + 1\n" + "".join("0x%x 0x%x %s\n" % block for block in blocks)).encode()


def map_out(first, count, lost=None):
    """The map that a read with --fill makes of these sectors, of which one is missing, or none."""
    end = first + count
    read = [(first, end, "+")] if lost is None else [(first, lost, "+"), (lost, lost + 1, "-"), (lost + 1, end, "+")]
    blocks = [(0, first, "?"), *read]
    lines = ["0x%08X  0x%08X  %s\n" % (SECTOR * start, SECTOR * (end - start), status) for start, end, status in blocks if start < end]
    head = "# Mapfile. Created by mdcli\n# current_pos  current_status  current_pass\n0x00000000     +               1\n"
    return (head + "#      pos        size  status\n" + "".join(lines)).encode()


# The maps are files beside the images.
TWO_MAPPED = dict(TWO, early=lacks((8, 1)), late=lacks((9, 1)), far=lacks((40, 1)), cut=lacks((9, 1))[:-1])
# Chunk 1 is in the midst of the first of four runs: a write to it leaves five, for which memory is taken.
FOUR_RUNS = lacks((4, 17), (30, 1), (32, 1), (34, 1))


def create(level, devices, chunk, images, **answer):
    words = "create --level %s --raid-devices %s --uuid %s --bitmap-chunk %s %s" % (level, devices, SET, chunk, images)
    return Step(words, **answer)


def spare_beside(first):
    """The image of a member of the array of `first` whose number, 3, no role is for."""
    return members.with_superblock(first, dev_number=3)


def added(number):
    """What makes, of a member as `add` leaves it, the image of 2112 zero sectors that it has added under this number: that of
    "A new member" in docs/FORMATS.md."""

    def make(first):
        image = bytearray(ZEROS)
        image[SUPER : SUPER + 8 * SECTOR] = first[SUPER : SUPER + 8 * SECTOR]
        image[BITMAP : BITMAP + members.HEADER_BYTES] = first[BITMAP : BITMAP + members.HEADER_BYTES]
        image[BITMAP + members.HEADER_BYTES] = 0xFF
        image[LOG : LOG + 8 * SECTOR] = b"\xff" * (8 * SECTOR)
        return members.with_superblock(
            members.with_header(bytes(image), state=0, sectors_reserved=2016),
            feature_map=members.BITMAP_BIT,
            bitmap_offset=8,
            data_offset=2048,
            data_size=64,
            super_offset=8,
            recovery_offset=0,
            dev_number=number,
            cnt_corrected_read=0,
            device_uuid=uuid.uuid5(uuid.UUID(SET), str(number)).bytes,
            devflags=0,
            bblog_shift=0,
            bblog_size=8,
            bblog_offset=2024,
        )

    return make


def listing(first):
    """The image of a member that lists a sector of chunk 5 as bad."""
    return members.with_bad_blocks(first, [(2048 + 43, 1)])


def lacking(first):
    """The image of a member of the long array that holds the numbers of its sectors, and lists one as bad."""
    return members.with_bad_blocks(members.with_data(first, 0, NUMBERED.encode()), [(2048 + LOST, 1)])


def rebuilt_up_to(offset):
    """What makes, of the image of a member in sync, that of one that was rebuilt up to this sector of the array."""

    def make(first):
        features = members.BITMAP_BIT | members.RECOVERY_BIT
        return members.with_superblock(first, feature_map=features, recovery_offset=offset)

    return make


def without_log(first):
    """The image of a member whose superblock names no bad block log."""
    return members.with_superblock(first, bblog_size=0, bblog_offset=0)


def as_role(role, number):
    """What makes, of the image of a member in sync, that of another one that holds the same."""

    def make(first):
        device = uuid.uuid5(uuid.UUID(SET), str(number)).bytes
        return members.with_superblock(first, roles={number: role}, dev_number=number, device_uuid=device)

    return make


def marked_alone(name, chunk):
    """What leaves no mark on an image but that of this chunk."""

    def make(image):
        for other in members.Member(image).bits - {chunk}:
            image = members.with_other_mark(image, other)
        return image

    return Made(name, name, make)


def outdated(name):
    """What makes the bitmap of an image one that is out of date."""
    return Made(name, name, lambda image: members.with_header(image, events=0))


# The examine report of the example member, the summary of an array of two, and a check of it, as JSON.
OBJECT = (
    '{"report":"examine","magic":"a92b4efc","version":"1.2","feature_map":1,"array_uuid":"%s","name":"vault",'
    '"creation_time":1700000000,"raid_level":"raid1","raid_devices":2,"used_dev_size":64,"avail_dev_size":64,"data_offset":2048,'
    '"super_offset":8,"recovery_offset":null,"device_number":0,"device_role":"active","role":0,'
    '"device_uuid":"11111111-1111-1111-1111-111111111111","device_flags":0,"internal_bitmap":8,'
    '"bad_block_log":{"entries":512,"offset":2024},"update_time":1700000000,"events":10,"state":"clean","checksum":"8ab7c54f",'
    '"array_state":"AA"}\n' % SET
)
OBJECTS_OF_TWO = ",".join(
    '{"image":"%s","index":%d,"device_number":%d,"role":%d,"state":"in sync","write_mostly":false}' % (name, k, k, k)
    for k, name in enumerate("ab")
)
# Two members of three, the second of which stands in the last role, and a spare.
OBJECTS_AROUND = ",".join(
    '{"image":"%s","index":%d,"device_number":%d,"role":%d,"state":"in sync","write_mostly":false}' % (name, k, 2 * k, 2 * k)
    for k, name in enumerate("ab")
)
OBJECT_OF_SPARE = ',{"image":"c","index":2,"device_number":3,"role":null,"state":"spare","write_mostly":false}'
MADE_OBJECT = '{"report":"create","in_sync":2,"raid_devices":3,"events":1,"marked_chunks":0,"members":[%s],"run_before_kernel":null}\n' % OBJECTS_AROUND
ADDED_OBJECT = '{"report":"add","in_sync":2,"raid_devices":3,"events":2,"marked_chunks":0,"members":[%s],"run_before_kernel":null}\n' % (OBJECTS_AROUND + OBJECT_OF_SPARE)
RE_ADDED_OBJECT = '{"report":"re-add","in_sync":2,"raid_devices":2,"events":4,"marked_chunks":0,"members":[%s],"run_before_kernel":null}\n' % OBJECTS_OF_TWO
SHORT_OBJECT = '{"report":"assemble","in_sync":2,"raid_devices":2,"events":1,"marked_chunks":0,"members":[%s],"run_before_kernel":null}\n' % OBJECTS_OF_TWO
EQUAL = '{"report":"check","mismatched_chunks":0,"mismatches":[],"members":[%s],"compared_members":[0,1],"bad_sectors":[[],[]]}\n' % OBJECTS_OF_TWO
CHECKED = '{"report":"check","mismatched_chunks":1,"mismatches":[{"sector":8,"sectors":8,"pairs":[[0,1]]}],"members":[%s],"compared_members":[0,1],"bad_sectors":[[],[]]}\n' % OBJECTS_OF_TWO

# Why an array is not opened, where the report was to be an object.
REFUSED_OBJECT = (
    '{"fault":"Member 1 Super Magic","text":"mdcli: Member 1 Super Magic","advice":"b: perhaps the member is a partition of this disk, '
    'or its metadata is 0.90, 1.0 or 1.1, which stand elsewhere"}\n'
)

# The same with the second image first: a member's index is its place among the images.
CHECKED_TURNED = CHECKED[: CHECKED.index('"members":')] + '"members":[%s],"compared_members":[0,1],"bad_sectors":[[],[]]}\n' % ",".join(
    '{"image":"%s","index":%d,"device_number":%d,"role":%d,"state":"in sync","write_mostly":false}' % (name, index, role, role)
    for index, (name, role) in enumerate((("b", 1), ("a", 0)))
)

# Three members of which some differ in two chunks.
THREE_DIFFER = (
    "           8 for 8 sectors, members %s\n          16 for 8 sectors, members 0!=1 0!=2 1!=2\nmismatched chunks: 2\n"
)

# A member fails and leaves, and the other one is written alone.
LIFE_APART = [
    create("raid1", 2, 4, "--assume-clean a b", output=CLEAN, changes="a b"),
    Step("write --sector 8 a b", WRITTEN, changes="a b", given=DATA[:SECTOR]),
    Step("fail --member 1 a b", FAILED, changes="a"),
    Step("write --sector 16 a b", ALONE, changes="a", given=DATA[SECTOR:]),
    Step("remove --member 1 a b", ALONE),
]
# It comes back, and alone gives what was written before it left and since.
LIFE_TOGETHER = [
    Step("re-add --device b a", "in sync 2 of 2, events 8, marked 0\n", changes="a b"),
    Holds("b", "a", as_role(1, 1)),
    Step("check a b", AGREE),
    Step("read --sector 8 --count 1 b", DATA[:SECTOR].decode(), told=UNNAMED % (0, 0)),
    Step("read --sector 16 --count 1 b", DATA[SECTOR:].decode(), told=UNNAMED % (0, 0)),
    Step("detail b a", DETAIL_AFTER_RE_ADD),
]

# A new member comes in beside the example member.
NEW_BESIDE_VAULT = Step("add --run --device b a", "in sync 1 of 2, events 11, marked 1\n", told=UNNAMED % (1, 1), changes="a b")

# Two members of three that agree, and a spare.
WITH_A_SPARE = [
    create("1", 3, 4, "--assume-clean a b missing", output="in sync 2 of 3, events 1, marked 0\n", changes="a b"),
    Made("c", "a", spare_beside),
]

CASES = [
    ("examine", {"a": VAULT}, [Step("examine a", REPORT)]),
    ("examine, a byte after the roles", {"a": PADDED}, [Step("examine a", REPORT)]),
    ("examine --json", {"a": VAULT}, [Step("examine --json a", OBJECT)]),
    (
        "mdadm's words for commands",
        {"a": ZEROS, "b": ZEROS, "c": VAULT},
        [
            create("raid1", 2, 4, "--assume-clean a b", output=CLEAN, changes="a b"),
            Step("--detail --readonly a b", DETAIL),
            Step("-D a b", DETAIL),
            Step("--examine c", REPORT),
            Step("-E --json c", OBJECT),
        ],
    ),
    ("scan", {"a": VAULT, "b": ZEROS}, [Step("scan a b", SCANNED, told="b: Super Magic\n")]),
    ("examine-bitmap", {"a": LOGGED}, [Step("examine-bitmap a", BITMAP_REPORT)]),
    ("examine-bitmap, no bitmap", {"a": WITHOUT_BITMAP}, [Step("examine-bitmap a", fault="NoBitmap")]),
    (
        "grow",
        {"a": WITHOUT_BITMAP},
        [
            Step("detail a", fault="Assemble NoBitmap 0"),
            Step("grow --bitmap external a", fault="BadBitmap"),
            Step("grow --bitmap internal --bitmap-chunk 3 a", fault="BadChunk"),
            Step("grow --bitmap internal a", fault="NotAll 1"),
            Step("grow --run --bitmap internal a", "in sync 1 of 2, events 11, marked 0\n", told=UNNAMED % (1, 1), changes="a"),
            Step("grow --run --bitmap internal a", fault="HasBitmap"),
        ],
    ),
    (
        "looked at as grown",
        {"a": WITHOUT_BITMAP},
        [
            Step("assemble --readonly a", fault="Assemble NoBitmap 0"),
            Step("assemble --readonly --bitmap external a", fault="BadBitmap"),
            Step("assemble --readonly --bitmap internal a", "in sync 1 of 2, events 11, marked 0\n", told=UNNAMED % (1, 1)),
            Step("grow --run --bitmap internal a", "in sync 1 of 2, events 11, marked 0\n", told=UNNAMED % (1, 1), changes="a"),
            Step("assemble --readonly --bitmap internal a", "in sync 1 of 2, events 11, marked 0\n", told=UNNAMED % (1, 1)),
        ],
    ),
    (
        "grow, an array that was not stopped",
        {"a": members.with_superblock(WITHOUT_BITMAP, resync_offset=0), "b": members.with_superblock(OTHER, feature_map=0, resync_offset=0, events=8)},
        [
            Step("grow --bitmap internal a b", fault="NotInSync 1"),
            Step("grow --run --bitmap internal --bitmap-chunk 4 a", "in sync 1 of 2, events 11, marked 8\n", told=UNNAMED % (1, 1), changes="a"),
        ],
    ),
    ("examine-badblocks, no log", {"a": LOGGED}, [Step("examine-badblocks a", "no bad blocks\n")]),
    ("examine-badblocks", {"a": LISTED}, [Step("examine-badblocks a", "        2000 for 10 sectors\n")]),
    ("examine, a checksum of 0", {"a": UNSUMMED}, [Step("examine a", fault="Super Checksum")]),
    ("examine, a short image", {"a": bytes(15 * SECTOR)}, [Step("examine a", fault="TooShort")]),
    ("examine --all", {"a": VAULT}, [Step("examine --all a", SOUND_REPORT)]),
    ("examine --all, a damaged superblock", {"a": DAMAGED}, [Step("examine a", fault="Super Magic"), Step("examine --all a", DAMAGED_REPORT)]),
    ("examine --all, every fault", {"a": RUINED}, [Step("examine --all a", (RUINS, "Computed        : unknown\nRole            : 0 of device 0\nRole            : 1 of device 1\n" + "".join("Role            : 0 of device %d\n" % k for k in range(2, 1920))))]),
    ("examine --all, superblocks elsewhere", {"a": TWICE}, [Step("examine --all a", SOUND_REPORT + ELSEWHERE)]),
    ("examine --all, no member", {"a": ZEROS}, [Step("examine --all a", ["Fault           : Magic", "Magic           : 00000000", "Computed        : 00000000"])]),
    ("examine --all, a short image", {"a": bytes(15 * SECTOR)}, [Step("examine --all a", fault="TooShort")]),
    ("examine-bitmap --all", {"a": UNSUMMED_LOGGED}, [Step("examine-bitmap a", fault="Super Checksum"), Step("examine-bitmap --all a", RAW_BITMAP)]),
    (
        "examine-bitmap --all, a damaged header",
        {"a": BROKEN_BITMAP},
        [Step("examine-bitmap --all a", ["Fault           : Magic", "Fault           : Version", "Fault           : ChunkSize", "Magic           : 00000001"])],
    ),
    (
        "examine-bitmap --all, a bitmap that goes past the end",
        {"a": CUT_BITMAP},
        [Step("examine-bitmap --all a", ["Sync Size       : 65536 sectors", "Bitmap          : 8192 chunks, 3 marked", "Unread          : 2048 chunks", "Unreadable At   : 2112 sectors"])],
    ),
    ("examine-bitmap --all, no bitmap", {"a": WITHOUT_BITMAP}, [Step("examine-bitmap --all a", fault="NoBitmap")]),
    (
        "examine-bitmap --all, a place that is not on the device",
        {"a": changed(VAULT, (SUPER + 96, "i", -9))},
        [Step("examine-bitmap --all a", fault="Region")],
    ),
    ("examine-badblocks --all", {"a": UNSUMMED_LOGGED}, [Step("examine-badblocks --all a", RAW_LOG)]),
    (
        "examine-badblocks --all, no log",
        {"a": changed(VAULT, (SUPER + 186, "H", 0))},
        [Step("examine-badblocks --all a", ["Super Fault     : Checksum", "Log Size        : 0 sectors"])],
    ),
    ("examine-badblocks --all, too long a log", {"a": changed(VAULT, (SUPER + 186, "H", 9))}, [Step("examine-badblocks --all a", fault="Region")]),
    (
        "examine, the images named",
        {"a": VAULT, "b": bytes(SECTOR)},
        [
            Step("examine a b", fault="BadCount"),
            Step("examine", fault="BadCount"),
            Step("examine c", fault="BadImage 0"),
        ],
    ),
    (
        "an array is made, opened and shown",
        TWO,
        [
            create("raid1", 2, 4, "--assume-clean a b", output=CLEAN, changes="a b"),
            Step("assemble b a", CLEAN),
            Step("detail a b", DETAIL),
        ],
    ),
    (
        "an array is made, gets a spare and is stopped, as JSON",
        THREE,
        [
            create("raid1", 3, 4, "--json --assume-clean a missing b", output=MADE_OBJECT, changes="a b"),
            Step("add --json --device c a b", ADDED_OBJECT, changes="a b c"),
            Step("stop --json a b c", ADDED_OBJECT.replace("add", "stop")),
            Step("stop a b c", "in sync 2 of 3, events 2, marked 0\n"),
            create("5", 3, 4, "--json a missing b", output=('{"fault":"BadLevel","text":"mdcli: BadLevel","advice":"', '"}\n'), fault="BadLevel"),
        ],
    ),
    (
        "sectors as sizes",
        TWO,
        [
            create("raid1", 2, 4, "--assume-clean a b", output=CLEAN, changes="a b"),
            Step("write --sector 4K a b", WRITTEN, changes="a b", given=DATA),
            Step("read --sector 8 --count 2 a b", DATA.decode()),
            Step("read --sector 4K --count 1K a b", DATA.decode()),
            Step("read --sector 4K --count 1M a b", fault="OutOfRange"),
            Step("write --sector 4K --count 1K a b", "in sync 2 of 2, events 5, marked 0\n", changes="a b", given=DATA[::-1]),
            Step("read --sector 8 --count 2 a b", DATA[::-1].decode()),
        ],
    ),
    ("create, another level", TWO, [create("5", 2, 4, "a b", fault="BadLevel")]),
    ("create, too few images", TWO, [create("1", 3, 4, "a b", fault="BadCount")]),
    ("create, too large a chunk", TWO, [create("1", 2, 4194304, "a b", fault="BadChunk")]),
    ("create, an image named twice", TWO, [create("1", 2, 4, "a a", fault="BadImage 1")]),
    ("create, an image that is not there", TWO, [create("1", 2, 4, "missing c", fault="BadImage 1")]),
    ("create, no image", TWO, [create("1", 2, 4, "missing missing", fault="BadGeometry")]),
    ("create, an odd chunk", TWO, [create("1", 2, 3, "a b", fault="BadGeometry")]),
    ("create, a role that there is not is write-mostly", TWO, [create("1", 2, 4, "--write-mostly 2 a b", fault="BadGeometry")]),
    (
        "create, a missing member is write-mostly",
        TWO,
        [create("1", 3, 4, "--write-mostly 2 a b missing", fault="BadGeometry")],
    ),
    (
        "create, what the images hold is told",
        {"a": changed(ZEROS, (1080, "H", 0xEF53)), "b": changed(ZEROS, (0, "4s", b"XFSB")), "c": VAULT, "d": ZEROS},
        [
            create("raid1", 3, 3, "--assume-clean a b c", fault="BadGeometry"),
            create(
                "raid1",
                5,
                4,
                "--run --assume-clean a missing b c d",
                output="in sync 4 of 5, events 1, marked 0\n",
                told=EXT % "a" + XFS % "b" + STANDING % ("c", 0, " in role 0", "in sync"),
                changes="a b c d",
            ),
        ],
    ),
    (
        "a write-mostly member",
        TWO,
        [
            create("raid1", 2, 4, "--assume-clean --write-mostly 1 a b", output=CLEAN, changes="a b"),
            Step("examine a", ["Device Flags    : 0x0"]),
            Step("examine b", ["Device Flags    : 0x1"]),
            Step("detail a b", DETAIL[:-1] + ", write-mostly\n"),
            Step("fail --member 1 a b", "in sync 1 of 2, events 2, marked 0\n", changes="a"),
            Step("detail a b", ("", "     1      1      - faulty, write-mostly\n")),
        ],
    ),
    (
        "no array",
        TWO,
        [
            Step("assemble a b", fault="Member 0 Super Magic"),
            Step("detail b b", fault="BadImage 1"),
            Step("assemble", fault="Assemble Empty"),
        ],
    ),
    (
        "a bitmap that is out of date",
        {"a": OUT_OF_DATE},
        [
            Step("assemble --readonly a", MARKED, told=UNNAMED % (1, 1)),
            Step("check --readonly a", AGREE, told=UNNAMED % (1, 1) + UNCOMPARED % "a"),
            Step("assemble a", MARKED, told=STORED + UNNAMED % (1, 1), changes="a"),
            Step("assemble a", MARKED, told=UNNAMED % (1, 1)),
        ],
    ),
    (
        "a bitmap that is out of date is marked by a check too",
        {"a": OUT_OF_DATE},
        [
            Step("check a", AGREE, told=STORED + UNNAMED % (1, 1) + UNCOMPARED % "a", changes="a"),
            Step("check a", AGREE, told=UNNAMED % (1, 1) + UNCOMPARED % "a"),
        ],
    ),
    (
        "a bitmap that is out of date is marked by an addition too",
        {"a": OUT_OF_DATE, "b": ZEROS},
        [Step("add --run --device b a", "in sync 1 of 2, events 11, marked 8\n", told=STORED + UNNAMED % (1, 1), changes="a b")],
    ),
    (
        "a bitmap that is out of date is marked by each command that changes who is a member",
        THREE,
        [
            create("1", 3, 4, "--assume-clean a b missing", output="in sync 2 of 3, events 1, marked 0\n", changes="a b"),
            Step("add --device c a b", "in sync 2 of 3, events 2, marked 0\n", changes="a b c"),
            outdated("a"),
            Step("remove --member 2 a b c", "in sync 2 of 3, events 3, marked 8\n", told=STORED, changes="a b"),
            Step("add --run --device c a b", "in sync 2 of 3, events 4, marked 8\n", told=STANDING % ("c", 3, "", "a spare"), changes="a b c"),
            outdated("a"),
            Step("rebuild --member 2 a b c", REBUILT, told=STORED, changes="a b c"),
            Step("fail --member 2 a b c", "in sync 2 of 3, events 7, marked 0\n", changes="a b"),
            Step("remove --member 2 a b c", "in sync 2 of 3, events 7, marked 0\n"),
            outdated("a"),
            Step("re-add --device c a b", "in sync 3 of 3, events 9, marked 0\n", told=STORED, changes="a b c"),
        ],
    ),
    (
        "a refused command marks a bitmap that is out of date, and tells the fault alone",
        {"a": OUT_OF_DATE, "b": SHORT},
        [
            step
            for words, fault in [
                ("read --sector 64 --count 1 a", "OutOfRange"),
                ("plan --member 0 a", "NotSpare"),
                ("remove --run --member 0 a", "StillActive"),
                ("add --run --device b a", "TooSmall"),
                ("re-add --run --device b a", "Member Super Magic"),
                ("rebuild --run --member 0 a", "NotSpare"),
            ]
            for step in (Step(words, fault=fault, changes="a"), Made("a", "a", lambda image: OUT_OF_DATE))
        ],
    ),
    (
        "data is written, read and resynced, and the array is stopped",
        TWO,
        [
            create("raid1", 2, 4, "--assume-clean a b", output=CLEAN, changes="a b"),
            Step("read --sector 8 --count 2 a b", BLANK),
            Step("read --sector 62 a b", BLANK),
            Step("read --sector 64 a b", fault="OutOfRange"),
            Step("read --readonly --sector 65 a b", fault="OutOfRange"),
            Step("write --sector 8 a b", WRITTEN, changes="a b", given=DATA),
            Step("read --sector 8 --count 2 b a", DATA.decode()),
            Step("check b a", AGREE),
            Step("resync a b", WRITTEN),
            Step("stop a b", WRITTEN),
        ],
    ),
    (
        "more is read than is put out at once",
        TWO_LONG,
        [
            create("raid1", 2, 4, "--assume-clean a b", output=CLEAN, changes="a b"),
            Made("a", "a", lacking),
            Made("b", "b", lacking),
            Step("read --sector 0 --count %d a b" % LOST, NUMBERED[: LOST * SECTOR]),
            Step("read --sector 0 --count %d a b" % LONG, NUMBERED[: LOST * SECTOR], fault="Unreadable %d" % LOST),
            # So many are put out whole or not at all.
            Step("read --sector 8 --count %d a b" % PIECE, fault="Unreadable %d" % LOST),
            Step(
                "read --fill --sector 0 --count %d a b" % LONG,
                NUMBERED[: LOST * SECTOR] + "\0" * SECTOR + NUMBERED[(LOST + 1) * SECTOR :],
                fault="Unreadable %d" % LOST,
                told=FILLED % LOST,
            ),
            Step("read --fill --readonly --sector %d --count 1 a b" % LOST, "\0" * SECTOR, fault="Unreadable %d" % LOST, told=FILLED % LOST),
            Step("read --fill --sector 0 --count 8 a b", NUMBERED[: 8 * SECTOR]),
            Step("read --fill --sector 0 --count %d a b" % (1 << 40), fault="OutOfRange"),
        ],
    ),
    (
        "copies that lack what other disks give",
        TWO_MAPPED,
        [
            create("raid1", 2, 4, "--assume-clean a b", output=CLEAN, changes="a b"),
            Made("a", "a", lambda image: members.with_data(image, 8, DATA)),
            Step("read --sector 8 --count 2 --map a=late --map b=early a b", DATA[:SECTOR].decode() + BLANK[SECTOR:]),
            Step("read --readonly --sector 8 --count 2 --map b=late a b", DATA.decode()),
            Step("read --sector 8 --count 2 --map a=late --map b=late a b", fault="Unreadable 9"),
            Step(
                "read --fill --readonly --sector 8 --count 2 --map a=late --map b=late a b",
                DATA[:SECTOR].decode() + "\0" * SECTOR,
                fault="Unreadable 9",
                told=FILLED % 9,
            ),
            Step(
                "read --fill --map-out new --readonly --sector 8 --count 2 --map a=late --map b=late a b",
                DATA[:SECTOR].decode() + "\0" * SECTOR,
                fault="Unreadable 9",
                told=FILLED % 9,
                made={"new": map_out(8, 2, 9)},
            ),
            Step(
                "read --fill --map-out whole --readonly --sector 8 --map a=late --map b=late a b",
                DATA[:SECTOR].decode() + "\0" * (55 * SECTOR),
                fault="Unreadable 9",
                told=FILLED % 9,
                made={"whole": map_out(8, 56, 9)},
            ),
            # What is there already is never overwritten: it may be an image.
            Step("read --fill --map-out b --sector 8 --count 2 a b", fault="MapOutExists"),
            Step("read --fill --map-out new --sector 8 --count 2 --map a=late a b", fault="MapOutExists"),
            Step("read --output b --sector 8 --count 2 --map a=late a b", fault="OutputFileExists"),
            Step("read --output read --sector 8 --count 2 --map a=late --map b=early a b", made={"read": DATA[:SECTOR] + bytes(SECTOR)}),
            Step("detail --map a=early --map b=late a b", DETAIL),
            # What the copy lacks is not compared, and the rest of the chunk is.
            Step("check --map a=early --map b=late a b", AGREE),
            Step("check --map b=late a b", DIFFER),
            Step("detail --map a=cut a b", fault="BadMap 0 Line 4 Cut"),
            Step("detail --map c=late a b", fault="BadMap 0 NotListed"),
            Step("detail --map a=late --map c=late a b", fault="BadMap 1 NotListed"),
            Step("detail --map a=late --map a=late a b", fault="BadMap 1 Repeated"),
            Step("detail --map a=none a b", fault="BadMap 0 Unread"),
        ],
    ),
    (
        "what another member has, where the array is degraded and not resynced",
        TWO_MAPPED,
        [
            create("raid1", 3, 4, "a b missing", output="in sync 2 of 3, events 1, marked 8\n", changes="a b"),
            Made("a", "a", lambda image: members.with_data(image, 8, DATA)),
            Step("read --readonly --sector 8 --count 2 --map a=late a b", fault="ReadFault 0 1"),
            Step(
                "read --fill --readonly --sector 8 --count 2 --map a=late a b",
                DATA[:SECTOR].decode() + BLANK[SECTOR:],
                fault="Unreadable 9",
                told=TAKEN % 9,
            ),
            Step(
                "read --fill --map-out new --readonly --sector 8 --count 2 --map a=late a b",
                DATA[:SECTOR].decode() + BLANK[SECTOR:],
                fault="Unreadable 9",
                told=TAKEN % 9,
                made={"new": map_out(8, 2)},
            ),
            # The first of them that is in sync is the one that a resync copies, whichever image is named first.
            Step("read --fill --readonly --sector 8 --count 2 --map b=late b a", DATA.decode()),
            Step(
                "read --fill --readonly --sector 8 --count 2 --map a=late --map b=late a b",
                DATA[:SECTOR].decode() + "\0" * SECTOR,
                fault="Unreadable 9",
                told=FILLED % 9,
            ),
        ],
    ),
    (
        "copies that lack what other disks give, made to agree",
        dict(TWO_MAPPED, four=FOUR_RUNS),
        [
            create("raid1", 2, 4, "a b", output="in sync 2 of 2, events 1, marked 8\n", changes="a b"),
            Made("b", "b", lambda image: members.with_data(image, 8, DATA)),
            marked_alone("a", 1),
            marked_alone("b", 1),
            Step("resync --run --map a=early --map b=early a b", fault="ReadFault 0 1"),
            Step("resync --run --verbose --map a=early --map b=early a b", fault="ReadFault 0 1", told=COPY % "a"),
            # Without memory for the runs that are left the write fails: what it wrote is not given.
            Step("resync --run --map b=four a b", "in sync 2 of 2, events 2, marked 0\n", changes="a b"),
            Step("check a b", AGREE),
            Step("read --sector 8 --count 2 b a", BLANK),
        ],
    ),
    (
        "a third member is rebuilt from copies that lack what other disks give",
        dict(TWO_MAPPED, c=ZEROS, third=lacks((16, 1))),
        WITH_A_SPARE
        + [
            # Chunk 2 comes from the second one alone, and chunk 5 from the first one; the others from each in turn.
            Step("plan --member 2 --map a=third --map b=far a b c", PLAN),
            Step("rebuild --member 2 --map a=third --map b=far a b c", REBUILT, changes="a b c"),
            # What a copy lacks stands in its log then.
            Step("examine-badblocks a", "        2064 for 1 sectors\n"),
            Step("examine-badblocks b", "        2088 for 1 sectors\n"),
            Step("check a b c", AGREE),
        ],
    ),
    (
        "members that may differ",
        TWO,
        [
            create("raid1", 2, 4, "a b", output="in sync 2 of 2, events 1, marked 8\n", changes="a b"),
            Step("read --sector 0 --count 1 a b", fault="NotResynced"),
            Step("write --sector 0 a b", fault="NotResynced", given=DATA),
            Made("b", "b", lambda image: members.with_data(image, 8, DATA)),
            Step("check a b", DIFFER),
            Step("resync a b", "in sync 2 of 2, events 2, marked 0\n", changes="a b"),
            Step("check a b", AGREE),
        ],
    ),
    (
        "a degraded array that is not resynced",
        TWO,
        [
            create("raid1", 3, 4, "a b missing", output="in sync 2 of 3, events 1, marked 8\n", changes="a b"),
            Made("a", "a", lambda image: members.with_data(image, 8, DATA)),
            # The data of the lowest role, though nothing is copied, whichever image comes first.
            Step("read --readonly --sector 8 --count 2 a b", DATA.decode()),
            Step("read --readonly --sector 8 --count 2 b a", DATA.decode()),
            Step("read --readonly --sector 63 --count 2 a b", fault="OutOfRange"),
            Step("check --readonly a b", DIFFER),
            # A client that asks for nothing: what is served is looked at by tests/serve.
            Step("serve --readonly a b", NBD_LEFT, given=NBD_LEAVE),
            Step("read --sector 8 --count 2 a b", DATA.decode(), changes="b"),
            Step("check --readonly a b", AGREE),
            Step("serve a b", NBD_LEFT, given=NBD_LEAVE, changes="a b"),
        ],
    ),
    (
        "members are compared",
        TWO,
        [
            create("raid1", 2, 4, "--assume-clean a b", output=CLEAN, changes="a b"),
            Step("check a b", AGREE),
            Made("b", "b", lambda image: members.with_data(image, 8, DATA[:SECTOR])),
            Step("check a b", DIFFER),
            Step("check --readonly b a", DIFFER),
            Step("check --list a b", "           8 for 8 sectors, members 0!=1\n" + DIFFER),
            Step("check --json a b", CHECKED),
            # Only where it is asked for does the status say that they differ.
            Step("check --exit-code a b", DIFFER, status=DIFFERS),
            Step("check --readonly --exit-code --list b a", "           8 for 8 sectors, members 0!=1\n" + DIFFER, status=DIFFERS),
            Step("check --exit-code --json a b", CHECKED, status=DIFFERS),
            Step("assemble --json --readonly a b", SHORT_OBJECT),
            Step("detail --json --readonly a b", ('{"report":"detail","array_uuid":"', '}],"missing_roles":[],"used_apart":[],"bad_sectors":[[],[]],"recovering":[],"run_before_kernel":null}\n')),
            # In a further chunk the member lists the sector that differs as bad.
            Made("b", "b", lambda image: members.with_bad_blocks(members.with_data(image, 43, DATA[:SECTOR]), [(2048 + 43, 1)])),
            Step("check a b", DIFFER),
            Made("b", "b", lambda image: members.with_bad_blocks(image, [(2048 + 8, 1), (2048 + 43, 1)])),
            Step("check a b", AGREE),
            Step("check --list --readonly a b", AGREE),
            Step("check --exit-code a b", AGREE),
            Step("check --exit-code --list a b", AGREE),
            Step("check b", AGREE, told=UNNAMED % (0, 0) + UNCOMPARED % "b"),
        ],
    ),
    (
        "the example members are compared, and one that can't be read in a sector",
        {"a": VAULT, "b": OTHER, "late": lacks((9, 1))},
        [
            Step("check --verbose a b", AGREE),
            Step("check --readonly a b", AGREE),
            Step("check --verbose --map b=late a b", AGREE),
            Step("check --readonly --map b=late a b", AGREE),
        ],
    ),
    (
        "which of three members differ",
        THREE,
        [
            create("raid1", 3, 4, "--assume-clean a b c", output="in sync 3 of 3, events 1, marked 0\n", changes="a b c"),
            Step("check --list a b c", AGREE),
            Made("c", "c", lambda image: members.with_data(image, 8, DATA[:SECTOR])),
            Step("check --list a b c", "           8 for 8 sectors, members 0!=2 1!=2\n" + DIFFER),
            # Members are named by their places among the images.
            Step("check --list --readonly c a b", "           8 for 8 sectors, members 0!=1 0!=2\n" + DIFFER),
            # In another chunk two of them are each other than the rest in a sector of its own.
            Made("b", "b", lambda image: members.with_data(image, 16, DATA[:SECTOR])),
            Made("c", "c", lambda image: members.with_data(image, 23, DATA[SECTOR:])),
            Step("check --list a b c", THREE_DIFFER % "0!=2 1!=2"),
            SaysTheSame("check a b c"),
            SaysTheSame("check b c a"),
            # What a member lists as bad is compared with nothing.
            Made("a", "a", lambda image: members.with_bad_blocks(image, [(2048 + 8, 1)])),
            Step("check --list a b c", THREE_DIFFER % "1!=2"),
            Step("check a b c", "mismatched chunks: 2\n"),
            # One that is not in sync is no member of a pair.
            Step("fail --member 2 a b c", "in sync 2 of 3, events 2, marked 0\n", changes="a b"),
            Step("check --list --readonly a b c", "          16 for 8 sectors, members 0!=1\n" + DIFFER),
        ],
    ),
    (
        "no members to compare",
        TWO,
        [
            Step("check a b", fault="Member 0 Super Magic"),
            Step("check a a", fault="BadImage 1"),
            Step("check --readonly a c", fault="BadImage 1"),
            Step("check", fault="Assemble Empty"),
            Step("check --exit-code a b", fault="Member 0 Super Magic"),
        ],
    ),
    (
        "no data",
        TWO,
        [
            create("raid1", 2, 4, "--assume-clean a b", output=CLEAN, changes="a b"),
            Step("read --sector 63 --count 2 a b", fault="OutOfRange"),
            Step("write --sector 0 a b", fault="BadLength", given=bytes(100)),
            Step("write --sector 63 a b", fault="OutOfRange", given=DATA),
            Step("write --sector 0 a b", fault="OutOfRange"),
            Step("write --sector 63 --count 2 a b", fault="OutOfRange", given=DATA),
            Step("write --sector 0 --count 65 a b", fault="OutOfRange", given=DATA),
            Step("write --sector 0 --count 1 a b", fault="BadLength", given=DATA),
            Step("write --sector 0 --count 3 a b", fault="BadLength", given=DATA),
            Step("write --sector 0 --count 1 a b", fault="BadLength"),
        ],
    ),
    (
        "a member fails, and is removed",
        TWO,
        [
            create("raid1", 2, 4, "--assume-clean a b", output=CLEAN, changes="a b"),
            Step("write --sector 8 a b", WRITTEN, changes="a b", given=DATA[:SECTOR]),
            Step("remove --member 1 a b", fault="StillActive"),
            # Its own image stays as it is.
            Step("fail --member 1 a b", FAILED, changes="a"),
            Step("fail --member 1 a b", fault="NotActive"),
            Step("fail --member 0 a b", fault="LastMember"),
            Step("write --sector 16 a b", ALONE, changes="a", given=DATA[SECTOR:]),
            Step("remove --member 0 a b", fault="StillActive"),
            Step("remove --member 1 a b", ALONE),
            Step("fail --member 0 a", fault="LastMember"),
            Step("read --sector 16 --count 1 a", DATA[SECTOR:].decode()),
        ],
    ),
    (
        "no member of that index",
        TWO,
        [
            create("raid1", 2, 4, "--assume-clean a b", output=CLEAN, changes="a b"),
            Step("fail --member 2 a b", fault="BadMember"),
            Step("remove --member 2 a b", fault="BadMember"),
            Step("fail --member 4294967295 a b", fault="BadMember"),
            Step("fail --member 0 a a", fault="BadImage 1"),
            Step("remove --member 0 a c", fault="BadImage 1"),
        ],
    ),
    (
        "a spare is removed",
        TWO,
        WITH_A_SPARE
        + [
            Step("fail --member 2 a b c", fault="NotActive"),
            # The others are told, wherever it stands among them.
            Step("remove --member 1 a c b", "in sync 2 of 3, events 2, marked 0\n", changes="a b"),
            Step("assemble a b", "in sync 2 of 3, events 2, marked 0\n"),
        ],
    ),
    (
        "a third member is added, leaves and comes in again",
        THREE,
        [
            create("1", 3, 4, "--assume-clean a b missing", output="in sync 2 of 3, events 1, marked 0\n", changes="a b"),
            Step("add --device c a b", "in sync 2 of 3, events 2, marked 0\n", changes="a b c"),
            # Its number is not 2, whose entry is that of a missing member.
            Holds("c", "a", added(3)),
            Step("detail a b c", DETAIL_WITH_A_SPARE),
            Step("plan --member 2 a b c", PLAN),
            Step("remove --member 2 a b c", "in sync 2 of 3, events 3, marked 0\n", changes="a b"),
            Step("add --run --device c b a", "in sync 2 of 3, events 4, marked 0\n", told=STANDING % ("c", 3, "", "a spare"), changes="a b c"),
            Holds("c", "b", added(4)),
            Step("assemble c a b", "in sync 2 of 3, events 4, marked 0\n"),
        ],
    ),
    (
        "one that failed is added as a spare, and its data stay",
        TWO,
        [
            create("raid1", 2, 4, "--assume-clean a b", output=CLEAN, changes="a b"),
            Step("write --sector 8 a b", WRITTEN, changes="a b", given=DATA[:SECTOR]),
            Step("fail --member 1 a b", FAILED, changes="a"),
            Step("remove --member 1 a b", FAILED),
            Step("add --run --device b a", "in sync 1 of 2, events 5, marked 0\n", told=STANDING % ("b", 1, " in role 1", "in sync"), changes="a b"),
            Holds("b", "a", lambda first: members.with_data(added(2)(first), 8, DATA[:SECTOR])),
            Step("detail a b", DETAIL_OF_ONE),
            Step("read --sector 8 --count 1 a b", DATA[:SECTOR].decode()),
        ],
    ),
    (
        "the life of a mirror: one that failed and left comes back, and gets what was written since",
        TWO,
        LIFE_APART
        + [
            # Marks were last cleared at the events of the first write.
            Made("c", "b", lambda image: members.with_superblock(image, events=2)),
            Step("re-add --device c a", fault="NotReAddable"),
        ]
        + LIFE_TOGETHER,
    ),
    (
        "one that failed and left comes back, and lacks nothing",
        TWO,
        [
            create("raid1", 2, 4, "--assume-clean a b", output=CLEAN, changes="a b"),
            Step("fail --member 1 a b", "in sync 1 of 2, events 2, marked 0\n", changes="a"),
            Step("remove --member 1 a b", "in sync 1 of 2, events 2, marked 0\n"),
            Step("re-add --device b a", "in sync 2 of 2, events 4, marked 0\n", changes="a b"),
            Holds("b", "a", as_role(1, 1)),
        ],
    ),
    (
        "one that failed and left comes back, as JSON",
        {"a": ZEROS, "b": ZEROS, "c": ZEROS},
        [
            create("raid1", 2, 4, "--assume-clean a b", output=CLEAN, changes="a b"),
            Step("fail --member 1 a b", "in sync 1 of 2, events 2, marked 0\n", changes="a"),
            Step("remove --member 1 a b", "in sync 1 of 2, events 2, marked 0\n"),
            Step("re-add --json --device c a", ('{"fault":"Member Super Magic","text":"mdcli: Member Super Magic","advice":"', '"}\n'), fault="Member Super Magic"),
            Step("re-add --json --device b a", RE_ADDED_OBJECT, changes="a b"),
            Holds("b", "a", as_role(1, 1)),
        ],
    ),
    (
        "one that failed and left comes back, and gets all of the data where that is asked for",
        {"a": ZEROS, "b": ZEROS, "c": ZEROS, "d": ZEROS},
        [
            create("raid1", 2, 4, "--assume-clean a b", output=CLEAN, changes="a b"),
            Step("fail --member 1 a b", "in sync 1 of 2, events 2, marked 0\n", changes="a"),
            Step("remove --member 1 a b", "in sync 1 of 2, events 2, marked 0\n"),
            # It was written to elsewhere, and nothing on it tells.
            Made("c", "b", lambda image: members.with_data(image, 40, DATA[:SECTOR])),
            Made("d", "a", lambda image: image),
            Step("re-add --device c d", "in sync 2 of 2, events 4, marked 0\n", changes="c d"),
            Step("check c d", "mismatched chunks: 1\n"),
            Made("c", "b", lambda image: members.with_data(image, 40, DATA[:SECTOR])),
            Step("re-add --full --device c a", "in sync 2 of 2, events 4, marked 0\n", changes="a c"),
            Step("check a c", "mismatched chunks: 0\n"),
            Holds("c", "a", as_role(1, 1)),
        ],
    ),
    (
        "one that does not come back is as it was, also where all of the data is asked for",
        {"a": ZEROS, "b": ZEROS, "c": ZEROS, "d": bytes(15 * SECTOR), "e": ZEROS},
        LIFE_APART
        + [
            # Its events are below those at which marks were last cleared: the flag is set on it, and taken away again.
            Made("c", "b", lambda image: members.with_superblock(image, events=2)),
            Step("re-add --full --device c a", fault="NotReAddable"),
            Made("c", "b", lambda image: members.with_superblock(image, events=99)),
            Step("re-add --full --device c a", fault="NotReAddable"),
            Made("c", "b", lambda image: members.with_superblock(image, set_uuid=bytes(16))),
            Step("re-add --full --device c a", fault="NotReAddable"),
            Made("c", "b", lambda image: members.with_superblock(image, feature_map=0)),
            Step("re-add --full --device c a", fault="NotReAddable"),
            Step("re-add --full --device d a", fault="Member TooShort"),
            Step("re-add --full --device e a", fault="Member Super Magic"),
            Step("re-add --full --device a a", fault="BadImage 1"),
        ],
    ),
    (
        "two halves of a mirror that were used apart",
        {"a": ZEROS, "b": ZEROS, "c": ZEROS},
        [
            create("raid1", 2, 4, "--assume-clean a b", output=CLEAN, changes="a b"),
            Step("assemble b", "in sync 1 of 2, events 1, marked 0\n", told=UNNAMED % (0, 0)),
            # Each of them is written alone: the rise of the events makes the absent one a failed one.
            Step("write --run --sector 8 a", "in sync 1 of 2, events 3, marked 1\n", told=UNNAMED % (1, 1), changes="a", given=DATA[:SECTOR]),
            Step("write --run --sector 40 b", "in sync 1 of 2, events 3, marked 1\n", told=UNNAMED % (0, 0), changes="b", given=DATA[SECTOR:]),
            Step("assemble a b", "in sync 1 of 2, events 3, marked 1\n", told=PARTED % ("b", "a")),
            Step("detail --readonly b a", ("", "     1      0      - faulty\n"), told=PARTED % ("a", "b")),
            # It shows sectors of the first, and says nothing of the other.
            Step("read --sector 8 --count 1 a b", DATA[:SECTOR].decode()),
            Step("remove --member 1 a b", "in sync 1 of 2, events 3, marked 1\n"),
            Step("assemble a", "in sync 1 of 2, events 3, marked 1\n"),
        ],
    ),
    (
        "what does not come back",
        {"a": ZEROS, "b": ZEROS, "c": ZEROS, "d": bytes(15 * SECTOR)},
        [
            create("raid1", 2, 4, "--assume-clean a b", output=CLEAN, changes="a b"),
            Step("re-add --device b a b", fault="BadImage 2"),
            Step("re-add --device e a b", fault="BadImage 2"),
            Step("re-add --device c a b", fault="Member Super Magic"),
            Step("re-add --device d a b", fault="Member TooShort"),
            Step("re-add --device c", fault="Assemble Empty"),
            Step("fail --member 1 a b", "in sync 1 of 2, events 2, marked 0\n", changes="a"),
            Step("remove --member 1 a b", "in sync 1 of 2, events 2, marked 0\n"),
            Step("add --device c a", "in sync 1 of 2, events 3, marked 0\n", changes="a c"),
            Step("rebuild --member 1 a c", REBUILT_SECOND, changes="a c"),
            Step("re-add --device b a c", fault="NotReAddable"),
        ],
    ),
    (
        "members by their images",
        {"a": ZEROS, "b": ZEROS, "c": ZEROS, "0": ZEROS},
        [
            create("raid1", 2, 4, "--assume-clean a b", output=CLEAN, changes="a b"),
            Step("fail --member b a b", "in sync 1 of 2, events 2, marked 0\n", changes="a"),
            Step("fail --member b b a", fault="NotActive"),
            Step("remove --member b a b", "in sync 1 of 2, events 2, marked 0\n"),
            Step("add --device c a", "in sync 1 of 2, events 3, marked 0\n", changes="a c"),
            Step("rebuild --member c a c", REBUILT_SECOND, changes="a c"),
            Step("plan --member c c a", fault="NotSpare"),
            # A number is a place, also where an image has that name.
            Step("fail --member 0 a 0", fault="Member 1 Super Magic"),
            Step("fail --member 2 a c", fault="BadMember"),
        ],
    ),
    (
        "a third member is rebuilt, and the plan is not shown",
        THREE,
        WITH_A_SPARE
        + [
            Step("rebuild --quiet --member 2 a b c", "rebuilt member 2, passes 1, orphans 0\n", changes="a b c"),
            Step("check a b c", AGREE),
            Step("rebuild --quiet --member 2 a b c", fault="NotSpare"),
            Step(
                "rebuild --json --member 2 a b c",
                ('{"fault":"NotSpare","text":"mdcli: NotSpare","advice":"', '"}\n'),
                fault="NotSpare",
            ),
        ],
    ),
    (
        "a third member is rebuilt, and what was done is an object",
        THREE,
        WITH_A_SPARE
        + [
            Step("rebuild --json --quiet --member 2 a b c", '{"report":"rebuild","member":2,"passes":1,"orphans":[]}\n', changes="a b c"),
            Step("check a b c", AGREE),
        ],
    ),
    (
        "a third member is rebuilt",
        THREE,
        [
            create("1", 3, 4, "--assume-clean a b missing", output="in sync 2 of 3, events 1, marked 0\n", changes="a b"),
            Step("add --device c a b", "in sync 2 of 3, events 2, marked 0\n", changes="a b c"),
            Step("write --sector 8 a b c", "in sync 2 of 3, events 4, marked 1\n", changes="a b c", given=DATA[:SECTOR]),
            Step("rebuild --member 2 a b c", REBUILT, changes="a b c"),
            Holds("c", "a", as_role(2, 3)),
            Step("check a b c", AGREE),
            Made("c", "c", lambda image: members.with_data(image, 63, DATA[:SECTOR])),
            Step("check a b c", DIFFER),
            Step("check a b", AGREE, told=UNNAMED % (3, 2)),
            Made("c", "a", as_role(2, 3)),
            Step("read --sector 8 --count 1 c", DATA[:SECTOR].decode(), told=UNNAMED % (0, 0) + UNNAMED % (1, 1)),
            Step("stop a b c", "in sync 3 of 3, events 6, marked 0\n"),
            Step("rebuild --member 2 a b c", fault="NotSpare"),
        ],
    ),
    (
        "a third member is rebuilt, and nothing was written",
        THREE,
        [
            create("1", 3, 4, "--assume-clean a b missing", output="in sync 2 of 3, events 1, marked 0\n", changes="a b"),
            Step("add --device c a b", "in sync 2 of 3, events 2, marked 0\n", changes="a b c"),
            Step("rebuild --member 2 a b c", REBUILT, changes="a b c"),
            Step("stop a b c", "in sync 3 of 3, events 4, marked 0\n"),
        ],
    ),
    (
        "a member that was rebuilt up to an offset gets the rest",
        TWO,
        [
            create("raid1", 2, 4, "--assume-clean a b", output=CLEAN, changes="a b"),
            # Sector 40 is in chunk 5.
            Made("a", "a", lambda image: members.with_data(image, 40, DATA)),
            Made("b", "b", rebuilt_up_to(64)),
            Step("detail a b", DETAIL_OF_RE_ADDED),
            Step("detail --verbose a b", far(DETAIL_OF_RE_ADDED, "a b", "8 of 8 chunks (100 %), all before sector 64 but 0 marked")),
            SaysTheSame("detail a b"),
            Made("b", "b", rebuilt_up_to(20)),
            Step("detail --verbose a b", far(DETAIL_OF_ONE_FROM_20, "a b", "2 of 8 chunks (25 %), all before sector 20 but 0 marked")),
            # Of the marked chunks 1 and 5 it has passed the first.
            Made("c", "a", lambda image: members.with_marks(image, [1, 5])),
            Step("detail --verbose c b", far(DETAIL_OF_ONE_FROM_20.replace("0 of 8", "2 of 8"), "c b", "1 of 8 chunks (12 %), all before sector 20 but 1 marked"), told=SAYS_MARKED),
            SaysTheSame("detail c b"),
            Step("rebuild --member 1 a b", REBUILT_FROM_SECTOR_20, changes="a b"),
            Holds("b", "a", as_role(1, 1)),
            Step("stop a b", "in sync 2 of 2, events 2, marked 0\n"),
        ],
    ),
    (
        "a chunk that no member can give is listed as bad",
        TWO,
        [
            create("1", 2, 4, "--assume-clean a missing", output="in sync 1 of 2, events 1, marked 0\n", changes="a"),
            Step("write --sector 0 a", "in sync 1 of 2, events 3, marked 8\n", changes="a", given=members.pattern(1, 64)),
            Made("a", "a", listing),
            Step("add --device b a", "in sync 1 of 2, events 4, marked 8\n", changes="a b"),
            Step("rebuild --run --member 1 a b", REBUILT_FROM_ONE, told=UNGIVEN % "b" + UNGIVEN_SECTORS % (1, 43) + CHUNKS_LISTED, changes="a b"),
            Step("examine-badblocks b", "        2088 for 8 sectors\n"),
            Step("examine-badblocks a", "        2091 for 1 sectors\n"),
            Step("read --sector 43 --count 1 a b", fault="Unreadable 43"),
            Step("read --sector 44 --count 4 b", fault="Unreadable 44"),
            Step("read --sector 44 --count 1 a b", members.pattern(1, 64)[44 * SECTOR : 45 * SECTOR].decode("utf-8", "backslashreplace")),
        ],
    ),
    (
        "a member without a log can't list a chunk that no member can give",
        TWO,
        [
            create("1", 2, 4, "--assume-clean a missing", output="in sync 1 of 2, events 1, marked 0\n", changes="a"),
            Step("write --sector 0 a", "in sync 1 of 2, events 3, marked 8\n", changes="a", given=members.pattern(1, 64)),
            Made("a", "a", listing),
            Step("add --device b a", "in sync 1 of 2, events 4, marked 8\n", changes="a b"),
            Made("b", "b", without_log),
            # It is admitted, and its data are copied. It stays a recovering member.
            Step("rebuild --run --member 1 a b", fault="LogFull 1", changes="a b"),
            Step("detail a b", DETAIL_OF_RECOVERING, told=SAYS_MARKED),
            # Until it is recorded again how far it came, the superblock of the second says less.
            Step("rebuild --run --member 1 a b", fault="LogFull 1", touches="b"),
            Step("read --sector 0 --count 1 b", fault="Assemble NotEnough"),
        ],
    ),
    (
        "a new member beside the example member is rebuilt, and fails",
        {"a": VAULT, "b": ZEROS},
        [
            NEW_BESIDE_VAULT,
            Step("rebuild --verbose --member 1 a b", REBUILT_SECOND, changes="a b"),
            Step("fail --verbose --member 1 a b", "in sync 1 of 2, events 14, marked 0\n", changes="a"),
        ],
    ),
    (
        "a chunk of which a copy lacks a sector is listed on the new member, since no other gives it, and the sector on its source",
        {"a": VAULT, "b": ZEROS, "late": lacks((9, 1))},
        [
            NEW_BESIDE_VAULT,
            Step(
                "rebuild --run --verbose --map a=late --member 1 a b",
                REBUILT_BUT_ONE,
                told=UNGIVEN % "b" + UNGIVEN_SECTORS % (1, 9) + CHUNKS_LISTED,
                changes="a b",
            ),
            Step("examine-badblocks --verbose a", "        2057 for 1 sectors\n"),
            Step("examine-badblocks --verbose b", "        2056 for 8 sectors\n"),
        ],
    ),
    (
        "a sector that can't be read is listed alone on its source, and on the new member, where it is to be salvaged",
        {"a": VAULT, "b": ZEROS, "late": lacks((9, 1))},
        [
            NEW_BESIDE_VAULT,
            Step("rebuild --salvage --map a=late --member 1 a b", SALVAGED_BUT_ONE, told=ONE_UNGIVEN + UNGIVEN_SECTORS % (1, 9), changes="a b"),
            Step("examine-badblocks --verbose a", "        2057 for 1 sectors\n"),
            Step("examine-badblocks --verbose b", "        2057 for 1 sectors\n"),
            Step("rebuild --salvage --map a=late --member 1 a b", fault="NotSpare"),
        ],
    ),
    (
        "sectors that can't be read are told of in an object",
        {"a": VAULT, "b": ZEROS, "late": lacks((9, 1))},
        [
            NEW_BESIDE_VAULT,
            Step(
                "rebuild --salvage --json --map a=late --member 1 a b",
                '{"report":"rebuild","member":1,"passes":1,"lost_sectors":1,"listed_besides":0,"lost":[{"sector":9,"sectors":1}]}\n',
                told=ONE_UNGIVEN + UNGIVEN_SECTORS % (1, 9),
                changes="a b",
            ),
        ],
    ),
    (
        "a member without a log is not salvaged, and nothing is changed",
        {"a": VAULT, "b": ZEROS},
        [
            NEW_BESIDE_VAULT,
            Made("b", "b", without_log),
            Step("rebuild --salvage --member 1 a b", fault="LogFull 1"),
            Step(
                "rebuild --salvage --json --member 1 a b",
                ('{"fault":"LogFull 1","text":"mdcli: LogFull 1","advice":"', '"}\n'),
                fault="LogFull 1",
            ),
            Step("rebuild --salvage --member 2 a b", fault="BadMember"),
        ],
    ),
    (
        "what a map lacks need not be listed on its source",
        {"a": without_log(VAULT), "b": ZEROS, "late": lacks((9, 1))},
        [
            NEW_BESIDE_VAULT,
            Step(
                "rebuild --run --verbose --map a=late --member 1 a b",
                """rounds 7, chunks 7, orphans 1
   chunk source    round
       0      0        0
       2      0        1
       3      0        2
       4      0        3
       5      0        4
       6      0        5
       7      0        6
certificate for 6 rounds: 0 2 3 4 5 6 7
orphans: 1
rebuilt member 1, passes 1, orphans 1
""",
                told="mdcli: b: no member gave all of it: the sectors that are listed as bad in it, also good ones of the same chunks, are now 8\n"
                "mdcli: sectors of the array that no member in sync gives: 1, the first is 9\n"
                "mdcli: `rebuild --salvage` would have listed only the sectors that no member gave, and not their whole chunks, as long as the logs had room\n"
                "mdcli: a: its log does not list all that its map lacks: later commands need the map, too; leave it out of `write`, `serve`, `re-add` and a kernel's array, which take none\n",
                changes="a b",
            ),
            Step("fail --verbose --member 1 a b", "in sync 1 of 2, events 14, marked 0\n", changes="a"),
        ],
    ),
    (
        "what is not rebuilt",
        TWO,
        WITH_A_SPARE
        + [
            Step("rebuild --member 1 a b c", fault="NotSpare"),
            Step("rebuild --member 3 a b c", fault="BadMember"),
            Step("rebuild --member 0 a a", fault="BadImage 1"),
            Step("rebuild --member 0 a d", fault="BadImage 1"),
            Step("rebuild --member 0", fault="Assemble Empty"),
        ],
    ),
    (
        "no rebuild of an array whose members may differ",
        TWO,
        [
            create("1", 2, 4, "a b", output="in sync 2 of 2, events 1, marked 8\n", changes="a b"),
            Made("c", "a", spare_beside),
            Step("rebuild --member 2 a b c", fault="NotSpare"),
        ],
    ),
    (
        "members that may differ agree before a third one is rebuilt",
        TWO,
        [
            create("1", 3, 4, "a b missing", output="in sync 2 of 3, events 1, marked 8\n", changes="a b"),
            Made("b", "b", lambda image: members.with_data(image, 8, DATA)),
            Made("c", "a", spare_beside),
            Step("rebuild --member 2 a b c", REBUILT, changes="a b c"),
            Holds("c", "a", spare_beside),
            Step("read --sector 8 --count 2 b a c", BLANK),
        ],
    ),
    ("re-add, the event count can't rise", {"a": SPENT, "b": ZEROS}, [Step("re-add --run --device b a", fault="Member Super Magic")]),
    (
        "what is not added",
        {"a": ZEROS, "b": ZEROS, "c": SHORT},
        [
            create("raid1", 2, 4, "--assume-clean a b", output=CLEAN, changes="a b"),
            Step("add --device c a b", fault="TooSmall"),
            Step("add --device a a b", fault="BadImage 2"),
            Step("add --device d a b", fault="BadImage 2"),
            Step("add --device c a d", fault="BadImage 1"),
            Step("add --device c a c", fault="BadImage 2"),
            Step("add --device c", fault="Assemble Empty"),
            Step("add --device a c b", fault="Member 0 Super Magic"),
        ],
    ),
    (
        "the limits of add and create",
        {"a": ZEROS, "b": ZEROS, "c": ZEROS, "d": SHORT},
        [
            create("raid1", 2, 3, "--assume-clean a b", fault="BadGeometry"),
            create("raid1", 2, 4, "--assume-clean a b", output=CLEAN, changes="a b"),
            Step("add --device d a b", fault="TooSmall"),
            Step("add --device c a b", "in sync 2 of 2, events 2, marked 0\n", changes="a b c"),
            Step("rebuild --member 2 a b c", fault="NotSpare"),
        ],
    ),
    ("add, the event count can't rise", {"a": SPENT, "b": ZEROS}, [Step("add --run --device b a", fault="EventsFull")]),
    (
        "what an added image holds is told, and of a refused addition the fault alone",
        {"a": ZEROS, "b": ZEROS, "c": changed(ZEROS, (1080, "H", 0xEF53)), "d": changed(SHORT, (1080, "H", 0xEF53))},
        [
            create("raid1", 2, 4, "--assume-clean a b", output=CLEAN, changes="a b"),
            Step("add --run --device d a b", fault="TooSmall"),
            Step("add --run --device c a b", "in sync 2 of 2, events 2, marked 0\n", told=EXT % "c", changes="a b c"),
            Step("add --run --device b a c", "in sync 1 of 2, events 3, marked 0\n", told=FORGOTTEN % "b", changes="a b c"),
        ],
    ),
    ("the plan of a third member", TWO, WITH_A_SPARE + [Step("plan --member 2 a b c", PLAN), Step("plan --json --member 2 a b c", ('{"report":"plan","rounds":', '}]}\n'))]),
    (
        "no plan",
        TWO,
        WITH_A_SPARE
        + [
            Step("plan --readonly --member 1 a b c", fault="NotSpare"),
            Step("plan --readonly --member 3 a b c", fault="BadMember"),
        ],
    ),
]


def of_set(number, events, roles, raid_disks=2, **fields):
    """The example member with another number and count, and these roles by its superblock."""
    return members.with_superblock(
        VAULT, dict(enumerate(roles)), dev_number=number, events=events, raid_disks=raid_disks, max_dev=len(roles), **fields
    )


def shows(words, *lines, **answer):
    return Step("detail --readonly " + words, list(lines), **answer)


FIRST_IN_SYNC = "     0      0      0 in sync"

# What the images make of each other: none of them is changed. No call for memory is refused in these: tests/refused_memory plays CASES.
ASSEMBLED = [
    (
        "stale by its events",
        {name: of_set(number, 10 - number, [0, 1, 2], raid_disks=3) for number, name in enumerate("abc")},
        [shows("a b c", FIRST_IN_SYNC, "     1      1      1 in sync", "     2      2      2 stale")],
    ),
    (
        "faulty by the freshest",
        {"a": of_set(0, 11, [0, 0xFFFE]), "b": of_set(1, 10, [0, 1])},
        [shows("a b", FIRST_IN_SYNC, "     1      1      - faulty")],
    ),
    (
        "no array",
        {"a": VAULT, "b": VAULT, "c": members.with_superblock(VAULT, set_uuid=bytes(16))},
        [
            Step("assemble a b", fault="Assemble DoubleNumber 0 1"),
            Step("assemble a c", fault="Assemble Stranger 1"),
            Step("assemble", fault="Assemble Empty"),
        ],
    ),
    (
        "a number past the roles is a spare's",
        {"a": VAULT, "b": of_set(2**32 - 1, 10, [0, 1])},
        [shows("a b", FIRST_IN_SYNC, "     1 4294967295      - spare", told=UNNAMED % (1, 1))],
    ),
    (
        "a member whose recovery is not done takes its role all the same",
        {"a": of_set(0, 10, [0, 1, 0]), "b": of_set(2, 10, [0, 1, 0], feature_map=members.BITMAP_BIT | members.RECOVERY_BIT)},
        [Step("assemble a b", fault="Assemble DoubleRole 0")],
    ),
]


def all_of(images):
    """Each report on an array of these images."""
    return [SaysTheSame(command + " " + images) for command in ("assemble", "detail", "check")]


ODD = 'a"b\\c'
# Names with what JSON escapes, and with what it does not.
ESCAPED = 'a "b"\\\x01\x1f\n\t\b\f\r.img'
UNESCAPED = "\u00e9\x7f \U0001f4be"
# A superblock of the greatest numbers that it can have and be read, and one of the least.
GREATEST = members.with_superblock(
    VAULT,
    {0: 31},
    feature_map=members.BITMAP_BIT | members.RECOVERY_BIT | members.BAD_BLOCKS_BIT,
    set_name=b'"a\\b"\xff\x01\0x'.ljust(32, b"x"),
    ctime=2**64 - 1,
    size=2**64 - 1,
    raid_disks=32,
    bitmap_offset=2**31 - 1,
    data_offset=2**64 - 1,
    data_size=2**53 + 1,
    recovery_offset=2**64 - 2,
    bblog_size=2**16 - 1,
    bblog_offset=2**31 - 1,
    devflags=255,
    utime=2**64 - 1,
    events=2**64 - 1,
    resync_offset=0,
)
LEAST = members.with_superblock(
    GREATEST,
    {0: 0xFFFF},
    feature_map=members.BITMAP_BIT,
    set_name=bytes(32),
    ctime=0,
    size=0,
    raid_disks=1,
    bitmap_offset=-(2**31),
    data_offset=0,
    data_size=0,
    bblog_offset=-(2**31),
    devflags=0,
    utime=0,
    events=0,
    resync_offset=2**64 - 1,
)
# The marks of 4096 chunks, in two sectors, and what stands there.
MARKED_TWICE = changed(VAULT, (BITMAP + 40, "Q", 32768), (17 * SECTOR, "B", 5))
MARKED_REPORT = RAW_BITMAP.replace("Super Fault     : Checksum\n", "").replace(": 64 sectors", ": 32768 sectors")
MARKED_REPORT = MARKED_REPORT.replace("8 chunks, 1 marked", "4096 chunks, 3 marked")



def at_events(events, roles, **fields):
    """What makes, of the image of a member, that of one that has this event count, and these roles."""
    return lambda image: members.with_header(members.with_superblock(image, roles, events=events, **fields), events=events)


def made(name, *changes):
    """An image is changed by each of these in turn."""

    def make(image):
        for change in changes:
            image = change(image)
        return image

    return Made(name, name, make)


def marking(*chunks):
    return lambda image: members.with_marks(image, chunks)


def active(image):
    """The image of a member that was not stopped."""
    return members.with_superblock(image, resync_offset=0)


def unready(images, line, first=None):
    """What is said, by each command that shows it, of an array that is not ready for a kernel; of one that is, where the line is empty. It is
    left as it is."""
    alike = [Step(command + " --readonly " + images, ["     0      0      0 in sync"] if command == "detail" else ("in sync ", "\n"), told=line) for command in ("assemble", "detail")]
    objects = [HasValues(command + " --readonly " + images, {"/run_before_kernel": first}) for command in ("assemble", "detail")]
    return alike + [SaysTheSame("assemble " + images), SaysTheSame("detail " + images)] + objects


def stopped(images, line, first, changes=""):
    """What is said as it is stopped, which changes these images."""
    end = '"run_before_kernel":%s}\n' % ('"%s"' % first if first else "null")
    return [Step("stop --json " + images, ('{"report":"stop",', end), told=line, changes=changes), Step("stop " + images, ("in sync ", "\n"), told=line)]


# Two members of three whose superblocks give the last role to nobody, and one that is recovering in it, as its own tells alone.
FIRST_MOMENT = WITH_A_SPARE[:1] + [
    Made("c", "a", as_role(2, 2)),
    made("c", rebuilt_up_to(0), at_events(2, {2: 2})),
    made("a", at_events(1, {2: 0xFFFF})),
    made("b", at_events(1, {2: 0xFFFF})),
]
# Chunk 3 differs, as after a write that was cut, and a third member was rebuilt past it.
CUT_BESIDE_ONE = [
    create("1", 3, 4, "--assume-clean a b c", output="in sync 3 of 3, events 1, marked 0\n", changes="a b c"),
    made("a", marking(3), active),
    made("b", marking(3), active, lambda image: members.with_data(image, 24, DATA)),
    made("c", active, rebuilt_up_to(48)),
]
# The second member of two is recovering: chunk 3 begins before the sector up to which it was rebuilt, and chunk 4 does not.
TO_SECTOR_25 = [
    create("1", 2, 4, "--assume-clean a b", output=CLEAN, changes="a b"),
    made("b", rebuilt_up_to(25)),
]
# It is out, and one event behind.
ONE_BEHIND = TO_SECTOR_25 + [made("a", at_events(2, {1: 0xFFFE}))]
FOR_A_KERNEL = [
    (
        "not ready for a kernel: two that may differ beside a spare",
        THREE,
        [
            create("1", 3, 4, "a b missing", output="in sync 2 of 3, events 1, marked 8\n", changes="a b"),
            Step("add --device c a b", "in sync 2 of 3, events 2, marked 8\n", changes="a b c"),
            *unready("a b c", MAY_DIFFER, "resync"),
            *stopped("a b c", MAY_DIFFER, "resync"),
            Step("resync a b c", "in sync 2 of 3, events 3, marked 8\n", changes="a b c"),
            *unready("a b c", ""),
            *stopped("a b c", "", None),
        ],
    ),
    (
        "not ready for a kernel: two that differ beside one that is recovering",
        THREE,
        CUT_BESIDE_ONE
        + unready("a b c", MAY_DIFFER, "resync")
        + stopped("a b c", MAY_DIFFER, "resync")
        + [Step("resync a b c", "in sync 2 of 3, events 2, marked 1\n", changes="a b c")]
        + unready("a b c", "")
        + [Step("check a b c", AGREE)],
    ),
    (
        "ready for a kernel: two that agree, and marks for one that is a spare",
        THREE,
        WITH_A_SPARE + [made("a", marking(3)), made("b", marking(3))] + unready("a b c", "") + stopped("a b c", "", None),
    ),
    (
        "not ready for a kernel: a role of which one superblock alone tells",
        THREE,
        FIRST_MOMENT
        + unready("a b c", TOLD_BY_ONE, "rebuild")
        + [made("b", at_events(2, {2: 2}))]
        + unready("a b c", "")
        + stopped("a b c", "", None, changes="a"),
    ),
    (
        "not ready for a kernel: one that says that it has a marked chunk",
        TWO,
        TO_SECTOR_25
        + unready("a b", "")
        + [made("a", marking(4))]
        + unready("a b", "")
        + [made("a", marking(3))]
        + unready("a b", SAYS_MARKED, "rebuild")
        + stopped("a b", SAYS_MARKED, "rebuild")
        + [Step("rebuild --quiet --member 1 a b", "rebuilt member 1, passes 1, orphans 0\n", changes="a b")]
        + unready("a b", ""),
    ),
    (
        "not ready for a kernel: one that is out, and one event behind",
        TWO,
        ONE_BEHIND
        + unready("a b", LEFT_OUT, "add")
        + stopped("a b", LEFT_OUT, "add")
        + [Step("add --run --device b a", "in sync 1 of 2, events 3, marked 0\n", told=STANDING % ("b", 1, " in role 1", "recovering"), changes="a b")]
        + unready("a b", ""),
    ),
    (
        "ready for a kernel: one that is out, and two events behind",
        TWO,
        TO_SECTOR_25 + [made("a", at_events(3, {1: 0xFFFE}))] + unready("a b", ""),
    ),
    (
        "ready for a kernel: one that is out, and says that it has nothing",
        TWO,
        ONE_BEHIND + [made("b", rebuilt_up_to(0))] + unready("a b", ""),
    ),
]

# The images of as many members as there can be, and the pairs of which the second is one.
MANY = " ".join("%d.img" % role for role in range(32))
PAIRS = [sorted((1, role)) for role in range(32) if role != 1]
LISTED_MANY = "".join(
    "%12d for 8 sectors, members %s\n" % (sector, " ".join("%d!=%d" % tuple(pair) for pair in PAIRS)) for sector in (0, 56)
) + "mismatched chunks: 2\n"
# Of chunks 3 and 7 each member lists a sector. All others but 6 only the first one gives: they have too few sources for a round fewer.
PLAN_WITH_ORPHANS = {
    "/report": "plan",
    "/rounds": 5,
    "/chunks": [
        {"chunk": 0, "source": 0, "round": 0},
        {"chunk": 1, "source": 0, "round": 1},
        {"chunk": 2, "source": 0, "round": 2},
        {"chunk": 4, "source": 0, "round": 3},
        {"chunk": 5, "source": 0, "round": 4},
        {"chunk": 6, "source": 1, "round": 0},
    ],
    "/certificate": {"rounds": 4, "chunks": [0, 1, 2, 4, 5]},
    "/orphans": [3, 7],
    "/members/2/state": "spare",
    "/members/2/role": None,
}
# Of an array of as many chunks as there can be: the member lacks marked chunks alone, of which two are given by none.
PLAN_OF_THE_LAST_CHUNK = {
    "/report": "plan",
    "/rounds": 1,
    "/chunks": [{"chunk": 5, "source": 1, "round": 0}, {"chunk": 6, "source": 0, "round": 0}],
    "/certificate": {"rounds": 0, "chunks": [5, 6]},
    "/orphans": [3, 2**20 - 1],
    "/members/2/state": "re-added",
}

class Unreadable:
    """What is shown with --all of a disk that does not give some sectors: the text, and the fields in which the object differs from that of
    a disk which gives them; or the whole object, where it has fewer fields."""

    def __init__(self, command, image, sectors, text, differs=None, whole=None):
        self.command, self.image, self.sectors, self.text = command, image, sectors, text
        self.differs, self.whole = differs, whole

    def wanted(self, readable):
        """The object, by that of a disk that gives all."""
        return {**readable, **self.differs} if self.whole is None else self.whole


def unreadable_at(sector):
    return "Unreadable At   : %d sectors\n" % sector


AT_71 = [{"sector": 71, "array_uuid": None}]
UNREADABLE = [
    Unreadable("examine", VAULT, range(15, 16), unreadable_at(9) + SOUND_REPORT, {"unreadable_at": 9}),
    Unreadable("examine", VAULT, range(9, 16), unreadable_at(9) + SOUND_REPORT, {"unreadable_at": 9}),
    Unreadable("examine", VAULT, range(71, 72), SOUND_REPORT + unreadable_at(71), {"elsewhere": AT_71}),
    Unreadable(
        "examine",
        VAULT,
        range(15, 72),
        unreadable_at(9) + SOUND_REPORT + unreadable_at(71),
        {"unreadable_at": 9, "elsewhere": AT_71},
    ),
    Unreadable(
        "examine",
        TWICE,
        range(2056, 2057),
        SOUND_REPORT + unreadable_at(2056) + ELSEWHERE.splitlines(True)[1],
        {"elsewhere": [{"sector": 2056, "array_uuid": None}, {"sector": 2096, "array_uuid": SET}]},
    ),
    Unreadable(
        "examine",
        VAULT,
        range(8, 9),
        unreadable_at(8),
        whole={"report": "examine --all", "unreadable_at": 8, "elsewhere": []},
    ),
    Unreadable(
        "examine",
        TWICE,
        range(8, 9),
        unreadable_at(8) + ELSEWHERE,
        whole={
            "report": "examine --all",
            "unreadable_at": 8,
            "elsewhere": [{"sector": 2056, "array_uuid": SET}, {"sector": 2096, "array_uuid": SET}],
        },
    ),
    Unreadable(
        "examine-bitmap",
        MARKED_TWICE,
        range(17, 18),
        MARKED_REPORT.replace("3 marked", "1 marked") + "Unread          : 2048 chunks\n" + unreadable_at(17),
        {"bitmap_unreadable_at": 17, "marked_chunks": 1, "unread_chunks": 2048},
    ),
    Unreadable("examine-bitmap", MARKED_TWICE, range(9, 16), unreadable_at(9) + MARKED_REPORT, {"unreadable_at": 9}),
    Unreadable(
        "examine-bitmap",
        MARKED_TWICE,
        range(16, 17),
        unreadable_at(16),
        whole={"report": "examine-bitmap --all", "unreadable_at": None, "super_faults": [], "bitmap_unreadable_at": 16},
    ),
    Unreadable(
        "examine-bitmap",
        MARKED_TWICE,
        range(8, 17),
        unreadable_at(8),
        whole={"report": "examine-bitmap --all", "unreadable_at": 8},
    ),
    Unreadable(
        "examine-badblocks",
        LISTED,
        range(2035, 2036),
        "".join(RAW_LOG.splitlines(True)[1:4]) + unreadable_at(2032),
        {"log_unreadable_at": 2032, "entries": []},
    ),
    Unreadable(
        "examine-badblocks",
        UNSUMMED_LOGGED,
        range(2032, 2033),
        "".join(RAW_LOG.splitlines(True)[:4]) + unreadable_at(2032),
        {"log_unreadable_at": 2032, "entries": []},
    ),
    Unreadable(
        "examine-badblocks",
        VAULT,
        range(8, 9),
        unreadable_at(8),
        whole={"report": "examine-badblocks --all", "unreadable_at": 8, "log_unreadable_at": None, "entries": []},
    ),
]

# Each report as an object says what it says as text, also where it is refused. No call for memory is refused in these either.
AS_JSON = [
    ("examine --json, of each kind", {"a": VAULT}, [SaysTheSame("examine a"), SaysTheSame("examine-bitmap a"), SaysTheSame("examine-badblocks a")]),
    (
        "examine --json, a log",
        {"a": LISTED, "b": members.with_superblock(VAULT, bblog_size=0, bblog_offset=0)},
        [SaysTheSame("examine a"), SaysTheSame("examine-badblocks a"), SaysTheSame("examine b")],
    ),
    (
        "examine --json, nothing where there is none",
        {"a": WITHOUT_BITMAP, "b": members.with_superblock(VAULT, bitmap_offset=-8)},
        [SaysTheSame("examine a"), SaysTheSame("examine-bitmap a"), SaysTheSame("examine b")],
    ),
    (
        "examine --json, other roles and a name that is no text",
        {
            "a": as_role(0xFFFF, 2)(VAULT),
            "b": as_role(0xFFFE, 2)(VAULT),
            "c": members.with_superblock(rebuilt_up_to(16)(VAULT), set_name=b'a"\\\xe4\x01' + bytes(27), resync_offset=0),
        },
        [SaysTheSame("examine " + name) for name in "abc"],
    ),
    (
        "why a command is refused, as JSON",
        {"a": VAULT, "b": ZEROS},
        [
            Step("detail --json --readonly a b", REFUSED_OBJECT, fault="Member 1 Super Magic"),
            Step("check --json --exit-code a b", REFUSED_OBJECT, fault="Member 1 Super Magic"),
            Step("stop --json a b", REFUSED_OBJECT, fault="Member 1 Super Magic"),
            Step("detail --readonly a b", fault="Member 1 Super Magic"),
            SaysTheSame("assemble a a"),
            SaysTheSame("plan --member 0 a"),
            SaysTheSame("plan --member 7 a"),
            SaysTheSame("check"),
            SaysTheSame("examine b"),
        ],
    ),
    (
        "examine --json, refused",
        {"a": DAMAGED, "b": bytes(15 * SECTOR)},
        [SaysTheSame(words) for words in ("examine a", "examine b", "examine-bitmap a", "examine-badblocks b", "examine a b", "examine")],
    ),
    (
        "examine --all --json",
        {"a": DAMAGED, "b": RUINED, "c": TWICE, "d": ZEROS, "e": bytes(15 * SECTOR)},
        [SaysTheSame("examine --all " + name) for name in "abcde"] + [SaysTheSame("examine --all a b")],
    ),
    (
        "examine-bitmap --all --json",
        {"a": UNSUMMED_LOGGED, "b": BROKEN_BITMAP, "c": WITHOUT_BITMAP, "d": CUT_BITMAP},
        [SaysTheSame("examine-bitmap --all " + name) for name in "abcd"],
    ),
    (
        "examine-badblocks --all --json",
        {"a": UNSUMMED_LOGGED, "b": changed(VAULT, (SUPER + 186, "H", 0)), "c": changed(LISTED, (SUPER + 185, "B", 10))},
        [SaysTheSame("examine-badblocks --all " + name) for name in "abc"],
    ),
    (
        "an array as JSON",
        {ODD: VAULT, "b": of_set(1, 10, [0, 1])},
        all_of(ODD + " b") + all_of("b " + ODD) + all_of(ODD),
    ),
    (
        "an array as JSON, members in each state",
        {
            "a": of_set(0, 10, [0, 1, 2, 0xFFFE], raid_disks=4),
            "b": of_set(1, 8, [0, 1, 2, 0xFFFE], raid_disks=4),
            "c": of_set(2, 10, [0, 1, 2, 0xFFFE], raid_disks=4, feature_map=members.BITMAP_BIT | members.RECOVERY_BIT, devflags=1),
            "d": of_set(3, 10, [0, 1, 2, 3], raid_disks=4),
            "e": of_set(4, 10, [0, 1, 2, 0xFFFE], raid_disks=4),
        },
        all_of("a b c d e") + [SaysTheSame("plan --member %d a b c d e" % k) for k in range(6)],
    ),
    (
        "a plan as JSON",
        THREE,
        WITH_A_SPARE
        + [SaysTheSame("plan --member 2 a b c"), Made("a", "a", listing), Made("b", "b", listing), SaysTheSame("plan --member 2 a b c")]
        + all_of("a b c"),
    ),
    (
        "a check as JSON",
        TWO,
        [
            create("raid1", 2, 4, "--assume-clean a b", output=CLEAN, changes="a b"),
            SaysTheSame("check a b"),
            Made("b", "b", lambda image: members.with_data(image, 8, DATA)),
            Made("b", "b", lambda image: members.with_data(image, 62, DATA)),
            SaysTheSame("check a b"),
            SaysTheSame("check b a"),
        ],
    ),
    (
        "examine --json, the greatest numbers and the least, to the last digit",
        {"a": GREATEST, "b": LEAST},
        [
            SaysTheSame("examine a"),
            HasValues(
                "examine a",
                {
                    "/report": "examine",
                    "/magic": "a92b4efc",
                    "/array_uuid": SET,
                    "/name": '"a\\b"??',
                    "/creation_time": 2**40 - 1,
                    "/raid_devices": 32,
                    "/used_dev_size": 2**64 - 1,
                    "/avail_dev_size": 2**53 + 1,
                    "/data_offset": 2**64 - 1,
                    "/recovery_offset": 2**64 - 2,
                    "/device_role": "active",
                    "/role": 31,
                    "/device_flags": 255,
                    "/internal_bitmap": 2**31 - 1,
                    "/bad_block_log": {"entries": 64 * (2**16 - 1), "offset": 2**31 - 1},
                    "/update_time": 2**40 - 1,
                    "/events": 2**64 - 1,
                    "/state": "active",
                },
            ),
            SaysTheSame("examine b"),
            HasValues(
                "examine b",
                {
                    "/name": "",
                    "/creation_time": 0,
                    "/used_dev_size": 0,
                    "/recovery_offset": None,
                    "/device_role": "spare",
                    "/role": None,
                    "/internal_bitmap": -(2**31),
                    "/bad_block_log": {"entries": 64 * (2**16 - 1), "offset": -(2**31)},
                    "/events": 0,
                    "/state": "clean",
                },
            ),
            SaysTheSame("examine --all a"),
            HasValues(
                "examine --all a",
                {
                    "/events": 2**64 - 1,
                    "/avail_dev_size": 2**53 + 1,
                    "/recovery_offset": 2**64 - 2,
                    "/resync_offset": 0,
                    "/bitmap_offset": 2**31 - 1,
                },
            ),
            SaysTheSame("examine --all b"),
            HasValues(
                "examine --all b",
                {
                    "/events": 0,
                    "/resync_offset": 2**64 - 1,
                    "/bitmap_offset": -(2**31),
                    "/roles": [{"device_number": 1, "role": 1}],
                },
            ),
        ],
    ),
    (
        "examine --json, the example member",
        {"a": VAULT},
        [
            HasValues(
                "examine a",
                {"/internal_bitmap": 8, "/recovery_offset": None, "/role": 0, "/bad_block_log": {"entries": 512, "offset": 2024}},
            ),
            HasValues(
                "examine --all a",
                {
                    "/report": "examine --all",
                    "/unreadable_at": None,
                    "/faults": [],
                    "/unsupported_features": 0,
                    "/array_uuid": SET,
                    "/resync_offset": 2**64 - 1,
                    "/computed_checksum": "8ab7c54f",
                    "/roles": [{"device_number": 0, "role": 0}, {"device_number": 1, "role": 1}],
                    "/elsewhere": [],
                },
            ),
        ],
    ),
    (
        "examine-badblocks --json, no run, and runs whose sectors are above 2^53",
        {"a": members.with_bad_blocks(VAULT, []), "b": members.with_bad_blocks(VAULT, [(7, 3), (2**53 + 1, 1), (2**54 - 512, 511)])},
        [
            HasValues("examine-badblocks a", {"": {"report": "examine-badblocks", "bad_blocks": []}}),
            HasValues(
                "examine-badblocks b",
                {
                    "/report": "examine-badblocks",
                    "/bad_blocks": [
                        {"sector": 7, "sectors": 3},
                        {"sector": 2**53 + 1, "sectors": 1},
                        {"sector": 2**54 - 512, "sectors": 511},
                    ],
                },
            ),
            SaysTheSame("examine-badblocks b"),
            SaysTheSame("examine-badblocks --all b"),
            HasValues(
                "examine-badblocks --all b",
                {
                    "/entries/1": {"entry": 1, "start": 2**53 + 1, "length": 1},
                    "/log_size": 8,
                    "/log_offset": 2024,
                    "/log_unreadable_at": None,
                },
            ),
        ],
    ),
    (
        "examine-bitmap --all --json, the marks of two sectors",
        {"a": MARKED_TWICE},
        [
            SaysTheSame("examine-bitmap --all a"),
            HasValues(
                "examine-bitmap --all a",
                {
                    "/report": "examine-bitmap --all",
                    "/unreadable_at": None,
                    "/super_faults": [],
                    "/bitmap_unreadable_at": None,
                    "/faults": [],
                    "/sync_size": 32768,
                    "/chunks": 4096,
                    "/marked_chunks": 3,
                    "/unread_chunks": 0,
                },
            ),
        ],
    ),
    (
        "names of images as JSON, with what is escaped there and what is not",
        {ESCAPED: of_set(0, 10, [0, 1]), UNESCAPED: of_set(1, 8, [0, 1])},
        [SaysTheSame([command, ESCAPED, UNESCAPED]) for command in ("assemble", "detail", "check")]
        + [SaysTheSame(["detail", "./" + UNESCAPED, "./" + ESCAPED])]
        + [
            HasValues(
                ["detail", "--readonly", "./" + ESCAPED, UNESCAPED],
                {
                    "/report": "detail",
                    "/name": "vault",
                    "/in_sync": 1,
                    "/degraded": True,
                    "/events": 10,
                    "/members/0/image": "./" + ESCAPED,
                    "/members/0/state": "in sync",
                    "/members/0/role": 0,
                    "/members/1/image": UNESCAPED,
                    "/members/1/state": "stale",
                    "/members/1/device_number": 1,
                    "/members/1/write_mostly": False,
                },
            )
        ],
    ),
    (
        "a plan as JSON, with chunks that no member can give",
        THREE,
        WITH_A_SPARE
        + [
            Made("a", "a", lambda image: members.with_bad_blocks(image, [(2048 + 24, 8), (2048 + 63, 1)])),
            Made("b", "b", lambda image: members.with_bad_blocks(image, [(2048, 18), (2048 + 30, 3), (2048 + 39, 2), (2048 + 56, 1)])),
            SaysTheSame("plan --member 2 a b c"),
            HasValues("plan --member 2 a b c", PLAN_WITH_ORPHANS),
        ],
    ),
    (
        "a check of as many members as can be as JSON: one of them differs from all others",
        {"%d" % role + ".img": ZEROS for role in range(32)},
        [
            create(
                "1",
                32,
                4,
                "--assume-clean " + MANY,
                output="in sync 32 of 32, events 1, marked 0\n",
                changes=" ".join(sorted(MANY.split())),
            ),
            Made("1.img", "1.img", lambda image: members.with_data(members.with_data(image, 3, DATA), 63, DATA[:SECTOR])),
            Step("check --list " + MANY, LISTED_MANY),
            SaysTheSame("check " + MANY),
            HasValues(
                "check --list " + MANY,
                {
                    "/report": "check",
                    "/mismatched_chunks": 2,
                    "/mismatches": [{"sector": sector, "sectors": 8, "pairs": PAIRS} for sector in (0, 56)],
                    "/members/1/index": 1,
                    "/members/31/image": "31.img",
                    "/members/31/role": 31,
                },
            ),
        ],
    ),
    (
        "check --list --json says what --json says",
        TWO,
        [
            create("raid1", 2, 4, "--assume-clean a b", output=CLEAN, changes="a b"),
            Step("check --list --json a b", EQUAL),
            Made("b", "b", lambda image: members.with_data(image, 8, DATA)),
            Step("check --json a b", CHECKED),
            Step("check --list --json a b", CHECKED),
            Step("check --json --list --readonly b a", CHECKED_TURNED),
            # All eight chunks differ.
            Made("b", "b", lambda image: members.with_data(image, 0, members.pattern(1, 64))),
            HasValues(
                "check --list a b",
                {
                    "/mismatched_chunks": 8,
                    "/mismatches": [{"sector": 8 * chunk, "sectors": 8, "pairs": [[0, 1]]} for chunk in range(8)],
                },
            ),
        ],
    ),
    (
        "no array as JSON",
        {"a": VAULT, "b": VAULT},
        [SaysTheSame(command + " " + names) for command in ("assemble", "detail", "check", "plan --member 0") for names in ("a b", "a a", "c", "")],
    ),
]


# With --verbose. Of a command that is done nothing more is told, and one that only looks is refused in the same words as one that may
# change images. No call for memory is refused in these either.
VERBOSE = [
    ("the life of a mirror, verbose", TWO, [verbose(step) for step in LIFE_APART + LIFE_TOGETHER[:-1]] + [Step("detail --verbose b a", DETAIL_WITH_IMAGES), SaysTheSame("detail b a")]),
    (
        "the example members are only looked at, verbose",
        {"a": VAULT, "b": OTHER, "late": lacks((9, 1))},
        [
            verbose(Step("check --readonly a b", AGREE)),
            verbose(Step("check --readonly --map b=late a b", AGREE)),
        ],
    ),
]


def write_images(folder, images):
    for name, content in images.items():
        (folder / name).write_bytes(content)


def put_back(folder, images):
    """The folder has these images and no other file."""
    write_images(folder, images)
    for path in folder.iterdir():
        if path.name not in images:
            path.unlink()


def read_images(folder):
    return {path.name: path.read_bytes() for path in sorted(folder.iterdir())}

