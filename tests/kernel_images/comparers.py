"""What the program has to answer for the images, command by command, as others than the program say it.

A comparer takes an array and gives a Case for each run of its command: over one image, or over all of them in each order.
"""

import itertools

import outside

# The feature bits that the program takes: a bitmap, a recovery offset, bad blocks.
TAKEN_FEATURES = 1 | 2 | 8
BITMAP_FEATURE = 1
RECOVERY_FEATURE = 2
FLAG_BITS = {"write-mostly": 1, "failfast": 2}
BYTES_OF_UNIT = {"KB": 2**10, "MB": 2**20}


class Line:
    """One line of a report: its text by each source that says it."""

    def __init__(self, **texts):
        self.texts = texts

    @classmethod
    def labelled(cls, label, **values):
        # A source that does not speak of the value is None.
        said = {source: value for source, value in values.items() if value is not None}
        return cls(**{source: "%-15s : %s" % (label, value) for source, value in said.items()})


class Case:
    """A run over some members, and the answer that it has to give: a report, or a fault."""

    def __init__(self, command, members, lines=None, fault=None, stores_marks_on=()):
        self.name = "%s %s" % (command, ", ".join(member.name for member in members))
        self.command = command
        self.members = members
        self.lines = lines
        self.fault = fault
        # The members on which the run stores its marks; no other may change.
        self.stores_marks_on = stores_marks_on

    def judge(self, status, output, errors):
        """The reasons against an answer, and how many of its lines were compared with something from outside."""
        if self.fault is not None:
            return self.judge_refusal(status, output, errors)
        reasons = []
        if status != 0:
            reasons.append("the status is %d, and 0 was wanted" % status)
        if errors:
            reasons.append("on standard error: %r" % errors)
        ours = output.split("\n")
        if ours.pop() != "":
            reasons.append("the last line is not ended")
        compared = 0
        for place, (our, line) in enumerate(zip(ours, self.lines), start=1):
            if not line.texts:
                reasons.append("line %d: nothing from outside to compare it with" % place)
                continue
            compared += 1
            for source, text in line.texts.items():
                if our != text:
                    reasons.append("line %d: ours is %r, by %s it is %r" % (place, our, source, text))
        if len(ours) != len(self.lines):
            reasons.append("%d lines, and %d were wanted" % (len(ours), len(self.lines)))
        return reasons, compared

    def judge_refusal(self, status, output, errors):
        reasons = []
        if status != 1:
            reasons.append("the status is %d, and 1 was wanted" % status)
        if output:
            reasons.append("a refused command wrote %r" % output)
        if errors != "mdcli: %s\n" % self.fault:
            reasons.append("on standard error %r, and 'mdcli: %s' was wanted" % (errors, self.fault))
        return reasons, 1


def strange_features(member):
    return member.facts["feature_map"] & ~TAKEN_FEATURES


def of_each_member(command, lines_or_fault):
    """A comparer of a command that takes one image. Features outside the profile come before all else."""

    def cases(array):
        for member in array.members:
            strange = strange_features(member)
            if strange:
                yield Case(command, [member], fault="Super Feature %d" % strange)
                continue
            answer = lines_or_fault(member)
            if isinstance(answer, str):
                yield Case(command, [member], fault=answer)
            else:
                yield Case(command, [member], lines=answer)

    return cases


def examine(member):
    mdadm = outside.labelled(member.examine_text)
    facts = member.facts
    bitmap = facts.get("bitmap")
    log = facts["bblog"]
    line = Line.labelled
    return [
        line("Magic", mdadm=mdadm["Magic"]),
        line("Version", mdadm=mdadm["Version"]),
        line("Feature Map", mdadm=hexadecimal(int(mdadm["Feature Map"], 16)), facts=hexadecimal(facts["feature_map"])),
        line("Array UUID", mdadm=outside.hyphenated(mdadm["Array UUID"])),
        line("Name", mdadm=outside.array_name(mdadm["Name"])),
        line("Creation Time", mdadm=outside.seconds(mdadm["Creation Time"])),
        line("Raid Level", mdadm=mdadm["Raid Level"]),
        line("Raid Devices", mdadm=mdadm["Raid Devices"], facts=facts["raid_disks"]),
        line(
            "Used Dev Size",
            # mdadm has this line only where it differs from the next.
            mdadm=in_sectors(outside.number(r"(\d+) sectors", mdadm.get("Used Dev Size", mdadm["Avail Dev Size"]))),
            mdadm_array_size=in_sectors(2 * outside.number(r"(\d+) KiB", mdadm["Array Size"])),
            facts=in_sectors(facts["size_sectors"]),
        ),
        line(
            "Avail Dev Size",
            mdadm=in_sectors(outside.number(r"(\d+) sectors", mdadm["Avail Dev Size"])),
            facts=in_sectors(facts["data_size"]),
        ),
        line("Data Offset", mdadm=mdadm["Data Offset"], facts=in_sectors(facts["data_offset"])),
        line("Super Offset", mdadm=mdadm["Super Offset"]),
        line("Recovery Offset", mdadm=mdadm.get("Recovery Offset", "none"), facts=recovery_offset(facts)),
        line("Device Number", facts=facts["dev_number"]),
        line("Device Role", mdadm=role_of_mdadm(mdadm["Device Role"]), facts=role_of_facts(facts["role"])),
        line("Device UUID", mdadm=outside.hyphenated(mdadm["Device UUID"]), facts=outside.hyphenated(facts["device_uuid"])),
        line("Device Flags", mdadm=hexadecimal(flags(mdadm.get("Flags", ""))), facts=hexadecimal(facts["devflags"])),
        line(
            "Internal Bitmap",
            mdadm=mdadm.get("Internal Bitmap", "none"),
            facts="%d sectors from superblock" % bitmap["offset_sectors_from_super"] if bitmap else "none",
        ),
        line(
            "Bad Block Log",
            mdadm=log_of_mdadm(mdadm.get("Bad Block Log")),
            facts=log_line(64 * log["size"], log["offset"]) if log["size"] and log["offset"] else "none",
        ),
        line("Update Time", mdadm=outside.seconds(mdadm["Update Time"])),
        line("Events", mdadm=mdadm["Events"], facts=facts["events"]),
        line("State", mdadm=mdadm["State"], facts="clean" if facts["resync_offset"] == "none" else "active"),
        line("Checksum", mdadm="%08x" % outside.correct_checksum(mdadm["Checksum"])),
        line("Array State", mdadm=mdadm["Array State"].split()[0], facts=array_state(facts)),
    ]


def hexadecimal(value):
    return "0x%x" % value


def in_sectors(count):
    return "%d sectors" % count


def recovery_offset(facts):
    return in_sectors(facts["recovery_offset"]) if facts["feature_map"] & RECOVERY_FEATURE else "none"


def role_of_mdadm(text):
    # mdadm calls a faulty device spare too, so its 'spare' decides nothing.
    return None if text == "spare" else "active %d" % outside.number(r"Active device (\d+)$", text)


def role_of_facts(role):
    return "active " + role if role.isdigit() else role


def flags(text):
    return sum(FLAG_BITS[word] for word in text.split())


def log_line(entries, offset):
    return "%d entries at %d sectors" % (entries, offset)


def log_of_mdadm(text):
    return "none" if text is None else log_line(*outside.numbers(r"(\d+) entries available at offset (-?\d+) sectors", text))


def array_state(facts):
    return "".join("A" if str(role) in facts["dev_roles"] else "." for role in range(facts["raid_disks"]))


def examine_bitmap(member):
    facts = member.facts.get("bitmap")
    if not member.facts["feature_map"] & BITMAP_FEATURE:
        if "doesn't have bitmap" not in member.bitmap_text or facts:
            raise outside.Unreadable("%s: a bitmap where the feature bit says none" % member.name)
        return "NoBitmap"
    mdadm = outside.labelled(member.bitmap_text)
    line = Line.labelled
    count, unit = mdadm["Chunksize"].split()
    return [
        line("Magic", mdadm=mdadm["Magic"]),
        line("Version", mdadm=mdadm["Version"]),
        line("Array UUID", mdadm=outside.hyphenated(mdadm["UUID"])),
        line("Events", mdadm=mdadm["Events"], facts=facts["events"]),
        line("Events Cleared", mdadm=mdadm["Events Cleared"], facts=facts["events_cleared"]),
        line("State", mdadm="0x0" if mdadm["State"] == "OK" else None, facts=hexadecimal(facts["state"])),
        line("Chunk Size", mdadm="%d bytes" % (int(count) * BYTES_OF_UNIT[unit]), facts="%d bytes" % facts["chunksize"]),
        line(
            "Daemon Sleep",
            mdadm="%d seconds" % outside.number(r"(\d+)s flush period$", mdadm["Daemon"]),
            facts="%d seconds" % facts["daemon_sleep"],
        ),
        # mdadm gives KiB here, without a word.
        line(
            "Sync Size",
            mdadm=in_sectors(2 * outside.number(r"(\d+)", mdadm["Sync Size"])),
            facts=in_sectors(facts["sync_size"]),
        ),
        line(
            "Bitmap",
            mdadm="%d chunks, %d marked" % tuple(outside.numbers(r"(\d+) bits \(chunks\), (\d+) dirty", mdadm["Bitmap"])),
            facts="%d chunks, %d marked" % (facts["chunks"], facts["dirty"]),
        ),
    ]


def maximal_runs(entries):
    """The sectors that the entries name, as runs in rising order that neither meet nor touch."""
    runs = []
    for first, length in sorted(entries):
        if length == 0:
            continue
        if runs and first <= runs[-1][1]:
            runs[-1][1] = max(runs[-1][1], first + length)
        else:
            runs.append([first, first + length])
    return [(first, end - first) for first, end in runs]


def run_lines(entries):
    return ["%12d for %d sectors" % run for run in maximal_runs(entries)] or ["no bad blocks"]


def examine_badblocks(member):
    mdadm = run_lines(outside.listed_sectors(member.badblocks_text))
    facts = run_lines([(entry["sector"], entry["count"]) for entry in member.facts["bad_blocks"]])
    if len(mdadm) != len(facts):
        raise outside.Unreadable("%s: mdadm and facts.json list different runs" % member.name)
    return [Line(mdadm=one, facts=other) for one, other in zip(mdadm, facts)]


def marked_chunks(member):
    """The chunks that a member's bitmap marks: all of them where it is not accepted."""
    bitmap = member.facts["bitmap"]
    if not bitmap["passes_tool_rule"]:
        return set(range(bitmap["chunks"]))
    return {chunk for first, last in bitmap["dirty_ranges"] for chunk in range(first, last + 1)}


def freshest(members):
    """The first of those with the greatest events: none of these images disputes it."""
    return max(members, key=lambda member: member.facts["events"])


class Assembled:
    """Which array the members of a folder make, in an order of theirs, by the kernel and by facts.json."""

    def __init__(self, array, members):
        self.members = members
        self.found = outside.Found(array.facts)
        self.first = freshest(members).facts
        self.in_sync = [member for member in members if self.found.disks[member.index].slot is not None]
        told = [member for member in members if member.facts["in_sync"]]
        if told != self.in_sync:
            raise outside.Unreadable("%s: the kernel and facts.json differ on who is in sync" % array.name)
        self.chunks = self.first["bitmap"]["chunks"]
        self.marked = len(set().union(*(marked_chunks(member) for member in self.in_sync)))
        self.refused_bitmaps = [member for member in self.in_sync if not member.facts["bitmap"]["passes_tool_rule"]]

    def role(self, member):
        """The role of a member by the freshest superblock, as text."""
        roles = self.first["dev_roles"]
        number = member.facts["dev_number"]
        return roles[number] if number < len(roles) and not roles[number].startswith("...") else "spare"

    def standing(self, member):
        """What a member is, and its role."""
        role = self.role(member)
        disk = self.found.disks[member.index]
        if disk.slot is not None:
            return str(disk.slot), "in sync"
        if not role.isdigit():
            return "-", {"spare": "spare", "faulty": "faulty"}[role]
        if member.facts["events"] + 1 < self.first["events"]:
            return role, "stale"
        return role, "recovering" if member.facts["feature_map"] & RECOVERY_FEATURE else "in sync"

    def member_line(self, index, member):
        role, standing = self.standing(member)
        disk = self.found.disks[member.index]
        flag = ", write-mostly" if member.facts["devflags"] & FLAG_BITS["write-mostly"] else ""
        if disk.taken and disk.write_mostly != bool(flag):
            raise outside.Unreadable("the kernel and facts.json differ on who is write-mostly")
        return Line(kernel="%6d %6d %6s %s%s" % (index, member.facts["dev_number"], role, standing, flag))

    def condition(self):
        words = ["clean" if self.first["resync_offset"] == "none" else "active"]
        if self.found.degraded:
            words.append("degraded")
        # This project's own rule: nothing is resynced while chunks are marked and several members are in sync.
        if self.marked and len(self.in_sync) > 1:
            words.append("resync needed")
        return ", ".join(words)

    def summary(self):
        text = "in sync %d of %d, events %d, marked %d"
        return [Line(kernel=text % (len(self.in_sync), self.found.raid_disks, self.found.events, self.marked))]

    def detail(self):
        line = Line.labelled
        return [
            line("Array UUID", kernel=self.found.uuid),
            line("Name", kernel=self.found.name),
            line("Raid Devices", kernel=self.found.raid_disks, facts=self.first["raid_disks"]),
            line("Array Size", kernel=in_sectors(self.found.sectors), facts=in_sectors(self.first["size_sectors"])),
            line("In Sync", kernel=len(self.in_sync)),
            line("State", kernel=self.condition()),
            line("Events", kernel=self.found.events, facts=self.first["events"]),
            line("Marked Chunks", facts="%d of %d" % (self.marked, self.chunks)),
        ] + [self.member_line(index, member) for index, member in enumerate(self.members)]


def of_each_order(command, lines):
    """A comparer of a command that takes all members of an array: in each order they are what they are."""

    def cases(array):
        for members in itertools.permutations(array.members):
            members = list(members)
            strange = [(index, strange_features(member)) for index, member in enumerate(members) if strange_features(member)]
            if strange:
                yield Case(command, members, fault="Member %d Super Feature %d" % strange[0])
            elif not members[0].facts.get("bitmap"):
                yield Case(command, members, fault="Assemble NoBitmap 0")
            else:
                assembled = Assembled(array, members)
                yield Case(command, members, lines=lines(assembled), stores_marks_on=assembled.refused_bitmaps)

    return cases


COMPARERS = {
    "examine": of_each_member("examine", examine),
    "examine-bitmap": of_each_member("examine-bitmap", examine_bitmap),
    "examine-badblocks": of_each_member("examine-badblocks", examine_badblocks),
    "assemble": of_each_order("assemble", Assembled.summary),
    "detail": of_each_order("detail", Assembled.detail),
}
