"""The object that a command shows with --json, made of the text that it shows without."""

import json
import re


class Text(Exception):
    """The text has not the form of a report."""


def fields_of(lines):
    """The values of labelled lines, by their labels."""
    return {line[:15].rstrip(): line[18:] for line in lines if line[15:18] == " : "}


def number(text):
    """The number with which a value begins."""
    return int(re.match(r"-?\d+", text).group())


def or_none(text, make):
    return None if text == "none" else make(text)


def superblock(lines):
    at = fields_of(lines)
    role = at["Device Role"].split()
    return {
        "report": "examine",
        "magic": at["Magic"],
        "version": at["Version"],
        "feature_map": int(at["Feature Map"], 16),
        "array_uuid": at["Array UUID"],
        "name": at["Name"],
        "creation_time": number(at["Creation Time"]),
        "raid_level": at["Raid Level"],
        "raid_devices": number(at["Raid Devices"]),
        "used_dev_size": number(at["Used Dev Size"]),
        "avail_dev_size": number(at["Avail Dev Size"]),
        "data_offset": number(at["Data Offset"]),
        "super_offset": number(at["Super Offset"]),
        "recovery_offset": or_none(at["Recovery Offset"], number),
        "device_number": number(at["Device Number"]),
        "device_role": role[0],
        "role": int(role[1]) if role[1:] else None,
        "device_uuid": at["Device UUID"],
        "device_flags": int(at["Device Flags"], 16),
        "internal_bitmap": or_none(at["Internal Bitmap"], number),
        "bad_block_log": or_none(at["Bad Block Log"], log),
        "update_time": number(at["Update Time"]),
        "events": number(at["Events"]),
        "state": at["State"],
        "checksum": at["Checksum"],
        "array_state": at["Array State"],
    }


def log(text):
    entries, offset = re.fullmatch(r"(\d+) entries at (-?\d+) sectors", text).groups()
    return {"entries": int(entries), "offset": int(offset)}


def bitmap(lines):
    at = fields_of(lines)
    chunks, marked = re.fullmatch(r"(\d+) chunks, (\d+) marked", at["Bitmap"]).groups()
    return {
        "report": "examine-bitmap",
        "magic": at["Magic"],
        "version": number(at["Version"]),
        "array_uuid": at["Array UUID"],
        "events": number(at["Events"]),
        "events_cleared": number(at["Events Cleared"]),
        "state": int(at["State"], 16),
        "chunk_size": number(at["Chunk Size"]),
        "daemon_sleep": number(at["Daemon Sleep"]),
        "sync_size": number(at["Sync Size"]),
        "chunks": int(chunks),
        "marked_chunks": int(marked),
    }


def runs(lines):
    """The sectors that lines say, as `8 for 16 sectors`."""
    found = [re.fullmatch(r" *(\d+) for (\d+) sectors", line) for line in lines]
    return [{"sector": int(one[1]), "sectors": int(one[2])} for one in found if one]


def badblocks(lines):
    return {"report": "examine-badblocks", "bad_blocks": runs(lines)}


def members(detail, images):
    """The members in the report in detail, whose images are these."""
    found = [re.fullmatch(r" *(\d+) +(\d+) +(\d+|-) ([a-z -]+?)(, write-mostly)?", line) for line in detail.splitlines()]
    return [
        {
            "image": images[int(one[1])],
            "index": int(one[1]),
            "device_number": int(one[2]),
            "role": None if one[3] == "-" else int(one[3]),
            "state": one[4],
            "write_mostly": bool(one[5]),
        }
        for one in found
        if one
    ]


def summary(lines):
    count, of, events, marked = re.fullmatch(r"in sync (\d+) of (\d+), events (\d+), marked (\d+)", lines[0]).groups()
    return {"report": "assemble", "in_sync": int(count), "raid_devices": int(of), "events": int(events), "marked_chunks": int(marked)}


def detail(lines):
    at = fields_of(lines)
    state = at["State"].split(", ")
    marked, chunks = re.fullmatch(r"(\d+) of (\d+)", at["Marked Chunks"]).groups()
    return {
        "report": "detail",
        "array_uuid": at["Array UUID"],
        "name": at["Name"],
        "raid_devices": number(at["Raid Devices"]),
        "array_size": number(at["Array Size"]),
        "in_sync": number(at["In Sync"]),
        "state": state[0],
        "degraded": "degraded" in state,
        "resync_needed": "resync needed" in state,
        "events": number(at["Events"]),
        "chunks": int(chunks),
        "marked_chunks": int(marked),
    }


def plan(lines):
    rounds = int(re.match(r"rounds (\d+)", lines[0])[1])
    slots = [[int(word) for word in line.split()] for line in lines[2:] if re.fullmatch(r"[ \d]+", line)]
    shown = re.fullmatch(r"certificate for (\d+) rounds:([ \d]*)", lines[-2])
    orphans = lines[-1].partition(":")[2].strip()
    return {
        "report": "plan",
        "rounds": rounds,
        "chunks": [{"chunk": chunk, "source": source, "round": turn} for chunk, source, turn in slots],
        "certificate": {"rounds": int(shown[1]), "chunks": [int(word) for word in shown[2].split()]} if shown else None,
        "orphans": [] if orphans == "none" else [int(word) for word in orphans.split()],
    }


def mismatches(lines):
    """The chunks that lines say, with the members that differ there, as `8 for 8 sectors, members 0!=1 0!=2`."""
    found = [re.fullmatch(r" *(\d+) for (\d+) sectors, members((?: \d+!=\d+)+)", line) for line in lines]
    return [
        {
            "sector": int(one[1]),
            "sectors": int(one[2]),
            "pairs": [[int(index) for index in pair.split("!=")] for pair in one[3].split()],
        }
        for one in found
        if one
    ]


def check(lines):
    return {
        "report": "check",
        "mismatched_chunks": int(re.fullmatch(r"mismatched chunks: (\d+)", lines[-1])[1]),
        "mismatches": mismatches(lines),
    }


# What stands on an image though it is refused: of these fields the text is the value, or the text is in hex.
TEXTS = {"Magic", "Checksum", "Array UUID", "Device UUID", "Name", "Cluster Name"}
IN_HEX = {"Feature Map", "Device Flags", "State"}
NO_FIELDS = {"Fault", "Super Fault", "Computed", "Role", "Superblock At", "Unreadable At", "Unread", "Bitmap"}


def labelled(lines):
    """The labels and values of lines, in their order."""
    return [(line[:15].rstrip(), line[18:]) for line in lines if line[15:18] == " : "]


def standing(lines):
    """The fields of what stands there, in their order."""
    found = {}
    for label, text in labelled(lines):
        if label not in NO_FIELDS:
            value = text if label in TEXTS else int(text, 16) if label in IN_HEX else number(text)
            found[label.lower().replace(" ", "_")] = value
    return found


def faults(lines, label="Fault"):
    return [text.split()[0] for said, text in labelled(lines) if said == label]


def raw_superblock(lines):
    features = [int(text.split()[1]) for said, text in labelled(lines) if said == "Fault" and text.startswith("Feature ")]
    computed = fields_of(lines)["Computed"]
    roles = [re.fullmatch(r"(\d+) of device (\d+)", text).groups() for said, text in labelled(lines) if said == "Role"]
    places = [re.fullmatch(r"(\d+) sectors, of array (\S+)", text).groups() for said, text in labelled(lines) if said == "Superblock At"]
    return {
        "report": "examine --all",
        "unreadable_at": None,
        "faults": faults(lines),
        "unsupported_features": sum(features),
        **standing(lines),
        "computed_checksum": None if computed == "unknown" else computed,
        "roles": [{"device_number": int(device), "role": int(role)} for role, device in roles],
        "elsewhere": [{"sector": int(sector), "array_uuid": array} for sector, array in places],
    }


def raw_bitmap(lines):
    counts = re.fullmatch(r"(\d+) chunks, (\d+) marked", fields_of(lines).get("Bitmap", ""))
    at = fields_of(lines).get("Unreadable At")
    return {
        "report": "examine-bitmap --all",
        "unreadable_at": None,
        "super_faults": faults(lines, "Super Fault"),
        "bitmap_unreadable_at": number(at) if at else None,
        "faults": faults(lines),
        **standing(lines),
        "chunks": int(counts[1]) if counts else None,
        "marked_chunks": int(counts[2]) if counts else None,
        "unread_chunks": number(fields_of(lines).get("Unread", "0")) if counts else None,
    }


def raw_log(lines):
    entries = [re.fullmatch(r" *(\d+) for (\d+) units, entry (\d+)", line) for line in lines]
    return {
        "report": "examine-badblocks --all",
        "unreadable_at": None,
        "super_faults": faults(lines, "Super Fault"),
        "faults": faults(lines),
        **standing(lines),
        "log_unreadable_at": None,
        "entries": [{"entry": int(one[3]), "start": int(one[1]), "length": int(one[2])} for one in entries if one],
    }


RAW_IMAGE = {"examine": raw_superblock, "examine-bitmap": raw_bitmap, "examine-badblocks": raw_log}
ONE_IMAGE = {"examine": superblock, "examine-bitmap": bitmap, "examine-badblocks": badblocks}
ARRAY = {"assemble": summary, "detail": detail, "plan": plan, "check": check}


def roles_and_apart(found, raid_devices, told):
    """Of members that were found: the roles in which none is in sync or recovering, and which were used apart, as lines on standard error
    tell."""
    taken = [member["role"] for member in found if member["state"] != "stale"]
    return {
        "missing_roles": [role for role in range(raid_devices) if role not in taken],
        "used_apart": [
            member["index"] for member in found if any(line.startswith("mdcli: %s: was used without " % member["image"]) for line in told)
        ],
    }


FAR = re.compile(r"Recovering      : member (\d+) has (\d+) of (\d+) chunks \((\d+) %\), all before sector (\d+) but (\d+) marked")


def recovering(lines):
    """How far each recovering member is, as the report with --verbose has it."""
    found = [FAR.fullmatch(line) for line in lines if line.startswith("Recovering ")]
    numbers = [[int(number) for number in one.groups()] for one in found]
    if any(percent != 100 * has // chunks for _, has, chunks, percent, *_ in numbers):
        raise ValueError("per cent: %r" % lines)
    return [
        {"index": index, "recovery_offset": offset, "missing_chunks": chunks - has, "marked_before": marked}
        for index, has, chunks, _, offset, marked in numbers
    ]


UNREADY = re.compile(r"mdcli: not ready for a kernel: run mdcli ([a-z-]+) first")


def run_before_kernel(told):
    """The command that lines on standard error say is to be run before a kernel is given the array, or None."""
    found = [UNREADY.match(line) for line in told]
    return next((one[1] for one in found if one), None)


class SaysTheSame:
    """A report as text and as JSON, which says the same: at the same status, with the same on standard error, and no image is
    changed. It is the object alone in its line, its fields in their order. So is the one that says why it is refused."""

    def __init__(self, words):
        # A list where names have white space.
        self.words = words.split() if isinstance(words, str) else list(words)

    def play(self, folder, run):
        command, rest = self.words[0], self.words[1:]
        images = [word for word in rest if not word.startswith("-") and not word.isdigit()]
        if command in ARRAY:
            rest = ["--readonly"] + rest
        text = run([command] + (["--list"] if command == "check" else []) + rest)
        status, output, errors = run([command, "--json"] + rest)
        if (status, errors) != (text[0], text[2]):
            return ["with --json it answers %r, and %r without" % ((status, errors), (text[0], text[2]))]
        if status != 0:
            return against(output, self.refusal(command, rest, errors, run))
        return against(output, self.wanted(command, text[1], images, run))

    def refusal(self, command, rest, errors, run):
        """Why it is refused: the line of standard error, and the one that it gets after it, where more is to be said."""
        line = errors.splitlines()[0]
        told = run([command, "--json", "--verbose"] + rest)[2].splitlines()
        return {"fault": line.partition(": ")[2], "text": line, "advice": told[1]}

    def wanted(self, command, text, images, run):
        lines = text.splitlines()
        if "--all" in self.words:
            return RAW_IMAGE[command](lines)
        if command in ONE_IMAGE:
            return ONE_IMAGE[command](lines)
        wanted = ARRAY[command](lines)
        _, shown, told = run(["detail", "--readonly"] + images)
        found = members(shown, images)
        wanted["members"] = found
        if command == "check":
            wanted["compared_members"] = [member["index"] for member in found if member["state"] == "in sync"]
        if command == "detail":
            wanted.update(roles_and_apart(found, wanted["raid_devices"], told.splitlines()))
        if command in ("check", "detail"):
            wanted["bad_sectors"] = [runs(run(["examine-badblocks", image])[1].splitlines()) for image in images]
        if command == "detail":
            wanted["recovering"] = recovering(run(["detail", "--verbose", "--readonly"] + images)[1].splitlines())
        if command in ("assemble", "detail"):
            wanted["run_before_kernel"] = run_before_kernel(told.splitlines())
        return wanted


class HasValues:
    """An object has these values, by their paths, as `/members/0/role': each is compared as JSON, so that a number is the same to its
    last digit, and no number a truth. It is the object alone in its line, in the shortest form. It changes no image."""

    def __init__(self, words, values):
        self.words = words.split() if isinstance(words, str) else list(words)
        self.values = values

    def play(self, folder, run):
        before = {path.name: path.read_bytes() for path in folder.iterdir()}
        status, output, errors = run(self.words[:1] + ["--json"] + self.words[1:])
        reasons = [] if status == 0 else ["the status is %r: %r" % (status, errors)]
        try:
            found = json.loads(output)
        except ValueError as fault:
            return reasons + ["it is no JSON: %s, in %r" % (fault, output)]
        if output != in_short(found) + "\n":
            reasons.append("it is not one line in the shortest form: %r" % output)
        for path, value in self.values.items():
            if in_short(value_at(found, path)) != in_short(value):
                reasons.append("%s is %s, and not %s" % (path, in_short(value_at(found, path)), in_short(value)))
        if {path.name: path.read_bytes() for path in folder.iterdir()} != before:
            reasons.append("an image is changed")
        return reasons


# Control characters of Latin-1, separators of lines, and what changes the direction of text.
HIDDEN = re.compile("[\x7f-\x9f\u061c\u200e\u200f\u2028-\u202e\u2066-\u2069]")


def in_short(value):
    """Its text as JSON without white space, and with only those characters escaped that have to be, or that hide something."""
    text = json.dumps(value, separators=(",", ":"), ensure_ascii=False)
    return HIDDEN.sub(lambda found: "\\u%04x" % ord(found.group()), text)


ABSENT = "there is none"


def value_at(found, path):
    """The value at a path, or `ABSENT'."""
    for name in path.split("/")[1:]:
        if isinstance(found, list) and name.isdigit() and int(name) < len(found):
            found = found[int(name)]
        elif isinstance(found, dict) and name in found:
            found = found[name]
        else:
            return ABSENT
    return found


def against(output, wanted):
    if output.count("\n") != 1 or not output.endswith("\n"):
        return ["it is not one line: %r" % output]
    try:
        # Pairs keep their order, and a name that stands twice.
        found = json.loads(output, object_pairs_hook=lambda pairs: pairs)
    except ValueError as fault:
        return ["it is no JSON: %s, in %r" % (fault, output)]
    wanted = json.loads(json.dumps(wanted), object_pairs_hook=lambda pairs: pairs)
    if found != wanted:
        return ["it says %r, and the text says %r" % (found, wanted)]
    if output != in_short(json.loads(output)) + "\n":
        return ["its text is not the shortest: %r" % output]
    return []
