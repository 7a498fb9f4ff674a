"""States that a machine takes over, and what is said against what came of them: by the kernel's own words, by the images that it
left, and by this program over these."""

import hashlib

import known
import members
from machine import Disk
from members import SECTOR

# So many arrays are in use at a time.
AT_ONCE = 8
# Where the array's own name stands in an image.
SET_UUID = slice(8 * SECTOR + 16, 8 * SECTOR + 32)


class Told:
    """What the machine said of one array."""

    def __init__(self, lines):
        words = [line.split(" ", 1) for line in lines]
        self.words = {}
        for key, *rest in words:
            self.words.setdefault(key, []).append(rest[0].strip() if rest else "")

    def one(self, key):
        return self.words.get(key, [None])[-1]


def told_of(lines):
    """By the name of an array, what was said of it."""
    found = {}
    for line in lines:
        name, _, rest = line.partition(" ")
        found.setdefault(name, []).append(rest)
    return {name: Told(rest) for name, rest in found.items()}


class HandedOver:
    """States that one start of the machine takes over."""

    def __init__(self, tally, lab, states):
        self.tally = tally
        self.lab = lab
        self.states = states
        self.contents = []
        self.places = []
        for state in states:
            self.places.append(len(self.contents))
            self.contents += state.contents

    def waves(self):
        """The numbers of the states that are taken over at once: no two are of one array, which a kernel would not take twice."""
        waves = []
        for number, state in enumerate(self.states):
            array = state.contents[0][SET_UUID]
            wave = next((wave for wave in waves if len(wave) < AT_ONCE and array not in wave.values()), None)
            if wave is None:
                wave = {}
                waves.append(wave)
            wave[number] = array
        return waves

    def script(self):
        lines = []
        for wave in self.waves():
            for number in wave:
                state, place = self.states[number], self.places[number]
                devices = " ".join("/dev/vda%d" % (place + index + 1) for index in state.given)
                call = "mend %d" % (place + state.mended + 1) if state.mended is not None else "take_over"
                lines.append("%s s%d %d %d %s &" % (call, number, number, state.degraded, devices))
            lines.append("wait")
        return "\n".join(lines + [""])

    def run(self, machine):
        lines, contents = machine.run(self.script(), self.contents)
        said = told_of(lines)
        strange = [line for line in lines if line.startswith(("module ", "kernel "))]
        self.kernel_lines = [line for line in lines if line.startswith("log ")]
        self.tally.judge("the machine's start %d: no warning of the kernel" % machine.starts, strange)
        for number, (state, place) in enumerate(zip(self.states, self.places)):
            after = contents[place : place + len(state.contents)]
            self.judge(state, said.get("s%d" % number, Told([])), after, number)

    def judge(self, state, told, contents, number):
        reasons = against(self.lab, state, told, contents)
        devices = ["vda%d)" % (self.places[number] + index + 1) for index in state.given]
        if reasons:
            own = ["md%d:" % number] + devices
            reasons = reasons + [line for line in self.kernel_lines if any(word in line.replace(" ", ") ") for word in own)]
        if state.known_as in known.NOT_STARTED:
            judge_known(self.tally, state.name, known.NOT_STARTED[state.known_as], told.one("refused") is not None, reasons)
        else:
            self.tally.judge(state.name, reasons)


def judge_known(tally, name, why, is_so, reasons):
    """Passed where what is known to be wrong still is so."""
    if is_so:
        tally.passed("%s: known to be wrong: %s (%s)" % (name, why, reasons[0]))
    elif reasons:
        tally.failed(name, "it is wrong in another way than is known", *reasons)
    else:
        tally.failed(name, "it is right now: its line in tests/kernel/known.py goes, and what the documents say of it")


def against(lab, state, told, contents):
    """The reasons against what a kernel made of a state."""
    if told.one("refused") is not None or told.one("sum") is None:
        if state.may_refuse:
            return []
        return ["it is not assembled: %s" % (told.one("refused") or "nothing was said of it")]
    reasons = []
    if told.one("mismatches") != "0":
        reasons.append("the kernel's check finds %s sectors that differ" % told.one("mismatches"))
    if told.one("degraded") not in ([str(state.degraded)] + ["0"] * state.takes_late):
        text = "%s members are not in sync, and not %d: %s"
        reasons.append(text % (told.one("degraded"), state.degraded, told.words.get("member")))
    reasons += ["mdadm failed: " + words for words in told.words.get("failed", [])]
    if "not" in told.words:
        reasons.append("it is not stopped")
    if state.grows_after and not all(is_member(content) for content in contents):
        contents = lab.run(contents, state.grows_after)
    given = [contents[index] for index in state.given]
    found = members.Found(given)
    content = found.content()
    missing = {sector for sector, given in enumerate(content) if given is None}
    if missing != state.missing:
        return reasons + ["the sectors that no member gives are %r" % sorted(missing)]
    # What can't be read counts as zeros.
    whole = b"".join(given or bytes(SECTOR) for given in content)
    if told.one("sum") != hashlib.sha256(whole).hexdigest():
        reasons.append("the sum that the kernel gives is not that of the images")
    holds = [without(one, missing) for one in state.holds]
    reasons += against_content(holds, whole) + against_members(found)
    return reasons or against_program(lab, contents, state, found, whole)


def without(content, missing):
    """The content with zeros in these sectors."""
    left = bytearray(content)
    for sector in missing:
        left[sector * SECTOR : (sector + 1) * SECTOR] = bytes(SECTOR)
    return bytes(left)


def against_content(holds, whole):
    """The reasons against the content of the array: a sector that none of these contents has so."""
    if any(whole == one for one in holds):
        return []
    if any(len(whole) != len(one) for one in holds):
        return ["the array has %d sectors" % (len(whole) // SECTOR)]
    spans = [slice(at, at + SECTOR) for at in range(0, len(whole), SECTOR)]
    strange = [at for at, span in enumerate(spans) if all(whole[span] != one[span] for one in holds)]
    return ["%d sectors are not what they may be, the first is %d" % (len(strange), strange[0])] if strange else []


def against_members(found):
    """The reasons against members in sync that differ."""
    first = found.in_sync[0]
    unlike = [(one.number, next(members.differing(first, one), None)) for one in found.in_sync[1:]]
    return ["members %d and %d differ in sector %d" % (first.number, number, at) for number, at in unlike if at is not None]


def is_member(content):
    try:
        members.Member(content)
    except members.Unreadable:
        return False
    return True


def against_program(lab, contents, state, found, whole):
    """The reasons against what this program says of the images that the kernel left."""
    # A killed command may leave one that is no member yet.
    images = [index for index in state.given if is_member(contents[index])]
    answer, after = lab.answer(contents, ["check", "--readonly"], images)
    words = "in sync %d of %d" % (len(found.in_sync), found.freshest.superblock.raid_disks)
    reasons = []
    if (answer.status, answer.output) != (0, b"mismatched chunks: 0\n"):
        reasons.append("check says %r, %r" % (answer.output, answer.errors))
    line, _ = lab.answer(contents, ["assemble", "--readonly"], images)
    if line.status != 0 or not line.output.decode().startswith(words):
        reasons.append("assemble says %r, %r, and not %r" % (line.output, line.errors, words))
    fill = ["--fill"] if state.missing else []
    read, _ = lab.answer(contents, ["read", "--readonly", "--sector", 0, "--count", len(whole) // SECTOR] + fill, images)
    if read.status != (1 if state.missing else 0) or read.output != whole:
        reasons.append("read gives %d bytes: %r" % (len(read.output), read.errors))
    return reasons if after == contents else reasons + ["check changed an image"]


def batches(states):
    """The states that one disk has room for at a time."""
    batch = []
    for state in states:
        if sum(len(one.contents) for one in batch + [state]) > Disk.MOST:
            yield batch
            batch = []
        batch.append(state)
    if batch:
        yield batch
