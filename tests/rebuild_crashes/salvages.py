"""`rebuild --salvage` of copies with maps, killed before each call that writes and within it. What a copy lacks is in its log, where that has
room to spare, before the new member is in sync, so that no later command needs a map: whatever stands on the images then, each member in
sync has the array's bytes in each sector that it does not list and its map does not lack, and once the new one is in sync, in each that it
does not list. Run again, the command comes to the same end."""

import members
from arrays import CHUNK_KIB, CLEAN, Case
from law import against_image
from members import SECTOR
from scratch import KILLED

START = 2048
JUNK = b"\xee" * SECTOR
ENDINGS = ("before", "half")
# A sector of a log has so many entries, of which an eighth stays free.
OF_A_SECTOR, USABLE = 64, 56


def map_of(holes, sectors):
    """ddrescue's map of an image that lacks these sectors of the array."""
    lines = ["0 ? 1", "0 %d +" % (START * SECTOR)]
    lines += ["%d %d %s" % ((START + sector) * SECTOR, SECTOR, "-" if sector in holes else "+") for sector in range(sectors)]
    return "\n".join(lines) + "\n"


class Salvage:
    """Copies that lack these sectors, one for each set of them, of an array of one device more, which is a spare."""

    def __init__(self, scratch, name, holes, sectors=64, marks=(), small=False):
        self.scratch = scratch
        self.name = "rebuild --salvage --map, " + name
        self.holes = holes
        self.sectors = sectors
        self.target = len(holes)
        self.content = members.pattern(1, sectors)
        self.lost = set.intersection(*holes)
        # A list that leaves no eighth of its log free is not stored before.
        self.lists = [self.lost if small and len(own) > USABLE else own for own in holes] + [self.lost]
        words = ["rebuild", "--salvage", "--quiet", "--member", self.target]
        for place, own in enumerate(holes):
            file = scratch.path(place).with_suffix(".map")
            file.write_text(map_of(own, sectors))
            words += ["--map", "%s=%s" % (scratch.path(place), file)]
        others = list(range(self.target))
        self.case = Case(self.name, words, self.made(marks, small), others, self.target, "", resyncs_first=bool(marks))

    def made(self, marks, small):
        scratch = self.scratch
        contents = scratch.created(list(range(self.target)) + [None], self.sectors, CHUNK_KIB, CLEAN)
        scratch.put(contents + [members.pattern(3, START + self.sectors)])
        answer = scratch.run(["add", "--device", scratch.path(self.target)], list(range(self.target)))
        if answer.status != 0:
            raise ValueError("add: " + answer.errors)
        contents = scratch.take(self.target + 1)
        for place, own in enumerate(self.holes):
            for sector in own:
                contents[place] = members.with_data(contents[place], sector, JUNK)
            contents[place] = members.with_marks(contents[place], marks)
        return [members.with_superblock(image, bblog_size=1) for image in contents] if small else contents

    def run(self, **settings):
        return self.scratch.run(self.case.words, self.case.images, **settings)

    def ends(self):
        first = ", first %d" % min(self.lost) if self.lost else ""
        return ("rebuilt member %d, passes 1, lost sectors %d%s, listed besides 0\n" % (self.target, len(self.lost), first)).encode()

    def at(self, sector):
        return self.content[sector * SECTOR : (sector + 1) * SECTOR]

    def listed(self, member):
        return {sector for sector in range(self.sectors) if member.lists(sector)}

    def against_stop(self, contents):
        """The reasons against images that a kill has left."""
        failing = {place: {0} for place in self.case.others}
        reasons = [one for place, content in enumerate(contents) for one in against_image(self.case, place, content, failing=failing)]
        found = members.Found(contents)
        if any(found.states[place] != "in sync" for place in self.case.others):
            return reasons + ["the states are %r" % found.states]
        is_done = found.states[self.target] == "in sync"
        for place, member in enumerate(found.members):
            if found.states[place] != "in sync":
                continue
            listed = self.listed(member)
            if not listed <= self.lists[place] or is_done and listed != self.lists[place]:
                reasons.append("image %d lists %r" % (place, sorted(listed)))
            needs_map = place < self.target and (not is_done or not self.holes[place] <= self.lists[place])
            lacked = listed | self.holes[place] if needs_map else listed
            wrong = [sector for sector in range(self.sectors) if sector not in lacked and member.data(sector, 1) != self.at(sector)]
            reasons += ["image %d, in sync, has something else at sector %d" % (place, wrong[0])] if wrong else []
        return reasons

    def against_end(self, contents):
        found = members.Found(contents)
        reasons = self.against_stop(contents)
        if found.states[self.target] != "in sync" or found.marks:
            reasons.append("the states are %r, and marked are %r" % (found.states, sorted(found.marks)))
        return reasons

    def against_again(self, found):
        """The reasons against a further run: where the new member is in sync already, against a resync, which is given no map."""
        is_done = found.states[self.target] == "in sync"
        answer = self.scratch.run(["resync"], self.case.images) if is_done else self.run()
        right = answer.status == 0 and (is_done or answer.output == self.ends())
        reasons = [] if right else ["it answers %d, %r, %r" % (answer.status, answer.output, answer.errors)]
        return ["run again: " + reason for reason in reasons + self.against_end(self.scratch.take(self.target + 1))]

    def killed_at(self, how, number):
        self.scratch.put(self.case.contents)
        answer = self.run(STOPPED_CALL=str(number), STOPPED_HOW=how)
        reasons = [] if answer.status == KILLED else ["the process ended with status %d" % answer.status]
        contents = self.scratch.take(self.target + 1)
        return reasons + self.against_stop(contents) or self.against_again(members.Found(contents))

    def judge(self, tally):
        self.scratch.put(self.case.contents)
        whole = self.run()
        reasons = [] if (whole.status, whole.output) == (0, self.ends()) else ["it answers %d, %r, %r" % (whole.status, whole.output, whole.errors)]
        tally.judge("%s: %d calls" % (self.name, len(whole.writes)), reasons + self.against_end(self.scratch.take(self.target + 1)))
        for how in ENDINGS:
            reasons = []
            for number, call in enumerate(whole.writes, 1):
                if not reasons and (how == "before" or call.size >= 2 * SECTOR):
                    reasons = ["call %d, %s at %d of %s: %s" % (number, call.kind, call.place, call.image, reason) for reason in self.killed_at(how, number)]
            tally.judge("%s: %s" % (self.name, how), reasons)


def judge(tally, scratch):
    one, other = {3, 20, 40}, {3, 21, 50}
    many = {2 * place for place in range(USABLE + 4)}
    for name, *words, settings in (
        ("two copies", [one, other], {}),
        ("two copies of an array with a mark", [one, other], {"marks": [2]}),
        ("two copies of an array with a mark, which lack nothing of it", [one, other], {"marks": [7]}),
        ("one copy", [one], {}),
        ("one copy of an array with a mark", [one], {"marks": [2]}),
        ("a list that leaves no room in its log", [many], {"sectors": 128, "small": True}),
        ("such a list beside one that fits, and a mark", [many, {0, 1, 121}], {"sectors": 128, "small": True, "marks": [15]}),
    ):
        try:
            Salvage(scratch, name, *words, **settings).judge(tally)
        except (ValueError, members.Unreadable) as error:
            tally.failed(name, str(error))
