"""Arrays that go back and forth between a kernel and this program, six turns each: in its turn each writes, lets members fail, leave and
come, and leaves the array stopped, or as a machine does that loses its power, or in the midst of a rebuild. What they do is drawn by
a seed. What the array has to hold is kept beside them, by what was written alone."""

import hashlib
import random

import handed
import members
from lab import Image
from members import SECTOR, pattern

SECTORS = 2048
# An image has room for more than the array, wherever a kernel puts its data.
IMAGE_SECTORS = 6144
CHUNK_KIB = 16
TURNS = 6
LIVES = 8
MOST_WRITTEN = 200
# A member takes part, left as it is now, or is to come as a new one alone.
IN, AWAY, NEW = "in", "away", "new"


class Life:
    """One array, its images, and who is a member."""

    def __init__(self, lab, seed):
        self.lab = lab
        self.seed = seed
        self.name = "life%d" % seed
        self.random = random.Random(seed)
        self.roles = self.random.choice((2, 2, 3))
        self.contents = [pattern(100 + index, IMAGE_SECTORS) for index in range(self.roles + 1)]
        self.where = [IN] * self.roles + [NEW]
        self.model = bytearray(pattern(7, SECTORS))
        self.done = []
        self.is_made = False
        self.given = {}

    def places(self, where):
        return [place for place, one in enumerate(self.where) if one == where]

    @property
    def lacking(self):
        return self.roles - len(self.places(IN))

    def written(self):
        """A draw of what is written, and where; the model has it from now on."""
        count = self.random.randrange(1, MOST_WRITTEN)
        first = self.random.choice((0, SECTORS - count, self.random.randrange(SECTORS - count)))
        content = self.random.randbytes(count * SECTOR)
        self.model[first * SECTOR : (first + count) * SECTOR] = content
        self.done.append("write %d+%d" % (first, count))
        return first, content

    def leaves(self):
        """A draw of the member that leaves, or None where none may."""
        if len(self.places(IN)) < 2:
            return None
        place = self.random.choice(self.places(IN))
        self.where[place] = AWAY
        self.done.append("fail %d" % place)
        return place

    def comes(self, only=None):
        """A draw of the image that comes, and as what. Once another has come in, one that left can only come anew: what was
        marked for it may be gone."""
        able = [place for place, one in enumerate(self.where) if one in ((AWAY, NEW) if only is None else (only,))]
        if not self.lacking or not able:
            return None, None
        place = self.random.choice(able)
        was = self.where[place]
        if was == NEW:
            self.where = [NEW if one == AWAY else one for one in self.where]
        self.where[place] = IN
        self.done.append("%s %d" % ("add" if was == NEW else "re-add", place))
        return place, was

    def make(self):
        """The program makes the array, where a kernel does not in its first turn."""
        if self.seed % 2:
            return
        data = bytes(self.model) + bytes((IMAGE_SECTORS - 2048 - SECTORS) * SECTOR)
        options = ("--assume-clean", "--size", SECTORS // 2)
        self.contents[: self.roles] = self.lab.create([data] * self.roles, CHUNK_KIB, options)
        self.is_made = True


class KernelTurn:
    """The lines of a script by which a kernel does its part of a life."""

    def __init__(self, life, first_device, number):
        self.life = life
        self.first_device = first_device
        self.lines = ["name=%s md=%d" % (life.name, number)]

    def device(self, place):
        return "/dev/vda%d" % (self.first_device + place)

    def devices(self, places):
        return " ".join(self.device(place) for place in places)

    def draw(self):
        life = self.life
        life.done = []
        if life.is_made:
            self.assemble()
        else:
            self.make()
        for _ in range(life.random.randrange(2, 7)):
            life.random.choice((self.write, self.leave, self.come))()
        self.lines.append("judge %d" % life.lacking)
        self.sum = hashlib.sha256(life.model).hexdigest()
        self.degraded = life.lacking
        life.random.choice((self.stop, self.stop, self.crash, self.interrupted))()
        return self.lines

    def assemble(self):
        life = self.life
        places = life.places(IN)
        if life.random.random() < 0.3:
            places = places + life.places(AWAY)
            life.random.shuffle(places)
        life.done.append("assemble %s" % places)
        self.lines.append("assemble %s || return" % self.devices(places))
        self.lines.append("settle %d" % life.lacking)

    def make(self):
        life = self.life
        life.done.append("create")
        words = "%d %d %dK %s" % (life.roles, SECTORS // 2, CHUNK_KIB, self.devices(range(life.roles)))
        self.lines.append("make %s || return" % words)
        self.give(0, bytes(life.model))
        life.is_made = True

    def give(self, first, content):
        name = "%s.%d" % (self.life.name, len(self.life.given))
        self.life.given[name] = content
        self.lines.append("write %d %s" % (first, name))

    def write(self):
        self.give(*self.life.written())

    def leave(self):
        place = self.life.leaves()
        if place is not None:
            self.lines += ["change --fail %s" % self.device(place), "change --remove %s" % self.device(place)]

    def come(self):
        place, was = self.life.comes()
        if place is not None:
            self.add(place, was)
            self.lines.append("settle %d" % self.life.lacking)

    def add(self, place, was):
        if was == NEW:
            self.lines.append("mdadm --zero-superblock %s 2>/dev/null" % self.device(place))
        self.lines.append("change --add %s" % self.device(place))

    def stop(self):
        self.lines.append("stop")

    def crash(self):
        """A write more, and then nothing: the machine ends."""
        self.write()
        self.life.done.append("power failure")

    def interrupted(self):
        """A rebuild that takes long, and is stopped."""
        place, was = self.life.comes(only=NEW)
        if place is not None:
            self.lines.append("slow")
            self.add(place, was)
            self.lines.append("sleep 2")
            self.life.done.append("stopped within")
        self.stop()

    def judge(self, told, contents):
        self.life.contents = contents
        if told.one("refused") is not None or told.one("sum") is None:
            return ["it is not assembled: %r" % told.words]
        reasons = ["mdadm failed: " + words for words in told.words.get("failed", [])]
        for key, wanted in (("mismatches", "0"), ("degraded", str(self.degraded)), ("sum", self.sum)):
            if told.one(key) != wanted:
                reasons.append("%s is %s, and not %s" % (key, told.one(key), wanted))
        return reasons


class ProgramTurn:
    """The commands by which this program does its part of a life."""

    def __init__(self, life):
        self.life = life

    def play(self):
        """The reasons against it."""
        life = self.life
        life.done = []
        try:
            self.run(["resync"], life.places(IN))
            self.finish()
            for _ in range(life.random.randrange(2, 7)):
                life.random.choice((self.write, self.leave, self.come))()
            reasons = self.against()
            if not reasons and life.random.random() < 0.3:
                self.killed()
            return reasons
        except ValueError as error:
            return [str(error)]

    def run(self, words, images, given=b""):
        self.life.contents = self.life.lab.run(self.life.contents, words, images, given)

    def finish(self):
        """A member whose rebuild a kernel began."""
        found = self.found()
        for place, state, member in zip(self.life.places(IN), found.states, found.members):
            if state in ("recovering", "spare"):
                self.life.done.append("rebuild %d, from %d on" % (place, min(member.superblock.recovery_offset, SECTORS)))
                self.rebuild(place)

    def found(self):
        return members.Found([self.life.contents[place] for place in self.life.places(IN)])

    def rebuild(self, place):
        images = self.life.places(IN)
        self.run(["rebuild", "--member", images.index(place)], images)

    def write(self):
        first, content = self.life.written()
        self.run(["write", "--sector", first], self.life.places(IN), content)

    def leave(self):
        images = self.life.places(IN)
        place = self.life.leaves()
        if place is not None:
            self.run(["fail", "--member", images.index(place)], images)
            self.run(["remove", "--member", images.index(place)], images)

    def come(self):
        images = self.life.places(IN)
        place, was = self.life.comes()
        if place is None:
            return
        if was == NEW:
            self.run(["add", "--device", Image(place)], images)
            self.rebuild(place)
        else:
            self.run(["re-add", "--device", Image(place)], images)

    def killed(self):
        """A rebuild that is killed: a kernel goes on with it. Not in the first moment, in which mdadm starts nothing."""
        life = self.life
        images = life.places(IN)
        place, was = life.comes(only=NEW)
        if place is None:
            return
        self.run(["add", "--device", Image(place)], images)
        images = life.places(IN)
        words = ["rebuild", "--member", images.index(place)]
        calls = life.lab.calls(life.contents, words, images)
        number = life.random.randrange(1, len(calls) + 1)
        left = life.lab.stopped(life.contents, words, images, b"", "before", number)
        found = members.Found([left[one] for one in images])
        alone = found.freshest.number == members.Member(left[place]).number and "recovering" in found.states
        if not alone:
            life.contents = left
            life.done.append("rebuild, killed before call %d of %d" % (number, len(calls)))

    def against(self):
        """The reasons against what this program says of the array at the end of its turn."""
        life = self.life
        images = life.places(IN)
        wanted = "in sync %d of %d" % (len(images), life.roles)
        line, _ = life.lab.answer(life.contents, ["assemble", "--readonly"], images)
        check, _ = life.lab.answer(life.contents, ["check", "--readonly"], images)
        read, _ = life.lab.answer(life.contents, ["read", "--readonly", "--sector", 0, "--count", SECTORS], images)
        reasons = [] if line.output.decode().startswith(wanted) else ["assemble says %r, %r, and not %s" % (line.output, line.errors, wanted)]
        reasons += [] if check.output == b"mismatched chunks: 0\n" else ["check says %r, %r" % (check.output, check.errors)]
        reasons += [] if read.output == bytes(life.model) else ["read gives other bytes: %r" % read.errors]
        found = self.found()
        reasons += ["member %d holds other bytes" % one.number for one in found.in_sync if one.data() != bytes(life.model)]
        return reasons


def play(tally, lab, machine, seeds):
    lives = [Life(lab, seed) for seed in seeds]
    for life in lives:
        life.make()
    for turn in range(1, TURNS + 1):
        results = kernel_turn(machine, lives) if turn % 2 else [(life, ProgramTurn(life).play()) for life in lives]
        whose = "a kernel's" if turn % 2 else "this program's"
        for life, reasons in results:
            name = "%s of %d, turn %d, %s: %s" % (life.name, life.roles, turn, whose, ", ".join(life.done))
            tally.judge(name, reasons)
        # One that is wrong is not played on.
        lives = [life for life, reasons in results if not reasons]


def kernel_turn(machine, lives):
    """The lives, each with the reasons against it, after a kernel's turn."""
    contents, turns, lines, given = [], [], ["crash=yes"], {}
    for number, life in enumerate(lives):
        turn = KernelTurn(life, 1 + len(contents), number)
        turns.append(turn)
        body = "\n".join("  " + line for line in turn.draw())
        lines.append("%s() {\n%s\n}\n%s &" % (life.name, body, life.name))
        if number % handed.AT_ONCE == handed.AT_ONCE - 1:
            lines.append("wait")
        contents += life.contents
        given.update(life.given)
        life.given = {}
    said, after = machine.run("\n".join(lines + ["wait", ""]), contents, given)
    told = handed.told_of(said)
    results = []
    for life, turn in zip(lives, turns):
        first = turn.first_device - 1
        own = after[first : first + len(life.contents)]
        results.append((life, turn.judge(told.get(life.name, handed.Told([])), own)))
    return results
