"""The states in which this program hands an array to a kernel: after each command, and where one was killed. Each says what the
array may hold then. Those of which it is known that they are wrong today say what a kernel makes of them."""

import known
import members
from lab import Image
from members import SECTOR, pattern

SECTORS = 64
CHUNK = 8
WRITE_AT = 6
WRITTEN = pattern(9, 12)
WRITE = ["write", "--sector", WRITE_AT]
GROW = ["grow", "--bitmap", "internal"]
SALVAGE = ["rebuild", "--salvage", "--member", 2]
# The sectors that no member has of an array that is salvaged: half of a chunk of 8 KiB, and what a kernel reads at once.
LOST = range(24, 32)
JUNK = b"\x5a"
ENDINGS = ("before", "half")
ONE, OTHER, THIRD = pattern(1, SECTORS), pattern(2, SECTORS), pattern(3, SECTORS)


def with_written(data, first=WRITE_AT, written=WRITTEN):
    return data[: first * SECTOR] + written + data[first * SECTOR + len(written) :]


NEW = with_written(ONE)
# An array whose marks stand in two pages of a kernel's, with a chunk of 1 KiB.
MOST_SECTORS = 80000
# Where a member that is re-added differs, and how much of the array that is.
MANY_SECTORS = 1600
MANY_WRITES = [(at, pattern(20 + at, CHUNK)) for at in range(0, MANY_SECTORS, 10 * CHUNK)]


class State:
    """Images that are handed over. `holds` has contents of the array: each sector is as one of them has it. `known_as` says as which
    of known.py it may be wrong."""

    def __init__(self, name, contents, holds, given=None, missing=(), known_as=None, may_refuse=False, mended=None, grows_after=(), takes_late=False):
        self.name = name
        self.contents = contents
        self.holds = holds
        self.given = list(range(len(contents))) if given is None else given
        # The sectors that no member gives, as all that have them list them.
        self.missing = set(missing)
        self.known_as = known_as
        # The member that is taken out once the kernel has taken it over, and given back as a new one.
        self.mended = mended
        # Where a command was killed that lays out an array, there may be none yet.
        self.may_refuse = may_refuse
        # By these words what the kernel left without a bitmap gets one, before it is looked at.
        self.grows_after = grows_after
        self.degraded = 0 if grows_after else self.lacking()
        # Whether a kernel may take a member that is one event behind, and that the others have out.
        self.takes_late = takes_late

    def lacking(self):
        """How many members are not in sync once the kernel has gone on: it rebuilds what is recovering, and takes spares."""
        try:
            found = members.Found([self.contents[index] for index in self.given])
        except members.Unreadable:
            return 0
        usable = sum(state in ("in sync", "recovering", "spare") for state in found.states)
        return max(0, found.freshest.superblock.raid_disks - usable)


def is_first_of_its_role(contents):
    """Whether no superblock but that of the last image tells of the role that this has."""
    found = members.Found(contents)
    return found.freshest is found.members[-1] and found.states[-1] == "recovering"


def blank(seed, sectors=SECTORS):
    """An image that is no member yet."""
    return pattern(seed, 2048 + sectors)


class Arrays:
    """Arrays from which the states begin, each a new one, with a uuid of its own."""

    def __init__(self, lab):
        self.lab = lab

    def two(self):
        return self.lab.create([ONE, ONE])

    def three(self):
        return self.lab.create([ONE, ONE, ONE])

    def unlike(self):
        return self.lab.create([ONE, OTHER], options=())

    def one_of_two(self):
        return self.lab.create([ONE, None])

    def removed(self):
        return self.lab.left(self.two(), 1, [0, 1])

    def written_since(self):
        """The second left, and the array was written since."""
        return self.lab.run(self.removed(), WRITE, [0], WRITTEN)

    def without_bitmap(self):
        """An array as mdadm makes it without a bitmap, and at the place where one may come bytes of something else."""
        bare = [members.with_superblock(content, feature_map=0, bitmap_offset=0) for content in self.two()]
        return [content[: 16 * SECTOR] + JUNK * (16 * SECTOR) + content[32 * SECTOR :] for content in bare]

    def added(self):
        return self.lab.run(self.one_of_two() + [blank(4)], ["add", "--device", Image(1)], [0])

    def added_third(self):
        contents = self.lab.create([ONE, ONE, None]) + [blank(4)]
        return self.lab.run(contents, ["add", "--device", Image(2)], [0, 1])

    def left_long_ago(self):
        """The second left, and since then the array was written in many places."""
        data = pattern(1, MANY_SECTORS)
        contents = self.lab.left(self.lab.create([data, data]), 1, [0, 1])
        for at, written in MANY_WRITES:
            contents = self.lab.run(contents, ["write", "--sector", at], [0], written)
        return contents

    def with_listed(self):
        """The only member lists its second chunk."""
        (content,) = self.one_of_two()
        return [members.with_bad_blocks(content, [(2048 + CHUNK, CHUNK)])]


class States:
    """Makes them all. Each method that begins with `after_` or `killed_` yields some."""

    def __init__(self, lab):
        self.lab = lab
        self.arrays = Arrays(lab)
        # The first call at which a rebuild may be killed so that an offset stands on its member.
        self.recovering_call = 1

    def all(self, words=()):
        for method in sorted(dir(self)):
            if method.startswith(("after_", "killed_")):
                count = 0
                for state in getattr(self, method)():
                    count += 1
                    state.name = "%s, %s" % (method.replace("_", " "), state.name)
                    if all(word in state.name for word in words):
                        yield state
                if not count:
                    raise ValueError("there are no states of %s" % method)

    def after_create(self):
        create = self.lab.create
        yield State("alike", create([ONE, ONE]), [ONE])
        yield State("unlike", self.arrays.unlike(), [ONE, OTHER])
        yield State("three unlike", create([ONE, OTHER, THIRD], options=()), [ONE, OTHER, THIRD])
        yield State("one missing", self.arrays.one_of_two(), [ONE])
        yield State("the first missing", create([None, ONE, ONE]), [ONE])
        yield State("of one", create([ONE]), [ONE])
        yield State("a chunk of 64 MiB", create([ONE, OTHER], 65536, ()), [ONE, OTHER])
        yield State("a chunk of 1 KiB", create([ONE, OTHER], 1, ()), [ONE, OTHER])
        for sectors in (1, 9, 10, 11, 65, 4161):
            data = pattern(1, sectors), pattern(2, sectors)
            yield State("%d sectors" % sectors, create(data, options=()), data, known_as=known.TOO_SMALL if sectors < 10 else None)
        size = create([ONE, OTHER], options=["--size", 20])
        yield State("a size below the images'", size, [ONE[: 40 * SECTOR], OTHER[: 40 * SECTOR]])
        yield State("of 32 five", create([ONE] * 5 + [None] * 27), [ONE])
        yield State("other options", create([ONE, ONE], options=["--name", "n" * 32, "--time", 1700000000]), [ONE])

    def after_write(self):
        run, write = self.lab.run, WRITE
        yield State("two", run(self.arrays.two(), write, None, WRITTEN), [NEW])
        yield State("one of two", run(self.arrays.one_of_two(), write, None, WRITTEN), [NEW])
        yield State("one left out", run(self.arrays.two(), write, [0], WRITTEN), [NEW])
        yield State("the older one named first", run(self.arrays.two(), write, [0], WRITTEN), [NEW], given=[1, 0])
        yield State("one of three left out", run(self.arrays.three(), write, [2, 0], WRITTEN), [NEW])
        unlike = self.lab.create([ONE, OTHER, None], options=())
        yield State("a resync first", run(unlike, write, None, WRITTEN), [NEW])
        odd = pattern(1, 4161)
        at_end = run(self.lab.create([odd, odd]), ["write", "--sector", 4161 - 12], None, WRITTEN)
        yield State("at an odd end", at_end, [with_written(odd, 4161 - 12)])

    def after_members_leave(self):
        yield State("fail", self.lab.run(self.arrays.two(), ["fail", "--member", 1]), [ONE])
        yield State("remove", self.arrays.removed(), [ONE])
        yield State("remove, and the other is not there", self.arrays.removed(), [ONE], given=[0])
        yield State("remove, then write", self.arrays.written_since(), [NEW])
        contents = self.lab.left(self.arrays.three(), 0, [0, 1, 2])
        yield State("the first of three, then write", self.lab.run(contents, WRITE, [1, 2], WRITTEN), [NEW])

    def after_members_come(self):
        run = self.lab.run
        rebuild = ["rebuild", "--member", 1]
        yield State("add", self.arrays.added(), [ONE])
        yield State("add, then write", run(self.arrays.added(), WRITE, None, WRITTEN), [NEW])
        yield State("add to a whole array", run(self.arrays.two() + [blank(4)], ["add", "--device", Image(2)], [0, 1]), [ONE])
        yield State("rebuild", run(self.arrays.added(), rebuild), [ONE])
        yield State("rebuild, and the other is not there", run(self.arrays.added(), rebuild), [ONE], given=[1])
        yield State("rebuild, then write", run(run(self.arrays.added(), rebuild), WRITE, None, WRITTEN), [NEW])
        yield State("rebuild from two", run(self.arrays.added_third(), ["rebuild", "--member", 2]), [ONE])
        yield State("re-add", run(self.arrays.written_since(), ["re-add", "--device", Image(1)], [0]), [NEW])
        yield State("resync", run(self.arrays.unlike(), ["resync"]), [ONE])

    def after_a_crash_beside_a_recovering_member(self):
        """As after a crash under a kernel, which writes to such a member too: three contents in a marked chunk below its offset."""
        for name, command, given, holds in (("resync", ["resync"], b"", ONE), ("write", WRITE, WRITTEN, NEW)):
            unlike = self.lab.create([ONE, ONE, ONE])
            for number, other in ((1, OTHER), (2, THIRD)):
                unlike[number] = members.with_data(unlike[number], 2 * CHUNK, other[2 * CHUNK * SECTOR : 3 * CHUNK * SECTOR])
            unlike = [members.with_superblock(content, resync_offset=0) for content in unlike]
            unlike[:2] = [members.with_marks(content, [2]) for content in unlike[:2]]
            bits = members.BITMAP_BIT | members.RECOVERY_BIT
            unlike[2] = members.with_superblock(unlike[2], feature_map=bits, recovery_offset=6 * CHUNK)
            yield State(name, self.lab.run(unlike, command, None, given), [holds])

    def after_write_mostly(self):
        mostly, clean = ["--write-mostly", 0], ["--assume-clean", "--write-mostly", 1]
        yield State("the first, unlike", self.lab.create([ONE, OTHER], options=mostly), [ONE, OTHER])
        yield State("the second, alike", self.lab.create([ONE, ONE], options=clean), [ONE])
        written = self.lab.run(self.lab.create([ONE, ONE], options=clean), WRITE, None, WRITTEN)
        yield State("write", written, [NEW])
        yield State("write, and the other is not there", self.lab.run(self.lab.create([ONE, ONE], options=clean), WRITE, None, WRITTEN), [NEW], [1])
        contents = self.lab.left(self.lab.create([ONE, ONE], options=clean), 1, [0, 1])
        contents = self.lab.run(contents, WRITE, [0], WRITTEN)
        yield State("re-add", self.lab.run(contents, ["re-add", "--device", Image(1)], [0]), [NEW])

    def after_bad_blocks(self):
        chunk = range(CHUNK, 2 * CHUNK)
        listing = [members.with_bad_blocks(content, [(2048 + at, CHUNK)]) for at, content in zip((8, 24), self.arrays.two())]
        yield State("another of each", listing, [ONE])
        listing = [members.with_bad_blocks(content, [(2048 + at, CHUNK)]) for at, content in zip((8, 24), self.arrays.two())]
        yield State("another of each, then write", self.lab.run(listing, WRITE, None, WRITTEN), [NEW])
        yield State("the only member's", self.arrays.with_listed(), [ONE], missing=chunk)
        added = self.lab.run(self.arrays.with_listed() + [blank(4)], ["add", "--device", Image(1)], [0])
        yield State("the only member's, and a spare", added, [ONE], missing=chunk)
        added = self.lab.run(self.arrays.with_listed() + [blank(4)], ["add", "--device", Image(1)], [0])
        yield State("what no member gave to the new one", self.lab.run(added, ["rebuild", "--member", 1]), [ONE], missing=chunk)
        yield State("a source that could not be read", self.unreadable_source(), [ONE])

    def failing(self, first, end):
        """Settings by which the second image can't be read in these sectors of the array."""
        path = str(self.lab.scratch.path(1))
        return {"FAILED_IMAGE": path, "FAILED_FROM": str((2048 + first) * SECTOR), "FAILED_TO": str((2048 + end) * SECTOR)}

    def unreadable_source(self):
        return self.lab.run(self.arrays.added_third(), ["rebuild", "--member", 2], **self.failing(SECTORS - 1, SECTORS))

    def each_call(self, make, words, images=None, given=b"", hows=ENDINGS, **settings):
        """The images of a command that was killed at each of its calls, each in an array of its own."""
        calls = self.lab.calls(make(), words, images, given, **settings)
        for number, call in enumerate(calls, 1):
            for how in hows:
                # A wait for a disk has no halves, and is a moment after the write before it.
                if call.kind == "write" and call.size >= (2 * SECTOR if how == "half" else 0):
                    yield "%s call %d of %d" % (how, number, len(calls)), self.lab.stopped(make(), words, images, given, how, number, **settings)

    def killed_create(self):
        def nothing_yet():
            return [bytes(2048 * SECTOR) + data for data in (ONE, OTHER)]

        words = ["create", "--level", "raid1", "--raid-devices", 2, "--bitmap-chunk", 4, "--uuid"]
        calls = self.lab.calls(nothing_yet(), words + [self.lab.new_uuid()])
        for number in range(1, len(calls) + 1, 2):
            contents = self.lab.stopped(nothing_yet(), words + [self.lab.new_uuid()], None, b"", "before", number)
            yield State("before call %d of %d" % (number, len(calls)), contents, [ONE, OTHER], may_refuse=True)

    def killed_write(self):
        for at, contents in self.each_call(self.arrays.two, WRITE, None, WRITTEN):
            yield State("two, %s" % at, contents, [ONE, NEW])
        for at, contents in self.each_call(self.arrays.one_of_two, WRITE, None, WRITTEN, ["before"]):
            yield State("one of two, %s" % at, contents, [ONE, NEW])
        for at, contents in self.each_call(self.arrays.three, WRITE, [0, 1], WRITTEN, ["before"]):
            yield State("one of three left out, %s" % at, contents, [ONE, NEW])
        for at, contents in self.each_call(self.arrays.two, WRITE, [0], WRITTEN, ["before"]):
            yield State("one of two left out, %s" % at, contents, [ONE, NEW])
        data = pattern(1, MOST_SECTORS)
        words, written = ["write", "--sector", MOST_SECTORS - 12], with_written(data, MOST_SECTORS - 12)
        contents = self.lab.create([data, data], 1)
        half = len(self.lab.calls(contents, words, None, WRITTEN)) // 2
        left = self.lab.stopped(contents, words, None, WRITTEN, "before", half)
        yield State("marks in two pages, before call %d" % half, left, [data, written])

    def cut_short(self, wanted):
        """The first array that a killed write leaves so."""
        contents = self.arrays.two()
        for number in range(1, len(self.lab.calls(contents, WRITE, None, WRITTEN)) + 1):
            left = self.lab.stopped(contents, WRITE, None, WRITTEN, "before", number)
            if wanted(members.Found(left)):
                return left
        raise ValueError("no killed write leaves what is wanted")

    def differing(self):
        return self.cut_short(lambda found: any(members.differing(*found.in_sync)))

    def active_without_marks(self):
        return self.cut_short(lambda found: not found.freshest.is_clean and not found.marks)

    def killed_resync(self):
        for at, contents in self.each_call(self.arrays.unlike, ["resync"]):
            yield State(at, contents, [ONE, OTHER])
        for at, contents in self.each_call(self.differing, ["resync"], hows=["before"]):
            yield State("after a killed write, %s" % at, contents, [ONE, NEW])

    def after_grow(self):
        yield State("two", self.lab.run(self.arrays.without_bitmap(), GROW), [ONE])

    def killed_grow(self):
        for at, contents in self.each_call(self.arrays.without_bitmap, GROW):
            yield State(at, contents, [ONE], grows_after=GROW)

    def killed_stop(self):
        for at, contents in self.each_call(self.active_without_marks, ["stop"]):
            yield State("after a killed write, %s" % at, contents, [ONE, NEW])

    def killed_fail(self):
        for at, contents in self.each_call(self.arrays.two, ["fail", "--member", 1]):
            yield State(at, contents, [ONE])

    def killed_remove(self):
        for at, contents in self.each_call(self.arrays.added, ["remove", "--member", 1]):
            yield State("of a spare, %s" % at, contents, [ONE])

    def killed_add(self):
        def with_new():
            return self.arrays.one_of_two() + [blank(4)]

        for at, contents in self.each_call(with_new, ["add", "--device", Image(1)], [0]):
            yield State(at, contents, [ONE])

    def killed_rebuild(self):
        for at, contents in self.each_call(self.arrays.added, ["rebuild", "--member", 1]):
            first = known.FIRST_MOMENT if is_first_of_its_role(contents) else None
            yield State("of one, %s" % at, contents, [ONE], known_as=first)
            if first:
                yield State("of one, %s, and the new member is not there" % at, contents, [ONE], given=[0])
                again = self.lab.run(contents, ["rebuild", "--member", 1])
                yield State("of one, %s, and again" % at, again, [ONE])
        settings = self.failing(SECTORS - 1, SECTORS)
        for at, contents in self.each_call(self.arrays.added_third, ["rebuild", "--member", 2], hows=["before"], **settings):
            first = known.FIRST_MOMENT if is_first_of_its_role(contents) else None
            yield State("a source can't be read at its end, %s" % at, contents, [ONE], known_as=first)

    def scratched(self):
        """A third member is to come into sync, and the others list the same sectors, and one more each that the other has."""
        contents = self.lab.create([ONE, ONE, None], 8) + [blank(4)]
        contents = self.lab.run(contents, ["add", "--device", Image(2)], [0, 1])
        for number, at in ((0, 17), (1, 40)):
            contents[number] = members.with_bad_blocks(contents[number], [(2048 + LOST.start, len(LOST)), (2048 + at, 1)])
        return contents

    def after_salvage(self):
        yield State("what both list", self.lab.run(self.scratched(), SALVAGE), [ONE], missing=LOST)
        yield State("what both list, and the new member alone", self.lab.run(self.scratched(), SALVAGE), [ONE], given=[2], missing=LOST)
        written = self.lab.run(self.lab.run(self.scratched(), SALVAGE), WRITE, None, WRITTEN)
        yield State("what both list, then write", written, [NEW], missing=LOST)
        failing = self.failing(SECTORS - 1, SECTORS)
        yield State("a source that could not be read", self.lab.run(self.arrays.added_third(), SALVAGE, **failing), [ONE])

    def killed_salvage(self):
        for at, contents in self.each_call(self.scratched, SALVAGE, hows=["before"]):
            first = known.FIRST_MOMENT if is_first_of_its_role(contents) else None
            yield State("what both list, %s" % at, contents, [ONE], missing=LOST, known_as=first)

    def recovering(self):
        """A rebuild that was killed in its second pass: its offset stands on the member."""
        settings = self.failing(SECTORS - 2 * CHUNK, SECTORS)
        words = ["rebuild", "--member", 2]
        calls = self.lab.calls(self.arrays.added_third(), words, **settings)
        for number in range(self.recovering_call, len(calls)):
            contents = self.lab.stopped(self.arrays.added_third(), words, None, b"", "before", number, **settings)
            found = members.Found(contents)
            if found.states[2] == "recovering" and 3 * CHUNK <= found.members[2].superblock.recovery_offset < SECTORS:
                self.recovering_call = number
                return contents
        raise ValueError("no kill leaves an offset")

    def killed_rebuild_after_a_checkpoint(self):
        yield State("nothing else", self.recovering(), [ONE])
        offset = members.Found(self.recovering()).members[2].superblock.recovery_offset
        above = self.lab.run(self.recovering(), ["write", "--sector", offset], None, WRITTEN[: CHUNK * SECTOR])
        yield State("then a write from the offset on", above, [with_written(ONE, offset, WRITTEN[: CHUNK * SECTOR])])
        below = self.lab.run(self.recovering(), WRITE, None, WRITTEN)
        yield State("then a write below the offset", below, [NEW])
        for at, contents in self.each_call(lambda: self.lab.run(self.recovering(), WRITE, None, WRITTEN), ["rebuild", "--member", 2], hows=["before"]):
            yield State("then a write below the offset, and a rebuild again, %s" % at, contents, [NEW])
        below = self.lab.run(self.recovering(), WRITE, None, WRITTEN)
        done = self.lab.run(below, ["rebuild", "--member", 2])
        yield State("then a write below the offset, then the rebuild again", done, [NEW])
        below = self.lab.run(self.recovering(), WRITE, None, WRITTEN)
        yield State("then a write below the offset, then the member is failed and removed", self.lab.left(below, 2, [0, 1, 2]), [NEW])
        below = self.lab.run(self.recovering(), WRITE, None, WRITTEN)
        yield State("then a write below the offset, and the member is not there", below, [NEW], given=[0, 1])

    def killed_re_add(self):
        new = bytearray(pattern(1, MANY_SECTORS))
        for at, written in MANY_WRITES:
            new[at * SECTOR : at * SECTOR + len(written)] = written
        new = bytes(new)
        words = ["re-add", "--device", Image(1)]
        calls = self.lab.calls(self.arrays.left_long_ago(), words, [0])
        numbers = {1 + tenth * len(calls) // 10 for tenth in range(10)} | {2, 3, 4, 5, 6, len(calls)}
        for number in sorted(numbers):
            contents = self.lab.stopped(self.arrays.left_long_ago(), words, [0], b"", "before", number)
            first = known.FIRST_MOMENT if is_first_of_its_role(contents) else None
            yield State("before call %d of %d" % (number, len(calls)), contents, [new], known_as=first)
        half = 1 + len(calls) // 2

        def killed():
            return self.lab.stopped(self.arrays.left_long_ago(), words, [0], b"", "before", half)

        yield State("then the rebuild", self.lab.run(killed(), ["rebuild", "--member", 1]), [new])
        yield State("then the member is failed and removed", self.lab.left(killed(), 1, [0, 1]), [new])
        yield State("and the member is not there", killed(), [new], given=[0])
        yield State("and a kernel that took it gets it anew", killed(), [new], mended=1)

    def killed_re_add_then_written_without(self):
        """The member has the old data in what was written since, before the first chunk that it lacked. A kernel may take it, where it
        is one event behind: then it has to copy all of it."""

        def left():
            return self.lab.run(self.arrays.removed(), ["write", "--sector", SECTORS - CHUNK], [0], WRITTEN[: CHUNK * SECTOR])

        words = ["re-add", "--device", Image(1)]
        new = with_written(with_written(ONE, SECTORS - CHUNK, WRITTEN[: CHUNK * SECTOR]))
        for number in range(3, 1 + len(self.lab.calls(left(), words, [0]))):
            contents = self.lab.stopped(left(), words, [0], b"", "before", number)
            written = self.lab.run(contents, WRITE, [0], WRITTEN)
            yield State("before call %d" % number, written, [new], takes_late=True)
