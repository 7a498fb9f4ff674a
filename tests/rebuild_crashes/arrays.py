"""The arrays whose member is rebuilt while a call is stopped or fails, and what the command has to say where nothing stops it."""

import members
from members import SECTOR

SECTORS = 64
CHUNK_KIB = 4
CLEAN = ["--assume-clean"]
# The second chunk of eight sectors, on a member whose data start at sector 2048.
LISTED = (2048 + 8, 8)


class Case:
    """A command that rebuilds the image `target`, in an array whose other images are `others`."""

    def __init__(self, name, words, contents, others, target, ends, resyncs_first=False, unreadable=None):
        self.name = name
        # The index of an image, and the sectors of the array that can't be read there.
        self.unreadable = unreadable
        self.words = words
        self.contents = contents
        self.others = others
        self.target = target
        self.ends = ends
        self.is_re_add = words[0] == "re-add"
        # Then a flag is written to the bitmap of the one that comes back, before its superblock.
        self.is_full = "--full" in words
        self.resyncs_first = resyncs_first
        self.images = others if self.is_re_add else others + [target]
        self.before = members.Found([contents[index] for index in others])
        self.lacks = self.missing_chunks()

    def failing_chunks(self):
        """By the index of an image, the chunks that can't be read there."""
        if not self.unreadable:
            return {}
        index, sectors = self.unreadable
        return {index: {self.before.in_sync[0].chunk_of(sector) for sector in sectors}}

    def settings(self, scratch):
        """What makes them fail, in each run."""
        if not self.unreadable:
            return {}
        index, sectors = self.unreadable
        first = self.data_at(index) + SECTOR * sectors.start
        ends = {"FAILED_FROM": str(first), "FAILED_TO": str(first + SECTOR * len(sectors))}
        return {"FAILED_IMAGE": str(scratch.path(index)), **ends}

    def missing_chunks(self):
        """A spare lacks all chunks, a member that is taken back those that are marked, unless all of it is asked for."""
        return self.before.marks if self.is_re_add and not self.is_full else set(range(self.before.in_sync[0].chunks))

    @staticmethod
    def index_of(call):
        return int(call.image.rsplit("/", 1)[1].split(".")[0])

    def data_at(self, index):
        return SECTOR * members.Member(self.contents[index]).superblock.data_offset

    def is_data(self, call):
        return call.place >= self.data_at(self.index_of(call))

    def chunk_of(self, call):
        index = self.index_of(call)
        return self.before.in_sync[0].chunk_of((call.place - self.data_at(index)) // SECTOR)

    def allowed(self, sector):
        """What the array may have at a sector: where its chunk is marked, and a resync comes first, what any member has."""
        holders = [member for member in self.before.in_role_order() if not member.lists(sector)]
        if self.resyncs_first and self.before.in_sync[0].chunk_of(sector) in self.before.marks:
            return [member.data(sector, 1) for member in holders]
        return [member.data(sector, 1) for member in holders[:1]]


def prepared(scratch, contents, steps):
    """The images after these commands, each with the images that it is given."""
    scratch.put(contents)
    for words, images, given in steps:
        answer = scratch.run(words, images, given)
        if answer.status != 0:
            raise ValueError("%s: %s" % (words[0], answer.errors))
    return scratch.take(len(contents))


def rebuild_case(name, contents, others, ends, **settings):
    target = len(contents) - 1
    return Case("rebuild, " + name, ["rebuild", "--member", target], contents, others, target, ends, **settings)


def made_cases(scratch):
    """What makes each case. A case whose array can't be made fails alone."""

    def with_spare(contents, others):
        target = len(contents)
        contents = contents + [members.pattern(3, 2048 + SECTORS)]
        return prepared(scratch, contents, [(["add", "--device", scratch.path(target)], others, b"")])

    def re_add_case(name, contents, others, ends, full=(), **settings):
        target = len(contents) - 1
        words = ["re-add", *full, "--device", scratch.path(target)]
        return Case("re-add, " + name, words, contents, others, target, ends, **settings)

    def a_spare_of_three():
        contents = with_spare(scratch.created([0, 1, None], SECTORS, CHUNK_KIB, CLEAN), [0, 1])
        return rebuild_case("a spare beside two members", contents, [0, 1], "rebuilt member 2, passes 1, orphans 0\n")

    def a_spare_of_two():
        contents = with_spare(scratch.created([0, None], SECTORS, CHUNK_KIB, CLEAN), [0])
        return rebuild_case("a spare beside one member", contents, [0], "rebuilt member 1, passes 1, orphans 0\n")

    def a_chunk_that_none_holds():
        contents = scratch.created([0, None], SECTORS, CHUNK_KIB, CLEAN)
        contents = [members.with_bad_blocks(contents[0], [LISTED])]
        return rebuild_case("an orphan", with_spare(contents, [0]), [0], "rebuilt member 1, passes 1, orphans 1\n")

    def a_source_that_fails():
        contents = with_spare(scratch.created([0, 1, None], SECTORS, CHUNK_KIB, CLEAN), [0, 1])
        ends = "rebuilt member 2, passes 2, orphans 0\n"
        return rebuild_case("a source that can't be read", contents, [0, 1], ends, unreadable=(0, range(SECTORS)))

    def a_lone_source_that_fails():
        contents = with_spare(scratch.created([0, None], SECTORS, CHUNK_KIB, CLEAN), [0])
        ends = "rebuilt member 1, passes 2, orphans 1\n"
        return rebuild_case("a lone source that can't be read in a chunk", contents, [0], ends, unreadable=(0, range(9, 10)))

    def one_that_left():
        away = [
            (["fail", "--member", 1], [0, 1], b""),
            (["remove", "--member", 1], [0, 1], b""),
            (["write", "--sector", 6], [0], members.pattern(9, 12)),
        ]
        return prepared(scratch, scratch.created([0, 1], SECTORS, CHUNK_KIB, CLEAN), away)

    def a_member_that_left():
        return re_add_case("marked chunks alone", one_that_left(), [0], "in sync 2 of 2, events 6, marked 0\n")

    def a_member_that_comes_back_whole():
        contents = one_that_left()
        # It was written to elsewhere, in a chunk that is not marked, and nothing on it tells.
        contents[1] = members.with_data(contents[1], 40, members.pattern(5, 1))
        return re_add_case("all of it", contents, [0], "in sync 2 of 2, events 6, marked 0\n", full=["--full"])

    def a_member_of_an_unequal_array():
        away = [(["fail", "--member", 2], [0, 1, 2], b""), (["remove", "--member", 2], [0, 1, 2], b"")]
        contents = prepared(scratch, scratch.created([0, 1, 2], SECTORS, CHUNK_KIB, alike=False), away)
        ends = "in sync 3 of 3, events 5, marked 0\n"
        return re_add_case("a resync first", contents, [0, 1], ends, resyncs_first=True)

    return [make for name, make in locals().items() if name.startswith("a_")]
