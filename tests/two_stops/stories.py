"""The arrays on which a command is killed and another one goes on, and which commands these are."""

import importlib.util
from pathlib import Path

import members

HERE = Path(__file__).resolve().parent
SECTORS = 64
OTHERS_AT = 3
OTHERS_WRITTEN = members.pattern(11, 8)
SET = "00112233-4455-6677-8899-aabbccddeeff"


def arrays_of(part):
    """The arrays of another part, whose commands are killed alone there."""
    spec = importlib.util.spec_from_file_location(part + "_arrays", HERE.parent / part / "arrays.py")
    module = importlib.util.module_from_spec(spec)
    spec.loader.exec_module(module)
    return module


WRITES, REBUILDS = arrays_of("write_crashes"), arrays_of("rebuild_crashes")
# Their commands are those of other arrays too.
LEFT_OUT = ("write_to_three", "resync_of_three", "stop_of_one", "stop_of_one_of_two", "a_spare_of_three", "a_lone_source_that_fails")


class Command:
    def __init__(self, words, images, given=b"", first=0):
        self.words = words
        self.images = images
        self.given = given
        self.first = first

    @property
    def name(self):
        options = [str(word) for word in self.words[1:] if not str(word).startswith("/")]
        return " ".join([self.words[0]] + options + ["of"] + [str(image) for image in self.images])


class Story:
    """The contents of the images, the command that is killed, and those of which one goes on from what it reads then."""

    def __init__(self, name, contents, first, seconds, is_new=False, settings=None):
        self.name = name
        self.contents = contents
        self.first = first
        self.seconds = seconds
        # Whether the images are of no array yet.
        self.is_new = is_new
        self.settings = settings or {}


def follow_ups(images):
    """What may come next whatever was killed."""
    written = Command(["write", "--sector", OTHERS_AT], images, OTHERS_WRITTEN, OTHERS_AT)
    return [Command(["resync"], images), written, Command(["stop"], images), Command(["assemble"], images)]


def rebuilds(scratch, target, others, full=()):
    device = ["--device", scratch.path(target)]
    rebuild = [Command(["rebuild", "--member", number], others + [target]) for number in {target, len(others)}]
    return rebuild + [Command(["re-add", *full] + device, others), Command(["add"] + device, others)]


def story_of_write_case(scratch, case):
    first = Command(case.words, case.images, case.given, case.first)
    everyone = list(range(len(case.contents)))
    seconds = [first] + follow_ups(everyone)
    if case.images != everyone:
        seconds += follow_ups(case.images)
    if case.joins is not None:
        seconds += rebuilds(scratch, case.joins, case.images)
    elif len(everyone) > 1:
        seconds.append(Command(["fail", "--member", 1], everyone))
    return Story(case.name, case.contents, first, seconds)


def story_of_rebuild_case(scratch, case):
    first = Command(case.words, case.images)
    # Nothing on a member that takes all of the data tells that it lacks more than what is marked.
    full = ["--full"] if case.is_full else []
    seconds = [first] + follow_ups(case.others + [case.target]) + rebuilds(scratch, case.target, case.others, full)
    return Story(case.name, case.contents, first, seconds, settings=case.settings(scratch))


def story_of_create(scratch, name, contents):
    images = list(range(len(contents)))
    words = ["create", "--run", "--level", "raid1", "--raid-devices", len(images), "--uuid", SET, "--bitmap-chunk", 4]
    first = Command(words, images)
    clean = Command(words + ["--assume-clean"], images)
    return Story(name, contents, first, [first] + follow_ups(images) + ([clean] if len(set(contents)) == 1 else []), is_new=True)


def story_of_leaving(scratch, name, contents, words):
    """The last image leaves the array."""
    images = list(range(len(contents)))
    first = Command(words, images)
    others = [Command(["remove", "--member", images[-1]], images), Command(["fail", "--member", 1], images)]
    alone = Command(["write", "--sector", OTHERS_AT], images[:-1], OTHERS_WRITTEN, OTHERS_AT)
    return Story(name, contents, first, [first] + others + rebuilds(scratch, images[-1], images[:-1]) + [alone] + follow_ups(images))


def made_stories():
    """By its name what makes each story, in a scratch folder. Their arrays are made anew in each process."""

    def alike(count):
        return [bytes(2048 * members.SECTOR) + members.pattern(1, SECTORS)] * count

    def create_of_two(scratch):
        return story_of_create(scratch, "create, of two alike", alike(2))

    def create_of_unlike(scratch):
        contents = [bytes(2048 * members.SECTOR) + members.pattern(seed, SECTORS) for seed in (1, 2)]
        return story_of_create(scratch, "create, of two unlike", contents)

    def create_over_an_array(scratch):
        contents = scratch.created([0, 1], SECTORS, 4, ["--assume-clean"])
        contents = REBUILDS.prepared(scratch, contents, [(["write", "--sector", "6"], [0, 1], members.pattern(9, 12))])
        return story_of_create(scratch, "create, over an array of its UUID", contents)

    def fail_one(scratch):
        contents = scratch.created([0, 1], SECTORS, 4, ["--assume-clean"])
        return story_of_leaving(scratch, "fail", contents, ["fail", "--member", 1])

    def remove_a_spare(scratch):
        contents = scratch.created([0, 1, None], SECTORS, 4, ["--assume-clean"]) + [members.pattern(3, 2048 + SECTORS)]
        contents = REBUILDS.prepared(scratch, contents, [(["add", "--device", scratch.path(2)], [0, 1], b"")])
        return story_of_leaving(scratch, "remove, a spare", contents, ["remove", "--member", 2])

    def re_add_of_the_last_chunk(scratch):
        """The second command writes before the only chunk that the member lacked, with the member or without it."""
        away = [(["fail", "--member", 1], [0, 1], b""), (["remove", "--member", 1], [0, 1], b"")]
        written = (["write", "--sector", SECTORS - 8], [0], members.pattern(9, 8))
        contents = REBUILDS.prepared(scratch, scratch.created([0, 1], SECTORS, 4, ["--assume-clean"]), away + [written])
        first = Command(["re-add", "--device", scratch.path(1)], [0])
        alone = Command(["write", "--sector", OTHERS_AT], [0], OTHERS_WRITTEN, OTHERS_AT)
        return Story("re-add, of the last chunk", contents, first, [first, alone] + follow_ups([0, 1]))

    stories = {name: make for name, make in locals().items() if name.startswith(("create_", "fail_", "remove_", "re_add_"))}
    for arrays, story_of in ((WRITES, story_of_write_case), (REBUILDS, story_of_rebuild_case)):
        for name in names_of(arrays):
            stories[name] = maker(arrays, story_of, name)
    return stories


def names_of(arrays):
    return [make.__name__ for make in arrays.made_cases(None) if make.__name__ not in LEFT_OUT]


def maker(arrays, story_of, name):
    def make(scratch):
        (case,) = [one for one in arrays.made_cases(scratch) if one.__name__ == name]
        return story_of(scratch, case())

    return make
