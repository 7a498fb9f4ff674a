"""Arrays that the program makes and changes, as bytes: each command over images in a folder, also stopped at one of its calls."""

import uuid

import members
from members import SECTOR

DATA_AT = 2048


class Lab:
    """A place for one array at a time. `scratch` runs the program, and stops it."""

    def __init__(self, scratch):
        self.scratch = scratch
        self.made = 0

    def new_uuid(self):
        self.made += 1
        return str(uuid.uuid5(uuid.NAMESPACE_OID, "array %d" % self.made))

    def create(self, data, chunk_kib=4, options=("--assume-clean",)):
        """The images of a new array: `data` has for each role what the image holds, or None for a missing member."""
        contents = [bytes(DATA_AT * SECTOR) + content for content in data if content is not None]
        places = iter(range(len(contents)))
        images = ["missing" if content is None else next(places) for content in data]
        words = ["create", "--level", "raid1", "--raid-devices", len(data), "--uuid", self.new_uuid(), "--bitmap-chunk", chunk_kib]
        return self.run(contents, words + list(options), images)

    def answer(self, contents, words, images=None, given=b"", **settings):
        """The answer to a command over these images, and the images after it. A number of an image stands for its path."""
        self.scratch.put(contents)
        words = [self.scratch.path(word.index) if isinstance(word, Image) else word for word in words]
        images = range(len(contents)) if images is None else images
        answer = self.scratch.run(words, images, given, **settings)
        return answer, self.scratch.take(len(contents))

    def run(self, contents, words, images=None, given=b"", **settings):
        """The images after a command that has to be done."""
        answer, contents = self.answer(contents, words, images, given, **settings)
        if answer.status != 0:
            raise ValueError("%s: %s" % (words[0], answer.errors.strip()))
        return contents

    def stopped(self, contents, words, images, given, how, number, **settings):
        """The images after a command that was ended at one of its calls."""
        _, contents = self.answer(contents, words, images, given, STOPPED_CALL=str(number), STOPPED_HOW=how, **settings)
        return contents

    def calls(self, contents, words, images=None, given=b"", **settings):
        """The calls by which a command that nothing stops writes or waits for a disk."""
        answer, _ = self.answer(contents, words, images, given, **settings)
        if answer.status != 0:
            raise ValueError("%s: %s" % (words[0], answer.errors.strip()))
        return answer.writes

    def left(self, contents, number, others):
        """The images after a member failed and was removed from an array of these."""
        contents = self.run(contents, ["fail", "--member", others.index(number)], others)
        return self.run(contents, ["remove", "--member", others.index(number)], others)


class Image:
    """An image in the words of a command, as `--device` has it."""

    def __init__(self, index):
        self.index = index


def data_of(content, sectors):
    """What an image holds of the array."""
    member = members.Member(content)
    return member.data(0, sectors)
