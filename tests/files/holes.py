"""Zeros that are written to an image or put out. If an image with holes shows zeros there already, nothing is written, so that a hole
stays a hole. If it has data there, the zeros replace them. This goes by pieces of 64 KiB, counted from the place at which a write begins."""

import os

import disks

SECTOR = 512
PIECE = 64 * 1024
# The data of an array, in pieces: data, zeros, data that end within a piece, zeros.
DATA = 0x5A
CONTENT = bytes([DATA]) * PIECE + bytes(40 * PIECE) + bytes([DATA]) * (PIECE + SECTOR) + bytes(22 * PIECE - SECTOR)
SECTORS = len(CONTENT) // SECTOR
DATA_AT = 2048
# An image of that length that holds two pieces of data takes less, with its superblock, bitmap and log.
MOST = 1 << 20


class Holes:
    def __init__(self, checks, run):
        self.tally = checks.tally
        self.scratch = checks.scratch
        self.run = run

    def image(self, name, fill=None):
        """A sparse image, or one that is full of a byte."""
        path = self.scratch / name
        with open(str(path), "wb") as image:
            if fill is None:
                image.truncate((DATA_AT + SECTORS) * SECTOR)
            else:
                image.write(bytes([fill]) * ((DATA_AT + SECTORS) * SECTOR))
        return path

    def data(self, path):
        with open(str(path), "rb") as image:
            image.seek(DATA_AT * SECTOR)
            return image.read()

    def done(self, reasons, words, **how):
        answer = self.run([str(word) for word in words], **how)
        if answer[0] != 0:
            reasons.append("%s: the answer is %r" % (words[0], answer))

    def write(self, reasons, images, content, sector=0):
        given = self.scratch / "given"
        given.write_bytes(content)
        with open(str(given), "rb") as source:
            self.done(reasons, ["write", "--sector", sector] + images, stdin=source)

    def is_sparse(self, reasons, path):
        taken = os.stat(str(path)).st_blocks * SECTOR
        if taken > MOST:
            reasons.append("%s takes %d bytes" % (path.name, taken))

    def holds(self, reasons, path, content):
        if self.data(path) != content:
            reasons.append("%s holds something else" % path.name)

    def written(self, name):
        reasons, images = [], [self.image("one.img"), self.image("two.img")]
        self.done(reasons, disks.create(images) + ["--assume-clean"])
        self.write(reasons, images, CONTENT)
        for image in images:
            self.is_sparse(reasons, image)
            self.holds(reasons, image, CONTENT)
        self.tally.judge(name, reasons)

    def written_over(self, name):
        reasons, images = [], [self.image("three.img", 0xA5), self.image("four.img", 0xA5)]
        self.done(reasons, disks.create(images) + ["--assume-clean"])
        self.write(reasons, images, CONTENT)
        # Not from the start of a piece, and with a sector of data in the last one.
        held = bytearray(CONTENT)
        self.write(reasons, images, bytes(2 * PIECE), 3)
        held[3 * SECTOR : 3 * SECTOR + 2 * PIECE] = bytes(2 * PIECE)
        last = bytes(PIECE - SECTOR) + bytes([DATA]) * SECTOR
        self.write(reasons, images, last, SECTORS - PIECE // SECTOR)
        held[-PIECE:] = last
        for image in images:
            self.holds(reasons, image, bytes(held))
        self.tally.judge(name, reasons)

    def written_to_a_disk(self, name):
        """A disk may show zeros that it does not have, and tells nothing of holes. Whether they were written to this one its file shows."""
        reasons, backing = [], self.image("ten.img")
        try:
            with disks.loop_device(backing) as device:
                self.done(reasons, disks.create([device]) + ["--assume-clean"])
                self.write(reasons, [device], bytes(40 * PIECE))
        except disks.Unavailable as reason:
            return self.tally.skipped(name, str(reason))
        taken = os.stat(str(backing)).st_blocks * SECTOR
        if taken < 40 * PIECE:
            reasons.append("of its file %d bytes are written" % taken)
        self.tally.judge(name, reasons)

    def rebuilt(self, name, fill, is_sparse):
        reasons, one, new = [], self.image("five.img"), self.image("new.img", fill)
        self.done(reasons, disks.create([one, "missing"]) + ["--assume-clean"])
        self.write(reasons, [one], CONTENT)
        self.done(reasons, ["add", "--run", "--device", new, one])
        self.done(reasons, ["rebuild", "--run", "--member", "1", one, new])
        self.holds(reasons, new, CONTENT)
        if is_sparse:
            self.is_sparse(reasons, new)
        self.tally.judge(name, reasons)

    def with_data(self, name):
        """A sparse image that has these data, and holes between them."""
        path = self.image(name)
        with open(str(path), "r+b") as image:
            for at in range(0, len(CONTENT), SECTOR):
                if CONTENT[at] != 0:
                    image.seek(DATA_AT * SECTOR + at)
                    image.write(CONTENT[at : at + SECTOR])
        return path

    def put_out(self, name):
        reasons, images = [], [self.with_data("six.img"), self.with_data("seven.img")]
        self.done(reasons, disks.create(images) + ["--assume-clean"])
        output = self.scratch / "output.img"
        self.done(reasons, ["read", "--readonly", "--sector", 0, "--output", output] + images)
        if output.read_bytes() != CONTENT:
            reasons.append("something else is put out")
        self.is_sparse(reasons, output)
        self.tally.judge(name, reasons)

    def resynced(self, name, fill, is_sparse):
        """All chunks are marked, and the second image differs."""
        reasons, images = [], [self.with_data("eight.img"), self.image("nine.img", fill)]
        self.done(reasons, disks.create(images))
        self.done(reasons, ["resync"] + images)
        for image in images:
            self.holds(reasons, image, CONTENT)
            if is_sparse:
                self.is_sparse(reasons, image)
        self.tally.judge(name, reasons)

    def all(self):
        self.written("zeros are written into holes: these stay")
        self.written_over("zeros are written over data: these are gone")
        self.written_to_a_disk("zeros are written to a disk that shows zeros: they are on it")
        self.rebuilt("a sparse image is rebuilt: it stays sparse", None, True)
        self.rebuilt("an image full of data is rebuilt: it gets the zeros", 0xA5, False)
        self.put_out("an array with holes is put out: they are holes of the file")
        self.resynced("sparse images are resynced: they stay sparse", None, True)
        self.resynced("an image full of data is resynced: it gets the zeros", 0xA5, False)
