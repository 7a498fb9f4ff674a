"""One disk by two names: a loop device beside its file, loop devices over parts that overlap, a partition beside its disk."""

import os
from pathlib import Path

import disks
from disks import SECTOR, create, loop_device, tool

PART = 4096 * SECTOR
REASON = "it was named before, by another name of the same disk: name it once\n"


class TwoNames(disks.Disks):
    def refused(self, name, one, other):
        """The second of two images is refused, in both orders, and by commands that only look."""
        for images in ((one, other), (other, one)):
            told = (1, "", "mdcli: BadImage 1\n%s: %s" % (images[1], REASON))
            words = create(images)
            self.judge(name + ": create", self.run(words[:1] + ["--verbose"] + words[1:]), told)
            self.judge(name + ": detail", self.run(["detail", "--readonly", "--verbose"] + [str(image) for image in images]), told)

    def output_is(self, name, image, output):
        """Standard output lies on the image, by the image's other name: nothing is put out there."""
        before = [(image, Path(image).read_bytes())]
        with open(str(output), "r+b") as stream:
            answer = self.run(["examine", str(image)], stdout=stream)
        self.judge(name, answer, (1, "", "mdcli: OutputIsImage 0\n"), before)

    def taken(self, name, one, other):
        """The two are an array's members."""
        self.judge(name + ": create", self.run(create([one, other]))[0], 0)
        answer = self.run(["assemble", "--readonly", str(one), str(other)])
        self.judge(name + ": assemble", (answer[0], answer[1][:14]), (0, "in sync 2 of 2"))

    def file_and_loop(self, name):
        image = self.image("a file and its loop device.img", bytes(PART))
        link = self.scratch / "link to it.img"
        os.link(str(image), str(link))
        with loop_device(image) as device:
            self.refused(name, image, device)
            self.output_is(name + ": put out to the device", image, device)
            self.output_is(name + ": put out to the file", device, image)
            self.refused(name + ", another link to it", link, device)
            with loop_device(image) as second:
                self.refused(name + ", a second one", device, second)
            with loop_device(device) as above:
                self.refused(name + ", one over the other", image, above)
                self.refused(name + ", one over the other, of the two", device, above)

    def links(self, name):
        """Whoever looks shares the lock: two links to a file are told apart by what they name."""
        image = self.image("linked.img", bytes(PART))
        self.run(create([image]))
        before = [(image, image.read_bytes())]
        for made, link in ((os.link, "another link.img"), (os.symlink, "a symbolic link.img")):
            link = self.scratch / link
            made(str(image), str(link))
            told = (1, "", "mdcli: BadImage 1\n%s: %s" % (link, REASON))
            self.judge(name, self.run(["assemble", "--readonly", "--verbose", image, link]), told, before)

    def parts(self, name):
        image = self.image("parts of a file.img", bytes(2 * PART))
        with loop_device(image, "--sizelimit", str(PART)) as first, loop_device(image, "--offset", str(PART)) as second:
            self.taken(name, first, second)
            self.refused(name + ", and the file", image, second)
            with loop_device(image, "--offset", str(PART - SECTOR), "--sizelimit", str(PART)) as between:
                self.refused(name + ", one that has the end of the first", first, between)
                self.refused(name + ", one that has most of the second", between, second)
        with loop_device(image) as whole:
            with loop_device(whole, "--sizelimit", str(PART)) as first, loop_device(image, "--offset", str(PART)) as second:
                self.taken(name + ", one over another loop device", first, second)

    def partitions(self, name):
        backing = self.image("partitions.img", disks.two_partitions())
        with loop_device(backing) as device:
            tool("partx", "--add", device)
            try:
                first, second = device + "p1", device + "p2"
                self.refused(name + ", and the disk", first, device)
                self.output_is(name + ": put out to the disk", first, device)
                self.refused(name + ", and its file", backing, second)
                self.taken(name, first, second)
            finally:
                tool("partx", "--delete", device)

    def all(self):
        self.attempt("two links to a file", self.links)
        self.attempt("a file and its loop device", self.file_and_loop)
        self.attempt("loop devices over parts of a file", self.parts)
        self.attempt("two partitions", self.partitions)
