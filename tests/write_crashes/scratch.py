"""Images in a folder, and runs of the program over them with the library of stop.c."""

import os
import signal
import subprocess

import members
import support

SECONDS = 60
SET = "00112233-4455-6677-8899-aabbccddeeff"
KILLED = -signal.SIGKILL


class Call:
    """One line of the log: a call on an image."""

    def __init__(self, line):
        kind, place, size, image = line.split(" ", 3)
        self.kind = kind
        self.place = int(place)
        self.size = int(size)
        self.image = image
        self.written = b""


def calls_in(log, has_bytes):
    """The calls of a log, where the bytes of each write follow its line if it has them."""
    calls, at = [], 0
    while at < len(log):
        end = log.index(b"\n", at)
        call = Call(log[at:end].decode())
        at = end + 1
        if has_bytes and call.kind == "write":
            call.written = log[at : at + call.size]
            at += call.size
        calls.append(call)
    return calls


class Answer:
    def __init__(self, done, calls):
        self.status = done.returncode
        self.output = done.stdout
        self.errors = support.but_stray(done.stderr.decode("utf-8", "backslashreplace"))
        self.calls = calls
        self.writes = [call for call in calls if call.kind != "read"]
        self.reads = [call for call in calls if call.kind == "read"]

    def against(self, status, output, errors=""):
        """The reasons against it, where it has to be this."""
        got = (self.status, self.output, self.errors)
        return [] if got == (status, output, errors) else ["the answer is %r, and not %r" % (got, (status, output, errors))]


class Scratch:
    def __init__(self, folder, library):
        self.folder = folder
        self.library = library
        self.log = folder / "calls"

    def path(self, index):
        return self.folder / ("%d.img" % index)

    def put(self, contents):
        for index, content in enumerate(contents):
            self.path(index).write_bytes(content)

    def take(self, count):
        return [self.path(index).read_bytes() for index in range(count)]

    def run(self, words, images, given=b"", **settings):
        """A run over the images of these numbers. No disk is waited for."""
        self.log.write_bytes(b"")
        names = [image if image == "missing" else str(self.path(image)) for image in images]
        done = subprocess.run(
            # The program itself: the launcher is a shell, which the library would follow too.
            [str(support.PROGRAM)] + support.unasked(words) + names,
            input=given,
            stdout=subprocess.PIPE,
            stderr=subprocess.PIPE,
            timeout=SECONDS,
            env={**os.environ, "LD_PRELOAD": str(self.library), "CALLS_LOG": str(self.log), **settings},
        )
        return Answer(done, calls_in(self.log.read_bytes(), "CALLS_BYTES" in settings))

    def stopped(self, words, images, given, how, number, **settings):
        return self.run(words, images, given, STOPPED_CALL=str(number), STOPPED_HOW=how, **settings)

    def created(self, images, sectors, chunk_kib, options=(), alike=True):
        """The contents of a new array's images: `images` has None for a missing member."""
        for index, image in enumerate(images):
            if image is not None:
                data = members.pattern(1 if alike else 1 + index, sectors)
                self.path(image).write_bytes(bytes(2048 * members.SECTOR) + data)
        create = ["create", "--level", "raid1", "--raid-devices", len(images), "--uuid", SET, "--bitmap-chunk", chunk_kib]
        answer = self.run(create + list(options), ["missing" if image is None else image for image in images])
        if answer.status != 0:
            raise ValueError("create: " + answer.errors)
        return self.take(sum(image is not None for image in images))
