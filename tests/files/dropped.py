"""A member that drops out in a write: a write to it fails, and the line says so."""

import contextlib
import os
import subprocess
from pathlib import Path

import disks
import support
from disks import SECTOR, Unavailable, loop_device, tool

SECTORS = 4096
# What create lays out, and after it the data.
LAID_OUT = 2048
DATA = bytes(range(256)) * 2 * 8
LINE = "mdcli: %s: a write failed; it is faulty now, and the array has 1 of 2\n"


@contextlib.contextmanager
def full_file_system(folder):
    """A small file system in memory. What a file of it has not yet, it never gets: it is full."""
    if os.geteuid() != 0:
        raise Unavailable("only root can mount a file system")
    folder.mkdir()
    tool("mount", "-t", "tmpfs", "-o", "size=2m", "tmpfs", folder)
    try:
        yield lambda: fill(folder / "filler")
    finally:
        tool("umount", folder)
        folder.rmdir()


def fill(path):
    with open(str(path), "wb", buffering=0) as filler:
        try:
            while filler.write(bytes(4096)) == 4096:
                pass
        except OSError:
            pass


@contextlib.contextmanager
def failing_disk(device):
    """Device mapper fails each read and write of the data."""
    name = "mdcli-test-dropped-%d" % os.getpid()
    table = "0 %d linear %s 0\n%d %d error\n" % (LAID_OUT, device, LAID_OUT, SECTORS - LAID_OUT)
    tool("dmsetup", "create", name, "--table", table)
    try:
        yield "/dev/mapper/" + name
    finally:
        tool("dmsetup", "remove", "--retry", name)


class Dropped:
    def __init__(self, checks, run):
        self.checks = checks
        self.tally = checks.tally
        self.scratch = checks.scratch
        self.run = run

    def sparse(self, path):
        with open(str(path), "wb") as image:
            image.truncate(SECTORS * SECTOR)
        return path

    def created(self, images):
        answer = self.run(disks.create(images) + ["--assume-clean"])
        if answer[0] != 0:
            self.tally.failed("an array to write to", "the answer is %r" % (answer,))

    def write(self, images, **how):
        data = self.scratch / "written data"
        data.write_bytes(DATA)
        with open(str(data), "rb") as source:
            return self.run(["write", "--sector", "0"] + [str(image) for image in images], stdin=source, **how)

    def judge(self, name, images, answer, dropped):
        """The write is done on the other one, which alone is in sync, and the line names the one that dropped out."""
        reasons = []
        if (answer[0], answer[2]) != (0, LINE % images[dropped]):
            reasons.append("the answer is %r" % (answer,))
        other = str(images[1 - dropped])
        read = self.scratch / "read data"
        with open(str(read), "wb") as output:
            status = self.run(["read", "--readonly", "--sector", "0", "--count", str(len(DATA) // SECTOR), other], stdout=output)[0]
        if status != 0 or read.read_bytes() != DATA:
            reasons.append("what was written is not on the other one: status %d" % status)
        detail = self.run(["detail", "--readonly"] + [str(image) for image in images])
        if detail[0] != 0 or "In Sync         : 1\n" not in detail[1]:
            reasons.append("the members then: %r" % (detail,))
        self.tally.judge(name, reasons)

    def full_file(self, name):
        with full_file_system(self.scratch / "full") as fill_up:
            images = [self.sparse(self.scratch / "beside full.img"), self.sparse(self.scratch / "full" / "full.img")]
            self.created(images)
            fill_up()
            self.judge(name, images, self.write(images), 1)

    def full_disk(self, name):
        """A disk whose writes fail in one place, by what it stands on."""
        with full_file_system(self.scratch / "full disk") as fill_up:
            backing = self.sparse(self.scratch / "full disk" / "backing.img")
            with loop_device(backing) as device:
                images = [self.sparse(self.scratch / "beside a full disk.img"), device]
                self.created(images)
                tool("sync")
                fill_up()
                self.judge(name, images, self.write(images), 1)

    def failing(self, name):
        """Only the data of the disk fails; its metadata is made on the disk below."""
        with loop_device(self.sparse(self.scratch / "failing backing.img")) as device:
            images = [self.sparse(self.scratch / "beside a failing disk.img"), device]
            self.created(images)
            with failing_disk(device) as disk:
                images[1] = disk
                self.judge(name, images, self.write(images), 1)

    def failing_calls(self, name):
        """Each call fails in turn. The command is done without the image whose it was, and the line names that; or the stop after it
        is refused, and the fault does."""
        library = self.scratch / "fail_dropped.so"
        tool("cc", "-shared", "-fPIC", "-O1", "-o", library, Path(__file__).resolve().parent / "fail.c")
        log = self.scratch / "calls of a write"
        images = [self.scratch / ("dropping %d.img" % number) for number in range(2)]

        def calls_of(failed):
            for image in images:
                self.sparse(image)
            self.created(images)
            log.write_bytes(b"")
            settings = {**os.environ, "LD_PRELOAD": str(library), "CALLS_LOG": str(log), "FAILED_CALL": str(failed)}
            answer = self.write(images, program=support.PROGRAM, env=settings)
            return answer, [tuple(line.split()) for line in log.read_text().splitlines()]

        answer, calls = calls_of(0)
        files = sorted({int(file) for _, file in calls})
        if answer[0] != 0 or answer[2] or len(files) != 2:
            return self.tally.failed(name, "no failure: %r, files %r" % (answer, files))
        reasons, dropped = [], set()
        for failed, (call, file) in enumerate(calls, 1):
            number = files.index(int(file))
            answer, _ = calls_of(failed)
            fault = "BadImage" if failed <= len(files) else "MemberFailed"
            if (answer[0], answer[2]) == (0, LINE % images[number]):
                dropped.add(number)
            elif answer != (1, "", "mdcli: %s %d\n" % (fault, number)):
                reasons.append("call %d, a %s: the answer is %r" % (failed, call, answer))
        if dropped != {0, 1}:
            reasons.append("of which a write was done all the same: %r" % sorted(dropped))
        self.tally.judge(name, reasons)

    def attempt(self, name, check):
        try:
            check(name)
        except Unavailable as reason:
            self.tally.skipped(name, str(reason))

    def all(self):
        self.attempt("write, each write and sync fails in turn", self.failing_calls)
        self.attempt("write, a file on a full file system", self.full_file)
        self.attempt("write, a disk over a full file system", self.full_disk)
        self.attempt("write, a disk whose data fails", self.failing)
