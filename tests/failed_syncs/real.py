"""A real file system on which a sync of a member's file fails, since its disk is full. It is ext4 on a loop device. The loop device's
backing file has holes below the member, and is on a file system in memory that has no room left. At the end POSIX_FADV_DONTNEED drops
what ext4 shows."""

import contextlib
import os
import subprocess
import sys
from pathlib import Path

sys.path.insert(1, str(Path(__file__).resolve().parent.parent / "files"))

import members  # noqa: E402
import support  # noqa: E402
from disks import Unavailable, loop_device, tool  # noqa: E402

SECTOR = members.SECTOR
SECONDS = 60
START = 2048
DATA = members.pattern(3, 8192)
# The sectors that the test overwrites with zeros.
FIRST, COUNT = 1024, 512
PIECE = 4096


@contextlib.contextmanager
def mounted(folder, *words):
    folder.mkdir(exist_ok=True)
    tool("mount", *words, folder)
    try:
        yield folder
    finally:
        tool("umount", folder)
        folder.rmdir()


def fill(path):
    with open(str(path), "wb", buffering=0) as filler:
        with contextlib.suppress(OSError):
            while filler.write(bytes(PIECE)) == PIECE:
                pass


def places(backing):
    """The places at which the file system has the data of the member that will be overwritten, and their bytes."""
    content = backing.read_bytes()
    found = {content[at : at + PIECE]: at for at in range(0, len(content), PIECE)}
    for at in range(0, COUNT * SECTOR, PIECE):
        piece = DATA[FIRST * SECTOR + at : FIRST * SECTOR + at + PIECE]
        if piece not in found:
            raise Unavailable("the member's blocks are not found")
        yield found[piece], piece


@contextlib.contextmanager
def without_room(backing, filler):
    """Writes of the member's data fail. Then the disk has what it had."""
    taken = list(places(backing))
    for place, piece in taken:
        tool("fallocate", "--punch-hole", "--offset", place, "--length", PIECE, backing)
    fill(filler)
    yield
    filler.unlink()
    with open(str(backing), "r+b") as disk:
        for place, piece in taken:
            disk.seek(place)
            disk.write(piece)


def bring(path):
    """What is still to be written is brought to the disk, if possible."""
    fd = os.open(str(path), os.O_RDONLY)
    try:
        os.fsync(fd)
    finally:
        os.close(fd)


def drop(path):
    fd = os.open(str(path), os.O_RDONLY)
    try:
        os.posix_fadvise(fd, 0, 0, os.POSIX_FADV_DONTNEED)
    finally:
        os.close(fd)


def run(words, images, given=b""):
    done = subprocess.run(
        [str(support.PROGRAM)] + [str(word) for word in list(words) + list(images)],
        input=given,
        stdout=subprocess.PIPE,
        stderr=subprocess.PIPE,
        timeout=SECONDS,
    )
    return done.returncode, done.stderr.decode("utf-8", "backslashreplace")


def play(scratch, how):
    """The reasons against what the disks of both members have in the end, and what was answered."""
    with contextlib.ExitStack() as stack:
        memory = stack.enter_context(mounted(scratch / "memory", "-t", "tmpfs", "-o", "size=32m", "tmpfs"))
        backing = memory / "backing"
        with open(str(backing), "wb") as file:
            file.truncate(28 << 20)
        device = stack.enter_context(loop_device(backing))
        tool("mkfs.ext4", "-q", "-O", "^has_journal", "-b", PIECE, device)
        folder = stack.enter_context(mounted(scratch / "on a full disk", device))
        images = [scratch / "whole.img", folder / "full.img"]
        for image in images:
            image.write_bytes(bytes([0x5A]) * (START * SECTOR) + DATA)
        create = ["create", "--level", "raid1", "--raid-devices", 2, "--bitmap-chunk", 64, "--assume-clean", "--run"]
        answers = [run(create, images)]
        bring(images[1])
        with without_room(backing, memory / "filler"):
            answers.append(run(["write", "--sector", FIRST], images, bytes(COUNT * SECTOR)))
        re_add = ["re-add", "--run"] + how + ["--device", images[1]]
        answers.append(run(re_add, images[:1]))
        if answers[2] == (1, "mdcli: BadImage 1\n"):
            # The system has tried to store it again while there was no room. The next sync, that of the opening, says so once.
            answers[2] = run(re_add, images[:1])
        bring(images[1])
        drop(images[1])
        found = members.Found([image.read_bytes() for image in images])
        reasons = found.uncovered()
        if "a write failed" not in answers[1][1] or answers[2][0] != 0 or found.is_degraded:
            reasons.append("%r, %r" % (found.summary(), answers))
        return reasons


def judge(tally, scratch, how):
    name = "ext4 over a full disk: a write of zeros, and %s" % " ".join(["re-add"] + how)
    try:
        tally.judge(name, play(scratch, how))
    except Unavailable as reason:
        tally.skipped(name, str(reason))
