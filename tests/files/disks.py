"""What is opened to look and what to change: closes and locks, disks that the system uses, writes and syncs that fail."""

import contextlib
import ctypes
import fcntl
import os
import shutil
import stat
import struct
import subprocess
from pathlib import Path

import support

SECTOR = 512
SET = "00112233-4455-6677-8899-aabbccddeeff"

CLOSE_WRITE, CLOSE_NOWRITE = 0x8, 0x10
EXCHANGED = "another file took its place while it was opened; a file system that can't lock is refused too: copy the image to another one"


class Unavailable(Exception):
    """What a check needs isn't there."""


class Watch:
    """How the descriptors of a file are closed."""

    def __init__(self, path):
        self.libc = ctypes.CDLL(None, use_errno=True)
        self.fd = self.libc.inotify_init1(os.O_NONBLOCK)
        wanted = CLOSE_WRITE | CLOSE_NOWRITE
        if self.fd < 0 or self.libc.inotify_add_watch(self.fd, os.fsencode(str(path)), wanted) < 0:
            raise Unavailable("inotify: " + os.strerror(ctypes.get_errno()))

    def closes(self):
        seen, at = set(), 0
        try:
            events = os.read(self.fd, 65536)
        except BlockingIOError:
            events = b""
        while at < len(events):
            _, mask, _, length = struct.unpack_from("iIII", events, at)
            seen.add(mask)
            at += 16 + length
        os.close(self.fd)
        return seen


def tool(name, *words):
    """The output of a system's tool."""
    if not shutil.which(name):
        raise Unavailable("there is no " + name)
    done = subprocess.run(
        [name] + [str(word) for word in words], stdin=subprocess.DEVNULL, stdout=subprocess.PIPE, stderr=subprocess.PIPE
    )
    if done.returncode != 0:
        said = done.stderr.decode("utf-8", "replace").strip() or "status %d" % done.returncode
        raise Unavailable("%s: %s" % (name, said.splitlines()[0]))
    return done.stdout.decode().strip()


@contextlib.contextmanager
def loop_device(path, *options):
    if os.geteuid() != 0:
        raise Unavailable("only root can set up a loop device")
    device = tool("losetup", "--find", "--show", *options, path)
    try:
        yield device
    finally:
        subprocess.run(["losetup", "--detach", device], stdin=subprocess.DEVNULL)


# What linux/loop.h has loop-control make and take away a device by, and the major number of all of them.
LOOP_CTL_ADD, LOOP_CTL_REMOVE, LOOP_MAJOR = 0x4C80, 0x4C81, 7


@contextlib.contextmanager
def numbered_loop(path, node, number):
    """A loop device of this number over a file, by a node that is made for it."""
    if os.geteuid() != 0:
        raise Unavailable("only root can set up a loop device")
    try:
        control = open("/dev/loop-control", "rb")
        fcntl.ioctl(control, LOOP_CTL_ADD, number)
    except OSError as error:
        raise Unavailable("loop device %d: %s" % (number, error.strerror))
    with control:
        os.mknod(str(node), 0o600 | stat.S_IFBLK, os.makedev(LOOP_MAJOR, number))
        try:
            tool("losetup", node, path)
            yield node
        finally:
            subprocess.run(["losetup", "--detach", str(node)], stdin=subprocess.DEVNULL, stderr=subprocess.DEVNULL)
            node.unlink()
            # Another program may still look at it.
            with contextlib.suppress(OSError):
                fcntl.ioctl(control, LOOP_CTL_REMOVE, number)


@contextlib.contextmanager
def holder_of(device, sectors):
    """Device mapper holds a device."""
    holder = "mdcli-test-%d" % os.getpid()
    tool("dmsetup", "create", holder, "--table", "0 %d linear %s 0" % (sectors, device))
    try:
        yield
    finally:
        tool("dmsetup", "remove", "--retry", holder)


SWAP_PAGES, PAGE = 600, 4096
# The first bytes of a superblock (md_p.h, magic), which stands at the second page.
MAGIC = bytes.fromhex("fc4e2ba9")
# What the system leaves alone of an image that it swaps on: all before the one page that it may write to at any time.
NOT_SWAPPED = (SWAP_PAGES - 1) * PAGE


def make_swap(path):
    """Makes a swap area with one good page, the last. It calls the others bad, as linux/swap.h gives it (swap_header)."""
    tool("mkswap", path)
    bad = range(1, SWAP_PAGES - 1)
    with open(path, "r+b") as image:
        header = bytearray(image.read(PAGE))
        struct.pack_into("<III", header, 1024, 1, SWAP_PAGES - 1, len(bad))
        struct.pack_into("<%dI" % len(bad), header, 1536, *bad)
        image.seek(0)
        image.write(header)


def create(images):
    count = str(len(images))
    return ["create", "--level", "raid1", "--raid-devices", count, "--uuid", SET] + [str(image) for image in images]


def two_partitions():
    """A disk with two partitions of 4 MiB."""
    content = bytearray(20480 * SECTOR)
    for number, start in enumerate((2048, 10240)):
        struct.pack_into("<BBBBBBBBII", content, 446 + 16 * number, 0, 0, 0, 0, 0x83, 0, 0, 0, start, 8192)
    content[510:512] = b"\x55\xaa"
    return bytes(content)


class Disks:
    def __init__(self, checks, run):
        self.checks = checks
        self.tally = checks.tally
        self.scratch = checks.scratch
        self.run = run

    def image(self, name, content=b"\x5a" * (4096 * SECTOR), mode=0o666):
        return self.checks.copy(name, content, mode)

    def library(self, source):
        """The library of this C source, which is preloaded."""
        library = support.library_of(Path(__file__).resolve().parent / source, self.scratch)
        if library is None:
            raise Unavailable("there is no C compiler")
        return library

    def judge(self, name, answer, wanted, unchanged=()):
        """Whether a run gave the answer, and left each of these images with these bytes."""
        reasons = [] if answer == wanted else ["the answer is %r" % (answer,), "wanted: %r" % (wanted,)]
        for path, content in unchanged:
            if Path(path).read_bytes()[: len(content)] != content:
                reasons.append("the run changed %s" % path)
        self.tally.judge(name, reasons)

    def attempt(self, name, check):
        try:
            check(name)
        except Unavailable as reason:
            self.tally.skipped(name, str(reason))

    def closes(self, name):
        """A look closes its image as a reader does, which is no event to udev; the watch sees a writer's close."""
        one, two = self.image("closed 1.img"), self.image("closed 2.img")
        for words, wanted in (
            (create([one, two]), {CLOSE_WRITE}),
            (["examine", one], {CLOSE_NOWRITE}),
            (["examine-bitmap", one], {CLOSE_NOWRITE}),
            (["examine-badblocks", one], {CLOSE_NOWRITE}),
        ):
            watch = Watch(one)
            status = self.run(words)[0]
            closes = watch.closes()
            reasons = [] if (status, closes) == (0, wanted) else ["status %d, closes %s" % (status, closes)]
            self.tally.judge("%s: %s" % (name, words[0]), reasons)

    def locks(self, name):
        """Those who look share an image; one who changes it is alone."""
        one, two = self.image("shared.img"), self.image("other.img")
        before = [(path, path.read_bytes()) for path in (one, two)]
        with open(str(one), "rb") as looker:
            fcntl.flock(looker, fcntl.LOCK_SH | fcntl.LOCK_NB)
            self.judge(name + ": a second look", self.run(["examine", one]), (1, "", "mdcli: Super Magic\n"))
            self.judge(name + ": a change", self.run(create([two, one])), (1, "", "mdcli: BadImage 1\n"), before)

    def not_writable(self, name):
        one = self.image("writable.img")
        two = self.image("read-only.img", mode=0o444)
        before = [(path, path.read_bytes()) for path in (one, two)]
        how = {}
        if self.checks.no_nobody:
            raise Unavailable(self.checks.no_nobody)
        if self.checks.nobody_program:
            how = {"program": self.checks.nobody_program, "as_nobody": True}
        self.judge(name, self.run(create([one, two]), **how), (1, "", "mdcli: BadImage 1\n"), before)

    def read_only_device(self, name):
        one, two = self.image("beside.img"), self.image("read-only backing.img")
        before = [(path, path.read_bytes()) for path in (one, two)]
        with loop_device(two, "--read-only") as device:
            self.judge(name, self.run(create([one, device])), (1, "", "mdcli: BadImage 1\n"), before)

    def refused_in_use(self, name, image, judged=None):
        """What is in use is not changed (its first `judged` bytes, or all), and may be looked at."""
        other = self.image("beside.img")
        tool("sync")
        content = Path(image).read_bytes()[:judged]
        before = [(image, content), (other, other.read_bytes())]
        self.judge(name, self.run(create([other, image])), (1, "", "mdcli: BadImage 1\n"), before)
        self.judge(name + ", looked at", self.run(["examine", image]), (1, "", "mdcli: Super Magic\n"), before)

    def used_and_file_below(self, name, device, backing, judged=None):
        """Neither a disk that is in use nor its backing file is changed."""
        self.refused_in_use(name, device, judged)
        self.refused_in_use(name + ": its file", backing, judged)

    def mounted(self, name):
        backing = self.image("mounted backing.img", bytes(8192 * SECTOR))
        folder = self.scratch / "mounted"
        folder.mkdir()
        with loop_device(backing) as device:
            tool("mkfs.ext4", "-q", device)
            tool("mount", "-o", "ro", device, folder)
            try:
                self.used_and_file_below(name, device, backing)
                link = self.scratch / "link to mounted backing.img"
                os.link(str(backing), str(link))
                self.refused_in_use(name + ": another link to its file", link)
                link.unlink()
                backing.rename(self.scratch / "moved backing.img")
                self.judge(name + ": another file of its name", self.run(create([self.image(backing.name)]))[0], 0)
                backing = self.scratch / "moved backing.img"
                self.refused_in_use(name + ": its file, moved", backing)
            finally:
                tool("umount", folder)
            for image in (device, backing):
                self.judge("%s, no more: %s" % (name, Path(image).name), self.run(create([image]))[0], 0)

    def great_minor(self, name):
        """Its minor number takes more than eight bits, as a partition of an NVMe disk may have it."""
        backing = self.image("backing of a great minor.img", bytes(8192 * SECTOR))
        folder = self.scratch / "mounted great minor"
        folder.mkdir()
        with numbered_loop(backing, self.scratch / "great minor", 300) as device:
            tool("mkfs.ext4", "-q", device)
            tool("mount", "-o", "ro", device, folder)
            try:
                self.used_and_file_below(name, device, backing)
            finally:
                tool("umount", folder)
            self.judge(name + ", no more", self.run(create([device]))[0], 0)

    def mounted_above(self, name):
        """Over a disk there is a loop device, which is mounted."""
        folder = self.scratch / "mounted above"
        folder.mkdir()
        with loop_device(self.image("backing of two.img", bytes(8192 * SECTOR))) as below, loop_device(below) as device:
            tool("mkfs.ext4", "-q", device)
            tool("mount", "-o", "ro", device, folder)
            try:
                self.refused_in_use(name, below)
            finally:
                tool("umount", folder)

    def stacked(self, name):
        """A file below a loop device, and that below another one, which is mounted, or which device mapper holds."""
        backing = self.image("backing of a stack.img", bytes(8192 * SECTOR))
        with loop_device(backing) as below, loop_device(below) as device:
            tool("mkfs.ext4", "-q", device)
            folder = self.scratch / "mounted stack"
            folder.mkdir()
            tool("mount", "-o", "ro", device, folder)
            try:
                self.refused_in_use(name + ": its file", backing)
                self.not_added(name + ": its file", backing)
                self.refused_by_node(name + ": another node of the device between", below)
            finally:
                tool("umount", folder)
            self.attempt(name + ", swapped on", lambda name: self.swapped_on_above(name, device, backing))
            self.attempt(name + ", held", lambda name: self.held_above(name, device, backing))
            self.judge(name + ", no more", self.run(create([backing]))[0], 0)

    def refused_by_node(self, name, device):
        node = self.scratch / "node of a stack"
        os.mknod(str(node), 0o600 | stat.S_IFBLK, os.stat(device).st_rdev)
        self.refused_in_use(name, node)
        node.unlink()

    def not_added(self, name, image, judged=None):
        """What is in use is not added to an array, and the array stays as it is."""
        two = [self.image("added to %d.img" % number) for number in range(2)]
        self.run(create(two) + ["--assume-clean"])
        before = [(path, Path(path).read_bytes()) for path in two] + [(image, Path(image).read_bytes()[:judged])]
        words = ["add", "--device", str(image)] + [str(path) for path in two]
        self.judge(name + ", added", self.run(words), (1, "", "mdcli: BadImage 2\n"), before)

    def swapped_on_above(self, name, device, backing):
        make_swap(device)
        tool("swapon", device)
        try:
            self.refused_in_use(name, backing, NOT_SWAPPED)
        finally:
            tool("swapoff", device)

    def held_above(self, name, device, backing):
        with holder_of(device, 4096):
            self.refused_in_use(name, backing)
            self.not_added(name, backing)

    def swapped_on(self, name):
        backing = self.image("swap backing.img", bytes(8192 * SECTOR))
        with loop_device(backing) as device:
            make_swap(device)
            tool("swapon", device)
            try:
                self.used_and_file_below(name, device, backing, NOT_SWAPPED)
            finally:
                tool("swapoff", device)

    def swap_file(self, name):
        """A file that is swapped on without a loop device. The system's list has its name with the spaces escaped."""
        image = self.image("a file that is swapped on.img", bytes(8192 * SECTOR), mode=0o600)
        # The system makes no link to a file that it swaps on.
        link = self.scratch / "link to a swap file.img"
        os.link(str(image), str(link))
        # Of a file the system takes no area with bad pages, and may write to all past the first page.
        tool("mkswap", image)
        tool("swapon", image)
        try:
            self.refused_in_use(name, image, PAGE)
            self.refused_in_use(name + ": another link to it", link, PAGE)
            self.not_added(name, image, PAGE)
            self.judge(name + ", without a superblock", Path(image).read_bytes()[PAGE : PAGE + len(MAGIC)] == MAGIC, False)
        finally:
            tool("swapoff", image)
        link.unlink()
        self.judge(name + ", no more", self.run(create([image]))[0], 0)

    def held(self, name):
        backing = self.image("held backing.img")
        with loop_device(backing) as device, holder_of(device, 4096):
            self.used_and_file_below(name, device, backing)

    def partitioned(self, name):
        """Of two partitions the first is mounted: neither it nor the disk is changed, and the second may be. While the disk is mounted no
        partition is changed."""
        backing = self.image("partitioned backing.img", two_partitions())
        folder = self.scratch / "mounted partition"
        folder.mkdir()
        with loop_device(backing) as device:
            first, second = device + "p1", device + "p2"
            tool("partx", "--add", device)
            try:
                tool("mkfs.ext4", "-q", first)
                tool("mount", "-o", "ro", first, folder)
                try:
                    self.used_and_file_below(name + ": the disk", device, backing)
                    self.refused_in_use(name + ": the partition", first)
                    self.judge(name + ": another partition", self.run(create([second]))[0], 0)
                finally:
                    tool("umount", folder)
                # The system keeps the partitions.
                tool("mkfs.ext4", "-q", "-F", device)
                tool("mount", "-o", "ro", device, folder)
                try:
                    self.refused_in_use(name + ": a partition, while the disk is mounted", first)
                finally:
                    tool("umount", folder)
                self.judge(name + ": a partition, while it is no more", self.run(create([first]))[0], 0)
            finally:
                tool("partx", "--delete", device)

    def two_nodes(self, name):
        with loop_device(self.image("two nodes.img")) as device:
            node = self.scratch / "node"
            os.mknod(str(node), 0o600 | stat.S_IFBLK, os.stat(device).st_rdev)
            self.judge(name, self.run(create([device, node])), (1, "", "mdcli: BadImage 1\n"))
            self.run(create([device]))
            words = [str(support.PROGRAM), "serve", device]
            with subprocess.Popen(words, stdin=subprocess.PIPE, stdout=subprocess.PIPE, stderr=subprocess.DEVNULL) as server:
                # Once it greets its client it has the disk.
                got = server.stdout.read(8), self.run(["fail", "--member", "0", node]), self.run(["detail", "--readonly", node])
                server.stdin.close()
            refused = (1, "", "mdcli: BadImage 0\n")
            self.judge(name + ", each of another program", got, (b"NBDMAGIC", refused, refused))

    def exchanged(self, name):
        """Between the look at a name and its opening a disk comes in the place of a file, or a file in that of a disk."""
        library = self.library("exchange.c")
        path, other = self.scratch / "exchanged.img", self.scratch / "exchanged.img.other"
        with loop_device(self.image("disk to exchange.img")) as device:
            for disk, file, part in ((path, other, "a file in the place of a disk"), (other, path, "a disk in the place of a file")):
                os.mknod(str(disk), 0o600 | stat.S_IFBLK, os.stat(device).st_rdev)
                self.image(file.name)
                settings = {**os.environ, "LD_PRELOAD": str(library), "EXCHANGED": str(path)}
                answer = self.run(["examine", "--verbose", path], program=support.PROGRAM, env=settings)
                wanted = (1, "", "mdcli: BadImage 0\n%s: %s\n" % (path, EXCHANGED))
                self.judge("%s: %s" % (name, part), (answer, other.exists()), (wanted, False))
                path.unlink()

    def failing_calls(self, name):
        """Each write and each sync fails in turn: the image whose it is is named, and after a sync it is only written again."""
        library = self.library("fail.c")
        log = self.scratch / "calls"
        images = [self.scratch / ("failing %d.img" % number) for number in range(2)]

        def calls_of(failed, *options):
            for image in images:
                self.image(image.name)
            log.write_bytes(b"")
            # The program itself: the launcher is a shell, which the library would follow too.
            settings = {**os.environ, "LD_PRELOAD": str(library), "CALLS_LOG": str(log), "FAILED_CALL": str(failed)}
            answer = self.run(create(images) + list(options), program=support.PROGRAM, env=settings)
            return answer, [tuple(line.split()) for line in log.read_text().splitlines()]

        answer, calls = calls_of(0)
        files = sorted({int(file) for _, file in calls})
        opening, writes = calls[:2], calls[2:]
        synced = writes[0::2], [("sync", file) for _, file in writes[0::2]]
        reasons = [] if answer[0] == 0 and len(files) == 2 and writes else ["no failure: %r, files %r" % (answer, files)]
        if opening != [("sync", str(file)) for file in files]:
            reasons.append("not each image is synced as it is opened: %r" % opening)
        if any(call != "write" for call, _ in synced[0]) or writes[1::2] != synced[1]:
            reasons.append("not each write is followed by a sync: %r" % calls)
        told = calls_of(1, "--verbose")[0][2]
        if not told.startswith("mdcli: BadImage 0\n%s: Input/output error" % images[0]):
            reasons.append("of a sync that is refused it says %r" % told)
        for failed, (call, file) in enumerate(calls, 1):
            answer, made = calls_of(failed)
            fault = "BadImage" if failed <= len(opening) else "MetadataFault"
            wanted = (1, "", "mdcli: %s %d\n" % (fault, files.index(int(file))))
            if answer != wanted:
                reasons.append("call %d, a %s: the answer is %r, and not %r" % (failed, call, answer, wanted))
            later = [kind for kind, other in made[failed:] if other == file]
            # What a sync failed to bring to the disk is written again, and nothing else is done with the file.
            if call == "sync" and set(later) != (set() if failed <= len(opening) else {"write"}):
                reasons.append("call %d: after its sync failed the file is used so: %r" % (failed, later))
        self.tally.judge(name, reasons)

    def all(self):
        self.attempt("closes", self.closes)
        self.attempt("locks", self.locks)
        self.attempt("create, an image that may not be written", self.not_writable)
        self.attempt("create, a read-only block device", self.read_only_device)
        self.attempt("a mounted disk", self.mounted)
        self.attempt("a mounted disk with a great minor number", self.great_minor)
        self.attempt("a disk below a mounted one", self.mounted_above)
        self.attempt("a file below two loop devices", self.stacked)
        self.attempt("a disk that is swapped on", self.swapped_on)
        self.attempt("a file that is swapped on", self.swap_file)
        self.attempt("a disk that device mapper holds", self.held)
        self.attempt("a disk with a mounted partition", self.partitioned)
        self.attempt("two nodes of one disk", self.two_nodes)
        self.attempt("another file by the opening", self.exchanged)
        self.attempt("create, each write and sync fails in turn", self.failing_calls)
