"""What the system uses, and where it can't be told: mounts in another mount namespace or root, and a /proc or /sys that is not there."""

import contextlib
import os
import subprocess
from pathlib import Path

import disks
import support
from disks import SECTOR, Unavailable, create, loop_device, tool

REFUSED = (1, "", "mdcli: BadImage 0\n")
# The line about a file system that may be mounted out of sight.
HIDDEN = "mdcli: %s: its file system may be mounted where this can't be seen, as outside of a container: unmount it there, and give --run\n"
# As a program in a container is: no process can be read but those of a namespace of its own.
CONTAINED = ("--pid", "--fork", "--mount-proc")
BTRFS_BYTES = 128 << 20
ABSENT = "whether the system uses it can't be told, as %s is not there: mount it, or only look at the image\n"
# As a program in a container is: no process can be read but those of a namespace of its own.
CONTAINED = ("--pid", "--fork", "--mount-proc")
BTRFS_BYTES = 128 << 20
# What a file system's own folder under /sys would tell is covered, so that the mount tables alone do.
COVERED = "mount -t tmpfs none /sys/fs"
# File systems of which nothing but the tables of mounts shows that they are mounted: the bytes by which each is known, and their place.
TOLD_BY_MOUNTS = [
    ("JFS", 32768, b"JFS1"),
    ("ReiserFS", 65588, b"ReIsEr2Fs"),
    ("NTFS", 3, b"NTFS    "),
    ("exFAT", 3, b"EXFAT   "),
    ("FAT", 82, b"FAT32   "),
    ("SquashFS", 0, b"hsqs"),
    ("ISO 9660", 32769, b"CD001"),
]


@contextlib.contextmanager
def mounted_elsewhere(device, folder):
    """It is mounted in a mount namespace of its own, as long as a process there waits."""
    script = 'mount -o ro "$1" "$2" && echo mounted && read line'
    words = ["unshare", "--mount", "sh", "-c", script, "sh", device, str(folder)]
    with subprocess.Popen(words, stdin=subprocess.PIPE, stdout=subprocess.PIPE, stderr=subprocess.DEVNULL) as holder:
        try:
            if holder.stdout.readline() != b"mounted\n":
                raise Unavailable("nothing can be mounted in a mount namespace of its own")
            yield
        finally:
            holder.stdin.close()


@contextlib.contextmanager
def kept_namespace(folder):
    """A mount namespace that a file in a new folder keeps, and in which no process is."""
    folder.mkdir()
    file = folder / "namespace"
    tool("mount", "--bind", folder, folder)
    try:
        tool("mount", "--make-private", folder)
        file.touch()
        tool("unshare", "--mount=%s" % file, "true")
        try:
            yield file
        finally:
            tool("umount", file)
    finally:
        tool("umount", folder)


class Surroundings(disks.Disks):
    def run_behind(self, script, words, *options):
        """A run in a mount namespace that a script changes first."""
        shell = ["--mount", *options, "sh", "-c", script + ' && exec "$0" "$@"', str(support.PROGRAM)]
        return self.run(shell + [str(word) for word in words], program="unshare")

    def file_system(self, name, folder):
        """A loop device that has a file system, its file, and where to mount it."""
        if os.geteuid() != 0:
            raise Unavailable("only root can mount a file system")
        tool("unshare", "--mount", "true")
        place = self.scratch / folder
        place.mkdir()
        return self.image(name, bytes(8192 * SECTOR)), place

    def refused_behind(self, name, script, image, *options):
        """It is not changed, whatever is asked, and may be looked at."""
        other = self.image("beside behind.img")
        before = [(other, other.read_bytes())]
        for option in ([], ["--run"]):
            words = create([image, other])
            answer = self.run_behind(script, words[:1] + option + words[1:], *options)
            self.judge(" ".join([name] + option), answer, REFUSED, before)
        self.judge(name + ", looked at", self.run_behind(script, ["examine", image], *options), (1, "", "mdcli: Super Magic\n"))

    def elsewhere(self, name):
        backing, folder = self.file_system("elsewhere.img", "mounted elsewhere")
        with loop_device(backing) as device:
            tool("mkfs.ext4", "-q", device)
            with mounted_elsewhere(device, folder):
                self.used_and_file_below(name, device, backing)
                self.refused_behind(name + ", by the mount tables alone", COVERED, device)
                self.refused_behind(name + ", its file", COVERED, backing)
                self.refused_behind(name + ", by /sys alone", "true", device, *CONTAINED)
            self.judge(name + ", no more", self.run(create([device]))[0], 0)

    def several_devices(self, name):
        """In /sys a mounted Btrfs has a folder, which names all of its devices. The tables of mounts name only one of them."""
        backing, folder = self.file_system("btrfs.img", "mounted Btrfs")
        second = self.image("second of btrfs.img", b"")
        for path in (backing, second):
            os.truncate(str(path), BTRFS_BYTES)
        with loop_device(backing) as device, loop_device(second) as beside:
            tool("mkfs.btrfs", "-q", "-d", "raid1", "-m", "raid1", device, beside)
            with mounted_elsewhere(device, folder):
                for number, image in enumerate((device, beside)):
                    self.refused_behind("%s: %d" % (name, number), "true", image, *CONTAINED)

    def squashfs(self, name, folder):
        """A file with a SquashFS, and a folder to mount it on. Only the tables of mounts show that a SquashFS is mounted."""
        backing, place = self.file_system(name, folder)
        made = self.scratch / "made.squashfs"
        tool("mksquashfs", place, made, "-quiet", "-no-progress")
        backing.write_bytes(made.read_bytes().ljust(8192 * SECTOR, b"\0"))
        made.unlink()
        return backing, place

    def told_of_no_mount(self, name, image, run):
        """It is not changed, which a line says, and may be looked at."""
        other = self.image("beside hidden.img")
        before = [(path, Path(path).read_bytes()) for path in (image, other)]
        self.judge(name, run(create([image, other])), (1, "", HIDDEN % image + REFUSED[2]), before)
        self.judge(name + ", looked at", run(["examine", image]), (1, "", "mdcli: Super Magic\n"))

    def out_of_sight(self, name):
        """It is mounted in a mount namespace that a file keeps, or outside of a container: no process that can be read shows it."""
        backing, folder = self.squashfs("out of sight.img", "mounted out of sight")

        def run_here(words):
            # Without the --run that `run` gives a command which may ask.
            return self.run([str(support.PROGRAM), *words], program="env")

        def run_contained(words):
            return self.run_behind("true", words, *CONTAINED)

        with loop_device(backing) as device:
            with kept_namespace(self.scratch / "kept") as namespace:
                enter = ["nsenter", "--mount=%s" % namespace]
                tool(*enter, "mount", "-o", "ro", device, folder)
                for part, image in (("", device), (", its file", backing)):
                    self.told_of_no_mount(name + part, image, run_here)
                tool(*enter, "umount", folder)

            with mounted_elsewhere(device, folder):
                for part, image in (("", device), (", its file", backing)):
                    self.told_of_no_mount("%s, in a container%s" % (name, part), image, run_contained)
            words = create([device])
            self.judge(name + ", and --run", run_contained(words[:1] + ["--run"] + words[1:])[0], 0)
            # The first sector is as it was.
            self.judge(name + ", a member since", run_contained(["resync", device])[0], 0)

    def hidden_kinds(self, name):
        """In a container a disk with one of these file systems may be mounted outside, whether it is or not."""
        backing, _ = self.file_system("hidden.img", "hidden")
        for kind, place, magic in TOLD_BY_MOUNTS:
            content = bytearray(8192 * SECTOR)
            content[place : place + len(magic)] = magic
            backing.write_bytes(content)
            with loop_device(backing) as device:
                self.told_of_no_mount("%s: %s" % (name, kind), device, lambda words: self.run_behind("true", words, *CONTAINED))

    def shown_holder(self, name):
        """/sys shows that another driver holds it: a folder in place of its own says so."""
        backing, holders = self.file_system("shown as held.img", "holders")
        (holders / "dm-0").mkdir()
        with loop_device(backing) as device:
            number = os.stat(device).st_rdev
            script = "mount --bind '%s' /sys/dev/block/%d:%d/holders" % (holders, os.major(number), os.minor(number))
            for part, image in (("", device), (", its file", backing)):
                self.refused_behind(name + part, script, image)

    def outside_the_root(self, name):
        """The program's root is another one, which has not the folder on which it is mounted; /proc and /sys are there."""
        backing, folder = self.file_system("outside.img", "mounted outside")
        root = self.scratch / "root"
        root.mkdir()
        parts = ["mount --bind / '%s'" % root] + ["mount --rbind /%s '%s/%s'" % (one, root, one) for one in ("proc", "sys", "dev")]
        script = " && ".join([COVERED, *parts])
        other = self.image("beside outside.img")
        with loop_device(backing) as device:
            tool("mkfs.ext4", "-q", device)
            tool("mount", "-o", "ro", device, folder)
            try:
                shell = ["--mount", "sh", "-c", script + ' && exec chroot "$0" "$@"', str(root), str(support.PROGRAM)]
                answer = self.run(shell + create([device, other]), program="unshare")
                self.judge(name, answer, REFUSED, [(other, other.read_bytes())])
            finally:
                tool("umount", folder)

    def absent(self, name):
        """What is not there tells nothing: a block device is not changed, nor is a file that a loop device may stand over."""
        backing, _ = self.file_system("absent.img", "absent")
        plain = self.image("no loop device.img")
        with loop_device(backing) as device:
            for part, images in (("/proc", (device, backing)), ("/sys", (device, backing, plain))):
                script = "umount -l " + part
                for image in images:
                    self.refused_behind("%s, %s: %s" % (name, part, os.path.basename(str(image))), script, image)
                words = ["fail", "--verbose", "--member", "0", device]
                told = "mdcli: BadImage 0\n%s: %s" % (device, ABSENT % part)
                self.judge("%s, %s: what is told" % (name, part), self.run_behind(script, words), (1, "", told))
                self.looked_at("%s, %s" % (name, part), script)
            self.refused_behind(name + ", both: a file", "umount -l /sys && umount -l /proc", plain)
            no_loops = "touch '%s' && mount --bind '%s' /proc/partitions && umount -l /sys" % ((self.scratch / "no loops",) * 2)
            # Of these it is told that no loop device stands over them.
            for script in ("umount -l /proc", no_loops):
                self.judge("%s, a file alone: %s" % (name, script.split()[-1]), self.run_behind(script, create([plain]) + ["--run"])[0], 0)

    def looked_at(self, name, script):
        """A command that may look instead does."""
        two = [self.image("looked at %d.img" % number) for number in range(2)]
        self.run(create(two) + ["--assume-clean"])
        with loop_device(two[0]) as member:
            before = [(path, path.read_bytes()) for path in two]
            for options in ([], ["--readonly"]):
                answer = self.run_behind(script, ["assemble", *options, member])
                wanted = (0, "in sync 1 of 2, events 1, marked 0\n", "mdcli: device 1 in role 1 is not among the images\n")
                self.judge(" ".join([name, "assemble"] + options), answer, wanted, before)

    def all(self):
        self.attempt("a disk that is mounted elsewhere", self.elsewhere)
        self.attempt("a disk of a Btrfs that is mounted elsewhere", self.several_devices)
        self.attempt("a disk that is mounted out of sight", self.out_of_sight)
        self.attempt("a disk in a container", self.hidden_kinds)
        self.attempt("a disk that is held, as /sys shows", self.shown_holder)
        self.attempt("a disk that is mounted outside of the root", self.outside_the_root)
        self.attempt("what would tell of mounts is not there", self.absent)
