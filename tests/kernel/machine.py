"""A virtual machine with a Debian kernel: it is given images of members on one disk, a partition each, and a script, and says on its
console what came of it. What it wrote to the images is read back."""

import stat
import struct
import subprocess
import time
import uuid
import zlib
from pathlib import Path

import packages

GUEST = Path(__file__).resolve().parent / "guest"
SECTOR = 512
ALIGNED = 2048
# What the machine may take at most, where others keep the processors busy: until the script begins, and to its end.
START_SECONDS = 300
SECONDS = 1800
TRIES = 3
FOLDERS = ("bin", "dev", "given", "modules", "proc", "run", "sbin", "sys", "tmp", "told")


class Died(Exception):
    """The machine did not come to its end."""


class Archive:
    """A cpio archive in the form that a kernel unpacks as its first file system (newc)."""

    def __init__(self):
        self.bytes = bytearray()
        self.count = 0
        self.folders = set()

    def entry(self, name, mode, content=b""):
        self.count += 1
        path = name.encode() + b"\0"
        numbers = (self.count, mode, 0, 0, 1, 0, len(content), 0, 0, 0, 0, len(path), 0)
        for part in (b"070701" + b"".join(b"%08X" % number for number in numbers) + path, content):
            self.bytes += part
            self.bytes += bytes(-len(self.bytes) % 4)

    def folder(self, name):
        if name and name not in self.folders:
            self.folder(name.rpartition("/")[0])
            self.folders.add(name)
            self.entry(name, stat.S_IFDIR | 0o755)

    def file(self, name, content, mode=0o755):
        self.folder(name.rpartition("/")[0])
        self.entry(name, stat.S_IFREG | mode, content)

    def closed(self):
        self.entry("TRAILER!!!", 0)
        return bytes(self.bytes)


def first_files(kernel):
    """The archive of what every machine is given."""
    archive = Archive()
    for name in FOLDERS:
        archive.folder(name)
    for program, place in (("busybox", "bin/busybox"), ("mdadm", "sbin/mdadm")):
        path = packages.find(program)
        archive.file(place, Path(path).read_bytes())
        for library in packages.libraries(path):
            if library[1:] not in archive.folders:
                archive.folders.add(library[1:])
                archive.file(library[1:], Path(library).read_bytes())
    for number, module in enumerate(kernel.modules()):
        archive.file("modules/%d.ko" % number, module.read_bytes())
    archive.file("init", (GUEST / "init").read_bytes())
    archive.file("functions", (GUEST / "functions").read_bytes())
    return archive.closed()


class Disk:
    """A disk with a partition for each image (UEFI specification, chapter 5: the GUID partition table)."""

    ENTRIES = 256
    # A kernel knows 255 partitions of a disk.
    MOST = 255
    FIRST = ALIGNED

    def __init__(self, path, contents):
        self.path = path
        self.places = []
        at = self.FIRST
        for content in contents:
            sectors = len(content) // SECTOR
            self.places.append((at, sectors))
            at += -(-sectors // ALIGNED) * ALIGNED
        self.sectors = at + ALIGNED
        with open(path, "wb") as disk:
            disk.truncate(self.sectors * SECTOR)
            disk.write(self.table())
            for (first, _), content in zip(self.places, contents):
                disk.seek(first * SECTOR)
                disk.write(content)

    def table(self):
        entries = b"".join(
            uuid.UUID(int=1).bytes_le + uuid.UUID(int=2 + index).bytes_le + struct.pack("<3Q72s", first, first + sectors - 1, 0, b"")
            for index, (first, sectors) in enumerate(self.places)
        ).ljust(128 * self.ENTRIES, b"\0")
        last = self.sectors - 1

        def header(own_sum):
            numbers = struct.pack("<8sIII4xQQQQ", b"EFI PART", 0x10000, 92, own_sum, 1, last, self.FIRST, last - 1)
            return numbers + uuid.UUID(int=1).bytes_le + struct.pack("<QIII", 2, self.ENTRIES, 128, zlib.crc32(entries))

        whole_disk = struct.pack("<B3sB3sII", 0, b"\0\2\0", 0xEE, b"\xff\xff\xff", 1, min(last, 0xFFFFFFFF))
        first_sector = (bytes(446) + whole_disk).ljust(510, b"\0") + b"\x55\xaa"
        return first_sector + header(zlib.crc32(header(0))).ljust(SECTOR, b"\0") + entries

    def take(self):
        """The contents of the images as they are now."""
        with open(self.path, "rb") as disk:
            contents = []
            for first, sectors in self.places:
                disk.seek(first * SECTOR)
                contents.append(disk.read(sectors * SECTOR))
        return contents


class Machine:
    """One machine; each run of it is a start."""

    def __init__(self, folder):
        self.folder = folder
        self.kernel = packages.Kernel()
        self.files = first_files(self.kernel)
        self.console = folder / "console"
        self.starts = 0
        self.seconds = 0.0

    def run(self, script, contents, given=()):
        """What the machine said, as lines, and the images as it left them. `given` has files for the script by name."""
        archive = Archive()
        archive.file("script", script.encode())
        for name, content in dict(given).items():
            archive.file("given/" + name, content)
        files = self.folder / "files"
        files.write_bytes(self.files + archive.closed())
        disk = Disk(self.folder / "disk", contents)
        self.start(files, disk.path)
        lines = self.said()
        if "@ end" not in lines:
            raise Died("the machine did not come to its end; it said last: %r" % lines[-4:])
        return [line[2:] for line in lines if line.startswith("@ ")], disk.take()

    def said(self):
        """The whole lines on the console."""
        if not self.console.exists():
            return []
        return self.console.read_bytes().decode("utf-8", "replace").replace("\r", "").split("\n")[:-1]

    def start(self, files, disk):
        """Starts it, and again where it does not come so far as the script: a kernel may give up early where its timer lags, as it does
        where the processors are busy."""
        for _ in range(TRIES):
            self.console.unlink(missing_ok=True)
            began = time.monotonic()
            self.starts += 1
            has_begun = self.wait(self.emulator(files, disk))
            self.seconds += time.monotonic() - began
            if has_begun:
                return
        raise Died("the machine does not start; it said last: %r" % self.said()[-4:])

    def wait(self, process):
        """Whether the script began, once the machine has ended."""
        began, has_begun = time.monotonic(), False
        while process.poll() is None:
            time.sleep(0.2)
            has_begun = has_begun or "@ begun" in self.said()
            if time.monotonic() - began > (SECONDS if has_begun else START_SECONDS):
                process.kill()
                process.wait()
        return "@ begun" in self.said()

    def emulator(self, files, disk):
        words = [packages.find("qemu-system-x86_64"), "-accel", "tcg", "-m", "768"]
        words += ["-nodefaults", "-no-user-config", "-display", "none", "-no-reboot", "-serial", "file:%s" % self.console]
        words += ["-kernel", str(self.kernel.image), "-initrd", str(files)]
        # What is left out is of no use here, and takes long or fails where the emulation is slow.
        words += ["-append", "console=ttyS0 quiet panic=-1 nokaslr mitigations=off no_timer_check nowatchdog"]
        words += ["-drive", "file=%s,format=raw,if=virtio,cache=unsafe" % disk]
        return subprocess.Popen(words, stdin=subprocess.DEVNULL, stdout=subprocess.DEVNULL, stderr=subprocess.DEVNULL)
