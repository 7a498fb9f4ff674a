"""What the parts of tests/serve share: images of arrays, runs of the program over bytes of a client, servers whose streams stay open,
and clients."""

import os
import re
import shutil
import socket
import subprocess
import threading
import time
from pathlib import Path

import members
import nbd
import support
from nbd import SECTOR

SECONDS = 60
INSTALL_SECONDS = 180
SET = "00112233-4455-6677-8899-aabbccddeeff"
START = 2048
SECTORS = 256
# What a copy has where its disk could not be read.
JUNK = 0xEE
# The buffer of a request, and what any command takes.
MOST_MEMORY_KIB = (32 << 10) + 3072
# What is there without requests, and the room for small ones.
SMALL_MEMORY_KIB = (1 << 10) + 3072
CLIENTS = {"nbdinfo": "libnbd-bin", "nbdcopy": "libnbd-bin", "qemu-img": "qemu-utils", "nbdfuse": "nbdfuse"}


def installed(command):
    """Why a client is not here, or None once it is."""
    if shutil.which(command):
        return None
    package = CLIENTS[command]
    if os.geteuid() != 0 or not shutil.which("apt-get"):
        return "it is not installed (Debian package %s)" % package
    quiet = {"stdin": subprocess.DEVNULL, "stdout": subprocess.DEVNULL, "stderr": subprocess.DEVNULL}
    environment = dict(os.environ, DEBIAN_FRONTEND="noninteractive")
    packages = ["apt-get", "install", "--yes", "--no-install-recommends", package]
    try:
        for words in (packages, ["apt-get", "update"], packages):
            subprocess.run(words, env=environment, timeout=INSTALL_SECONDS, **quiet)
            if shutil.which(command):
                return None
    except (OSError, subprocess.TimeoutExpired):
        pass
    return "it is not installed, and apt-get could not install it (Debian package %s)" % package


class Answer:
    """A run of the program over these bytes of input, and its answer."""

    def __init__(self, words, given=b"", **settings):
        done = subprocess.run(
            [str(support.PROGRAM), *support.unasked(words)],
            input=given,
            capture_output=True,
            timeout=SECONDS,
            env={**os.environ, **settings},
        )
        self.status, self.output = done.returncode, done.stdout
        self.errors = support.but_stray(done.stderr.decode("utf-8", "backslashreplace"))

    def against(self, status, output, errors=""):
        reasons = []
        if (self.status, self.errors) != (status, errors):
            reasons.append("status %d and %r, and not %d and %r" % (self.status, self.errors, status, errors))
        if self.output != output:
            place = next((n for n, (x, y) in enumerate(zip(self.output, output)) if x != y), min(len(self.output), len(output)))
            reasons.append("%d bytes, and not %d; another from byte %d on" % (len(self.output), len(output), place))
        return reasons


class Images:
    """A folder with images of arrays."""

    def __init__(self, folder):
        self.folder = Path(folder)
        self.data = members.pattern(7, SECTORS)

    def path(self, name):
        return str(self.folder / name)

    def must(self, *words, given=b""):
        done = Answer(words, given)
        if done.status != 0:
            raise ValueError("%s: %d, %s" % (words, done.status, done.errors))
        return done.output

    def array(self, names, data, *options):
        """Images of an array that holds these bytes; `missing' stands for a member that is not there."""
        listed = [name for name in names if name != "missing"]
        for name in listed:
            with open(self.path(name), "wb") as image:
                image.seek(START * SECTOR)
                image.write(data)
        named = [self.path(name) if name in listed else name for name in names]
        words = ["--level", "raid1", "--raid-devices", str(len(names)), "--uuid", SET, "--bitmap-chunk", "64"]
        self.must("create", *words, *options, *named)
        return [self.path(name) for name in listed]

    def damaged_pair(self, data, holes):
        """Copies that lack these sectors, and their maps."""
        pair = self.array(["a.img", "b.img"], data, "--assume-clean")
        words = []
        for image, name in zip(pair, "ab"):
            content = bytearray(Path(image).read_bytes())
            runs = [((START + start) * SECTOR, count * SECTOR) for start, count in holes[name]]
            for start, length in runs:
                content[start : start + length] = bytes([JUNK]) * length
            Path(image).write_bytes(content)
            Path(self.path(name + ".map")).write_text(mapfile(runs, len(content)))
            words += ["--map", "%s=%s.map" % (image, image[: -len(".img")])]
        return [*words, *pair]


def mapfile(runs, size):
    """ddrescue's map of a copy of so many bytes that lacks these runs of bytes."""
    lines, at = ["# Mapfile.", "0x00000000     +               1"], 0
    for start, length in runs:
        if at < start:
            lines.append("0x%08X  0x%08X  +" % (at, start - at))
        lines.append("0x%08X  0x%08X  -" % (start, length))
        at = start + length
    if at < size:
        lines.append("0x%08X  0x%08X  +" % (at, size - at))
    return "\n".join(lines) + "\n"


OPENING = b"\0\0\0\3" + nbd.option(nbd.STRUCTURED_REPLY) + nbd.option(nbd.GO, nbd.named(kinds=[3]))
LEAVE = nbd.request(nbd.DISCONNECT, 0, 0)


def read_of(sector, count=1, cookie=1):
    return nbd.request(nbd.READ, sector * SECTOR, count * SECTOR, cookie)


def write_of(sector, data, cookie=1, flags=0):
    return nbd.request(nbd.WRITE, sector * SECTOR, len(data), cookie, flags, data)


class Served:
    """A server whose streams stay open."""

    def __init__(self, words):
        self.process = subprocess.Popen(
            [str(support.PROGRAM), *words], stdin=subprocess.PIPE, stdout=subprocess.PIPE, stderr=subprocess.PIPE
        )

    def tell(self, stream, count):
        """So many bytes that come for these."""
        self.process.stdin.write(stream)
        self.process.stdin.flush()
        got = b""
        while len(got) < count:
            more = self.process.stdout.read(count - len(got))
            if not more:
                break
            got += more
        return got

    def peak_kib(self):
        status = Path("/proc/%d/status" % self.process.pid).read_text()
        return int(re.search(r"VmHWM:\s+(\d+)", status).group(1))

    def leave(self):
        _, errors = self.process.communicate(timeout=SECONDS)
        return self.process.returncode, support.but_stray(errors.decode("utf-8", "backslashreplace"))


class Socket:
    """A socket on which each connection gets a server of its own, as a system's service does it."""

    def __init__(self, path, words):
        self.path, self.words, self.processes = path, words, []
        self.socket = socket.socket(socket.AF_UNIX, socket.SOCK_STREAM)
        self.socket.bind(path)
        self.socket.listen(8)
        self.thread = threading.Thread(target=self.accept, daemon=True)
        self.thread.start()

    def accept(self):
        while True:
            try:
                connection, _ = self.socket.accept()
            except OSError:
                return
            with connection:
                self.processes.append(
                    subprocess.Popen([str(support.PROGRAM), *self.words], stdin=connection, stdout=connection)
                )

    def wait(self):
        """How the servers ended."""
        return [process.wait(timeout=SECONDS) for process in self.processes]

    def close(self):
        self.socket.close()
        os.unlink(self.path)

    @property
    def uri(self):
        return "nbd+unix:///?socket=" + self.path


def run_client(words, **how):
    return subprocess.run(words, stdin=subprocess.DEVNULL, capture_output=True, timeout=SECONDS, **how)


class Mount:
    """A folder in which nbdfuse shows an array as the file `nbd'."""

    def __init__(self, images, name, words):
        self.folder, self.reasons = Path(images.path(name)), []
        self.folder.mkdir()
        self.file = self.folder / "nbd"
        self.process = subprocess.Popen(
            ["nbdfuse", str(self.folder), "--command", str(support.PROGRAM), *words],
            stdin=subprocess.DEVNULL,
            stdout=subprocess.DEVNULL,
            stderr=subprocess.PIPE,
        )
        until = time.monotonic() + SECONDS
        while not self.file.exists():
            if self.process.poll() is not None or time.monotonic() > until:
                self.reasons = ["nbdfuse shows no file: %r" % self.process.stderr.read()]
                return
            time.sleep(0.05)

    def against(self, data, missing):
        """Sectors are read one by one, past the system's cache: it asks for more at once, and again page by page."""
        reasons = []
        descriptor = os.open(self.file, os.O_RDONLY)
        try:
            for sector in range(0, len(data) // SECTOR, 8):
                touched = any(s in missing for s in range(sector, sector + 8))
                try:
                    got = os.pread(descriptor, 8 * SECTOR, sector * SECTOR)
                except OSError:
                    got = None
                wanted = None if touched else data[sector * SECTOR : (sector + 8) * SECTOR]
                if got != wanted:
                    reasons.append("other bytes from sector %d on" % sector)
        finally:
            os.close(descriptor)
        return reasons

    def close(self):
        # The folder is freed also where nbdfuse has ended by itself: its mount may outlive it.
        if self.process.poll() is None or self.is_mounted():
            # The package fuse3 may not be there; root mounts without it.
            helper = shutil.which("fusermount3") or shutil.which("fusermount")
            run_client([helper, "-u", str(self.folder)] if helper else ["umount", str(self.folder)])
            try:
                self.process.wait(timeout=SECONDS)
            except subprocess.TimeoutExpired:
                self.process.kill()
                self.process.wait()

    def is_mounted(self):
        return any(line.split()[1] == str(self.folder) for line in Path("/proc/self/mounts").read_text().splitlines())
