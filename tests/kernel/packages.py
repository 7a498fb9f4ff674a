"""What the machine is made of: an emulator, mdadm, a shell, and a Debian kernel with its modules. What is not here is fetched by
apt-get: the programs are installed, where root asks; the kernel is unpacked into a folder of the test, and never installed."""

import lzma
import os
import shutil
import subprocess

import mdadm
import support

CACHE = support.TOP / "out" / "kernel"
PROGRAMS = {"qemu-system-x86_64": "qemu-system-x86", "busybox": "busybox-static", "mdadm": "mdadm", "cc": "gcc"}
METAPACKAGE = "linux-image-amd64"
SECONDS = 300
QUIET = {"stdin": subprocess.DEVNULL, "stdout": subprocess.DEVNULL, "stderr": subprocess.DEVNULL}
# In the order in which they are loaded.
MODULES = (
    "virtio/virtio_ring", "virtio/virtio", "virtio/virtio_pci_modern_dev", "virtio/virtio_pci_legacy_dev", "virtio/virtio_pci",
    "block/virtio_blk", "md/md-mod", "md/raid1",
)  # fmt: skip
XZ_MAGIC = b"\xfd7zXZ\0"


class Missing(Exception):
    """What can't be had here, and why."""


def find(program):
    # A user's PATH often lacks the folders of mdadm.
    return shutil.which(program, path=os.environ.get("PATH", "") + ":/usr/sbin:/sbin")


def apt(*words, folder=None):
    """Whether apt-get did it."""
    environment = dict(os.environ, DEBIAN_FRONTEND="noninteractive")
    try:
        done = subprocess.run(["apt-get", *words], cwd=folder, env=environment, timeout=SECONDS, **QUIET)
    except (OSError, subprocess.TimeoutExpired):
        return False
    return done.returncode == 0


def require_programs():
    """Installs what is not here. Raises `Missing`."""
    reason = mdadm.install()
    if reason:
        raise Missing(reason)
    packages = [package for program, package in PROGRAMS.items() if not find(program)]
    if not packages:
        return
    names = ", ".join(packages)
    if os.geteuid() != 0:
        raise Missing("not installed, and only root may install them: " + names)
    words = ["install", "--yes", "--no-install-recommends", *packages]
    if not apt(*words):
        apt("update")
        apt(*words)
    if not all(find(program) for program in PROGRAMS):
        raise Missing("not installed, and apt-get could not install them: " + names)


class Kernel:
    """The files of a Debian kernel. Raises `Missing`."""

    def __init__(self):
        self.tree = CACHE / "tree"
        self.image = CACHE / "vmlinux"
        if not self.image.exists():
            self.unpack(self.package())
        (self.version,) = [path.name for path in (self.tree / "lib" / "modules").iterdir()]

    @staticmethod
    def package():
        """The package of the newest kernel, fetched where none is in the cache."""
        CACHE.mkdir(parents=True, exist_ok=True)
        pattern = "linux-image-*_amd64.deb"
        if not list(CACHE.glob(pattern)):
            name = Kernel.package_name()
            if not name and os.geteuid() == 0:
                apt("update")
                name = Kernel.package_name()
            if not name or not (apt("download", name, folder=CACHE) or (apt("update") and apt("download", name, folder=CACHE))):
                raise Missing("the package %s can't be fetched" % (name or METAPACKAGE))
        return sorted(CACHE.glob(pattern))[-1]

    @staticmethod
    def package_name():
        """The package that the metapackage stands for."""
        try:
            words = ["apt-cache", "depends", METAPACKAGE]
            told = subprocess.run(words, stdin=subprocess.DEVNULL, stdout=subprocess.PIPE, stderr=subprocess.DEVNULL, timeout=SECONDS)
        except (OSError, subprocess.TimeoutExpired):
            return None
        names = [line.split()[1] for line in told.stdout.decode().splitlines() if line.strip().startswith("Depends: linux-image-")]
        return names[0] if names else None

    def unpack(self, package):
        """Of the package the kernel and the modules alone. The kernel is taken out of its packing here: to emulate that takes long."""
        shutil.rmtree(self.tree, ignore_errors=True)
        self.tree.mkdir()
        wanted = ["./boot/vmlinuz-*"] + ["./lib/modules/*/kernel/drivers/%s.ko" % module for module in MODULES]
        with subprocess.Popen(["dpkg-deb", "--fsys-tarfile", str(package)], stdout=subprocess.PIPE) as tar:
            words = ["tar", "--extract", "--wildcards", "--directory", str(self.tree), *wanted]
            done = subprocess.run(words, stdin=tar.stdout, stderr=subprocess.PIPE)
        if done.returncode != 0:
            raise Missing("%s can't be unpacked: %s" % (package.name, done.stderr.decode("utf-8", "replace").strip()))
        (packed,) = (self.tree / "boot").glob("vmlinuz-*")
        content = packed.read_bytes()
        whole = lzma.LZMADecompressor(lzma.FORMAT_XZ).decompress(content[content.index(XZ_MAGIC) :])
        part = self.image.with_suffix(".part")
        part.write_bytes(whole)
        part.rename(self.image)

    def modules(self):
        """The files, in the order in which they are loaded."""
        return [self.tree / "lib" / "modules" / self.version / "kernel" / "drivers" / (name + ".ko") for name in MODULES]


def libraries(program):
    """The shared libraries that a program loads, with the loader."""
    told = subprocess.run(["ldd", program], stdin=subprocess.DEVNULL, stdout=subprocess.PIPE, stderr=subprocess.DEVNULL)
    words = told.stdout.decode().split()
    return sorted({word for word in words if word.startswith("/")})
