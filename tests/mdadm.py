"""mdadm, and what it says of images."""

import os
import shutil
import subprocess

INSTALL_SECONDS = 180
ANSWER_SECONDS = 60


def find():
    # A user's PATH often lacks these folders.
    return shutil.which("mdadm", path=os.environ.get("PATH", "") + ":/usr/sbin:/sbin")


def install():
    """Why mdadm is not here, or None once it is."""
    if find():
        return None
    if os.geteuid() != 0:
        return "mdadm is not installed, and only root may install it (Debian package mdadm)"
    if not shutil.which("apt-get"):
        return "mdadm is not installed, and there is no apt-get"
    quiet = {"stdin": subprocess.DEVNULL, "stdout": subprocess.DEVNULL, "stderr": subprocess.DEVNULL}
    environment = dict(os.environ, DEBIAN_FRONTEND="noninteractive")
    packages = ["apt-get", "install", "--yes", "--no-install-recommends", "mdadm"]
    try:
        for command in (packages, ["apt-get", "update"], packages):
            subprocess.run(command, env=environment, timeout=INSTALL_SECONDS, **quiet)
            if find():
                return None
    except (OSError, subprocess.TimeoutExpired):
        pass
    return "mdadm is not installed, and apt-get could not install it"


def missing_lines(option, image, wanted):
    """What mdadm does not say of an image, of what it has to."""
    done = subprocess.run(
        [find(), option, str(image)],
        stdin=subprocess.DEVNULL,
        stdout=subprocess.PIPE,
        stderr=subprocess.STDOUT,
        timeout=ANSWER_SECONDS,
    )
    lines = [line.strip() for line in done.stdout.decode("utf-8", "backslashreplace").splitlines()]
    return ["mdadm does not say %r" % text for text in wanted if not any(line.startswith(text) for line in lines)]


def attach(image):
    """A loop device over an image and None, or None and why there is none. mdadm takes a file for a bitmap's own, where it
    looks for a member on a block device."""
    if os.geteuid() != 0 or not shutil.which("losetup"):
        return None, "it takes root and losetup (Debian package mount)"
    made = subprocess.run(
        ["losetup", "--find", "--show", "--read-only", str(image)],
        stdin=subprocess.DEVNULL,
        stdout=subprocess.PIPE,
        stderr=subprocess.PIPE,
    )
    if made.returncode != 0:
        return None, "losetup: " + made.stderr.decode("utf-8", "replace").strip()
    return made.stdout.decode().strip(), None


def detach(device):
    subprocess.run(["losetup", "--detach", device], stdin=subprocess.DEVNULL)


def judge(tally, name, image, wanted):
    """Judges what mdadm says of an image; `wanted` has the beginnings of lines by option."""
    reason = install()
    if reason:
        for option in wanted:
            tally.skipped("%smdadm %s" % (name, option), reason)
        return
    on_files = [option for option in wanted if option == "--examine"]
    for option in on_files:
        tally.judge("%smdadm %s" % (name, option), missing_lines(option, image, wanted[option]))
    others = [option for option in wanted if option not in on_files]
    if not others:
        return
    device, reason = attach(image)
    if device is None:
        for option in others:
            tally.skipped("%smdadm %s" % (name, option), reason)
        return
    try:
        for option in others:
            tally.judge("%smdadm %s" % (name, option), missing_lines(option, device, wanted[option]))
    finally:
        detach(device)
