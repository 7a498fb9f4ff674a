"""What the parts of tests/ share: the program, and the count of what passed."""

import fcntl
import os
import pty
import re
import shutil
import signal
import subprocess
import sys
import termios
import threading
from pathlib import Path

TOP = Path(__file__).resolve().parent.parent
# The launcher at the top, and the program that it runs.
LAUNCHER = TOP / "mdcli"
PROGRAM = TOP / "crates" / "mdcli" / "out" / "mdcli"

# What a first use reads of the repository, the sources for their sum, and what an installation reads beside it.
TAKEN = ("mdcli", "crates.txt", "HANDLES", "tools", "dist", "examples")
INSTALLED = ("man", "completions", "docs", "LICENSE", "README.md", "CHANGELOG.md")
PARTS = ("src", "specs", "proofs")


def leave_terminal():
    """Gives up the terminal that controls this process, if one does, so that the programs which it starts ask nobody: a
    question would wait for the person who runs the tests. The signals of its keys still come."""
    try:
        terminal = os.open("/dev/tty", os.O_RDWR)
    except OSError:
        return
    # Where this process leads the session, the system sends it this signal then.
    kept = signal.signal(signal.SIGHUP, signal.SIG_IGN)
    try:
        fcntl.ioctl(terminal, termios.TIOCNOTTY)
    finally:
        signal.signal(signal.SIGHUP, kept)
        os.close(terminal)


leave_terminal()

QUESTION = "mdcli: go on? (yes or no) "
SECONDS = 60
# What a terminal gets once a program at it has ended.
ENDED = b"\0ended"

# The commands that may ask before they go on, and are refused if nobody can be asked.
ASKING = ("create", "grow", "write", "serve", "resync", "stop", "fail", "remove", "add", "re-add", "rebuild")


def unasked(words):
    """The words of a command, with --run if it may ask: then it goes on, as after a yes."""
    words = [word if isinstance(word, bytes) else str(word) for word in words]
    return words[:1] + ["--run"] + words[1:] if words and words[0] in ASKING and "--run" not in words else words


STRAY = re.compile(r"mdcli: .*: the copy has data in sector \d+, which it lacks by this map: perhaps the map is another copy's\n")


def but_stray(errors):
    """What standard error says, without the line about a copy that has data which it lacks according to its map. Copies in these tests
    have such data, to show whether they are read; tests/maps tests the line."""
    return STRAY.sub("", errors)


def at_terminal(folder, answer, *words, stdin=None):
    """The status of a run at a terminal, which is given this answer, and what it shows there but the answer. What a terminal has not
    passed on yet may be lost if its other end is closed: so that stays open, and gets a mark once the program has ended."""
    ours, theirs = pty.openpty()
    process = subprocess.Popen(
        [str(PROGRAM)] + list(words), cwd=str(folder), stdin=theirs if stdin is None else stdin, stdout=subprocess.DEVNULL, stderr=theirs
    )

    def mark():
        try:
            process.wait(timeout=SECONDS)
        except subprocess.TimeoutExpired:
            process.kill()
        os.write(theirs, ENDED)

    marker = threading.Thread(target=mark)
    marker.start()
    shown, answered = b"", False
    while not shown.endswith(ENDED):
        shown += os.read(ours, 65536)
        if not answered and shown.endswith(QUESTION.encode()):
            # A question that is not expected is not waited for.
            os.write(ours, answer or b"\x04")
            answered = True
    marker.join()
    os.close(ours)
    os.close(theirs)
    # The terminal shows the answer too.
    return process.wait(timeout=SECONDS), shown[: -len(ENDED)].decode("utf-8", "backslashreplace").replace("\r\n", "\n")


class Tally:
    """Prints a line for each check, and at the end the line that `./test` adds up."""

    def __init__(self):
        self.passed_count = 0
        self.failed_count = 0
        self.skipped_count = 0

    def passed(self, name):
        self.passed_count += 1
        print("ok " + name, flush=True)

    def failed(self, name, *reasons):
        self.failed_count += 1
        print("FAILED " + name, flush=True)
        for reason in reasons:
            print("    " + reason, flush=True)

    def skipped(self, name, reason):
        self.skipped_count += 1
        print("skipped %s: %s" % (name, reason), flush=True)

    def judge(self, name, reasons):
        """Passed where there is no reason against it."""
        if reasons:
            self.failed(name, *reasons)
        else:
            self.passed(name)

    def close(self):
        line = "%d passed, %d failed" % (self.passed_count, self.failed_count)
        if self.skipped_count:
            line += ", %d skipped" % self.skipped_count
        print(line, flush=True)
        return 1 if self.failed_count else 0


def library_of(source, folder):
    """The library of a C source, which is preloaded; None where there is no compiler."""
    library = folder / (source.stem + ".so")
    words = ["cc", "-shared", "-fPIC", "-O1", "-o", str(library), str(source)]
    if not shutil.which("cc") or subprocess.run(words, stdin=subprocess.DEVNULL).returncode != 0:
        return None
    return library


def copy_of_the_repository(top):
    """What a clone has for those who use the program, without one that was built or unpacked."""
    top.mkdir()
    for name in TAKEN + INSTALLED:
        source = TOP / name
        (shutil.copytree if source.is_dir() else shutil.copy2)(str(source), str(top / name))
    for folder in (TOP / "crates").glob("*/*"):
        if folder.name in PARTS:
            shutil.copytree(str(folder), str(top / "crates" / folder.parent.name / folder.name))


def require_program(option="--if-missing"):
    """Builds the program where it is not there, or with --if-older where a source is newer, so that no check takes the
    build's time for the program's own."""
    build = subprocess.run([str(TOP / "tools" / "build_mdcli"), option], stdin=subprocess.DEVNULL)
    if build.returncode != 0:
        print("FAILED there is no program to test\n0 passed, 1 failed")
        sys.exit(1)
