"""The tests of mirror_tests and command_tests, each with each of its calls for memory refused in turn. A test passes, or fails in order;
it never faults, hangs, or leaves memory that it does not free.

The tests of parts and steps, of image files and of NBD also count the blocks that are left: no proof says that all are freed. Some
of the other tests start threads, for which the C library keeps blocks of its own."""

import concurrent.futures
import os
import re
import subprocess

import support
from sweeping import MOST, sweep

# A test whose reads are to overlap waits through a thousand million turns where the other thread found no memory.
SECONDS = 60

# The crates, and which of their tests are not swept: those that play every order of steps, or sessions by the thousand, which make the
# calls of the others thousands of times, those that plan large tables or salvage hundreds of bad sectors, or into a full log, which take long, and those that
# crash an array at each write, or many times.
SUITES = {
    "mirror_tests": r"parts::plans::large_tables::|steps::every_order::|calls::(salvages::|listed_sectors::|salvage_rows::refused)|"
    r"crashes::(each_write::|lives::)",
    "command_tests": r"nbd_spoiled::",
}
COUNTS_BLOCKS = re.compile(r"parts::|steps::|image_files::|nbd_")

# In these a call that finds no memory is made again, or ends the test, and so no comparison may fail; see the play.rt beside them.
NEVER_DIFFER = re.compile(r"steps::|calls::")
# But for these, whose reads have to overlap: where a thread finds no memory its read comes after the other one.
OVERLAPPING = ("calls::array_checks::checks", "calls::rebuilds::reads_overlap")

LEAKED = 99
IS_ASSERTION = re.compile(r"^test stopped at src/", re.M)
IS_REFUSED = re.compile(r"NoMemory|AllocError|OutOfMemory|no memory")


class Outcome:
    """What comes of the sweep of a test: how many calls it makes, what it said of them, and the reasons against it."""

    def __init__(self, suite, name):
        self.suite, self.name = suite, name
        self.calls, self.said, self.reasons = 0, "", []

    def label(self):
        return "%s %s: %d calls" % (self.suite, self.name, self.calls)


def program(suite):
    return support.TOP / "crates" / suite / "out" / (suite + "_tests")


def run_test(suite, name, settings):
    """The status of a run and its output."""
    if COUNTS_BLOCKS.match(name):
        settings["LEFT_BLOCKS"] = "1"
    try:
        done = subprocess.run(
            [str(program(suite)), name], env=settings, stdin=subprocess.DEVNULL, capture_output=True, timeout=SECONDS
        )
    except subprocess.TimeoutExpired:
        return None, ""
    return done.returncode, (done.stdout + done.stderr).decode("utf-8", "replace")


def against(name, status, output):
    """The reason against a run, if there is one."""
    if status is None:
        return "it does not end"
    if status in (0, 101):
        return None
    if status == -6 or status == 134:
        if IS_ASSERTION.search(output) and (not NEVER_DIFFER.match(name) or name in OVERLAPPING):
            return None
    if status == LEAKED:
        return "it leaves memory that it did not free"
    return "the status is %d: %s" % (status, output[-400:])


def sweep_test(suite, name, library):
    outcome = Outcome(suite, name)
    for number, ended in sweep(library, lambda settings: run_test(suite, name, settings)):
        if number > MOST:
            outcome.reasons.append("the calls come to no end")
            break
        outcome.calls = number
        reason = against(name, *ended)
        if reason:
            outcome.reasons.append("where call %d is refused: %s" % (number, reason))
            break
        outcome.said += "".join(line + "\n" for line in ended[1].splitlines() if IS_REFUSED.search(line))
    return outcome


def tests_of(suite):
    listed = subprocess.run([str(program(suite)), "--list"], capture_output=True, text=True, check=True).stdout
    names = re.findall(r"^(\S+): test$", listed, re.M)
    left_out = SUITES[suite]
    return [name for name in names if not (left_out and re.match(left_out, name))]


def sweep_all(tally, library):
    """Sweeps the tests of the crates that are built. Gives the outcomes by crate and test."""
    found = {}
    with concurrent.futures.ThreadPoolExecutor(os.cpu_count()) as workers:
        tasks = []
        for suite in SUITES:
            if program(suite).exists():
                tasks += [workers.submit(sweep_test, suite, name, library) for name in tests_of(suite)]
            else:
                tally.skipped(suite, "its tests are not built; rt test builds them")
        for task in tasks:
            outcome = task.result()
            tally.judge(outcome.label(), outcome.reasons)
            found[outcome.suite, outcome.name] = outcome
    return found
