"""The cases of tests/commands, each run of the program with each of its calls for memory refused in turn.

No run may fault or hang. Each ends as with all memory, where a line on what an image holds may be missing or say that nobody looked,
or with a refusal and no report, and changes no image but those that it changes with all memory."""

import collections
import concurrent.futures
import json
import subprocess
import sys
import tempfile
from pathlib import Path

sys.path[:0] = [str(Path(__file__).resolve().parent.parent / "commands")]

import cases  # noqa: E402
import support  # noqa: E402
from sweeping import MOST, sweep  # noqa: E402

SECONDS = 10
NO_MEMORY = "mdcli: NoMemory\n"
# Of an image for whose look there was no memory.
UNSEEN = ": there was no memory to look at it: it may hold data"
# Of a map it is said where nobody could look whether its image's log lists all of it.
UNLISTED = ": its log does not list all that its map lacks: later commands need the map, too; leave it out of `write`, `serve`, `re-add` and a kernel's array, which take none"
UNNAMED = " is not among the images"


class Program:
    """The program in a folder, under these settings."""

    def __init__(self, folder, settings=None):
        self.folder, self.settings = folder, settings
        self.answer = None

    def __call__(self, words, given=b""):
        try:
            done = subprocess.run(
                [str(support.PROGRAM)] + words,
                cwd=self.folder,
                env=self.settings,
                input=given,
                capture_output=True,
                timeout=SECONDS,
            )
        except subprocess.TimeoutExpired:
            self.answer = ("no answer within %d seconds" % SECONDS, "", "")
        else:
            self.answer = (
                done.returncode,
                done.stdout.decode("utf-8", "backslashreplace"),
                support.but_stray(done.stderr.decode("utf-8", "backslashreplace")),
            )
        return self.answer


def against_refusal(step, answer, before, after):
    """The reasons against a run that did not end as with all memory."""
    status, output, errors = answer
    # A read that goes on has put out what comes before a run of missing sectors for which there is no memory, and a client was answered
    # what it asked before a message for which there is none.
    goes_on = "--fill" in step.words or step.words[0] == "serve"
    is_part = goes_on and isinstance(step.output, str) and step.output.startswith(output)
    # Where there is memory for it again, an object says why.
    is_part = is_part or "--json" in step.words and is_object_of(output, errors)
    reasons = [] if status in (1, 2) and (is_part or not output) and errors else ["the answer is %r" % (answer,)]
    # Without memory for a word it is not said that it is none.
    if "UTF-8" in errors:
        reasons.append("the answer is %r" % (answer,))
    # What is written over images that are only looked at finds no memory, and fails for no other reason. A file is made after all is said.
    if status == 1 and "--readonly" in step.words and errors not in (NO_MEMORY, (step.errors if step.made else "") + NO_MEMORY):
        reasons.append("the answer is %r" % (answer,))
    left = [name for name in before if name not in step.changes + step.touches]
    if before.keys() != after.keys() - step.made.keys() or any(before[name] != after[name] for name in left):
        reasons.append("an image is changed")
    # A file that is made has what was written to it before, if it is there.
    other = [name for name in after if name not in before and not step.made.get(name, b"").startswith(after[name])]
    return reasons + ["%s is %r" % (name, after[name]) for name in other]


def is_object_of(output, errors):
    """It is the object of this refusal alone in its line, with the advice or, where there was no memory for that, without."""
    line = errors.splitlines()[0] if errors else ""
    head = {"fault": line.partition(": ")[2], "text": line}
    begun = json.dumps(head, separators=(",", ":"))[:-1] + ',"advice":'
    return output.startswith(begun) and output.endswith(("\"}\n", "null}\n")) and output.count("\n") == 1


def says_less(step, answer, before, after):
    """It is done as with all memory, but of what an image holds nothing is said, or that nobody looked; and of a log that it does not
    list all, where nobody could look at it."""
    status, output, errors = answer
    said, wanted = (set(text.splitlines()) for text in (errors, step.errors))
    said = {line for line in said if not line.endswith(UNLISTED)}
    told = {line for line in said if not line.endswith(UNSEEN)}
    # An image at which nobody looked is not known as the device that is missing.
    if told != said:
        told = {line for line in told if not line.endswith(UNNAMED)}
    return status == step.status == 0 and step.is_report(output) and not step.against_images(before, after) and told <= wanted


def names_of(step, answer):
    """Under which names a run is counted that was refused a call: of one that answered `NoMemory' its command; where that is all that it
    said, and with all memory it is refused otherwise, its command and how; where it had said before all that it says with all memory, the
    option of what it was to make then; and of one that did not look at an image on which there is a signature, and no superblock, that it is
    so."""
    status, _, errors = answer
    names = [command_of(step)] if "NoMemory" in errors else []
    if step.fault and (status, errors) == (1, NO_MEMORY):
        names.append("%s: %s" % (step.words[0], step.fault))
    if "--map-out" in step.words and step.made and (status, errors) == (1, step.errors + NO_MEMORY):
        names.append("%s --map-out" % step.words[0])
    unseen = [line[: -len(UNSEEN)] for line in errors.splitlines() if line.endswith(UNSEEN)]
    if any(line + ": holds " in step.errors for line in unseen):
        names.append("%s, unseen" % step.words[0])
    return names


def play(folder, step, before, settings):
    """A run that is refused a call. Gives the names under which it is counted, and the reasons against it; then the images are as before."""
    program = Program(folder, settings)
    differs = step.play(folder, program)
    after = cases.read_images(folder)
    if differs and says_less(step, program.answer, before, after):
        differs = []
    reasons = against_refusal(step, program.answer, before, after) if differs else []
    cases.put_back(folder, before)
    return names_of(step, program.answer), reasons


def command_of(step):
    """A command, with the option by which it is another call: of an object, of a read that goes on, of a member that comes back whole, of one that
    is salvaged, or where no image may be changed."""
    other = [word for word in ("--json", "--fill") if word in step.words]
    other += [word for word in step.words[1:2] if word in ("--readonly", "--list", "--full")]
    if "--salvage" in step.words:
        other = [" ".join(["--salvage"] + other)]
    return " ".join(step.words[:1] + other[:1])


def sweep_step(case, step, folder, library):
    """What comes of a step: a name, the reasons against it, and how many of its runs are counted under each name."""
    before = cases.read_images(folder)
    calls, counted = 0, collections.Counter()
    for number, ended in sweep(library, lambda settings: play(folder, step, before, settings)):
        if number > MOST:
            return case, ["the calls come to no end"], counted
        names, reasons = ended
        calls = number
        counted.update(names)
        if reasons:
            return "%s: %s, where call %d is refused" % (case, command_of(step), number), reasons, counted
    reasons = [] if calls else ["no call is refused"]
    return "%s: %s: %d calls" % (case, command_of(step), calls), reasons, counted


def sweep_case(place, library):
    """What comes of each step of the case in this place."""
    name, images, steps = cases.CASES[place]
    outcomes = []
    with tempfile.TemporaryDirectory() as scratch:
        folder = Path(scratch)
        cases.write_images(folder, images)
        for step in steps:
            if isinstance(step, cases.Step):
                outcomes.append(sweep_step(name, step, folder, library))
            step.play(folder, Program(folder))
    return outcomes


def sweep_all(tally, library):
    """Sweeps each case. Gives the names under which runs are counted, with the most runs of a step."""
    answered = collections.Counter()
    # A case takes up to minutes, so there are as many at a time as processors.
    with concurrent.futures.ProcessPoolExecutor() as workers:
        count = len(cases.CASES)
        for outcomes in workers.map(sweep_case, range(count), [library] * count):
            for name, reasons, counted in outcomes:
                tally.judge(name, reasons)
                answered |= counted
    return answered
