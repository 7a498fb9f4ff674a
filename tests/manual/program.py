"""The commands and options of the built program, as its `--help` lists them."""

import re
import subprocess

import support

SECONDS = 20

# In a list of options: the short name where there is one, the long name, the value's, what it says, and the default.
OPTION = re.compile(r"^ +(?:-\w, |    )--([a-z-]+)(?: <([^>]+)>)?(?: {2,}(.*?)(?: \[default: .*\])?)?$")
COMMAND = re.compile(r"^  ([a-z-]+)(?: {2,}(.*))?$")
# Options of every command, or of the program.
COMMON = {"help", "verbose", "version"}


class Option:
    def __init__(self, name, value, required, says):
        self.name = name
        self.value = value
        self.required = required
        self.says = says

    def shown(self):
        return "--" + self.name + (" " + self.value if self.value else "")


class Command:
    def __init__(self, name, options, common, says):
        self.name = name
        self.options = options
        self.common = common
        self.says = says

    def verbose(self):
        """What help says of the option that every command has."""
        return next(option.says for option in self.common if option.name == "verbose")

    def takes_one_image(self):
        """Of the words for images the parser takes any number; the commands on one image have this name."""
        return self.name.startswith("examine")

    def may_name_none(self):
        """Where no image is named, it goes over all block devices."""
        return self.name == "scan"


def help_of(words):
    """Help is status 2, with its text on standard error."""
    done = subprocess.run(
        [str(support.PROGRAM)] + words + ["--help"],
        stdin=subprocess.DEVNULL,
        stdout=subprocess.PIPE,
        stderr=subprocess.PIPE,
        timeout=SECONDS,
    )
    return done.stderr.decode("utf-8").splitlines()


def section(lines, title):
    """The lines below a title, up to an empty one."""
    if title not in lines:
        return []
    below = lines[lines.index(title) + 1 :]
    return below[: below.index("")] if "" in below else below


def commands():
    listed = [COMMAND.match(line) for line in section(help_of([]), "Commands:")]
    said = {found.group(1): found.group(2) for found in listed if found and found.group(1) != "help"}
    return {name: command(name, says) for name, says in said.items()}


def command(name, says):
    lines = help_of([name])
    usage = next(line for line in lines if line.startswith("Usage: "))
    found = [OPTION.match(line) for line in section(lines, "Options:")]
    options = [Option(one.group(1), one.group(2), ("--%s " % one.group(1)) in usage, one.group(3)) for one in found if one]
    own = [option for option in options if option.name not in COMMON]
    return Command(name, own, [option for option in options if option.name in COMMON], says)


def version():
    done = subprocess.run(
        [str(support.PROGRAM), "--version"],
        stdin=subprocess.DEVNULL,
        stdout=subprocess.PIPE,
        stderr=subprocess.PIPE,
        timeout=SECONDS,
    )
    return done.stderr.decode("utf-8").split()[1]
