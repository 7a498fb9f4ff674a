"""What the man page says, by its lines, and what the programs that show it say of it."""

import re
import shutil
import subprocess

import support

PAGE = support.TOP / "man" / "mdcli.1"


def sections(text):
    """The lines of each section, by its title."""
    found, title = {}, None
    for line in text.splitlines():
        if line.startswith(".Sh "):
            title = line[4:]
            found[title] = []
        elif title:
            found[title].append(line)
    return found


def options_by_command(text):
    """The options of each command, as `--NAME' or `--NAME VALUE'."""
    found, command = {}, None
    for line in sections(text).get("COMMANDS", []):
        if line.startswith(".Ss "):
            command = line[4:]
            found[command] = set()
        named = re.match(r"\.It Fl -(\S+)(?: Ar (\S+))?$", line)
        if named and command:
            found[command].add("--" + " ".join(word for word in named.groups() if word))
    return found


def synopsis(text):
    """The options that the synopsis has for each command; `[' stands before one that may be left out."""
    found, command = {}, None
    for line in sections(text).get("SYNOPSIS", []):
        if line.startswith(".Cm "):
            command = line[4:]
            found[command] = set()
        elif line == ".Nm":
            command = None
        named = re.match(r"\.(Op )?Fl -(\S+)", line)
        if named and command:
            found[command].add(("[" if named.group(1) else "") + "--" + named.group(2))
    return found


def faults(text):
    """The faults that the page lists, single capital letters being values."""
    found = set()
    for line in sections(text).get("FAULTS", []):
        if line.startswith(".It "):
            found.update(re.sub(r"\b[A-Z]\b", "#", name.strip()) for name in line[4:].split(" , "))
    return found


def lint():
    """A name for each program that can read the page, why it is left out or None, and its reasons against the page."""
    for program, words in (
        ("mandoc", ["mandoc", "-T", "lint", "-W", "warning", str(PAGE)]),
        ("groff", ["groff", "-mdoc", "-T", "utf8", "-w", "w", "-z", str(PAGE)]),
    ):
        name = "man page: " + program + " takes it"
        if not shutil.which(program):
            yield name, "there is no %s (Debian package %s)" % (program, program), []
            continue
        done = subprocess.run(words, stdin=subprocess.DEVNULL, stdout=subprocess.PIPE, stderr=subprocess.STDOUT)
        # A page that another package has may not be there.
        lines = [line for line in done.stdout.decode().splitlines() if "STYLE" not in line and "mandoc.db" not in line]
        yield name, None, lines
