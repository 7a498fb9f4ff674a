"""No command of a page may harm what an earlier one made: what it makes, cuts or overwrites is in a folder that its own section has
made, so that nobody who goes through the page from top to bottom, or once for each array, loses a copy by it."""

import re

TOKEN = re.compile(r"\"[^\"]*\"|'[^']*'|<\([^)]*\)|\$\(\(.*?\)\)+|&&|[|;<>&]|[^\s\"'|;<>&]+")
# The options of these commands that have a value.
VALUES = {"--member", "--map", "--device", "--size", "--reference", "--level", "--raid-devices", "--sector", "--count", "--uuid", "--output"}
# What makes or overwrites the files that it names, and of mdcli what overwrites an image.
MAKES = {"truncate", "create"}


def commands(line):
    """The commands of a line, each as its words. What is put into a file or taken from one is none of them."""
    words, is_file = [], False
    for token in TOKEN.findall(line):
        if token in ("&&", "|", ";", "&"):
            yield words
            words = []
        elif not is_file and token not in ("<", ">", "mdcli", "./mdcli"):
            words.append(token.strip("\"'"))
        is_file = token in ("<", ">")
    if words:
        yield words


def names(words):
    """The files that a command names, without those that are values of its options."""
    return [word for before, word in zip(words, words[1:]) if not word.startswith("-") and before not in VALUES and word != "missing"]


def option(words, name):
    return [value for before, value in zip(words, words[1:]) if before == name]


def overwritten(words):
    """The files that a command makes, cuts or overwrites as a whole."""
    if words[0] == "truncate" and "--no-create" in words:
        # It makes a file longer, if at all.
        return [] if all(size.startswith(">") for size in option(words, "--size")) else names(words[1:])
    if words[0] in MAKES:
        return names(words)
    if words[0] == "mkfs.ext4":
        return names(words)[:1]
    return option(words, "--device") if words[0] == "add" else []


def harms(lines, taken):
    """What lines of a section may harm; `taken` has the folders that other sections have made."""
    made, reasons = set(), []
    for line in lines:
        for words in commands(line):
            if words[0] == "mkdir":
                made |= set(names(words))
                reasons += ["%s is another section's folder: %s" % (name, line) for name in names(words) if name in taken]
            if words[0] == "rm" or words[0] == "mv" and "--no-clobber" not in words:
                reasons.append("a file may be lost: %s" % line)
            folders = {name: name.rpartition("/")[0] for name in overwritten(words) if not name.startswith("/dev/")}
            reasons += ["%s is in no new folder: %s" % pair for pair in ((name, line) for name, one in folders.items() if one not in made)]
    taken |= made
    return reasons


def lost_maps(lines):
    """The maps of copies over which a line of the page puts something else."""
    maps = {value.rpartition("=")[2] for line in lines for words in commands(line) for value in option(words, "--map")}
    outputs = [(name, line) for line in lines for before, name in zip(TOKEN.findall(line), TOKEN.findall(line)[1:]) if before == ">"]
    return ["%s is a copy's map: %s" % pair for pair in outputs if pair[0] in maps]


def examples(manual):
    """The commands of the man page's examples."""
    text = manual.read_text().replace(" \\e\n", " ").split("\n.Sh EXAMPLES\n", 1)[-1].split("\n.Sh ", 1)[0]
    return [re.sub(r"^(\.Dl )?\$ ", "", line) for line in text.splitlines() if re.match(r"(\.Dl )?\$ ", line)]


def unseen_ends(lines):
    """The rebuilds after which the page does not look first whether each member is in sync."""
    found = [(line, list(commands(line))) for line in lines]
    found = [(line, words) for line, parts in found for words in parts]
    reasons = []
    for (line, words), (_, after) in zip(found, found[1:] + [("", [""])]):
        if words[0] in ("rebuild", "re-add"):
            images = sorted(names(words)) + option(words, "--device")
            looks = after[:2] == ["detail", "--readonly"] and sorted(names(after)) == sorted(images)
            reasons += [] if looks else ["its end is not looked at: %s" % line]
    return reasons


def judge(tally, pages, manual):
    """Judges the sections of these pages, by the name of the page, and the examples of the manual."""
    pages = dict(pages)
    pages["man page"] = {"EXAMPLES": examples(manual)}
    for page, sections in pages.items():
        taken = set()
        reasons = [reason for lines in sections.values() for reason in harms(lines, taken)]
        every = [line for lines in sections.values() for line in lines]
        tally.judge("%s: no command harms what an earlier one made" % page, reasons + lost_maps(every))
        found = [line for line in every if re.search(r"mdcli (rebuild|re-add)\b", line)]
        tally.judge("%s: what is looked at first after a rebuild" % page, unseen_ends(every) if found else ["there is none"])
