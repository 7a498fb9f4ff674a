"""The faults that a command may be refused for: as the sources declare them, and as docs/FAULTS.md lists them.

In a fault's name `#' stands for a value: a number, a role or another fault.
"""

import re

import support

TABLES = support.TOP / "docs" / "FAULTS.md"
CRATES = support.TOP / "crates"

ADVICE = CRATES / "md_messages" / "src" / "advice" / "advice.rt"
MAPS = CRATES / "md_files" / "src" / "masks" / "images" / "advice.rt"
OUTPUT_FILES = CRATES / "md_files" / "src" / "sparse" / "fault.rt"
STREAMS = CRATES / "md_outputs" / "src" / "streams.rt"
RESUMED = CRATES / "md_outputs" / "src" / "map" / "resume_fault.rt"
LIMITS = CRATES / "md_messages" / "src" / "advice" / "geometry_advice.rt"

TEXT = re.compile(r'const (\w+): &str =\s*"((?:[^"\\]|\\.)*)"')

ENUM = re.compile(r"pub enum (\w+(?:Fault|Refusal)) \{\n(.*?)\n\}", re.S)
VARIANT = re.compile(r'#\[error\("([^"]*)"\)\]\s*(\w+)(?:\(([^)]*)\))?')


def enums():
    """The variants of each enum of faults: the message, the name, and the types of its values."""
    found = {}
    for file in sorted(CRATES.glob("*/src/**/*.rt")):
        for name, body in ENUM.findall(file.read_text()):
            found[name] = [
                (text, variant, [one.strip() for one in types.split(",") if one.strip()])
                for text, variant, types in VARIANT.findall(body)
            ]
    return found


def names_of(fault, found):
    """The names of a fault's variants, each with the variants that it is made of, the innermost first. A variant that shows
    nothing but another fault has each of that fault's names; where another value goes before it, as in `Member 1
    TooShort', the inner fault is a value too."""
    names = {}
    for text, variant, types in found[fault]:
        shown = [types[int(place)] for place in re.findall(r"\{(\d+)\}", text)]
        own = (fault, variant)
        if len(shown) == 1 and shown[0] in found:
            for name, path in names_of(shown[0], found).items():
                names[text.replace("{0}", name)] = path + [own]
        else:
            names[re.sub(r"\{\w+\}", "#", text)] = [own]
    return names


# Faults of calls that no command gives: in an array that was just opened no request is in flight.
OF_REQUESTS_IN_FLIGHT = {"InFlight #", "NumbersSpent", "Overlaps #"}


def declared():
    """The names of all faults that a command may be refused for, each with the variants that it is made of."""
    names = names_of("CommandFault", enums())
    for fault in ("MapsFault", "MapRefusal", "LineFault", "MapOutFault", "OutputFileFault", "ResumeFault", "StreamFault"):
        names.update(names_of(fault, enums()))
    # Wherever memory runs out, the command answers `NoMemory' alone.
    found = {"NoMemory" if name.endswith(" NoMemory") else name: path for name, path in names.items()}
    return {name: path for name, path in found.items() if name not in OF_REQUESTS_IN_FLIGHT}


def constants():
    """The texts of what to do that have a name."""
    return dict(found for file in (ADVICE, LIMITS, OUTPUT_FILES) for found in TEXT.findall(file.read_text()))


# Of these faults it depends on the image, the command or what failed which text is said: these come after the first.
FURTHER = {
    "LogFull #": ("LEAVE_SOURCE_OUT", "SALVAGE_WITH_NEW_LOG", "SALVAGE_WITHOUT_SOURCE"),
    "NoMemory": ("WRITE_A_FILE",),
    "OutputFileFault": ("READ_ON",),
}

# A fault of this name comes of an option, too.
OTHER = {"BadChunk": ("OptionFault", "BadChunk")}


def limits():
    """What the program says to do where no array can be made, by the limit that is not kept."""
    return [text for _, text in TEXT.findall(LIMITS.read_text())]


def limits_tabled():
    """The same as the table of limits has it."""
    below = TABLES.read_text().split("| Limit | What to do |\n|---|---|\n")[1]
    return [line.strip("|").split("|")[-1].strip() for line in below.split("\n\n")[0].splitlines()]


def advice():
    """What the program says to do, by variant."""
    text = ADVICE.read_text() + MAPS.read_text() + OUTPUT_FILES.read_text() + RESUMED.read_text() + STREAMS.read_text()
    named = constants()
    found = {}
    for pattern, words, constant in re.findall(r'([\w:()_,|\s]+?)=>\s*\{?\s*(?:"((?:[^"\\]|\\.)*)"|([A-Z_]+)\b)', text):
        for alternative in pattern.split("|"):
            variants = re.findall(r"(\w+)::(\w+)", alternative)
            if variants:
                found[variants[-1]] = named[constant] if constant else words
    return found


def image_reasons():
    """What the program says of an image that can't be opened, and what to do about it."""
    texts = [text for name in ("ImageRefusal", "ImageFault") for text, _, _ in enums().get(name, [])]
    return [tuple(text.split(": ", 1)) for text in texts if text != "{0}"]


def rows():
    """The faults of each row of the tables, single capital letters being values, and what its last column says to do."""
    for line in TABLES.read_text().splitlines():
        cells = [cell.strip() for cell in line.strip("|").split("|")]
        names = re.findall(r"`([^`]+)`", cells[0]) if line.startswith("|") else []
        if names:
            yield {re.sub(r"\b[A-Z]\b", "#", name) for name in names}, cells[-1]


def tabled():
    """What to do, by fault: each text that a row of its own has."""
    found = {}
    for names, text in rows():
        for name in names:
            found.setdefault(name, []).append(text)
    return found


def reasons_tabled():
    """What to do, by the reason why an image can't be opened."""
    found = {}
    for line in TABLES.read_text().splitlines():
        cells = [cell.strip() for cell in line.strip("|").split("|")]
        if line.startswith('| "'):
            found.update({reason: cells[-1] for reason in re.findall(r'"([^"]+)"', cells[0])})
    return found
