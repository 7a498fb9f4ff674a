#!/usr/bin/env python3
"""What makes the sources hard to read and can be counted: each number with a bound, which may fall and not rise.

    tests/documents/counts.py            prints each number, its bound, and the places that it counts
    tests/documents/counts.py --lower    lowers each bound of counts.txt to today's number; it raises none

tests/documents/run fails where a number is above its bound. A count finds names and patterns of text, and no meaning: a
place that it counts and that is right as it stands stays in the bound.
"""

import re
import sys
from pathlib import Path

import surface

CRATES = Path(__file__).resolve().parent.parent.parent / "crates"
BOUNDS = Path(__file__).resolve().with_name("counts.txt")
CLAUSES = CRATES.parent / "docs" / "CLAUSES.md"

# One thing in two crates: what a step asks of memory and changes there, and its write (docs/ARCHITECTURE.md, "Where a step
# stands"); a word of the model, which is said of a world there, and of a mirror in one of the others (in md_laws of its life, in md_kept_members of its superblock and members) ("How a crate is laid out").
STEP_LAYERS = {"md_state": "a step", "md_array": "a step"}
MODEL, MIRRORS = "md_model", ("md_kept_members", "md_state", "md_array", "md_laws")

MOST_ARGUMENTS = 7

IMPL = re.compile(r"(?m)^impl(?:<[^{]*?>)? (\w+)(?:<[^{]*?>)?(?:\s+where[^{]*)?\s*\{")
FUNCTION = re.compile(r"\bfn (\w+)")
DEFINITION = re.compile(r"(?m)^(?:unfoldable |abbrev |opaque )?pub (?!use |mod )(?:record |data )?([^\s:({]+)")
# Participles that don't end in -ed, and are no verb in the present too, as `read`, `put` and `set` are.
PARTICIPLES = set("""begun built chosen come done drawn driven fallen found given gone grown held hidden kept known laid left lent
lost made meant met paid seen sent shown spent stood sunk taken thrown told torn understood worn written""".split())
# These end in -ed, and are none.
NO_PARTICIPLES = {"exceed", "feed", "need", "proceed", "seed", "speed"}
# What stands for `?`: the fault of a call is given on as it is. And for `From`: inside a variant, or by a call.
QUESTION = re.compile(r"if let Err\((\w+)\) = [^;{]*?\{\s*return Err\(\1\);\s*\}|Err\((\w+)\) => (?:return )?Err\(\2\)")
FROM = re.compile(r"Err\((\w+)\) => (?:return )?Err\((?:\w+::)*\w+\(\1\)\)|if let Err\((\w+)\) = [^;{]*?\{\s*return Err\((?:\w+::)*\w+\(\2\)\);\s*\}")
COINED = re.compile(r"(?:^|_|(?<=[a-z]))(?:[Ss]eat(?:ed|s)?|[Ll]anes?|[Ss]hel(?:f|ves)|[Ss]ettl(?:e[ds]?|ing))(?=_|$|[A-Z])")
LEANING = re.compile(r"(?i)(?:the same|so (?!many|much)|and|nor|or|but|also|likewise|those of|then|else)\b")
# A definition's comment also leans where its subject is the one of the comment above. In code that is the item itself.
PRONOUN = re.compile(r"(?i)(?:its?|they|them|such|that|within (?:it|that)|one (?:was|is|that|does|did|of them|of its|in memory))\b")


def sources():
    return sorted(CRATES.glob("*/src/**/*.rt"))


def definitions():
    return [file for file in sorted(CRATES.glob("*/specs/**/*.antt")) if file.name != "Lib.antt"]


def crate_of(file):
    return file.relative_to(CRATES).parts[0]


def place(file):
    return str(file.relative_to(CRATES))


def code(file):
    """Its text without comments, each line where it was."""
    return re.sub(r"//.*" if file.suffix == ".rt" else r"--.*", "", file.read_text())


def files_with_methods_of(name):
    """Files with methods of a type beside those of `steps/`, where each step has a file of its own."""
    return [place(file) for file in sources() if name in IMPL.findall(code(file)) and file.parent.name != "steps"]


def steps_of_no_function():
    """Files of `steps/` that have the name of no function in them, nor in the file of that name of the other layer: what is no
    step belongs beside its type."""
    functions = {}
    for file in sources():
        if crate_of(file) in STEP_LAYERS and file.parent.name == "steps":
            functions.setdefault(file.stem, set()).update(FUNCTION.findall(code(file)))
    return sorted(name for name, found in functions.items() if name not in found | {"mod"})


def shared_gerunds():
    """Names of sources of which a word ends in -ing, and that stand in two crates."""
    found = {}
    for file in sources():
        if any(word.endswith("ing") for word in file.stem.split("_")):
            found.setdefault(file.stem, {}).setdefault(STEP_LAYERS.get(crate_of(file), crate_of(file)), []).append(place(file))
    return ["%s: %s" % (name, ", ".join(sum(crates.values(), []))) for name, crates in sorted(found.items()) if len(crates) > 1]


def names_with_several_meanings():
    """Names that several definitions have. One of the model and one of a mirror count as one."""
    found = {}
    for file in definitions():
        for name in DEFINITION.findall(file.read_text()):
            found.setdefault(name, []).append(file)
    reasons = []
    for name, files in sorted(found.items()):
        crates = [crate_of(file) for file in files]
        twins = crates.count(MODEL) == 1 and sum(crates.count(crate) for crate in MIRRORS) == 1
        if len(files) - twins > 1:
            reasons.append("%s: %s" % (name, ", ".join(map(place, files))))
    return reasons


def calls_nobody_makes():
    """Functions that a library passes on and that no other crate calls. Excepted are the surface of the library, laws, whose
    bodies are empty, and a function that its own crate calls and a row of CLAUSES names.

    A call is a name that is not being defined. A crate may have a function of that name of its own. Then a call there counts for
    this function only if the crate names its type too, or takes the function from there by `use`."""
    texts, words, defined = {}, {}, {}
    for file in sources():
        texts.setdefault(crate_of(file), {})[file] = code(file)
    for crate, there in texts.items():
        text = " ".join(there.values())
        words[crate] = set(re.findall(r"\w+", re.sub(r"\bfn \w+", "", text)))
        defined[crate] = set(FUNCTION.findall(text))
    on_surface = surface.functions()
    promised = set(re.findall(r"\w+", " ".join(re.findall(r"`[^`]+`", CLAUSES.read_text()))))

    def is_called(crate, owner, name):
        """By another crate: the owner is the type of a method, or the crate of a function that is none."""
        return any(name in there and (name not in defined[other] or owner in there) for other, there in words.items() if other != crate)

    reasons = []
    for crate, there in sorted(texts.items()):
        passed_on = set(re.findall(r"\w+", " ".join(re.findall(r"pub use [^;]*;", there.get(CRATES / crate / "src" / "lib.rt", "")))))
        for file, text in there.items():
            for found in re.finditer(r"(?m)^( *)pub (?:const )?fn (\w+)", text):
                name = found[2]
                types = IMPL.findall(text[: found.start()])[-1:] if found[1] else []
                is_law = re.match(r"[^;]*?\n\{\s*\}", text[found.end() :].partition("\npub ")[0])
                if not passed_on.intersection(types or [name]) or is_law:
                    continue
                if "::".join(types + [name]) in on_surface or name in promised & words[crate]:
                    continue
                if not is_called(crate, (types or [crate])[0], name):
                    reasons.append("%s: %s" % (place(file), name))
    return reasons


def closing(text, at):
    """The place after the bracket that closes the one at this place. An arrow closes none."""
    depth = 0
    for place in range(at, len(text)):
        if text[place] in "([{<":
            depth += 1
        elif text[place] in ")]}" or text[place] == ">" and text[place - 1] not in "-=":
            depth -= 1
        if depth == 0:
            return place + 1
    return len(text)


def argument_count(text, at):
    """How many arguments the function has whose name ends at this place."""
    if text[at] == "<":
        at = closing(text, at)
    depth, count, last = 0, 0, ""
    for place in range(at + 1, closing(text, at) - 1):
        letter = text[place]
        if letter in "([{<":
            depth += 1
        elif letter in ")]}" or letter == ">" and text[place - 1] not in "-=":
            depth -= 1
        if letter == "," and depth == 0:
            count, last = count + 1, ""
        else:
            last += letter
    return count + bool(last.strip())


def functions_of_many_arguments():
    reasons = []
    for file in sources():
        text = code(file)
        for found in re.finditer(r"\bfn (\w+)(?=[<(])", text):
            count = argument_count(text, found.end())
            if count > MOST_ARGUMENTS:
                reasons.append("%s: %s has %d" % (place(file), found[1], count))
    return reasons


def bare_participles():
    reasons = []
    for file in sources():
        for name in FUNCTION.findall(code(file)):
            if name in PARTICIPLES or name.endswith("ed") and "_" not in name and name not in NO_PARTICIPLES:
                reasons.append("%s: %s" % (place(file), name))
    return reasons


def matches(pattern):
    found = [(file, code(file)) for file in sources()]
    return ["%s:%d" % (place(file), text.count("\n", 0, match.start()) + 1) for file, text in found for match in pattern.finditer(text)]


def coined_words():
    """Names with a word that the field does not have in this sense, in each crate once."""
    found = {(crate_of(file), name) for file in sources() + definitions() for name in re.findall(r"[A-Za-z]\w*", code(file)) if COINED.search(name)}
    return ["%s: %s" % pair for pair in sorted(found)]


def leaning_comments(files, comment, *patterns):
    """Comments that only say something after the item above: they begin as a sentence goes on."""
    reasons = []
    for file in files:
        before = ""
        for number, line in enumerate(file.read_text().splitlines(), 1):
            text = re.match(comment, line)
            if text and not re.match(comment, before) and any(pattern.match(line, text.end()) for pattern in patterns):
                reasons.append("%s:%d" % (place(file), number))
            before = line
    return reasons


COUNTS = {
    "files with methods of Mirror": lambda: files_with_methods_of("Mirror"),
    "files with methods of Array": lambda: files_with_methods_of("Array"),
    "files of steps that have the name of no function": steps_of_no_function,
    "gerunds that name sources of two crates": shared_gerunds,
    "names of several definitions": names_with_several_meanings,
    "functions named by a bare participle": bare_participles,
    "functions with more than seven arguments": functions_of_many_arguments,
    "public functions that nobody calls outside their crate": calls_nobody_makes,
    "places where ? is spelled out": lambda: matches(QUESTION),
    "places where From is spelled out": lambda: matches(FROM),
    "names with coined words": coined_words,
    "comments of definitions that lean on the line above": lambda: leaning_comments(definitions(), r"-- (?!-)", LEANING, PRONOUN),
    "comments of code that lean on the line above": lambda: leaning_comments(sources(), r"\s*//[/!]? ", LEANING),
}


def bounds():
    lines = [line.rpartition(": ") for line in BOUNDS.read_text().splitlines() if line and not line.startswith("#")]
    return {name: int(number) for name, _, number in lines}


def judge(tally):
    """Each number against its bound, and that each has one."""
    wanted = bounds()
    tally.judge("tests/documents/counts.txt: a bound for each count", sorted("%s has none, or is no count" % name for name in set(wanted) ^ set(COUNTS)))
    for name, found in COUNTS.items():
        places, bound = found(), wanted.get(name, 0)
        reasons = ["there are %d" % len(places), "tests/documents/counts.py says where"] if len(places) > bound else []
        tally.judge("%s: at most %d" % (name, bound), reasons)


def main():
    wanted = bounds()
    if sys.argv[1:] == ["--lower"]:
        head = "".join(line + "\n" for line in BOUNDS.read_text().splitlines() if line.startswith("#"))
        BOUNDS.write_text(head + "".join("%s: %d\n" % (name, min(len(found()), wanted.get(name, len(found())))) for name, found in COUNTS.items()))
        return 0
    if sys.argv[1:]:
        print(__doc__)
        return 2
    for name, found in COUNTS.items():
        places = found()
        print("%s: %d, bound %d" % (name, len(places), wanted.get(name, 0)))
        print("".join("    %s\n" % place for place in places), end="")
    return 0


if __name__ == "__main__":
    sys.exit(main())
