"""What ddrescue and ddrescuelog do of the page's commands: for machines without them."""

import sys
from pathlib import Path

UNITS = {"MiB": 1 << 20, "KiB": 1 << 10}


def option(words, name):
    """What a word `NAME=VALUE' says, or None."""
    return next((word.split("=", 1)[1] for word in words if word.startswith(name + "=")), None)


def blocks(text):
    """The blocks of a map: a first byte, how many bytes, and the status. An empty map has none."""
    lines = [line.split() for line in text.splitlines() if line and not line.startswith("#")]
    if lines and len(lines[0]) < 2:
        print("Error in mapfile, line 1: Bad or missing status line.", file=sys.stderr)
        sys.exit(2)
    return [(int(start, 16), int(length, 16), status) for start, length, status in lines[1:]]


def written(found):
    lines = ["# Mapfile.", "0x00000000     +               1"]
    return "\n".join(lines + ["0x%08X  0x%08X  %s" % block for block in found]) + "\n"


def copy(disk, holes, image, map):
    """Copies what the map of the holes has as rescued, over what the image holds, and keeps that map."""
    whole, text, image = Path(disk).read_bytes(), Path(holes).read_text(), Path(image)
    content = bytearray(image.read_bytes()) if image.exists() else bytearray(len(whole))
    for at, n, status in blocks(text):
        if status == "+":
            content[at : at + n] = whole[at : at + n]
    image.write_bytes(content)
    Path(map).write_text(text)


def fill(source, image, map, domain):
    """Copies from the source what the map has as bad, and the domain, where there is one, as rescued; and notes it in the map. Without
    a map, or with an empty one, nothing was read yet."""
    given, image, map = Path(source).read_bytes(), Path(image), Path(map)
    content = bytearray(image.read_bytes() if image.exists() else b"")
    may = blocks(Path(domain).read_text()) if domain else [(0, len(given), "+")]
    known = blocks(map.read_text()) if map.exists() else []
    end = max((start + length for start, length, _ in known), default=0)
    found = []
    for start, length, status in known + [(end, len(given) - end, "?")] * (end < len(given)):
        edges = {start, start + length}
        if status != "+":
            edges |= {edge for at, n, _ in may for edge in (at, at + n) if start < edge < start + length}
        edges = sorted(edges)
        for at, end in zip(edges, edges[1:]):
            is_given = any(own == "+" and first <= at < first + n for first, n, own in may)
            if status != "+" and is_given:
                content[at:end] = given[at:end]
            found.append((at, end - at, "+" if is_given else status))
    image.write_bytes(content)
    map.write_text(written(found))


def both(one, other):
    """The blocks that are rescued in both, and all others as bad."""
    edges = sorted({edge for at, n, _ in one + other for edge in (at, at + n)})
    has = [{start for start in edges for at, n, status in map if status == "+" and at <= start < at + n} for map in (one, other)]
    return [(at, end - at, "+" if at in has[0] & has[1] else "-") for at, end in zip(edges, edges[1:])]


def log(words):
    """What ddrescuelog puts out of its last word, a map: its blocks so many bytes further to the front, of which what comes to lie before
    it falls away; or of other kinds; or only those that another map has as rescued too."""
    found = blocks(sys.stdin.read() if words[-1] == "-" else Path(words[-1]).read_text())
    back, types, other = (option(words, name) for name in ("--input-position", "--change-types", "--and-mapfile"))
    if types:
        old, new = types.split(",")
        found = [(at, n, new[old.index(status)] if status in old else status) for at, n, status in found]
    if other:
        found = both(found, blocks(Path(other).read_text()))
    if back:
        back = next((int(back[: -len(unit)]) * size for unit, size in UNITS.items() if back.endswith(unit)), None) or int(back)
        moved = [(max(start - back, 0), start + length - back, status) for start, length, status in found]
        found = [(first, end - first, status) for first, end, status in moved if first < end]
    print(written(found), end="")
