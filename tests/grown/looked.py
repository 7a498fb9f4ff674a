"""Images without a bitmap that are only looked at, with `--readonly --bitmap internal`. Each command answers as it does for the same
images once `grow` gave them one, and no image is written. What `grow` refuses is refused by the same fault."""

import os
from pathlib import Path

import members
import nbd
import scene
from scene import LEAVE, OPENING, mapfile, read_of

LOOK = ["--readonly", "--bitmap", "internal"]
GROW = ["grow", "--bitmap", "internal"]
SECTOR = members.SECTOR
SECTORS = 512
LOOKING = [
    ["assemble"],
    ["assemble", "--json"],
    ["detail"],
    ["detail", "--verbose"],
    ["detail", "--json"],
    ["plan", "--member", 0],
    ["plan", "--json", "--member", 0],
    ["read", "--sector", 0],
    ["read", "--sector", 5, "--count", 7, "--fill"],
    ["serve"],
    ["serve", "--fill"],
    ["check"],
    ["check", "--list"],
    ["check", "--exit-code", "--json"],
]
NOT_LOOKING = ["examine", "examine-bitmap", "examine-badblocks", "scan", "resync", "stop"]


def superblock_of(content):
    return members.Superblock(*members.SUPER_FORM.unpack_from(content, members.SUPER_SECTOR * SECTOR))


def cut(content):
    """The image of a smaller array."""
    start = superblock_of(content).data_offset
    return members.with_superblock(content, size=SECTORS, data_size=SECTORS)[: (start + SECTORS) * SECTOR]


def data_of(content):
    """The data that a member has in its place."""
    superblock = superblock_of(content)
    return content[superblock.data_offset * SECTOR :][: superblock.size * SECTOR]


def with_sector(content, sector, byte):
    """The image with other data in a sector of the array."""
    at = (superblock_of(content).data_offset + sector) * SECTOR
    return content[:at] + bytes([byte]) * SECTOR + content[at + SECTOR :]


def against(answer, status, output, errors=""):
    """The reasons against an answer, whose bytes may be many."""
    reasons = []
    if (answer.status, answer.errors) != (status, errors):
        reasons.append("status %d and %r, and not %d and %r" % (answer.status, answer.errors, status, errors))
    if answer.output != output:
        reasons.append("%d bytes %r, and not %d %r" % (len(answer.output), answer.output[:80], len(output), output[:80]))
    return reasons


class Looked:
    def __init__(self, tally, scratch):
        self.tally = tally
        self.scratch = scratch

    def look(self, words, contents, options=LOOK, given=b""):
        """The answer over these images, and what is wrong with them after it."""
        self.scratch.put(contents)
        answer = self.scratch.run([*words, *options], list(range(len(contents))), given)
        is_kept = self.scratch.take(len(contents)) == contents and not answer.writes
        return answer, [] if is_kept else ["%s: an image was written" % words]

    def requests(self, content, words):
        """What a client sends, which reads all."""
        count = len(data_of(content)) // SECTOR
        return OPENING + read_of(0, count) + LEAVE if words[0] == "serve" else b""

    def alike(self, name, contents, others, maps=(), before=LOOK, after=("--readonly",)):
        """Each command says of these images with the first options what it says of the others with the second."""
        reasons = []
        for words in LOOKING:
            given = self.requests(contents[0], words)
            wanted, _ = self.look(words, others, [*maps, *after], given)
            answer, wrong = self.look(words, contents, [*maps, *before], given)
            reasons += wrong + ["%s: %s" % (words, reason) for reason in against(answer, wanted.status, wanted.output, wanted.errors)]
        self.tally.judge(name, reasons)

    def as_grown(self, name, contents, maps=()):
        self.scratch.put(contents)
        grown = self.scratch.run(GROW, list(range(len(contents))))
        left = self.scratch.take(len(contents))
        if grown.status != 0 or left == contents:
            self.tally.judge(name, ["grow: %r" % grown.errors])
            return
        self.alike(name, contents, left, maps)

    def gives(self, name, contents, summary, data, told=""):
        """The array in a line, and its data, which a client is given too."""
        short, reasons = self.look(["assemble"], contents)
        reasons += against(short, 0, summary, told)
        read, wrong = self.look(["read", "--sector", 0], contents)
        reasons += wrong + against(read, 0, data, told)
        given = self.requests(contents[0], ["serve"])
        served, wrong = self.look(["serve"], contents, given=given)
        reasons += wrong + against(served, 0, nbd.Server(data).answers(given)[0], told)
        self.tally.judge(name, reasons)

    def refuses(self, name, contents, fault, options=LOOK):
        reasons = []
        for words in LOOKING:
            if not {"--json", "--verbose"} & set(words):
                answer, wrong = self.look(words, contents, options)
                reasons += wrong + against(answer, 1, b"", "mdcli: %s\n" % fault)
        self.tally.judge("looked at, refused: " + name, reasons)

    def words_refused(self, contents):
        reasons = []
        for words in LOOKING:
            answer, wrong = self.look(words, contents, LOOK[1:])
            if (answer.status, answer.output) != (2, b"") or "'--bitmap <internal>' requires '--readonly'" not in answer.errors:
                reasons.append("%s: %d, %r" % (words, answer.status, answer.errors))
            reasons += wrong
        for word in NOT_LOOKING:
            answer, wrong = self.look([word], contents, LOOK[1:])
            if (answer.status, answer.output) != (2, b"") or "unexpected argument '--bitmap'" not in answer.errors:
                reasons.append("%s: %d, %r" % (word, answer.status, answer.errors))
            reasons += wrong
        self.tally.judge("looked at: words that are not taken", reasons)


def check_all(tally, scratch, contents):
    looked = Looked(tally, scratch)
    one, other = contents = [cut(content) for content in contents]
    active = [members.with_superblock(content, resync_offset=0) for content in contents]
    apart = [active[0], with_sector(active[1], 3, 1)]
    whole(looked, contents, active, apart)
    halves(looked, contents, active, apart)
    lacking(looked, contents)
    mounted(looked, apart[1])
    looked.refuses("another kind", contents, "BadBitmap", ["--readonly", "--bitmap", "external"])
    looked.refuses("no member", [one, bytes(len(one))], "Member 1 Super Magic")
    full = members.with_superblock(one, bblog_offset=8, data_offset=24)
    looked.refuses("no room before the data", [full, other], "NoRoom")
    looked.refuses("another array", [one, members.with_superblock(other, set_uuid=bytes(16))], "Assemble Stranger 1")
    looked.refuses("a member that is behind", [one, members.with_superblock(other, events=0)], "NotInSync 1")
    looked.refuses("without the option", contents, "Assemble NoBitmap 0", ["--readonly"])
    looked.words_refused(contents)


def whole(looked, contents, active, apart):
    looked.gives("looked at: a clean pair", contents, b"in sync 2 of 2, events 3, marked 0\n", data_of(contents[0]))
    looked.as_grown("looked at as grown: a clean pair", contents)
    looked.as_grown("looked at as grown: a pair that was not stopped", active)
    looked.as_grown("looked at as grown: members that differ", apart)
    looked.as_grown("looked at as grown: a member that is one event behind", [active[0], members.with_superblock(active[1], events=1)])
    looked.scratch.put(contents)
    looked.scratch.run(GROW, [0, 1])
    grown = looked.scratch.take(2)
    looked.alike("looked at: a pair that has a bitmap", grown, grown)
    looked.as_grown("looked at as grown: a pair of which one has its bitmap", [grown[0], contents[1]])


def halves(looked, contents, active, apart):
    """One member alone: its data are the array's, also where the array was not stopped."""
    told = "mdcli: device %d in role %d is not among the images\n"
    looked.gives("looked at: one half alone", contents[1:], b"in sync 1 of 2, events 3, marked 0\n", data_of(contents[1]), told % (0, 0))
    for number, content in enumerate(apart):
        short, other = b"in sync 1 of 2, events 3, marked 1\n", 1 - number
        name = "looked at: half %d of an array that was not stopped" % number
        looked.gives(name, [content], short, data_of(content), told % (other, other))
    looked.as_grown("looked at as grown: one half of it", active[:1])


def lacking(looked, contents):
    """A copy that lacks sectors: of its data, and of its superblock."""
    size = len(contents[0])
    start = superblock_of(contents[0]).data_offset
    path = looked.scratch.path(0)
    file = Path(str(path) + ".map")
    maps = ["--map", "%s=%s" % (path, file)]
    file.write_text(mapfile([((start + 6) * SECTOR, 2 * SECTOR)], size))
    looked.as_grown("looked at as grown: a copy that lacks sectors, and the other", contents, maps)
    looked.as_grown("looked at as grown: a copy that lacks sectors, alone", contents[:1], maps)
    file.write_text(mapfile([(members.SUPER_SECTOR * SECTOR, SECTOR)], size))
    looked.alike("looked at: a copy that lacks its superblock", contents, contents, maps)


def mounted(looked, content):
    """nbdfuse shows one half of an array that was not stopped as a file."""
    name = "looked at: one half by nbdfuse"
    reason = scene.installed("nbdfuse") or ("" if os.path.exists("/dev/fuse") else "there is no /dev/fuse")
    if reason:
        looked.tally.skipped(name, reason)
        return
    looked.scratch.put([content])
    words = ["serve", *LOOK, str(looked.scratch.path(0))]
    mount = scene.Mount(scene.Images(looked.scratch.folder), "half", words)
    reasons = mount.reasons or mount.against(data_of(content), set())
    mount.close()
    is_kept = looked.scratch.take(1) == [content]
    looked.tally.judge(name, reasons + ([] if is_kept else ["the image changed"]))
