"""`mdcli serve` for writing: what was answered 0 before a flush that was, or before the end, stands on each member, however the session
ended; the array is stopped after it; and no other command has the images meanwhile. Each write to an image and each wait for its disk fails in turn, or is the last one before
the process is killed, by the library of write_crashes/stop.c."""

import concurrent.futures
import os
import random
import shutil
import signal
import struct
import subprocess
import time
from pathlib import Path

import members
import nbd
import support
from nbd import SECTOR
from scene import (
    LEAVE,
    MOST_MEMORY_KIB,
    OPENING,
    SECONDS,
    SECTORS,
    Answer,
    Images,
    Mount,
    Served,
    Socket,
    installed,
    read_of,
    run_client,
    write_of,
)

KILLED = -9
# In seconds, and some more than after which the marks are cleared.
REST = 6
# A chunk of these arrays has 128 sectors.
FLUSH = nbd.request(nbd.FLUSH, 0, 0, 5)


def new(seed, sectors=1):
    return members.pattern(100 + seed, sectors)


# Writes to both chunks, some of them twice and some after a flush, and requests that are refused for themselves.
SCRIPT = [
    write_of(0, new(1, 4), 1),
    read_of(0, 8, 2),
    write_of(3, new(2), 3, nbd.FUA),
    FLUSH,
    nbd.request(nbd.WRITE, 1, SECTOR, 6, payload=new(3)),
    nbd.request(nbd.WRITE, 0, SECTOR + 1, 7, payload=new(3) + b"x"),
    nbd.request(nbd.WRITE, 0, 0, 8),
    write_of(SECTORS - 1, new(3, 2), 9),
    nbd.request(nbd.WRITE, 2**64 - SECTOR, SECTOR, 10, payload=new(3)),
    write_of(4, new(3), 11, flags=2),
    write_of(SECTORS - 2, new(4, 2), 12),
    write_of(2, new(5), 13),
    nbd.request(nbd.READ, 0, SECTORS * SECTOR, 14, flags=nbd.FUA),
    nbd.request(nbd.TRIM, 0, SECTOR, 15),
    nbd.request(nbd.WRITE_ZEROES, 0, SECTOR, 16),
    FLUSH,
    write_of(120, new(6, 16), 17),
    read_of(110, 30, 18),
]
# The same in short, of which each call is stopped.
CALLS = [
    write_of(0, new(1, 4), 1),
    write_of(4, new(5, 2), 6),
    write_of(120, new(2, 16), 2),
    FLUSH,
    write_of(3, new(3), 3),
    read_of(0, 8, 4),
    write_of(10, new(6), 7),
    write_of(11, new(7), 8, nbd.FUA),
    write_of(SECTORS - 2, new(4, 2), 5),
    FLUSH,
]


def check_all(tally, scratch):
    folder = scratch / "written"
    folder.mkdir()
    library = support.library_of(support.TOP / "tests" / "write_crashes" / "stop.c", folder)
    pair = Pair(folder, ["a.img", "b.img"])
    check_words(tally, pair)
    check_session(tally, pair)
    check_refused(tally, pair)
    check_cuts(tally, pair, folder)
    check_streams(tally, pair)
    check_rest(tally, pair)
    check_beside(tally, pair)
    check_other_arrays(tally, folder)
    check_memory(tally, folder)
    for name, check in (("a call fails", check_failed), ("a call halts", check_halted), ("a killed server", check_killed)):
        if library:
            check(tally, folder, library)
        else:
            tally.skipped(name, "there is no C compiler")
    check_clients(tally, pair)
    check_mounted(tally, folder)
    check_taken_up(tally, folder)


class Pair:
    """An array whose members are alike and clean, unless they are not said to be, and that is as it was made before each session."""

    def __init__(self, folder, names, alike=True):
        images = Images(folder)
        self.folder, self.data = Path(folder), images.data
        self.paths = images.array(names, self.data, *(["--assume-clean"] if alike else []))
        self.contents = [Path(path).read_bytes() for path in self.paths]

    def fresh(self):
        for path, content in zip(self.paths, self.contents):
            Path(path).write_bytes(content)
        return self

    def copy(self, folder):
        """The same under other names."""
        other = object.__new__(Pair)
        other.folder, other.data, other.contents = Path(folder), self.data, self.contents
        other.folder.mkdir(exist_ok=True)
        other.paths = [str(other.folder / Path(path).name) for path in self.paths]
        return other

    def serve(self, stream, **settings):
        return Answer(["serve", *self.paths], stream, **settings)

    def found(self):
        return members.Found([Path(path).read_bytes() for path in self.paths])

    def against(self, data, in_sync=None):
        """What is wrong with the images of an array that was stopped, and of which each member in sync has these bytes."""
        found = self.found()
        reasons = []
        if len(found.in_sync) != (len(self.paths) if in_sync is None else in_sync):
            reasons.append("%d members are in sync" % len(found.in_sync))
        reasons += ["member %d has other bytes" % member.number for member in found.in_sync if member.data() != bytes(data)]
        if not found.is_degraded and found.marks:
            reasons.append("chunks are marked: %r" % sorted(found.marks))
        reasons += ["member %d is not clean" % member.number for member in found.in_sync if not member.is_clean]
        return reasons


def answers(pair, stream):
    """A server after a session, what it answered, and whether the client went in order."""
    server = nbd.Server(pair.data, writable=True)
    output, orderly = server.answers(stream)
    return server, output, orderly


def judged(pair, answer, stream):
    """What is wrong with a session, and with the images after it."""
    server, output, orderly = answers(pair, stream)
    told = (0, "") if orderly else (1, "mdcli: InputFault\n")
    return answer.against(told[0], output, told[1]) + pair.against(server.data)


def check_words(tally, pair):
    done = Answer(["serve", *pair.fresh().paths, "missing.img"])
    tally.judge("writing: refused before a byte comes", done.against(1, b"", "mdcli: BadImage 2\n"))


def check_session(tally, pair):
    stream = OPENING + b"".join(SCRIPT) + LEAVE
    answer = pair.fresh().serve(stream)
    tally.judge("writing: each member has what was written", judged(pair, answer, stream))
    done = Answer(["check", "--readonly", *pair.paths])
    tally.judge("writing: no chunk differs then", done.against(0, b"mismatched chunks: 0\n"))
    stream = OPENING + LEAVE
    before = pair.fresh().contents
    answer = pair.serve(stream)
    changed = [path for path, content in zip(pair.paths, before) if Path(path).read_bytes() != content]
    tally.judge("writing: where nothing is written images stay", judged(pair, answer, stream) + changed)


# What is said of the script with -v.
REFUSED = [
    "write of 512 bytes from byte 1: empty, or not of whole sectors",
    "write of 513 bytes from byte 0: empty, or not of whole sectors",
    "write of 0 bytes from byte 0: empty, or not of whole sectors",
    "write of sectors 255 to 256: past the end of the array",
    "write of sector 36028797018963967: past the end of the array",
    "write of sector 4: its flags are not known",
    "trim of sector 0: the server does no such request",
    "write-zeroes of sector 0: the server does no such request",
]


def check_refused(tally, pair):
    """With -v standard error has a line for each refused request, and the images are what they are without."""
    stream = OPENING + b"".join(SCRIPT) + LEAVE
    answer = Answer(["serve", "-v", *pair.fresh().paths], stream)
    server, output, _ = answers(pair, stream)
    told = "".join("mdcli: refused: %s\n" % line for line in REFUSED)
    tally.judge("writing: a line for each refused request", answer.against(0, output, told) + pair.against(server.data))


def check_cuts(tally, pair, folder):
    """A session cut at each byte but in the middle of what is written, where it is cut now and then."""
    stream = OPENING + b"".join(CALLS) + LEAVE
    places = [end for end in range(len(stream)) if end % 61 == 0 or is_near_head(stream, end)]

    def play(lane, share):
        own = pair.copy(folder / ("lane%d" % lane))
        reasons = []
        for end in share:
            cut = stream[:end]
            reasons += ["cut at %d: %s" % (end, reason) for reason in judged(own, own.fresh().serve(cut), cut)]
        return reasons

    lanes = os.cpu_count() or 1
    with concurrent.futures.ThreadPoolExecutor(lanes) as pool:
        parts = list(pool.map(play, range(lanes), [places[lane::lanes] for lane in range(lanes)]))
    tally.judge("writing: a session cut at %d places" % len(places), [reason for part in parts for reason in part][:5])


def is_near_head(stream, place):
    """Whether a message begins near by."""
    near = stream[max(0, place - 30) : place + 6]
    return place < len(OPENING) or b"\x25\x60\x95\x13" in near


def check_streams(tally, pair):
    """A client that takes no more answers, and an input that can't be read: the array is stopped all the same."""
    served = Served(["serve", *pair.fresh().paths])
    server, wanted, _ = answers(pair, OPENING)
    got = served.tell(OPENING, len(wanted))
    served.process.stdout.close()
    served.process.stdin.write(write_of(0, new(1, 4)))
    served.process.stdin.flush()
    status = served.process.wait(timeout=SECONDS)
    served.process.stdin.close()
    errors = served.process.stderr.read().decode()
    reasons = [] if (got, status, errors) == (wanted, 1, "mdcli: OutputFault\n") else [repr((status, errors))]
    tally.judge("writing: a client that takes no more", reasons + pair.against(new(1, 4) + pair.data[4 * SECTOR :]))
    pair.fresh()
    with open("/proc/self/mem", "rb") as unreadable:
        done = subprocess.run(
            [str(support.PROGRAM), "serve", *pair.paths], stdin=unreadable, capture_output=True, timeout=SECONDS
        )
    got = (done.returncode, done.stdout, done.stderr)
    reasons = [] if got == (1, nbd.GREETING, b"mdcli: InputFault\n") else [repr(got)]
    tally.judge("writing: an input that can't be read", reasons + pair.against(pair.data))


def check_rest(tally, pair):
    """The first request after a rest clears the marks of what was written before, while the server runs on, and not those of a client
    that is not silent."""
    reasons = []
    for seconds, flushed, wanted in ((0, FLUSH, {0}), (REST, FLUSH, set()), (REST, b"", set())):
        served = Served(["serve", *pair.fresh().paths])
        stream = OPENING + write_of(7, new(1)) + flushed
        got = served.tell(stream, len(answers(pair, stream)[1]))
        time.sleep(seconds)
        last = read_of(7)
        got += served.tell(last, len(answers(pair, stream + last)[1]) - len(got))
        running = [Path(path).read_bytes() for path in pair.paths]
        served.process.kill()
        served.leave()
        reasons += ["after %d seconds: %s" % (seconds, reason) for reason in marks_against(pair, running, wanted)]
        if got != answers(pair, stream + last)[1]:
            reasons.append("other bytes after %d seconds" % seconds)
        found = pair.found()
        if found.marks != wanted:
            reasons.append("%r are marked after %d seconds" % (sorted(found.marks), seconds))
        data = pair.data[: 7 * SECTOR] + new(1) + pair.data[8 * SECTOR :]
        reasons += ["member %d has other bytes" % member.number for member in found.in_sync if member.data() != data]
    tally.judge("writing: a client that is silent", reasons)


def marks_against(pair, contents, wanted):
    """What is wrong with how many chunks `examine-bitmap' shows as marked in these images, which the server has locked: it sees copies."""
    reasons, copy = [], pair.folder / "running.img"
    for number, content in enumerate(contents):
        copy.write_bytes(content)
        done = Answer(["examine-bitmap", str(copy)])
        if b" chunks, %d marked\n" % len(wanted) not in done.output:
            reasons.append("image %d: %r" % (number, done.output + done.errors.encode()))
    return reasons


def check_beside(tally, pair):
    """While a server may write, every other command on its images is refused, also those that only look."""
    served = Served(["serve", *pair.fresh().paths])
    stream = OPENING + write_of(7, new(1))
    server, wanted, _ = answers(pair, stream)
    reasons = [] if served.tell(stream, len(wanted)) == wanted else ["other bytes"]
    for words in (["serve"], ["serve", "--readonly"], ["detail", "--readonly"], ["stop"], ["write", "--sector", "0"]):
        done = Answer([*words, *pair.paths])
        reasons += ["%s: %s" % (words, reason) for reason in done.against(1, b"", "mdcli: BadImage 0\n")]
    ended = served.leave()
    if ended != (0, ""):
        reasons.append("it ended so: %r" % (ended,))
    tally.judge("writing: other commands have to wait", reasons + pair.against(server.data))


def check_other_arrays(tally, folder):
    """One that is degraded and not resynced is resynced first, and one that is not degraded is refused."""
    stream = OPENING + write_of(5, new(1, 3)) + LEAVE
    one = Pair(folder, ["one.img", "missing"], alike=False)
    server, output, _ = answers(one, stream)
    reasons = one.serve(stream).against(0, output) + one.against(server.data, in_sync=1)
    tally.judge("writing: a degraded array that is not resynced", reasons)
    two = Pair(folder, ["c.img", "d.img"], alike=False)
    reasons = two.serve(stream).against(1, b"", "mdcli: NotResynced\n")
    changed = [path for path, content in zip(two.paths, two.contents) if Path(path).read_bytes() != content]
    tally.judge("writing: members that may differ", reasons + changed)


def check_memory(tally, folder):
    """The longest write takes one buffer, and a longer one ends the session."""
    images = Images(folder)
    size = nbd.MOST + 64 * SECTOR
    words = images.array(["large.img", "other.img"], bytes(size), "--assume-clean")
    served = Served(["serve", *words])
    long = random.Random(1).randbytes(nbd.MOST)
    server = nbd.Server(bytes(size), writable=True)
    stream = OPENING + write_of(64, long)
    wanted, _ = server.answers(stream)
    got, peak = served.tell(stream, len(wanted)), served.peak_kib()
    reasons = [] if got == wanted else ["other bytes"]
    if peak > MOST_MEMORY_KIB:
        reasons.append("%d KiB were in memory" % peak)
    served.process.stdin.write(nbd.request(nbd.WRITE, 0, nbd.MOST + SECTOR))
    ended = served.leave()
    if ended != (1, "mdcli: InputFault\n"):
        reasons.append("it ended so: %r" % (ended,))
    found = members.Found([Path(path).read_bytes() for path in words])
    reasons += ["member %d has other bytes" % m.number for m in found.in_sync if m.data() != bytes(server.data)]
    if found.marks or len(found.in_sync) != 2:
        reasons.append("it is not stopped: %s" % found.summary())
    tally.judge("writing: 32 MiB at once, in %d KiB" % MOST_MEMORY_KIB, reasons)
    check_joined(tally, images, words, bytes(server.data))
    for path in words:
        os.unlink(path)


def check_joined(tally, images, words, data):
    """Writes that lie together wait, and are written at once: what waits takes less memory than the longest write."""
    draw, count, sectors = random.Random(4), 40, 1024
    pieces = [draw.randbytes(sectors * SECTOR) for _ in range(count)]
    served = Served(["serve", *words])
    stream = OPENING + b"".join(write_of(n * sectors, piece, n) for n, piece in enumerate(pieces)) + FLUSH
    server = nbd.Server(data, writable=True)
    wanted, _ = server.answers(stream)
    got, peak = served.tell(stream, len(wanted)), served.peak_kib()
    reasons = [] if got == wanted else ["other bytes"]
    # Before the server is left: the flush has been answered.
    found = members.Found([Path(path).read_bytes() for path in words])
    reasons += ["member %d has other bytes" % m.number for m in found.in_sync if m.data() != bytes(server.data)]
    if peak > MOST_MEMORY_KIB:
        reasons.append("%d KiB were in memory" % peak)
    ended = served.leave()
    if ended != (0, ""):
        reasons.append("it ended so: %r" % (ended,))
    tally.judge("writing: %d writes that lie together" % count, reasons)


# ---- calls that fail, and a server that is killed
def errors_in(output, requests):
    """The errors that the replies to these requests have, as far as they came."""
    output, errors = output[len(nbd.Server(bytes(SECTORS * SECTOR), writable=True).answers(OPENING)[0]) :], []
    for request in requests:
        if len(output) < 16:
            break
        (error,) = struct.unpack(">I", output[4:8])
        kind, length = struct.unpack(">H", request[6:8])[0], struct.unpack(">I", request[24:28])[0]
        errors.append(error)
        output = output[16 + (length if kind == nbd.READ and not error else 0) :]
    return errors


def data_after(pair, requests):
    server = nbd.Server(pair.data, writable=True)
    server.answers(OPENING + b"".join(requests))
    return bytes(server.data)


def calls_of(pair, library, log):
    """How many calls a session makes on images, none of which is stopped."""
    log.write_bytes(b"")
    pair.fresh().serve(OPENING + b"".join(CALLS) + LEAVE, LD_PRELOAD=str(library), CALLS_LOG=str(log))
    return sum(not line.startswith(b"read ") for line in log.read_bytes().splitlines())


def stopped(pair, library, how, number, *options):
    settings = {"LD_PRELOAD": str(library), "STOPPED_CALL": str(number), "STOPPED_HOW": how}
    return Answer(["serve", *options, *pair.fresh().paths], OPENING + b"".join(CALLS) + LEAVE, **settings)


def refused_line(request, why):
    """What is said with -v of a request of whole sectors, or of a flush."""
    kind, offset, length = struct.unpack(">H8xQI", request[6:28])
    first, count = offset // SECTOR, length // SECTOR
    sectors = " of sector %d" % first if count == 1 else " of sectors %d to %d" % (first, first + count - 1)
    word = {nbd.READ: "read", nbd.WRITE: "write", nbd.FLUSH: "flush"}[kind]
    return "mdcli: refused: %s%s: %s\n" % (word, "" if kind == nbd.FLUSH else sectors, why)


def check_failed(tally, folder, library):
    """A member to which a write fails is faulty from then on, and no client sees it."""
    pair = Pair(folder, ["e.img", "f.img"])
    stream = OPENING + b"".join(CALLS) + LEAVE
    server, output, _ = answers(pair, stream)
    for how in ("fail", "torn"):
        reasons = []
        for number in range(1, calls_of(pair, library, folder / "calls") + 1):
            answer = stopped(pair, library, how, number)
            if answer.errors.startswith("mdcli: BadImage "):
                continue
            wrong = [] if answer.output == output else ["other answers"]
            dropped = "it is faulty now, and the array has 1 of 2" in answer.errors and answer.status == 0
            if not dropped and not (answer.status == 1 and answer.errors.startswith("mdcli: MemberFailed ")):
                wrong.append("status %d, %r" % (answer.status, answer.errors))
            found = pair.found()
            wrong += found.uncovered()
            wrong += ["member %d has other bytes" % m.number for m in found.in_sync if m.data() != bytes(server.data)]
            reasons += ["call %d: %s" % (number, reason) for reason in wrong]
        tally.judge("writing: each call in turn, %s" % how, reasons[:5])


def check_halted(tally, folder, library):
    """Once a write fails to the last member in sync, all further requests are errors, and -v says of each why."""
    pair = Pair(folder, ["g.img", "missing"])
    for how in ("fail", "torn"):
        reasons, halted = [], 0
        for number in range(1, calls_of(pair, library, folder / "calls") + 1):
            answer = stopped(pair, library, how, number, "-v")
            if "mdcli: BadImage " in answer.errors:
                continue
            errors = errors_in(answer.output, CALLS)
            done = errors.index(nbd.EIO) if nbd.EIO in errors else len(errors)
            halted += done < len(errors)
            told = "".join(refused_line(request, "the array is halted") for request in CALLS[done:]) + "mdcli: Halted\n"
            wrong = [] if answer.status == 1 and answer.errors.startswith(told) else ["%d, %r" % (answer.status, answer.errors)]
            if errors != [0] * done + [nbd.EIO] * (len(CALLS) - done):
                wrong.append("the answers are %r" % errors)
            wrong += against_told(pair, Path(pair.paths[0]).read_bytes(), done)
            reasons += ["call %d: %s" % (number, reason) for reason in wrong]
        if not halted:
            reasons.append("no request was an error")
        tally.judge("writing: each call to a last member in turn, %s" % how, reasons[:5])


def check_killed(tally, folder, library):
    """After the process was killed, and a resync, what was answered 0 before a flush that was answered stands."""
    pair = Pair(folder, ["h.img", "i.img"])
    for how in ("before", "half"):
        reasons = []
        for number in range(1, calls_of(pair, library, folder / "calls") + 1):
            answer = stopped(pair, library, how, number)
            wrong = [] if answer.status == KILLED else ["status %d" % answer.status]
            wrong += pair.found().uncovered()
            errors = errors_in(answer.output, CALLS)
            wrong += ["an error was answered"] if any(errors) else []
            done = Answer(["resync", *pair.paths])
            wrong += [] if done.status == 0 else ["resync: %r" % done.errors]
            done = Answer(["check", "--readonly", *pair.paths])
            wrong += done.against(0, b"mismatched chunks: 0\n")
            wrong += against_told(pair, Path(pair.paths[0]).read_bytes(), len(errors))
            reasons += ["call %d: %s" % (number, reason) for reason in wrong]
        tally.judge("writing: killed at each call, %s" % how, reasons[:5])


def stands_of(requests):
    """How many of these requests, which were answered, stand whatever comes: those up to the last flush, or write with FUA."""
    lasting = [n + 1 for n, request in enumerate(requests) if is_lasting(request)]
    return lasting[-1] if lasting else 0


def is_lasting(request):
    flags, kind = struct.unpack(">HH", request[4:8])
    return kind == nbd.FLUSH or (kind == nbd.WRITE and flags == nbd.FUA)


def against_told(pair, content, done):
    """What is wrong with a member of which so many requests were answered: each sector is as one of those that need not stand yet left
    it, or the next one, or as it was before them."""
    states = [data_after(pair, CALLS[:count]) for count in range(stands_of(CALLS[:done]), min(done + 2, len(CALLS) + 1))]
    data = members.Member(content).data()
    places = range(0, len(data), SECTOR)
    wrong = [n // SECTOR for n in places if data[n : n + SECTOR] not in [state[n : n + SECTOR] for state in states]]
    return ["sectors %r have other bytes" % wrong[:5]] if wrong else []


# ---- clients
def check_clients(tally, pair):
    """nbdinfo, and files that nbdcopy and qemu-img write to the array."""
    for name, check in (("nbdinfo", info_of), ("nbdcopy", copied), ("qemu-img", converted)):
        reason = installed(name)
        if reason:
            tally.skipped("writing: " + name, reason)
            continue
        served = Socket(str(pair.folder / "socket"), ["serve", *pair.fresh().paths])
        try:
            tally.judge("writing: " + name, check(pair, served))
        finally:
            served.close()


def info_of(pair, served):
    done = run_client(["nbdinfo", served.uri])
    told = done.stdout.decode("utf-8", "replace")
    wanted = ["export-size: %d" % len(pair.data), "is_read_only: false", "can_flush: true", "can_fua: true", "can_multi_conn: false"]
    return ["%s: %r" % (line, told) for line in wanted if line not in told]


def written_by(pair, served, words):
    data = new(9, SECTORS)
    source = pair.folder / "source"
    source.write_bytes(data)
    done = run_client([word or str(source) for word in words])
    ended = served.wait()
    reasons = [] if done.returncode == 0 else [done.stderr.decode("utf-8", "replace")]
    reasons += [] if ended == [0] else ["it ended so: %r" % ended]
    return reasons + pair.against(data)


def copied(pair, served):
    return written_by(pair, served, ["nbdcopy", "--flush", "", served.uri])


def converted(pair, served):
    return written_by(pair, served, ["qemu-img", "convert", "-n", "-f", "raw", "-O", "raw", "", served.uri])


def check_mounted(tally, folder):
    """A file system is made on the array by way of nbdfuse, and files on that."""
    name = "writing: a file system by nbdfuse"
    reason = installed("nbdfuse")
    tools = [tool for tool in ("mkfs.ext4", "e2fsck", "mount", "umount") if not shutil.which(tool)]
    if not reason and (not os.path.exists("/dev/fuse") or os.geteuid() != 0 or tools):
        reason = "it takes root, /dev/fuse, and mkfs.ext4, e2fsck and mount"
    if reason:
        tally.skipped(name, reason)
        return
    images = Images(folder)
    size = 16 << 20
    pair = images.array(["k.img", "l.img"], bytes(size), "--assume-clean")
    mount = Mount(images, "shown", ["serve", *pair])
    files, reasons = {}, list(mount.reasons)
    if not reasons:
        files, reasons = files_written(folder, mount.file)
    mount.close()
    wait_until_free(pair)
    tally.judge(name, reasons or files_against(folder, pair, files))


def wait_until_free(pair):
    """nbdfuse does not wait for its server, which stops the array yet."""
    until = time.monotonic() + SECONDS
    while Answer(["detail", "--readonly", *pair]).status != 0 and time.monotonic() < until:
        time.sleep(0.05)


def files_written(folder, file):
    """Files that were put on a file system on this file, and why not."""
    point, draw, files = folder / "put", random.Random(2), {}
    point.mkdir()
    for words in (["mkfs.ext4", "-q", str(file)], ["mount", "-o", "loop", str(file), str(point)]):
        done = run_client(words)
        if done.returncode != 0:
            return files, ["%s: %r" % (words[0], done.stderr)]
    try:
        for number in range(20):
            files["file%d" % number] = draw.randbytes(draw.randint(1, 100000))
            (point / ("file%d" % number)).write_bytes(files["file%d" % number])
    finally:
        done = run_client(["umount", str(point)])
    return files, [] if done.returncode == 0 else ["umount: %r" % done.stderr]


def files_against(folder, pair, files):
    """What is wrong with the members after the file system was put on the array: each has all files, and they are alike."""
    found = members.Found([Path(path).read_bytes() for path in pair])
    reasons = [] if not found.marks and len(found.in_sync) == 2 else ["it is not stopped: %s" % found.summary()]
    if found.in_sync[0].data() != found.in_sync[-1].data():
        reasons.append("the members differ")
    content, point = folder / "content", folder / "got"
    content.write_bytes(found.in_sync[0].data())
    done = run_client(["e2fsck", "-fn", str(content)])
    reasons += [] if done.returncode == 0 else ["e2fsck: %r" % done.stdout]
    point.mkdir()
    done = run_client(["mount", "-o", "loop,ro", str(content), str(point)])
    if done.returncode != 0:
        return reasons + ["mount: %r" % done.stderr]
    try:
        return reasons + [name for name, wanted in files.items() if (point / name).read_bytes() != wanted]
    finally:
        run_client(["umount", str(point)])


def check_taken_up(tally, folder):
    """The server of a file system is killed while files are written: after a resync those that were synced before are there."""
    name = "writing: a killed server of a file system"
    reason = installed("nbdfuse")
    tools = [tool for tool in ("mkfs.ext4", "e2fsck", "mount", "umount") if not shutil.which(tool)]
    if not reason and (not os.path.exists("/dev/fuse") or os.geteuid() != 0 or tools):
        reason = "it takes root, /dev/fuse, and mkfs.ext4, e2fsck and mount"
    if reason:
        tally.skipped(name, reason)
        return
    images = Images(folder)
    pair = images.array(["m.img", "n.img"], bytes(32 << 20), "--assume-clean")
    mount = Mount(images, "killed", ["serve", *pair])
    files, reasons = {}, list(mount.reasons)
    if not reasons:
        files, reasons = files_until_killed(folder, mount)
    mount.close()
    wait_until_free(pair)
    tally.judge(name, reasons or files_after_resync(folder, pair, files))


def files_until_killed(folder, mount):
    """Files that were synced on a file system, and why not; the server is killed while more are written."""
    point, draw, files = folder / "put_until", random.Random(3), {}
    point.mkdir()
    for words in (["mkfs.ext4", "-q", str(mount.file)], ["mount", "-o", "loop", str(mount.file), str(point)]):
        done = run_client(words)
        if done.returncode != 0:
            return files, ["%s: %r" % (words[0], done.stderr)]
    try:
        for number in range(20):
            files["file%d" % number] = draw.randbytes(draw.randint(1, 100000))
            (point / ("file%d" % number)).write_bytes(files["file%d" % number])
        synced = run_client(["sync", "-f", str(point)]).returncode == 0
        more = subprocess.Popen(
            ["dd", "if=/dev/urandom", "of=" + str(point / "more"), "bs=64k", "count=200", "oflag=dsync"],
            stdin=subprocess.DEVNULL,
            stdout=subprocess.DEVNULL,
            stderr=subprocess.DEVNULL,
        )
        time.sleep(0.3)
        for server in children_of(mount.process.pid):
            os.kill(server, signal.SIGKILL)
        more.wait(timeout=SECONDS)
    finally:
        run_client(["umount", str(point)])
    return files, [] if synced else ["sync failed"]


def children_of(process):
    return [int(word) for word in Path("/proc/%d/task/%d/children" % (process, process)).read_text().split()]


def files_after_resync(folder, pair, files):
    """What is wrong with the members after a resync: they are alike, and have the files, once the journal was played."""
    reasons = members.Found([Path(path).read_bytes() for path in pair]).uncovered()
    done = Answer(["resync", *pair])
    reasons += [] if done.status == 0 else ["resync: %r" % done.errors]
    found = members.Found([Path(path).read_bytes() for path in pair])
    content, point = folder / "content_after", folder / "got_after"
    content.write_bytes(found.in_sync[0].data())
    if content.read_bytes() != found.in_sync[-1].data():
        reasons.append("the members differ")
    done = run_client(["e2fsck", "-fy", str(content)])
    reasons += [] if done.returncode in (0, 1) else ["e2fsck: %r" % done.stdout]
    point.mkdir()
    done = run_client(["mount", "-o", "loop,ro", str(content), str(point)])
    if done.returncode != 0:
        return reasons + ["mount: %r" % done.stderr]
    try:
        return reasons + [name for name, wanted in files.items() if (point / name).read_bytes() != wanted]
    finally:
        run_client(["umount", str(point)])
