"""The NBD protocol (fixed newstyle, simple replies) from the client's side, and what a server answers that offers one export: written
down from the protocol's document, and not from the program's sources."""

import struct

GREETING = b"NBDMAGICIHAVEOPT" + struct.pack(">H", 3)
OPTION = b"IHAVEOPT"
EXPORT_NAME, ABORT, LIST, STRUCTURED_REPLY, INFO, GO = 1, 2, 3, 8, 6, 7
ACK, SERVER, INFORMATION = 1, 2, 3
UNSUPPORTED, INVALID, UNKNOWN = 0x80000001, 0x80000003, 0x80000006
READ, WRITE, DISCONNECT, FLUSH, TRIM, CACHE, WRITE_ZEROES, BLOCK_STATUS = range(8)
EPERM, EIO, EINVAL, ENOSPC, EOVERFLOW = 1, 5, 22, 28, 75
# HAS_FLAGS and SEND_FLUSH, with READ_ONLY and CAN_MULTI_CONN or with SEND_FUA.
READONLY_FLAGS, WRITABLE_FLAGS = 0x107, 0x0D
FUA = 1
SECTOR = 512
LONGEST_OPTION = 65536
MOST = 1 << 25


def option(number, body=b""):
    return OPTION + struct.pack(">II", number, len(body)) + body


def named(name=b"", kinds=()):
    """The body of INFO and GO."""
    return struct.pack(">I", len(name)) + name + struct.pack(">H%dH" % len(kinds), len(kinds), *kinds)


def request(kind, offset, length, cookie=1, flags=0, payload=b""):
    return struct.pack(">IHHQQI", 0x25609513, flags, kind, cookie, offset, length) + payload


def reply(error, cookie, data=b""):
    return struct.pack(">IIQ", 0x67446698, error, cookie) + data


def option_reply(number, kind, body=b""):
    return struct.pack(">QIII", 0x3E889045565A9, number, kind, len(body)) + body


class Server:
    """What is answered to a stream of bytes, and whether the client went in order then. `data` is what is read, and written where the
    export is writable, and `missing` are the sectors that are not given."""

    def __init__(self, data, missing=(), writable=False):
        self.data, self.missing, self.writable = bytearray(data), frozenset(missing), writable

    def answers(self, stream):
        """The bytes that come for these, and whether the client went between two messages."""
        self.stream, self.at, self.out = stream, 0, [GREETING]
        orderly = self.session()
        return b"".join(self.out), orderly

    def take(self, count):
        """The next bytes, fewer where the stream ends."""
        taken = self.stream[self.at : self.at + count]
        self.at += len(taken)
        return taken

    def session(self):
        flags = self.take(4)
        if len(flags) < 4 or struct.unpack(">I", flags)[0] not in (0, 1, 2, 3):
            return False
        no_zeroes = bool(flags[3] & 2)
        while True:
            head = self.take(16)
            if not head:
                return True
            if len(head) < 16 or head[:8] != OPTION:
                return False
            number, length = struct.unpack(">II", head[8:])
            if length > LONGEST_OPTION:
                return False
            body = self.take(length)
            if len(body) < length:
                return False
            after = self.haggle(number, body, no_zeroes)
            if after == "transmission":
                return self.transmit()
            if after == "closed":
                return True

    def export(self):
        return struct.pack(">QH", len(self.data), WRITABLE_FLAGS if self.writable else READONLY_FLAGS)

    def haggle(self, number, body, no_zeroes):
        put = lambda kind, more=b"": self.out.append(option_reply(number, kind, more))
        if number == EXPORT_NAME:
            if body:
                return "closed"
            self.out.append(self.export() + (b"" if no_zeroes else bytes(124)))
            return "transmission"
        if number == ABORT:
            put(ACK)
            return "closed"
        if number == LIST:
            if body:
                put(INVALID)
            else:
                put(SERVER, bytes(4))
                put(ACK)
        elif number in (INFO, GO):
            name = name_in(body)
            if name is None:
                put(INVALID)
            elif name:
                put(UNKNOWN)
            else:
                put(INFORMATION, struct.pack(">H", 0) + self.export())
                put(INFORMATION, struct.pack(">HIII", 3, SECTOR, 4096, MOST))
                put(ACK)
                if number == GO:
                    return "transmission"
        else:
            put(UNSUPPORTED)
        return "haggling"

    def transmit(self):
        while True:
            head = self.take(28)
            if not head:
                return True
            if len(head) < 28 or head[:4] != b"\x25\x60\x95\x13":
                return False
            flags, kind, cookie, offset, length = struct.unpack(">HHQQI", head[4:])
            payload = b""
            if kind == WRITE:
                if length > MOST:
                    return False
                payload = self.take(length)
                if len(payload) < length:
                    return False
            if kind == DISCONNECT:
                return True
            self.out.append(self.answer(flags, kind, cookie, offset, length, payload))

    def answer(self, flags, kind, cookie, offset, length, payload):
        if kind == WRITE and not self.writable:
            return reply(EPERM, cookie)
        if flags & ~(FUA if self.writable else 0):
            return reply(EINVAL, cookie)
        if kind == FLUSH:
            return reply(0, cookie)
        if kind == WRITE:
            return self.write(cookie, offset, payload)
        if kind != READ:
            return reply(EINVAL, cookie)
        if length > MOST:
            return reply(EOVERFLOW, cookie)
        if offset + length > len(self.data) or offset % SECTOR or length % SECTOR or not length:
            return reply(EINVAL, cookie)
        if self.missing & set(range(offset // SECTOR, (offset + length) // SECTOR)):
            return reply(EIO, cookie)
        return reply(0, cookie, self.data[offset : offset + length])

    def write(self, cookie, offset, payload):
        if offset + len(payload) > len(self.data):
            return reply(ENOSPC, cookie)
        if offset % SECTOR or len(payload) % SECTOR or not payload:
            return reply(EINVAL, cookie)
        self.data[offset : offset + len(payload)] = payload
        return reply(0, cookie)


def name_in(body):
    """The name in a body of INFO or GO, or None where it is no name with a list of kinds."""
    if len(body) < 6:
        return None
    length = struct.unpack(">I", body[:4])[0]
    if len(body) < 6 + length:
        return None
    count = struct.unpack(">H", body[4 + length : 6 + length])[0]
    return body[4 : 4 + length] if len(body) == 6 + length + 2 * count else None
