#!/usr/bin/env python3
"""Writes the example image: member 0 of a clean array of two, with one marked chunk and no bad blocks.

    examples/make_vault.py [FILE]      (FILE: vault.img beside this script)

It stands apart from the program: fields are packed here by their places in md_p.h and md-bitmap.h.
"""

import struct
import sys
from pathlib import Path

SECTOR = 512
SECTORS = 2112
SUPER_SECTOR = 8
SET_UUID = bytes.fromhex("00112233445566778899aabbccddeeff")
DEVICE_UUID = b"\x11" * 16
TIME = 1_700_000_000
EVENTS = 10
SIZE = 64
DATA_OFFSET = 2048
BITMAP_OFFSET = 8
LOG_OFFSET = 2024
ROLES = [0, 1]
CHECKSUM_PLACE = 216
CHECKSUM = 0x8AB7C54F


def put(area, place, form, *values):
    struct.pack_into("<" + form, area, place, *values)


def checksum(superblock):
    """The sum of the words that md_p.h names, its high half added to its low one; sb_csum is 0 here."""
    count = 256 + 2 * len(ROLES)
    total = sum(struct.unpack_from("<%dI" % (count // 4), superblock))
    if count % 4:
        total += struct.unpack_from("<H", superblock, count - 2)[0]
    return ((total & 0xFFFFFFFF) + (total >> 32)) & 0xFFFFFFFF


def superblock():
    area = bytearray(4096)
    put(area, 0, "III", 0xA92B4EFC, 1, 1)  # magic, major_version, feature_map: a bitmap
    put(area, 16, "16s32s", SET_UUID, b"vault")
    put(area, 64, "QI", TIME, 1)  # ctime, level
    put(area, 80, "Q", SIZE)
    put(area, 92, "Ii", len(ROLES), BITMAP_OFFSET)
    put(area, 128, "QQQ", DATA_OFFSET, SIZE, SUPER_SECTOR)
    put(area, 168, "16s", DEVICE_UUID)
    put(area, 184, "BBHi", 0, 0, 8, LOG_OFFSET)  # devflags, and the log's shift, sectors and place
    put(area, 192, "QQQ", TIME, EVENTS, 2**64 - 1)  # utime, events, resync_offset: clean
    put(area, 220, "I", len(ROLES))
    put(area, 256, "%dH" % len(ROLES), *ROLES)
    put(area, CHECKSUM_PLACE, "I", checksum(area))
    return area


def bitmap():
    area = bytearray(SECTOR)
    put(area, 0, "II16s", 0x6D746962, 4, SET_UUID)
    put(area, 24, "QQQ", EVENTS, EVENTS, SIZE)
    put(area, 48, "III", 0, 4096, 5)  # state, chunksize, daemon_sleep
    area[256] = 0x02  # chunk 1 of 8 is marked
    return area


def vault():
    image = bytearray(SECTOR * SECTORS)
    for sector, area in ((SUPER_SECTOR, superblock()), (SUPER_SECTOR + BITMAP_OFFSET, bitmap())):
        image[SECTOR * sector : SECTOR * sector + len(area)] = area
    return image


def main():
    if struct.unpack_from("<I", superblock(), CHECKSUM_PLACE)[0] != CHECKSUM:
        sys.exit("the superblock's checksum is not the one that was worked out by hand")
    path = Path(sys.argv[1]) if len(sys.argv) > 1 else Path(__file__).resolve().with_name("vault.img")
    path.write_bytes(vault())


if __name__ == "__main__":
    main()
