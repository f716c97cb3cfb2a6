#!/usr/bin/env python3
"""Writes a store that no session of another name fits into, by docs/formats.md:
    full_store.py STORE EPOCH NAME..
Each of the sessions of these names, which stand in their order, has one client that isn't started again."""
import os
import struct
import sys

SIZE = 16777280
SLOT = 64
OPEN = 0xA5


def text(data):
    return struct.pack("<I", len(data)) + data + bytes(-(len(data) + 4) % 8)


def session(number, name):
    entry = text(b"smd-00000001-%08x" % number) + struct.pack("<II", 0, 0)
    return text(name.encode()) + struct.pack("<II", 1, 0) + entry


def main():
    path, epoch, names = sys.argv[1], int(sys.argv[2]), sys.argv[3:]
    book = struct.pack("<IIII", 2, epoch, len(names), 0) + b"".join(map(session, range(1, len(names) + 1), names))
    with open(path, "wb", opener=lambda *how: os.open(*how, mode=0o600)) as file:
        file.write(bytes([OPEN]))
        file.seek(SLOT)
        file.write(struct.pack("<QII", 1, len(book), 0) + book)
        file.truncate(SIZE)


main()
