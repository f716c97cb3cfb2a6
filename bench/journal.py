#!/usr/bin/env python3
"""Measures the store of `smd serve`: what a round of saves writes, by the system's calls, and how long a store takes
to open whose slot is full of small amendments.
Usage: bench/journal.py [SMD [FOLDER]]. Without a program, that which `tools/build` builds; the folder is where the
stores lie. Another program can be measured by the same words: one that knows no amendments writes whole books.
"""
import os
import re
import struct
import subprocess
import sys
import tempfile
import time

TOP = os.path.dirname(os.path.dirname(os.path.abspath(__file__)))
sys.dont_write_bytecode = True
sys.path.insert(0, os.path.join(TOP, "peers"))
import xsmp  # noqa: E402
from manager import Manager  # noqa: E402

ROUNDS = 20
SLOT = 8_388_608
FIRST = 64
# How long a store may take to open, in seconds, whatever its slot is full of, with this many entries and pending commands.
GOAL, MOST = 2, (128, 320)
CALL = re.compile(r"(pwrite64|pwritev|write|fdatasync|fsync)\((\d+).*= (\d+)$")


# What a round writes

class Traced(Manager):
    """A manager whose writes and syncs are traced, with their files."""

    def words(self):
        return ["strace", "-f", "-y", "-e", "trace=pwrite64,pwritev,write,fdatasync,fsync", "-o", self.store + ".calls", self.smd]

    def counted(self):
        """How many bytes were written to the store so far, and how often it was synced."""
        with open(self.store + ".calls") as file:
            lines = [line for line in file if "<" + self.store + ">" in line]
        sizes = [int(line.rsplit("= ", 1)[1].split()[0]) for line in lines if "write" in line]
        return sum(sizes), sum("sync(" in line for line in lines)


def saves(manager, clients, words):
    """One round: each client saves, and says how it is started again."""
    manager.expect("checkpoint", "ok")
    for client in clients:
        client.expect(xsmp.SAVE)
    for number, client in enumerate(clients):
        xsmp.save(client, words(number))
    for client in clients:
        client.expect(xsmp.COMPLETE)


def written(smd, folder, count, words):
    with tempfile.TemporaryDirectory(dir=folder) as room:
        manager = Traced(smd, room)
        manager.start()
        try:
            clients = [manager.saved()[0] for _ in range(count)]
            saves(manager, clients, lambda _: [b"true"])
            bytes_before, syncs_before = manager.counted()
            for number in range(ROUNDS):
                saves(manager, clients, lambda client: words(number, client))
            time.sleep(0.2)
            bytes_after, syncs_after = manager.counted()
        finally:
            manager.kill()
    return (bytes_after - bytes_before) / ROUNDS, (syncs_after - syncs_before) / ROUNDS


def rounds(smd, folder):
    kinds = [
        ("nothing changes", lambda number, client: [b"true"]),
        ("one client changes", lambda number, client: [b"true", b"%d" % number] if client == 0 else [b"true"]),
        ("each client changes", lambda number, client: [b"true", b"%d" % number]),
    ]
    for count in (1, 8, 64):
        for name, words in kinds:
            size, syncs = written(smd, folder, count, words)
            print("%d clients, %s: %.0f bytes and %.1f syncs a round" % (count, name, size, syncs))


# How long a store takes to open

def padded(data):
    return data + bytes(-len(data) % 8)


def array8(data):
    return padded(struct.pack("<I", len(data)) + data)


def array8_list(items):
    return struct.pack("<II", len(items), 0) + b"".join(map(array8, items))


def client(number, discard=None):
    """An entry that is started again by one word and discarded by another."""
    table = [(b"RestartCommand", [b"no-client-%d" % number]), (b"DiscardCommand", [discard or b"no-discard-%d" % number])]
    properties = b"".join(
        array8(name) + array8(b"LISTofARRAY8") + array8_list(values) for name, values in table
    )
    return array8(b"smd-00000001-%08x" % number) + struct.pack("<II", len(table), 0) + properties


def pending(number):
    return array8_list([b"no-pending-%d" % number]) + array8(b"/") + array8_list([])


def book(entries, commands):
    head = struct.pack("<IIII", 1, 1, entries, commands)
    return head + b"".join(map(client, range(1, entries + 1))) + b"".join(map(pending, range(commands)))


def amendment(changes):
    return b"\xa5\0\0\0" + struct.pack("<I", len(changes)) + changes


def store(entries, commands, deltas):
    """A store whose first slot has such a book, and behind it as many amendments of these deltas in turn as fit, or none."""
    content = book(entries, commands)
    slot = bytearray(struct.pack("<QQ", 1, len(content)) + content)
    count = 0
    if deltas:
        turn = b"".join(map(amendment, deltas))
        turns = (SLOT - len(slot) - 1) // len(turn)
        slot += turn * turns
        count = turns * len(deltas)
    file = bytearray(2 * SLOT + FIRST)
    file[0] = 0xA5
    file[FIRST:FIRST + len(slot)] = slot
    return bytes(file), count


EPOCH = struct.pack("<II", 1, 1)


def put(number, discard=None):
    return struct.pack("<II", 3, 0) + client(number, discard)


def gone(commands):
    """The last of so many pending commands goes."""
    return struct.pack("<II", 4, commands - 1)


def come(commands):
    """It comes last."""
    return struct.pack("<II", 5, 0) + pending(commands - 1)


def kinds_of_changes(entries, commands):
    """What the amendments of a full slot say, and a slot without amendments. None of them changes the book, or none two of
    them. Where a client discards by a command that is pending, the book breaks a rule until this goes."""
    kinds = [("no kind", []), ("no change", [b""]), ("the epoch", [EPOCH])]
    if entries:
        kinds.append(("a client", [put(1)]))
    if commands:
        kinds.append(("a command", [gone(commands) + come(commands)]))
        kinds.append(("a command that is pending twice in its midst", [come(commands) + gone(commands)]))
    if entries and commands:
        last = b"no-pending-%d" % (commands - 1)
        kinds.append(("a client and a command", [put(1) + gone(commands) + come(commands)]))
        kinds.append(("a client that discards by what was pending", [put(1, last) + gone(commands), put(1) + come(commands)]))
    return kinds


def opened(smd, folder, data, seconds):
    """How long it takes until smd answers an order; None where that is longer than so many seconds."""
    with tempfile.TemporaryDirectory(dir=folder) as room:
        manager = Manager(smd, room)
        with open(os.open(manager.store, os.O_WRONLY | os.O_CREAT, 0o600), "wb") as file:
            file.write(data)
        begun = time.monotonic()
        try:
            manager.start(seconds)
            manager.order("status", seconds)
            return time.monotonic() - begun
        except (TimeoutError, OSError):
            return None
        finally:
            manager.kill()


def openings(smd, folder, seconds):
    for entries, commands in ((0, 0), (128, 0), MOST):
        for name, deltas in kinds_of_changes(entries, commands):
            data, count = store(entries, commands, deltas)
            took = opened(smd, folder, data, seconds)
            shown = "more than %d s" % seconds if took is None else "%.3f s" % took
            if (entries, commands) == MOST:
                shown += ", %s at most %d s" % ("not" if took is None or took > GOAL else "so", GOAL)
            print("%d entries, %d pending, %d amendments of %s: opened in %s" % (entries, commands, count, name, shown))


def main():
    smd = sys.argv[1] if len(sys.argv) > 1 else os.path.join(TOP, "crates", "smd", "out", "smd")
    folder = sys.argv[2] if len(sys.argv) > 2 else None
    print("%d processors, load %.1f" % (os.cpu_count(), os.getloadavg()[0]))
    rounds(smd, folder)
    openings(smd, folder, 60)
    print("load %.1f at the end" % os.getloadavg()[0])


if __name__ == "__main__":
    main()
