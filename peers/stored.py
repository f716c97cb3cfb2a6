#!/usr/bin/env python3
"""Reads a store by docs/formats.md, by itself, and prints what `smd store-check --json` should print of it:
    peers/stored.py STORE
The epoch, the programs that a login starts, the entries of `default`, the other sessions and the pending commands."""
import json
import struct
import sys

SLOT = 8388608
HEAD = 16
OPEN = 0xA5
DEFAULT = b"default"
HINTS = ["IfRunning", "Anyway", "Immediately", "Never"]


class Reader:
    """The parts of a book, one after the other."""

    def __init__(self, bytes_, at=0):
        self.bytes, self.at = bytes_, at

    def take(self, count):
        part = self.bytes[self.at : self.at + count]
        self.at += count
        return part

    def number(self):
        return struct.unpack("<I", self.take(4))[0]

    def text(self):
        count = self.number()
        part = self.take(count)
        self.take(-(count + 4) % 8)
        return part

    def many(self, item):
        count = self.number()
        self.take(4)
        return [item() for _ in range(count)]

    def texts(self):
        return self.many(self.text)

    def property(self):
        return self.text(), self.text(), self.texts()

    def entry(self):
        return self.text(), self.many(self.property)

    def session(self):
        name, count, _ = self.text(), self.number(), self.number()
        return name, [self.entry() for _ in range(count)]

    def command(self):
        return self.texts(), self.text(), self.texts()


def read_book(reader):
    """The epoch, the entries of each session by its name, and the pending commands."""
    format_, epoch, count, pending = (reader.number() for _ in range(4))
    if format_ == 1:
        sessions = {DEFAULT: [reader.entry() for _ in range(count)]}
    else:
        sessions = dict(reader.session() for _ in range(count))
    return epoch, sessions, [reader.command() for _ in range(pending)]


def put(sessions, name, new):
    entries = sessions.setdefault(name, [])
    ids = [entry[0] for entry in entries]
    if new[0] in ids:
        entries[ids.index(new[0])] = new
    else:
        entries.append(new)


def amend(book, reader, end):
    """Does the changes of one amendment."""
    epoch, sessions, pending = book
    while reader.at < end:
        code, number = reader.number(), reader.number()
        if code == 1:
            epoch = number
        elif code == 2:
            gone = reader.text()
            sessions = {name: [entry for entry in entries if entry[0] != gone] for name, entries in sessions.items()}
        elif code == 3:
            put(sessions, DEFAULT, reader.entry())
        elif code == 6:
            put(sessions, reader.text(), reader.entry())
        elif code == 4:
            del pending[number]
        else:
            pending.append(reader.command())
    return epoch, sessions, pending


def book_of(file):
    starts = [start for gate, start in ((0, 64), (32, 64 + SLOT)) if file[gate] == OPEN]
    if not starts:
        return 0, {}, []
    start = max(starts, key=lambda at: struct.unpack_from("<Q", file, at))
    slot = file[start : start + SLOT]
    count = struct.unpack_from("<I", slot, 8)[0]
    book = read_book(Reader(slot, HEAD))
    at = HEAD + count
    while at + 8 <= SLOT and slot[at] == OPEN:
        end = at + 8 + struct.unpack_from("<I", slot, at + 4)[0]
        book = amend(book, Reader(slot, at + 8), end)
        at = end
    return book


# What isn't seen, or changes how others are: control characters, blanks and ends of lines beyond ASCII, and marks.
HIDDEN = [
    (0x7F, 0xA0), (0xAD, 0xAD), (0x61C, 0x61C), (0x1680, 0x1680), (0x180E, 0x180E), (0x2000, 0x200F), (0x2028, 0x202F),
    (0x205F, 0x206F), (0x3000, 0x3000), (0xFEFF, 0xFEFF), (0xFFF9, 0xFFFB), (0xE0000, 0xE0FFF),
]


def shown(bytes_):
    try:
        text = bytes_.decode()
    except UnicodeDecodeError:
        return list(bytes_)
    if any(first <= ord(it) <= last for it in text for first, last in HIDDEN):
        return list(bytes_)
    return text


def command_shown(command):
    words, directory, environment = command
    pairs = zip(environment[::2], environment[1::2])
    return {
        "words": [shown(word) for word in words],
        "directory": shown(directory),
        "environment": [[shown(name), shown(value)] for name, value in pairs],
    }


def entry_shown(entry):
    id_, properties = entry
    of = {(name, kind): values for name, kind, values in properties}
    one = lambda name: next(iter(of.get((name, b"ARRAY8"), [])), None)
    hint = of.get((b"RestartStyleHint", b"CARD8"), [b"\0"])[0][0]
    words = of.get((b"RestartCommand", b"LISTofARRAY8"))
    restart = words and (words, one(b"CurrentDirectory") or b"", of.get((b"Environment", b"LISTofARRAY8"), []))
    program = one(b"Program")
    return {
        "id": shown(id_),
        "program": None if program is None else shown(program),
        "hint": HINTS[hint],
        "restart": command_shown(restart) if restart else None,
        "properties": [
            {"name": shown(name), "kind": shown(kind), "values": [shown(value) for value in values]}
            for name, kind, values in properties
        ],
    }


def main():
    with open(sys.argv[1], "rb") as store:
        epoch, sessions, pending = book_of(store.read())
    shown_of = {name: [entry_shown(entry) for entry in entries] for name, entries in sorted(sessions.items()) if entries}
    entries = shown_of.pop(DEFAULT, [])
    found = {
        "epoch": epoch,
        "starts": sum(1 for entry in entries if entry["restart"] and entry["hint"] != "Never"),
        "entries": entries,
        "others": [{"name": shown(name), "entries": others} for name, others in shown_of.items()],
        "pending": [command_shown(command) for command in pending],
    }
    json.dump(found, sys.stdout, indent=2, ensure_ascii=False)
    print()


main()
