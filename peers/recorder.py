#!/usr/bin/env python3
"""Stands between clients and a manager and writes what they say as a trace that `smtrace show` reads:
    recorder.py --manager PATH --authority FILE --listen PATH --for-clients FILE --trace FILE
It listens at a path of its own, also by the abstract name, and writes an authority file with the manager's
cookie for that path. It ends when it is told to by a signal.
"""
import argparse
import os
import selectors
import signal
import socket
import struct
import sys

import xsmp


def entry(protocol, network, cookie):
    fields = [protocol, b"", network, xsmp.COOKIE_METHOD, cookie]
    return b"".join(struct.pack(">H", len(field)) + field for field in fields)


def write_authority(chosen):
    cookie = xsmp.cookie_at(chosen.authority, chosen.manager)
    network = ("local/%s:%s" % (os.uname().nodename, chosen.listen)).encode()
    with open(chosen.for_clients, "wb") as file:
        os.fchmod(file.fileno(), 0o600)
        file.write(entry(b"ICE", network, cookie) + entry(b"XSMP", network, cookie))


def listener(name):
    door = socket.socket(socket.AF_UNIX)
    door.bind(name)
    door.listen(64)
    return door


class Recorder:
    def __init__(self, manager, trace):
        self.manager, self.trace = manager, trace
        self.waits = selectors.DefaultSelector()
        self.count = 0

    def line(self, *words):
        print(*words, file=self.trace, flush=True)

    def accept(self, door):
        self.count += 1
        client, manager = door.accept()[0], socket.socket(socket.AF_UNIX)
        manager.connect(self.manager)
        self.line("join", self.count)
        self.waits.register(client, selectors.EVENT_READ, ("piece", "gone", self.count, manager))
        self.waits.register(manager, selectors.EVENT_READ, ("sent", "shut", self.count, client))

    def carry(self, source, what, end, number, target):
        try:
            data = source.recv(65536)
        except ConnectionResetError:
            data = b""
        if not data:
            self.line(end, number)
            return self.part(source, target)
        self.line(what, number, data.hex())
        try:
            target.sendall(data)
        except OSError:
            pass

    def part(self, source, target):
        """What the other side said last is carried before it hears of the end."""
        self.waits.unregister(source)
        source.close()
        try:
            target.shutdown(socket.SHUT_WR)
        except OSError:
            pass

    def run(self, doors):
        for door in doors:
            self.waits.register(door, selectors.EVENT_READ, None)
        while True:
            for key, _ in self.waits.select():
                if key.data is None:
                    self.accept(key.fileobj)
                elif key.fileobj.fileno() >= 0:
                    self.carry(key.fileobj, *key.data)


def main():
    words = argparse.ArgumentParser()
    for name in ("manager", "authority", "listen", "for-clients", "trace"):
        words.add_argument("--" + name, required=True)
    chosen = words.parse_args()
    signal.signal(signal.SIGTERM, lambda *_: sys.exit(0))
    write_authority(chosen)
    with open(chosen.trace, "w") as trace:
        trace.write("")
        Recorder(chosen.manager, trace).run([listener("\0" + chosen.listen), listener(chosen.listen)])


if __name__ == "__main__":
    main()
