#!/usr/bin/env python3
"""What smrelay does at its sockets, before a manager that is played here:
    relayed.py SMRELAY FOLDER TEST
A test is one of the functions below whose names begin with `test_`, without these.
"""
import os
import socket
import subprocess
import sys
import time

LSB = bytes([0, 1, 0, 0, 0, 0, 0, 0])
MSB = bytes([0, 1, 1, 0, 0, 0, 0, 0])
PING = bytes([0, 9, 0, 0, 0, 0, 0, 0])
# The set-up is through: a ConnectionReply of a vendor `v` with the release `r`, in both orders.
LET_IN = bytes([0, 6, 0, 0, 1, 0, 0, 0, 1, 0]) + b"v\0" + bytes([1, 0]) + b"r\0"
HEARD_IN = bytes([0, 6, 0, 0, 0, 0, 0, 1, 0, 1]) + b"v\0" + bytes([0, 1]) + b"r\0"
# How many pairs a relay serves, and how many seconds a stranger may stay.
PAIRS, STAY = 32, 10
MEBIBYTE = 1 << 20


def until(holds, seconds=30):
    end = time.monotonic() + seconds
    while not holds():
        if time.monotonic() > end:
            raise TimeoutError(holds.__doc__)
        time.sleep(0.02)


def read(stream, count):
    data = b""
    while len(data) < count:
        more = stream.recv(count - len(data))
        if not more:
            raise EOFError("after %r" % data)
        data += more
    return data


def is_ended(stream):
    """Whether the peer sends no more; what it sent before is thrown away."""
    try:
        while stream.recv(65536):
            pass
    except ConnectionResetError:
        pass
    return True


class Relay:
    def __init__(self, program, room, more=()):
        """Starts a relay by these words and those of its own."""
        self.socket, self.to = os.path.join(room, "relay"), os.path.join(room, "manager")
        words = ["--socket", self.socket, "--to", self.to, "--order", "msb", *more]
        self.process = subprocess.Popen([*program, "serve", *words], stdin=subprocess.DEVNULL)
        until(self.listens)

    def listens(self):
        """Whether somebody can come. No manager is there yet, so whoever comes now is dropped."""
        try:
            return is_ended(self.client())
        except (FileNotFoundError, ConnectionRefusedError):
            return False

    def play_manager(self):
        self.door = socket.socket(socket.AF_UNIX)
        self.door.bind(self.to)
        self.door.listen(100)
        self.door.settimeout(30)

    def client(self, name=None):
        client = socket.socket(socket.AF_UNIX)
        client.settimeout(30)
        client.connect(name or self.socket)
        return client

    def pair(self, name=None):
        """A client, and the connection that leads it to the manager; both have heard the relay's order."""
        client = self.client(name)
        manager = self.door.accept()[0]
        manager.settimeout(30)
        for stream in (client, manager):
            if read(stream, 8) != MSB:
                raise ValueError("another order")
            stream.sendall(LSB)
        return client, manager

    def let_in(self, name=None):
        """A pair whose client has shown the cookie."""
        client, manager = self.pair(name)
        manager.sendall(LET_IN)
        if read(client, len(HEARD_IN)) != HEARD_IN:
            raise ValueError("not let in")
        return client, manager

    def expect_passed(self, client, manager):
        for one, other in ((client, manager), (manager, client)):
            one.sendall(PING)
            if read(other, 8) != PING:
                raise ValueError("no ping")

    def expect_alive(self):
        if self.process.poll() is not None:
            raise ValueError("smrelay ended with %d" % self.process.returncode)


def test_away(relay):
    """Nobody listens at the manager's socket: each who comes is dropped, and the relay goes on."""
    for _ in range(3):
        is_ended(relay.client())
    relay.play_manager()
    relay.expect_passed(*relay.pair())


def test_doors(relay):
    """The abstract name leads to the same place, and the socket is the user's alone."""
    relay.play_manager()
    if os.stat(relay.socket).st_mode & 0o777 != 0o600:
        raise ValueError("others may connect")
    for name in (relay.socket, b"\0" + os.fsencode(relay.socket)):
        relay.expect_passed(*relay.pair(name))


def test_ends(relay):
    """The end of one is that of the other, in both directions, behind what was sent before; others go on."""
    relay.play_manager()
    others = relay.pair()
    for first in (0, 1):
        pair = relay.pair()
        pair[first].sendall(PING)
        pair[first].close()
        if read(pair[1 - first], 8) != PING:
            raise ValueError("no ping")
        is_ended(pair[1 - first])
    relay.expect_passed(*others)


def test_bytes(relay):
    """Messages that come a byte at a time are passed on."""
    relay.play_manager()
    client, manager = relay.pair()
    for byte in PING * 3:
        client.sendall(bytes([byte]))
        time.sleep(0.01)
    if read(manager, 24) != PING * 3:
        raise ValueError("other messages")


def test_crowd(relay):
    """64 connections are served, and one more isn't until others have left: who was let in makes way for nobody."""
    relay.play_manager()
    pairs = [relay.let_in() for _ in range(PAIRS)]
    is_ended(relay.client())
    is_ended(relay.door.accept()[0])
    for pair in pairs:
        relay.expect_passed(*pair)
    client, manager = pairs.pop()
    client.close()
    is_ended(manager)
    pairs.append(relay.pair())
    for pair in pairs:
        relay.expect_passed(*pair)


def test_strangers(relay):
    """Who hasn't shown the cookie makes way for those who come, the first one first; who has stays."""
    relay.play_manager()
    own = [relay.let_in() for _ in range(PAIRS - 10)]
    strangers = [relay.pair(b"\0" + os.fsencode(relay.socket)) for _ in range(10)]
    for stranger in strangers[:6]:
        own.append(relay.let_in())
        for stream in stranger:
            is_ended(stream)
    for pair in own + strangers[6:]:
        relay.expect_passed(*pair)


def test_overdue(relay):
    """Who hasn't shown the cookie after ten seconds is dropped; who has stays."""
    relay.play_manager()
    own, stranger = relay.let_in(), relay.pair()
    began = time.monotonic()
    for stream in stranger:
        is_ended(stream)
    if time.monotonic() - began < STAY - 1:
        raise ValueError("dropped after %.1f seconds" % (time.monotonic() - began))
    relay.expect_passed(*own)


def test_private(relay):
    """Nobody can come by the abstract name, and nobody else can take it; the path leads on."""
    relay.play_manager()
    name = b"\0" + os.fsencode(relay.socket)
    try:
        relay.client(name)
    except ConnectionRefusedError:
        pass
    else:
        raise ValueError("a client came by the abstract name")
    try:
        socket.socket(socket.AF_UNIX).bind(name)
    except OSError:
        pass
    else:
        raise ValueError("the abstract name could be taken")
    relay.expect_passed(*relay.let_in())


def test_flood(relay):
    """A side for which more than a mebibyte would wait is dropped with its pair, in both directions, and others go on."""
    relay.play_manager()
    others = relay.pair()
    for writer in (0, 1):
        pair = relay.pair()
        try:
            for _ in range(64):
                pair[writer].sendall(PING * (MEBIBYTE // 64))
        except (BrokenPipeError, ConnectionResetError):
            pass
        is_ended(pair[writer])
        relay.expect_passed(*others)
        # What the relay had handed to the system before may still be read.
        is_ended(pair[1 - writer])


def main(program, room, name):
    relay = Relay([program], room, ["--private"] if name == "private" else [])
    try:
        globals()["test_" + name](relay)
        relay.expect_alive()
    finally:
        relay.process.kill()
        relay.process.wait()


if __name__ == "__main__":
    main(*sys.argv[1:])
