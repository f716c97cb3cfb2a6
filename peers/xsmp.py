"""A raw client of XSMP over a Unix socket: every byte that it sends is spelled here.

It writes its numbers, and wants the manager's, in the order ORDER: least significant byte first, unless a test sets another."""
import os
import socket
import struct

ORDER = "<"
COOKIE_METHOD = b"MIT-MAGIC-COOKIE-1"
OPCODE = 1
(ERROR, REGISTER, REGISTERED, SAVE, REQUEST, ASK_TALK, TALK, TALKED, SAVED, DIE, CANCELLED, CLOSED, SET, DELETE,
 GET, PROPERTIES, ASK_TWO, TWO, COMPLETE) = range(19)
BYTE_ORDER, SETUP, REQUIRED, REPLY, NEXT, CONNECTED, PROTOCOL, PROTOCOL_REPLY, PING, PONG = range(1, 11)


def pack(form, *numbers):
    return struct.pack(ORDER + form, *numbers)


def number(form, data, at=0):
    return struct.unpack_from(ORDER + form, data, at)[0]


def padded(data, unit):
    return data + bytes(-len(data) % unit)


def string(data):
    return padded(pack("H", len(data)) + data, 4)


def array8(data):
    return padded(pack("I", len(data)) + data, 8)


def many(items):
    """A list with its count: of ARRAY8s, or of properties."""
    return pack("II", len(items), 0) + b"".join(items)


def message(major, minor, body=b"", second=0, third=0):
    body = padded(body, 8)
    return pack("BBBBI", major, minor, second, third, len(body) // 8) + body


def read_array8(data, at=0):
    length = number("I", data, at)
    return data[at + 4 : at + 4 + length], at + (4 + length + 7) // 8 * 8


def entries_in(authority):
    """The entries of the file, each as five fields."""
    with open(authority, "rb") as file:
        data = file.read()
    at, fields = 0, []
    while at < len(data):
        length = struct.unpack_from(">H", data, at)[0]
        fields.append(data[at + 2 : at + 2 + length])
        at += 2 + length
    return zip(*[iter(fields)] * 5)


def place_in(authority):
    """The path of the socket that the first entry names."""
    return os.fsdecode(next(entries_in(authority))[2].split(b":", 1)[1])


def cookie_at(authority, path):
    """The cookie for ICE at the socket with this path."""
    for protocol, _, network, method, proof in entries_in(authority):
        if protocol == b"ICE" and method == COOKIE_METHOD and network.endswith(b":" + os.fsencode(path)):
            return proof
    raise LookupError("no cookie for " + path)


class Client:
    """A connection to the manager, on which each answer has to come within some seconds."""

    def __init__(self, path, seconds=30):
        self.socket = socket.socket(socket.AF_UNIX)
        self.socket.settimeout(seconds)
        self.socket.connect(path)
        self.held = b""

    def send(self, data):
        self.socket.sendall(data)

    def say(self, minor, body=b"", second=0):
        self.send(message(OPCODE, minor, body, second))

    def bytes(self, count):
        while len(self.held) < count:
            more = self.socket.recv(65536)
            if not more:
                raise EOFError("the manager closed the connection")
            self.held += more
        taken, self.held = self.held[:count], self.held[count:]
        return taken

    def next(self):
        """The next message: its major and minor opcode, its header and its body."""
        head = self.bytes(8)
        return head[0], head[1], head, self.bytes(8 * number("I", head, 4))

    def expect(self, minor, major=OPCODE):
        found = self.next()
        if found[:2] != (major, minor):
            raise ValueError("expected %d, got %r" % (minor, found))
        return found[3]

    def expect_order(self):
        found = self.next()
        if found[2] != order():
            raise ValueError("expected the order, got %r" % (found,))

    def set_up(self, cookie):
        """The set-up of ICE and of XSMP, both with the cookie."""
        for part in set_up_parts(cookie):
            self.send(part)
        self.expect_order()
        for minor in (REQUIRED, CONNECTED, REQUIRED, PROTOCOL_REPLY):
            self.expect(minor, 0)

    def register(self, previous=b""):
        self.say(REGISTER, array8(previous))
        return read_array8(self.expect(REGISTERED))[0]

    def set(self, name, kind, values):
        values = many([array8(it) for it in values])
        self.say(SET, many([array8(name) + array8(kind) + values]))

    def set_command(self, name, words):
        self.set(name, b"LISTofARRAY8", words)

    def properties(self):
        self.say(GET)
        return read_properties(self.expect(PROPERTIES))

    def ping(self):
        self.send(message(0, PING))
        self.expect(PONG, 0)

    def close(self):
        self.say(CLOSED, many([]))
        self.socket.close()


def order():
    return message(0, BYTE_ORDER, second=int(ORDER == ">"))


def set_up_parts(cookie):
    names = string(COOKIE_METHOD) + pack("HH", 1, 0)
    who = string(b"peer") + string(b"1.0")
    proof = message(0, REPLY, pack("H", len(cookie)) + bytes(6) + cookie)
    return [
        order(),
        message(0, SETUP, bytes(8) + who + names, 1, 1),
        proof,
        message(0, PROTOCOL, bytes([1, 1]) + bytes(6) + string(b"XSMP") + who + names, OPCODE),
        proof,
    ]


def read_properties(body):
    found, at = {}, 8
    for _ in range(number("I", body)):
        name, at = read_array8(body, at)
        _, at = read_array8(body, at)
        values, count = [], number("I", body, at)
        at += 8
        for _ in range(count):
            value, at = read_array8(body, at)
            values.append(value)
        found[name] = values
    return found


def joined(path, authority, previous=b"", seconds=30):
    """A client that is registered, and its ID."""
    client = Client(path, seconds)
    client.set_up(cookie_at(authority, path))
    return client, client.register(previous)


def save(client, words):
    client.set(b"Program", b"ARRAY8", [words[0]])
    client.set_command(b"RestartCommand", words)
    client.say(SAVED, second=1)
