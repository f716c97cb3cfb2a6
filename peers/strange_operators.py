#!/usr/bin/env python3
"""A manager that answers its operators in strange ways:
    strange_operators.py CONTROL HOW
It agrees to the logout of its first operator. To what comes next it says no number of clients (`words`), a client
that is none (`client`), what the session can't be at (`course`), or something unasked (`unasked`); or it leaves in
the middle of an answer (`cut`), or with bytes unread, which resets the stream (`reset`), and has removed its socket
before, as a manager that ends well does; or it leaves its socket behind (`left`).
"""
import os
import socket
import sys

from recorder import listener

NOBODY = b"clients 0\n"
ANSWERS = {
    "words": [b"clients one\n"],
    "client": [b"clients 1\nconn=1 holds=no\n"],
    "course": [NOBODY, b"connections 0, records 0, pending 0, epoch 1, asleep\n"],
    "unasked": [NOBODY, b"connections 0, records 0, pending 0, epoch 1, shutdown\nok\n"],
    "cut": [b"clients 2\nconn=1"],
    "left": [NOBODY, b"connections 0, records 0, pending 0, epoch 1, ending\n"],
    "reset": [],
}
ENDS_WELL = ("cut", "reset")


def lines(operator):
    """The lines that the operator says, one by one."""
    held = b""
    while True:
        while b"\n" not in held:
            more = operator.recv(4096)
            if not more:
                return
            held += more
        line, held = held.split(b"\n", 1)
        yield line


def main():
    path, how = sys.argv[1:]
    # The name is there once somebody can come by it.
    door = listener(path + ".new")
    os.rename(path + ".new", path)
    operator = door.accept()[0]
    said = lines(operator)
    if next(said) != b"shutdown":
        raise ValueError("no logout is ordered")
    operator.sendall(b"ok\n")
    if how in ENDS_WELL:
        os.remove(path)
    for answer in ANSWERS[how]:
        next(said)
        operator.sendall(answer)
    if how == "reset":
        # The operator has asked and waits for the answer, so it is reading when the stream is reset.
        operator.recv(1, socket.MSG_PEEK)
    elif how not in ("cut", "left"):
        # It stays until the operator goes.
        for _ in said:
            pass
    operator.close()


if __name__ == "__main__":
    main()
