#!/usr/bin/env python3
"""A manager that closes its first connection with bytes unread, which resets the stream:
    rude_manager.py SOCKET AUTHORITY
It writes the authority file before it listens.
"""
import os
import socket
import sys

from recorder import entry, listener


def main():
    path, authority = sys.argv[1:]
    network = ("local/%s:%s" % (os.uname().nodename, path)).encode()
    with open(authority, "wb") as file:
        file.write(entry(b"ICE", network, bytes(16)) + entry(b"XSMP", network, bytes(16)))
    client = listener(path).accept()[0]
    # The client has said ByteOrder and waits for ours, so it is reading when the stream is reset.
    client.recv(1, socket.MSG_PEEK)
    client.close()


if __name__ == "__main__":
    main()
