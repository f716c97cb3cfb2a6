#!/usr/bin/env python3
"""A client that knows the most significant byte first alone:
    msb_client.py SOCKET AUTHORITY
It joins, saves when it is asked to, and leaves when it is told to die. It prints a line for each of these, and fails where the
manager's bytes come in another order.
"""
import sys

import xsmp

TOLD = {xsmp.SAVE: "save", xsmp.COMPLETE: "complete", xsmp.DIE: "die"}


def main(path, authority):
    xsmp.ORDER = ">"
    client, own = xsmp.joined(path, authority, seconds=60)
    print("registered", own.decode(), flush=True)
    told = None
    while told != xsmp.DIE:
        major, told, _, _ = client.next()
        if major != xsmp.OPCODE or told not in TOLD:
            raise ValueError("didn't expect %d of %d" % (told, major))
        print(TOLD[told], flush=True)
        if told == xsmp.SAVE:
            xsmp.save(client, (b"true",))
    client.close()


if __name__ == "__main__":
    main(*sys.argv[1:])
