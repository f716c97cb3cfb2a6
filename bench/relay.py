#!/usr/bin/env python3
"""Measures what a relayed Ping costs: the instructions that `smrelay serve` takes to pass one on, against those that `smd serve` takes
to answer one. It fails where they are more than three times as many. valgrind's callgrind counts them, without what the kernel does.
Usage: bench/relay.py [SMD SMRELAY]. Without programs, those which `tools/build` builds.
"""
import os
import sys
import tempfile

TOP = os.path.dirname(os.path.dirname(os.path.abspath(__file__)))
sys.dont_write_bytecode = True
sys.path.insert(0, os.path.join(TOP, "peers"))
from manager import Manager  # noqa: E402
from relayed import PING, Relay, read  # noqa: E402

FEW = 1000
MANY = 3000
MOST = 3


def counted(program, room):
    """The words that run a program and have its instructions counted."""
    return ["valgrind", "-q", "--tool=callgrind", "--callgrind-out-file=%s/counted" % room, program]


def ended(process, room):
    """Ends a process, and gives back how many instructions it took."""
    process.terminate()
    process.wait()
    with open(os.path.join(room, "counted")) as file:
        return next(int(line.split()[1]) for line in file if line.startswith("totals:"))


class Counted(Manager):
    def words(self):
        return counted(self.smd, os.path.dirname(self.socket))


def answered(smd, room, count):
    """The instructions of an smd that answers so many pings."""
    manager = Counted(smd, room)
    manager.start()
    client = manager.saved()[0]
    for _ in range(count):
        client.ping()
    return ended(manager.process, room)


def relayed(smrelay, room, count):
    """The instructions of a relay that passes so many pings on."""
    relay = Relay(counted(smrelay, room), room)
    relay.play_manager()
    client, manager = relay.pair()
    for _ in range(count):
        client.sendall(PING)
        if read(manager, 8) != PING:
            raise ValueError("no ping")
    return ended(relay.process, room)


def each_costs(run, program):
    """The instructions for each ping, without what a run takes beside them."""
    counts = []
    for count in (FEW, MANY):
        with tempfile.TemporaryDirectory() as room:
            counts.append(run(program, room, count))
    return (counts[1] - counts[0]) / (MANY - FEW)


def main():
    built = [os.path.join(TOP, "crates", name, "out", name) for name in ("smd", "smrelay")]
    smd, smrelay = sys.argv[1:] or built
    one, other = each_costs(answered, smd), each_costs(relayed, smrelay)
    print("%.0f instructions for a Ping that smd answers, %.0f for one that is relayed: %.2f times as many" % (one, other, other / one))
    return 1 if other > MOST * one else 0


if __name__ == "__main__":
    sys.exit(main())
