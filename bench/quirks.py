#!/usr/bin/env python3
"""Measures what two layers of `smd serve` cost beside the rest: that of --quirks, and the watch of who is there, which each session has.
Usage: bench/quirks.py [SMD]. Without a program, that which `tools/build` builds. valgrind's callgrind counts the instructions of smd,
without what the kernel does; so nothing depends on what else the machine has to do. The watch is what its functions take with all that
they call; what the compiler put into other functions isn't told apart. It fails where a Ping or a round takes more than a tenth more
with both layers than with none.
"""
import os
import sys
import tempfile

TOP = os.path.dirname(os.path.dirname(os.path.abspath(__file__)))
sys.dont_write_bytecode = True
sys.path.insert(0, os.path.join(TOP, "peers"))
import xsmp  # noqa: E402
from manager import Manager  # noqa: E402

FEW = 50
MANY = 150
CLIENTS = 8
# So many pings are 32 KiB, which smd reads at once.
TOGETHER = 4096
MOST = 1.1
WATCH = ("session_watch", "stream_watch")
PING = xsmp.message(0, xsmp.PING)


# What smd does

def pings(manager, clients, count):
    for _ in range(count):
        clients[0].ping()


def pings_together(manager, clients, count):
    for _ in range(count // 10):
        clients[0].send(PING * TOGETHER)
        clients[0].bytes(len(PING) * TOGETHER)


def rounds(manager, clients, count, save):
    for number in range(count):
        manager.expect("checkpoint", "ok")
        for client in clients:
            client.expect(xsmp.SAVE)
            save(client, number)
        for client in clients:
            client.expect(xsmp.COMPLETE)


def rounds_alike(manager, clients, count):
    rounds(manager, clients, count, lambda client, number: client.say(xsmp.SAVED, second=1))


def rounds_anew(manager, clients, count):
    rounds(manager, clients, count, lambda client, number: xsmp.save(client, [b"true", b"%d" % number]))


# What it costs

class Counted(Manager):
    def words(self):
        return ["valgrind", "-q", "--tool=callgrind", "--callgrind-out-file=" + self.counts(), self.smd]

    def counts(self):
        return self.store + ".counts"


def read_costs(path):
    """The instructions of all, and those of the watch with what it calls."""
    names, caller, callee, called = {}, "", "", False
    whole = watched = 0
    with open(path) as file:
        for line in file:
            key, _, value = line.rstrip("\n").partition("=")
            if key in ("fn", "cfn"):
                number, _, name = value.partition(" ")
                name = names.setdefault(number, name)
                if key == "fn":
                    caller = name
                else:
                    callee = name
            elif key == "calls":
                called = True
            elif line.startswith("totals:"):
                whole = int(line.split()[1])
            elif called:
                called = False
                if is_watch(callee) and not is_watch(caller):
                    watched += int(line.split()[1])
    return whole, watched


def is_watch(name):
    return name.split("::")[0] in WATCH


def taken(smd, options, act, count):
    """What a manager with these options takes that does so much."""
    with tempfile.TemporaryDirectory(dir="/dev/shm") as room:
        manager = Counted(smd, room, options)
        manager.start(120)
        clients = [manager.saved()[0] for _ in range(CLIENTS)]
        act(manager, clients, count)
        manager.process.terminate()
        manager.process.wait()
        return read_costs(manager.counts())


def each_takes(smd, options, act):
    """The same for each time, without what a session takes beside them."""
    few, many = taken(smd, options, act, FEW), taken(smd, options, act, MANY)
    return [(many[at] - few[at]) / (MANY - FEW) for at in range(2)]


def compare(smd, what, times, act):
    """What each time of an act takes; one count of it is so many times."""
    plain, watched = [it / times for it in each_takes(smd, [], act)]
    quirky = each_takes(smd, ["--quirks"], act)[0] / times
    bare = plain - watched
    print(
        "%s: %.0f instructions without both layers, %.0f with the watch, %.0f with the quirks too: %.2f and %.2f times as many"
        % (what, bare, plain, quirky, plain / bare, quirky / bare)
    )
    return quirky <= MOST * bare


def main():
    smd = sys.argv[1] if len(sys.argv) > 1 else os.path.join(TOP, "crates", "smd", "out", "smd")
    kept = [
        compare(smd, "a Ping a piece", 1, pings),
        compare(smd, "%d Pings a piece" % TOGETHER, TOGETHER / 10, pings_together),
        compare(smd, "a client's part in a round of %d that set nothing" % CLIENTS, CLIENTS, rounds_alike),
        compare(smd, "a client's part in a round of %d that set their commands" % CLIENTS, CLIENTS, rounds_anew),
    ]
    return 0 if all(kept) else 1


if __name__ == "__main__":
    sys.exit(main())
