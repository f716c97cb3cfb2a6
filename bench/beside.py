#!/usr/bin/env python3
"""Measures rounds of saves of `smd serve` beside those of a manager on libSM (peers/libsm_manager.c) that writes and syncs as often: how
many rounds a second each makes, on a RAM disk and on a disk, how much of a round's time is its own and the system's, and how many
instructions a round takes, by valgrind's callgrind. One process, bench/driver.c, is the clients of both.
Usage: bench/beside.py [SMD [FOLDER]]. Without a program, that which `tools/build` builds. The folder lies on the disk that is measured.
"""
import os
import subprocess
import sys
import tempfile

TOP = os.path.dirname(os.path.dirname(os.path.abspath(__file__)))
sys.dont_write_bytecode = True
sys.path[:0] = [os.path.join(TOP, "peers"), os.path.join(TOP, "bench")]
import xsmp  # noqa: E402
from manager import Manager  # noqa: E402
from serve import SECONDS, built, driven  # noqa: E402

TURNS = 3
SET_UP = (xsmp.BYTE_ORDER, xsmp.REQUIRED, xsmp.CONNECTED, xsmp.REQUIRED, xsmp.PROTOCOL_REPLY)
COUNTED = ["valgrind", "-q", "--tool=callgrind"]


class Smd(Manager):
    """The manager that is measured."""

    def __init__(self, program, room, before=()):
        super().__init__(program, room)
        self.before = list(before)

    def words(self):
        return [*self.before, self.smd]

    def login(self):
        return self.saved()[0]

    def stop(self):
        self.process.terminate()
        self.process.wait()


class OnLibsm:
    """A manager on libSM."""

    def __init__(self, program, room, before=()):
        self.words = [*before, program, *[os.path.join(room, name) for name in ("log", "authority", "store")]]
        self.authority = os.path.join(room, "authority")
        self.process = self.socket = None

    def start(self, _seconds=30):
        self.process = subprocess.Popen(self.words, stdin=subprocess.PIPE, stdout=subprocess.PIPE)
        places = self.process.stdout.readline().decode().strip().split("=", 1)[1].split(",")
        paths = [it.split(":", 1)[1] for it in places if it.startswith(("local/", "unix/"))]
        self.socket = next(it for it in paths if it.startswith("/"))

    def login(self):
        client = xsmp.Client(self.socket)
        for part in xsmp.set_up_parts(xsmp.cookie_at(self.authority, self.socket)):
            client.send(part)
        for minor in SET_UP:
            client.expect(minor, 0)
        client.register()
        client.set_command(b"RestartCommand", [b"true"])
        return client

    def stop(self):
        self.process.stdin.close()
        self.process.wait()


def with_clients(made, count, measure, folder=None, before=()):
    """What is measured of a manager with so many clients."""
    with tempfile.TemporaryDirectory(dir=folder) as room:
        counts = os.path.join(room, "counts")
        manager = made(room, [it.replace("COUNTS", counts) for it in before])
        manager.start(120)
        try:
            clients = [manager.login() for _ in range(count)]
            found = measure(manager, clients)
        finally:
            manager.stop()
        return found if not before else total(counts)


def total(counts):
    with open(counts) as file:
        return next(int(line.split()[1]) for line in file if line.startswith("totals:"))


def rounds_of(number):
    """That many rounds, which the first client asks for."""

    def run(_manager, clients):
        for _ in range(number):
            clients[0].say(xsmp.REQUEST, xsmp.pack("BBBBBBBB", 1, 0, 0, 0, 1, 0, 0, 0))
            for client in clients:
                client.expect(xsmp.SAVE)
                client.say(xsmp.SAVED, second=1)
            for client in clients:
                client.expect(xsmp.COMPLETE)

    return run


def times_of(manager):
    """The seconds that a manager has spent in itself and in the system."""
    with open("/proc/%d/stat" % manager.process.pid) as file:
        fields = file.read().rsplit(")", 1)[1].split()
    return [int(ticks) / os.sysconf("SC_CLK_TCK") for ticks in fields[11:13]]


def rate(driver, manager, clients):
    """The rounds a second, and the microseconds of a round that are the manager's own and the system's."""
    for client in clients:
        client.socket.settimeout(None)
    before = times_of(manager)
    rounds = driven(driver, "round", clients)
    spent = [after - was for was, after in zip(before, times_of(manager))]
    return [rounds, *[1e6 * seconds / (rounds * SECONDS) for seconds in spent]]


def rates(driver, makers, count, folder):
    """The rates of each, the best of some turns in which both take part one after the other."""
    best = [[0.0], [0.0]]
    for _ in range(TURNS):
        for at, made in enumerate(makers):
            found = with_clients(made, count, lambda manager, clients: rate(driver, manager, clients), folder)
            best[at] = max(best[at], found)
    return best


def instructions(made, count):
    before = [*COUNTED, "--callgrind-out-file=COUNTS"]
    few, many = [with_clients(made, count, rounds_of(number), "/dev/shm", before) for number in (5, 25)]
    return (many - few) / 20


def main():
    smd = sys.argv[1] if len(sys.argv) > 1 else os.path.join(TOP, "crates", "smd", "out", "smd")
    disk = sys.argv[2] if len(sys.argv) > 2 else None
    print("%d processors, load %.1f" % (os.cpu_count(), os.getloadavg()[0]))
    with tempfile.TemporaryDirectory() as folder:
        driver = built(folder)
        other = os.path.join(folder, "libsm_manager")
        source = os.path.join(TOP, "peers", "libsm_manager.c")
        subprocess.run(["gcc", "-Wall", "-Wextra", "-Werror", "-O2", "-o", other, source, "-lSM", "-lICE"], check=True)
        makers = [lambda room, before: Smd(smd, room, before), lambda room, before: OnLibsm(other, room, before)]
        for count in (8, 64):
            for name, place in (("a RAM disk", "/dev/shm"), ("a disk", disk)):
                one, two = rates(driver, makers, count, place)
                print(
                    "%d clients, store on %s: %.0f rounds a second beside %.0f, %.2f times as many"
                    % (count, name, one[0], two[0], one[0] / two[0])
                )
                print(
                    "%d clients, store on %s: microseconds of its own %.0f beside %.0f, of the system %.0f beside %.0f"
                    % (count, name, one[1], two[1], one[2], two[2])
                )
        costs = [[instructions(made, count) for count in (8, 64)] for made in makers]
        for at, count in enumerate((8, 64)):
            one, two = [cost[at] for cost in costs]
            print("%d clients: %.0f instructions a round beside %.0f, %.1f times as many" % (count, one, two, one / two))
        print("a round of 64 takes %.1f times what one of 8 takes" % (costs[0][1] / costs[0][0]))


if __name__ == "__main__":
    main()
