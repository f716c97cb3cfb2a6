#!/usr/bin/env python3
"""Strangers, who don't know the cookie, beside programs of the owner's:
    strangers.py SMD FOLDER LOGINS TEST
LOGINS is a client on libSM that logs in and out again. Each test runs a manager of its own in the folder, to
which 60 programs of the owner's belong. It ends with 0 where all was as it has to be.
"""
import multiprocessing
import os
import re
import resource
import signal
import socket
import subprocess
import sys
import time

import xsmp
from manager import Manager

OWN = 60
LIMIT = 32
# How many seconds a stranger may stay.
STAY = 10
SECOND = os.sysconf("SC_CLK_TCK")


def say(*words):
    print("  ", *words, flush=True)


def knock(manager):
    """A stranger at the name that everybody can reach."""
    stranger = socket.socket(socket.AF_UNIX)
    # With a time limit it would be refused where it has to wait.
    stranger.connect("\0" + manager.socket)
    stranger.settimeout(30)
    return stranger


def is_dropped(stranger, seconds):
    """Whether the stream of a stranger ends so soon. What comes before is passed over."""
    end = time.monotonic() + seconds
    try:
        while True:
            stranger.settimeout(max(0.001, end - time.monotonic()))
            if not stranger.recv(65536):
                return True
    except TimeoutError:
        return False
    except ConnectionError:
        return True


def open_count(manager):
    """How many connections the manager says that it has."""
    return int(manager.order("status").split(",")[0].split(" ")[1])


def settled(manager, wanted, seconds=10):
    """Waits until the manager has so many connections."""
    end = time.monotonic() + seconds
    while open_count(manager) != wanted:
        if time.monotonic() > end:
            raise ValueError("%d connections, not %d" % (open_count(manager), wanted))
        time.sleep(0.05)


class Owner:
    """The owner's programs, which stay connected through everything."""

    def __init__(self, manager, count=OWN):
        self.clients = [manager.saved()[0] for _ in range(count)]

    def ping(self):
        for client in self.clients:
            client.ping()

    def close(self):
        for client in self.clients:
            client.close()


def processor_time(manager):
    with open("/proc/%d/stat" % manager.process.pid) as file:
        fields = file.read().rsplit(")", 1)[1].split()
    return (int(fields[11]) + int(fields[12])) / SECOND


def log_in(manager, logins, count):
    """So many logins of the client on libSM; the line that it prints."""
    session = "local/%s:%s" % (os.uname().nodename, manager.socket)
    words = {**os.environ, "SESSION_MANAGER": session, "ICEAUTHORITY": manager.authority}
    done = subprocess.run([logins, str(count)], env=words, stdout=subprocess.PIPE, timeout=250, check=True)
    return done.stdout.decode().strip()


def logins_beside(manager, logins, count, text):
    """Logs in beside what goes on, and tells how long it took and what it cost the manager."""
    began, spent = time.monotonic(), processor_time(manager)
    line = log_in(manager, logins, count)
    passed, spent = time.monotonic() - began, processor_time(manager) - spent
    say("%s: %s; the manager took %.0f%% of a processor, %.2f seconds" % (text, line, 100 * spent / passed, spent))
    if float(re.search(r"slowest in ([0-9.]+) ", line)[1]) > STAY:
        raise ValueError("a login had to wait until a stranger had had its time")


def silent(manager, logins, count):
    """So many strangers who say nothing."""
    owner = Owner(manager)
    strangers = [knock(manager) for _ in range(count)]
    owner.ping()
    older, newest = strangers[: OWN - 64], strangers[OWN - 64 :]
    if not all(is_dropped(stranger, 15) for stranger in older):
        raise ValueError("an older stranger is left")
    if any(is_dropped(stranger, 0.001) for stranger in newest):
        raise ValueError("a newer stranger is dropped in the place of an older")
    logins_beside(manager, logins, 20, "the last of %d who are silent" % count)
    owner.ping()
    if not all(is_dropped(stranger, 15) for stranger in newest):
        raise ValueError("a stranger is never dropped")
    settled(manager, OWN)
    owner.ping()
    owner.close()


def few(manager, logins):
    """64 strangers who say nothing."""
    silent(manager, logins, 64)


def many(manager, logins):
    """1,000 strangers who say nothing."""
    silent(manager, logins, 1000)


def alone(manager, logins):
    """Where nobody else is there, 32 strangers are held, and the oldest of them is dropped for one more."""
    strangers = [knock(manager) for _ in range(LIMIT)]
    settled(manager, LIMIT)
    time.sleep(0.5)
    late = knock(manager)
    if not is_dropped(strangers[0], 2):
        raise ValueError("the oldest isn't dropped")
    if is_dropped(late, 0.2) or any(is_dropped(stranger, 0.001) for stranger in strangers[1:]):
        raise ValueError("another than the oldest is dropped")
    settled(manager, LIMIT)
    logins_beside(manager, logins, 20, "32 who are silent, and nobody else")
    settled(manager, LIMIT - 1)


def slow_beside(manager, logins, own, count):
    """So many strangers who send a byte a second, beside so many of the owner's. No place is wanted."""
    owner = Owner(manager, own)
    strangers = [knock(manager) for _ in range(count)]
    began, made = time.monotonic(), xsmp.set_up_parts(bytes(16))[:2]
    made = b"".join(made)
    for at in range(9):
        for stranger in strangers:
            stranger.sendall(made[at : at + 1])
        time.sleep(1)
    settled(manager, own + count)
    logins_beside(manager, logins, 20, "%d who send a byte a second" % count)
    if not all(is_dropped(stranger, 5) for stranger in strangers):
        raise ValueError("a stranger is never dropped")
    say("dropped within %.1f seconds" % (time.monotonic() - began))
    settled(manager, own)
    owner.ping()
    owner.close()
    settled(manager, 0)


def slow(manager, logins):
    """Strangers who send a byte a second are dropped after ten seconds all the same."""
    slow_beside(manager, logins, OWN, 2)
    slow_beside(manager, logins, 40, 20)


def states(manager, logins):
    """Strangers in each state of the set-up: nothing said, a part of ByteOrder, ByteOrder, a part of the
    next message, ConnectionSetup, and a part of the proof."""
    owner = Owner(manager)
    order, setup, proof = xsmp.set_up_parts(bytes(16))[:3]
    said = [b"", order[:3], order, order + setup[:5], order + setup, order + setup + proof[:9]]
    strangers = []
    for _ in range(20):
        for part in said:
            strangers.append(knock(manager))
            strangers[-1].sendall(part)
    logins_beside(manager, logins, 20, "strangers in each state")
    wrong = knock(manager)
    wrong.sendall(order + setup + proof)
    if not is_dropped(wrong, 5):
        raise ValueError("a wrong cookie lets a stranger stay")
    if not all(is_dropped(stranger, 15) for stranger in strangers):
        raise ValueError("a stranger is never dropped")
    settled(manager, OWN)
    owner.ping()
    owner.close()


def pour(path, held, waits, counter):
    """Connects as fast as it can, and holds so many connections. Where it has to wait at the door, it does, or
    tries again at once."""
    signal.signal(signal.SIGTERM, signal.SIG_DFL)
    strangers = []
    while True:
        stranger = socket.socket(socket.AF_UNIX)
        stranger.setblocking(waits)
        try:
            stranger.connect("\0" + path)
        except BlockingIOError:
            stranger.close()
            continue
        except OSError:
            return
        strangers.append(stranger)
        counter.value += 1
        if len(strangers) > held:
            strangers.pop(0).close()


def flood_of(manager, logins, text, held=500, waits=True):
    owner = Owner(manager)
    counter = multiprocessing.Value("L", 0, lock=False)
    flooder = multiprocessing.Process(target=pour, args=(manager.socket, held, waits, counter), daemon=True)
    flooder.start()
    time.sleep(1)
    came, began = counter.value, time.monotonic()
    logins_beside(manager, logins, 100, text)
    say("%.0f strangers a second" % ((counter.value - came) / (time.monotonic() - began)))
    owner.ping()
    flooder.terminate()
    flooder.join()
    owner.ping()
    settled(manager, OWN, 15)
    owner.close()


def flood(manager, logins):
    """A flood of connections as fast as one process makes them, beside 100 logins."""
    flood_of(manager, logins, "a flood of strangers who stay")


def newest_number(manager):
    """The number of a connection that comes now, by the path of the socket."""
    client = manager.join()[0]
    with socket.socket(socket.AF_UNIX) as operator:
        operator.settimeout(30)
        operator.connect(manager.control)
        operator.sendall(b"clients\n")
        answer = operator.makefile()
        lines = [answer.readline() for _ in range(int(answer.readline().split()[-1]))]
    client.close()
    return max(int(re.match(r"conn=(\d+) ", line)[1]) for line in lines)


def hasty(manager, logins):
    """The same of strangers who leave at once. They spend 32 numbers in a quarter of a second, and no more."""
    began = time.monotonic()
    flood_of(manager, logins, "a flood of strangers who leave at once", held=0)
    passed = time.monotonic() - began
    spent = newest_number(manager)
    say("%d numbers were spent in %.0f seconds" % (spent, passed))
    if spent > 300 + 32 + 128 * passed:
        raise ValueError("too many")


def eager(manager, logins):
    """The same of strangers who don't wait at the door, and try again at once."""
    flood_of(manager, logins, "a flood of strangers who don't wait", waits=False)


def cramped(manager, logins):
    """Where the system gives the manager no more descriptors, strangers make way for the owner's."""
    owner = Owner(manager)
    # Fewer than the places that are left.
    most = len(os.listdir("/proc/%d/fd" % manager.process.pid)) + 3
    resource.prlimit(manager.process.pid, resource.RLIMIT_NOFILE, (most, most))
    strangers = [knock(manager) for _ in range(20)]
    logins_beside(manager, logins, 20, "no more descriptors")
    owner.ping()
    if not all(is_dropped(stranger, 15) for stranger in strangers):
        raise ValueError("a stranger is never dropped")
    owner.ping()
    owner.close()


def limit(manager, logins):
    """The 65th of the owner's own is refused as before, and none of the 64 makes way."""
    owner = Owner(manager, 64)
    late = xsmp.Client(manager.socket)
    if not is_dropped(late.socket, 5):
        raise ValueError("a 65th is taken in")
    for _ in range(40):
        knock(manager)
    owner.ping()
    settled(manager, 64)
    owner.close()


def private(manager, logins):
    """With --private nobody comes in by the abstract name, and nobody else can take it."""
    for attempt in (knock, lambda manager: socket.socket(socket.AF_UNIX).bind("\0" + manager.socket)):
        try:
            attempt(manager)
            raise ValueError("the abstract name is open")
        except OSError:
            pass
    say(log_in(manager, logins, 3))
    settled(manager, 0)


TESTS = {it.__name__: it for it in (few, many, alone, slow, states, flood, hasty, eager, cramped, limit, private)}


def main():
    smd, room, logins, name = sys.argv[1:]
    signal.signal(signal.SIGTERM, lambda *_: sys.exit(1))
    most = resource.getrlimit(resource.RLIMIT_NOFILE)[1]
    resource.setrlimit(resource.RLIMIT_NOFILE, (min(most, 4096), most))
    manager = Manager(smd, room, ["--private"] if name == "private" else [])
    try:
        manager.start()
        TESTS[name](manager, logins)
        manager.shutdown()
    finally:
        Manager.kill_all()


if __name__ == "__main__":
    main()
