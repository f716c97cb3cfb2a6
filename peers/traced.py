#!/usr/bin/env python3
"""The calls of a real smd on its store, its authority file, their folder and its sockets, as `strace` shows
them:
    traced.py SMD FOLDER TEST
Each test runs managers of its own in the folder. It ends with 0 where all was as it has to be.
"""
import difflib
import os
import signal
import struct
import sys
import time

from calls import calls_of
from manager import Manager

# What the system says of a device that fails.
BROKEN = "Input/output error (os error 5)"

SHOWN = (
    "open,openat,creat,flock,fsync,fdatasync,read,write,pread64,pwrite64,ftruncate,truncate,link,linkat,"
    "rename,renameat,renameat2,unlink,unlinkat,fchmod,bind,sendto"
)

MADE = """make store.new-PID
write store.new-PID 16777280 bytes at 0
sync store.new-PID
link store.new-PID store
unlink store.new-PID
"""

LOCKED = """open store
lock store
"""

# A byte of each page of a store is written as it was read.
PAGES = 4097
TOUCHED = LOCKED + "touch store %d pages\n" % PAGES

SYNCED = """sync store
open .
sync .
"""

# Whoever opens a store locks it, and brings it and its name to the disk before anything is read. It is read once for the priorities of
# the programs, before anybody can connect, and once more by the session.
TAKEN = TOUCHED + SYNCED

# No other living smd may have replaced the file.
PUBLISHED = """make authority.lock
lock authority.lock
make authority.new-PID
write authority.new-PID all bytes
sync authority.new-PID
rename authority.new-PID authority
open .
sync .
"""

LISTENING = """bind @socket
mode 0600 of a socket
bind socket
mode 0600 of a socket
bind control
"""

CLOSED = """unlink socket
unlink control
"""


def commit(gate, slot, count):
    """The other slot's gate is closed, the slot is filled, and the gate is opened, each on the disk before the next."""
    return (
        "write store 1 bytes at %d\nsync store\nwrite store %d bytes at %d\nsync store\n"
        "write store 1 bytes at %d\nsync store\n" % (gate, count, slot, gate)
    )


def append(gate, size):
    """Changes of this size are written behind a gate, with their head and the next gate, and then the gate is opened, each on the disk
    before the next."""
    return "write store %d bytes at %d\nsync store\nwrite store 1 bytes at %d\nsync store\n" % (size + 8, gate + 1, gate)


GATES = "read store 1 bytes at 0\nread store 1 bytes at 32\n"

# An epoch begins with a commit, and the order that ends the session has one too, which changes nothing.
FIRST_SESSION = GATES + commit(0, 64, 40) + append(96, 0)

GATES_AND_SLOT = GATES + "read store 12 bytes at 64\nread store 8388592 bytes at 80\n"

# The next epoch, and the end of its session.
NEXT_SESSION = append(104, 8) + append(120, 0)

# The client is told that its save is complete once it is on the disk; its entry is put with the name of its session. It has gone when the
# session ends.
SAVING = append(104, 8) + append(120, 168) + "send SaveComplete\n" + append(296, 40)


class Traced(Manager):
    """A manager under strace, which can have calls fail, do less, or stop smd."""

    def __init__(self, smd, room, name, *faults, options=(), shown=SHOWN):
        super().__init__(smd, room, options)
        self.shown = shown
        self.room, self.trace, self.faults = room, os.path.join(room, name + ".trace"), faults
        # Beside the room, whose files are looked at.
        self.said = "%s.%s.said" % (room, name)

    def errors(self):
        return open(self.said, "wb")

    def expect_said(self, wanted):
        """What smd said on standard error, line by line."""
        with open(self.said) as file:
            found = file.read()
        if found != wanted:
            raise ValueError("smd said %r, and not %r" % (found, wanted))

    def take_places(self, other):
        """Has another's store, and other places for all else."""
        self.store = other.store
        self.socket, self.control, self.authority = [it + "-2" for it in (other.socket, other.control, other.authority)]

    def until_stopped(self):
        for _ in range(1500):
            if os.path.exists(self.trace):
                with open(self.trace) as file:
                    if "--- stopped by SIGSTOP ---" in file.read():
                        return
            time.sleep(0.02)
        raise TimeoutError("smd wasn't stopped")

    def goes_on(self):
        self.process.send_signal(signal.SIGCONT)

    def words(self):
        faults = [word for fault in self.faults for word in ("-e", "inject=" + fault)]
        # The tracer stands aside, so that smd is our own child.
        return ["strace", "-D", "-y", "-xx", "-s", "120", "-o", self.trace, "-e", "trace=" + self.shown, *faults, self.smd]

    def ends(self, status, seconds=30):
        found = self.process.wait(seconds)
        if found != status:
            raise ValueError("smd ended with %d, not with %d" % (found, status))

    def whole_trace(self):
        for _ in range(500):
            with open(self.trace) as file:
                if "+++ exited" in file.read():
                    return
            time.sleep(0.02)
        raise TimeoutError("the trace has no end")

    def calls(self):
        self.whole_trace()
        network = "local/%s:%s" % (os.uname().nodename, self.socket)
        # Two entries of five fields, each behind its length: protocol, nothing, network, name, cookie.
        size = sum(10 + len(it) + len(network) + 18 + 16 for it in ("ICE", "XSMP"))
        all_of_it = "write authority.new-PID %d bytes at 0" % size
        return [it.replace(all_of_it, "write authority.new-PID all bytes") for it in calls_of(self.room, self.trace)]

    def expect_calls(self, *parts):
        found, wanted = self.calls(), "".join(parts).splitlines()
        if found != wanted:
            print(*difflib.unified_diff(wanted, found, "as it has to be", "as it was", lineterm=""), sep="\n")
            raise ValueError("other calls in " + self.trace)


def first_start(smd, room):
    """A start without a store, and its end."""
    manager = Traced(smd, room, "first")
    manager.start()
    manager.shutdown()
    manager.expect_calls(MADE, TAKEN, GATES, PUBLISHED, LISTENING, FIRST_SESSION, CLOSED)


def make_store(smd, room):
    """A store whose first session is over."""
    manager = Manager(smd, room)
    manager.start()
    manager.shutdown()


def one_round(smd, room, *faults):
    """A start over a store, and a client that saves once."""
    make_store(smd, room)
    manager = Traced(smd, room, "round", *faults)
    manager.start()
    client, _ = manager.saved()
    client.close()
    manager.shutdown()
    manager.expect_calls(TAKEN, GATES_AND_SLOT, PUBLISHED, LISTENING, GATES_AND_SLOT, SAVING, CLOSED)


def short_writes(smd, room):
    """Where the system takes a part of a write, the rest is written behind it."""
    one_round(smd, room, *["pwrite64:retval=%d:when=%d" % (taken, PAGES + number) for taken, number in ((1, 1), (100, 3))])


def short_publishing(smd, room):
    """The same in the authority file. The tracer has swallowed a part, so nobody could join."""
    make_store(smd, room)
    manager = Traced(smd, room, "short", "write:retval=7:when=1")
    manager.start()
    manager.shutdown()
    manager.expect_calls(TAKEN, GATES_AND_SLOT, PUBLISHED, LISTENING, GATES_AND_SLOT, NEXT_SESSION, CLOSED)


def short_making(smd, room):
    """The same where the store is made. The tracer has swallowed a part, so the store is too short."""
    manager = Traced(smd, room, "short", "write:retval=100:when=3")
    manager.begin()
    manager.ends(3)
    # What has another size than a store stays as it is.
    manager.expect_calls(MADE, LOCKED, SYNCED, PUBLISHED, LISTENING, CLOSED)


def taken_store(smd, room):
    """A second smd on a store tries its lock for two seconds, and does nothing more."""
    first = Manager(smd, room)
    first.start()
    second = Traced(smd, room, "second")
    second.socket, second.control, second.authority = [it + "-2" for it in (first.socket, first.control, first.authority)]
    began = time.monotonic()
    second.begin()
    second.ends(4)
    if time.monotonic() - began < 2:
        raise ValueError("it gave up at once")
    second.expect_calls("open store\nrefused: flock\n")
    second.expect_said("smd: cannot use %s: another session manager has it\n" % first.store)
    first.shutdown()


def held_authority(smd, room):
    """A second smd doesn't replace the authority file of one that lives, and takes it once that one was killed."""
    first, second = Manager(smd, room), Manager(smd, room)
    first.start()
    with open(first.authority, "rb") as file:
        entries = file.read()
    second.socket, second.control, second.store = [it + "-2" for it in (first.socket, first.control, first.store)]
    second.begin()
    if second.process.wait(30) != 4:
        raise ValueError("it ended with %d" % second.process.returncode)
    with open(first.authority, "rb") as file:
        if file.read() != entries:
            raise ValueError("the file was replaced")
    first.saved()
    first.kill()
    second.start()
    second.saved()
    second.shutdown()


def late_record(smd, room):
    """The book of a record is the one that was opened, also where it was written while the store was waited for."""
    first = Manager(smd, room)
    first.start()
    record = os.path.join(room, "record")
    second = Traced(smd, room, "second", "flock:signal=SIGSTOP:when=1", options=("--record", record))
    second.take_places(first)
    second.begin()
    # It has found the store locked.
    second.until_stopped()
    if os.path.exists(record):
        raise ValueError("the record was made before the store was taken")
    client, _ = first.saved()
    first.kill()
    client.socket.close()
    second.goes_on()
    second.listens()
    second.expect("status", "connections 0, records 1, pending 0, epoch 2, idle")
    second.shutdown()
    with open(record) as file:
        book = bytes.fromhex(file.read().split("\n")[1].removeprefix("book "))
    # The format, the epoch, and how many sessions and pending commands there are.
    if struct.unpack_from("<IIII", book) != (2, 1, 1, 0):
        raise ValueError("the record begins with another book: %r" % book[:16])


def one_place(smd, room):
    """An smd two of whose places are one does nothing at all."""
    for name in ("control", "store", "authority"):
        for other in ("socket", "control", "store"):
            if name == other:
                continue
            manager = Traced(smd, room, name + "-" + other)
            setattr(manager, name, getattr(manager, other))
            manager.begin()
            manager.ends(4 if {name, other} == {"store", "authority"} else 5)
            manager.expect_calls("")


def bad_socket(smd, room):
    """An smd that can't listen at its socket's path does nothing at all."""
    for number, path in enumerate(("socket", "/run/a:b", "/run/a,b", "/" + 107 * "a")):
        manager = Traced(smd, room, "bad-%d" % number)
        manager.socket = path
        manager.begin()
        manager.ends(5)
        manager.expect_calls("")


def failed_opening(smd, room):
    """A store that can't be synced at its opening isn't read."""
    make_store(smd, room)
    manager = Traced(smd, room, "opening", "fsync:error=EIO:when=1")
    manager.begin()
    manager.ends(4)
    manager.expect_calls(TOUCHED, "refused: fsync\n")
    manager.expect_said("smd: cannot use %s: %s\n" % (manager.store, BROKEN))


def failed_sync(smd, room):
    """Behind a sync that failed nothing is written, read or synced."""
    manager = Traced(smd, room, "sync", "fdatasync:error=EIO:when=2")
    manager.begin()
    manager.ends(4)
    session = FIRST_SESSION.splitlines(keepends=True)[:5] + ["refused: fdatasync\n"]
    manager.expect_calls(MADE, TAKEN, GATES, PUBLISHED, LISTENING, *session, CLOSED)
    manager.expect_said("smd: cannot sync %s: %s\n" % (manager.store, BROKEN))


def no_hard_links(smd, room):
    """On a file system without hard links no store is made, and nothing is left."""
    manager = Traced(smd, room, "links", "link,linkat:error=EPERM")
    manager.begin()
    manager.ends(4)
    made = MADE.replace("link store.new-PID store", "refused: link", 1)
    manager.expect_calls(made)
    left = sorted(os.listdir(room))
    if left != ["links.trace"]:
        raise ValueError("left behind: %r" % left)


TESTS = {
    it.__name__: it
    for it in (first_start, one_round, short_writes, short_publishing, short_making, taken_store, held_authority, late_record, one_place, bad_socket,
               failed_opening, failed_sync, no_hard_links)
}


def main():
    smd, room, name = sys.argv[1:]
    signal.signal(signal.SIGTERM, lambda *_: sys.exit(1))
    try:
        TESTS[name](smd, os.path.realpath(room))
    finally:
        Manager.kill_all()


if __name__ == "__main__":
    main()
