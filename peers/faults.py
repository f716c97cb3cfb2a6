#!/usr/bin/env python3
"""Each call of a real smd on its store fails once, as `strace` has it fail:
    faults.py SMD FOLDER TEST
A first run shows which calls there are. Then each of them fails in a run of its own, over the same store: smd says so and ends, and the
next smd finds the checkpoint of before or the one that was being written, and none that is older than what a client was told.
"""
import os
import re
import shutil
import signal
import sys

from calls import CALL, STRING, Calls, decoded
from manager import Manager
from traced import BROKEN, Traced

# What the system says where a call fails: a write finds no room, and any other call fails on the device.
NO_ROOM = "No space left on device (os error 28)"
WRITES = ("write", "pwrite64")
ON_STORE = ("openat", "flock", "fsync", "fdatasync", "pread64", "link", "linkat", *WRITES)
# Of so many calls of one kind between two syncs each fails; of more, as where each page is touched, the first and the last.
MANY = 20


def few_of(calls):
    return calls if len(calls) <= MANY else [calls[0], calls[-1]]


def names_in(calls, words):
    """The file that a call is about, and the others that it names."""
    found = re.match(r"\d+<((?:\\x[0-9a-f]{2})*)(?:>\(deleted\)|>)", words)
    if found:
        return [calls.name(decoded(found[1]))]
    return [calls.name(decoded(it)) for it in STRING.findall(words)]


def calls_on_store(folder, trace):
    """The calls on the store, as their name and which of this name it is: with them those on the folder while the store is opened."""
    names, counts, kinds, syncs = Calls(folder), {}, {}, 0
    is_opening = True
    with open(trace) as file:
        for line in file:
            found = CALL.match(line)
            if not found:
                continue
            call, about = found[1], names_in(names, found[2])
            counts[call] = counts.get(call, 0) + 1
            is_opening = is_opening and not any(it and it.startswith("authority") for it in about)
            if call not in ON_STORE or not about:
                continue
            if about[0] in ("store", "store.new-PID") or (about[0] == "." and is_opening):
                kinds.setdefault((syncs, call, about[0]), []).append((call, counts[call]))
                syncs += call in ("fsync", "fdatasync")
    return [it for kind in kinds.values() for it in few_of(kind)]


class Session:
    """A run over a store that lies at a path, or over none."""

    def __init__(self, smd, room, kept):
        self.smd, self.room, self.kept = smd, room, kept
        self.client = None

    def lay(self):
        """Lays the store out, and nothing else."""
        for name in os.listdir(self.room):
            os.remove(os.path.join(self.room, name))
        if self.kept:
            store = os.path.join(self.room, "store")
            shutil.copyfile(self.kept, store)
            os.chmod(store, 0o600)

    def run(self, manager):
        """Whether a client was told that its save is complete."""
        manager.start()
        if not self.kept:
            manager.order("status")
            return False
        # The client stays until the manager is killed.
        self.client, _ = manager.saved()
        return True

    def calls(self):
        self.lay()
        manager = Traced(self.smd, self.room, "whole")
        self.run(manager)
        manager.kill()
        return calls_on_store(self.room, manager.trace)

    def fails_at(self, call, when):
        """What a run comes to in which this call fails."""
        self.lay()
        error, text = ("ENOSPC", NO_ROOM) if call in WRITES else ("EIO", BROKEN)
        manager = Traced(self.smd, self.room, "faulty", "%s:error=%s:when=%d" % (call, error, when), shown=call)
        try:
            was_told = self.run(manager)
        except (OSError, ValueError, EOFError):
            was_told = False
        manager.ends(4)
        printed = manager.printed + manager.process.stdout.read()
        if not printed.endswith(b"smd: disk fault\n"):
            raise ValueError("smd printed %r" % printed)
        self.expect_said(manager, text)
        left = [name for name in os.listdir(self.room) if ".new-" in name]
        if left:
            raise ValueError("left behind: %r" % left)
        self.expect_next(was_told)

    def expect_said(self, manager, text):
        """One line names the store, and ends with what the system said."""
        with open(manager.said) as file:
            said = file.read()
        if not re.fullmatch(r"smd: cannot (use|read|write|sync) %s: %s\n" % tuple(map(re.escape, (manager.store, text))), said):
            raise ValueError("smd said %r, and not what the system did: %s" % (said, text))

    def expect_next(self, was_told):
        """What the next smd finds: a session of before was left with one record and the epoch 1."""
        manager = Manager(self.smd, self.room)
        manager.start()
        found = re.fullmatch(r"connections 0, records (\d), pending 0, epoch (\d), idle", manager.order("status"))
        manager.kill()
        if not found:
            raise ValueError("the next smd is in another state")
        records, epoch = int(found[1]), int(found[2])
        wanted = ([1, 2], [2, 3]) if self.kept else ([0], [1, 2])
        if records not in wanted[0] or epoch not in wanted[1] or (was_told and records != 2):
            raise ValueError("the next smd has %d records in epoch %d" % (records, epoch))


def each_call(session, least):
    calls = session.calls()
    if len(calls) < least:
        raise ValueError("there are only these calls: %r" % calls)
    for call, when in calls:
        try:
            session.fails_at(call, when)
        except Exception as error:
            raise ValueError("where %s fails for time %d" % (call, when)) from error


def kept_store(smd, room):
    """A store with one record, beside the room."""
    manager = Manager(smd, room)
    manager.start()
    manager.saved()
    manager.kill()
    kept = room + ".kept"
    shutil.copyfile(manager.store, kept)
    return kept


def first_session(smd, room):
    """Where a call fails by which a store is made, opened or gets its first checkpoint."""
    each_call(Session(smd, room, None), 20)


def later_session(smd, room):
    """Where a call fails by which a store is opened or read, or by which a checkpoint is appended."""
    each_call(Session(smd, room, kept_store(smd, room)), 20)


def replaced_store(smd, room):
    """A store that is replaced while it is opened isn't taken."""
    kept = kept_store(smd, room)
    Session(smd, room, kept).lay()
    manager = Traced(smd, room, "replaced", "flock:signal=SIGSTOP:when=1")
    manager.begin()
    manager.until_stopped()
    shutil.copyfile(kept, manager.store + ".other")
    os.chmod(manager.store + ".other", 0o600)
    os.rename(manager.store + ".other", manager.store)
    manager.goes_on()
    manager.ends(4)
    manager.expect_said("smd: cannot use %s: it was replaced meanwhile\n" % manager.store)


def name_taken(smd, room):
    """A store that comes to be while one is made is opened, and stays."""
    kept = kept_store(smd, room)
    Session(smd, room, None).lay()
    manager = Traced(smd, room, "taken", "fsync:signal=SIGSTOP:when=1")
    manager.begin()
    manager.until_stopped()
    shutil.copyfile(kept, manager.store)
    os.chmod(manager.store, 0o600)
    manager.goes_on()
    manager.listens()
    manager.expect("status", "connections 0, records 1, pending 0, epoch 2, idle")
    manager.shutdown()


TESTS = {it.__name__: it for it in (first_session, later_session, replaced_store, name_taken)}


def main():
    smd, room, name = sys.argv[1:]
    signal.signal(signal.SIGTERM, lambda *_: sys.exit(1))
    try:
        TESTS[name](smd, os.path.realpath(room))
    finally:
        Manager.kill_all()


if __name__ == "__main__":
    main()
