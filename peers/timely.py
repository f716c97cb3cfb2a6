#!/usr/bin/env python3
"""How a real smd tells the time to those who wait for it:
    timely.py SMD FOLDER TEST
Each test runs managers of its own in the folder, some of them under `strace`, which delays their syncs or shows all that
they ask of the system. It ends with 0 where nobody was closed too soon, and who is idle sleeps. No test has an end by which
somebody must be closed: beside a load that comes later.
"""
import os
import signal
import sys
import time

import xsmp
from called_off import call_off, checkpoint
from manager import Manager
from starts import Heard
from traced import Traced

# In seconds: a patience, how long whoever was told to die may stay, and how long a stranger may.
PATIENCE, LAST_WAIT, STRANGE = 2.0, 1.5, 10.0
# A save of its own that a client asks for.
OWN_SAVE = bytes([1, 0, 0, 0, 0])
# For so long nothing is asked of the system by who is idle, and so long it may take until he is.
IDLE, SETTLED, MOST = 10.0, 3.0, 60.0


def say(*words):
    print("  ", *words, flush=True)


def milliseconds(seconds):
    return str(round(seconds * 1000))


def expect_end(client, began, least, what):
    """Waits for the end of a client's stream, which comes so many seconds after that moment at the soonest."""
    try:
        found = client.next()
    except (EOFError, ConnectionError):
        took = time.monotonic() - began
        if took < least:
            raise ValueError("%s was closed %.3f seconds after it could be, and not %.1f" % (what, took, least)) from None
        say("%s was closed after %.3f seconds, of which it had %.1f" % (what, took, least))
        return
    raise ValueError("%s was told %r" % (what, found))


def silent(smd, room):
    """Eight clients that say nothing to a SaveYourself have the whole patience, whenever they were asked."""
    manager = Manager(smd, room, ["--patience", milliseconds(PATIENCE)])
    manager.start()
    for phase in range(4):
        clients = [manager.saved()[0] for _ in range(8)]
        time.sleep(0.07 * phase)
        began = time.monotonic()
        manager.expect("checkpoint", "ok")
        for client in clients:
            client.expect(xsmp.SAVE)
        for client in clients:
            expect_end(client, began, PATIENCE, "a silent client")
    manager.shutdown()


def talk_until_end(quiet, others, began):
    """Others set properties again and again until the stream of one has ended that says nothing."""
    quiet.socket.settimeout(0.15)
    while time.monotonic() - began < MOST:
        for other in others:
            other.set(b"Mood", b"ARRAY8", [b"busy"])
        try:
            return expect_end(quiet, began, PATIENCE, "the silent client")
        except TimeoutError:
            pass
    raise TimeoutError("nobody is closed")


def beside(smd, room):
    """The same beside one that talks again and again while it is waited for, and one that isn't waited for."""
    manager = Manager(smd, room, ["--patience", milliseconds(PATIENCE)])
    manager.start()
    talking, other = [manager.saved()[0] for _ in range(2)]
    for phase in range(4):
        quiet, _ = manager.saved()
        time.sleep(0.07 * phase)
        began = time.monotonic()
        manager.expect("checkpoint", "ok")
        for client in (quiet, talking, other):
            client.expect(xsmp.SAVE)
        xsmp.save(other, [b"true"])
        talk_until_end(quiet, (talking, other), began)
        xsmp.save(talking, [b"true"])
        for client in (talking, other):
            client.expect(xsmp.COMPLETE)
    for client in (talking, other):
        client.close()
    manager.shutdown()


def syncs_of(manager):
    """How many syncs of the store a traced manager has asked for so far."""
    with open(manager.trace) as file:
        return file.read().count("fdatasync(")


def delayed_run(smd, room, name, options, prepare, seconds):
    """A traced manager and what it was prepared for, whose next sync takes so many seconds. How many come before is seen in a run
    of its own."""
    first = Traced(smd, os.path.join(room, "first"), name)
    second = Traced(smd, os.path.join(room, "second"), name)
    for manager in (first, second):
        os.makedirs(manager.room, exist_ok=True)
        manager.options = options
    first.start()
    prepare(first)
    number = syncs_of(first) + 1
    first.kill()
    second.faults = ["fdatasync:delay_enter=%d:when=%d" % (seconds * 1e6, number)]
    second.start()
    return second, prepare(second)


def two_asking(manager):
    """Two clients, of which the first was asked to save itself, and the second will be behind it."""
    first, second = [manager.saved()[0] for _ in range(2)]
    first.say(xsmp.REQUEST, OWN_SAVE)
    first.expect(xsmp.SAVE)
    second.say(xsmp.REQUEST, OWN_SAVE)
    second.ping()
    return first, second


def delayed(smd, room):
    """A slow disk is nobody's silence: who is asked behind a commit has the whole patience from then on."""
    for seconds in (0.7, PATIENCE):
        options = ["--patience", milliseconds(PATIENCE)]
        at = os.path.join(room, milliseconds(seconds))
        manager, (first, second) = delayed_run(smd, at, "delayed", options, two_asking, seconds)
        began = time.monotonic()
        xsmp.save(first, [b"true"])
        first.expect(xsmp.COMPLETE)
        second.expect(xsmp.SAVE)
        expect_end(second, began + seconds, PATIENCE, "a client that was asked behind a slow sync")
        first.close()
        manager.shutdown()


def stop(manager, seconds, act):
    """Stops smd for so long, and does something meanwhile."""
    os.kill(manager.process.pid, signal.SIGSTOP)
    act()
    time.sleep(seconds)
    os.kill(manager.process.pid, signal.SIGCONT)


def stopped(smd, room):
    """Who has answered while smd stood still is heard: a SaveYourself, and Die."""
    manager = Heard(smd, room)
    manager.options = ["--patience", milliseconds(PATIENCE), "--last-wait", milliseconds(LAST_WAIT)]
    manager.start()
    client, _ = manager.saved()
    manager.expect("checkpoint", "ok")
    client.expect(xsmp.SAVE)
    stop(manager, 2 * PATIENCE, lambda: xsmp.save(client, [b"true"]))
    client.expect(xsmp.COMPLETE)
    manager.expect("shutdown", "ok")
    client.expect(xsmp.SAVE)
    xsmp.save(client, [b"true"])
    client.expect(xsmp.DIE)
    stop(manager, 2 * LAST_WAIT, client.close)
    status = manager.process.wait(30)
    if status or manager.has_said():
        raise ValueError("smd ended with %d, and said %r" % (status, manager.has_said()))


def strange(smd, room):
    """Who has shown the cookie while smd stood still comes in."""
    manager = Manager(smd, room)
    manager.start()
    client = xsmp.Client(manager.socket)
    manager.expect("status", "connections 1, records 0, pending 0, epoch 1, idle")
    cookie = xsmp.cookie_at(manager.authority, manager.socket)
    stop(manager, STRANGE + 2, lambda: [client.send(it) for it in xsmp.set_up_parts(cookie)])
    client.expect_order()
    for minor in (xsmp.REQUIRED, xsmp.CONNECTED, xsmp.REQUIRED, xsmp.PROTOCOL_REPLY):
        client.expect(minor, 0)
    client.register()
    client.close()
    manager.shutdown()


def one_leaving(manager):
    """A client that was asked to save itself in a logout."""
    client, _ = manager.saved()
    manager.expect("shutdown", "ok")
    client.expect(xsmp.SAVE)
    return client


def lasting(smd, room):
    """Whoever was told to die behind a slow commit has the whole last wait from then on."""
    options = ["--last-wait", milliseconds(LAST_WAIT)]
    manager, client = delayed_run(smd, room, "lasting", options, one_leaving, 1)
    began = time.monotonic()
    xsmp.save(client, [b"true"])
    client.expect(xsmp.DIE)
    expect_end(client, began + 1, LAST_WAIT, "a client that was told to die behind a slow sync")
    manager.ends(0)


class Watched(Manager):
    """A manager of which all is shown that it asks of the system."""

    def __init__(self, smd, room, *options):
        super().__init__(smd, room, options)
        self.trace = os.path.join(room, "trace")

    def words(self):
        return ["strace", "-D", "-o", self.trace, self.smd]

    def calls(self):
        with open(self.trace) as file:
            return file.read().splitlines()


def settle(managers):
    """Waits until each has asked nothing of the system for a while."""
    until, since, seen = time.monotonic() + MOST, time.monotonic(), None
    while time.monotonic() - since < SETTLED:
        if time.monotonic() > until:
            raise TimeoutError("somebody asks on: %s" % managers[0].calls()[-3:])
        time.sleep(0.1)
        found = [len(manager.calls()) for manager in managers]
        if found != seen:
            since, seen = time.monotonic(), found
    return seen


def forgiven(manager, clients):
    """Those who are asked again behind a logout that was called off and that nobody answers, if all are answered for, as `--quirks`
    does two seconds later: those who waited for the second phase. Without it all are."""
    if "--quirks" not in manager.options:
        return clients
    manager.expect("shutdown", "ok")
    for client in clients:
        client.expect(xsmp.SAVE)
    for client in clients[1:]:
        client.say(xsmp.ASK_TWO)
        client.ping()
    call_off(manager, clients)
    return clients[1:]


def idle(smd, room):
    """With eight clients of whom nobody is waited for, smd asks nothing of the system, whatever its options. It sleeps too where
    they were answered for."""
    record = ["--record", os.path.join(room, "trace.record")]
    patience = ["--patience", "20000", "--last-wait", "1000"]
    managers = []
    for number, options in enumerate(([], patience, ["--quirks"], record, ["--quirks", *patience])):
        at = os.path.join(room, str(number))
        os.makedirs(at)
        managers.append(Watched(smd, at, *options))
    for manager in managers:
        manager.start()
    clients = [[manager.saved()[0] for _ in range(8)] for manager in managers]
    asked = [forgiven(manager, its) for manager, its in zip(managers, clients)]
    before = settle(managers)
    time.sleep(IDLE)
    for manager, count in zip(managers, before):
        more = manager.calls()[count:]
        if more:
            raise ValueError("%s was idle for %d seconds, and asked %r" % (manager.options, IDLE, more))
    for manager, its, again in zip(managers, clients, asked):
        checkpoint(manager, again)
        for client in its:
            client.close()
        manager.shutdown()


TESTS = {it.__name__: it for it in (silent, beside, delayed, stopped, strange, lasting, idle)}


def main():
    smd, room, name = sys.argv[1:]
    signal.signal(signal.SIGTERM, lambda *_: sys.exit(1))
    try:
        TESTS[name](smd, os.path.realpath(room))
    finally:
        Manager.kill_all()


if __name__ == "__main__":
    main()
