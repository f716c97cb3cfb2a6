#!/usr/bin/env python3
"""Logouts that are called off before all clients have answered, with `smd serve --quirks`:
    called_off.py SMD FOLDER TEST
The clients do what programs were seen to do: one waits for the second phase and never answers, one keeps its dialog open,
one answers late, one leaves as soon as it has saved, before its logout is called off or behind that. It ends with 0 where
saves go on without them, nobody is closed, they save with the others again, and who has left is started again and keeps its
record and its state.
"""
import os
import signal
import sys
import time

import xsmp
from manager import Manager

PATIENCE = 3000
NORMAL = 1


def pong(client):
    client.send(xsmp.message(0, xsmp.PONG))


def asked(client):
    """Waits for a SaveYourself, which may come behind a Ping."""
    major, minor = client.next()[:2]
    if (major, minor) == (0, xsmp.PING):
        pong(client)
        major, minor = client.next()[:2]
    if (major, minor) != (xsmp.OPCODE, xsmp.SAVE):
        raise ValueError("expected a SaveYourself, got %d of %d" % (minor, major))


def saves(client):
    asked(client)
    xsmp.save(client, [b"true"])


def checkpoint(manager, clients):
    """These clients save, and no other is waited for."""
    manager.expect("checkpoint", "ok")
    for client in clients:
        saves(client)
    for client in clients:
        client.expect(xsmp.COMPLETE)


def call_off(manager, clients):
    manager.expect("cancel", "ok")
    for client in clients:
        client.expect(xsmp.CANCELLED)


def logs_out(manager, clients):
    """The logout is agreed by these, and the session ends."""
    manager.expect("shutdown", "ok")
    for client in clients:
        saves(client)
    for client in clients:
        client.expect(xsmp.DIE)
    for client in clients:
        client.close()
    if manager.process.wait(30):
        raise ValueError("smd ended otherwise")


def waits_for_the_others(client):
    """What openbox does: it saves behind the others, and doesn't answer a ShutdownCancelled."""
    asked(client)
    client.say(xsmp.ASK_TWO)


def talks(client):
    """What FeatherPad does with unsaved text: its dialog stands open."""
    asked(client)
    client.say(xsmp.ASK_TALK, second=NORMAL)
    client.expect(xsmp.TALK)


def never_answers(manager):
    """One that waited for the second phase says nothing to a ShutdownCancelled, whenever there is one."""
    silent, other = manager.saved()[0], manager.saved()[0]
    for _ in range(2):
        manager.expect("shutdown", "ok")
        waits_for_the_others(silent)
        asked(other)
        call_off(manager, [silent, other])
        other.say(xsmp.SAVED)
        checkpoint(manager, [silent, other])
    logs_out(manager, [silent, other])


def never_asks_again(manager):
    """One that waited for the token says nothing to a ShutdownCancelled, and talks in the next logout."""
    silent, other = manager.saved()[0], manager.saved()[0]
    manager.expect("shutdown", "ok")
    talks(other)
    asked(silent)
    silent.say(xsmp.ASK_TALK, second=NORMAL)
    other.say(xsmp.TALKED, second=1)
    for client in (silent, other):
        client.expect(xsmp.CANCELLED)
    other.say(xsmp.SAVED)
    checkpoint(manager, [silent, other])
    manager.expect("shutdown", "ok")
    talks(silent)
    silent.say(xsmp.TALKED)
    saves(other)
    xsmp.save(silent, [b"true"])
    for client in (silent, other):
        client.expect(xsmp.DIE)


def in_a_dialog(manager):
    """A talking client and another one, behind a logout that was called off while the dialog stood."""
    talking, other = manager.saved()[0], manager.saved()[0]
    manager.expect("shutdown", "ok")
    talks(talking)
    saves(other)
    call_off(manager, [talking, other])
    return talking, other


def dialog_stands(manager):
    """Its dialog stays open behind a logout that was called off: saves go on without it, and it isn't closed. It is asked
    anew once its user has answered."""
    talking, other = in_a_dialog(manager)
    for _ in range(2):
        checkpoint(manager, [other])
    time.sleep(2 * PATIENCE / 1000)
    checkpoint(manager, [other])
    talking.ping()
    talking.say(xsmp.SAVED)
    checkpoint(manager, [talking, other])
    logs_out(manager, [talking, other])


def dialog_in_a_new_logout(manager):
    """A new logout waits for the dialog of the old one, for longer than the patience; once that is over, the client is
    asked, and its user can cancel this one."""
    talking, other = in_a_dialog(manager)
    manager.expect("shutdown", "ok")
    saves(other)
    time.sleep(2 * PATIENCE / 1000)
    talking.ping()
    talking.say(xsmp.SAVED)
    talks(talking)
    talking.say(xsmp.TALKED, second=1)
    for client in (talking, other):
        client.expect(xsmp.CANCELLED)
    talking.say(xsmp.SAVED)
    checkpoint(manager, [talking, other])


def twice(manager):
    """Two logouts are called off in a row while the dialog stands; of the second one its client hears nothing."""
    talking, other = in_a_dialog(manager)
    manager.expect("shutdown", "ok")
    saves(other)
    call_off(manager, [other])
    talking.ping()
    checkpoint(manager, [other])
    talking.say(xsmp.SAVED)
    checkpoint(manager, [talking, other])


def answers_late(manager):
    """One that saves for long isn't waited for in a checkpoint behind the logout that was called off, and its late answer
    isn't taken for one to a later save."""
    slow, other = manager.saved()[0], manager.saved()[0]
    manager.expect("shutdown", "ok")
    asked(slow)
    saves(other)
    call_off(manager, [slow, other])
    checkpoint(manager, [other])
    slow.ping()
    slow.say(xsmp.SAVED, second=1)
    checkpoint(manager, [slow, other])
    logs_out(manager, [slow, other])


def answers_in_a_row(manager):
    """One that was stopped answers two saves in a row, of which the first was called off: the first answer isn't taken
    for one to the second save."""
    stopped, other = manager.saved()[0], manager.saved()[0]
    manager.expect("shutdown", "ok")
    waits_for_the_others(stopped)
    asked(other)
    call_off(manager, [stopped, other])
    other.say(xsmp.SAVED)
    manager.expect("checkpoint", "ok")
    saves(other)
    stopped.expect(xsmp.PING, 0)
    stopped.expect(xsmp.SAVE)
    stopped.say(xsmp.SAVED, second=1)
    pong(stopped)
    # Nobody is told that the save is complete.
    stopped.ping()
    other.ping()
    xsmp.save(stopped, [b"true"])
    for client in (stopped, other):
        client.expect(xsmp.COMPLETE)


def within(seconds, holds):
    end = time.monotonic() + seconds
    while not holds():
        if time.monotonic() > end:
            raise ValueError("not within %d seconds" % seconds)
        time.sleep(0.02)


class Early:
    """A program that leaves as soon as it has saved, as those on Qt 5 do, and is started again by a command that leaves a
    file. Each state has a DiscardCommand that leaves another one."""

    def __init__(self, manager):
        self.manager, self.states = manager, 0
        self.room = os.path.dirname(manager.store)
        self.client, self.own = manager.join()
        asked(self.client)
        self.save()
        self.client.expect(xsmp.COMPLETE)

    def file(self, name):
        return os.path.join(self.room, name)

    def save(self):
        self.states += 1
        self.client.set_command(b"DiscardCommand", [b"touch", os.fsencode(self.file("discarded-%d" % self.states))])
        xsmp.save(self.client, [b"touch", os.fsencode(self.file("started"))])

    def leave(self):
        """It is asked, and leaves once it has saved."""
        asked(self.client)
        self.save()
        self.close()

    def close(self):
        self.client.close()

    def leave_at_once(self):
        """It says that it has saved and closes, in one write."""
        parts, client = [], self.client
        client.send = parts.append
        self.save()
        del client.send
        client.send(b"".join(parts) + xsmp.message(xsmp.OPCODE, xsmp.CLOSED, xsmp.many([])))
        client.socket.close()

    def was_started(self):
        return os.path.exists(self.file("started"))

    def has_discarded(self, state):
        return os.path.exists(self.file("discarded-%d" % state))

    def come_back(self):
        """It was started again, and has its ID and the state that it saved."""
        within(20, self.was_started)
        os.remove(self.file("started"))
        self.client, own = self.manager.join(self.own)
        if own != self.own:
            raise ValueError("it has another ID")
        kept = b"discarded-%d" % self.states
        if not self.client.properties()[b"DiscardCommand"][-1].endswith(kept):
            raise ValueError("its last state isn't that of its record")
        if self.has_discarded(self.states):
            raise ValueError("its last state was discarded")


def leaves_early(manager):
    """One that left is started again, while another program joins, and keeps its record and its state; twice."""
    early, other = Early(manager), manager.saved()[0]
    others = [other]
    for _ in range(2):
        manager.expect("shutdown", "ok")
        early.leave()
        for client in others:
            asked(client)
        call_off(manager, others)
        for client in others:
            client.say(xsmp.SAVED)
        others.append(manager.saved()[0])
        early.come_back()
        checkpoint(manager, [early.client, *others])
    logs_out(manager, [early.client, *others])


def leaves_before_a_checkpoint(manager):
    """Right behind the logout that was called off a checkpoint goes through with the one that has left."""
    early, other = Early(manager), manager.saved()[0]
    manager.expect("shutdown", "ok")
    early.leave()
    asked(other)
    call_off(manager, [other])
    other.say(xsmp.SAVED)
    checkpoint(manager, [other])
    early.come_back()
    checkpoint(manager, [early.client, other])


def leaves_before_a_logout(manager):
    """So does a new logout, and at the next login it is started again."""
    early, other = Early(manager), manager.saved()[0]
    manager.expect("shutdown", "ok")
    early.leave()
    asked(other)
    call_off(manager, [other])
    other.say(xsmp.SAVED)
    logs_out(manager, [other])
    if early.was_started() or early.has_discarded(early.states):
        raise ValueError("it was started in the logout, or its state was discarded")
    manager.start()
    early.come_back()


def comes_back(manager, early, others):
    """Another program joins and saves first; who has left is started again, and all are saved and log out."""
    others.append(manager.saved()[0])
    early.come_back()
    checkpoint(manager, [early.client, *others])
    logs_out(manager, [early.client, *others])


def leaves_behind_a_logout(manager):
    """One leaves that has saved, and doesn't hear in time that its logout is called off."""
    early, other = Early(manager), manager.saved()[0]
    manager.expect("shutdown", "ok")
    asked(early.client)
    early.save()
    early.client.ping()
    asked(other)
    call_off(manager, [other])
    early.close()
    other.say(xsmp.SAVED)
    comes_back(manager, early, [other])


def saves_behind_a_logout(manager):
    """One says that it has saved and leaves, and doesn't hear in time that its logout is called off."""
    early, other = Early(manager), manager.saved()[0]
    manager.expect("shutdown", "ok")
    asked(early.client)
    asked(other)
    call_off(manager, [other])
    early.leave_at_once()
    other.say(xsmp.SAVED)
    comes_back(manager, early, [other])


def leaves_its_dialog(manager):
    """The dialog of a logout that was called off is answered, and its program leaves a session that stays."""
    early, other = Early(manager), manager.saved()[0]
    manager.expect("shutdown", "ok")
    talks(early.client)
    saves(other)
    call_off(manager, [early.client, other])
    checkpoint(manager, [other])
    early.leave_at_once()
    comes_back(manager, early, [other])


def leaves_into_a_checkpoint(manager):
    """It leaves while a checkpoint waits for it: that keeps what it has saved."""
    early, other = Early(manager), manager.saved()[0]
    manager.expect("shutdown", "ok")
    asked(early.client)
    early.save()
    early.client.ping()
    asked(other)
    call_off(manager, [other])
    other.say(xsmp.SAVED)
    manager.expect("checkpoint", "ok")
    saves(other)
    early.close()
    other.expect(xsmp.COMPLETE)
    comes_back(manager, early, [other])


def leaves_into_a_logout(manager):
    """A new logout waits for its dialog, which is answered: the logout goes through, and the next login starts it."""
    early, other = Early(manager), manager.saved()[0]
    manager.expect("shutdown", "ok")
    talks(early.client)
    saves(other)
    call_off(manager, [early.client, other])
    manager.expect("shutdown", "ok")
    saves(other)
    early.leave_at_once()
    other.expect(xsmp.DIE)
    other.close()
    if manager.process.wait(30):
        raise ValueError("smd ended otherwise")
    if early.was_started() or early.has_discarded(early.states):
        raise ValueError("it was started in the logout, or its state was discarded")
    manager.start()
    early.come_back()


TESTS = {
    it.__name__: it
    for it in (
        never_answers, never_asks_again, dialog_stands, dialog_in_a_new_logout, twice, answers_late, answers_in_a_row,
        leaves_early, leaves_before_a_checkpoint, leaves_before_a_logout, leaves_behind_a_logout, saves_behind_a_logout,
        leaves_its_dialog, leaves_into_a_checkpoint, leaves_into_a_logout,
    )
}


def main():
    smd, room, name = sys.argv[1:]
    signal.signal(signal.SIGTERM, lambda *_: sys.exit(1))
    manager = Manager(smd, room, ["--quirks", "--patience", str(PATIENCE)])
    try:
        manager.start()
        TESTS[name](manager)
    finally:
        Manager.kill_all()


if __name__ == "__main__":
    main()
