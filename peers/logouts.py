#!/usr/bin/env python3
"""Logouts of smd-session in which programs don't close when they are told to die, or say nothing:
    logouts.py BIN FOLDER WINDOW TEST
BIN is a folder with smd-session, smd and smctl, and WINDOW a program on Qt 6. Each test runs a session of its own
in the folder. It ends with 0 where smd-session ends within fifteen seconds of the agreed logout, and at the next
login whoever has saved with success is started again.
"""
import multiprocessing
import os
import signal
import subprocess
import sys
import time

import xsmp
from manager import Manager

# How long smd-session waits for those who were told to die, and what its end may take besides.
WAIT = 10.0
MOST = 15.0
# The patience of a session in which somebody is stopped before the logout.
PATIENCE = 3.0


def say(*words):
    print("  ", *words, flush=True)


class Session(Manager):
    """A session by smd-session."""

    def __init__(self, programs, room, **settings):
        names = ("XDG_STATE_HOME", "XDG_RUNTIME_DIR", "XDG_CONFIG_HOME")
        folders = {name: os.path.join(room, name.lower()) for name in names}
        super().__init__(os.path.join(programs, "smd-session"), os.path.join(folders["XDG_RUNTIME_DIR"], "smd"))
        self.settings, self.folders, self.room, self.said = settings, folders, room, os.path.join(room, "said")
        self.store = os.path.join(folders["XDG_STATE_HOME"], "smd", "store")
        # No program is started at a first login.
        programs_file = os.path.join(folders["XDG_CONFIG_HOME"], "smd", "session")
        os.makedirs(os.path.dirname(programs_file))
        open(programs_file, "w").close()

    def begin(self):
        self.process = subprocess.Popen(
            [self.smd], stdin=subprocess.DEVNULL, stdout=subprocess.DEVNULL, stderr=open(self.said, "a"),
            env={**os.environ, **self.folders, **self.settings},
        )

    def start(self, seconds=30):
        """Gives back once smd answers."""
        self.begin()
        until = time.monotonic() + seconds
        while True:
            try:
                status = self.order("status")
            except OSError:
                if time.monotonic() > until:
                    raise
                time.sleep(0.05)
                continue
            self.socket = xsmp.place_in(self.authority)
            return status

    def words_of(self, name):
        """The words of a program that leaves a file with its name."""
        return [b"touch", os.fsencode(os.path.join(self.room, name))]

    def end(self, began, least):
        """Waits for the end of the session, and sees that it took as long as it may."""
        status, took = self.process.wait(60), time.monotonic() - began
        if status or not least - 0.1 <= took <= MOST:
            raise ValueError("the session ended with %d, %.1f seconds after the logout was agreed" % (status, took))
        say("the session ended %.1f seconds after the logout was agreed" % took)

    def has_said(self, text):
        with open(self.said, encoding="utf-8") as said:
            return text in said.read()

    def names(self, program):
        """Sees that standard error names the program that was closed."""
        if not self.has_said("smd: %s was told to die" % program):
            raise ValueError("the program isn't named")

    def comes_back(self, names):
        """The next login starts these programs again."""
        files = [os.fsdecode(self.words_of(name)[1]) for name in names]
        if any(map(os.path.exists, files)):
            raise ValueError("a program was started before")
        self.start()
        within(60, lambda: all(map(os.path.exists, files)), "not all are started again")
        self.shutdown()


def within(seconds, is_so, otherwise):
    until = time.monotonic() + seconds
    while not is_so():
        if time.monotonic() > until:
            raise ValueError(otherwise)
        time.sleep(0.05)


def save_once(client, words):
    client.expect(xsmp.SAVE)
    xsmp.save(client, words)


def member(session, name):
    """A client that has joined and saved."""
    client, _ = session.join()
    save_once(client, session.words_of(name))
    client.expect(xsmp.COMPLETE)
    return client


def leave(client):
    """Waits until the client is told to die, closes it then, and tells when."""
    client.expect(xsmp.DIE)
    told = time.monotonic()
    client.close()
    return told


def ignored(session, _):
    """Of three clients one ignores Die, and stays connected."""
    names = ("first", "second", "third")
    clients = [member(session, name) for name in names]
    session.expect("shutdown", "ok")
    for client, name in zip(clients, names):
        save_once(client, session.words_of(name))
    clients[0].expect(xsmp.DIE)
    told = [leave(client) for client in clients[1:]]
    session.end(told[0], WAIT)
    session.names("touch")
    session.comes_back(names)


def stop(socket, authority, words, is_asked, joined):
    """A client that has joined and saved, and is stopped then; or once it was asked to save again, and has."""
    client, _ = xsmp.joined(socket, authority)
    save_once(client, words)
    client.expect(xsmp.COMPLETE)
    joined.set()
    if is_asked:
        save_once(client, words)
    os.kill(os.getpid(), signal.SIGSTOP)


def is_stopped(process):
    with open("/proc/%d/stat" % process.pid) as file:
        return file.read().rsplit(")", 1)[1].split()[0] == "T"


def stopped(session, is_asked, run):
    """Beside another client there is one that is stopped, before it is asked to save again or behind that."""
    other, joined = member(session, "other"), multiprocessing.Event()
    words = session.words_of("stopped")
    process = multiprocessing.Process(target=stop, args=(session.socket, session.authority, words, is_asked, joined))
    process.start()
    try:
        if not joined.wait(20):
            raise TimeoutError("the client doesn't join")
        run(other, process)
    finally:
        process.kill()
        process.join()


def stopped_before(session, _):
    """One of two is stopped before the logout. It is waited for as long as the patience lasts, and has left
    the session then."""

    def run(other, process):
        within(20, lambda: is_stopped(process), "the client isn't stopped")
        asked = time.monotonic()
        session.expect("shutdown", "ok")
        save_once(other, session.words_of("other"))
        told = leave(other)
        session.end(told, 0)
        say("it was agreed %.1f seconds after it was asked for, with a patience of %.1f" % (told - asked, PATIENCE))
        if told - asked < PATIENCE - 0.5:
            raise ValueError("the patience is too short")

    stopped(session, False, run)
    session.comes_back(["other"])


def stopped_after(session, _):
    """One of two is stopped once it has saved at the logout, and reads nothing any more."""

    def run(other, process):
        session.expect("shutdown", "ok")
        save_once(other, session.words_of("other"))
        session.end(leave(other), WAIT)

    stopped(session, True, run)
    session.names("touch")
    session.comes_back(["other", "stopped"])


def prompt(session, _):
    """Where all close when they are told to, nobody is waited for."""
    client = member(session, "prompt")
    session.expect("shutdown", "ok")
    save_once(client, session.words_of("prompt"))
    told = leave(client)
    session.end(told, 0)
    if time.monotonic() - told > 3:
        raise ValueError("somebody is waited for")
    session.comes_back(["prompt"])


def leave_early(session):
    """Of two one has saved, and leaves while the other still saves."""
    early, other = member(session, "early"), member(session, "other")
    session.expect("shutdown", "ok")
    save_once(early, session.words_of("early"))
    early.close()
    time.sleep(0.5)
    save_once(other, session.words_of("other"))
    session.end(leave(other), 0)


def early(session, _):
    """Who leaves a logout early comes back."""
    leave_early(session)
    session.comes_back(["early", "other"])


def to_the_letter(session, _):
    """Without quirks who leaves a logout early doesn't come back."""
    leave_early(session)
    session.comes_back(["other"])
    if os.path.exists(os.fsdecode(session.words_of("early")[1])):
        raise ValueError("who has left is started again")


def count_of(program):
    """How many processes of this program run."""
    found = 0
    for name in filter(str.isdigit, os.listdir("/proc")):
        try:
            if os.readlink("/proc/%s/exe" % name) == program:
                found += 1
        except OSError:
            pass
    return found


def windows(session, window):
    """Ten programs on Qt 6."""
    count = 10
    witness = member(session, "witness")
    named = "local/%s:%s" % (os.uname().nodename, session.socket)
    words = {**os.environ, "SESSION_MANAGER": named, "ICEAUTHORITY": session.authority}
    for _ in range(count):
        subprocess.Popen([window], env=words, stdin=subprocess.DEVNULL, stderr=subprocess.DEVNULL)
    all_saved = "connections %d, records %d, pending 0, epoch " % (count + 1, count + 1)
    within(60, lambda: session.order("status").startswith(all_saved), "not all have joined and saved")
    session.expect("shutdown", "ok")
    save_once(witness, session.words_of("witness"))
    session.end(leave(witness), 0)
    within(60, lambda: count_of(window) == 0, "a window is left")
    session.start()
    within(60, lambda: count_of(window) == count, "not all windows come back")
    within(60, lambda: session.order("status").startswith("connections %d, " % count), "not all join again")
    asked = time.monotonic()
    session.expect("shutdown", "ok")
    session.end(asked, 0)


SETTINGS = {"stopped_before": {"SMD_PATIENCE": str(int(1000 * PATIENCE))}, "to_the_letter": {"SMD_QUIRKS": "0"}}
TESTS = {it.__name__: it for it in (ignored, stopped_before, stopped_after, prompt, early, to_the_letter, windows)}


def main():
    programs, room, window, name = sys.argv[1:]
    signal.signal(signal.SIGTERM, lambda *_: sys.exit(1))
    session = Session(programs, room, **SETTINGS.get(name, {}))
    try:
        session.start()
        TESTS[name](session, window)
    finally:
        Manager.kill_all()


if __name__ == "__main__":
    main()
