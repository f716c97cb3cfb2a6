#!/usr/bin/env python3
"""What a real smd starts again at a login, and says of it:
    starts.py SMD FOLDER TEST
Each test runs managers of its own in the folder. It ends with 0 where all was as it has to be.
"""
import json
import os
import shutil
import signal
import subprocess
import sys
import time

import xsmp
from manager import Manager


class Heard(Manager):
    """A manager whose standard error is kept."""

    def __init__(self, smd, room):
        super().__init__(smd, room)
        self.said = os.path.join(room, "said")

    def errors(self):
        return open(self.said, "wb")

    def has_said(self):
        with open(self.said, "rb") as file:
            return file.read()


def text_of(path):
    """What a program has written, once it has ended the line."""
    for _ in range(1500):
        if os.path.exists(path):
            with open(path) as file:
                text = file.read()
            if text.endswith("\n"):
                return text
        time.sleep(0.02)
    raise TimeoutError("nothing was written to " + path)


def saved(smd, room, words, folder=None):
    """A store with a client that is started again by these words, in this folder."""
    manager = Manager(smd, room)
    manager.start()
    client, _ = manager.join()
    client.expect(xsmp.SAVE)
    if folder:
        client.set(b"CurrentDirectory", b"ARRAY8", [os.fsencode(folder)])
    xsmp.save(client, words)
    client.expect(xsmp.COMPLETE)
    manager.kill()


def expect(found, wanted):
    if found != wanted:
        raise ValueError("found %r, and not %r" % (found, wanted))


def homeless(smd, room):
    """A program whose folder is gone starts in HOME, and stays in the session."""
    folder, home, place = [os.path.join(room, name) for name in ("folder", "home", "place")]
    os.mkdir(folder)
    os.mkdir(home)
    os.environ["HOME"] = home
    saved(smd, room, [b"sh", b"-c", b"pwd -P > " + os.fsencode(place)], folder)
    for is_gone in (False, True):
        if is_gone:
            shutil.rmtree(folder)
        manager = Heard(smd, room)
        manager.start()
        expect(text_of(place), (home if is_gone else folder) + "\n")
        os.remove(place)
        # What is said of a start is said before an order is answered.
        manager.order("status")
        said = "smd: cannot enter %s: sh starts in %s\n" % (folder, home) if is_gone else ""
        expect(manager.has_said(), said.encode())
        manager.kill()


# What a client may say, and how it is shown.
DISGUISES = [
    ("no such program", '"no such program"'),
    ("/none/\x1b[2Jred\nsmd: all is well", r'"/none/\x1b[2Jred\x0asmd: all is well"'),
    ("/none/\u202egnp.sh", r'"/none/\xe2\x80\xaegnp.sh"'),
    ("/none/b\xfcro", "/none/b\xfcro"),
    ("/none/a\xa0b", r'"/none/a\xc2\xa0b"'),
]


def disguised(smd, room):
    """A text of a client can't do anything to the terminal, in what smd says and in what store-check shows."""
    for number, (word, wanted) in enumerate(DISGUISES):
        folder = os.path.join(room, str(number))
        os.mkdir(folder)
        saved(smd, folder, [word.encode()])
        manager = Heard(smd, folder)
        manager.start()
        manager.order("status")
        expect(manager.has_said().decode(), "smd: cannot start %s\n" % wanted)
        manager.kill()
        report = subprocess.run([smd, "store-check", "--store", manager.store], capture_output=True, check=True).stdout
        expect([it for it in report.decode().split("\n") if it.startswith("  restart ")], ["  restart " + wanted])
        report = subprocess.run([smd, "store-check", "--store", manager.store, "--json"], capture_output=True, check=True).stdout
        if any(it.encode() in report for it in "\x1b\u202e\xa0"):
            raise ValueError("the JSON has what isn't seen: %r" % report)
        is_hidden = "\u202e" in word or "\xa0" in word
        expect(json.loads(report)["entries"][0]["restart"]["words"], [list(word.encode()) if is_hidden else word])


# A program of a session. It notes when it was started, and connects so many seconds later, or never. It ends with
# the manager that started it.
PROGRAM = """
import os, socket, sys, time
folder, name, wait = sys.argv[1:]
parent = os.getppid()
with open(os.path.join(folder, name), "w") as file:
    print(time.monotonic(), file=file)
if wait != "never":
    time.sleep(float(wait))
    link = socket.socket(socket.AF_UNIX)
    link.connect(os.environ["SESSION_MANAGER"].split(":", 1)[1])
while os.getppid() == parent:
    time.sleep(0.1)
"""


def started_at(smd, room, programs):
    """When each of these programs was started at a login, in seconds from the first on. Each has a name, its priority or
    None, and what it waits for; they joined in this order."""
    manager = Manager(smd, room)
    manager.start()
    clients = []
    for name, priority, wait in programs:
        client, _ = manager.join()
        clients.append(client)
        client.expect(xsmp.SAVE)
        if priority is not None:
            client.set(b"_GSM_Priority", b"CARD8", [bytes([priority])])
        xsmp.save(client, [os.fsencode(it) for it in (sys.executable, "-c", PROGRAM, room, name, wait)])
        client.expect(xsmp.COMPLETE)
    manager.kill()
    manager = Manager(smd, room)
    manager.start()
    moments = [float(text_of(os.path.join(room, name))) for name, _, _ in programs]
    manager.kill()
    return [it - min(moments) for it in moments]


def manager_first(smd, room):
    """A window manager that joined last is there before the others are started, though it takes a second for that."""
    one, other, panel, first = started_at(smd, room, [("one", None, "0"), ("other", 50, "0"), ("panel", 25, "1"), ("first", 20, "1")])
    if first != 0 or panel < 1 or min(one, other) < panel + 1:
        raise ValueError("started at %r" % [one, other, panel, first])


def never_there(smd, room):
    """Nobody waits longer than two seconds for a program that never joins."""
    other, first = started_at(smd, room, [("other", None, "0"), ("first", 20, "never")])
    if first != 0 or other < 1.5:
        raise ValueError("started at %r" % [other, first])


def all_at_once(smd, room):
    """Where no program says a priority none waits for another."""
    moments = started_at(smd, room, [(it, None, "never") for it in ("one", "two", "three")])
    if max(moments) > 1.5:
        raise ValueError("started at %r" % moments)


TESTS = {it.__name__: it for it in (homeless, disguised, manager_first, never_there, all_at_once)}


def main():
    smd, room, name = sys.argv[1:]
    signal.signal(signal.SIGTERM, lambda *_: sys.exit(1))
    try:
        TESTS[name](smd, os.path.realpath(room))
    finally:
        Manager.kill_all()


if __name__ == "__main__":
    main()
