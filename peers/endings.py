#!/usr/bin/env python3
"""Ends of sessions by smd-session, and what the next login finds:
    endings.py BIN FOLDER TEST
BIN is a folder with smd-session, smd-logout, smd-ask, smd, smctl and smwrap. Each test runs sessions of its own in the
folder, with programs that end with their display. It ends with 0 where nothing of a session is lost.
"""
import contextlib
import os
import re
import shutil
import signal
import socket
import subprocess
import sys
import time

import xsmp
from logouts import say, within
from manager import Manager

HERE = os.path.dirname(os.path.abspath(__file__))
NAMES = ("a", "b", "c", "d")
# How long is waited for what has to come, on a machine with far too much to do.
LONG = 60


class Display:
    """An X server of its own."""

    def __init__(self, room, *number):
        self.said = open(os.path.join(room, "display.said"), "a")
        read, write = os.pipe()
        self.process = subprocess.Popen(
            ["Xvfb", *number, "-displayfd", str(write), "-screen", "0", "640x480x24", "-nolisten", "tcp", "-noreset"],
            pass_fds=[write], stdin=subprocess.DEVNULL, stdout=self.said, stderr=self.said,
        )
        os.close(write)
        with os.fdopen(read) as file:
            self.name = ":" + file.readline().strip()

    def end(self, number=signal.SIGKILL):
        self.process.send_signal(number)
        self.process.wait(LONG)
        self.clear()

    def clear(self):
        """One that was killed leaves its files, unless another has taken its place."""
        lock = "/tmp/.X%s-lock" % self.name[1:]
        with contextlib.suppress(OSError), open(lock, encoding="utf-8") as file:
            if int(file.read()) == self.process.pid:
                os.remove("/tmp/.X11-unix/X" + self.name[1:])
                os.remove(lock)


class Desk(Manager):
    """A user's desktop, with four programs at its first login."""

    def __init__(self, programs, room):
        self.folders = {
            name: os.path.join(room, name.lower()) for name in ("XDG_STATE_HOME", "XDG_RUNTIME_DIR", "XDG_CONFIG_HOME")
        }
        super().__init__(os.path.join(programs, "smd-session"), os.path.join(self.folders["XDG_RUNTIME_DIR"], "smd"))
        self.programs, self.room, self.display = programs, room, None
        self.said, self.house = os.path.join(room, "said"), os.path.join(room, "house")
        self.state = os.path.join(self.folders["XDG_STATE_HOME"], "smd")
        self.store = os.path.join(self.state, "store")
        os.makedirs(self.house)
        os.mkdir(self.folders["XDG_RUNTIME_DIR"], 0o700)
        # Nobody is there to read what is told in a dialog.
        self.path = stand_in(self, "zenity", "exit 0", folder="quiet") + ":" + os.environ["PATH"]
        self.list_programs(*("exec %s %s/resident.py %s %s" % (sys.executable, HERE, self.house, it) for it in NAMES))

    def list_programs(self, *lines):
        path = os.path.join(self.folders["XDG_CONFIG_HOME"], "smd", "session")
        os.makedirs(os.path.dirname(path), exist_ok=True)
        with open(path, "w", encoding="utf-8") as file:
            file.write("".join(line + "\n" for line in lines))

    def settings(self, **more):
        names = {**os.environ, "HOME": self.room, **self.folders, "SMD_CONTROL": self.control, "PATH": self.path}
        for name in ("WAYLAND_DISPLAY", "DBUS_SESSION_BUS_ADDRESS", "DISPLAY", "SESSION_MANAGER", "ICEAUTHORITY"):
            names.pop(name, None)
        if self.display:
            names["DISPLAY"] = self.display.name
        names.update(more)
        return {name: value for name, value in names.items() if value is not None}

    def begin(self, before=(), words=(), said=None, **more):
        self.process = subprocess.Popen(
            [*before, self.smd, *words], stdin=subprocess.DEVNULL, stdout=subprocess.DEVNULL,
            stderr=said if said is not None else open(self.said, "a"), env=self.settings(**more), start_new_session=True,
        )

    def answers(self):
        try:
            return self.order("status")
        except OSError:
            return ""

    def stands(self, count):
        return re.match(r"connections %d, records %d, .* idle$" % (count, count), self.answers())

    def login(self, count=len(NAMES), **more):
        """A display, and a session with all its programs saved."""
        if not self.display or self.display.process.poll() is not None:
            self.display = Display(self.room)
        self.begin(**more)
        within(LONG, lambda: self.stands(count), "not all programs are there")
        time.sleep(1)

    def is_seen(self):
        """smd-session has looked at the store as it is."""
        with contextlib.suppress(OSError):
            return os.path.getmtime(self.state + "/seen") >= os.path.getmtime(self.store)

    def manager_ids(self):
        """The managers of this store."""
        found = []
        for name in filter(str.isdigit, os.listdir("/proc")):
            try:
                with open("/proc/%s/cmdline" % name, "rb") as file:
                    words = file.read().split(b"\0")
            except OSError:
                continue
            if b"serve" in words and os.fsencode(self.store) in words and b"smd" in words[0]:
                found.append(int(name))
        return found

    def is_gone(self):
        return self.process.poll() is not None and not self.manager_ids()

    def goes(self, since):
        """The session ends by itself."""
        within(LONG, self.is_gone, "the session goes on for nobody: " + self.answers())
        say("the session had ended %.1f seconds later" % (time.monotonic() - since))

    def ids(self):
        told = self.run("smd", "store-check", "--store", self.store).stdout
        return re.findall("^entry (.*)$", told, re.M)

    def run(self, name, *words, **more):
        return subprocess.run([os.path.join(self.programs, name), *words], env=self.settings(**more), text=True,
                              stdin=subprocess.DEVNULL, stdout=subprocess.PIPE, stderr=subprocess.PIPE, timeout=3 * LONG)

    def start(self, name, *words, **more):
        return subprocess.Popen([os.path.join(self.programs, name), *words], env=self.settings(**more), text=True,
                                stdin=subprocess.DEVNULL, stdout=subprocess.PIPE, stderr=subprocess.PIPE, start_new_session=True)

    def file(self, name, what):
        return os.path.join(self.house, "%s.%s" % (name, what))

    def log(self, name):
        with open(self.file(name, "log"), encoding="utf-8") as file:
            return file.read()

    def found(self, name):
        with open(self.file(name, "found"), encoding="utf-8") as file:
            return file.read().splitlines()

    def joins(self, name):
        return re.findall("^joined (.*)$", self.log(name), re.M)

    def mute(self, name):
        open(self.file(name, "mute"), "w").close()

    def has_said(self, text):
        with open(self.said, encoding="utf-8", errors="replace") as said:
            return text in said.read()

    def program_ids(self, name):
        """The processes of a resident."""
        found = []
        for number in filter(str.isdigit, os.listdir("/proc")):
            with contextlib.suppress(OSError), open("/proc/%s/cmdline" % number, "rb") as file:
                if file.read().split(b"\0")[1:4] == [os.fsencode(it) for it in (HERE + "/resident.py", self.house, name)]:
                    found.append(int(number))
        return found

    def keeps(self, count=len(NAMES)):
        if len(self.ids()) != count:
            raise ValueError("the store has %d programs, and not %d" % (len(self.ids()), count))

    def comes_back(self, names=NAMES, **more):
        """The next login has these programs, with the IDs that they had, and is left."""
        for name in NAMES:
            with contextlib.suppress(FileNotFoundError):
                os.remove(self.file(name, "mute"))
        before = {name: len(self.joins(name)) for name in names}
        self.login(len(names), **more)
        for name in names:
            joins = self.joins(name)
            if len(joins) != before[name] + 1 or len(set(joins)) != 1:
                raise ValueError("%s came back with %s" % (name, joins))
        self.leave()

    def leave(self):
        self.expect("shutdown", "ok")
        if self.process.wait(LONG):
            raise ValueError("the logout ended with %d" % self.process.returncode)

    def clear(self):
        if self.display and self.display.process.poll() is None:
            self.display.end()


# ---- the display's end

def display_ends(desk):
    """The display is killed."""
    desk.login()
    desk.display.end()
    desk.goes(time.monotonic())
    desk.keeps()
    desk.comes_back()
    # With fewer programs, once the user has had them saved so.
    desk.login()
    for number in desk.program_ids("d"):
        os.kill(number, signal.SIGKILL)
    within(LONG, lambda: desk.answers().startswith("connections 3, "), "a program doesn't end")
    desk.expect("checkpoint", "ok")
    within(LONG, lambda: len(desk.ids()) == 3, "the checkpoint has another program")
    within(LONG, desk.is_seen, "the store isn't looked at")
    desk.display.end()
    desk.goes(time.monotonic())
    desk.keeps(3)


def display_is_replaced(desk):
    """Another server has the display's number at once, as where a display manager goes on."""
    desk.login()
    desk.display.end()
    desk.display = Display(desk.room, desk.display.name)
    desk.goes(time.monotonic())
    desk.keeps()
    desk.comes_back()


def display_ends_with_the_signal(desk):
    """As a display manager ends it that is stopped. One program is slow, so that a logout couldn't be through before."""
    desk.login()
    within(LONG, desk.is_seen, "the store isn't looked at")
    desk.mute("a")
    desk.process.terminate()
    time.sleep(0.3)
    desk.display.end()
    desk.goes(time.monotonic())
    desk.keeps()
    desk.comes_back()


def in_a_logout(desk, order):
    """The display ends while one program still saves."""
    desk.login()
    within(LONG, desk.is_seen, "the store isn't looked at")
    desk.mute("a")
    order()
    within(LONG, lambda: all("for a logout" in desk.log(it) for it in NAMES), "no logout begins")
    within(LONG, lambda: desk.order("status").endswith(", shutdown"), "no logout runs")
    place = os.stat(desk.store).st_ino
    desk.display.end()
    desk.goes(time.monotonic())
    desk.keeps()
    # The session is put back into the store that is there, whose other sessions stay.
    if os.stat(desk.store).st_ino != place:
        raise ValueError("another file is in the store's place")
    desk.comes_back()


def display_ends_in_an_order(desk):
    in_a_logout(desk, lambda: desk.expect("shutdown", "ok"))


def display_ends_in_a_signal(desk):
    in_a_logout(desk, lambda: desk.process.terminate())


def display_ends_in_smd_logout(desk):
    in_a_logout(desk, lambda: desk.start("smd-logout", "--now"))


# ---- signals

def told(desk, name):
    return desk.log(name).endswith("told to die\n")


def logs_out(desk, send):
    desk.login()
    send()
    desk.goes(time.monotonic())
    if desk.process.returncode or not all(told(desk, it) for it in NAMES):
        raise ValueError("no logout: it ended with %d" % desk.process.returncode)
    desk.keeps()


def signals(desk):
    """TERM, HUP and INT to the script, and to its group."""
    for number in (signal.SIGTERM, signal.SIGHUP, signal.SIGINT):
        logs_out(desk, lambda: desk.process.send_signal(number))
        logs_out(desk, lambda: os.killpg(desk.process.pid, number))


def kills(desk):
    """KILL to the script, to its group and to smd; TERM to smd."""
    ways = (
        lambda: desk.process.kill(),
        lambda: os.killpg(desk.process.pid, signal.SIGKILL),
        lambda: [os.kill(it, signal.SIGKILL) for it in desk.manager_ids()],
        lambda: [os.kill(it, signal.SIGTERM) for it in desk.manager_ids()],
    )
    for way in ways:
        desk.login()
        way()
        desk.goes(time.monotonic())
        desk.keeps()
        desk.display.end()
    desk.comes_back()


def forsaken(desk):
    """Where the system can't end smd with its script, the next login does."""
    path = stand_in(desk, "setpriv", "exit 1") + ":" + desk.path
    desk.login(PATH=path)
    os.killpg(desk.process.pid, signal.SIGKILL)
    desk.process.wait(LONG)
    if not desk.manager_ids():
        raise ValueError("smd has ended by itself")
    desk.display.end()
    desk.comes_back()
    # The script alone: what looks after both ends smd.
    desk.login(PATH=path)
    desk.process.kill()
    desk.goes(time.monotonic())
    desk.display.end()
    desk.comes_back()


def stand_in(desk, name, *lines, folder="in_the_way"):
    """A program in the way of the one of this name; its folder."""
    folder = os.path.join(desk.room, folder)
    os.makedirs(folder, exist_ok=True)
    path = os.path.join(folder, name)
    with open(path, "w", encoding="utf-8") as file:
        file.write("\n".join(("#!/bin/sh", *lines, "")))
    os.chmod(path, 0o755)
    return folder


def starter(desk):
    """What gives the session its bus hears no signal: its end is one."""
    desk.login(before=["dbus-run-session", "--"])
    desk.process.terminate()
    within(LONG, lambda: not desk.manager_ids(), "the session goes on without its bus")
    if not all(told(desk, it) for it in NAMES):
        raise ValueError("no logout")
    desk.keeps()


# ---- logouts that come to nothing

def kill_all(desk):
    for name in NAMES:
        for number in desk.program_ids(name):
            os.kill(number, signal.SIGKILL)
    within(LONG, lambda: desk.answers().startswith("connections 0, "), "the programs don't end")


def nobody_is_left(desk):
    """All programs have ended, and the display is there: there is nobody to be asked, and nothing is forgotten."""
    desk.login()
    kill_all(desk)
    desk.process.terminate()
    desk.goes(time.monotonic())
    desk.keeps()
    desk.comes_back()
    desk.login(PATH=dialog(desk, answer="exit 0"))
    kill_all(desk)
    left = desk.run("smd-logout", "--now")
    if left.returncode:
        raise ValueError("smd-logout ended with %d: %s" % (left.returncode, left.stderr))
    desk.goes(time.monotonic())
    if "The session has ended" in asked(desk):
        raise ValueError("the user is told of an end that was ordered: " + asked(desk))
    desk.keeps()
    desk.comes_back()


def ordered_anew(desk):
    """All who were asked leave, and one that has come since is asked then."""
    desk.login()
    for name in NAMES:
        desk.mute(name)
    desk.process.terminate()
    within(LONG, lambda: desk.answers().endswith(", shutdown"), "no logout runs")
    late = subprocess.Popen([sys.executable, HERE + "/resident.py", desk.house, "late"], stdin=subprocess.DEVNULL,
                            env=desk.settings(SESSION_MANAGER="local/%s:%s" % (os.uname().nodename, place(desk)),
                                              ICEAUTHORITY=desk.authority))
    within(LONG, lambda: desk.answers().startswith("connections 5, "), "the late one doesn't come")
    for name in NAMES:
        for number in desk.program_ids(name):
            os.kill(number, signal.SIGKILL)
    desk.goes(time.monotonic())
    late.wait(LONG)
    if not told(desk, "late"):
        raise ValueError("the late one wasn't asked: " + desk.log("late"))


def place(desk):
    """The socket, as the authority file names it."""
    return xsmp.place_in(desk.authority)


# ---- what is told of an end

def told_of_a_kill(desk):
    """smd is killed in a logout: that is no end of it."""
    for words in (("smctl", "shutdown", "--wait"), ("smd-logout", "--now")):
        desk.login()
        desk.mute("a")
        waits = desk.start(*words)
        within(LONG, lambda: desk.answers().endswith(", shutdown"), "no logout runs")
        for number in desk.manager_ids():
            os.kill(number, signal.SIGKILL)
        if waits.wait(LONG) != 5:
            raise ValueError("%s ended with %d" % (words[0], waits.returncode))
        desk.goes(time.monotonic())
        desk.keeps()
        desk.display.end()
        os.remove(desk.file("a", "mute"))
    desk.login()
    waits = desk.start("smctl", "shutdown", "--wait")
    if waits.wait(LONG):
        raise ValueError("smctl ended with %d at a logout" % waits.returncode)
    desk.goes(time.monotonic())
    desk.keeps()


# ---- the log

def log_on_a_full_disk(desk):
    """What can't be said ends nothing."""
    desk.login(said=open("/dev/full", "w"))
    for _ in range(20):
        if not desk.stands(len(NAMES)):
            raise ValueError("the session has ended")
        time.sleep(0.1)
    desk.expect("checkpoint", "ok")
    within(LONG, lambda: desk.stands(len(NAMES)), "a checkpoint doesn't end")
    left = desk.run("smd-logout", "--now")
    if left.returncode or desk.process.wait(LONG):
        raise ValueError("smd-logout ended with %d, the session with %d" % (left.returncode, desk.process.returncode))
    desk.keeps()


def log_that_nobody_reads(desk):
    """A pipe whose reader has gone, and no standard error at all."""
    for closes in (True, False):
        if closes:
            read, write = os.pipe()
            desk.login(said=write)
            os.close(read)
            os.close(write)
        else:
            desk.login(before=["sh", "-c", 'exec "$@" 2>&-', "closed"])
        for _ in range(5):
            if not desk.stands(len(NAMES)):
                raise ValueError("the session has ended")
        desk.expect("checkpoint", "ok")
        within(LONG, lambda: desk.stands(len(NAMES)), "a checkpoint doesn't end")
        desk.leave()
        desk.keeps()


def log_that_is_full_for_a_while(desk):
    """What wasn't said is told once it can be. The folder `small` is a disk of its own."""
    small = os.path.join(desk.room, "small")
    os.mkdir(small)
    subprocess.run(["mount", "-t", "tmpfs", "-o", "size=64k", "tmpfs", small], check=True)
    desk.said = os.path.join(small, "said")
    desk.login()
    size = os.path.getsize(desk.said)
    with open(desk.said, "a", encoding="utf-8") as said:
        said.write("." * (-size % 4096 - 1) + "\n")
    with contextlib.suppress(OSError), open(os.path.join(small, "rest"), "wb", buffering=0) as rest:
        while True:
            rest.write(bytes(4096))
    for _ in range(3):
        desk.order("status")
    time.sleep(1)
    os.remove(os.path.join(small, "rest"))
    desk.order("status")
    within(LONG, lambda: desk.has_said("3 lines of the manager couldn't be written"), "it isn't told")
    desk.leave()
    desk.keeps()


# ---- the surroundings of programs

def surroundings(desk):
    """Programs find the mask, the signals and the path as smd-session found them, in a first session and in a later one."""
    for _ in range(2):
        os.umask(0o027)
        desk.login(PATH="/opt/none:" + os.environ["PATH"])
        os.umask(0o022)
        for name in NAMES:
            found = desk.found(name)
            if found[:2] != ["mask 027", "ignored 0"]:
                raise ValueError("%s found %s" % (name, found[:2]))
            if found[2] == "group %d" % desk.process.pid:
                raise ValueError("%s is in the group of smd-session" % name)
            if "PATH=/opt/none:%s:%s" % (os.environ["PATH"], desk.programs) not in found:
                raise ValueError("%s found %s" % (name, [it for it in found if it.startswith("PATH=")]))
        desk.leave()
    # Signals that were ignored stay so.
    desk.login(before=["sh", "-c", "trap '' INT; exec \"$@\"", "ignores"])
    for name in NAMES:
        if desk.found(name)[1] != "ignored 2":
            raise ValueError("%s found %s" % (name, desk.found(name)[1]))
    desk.leave()


def bus(desk):
    """What the bus of the session starts finds the session."""
    services = os.path.join(desk.room, "share", "dbus-1", "services")
    os.makedirs(services)
    found = os.path.join(desk.room, "started")
    program = os.path.join(stand_in(desk, "started_by_the_bus", "env > '%s.new' && mv '%s.new' '%s'" % (3 * (found,))), "started_by_the_bus")
    with open(services + "/yonder.Started.service", "w", encoding="utf-8") as file:
        file.write("[D-BUS Service]\nName=yonder.Started\nExec=%s\n" % program)
    desk.list_programs(
        "dbus-send --session --dest=yonder.Started / yonder.Started.Go",
        *("exec %s %s/resident.py %s %s" % (sys.executable, HERE, desk.house, it) for it in NAMES),
    )
    desk.login(before=["dbus-run-session", "--"], XDG_DATA_DIRS=os.path.join(desk.room, "share"))
    within(LONG, lambda: os.path.exists(found), "the bus starts nothing")
    with open(found, encoding="utf-8") as file:
        lines = file.read().splitlines()
    for name, value in {"SESSION_MANAGER": "local/%s:%s" % (os.uname().nodename, place(desk)),
                        "ICEAUTHORITY": desk.authority, "SMD_CONTROL": desk.control}.items():
        if "%s=%s" % (name, value) not in lines:
            raise ValueError("what the bus starts doesn't find " + name)
    desk.leave()


# ---- names that are taken, and folders

def names_that_are_taken(desk):
    """Somebody has the abstract name that could be guessed."""
    taken = socket.socket(socket.AF_UNIX)
    taken.bind("\0" + os.path.dirname(desk.control) + "/socket")
    desk.login()
    first = place(desk)
    desk.leave()
    again = socket.socket(socket.AF_UNIX)
    again.bind("\0" + first)
    desk.login(SMD_PRIVATE="yes")
    if place(desk) == first:
        raise ValueError("the name is the one of before")
    desk.leave()
    desk.keeps()


def wrapped(desk):
    """A wrapped program, whose command names the socket, comes back; where somebody has that name, the others do."""
    desk.list_programs(
        'exec smwrap --socket "${SESSION_MANAGER#*:}" --authority "$ICEAUTHORITY" --state %s/text --from 0 -- touch %s/began'
        % (desk.room, desk.room),
        "exec %s %s/resident.py %s a" % (sys.executable, HERE, desk.house),
    )
    open(desk.room + "/text", "w").close()
    desk.login(2)
    first = place(desk)
    desk.leave()
    os.remove(desk.room + "/began")
    desk.login(2)
    if not os.path.exists(desk.room + "/began") or place(desk) != first:
        raise ValueError("the wrapped program doesn't come back")
    desk.leave()
    taken = socket.socket(socket.AF_UNIX)
    taken.bind("\0" + first)
    desk.begin()
    within(LONG, lambda: desk.answers().startswith("connections 1, "), "the user is locked out: " + desk.answers())
    if not desk.has_said("is taken"):
        raise ValueError("it isn't told that the name is taken")
    desk.display.end()
    desk.goes(time.monotonic())
    desk.keeps(2)


def control_in(folder):
    return os.path.join(folder, "smd", "control")


def runtime_folders(desk):
    """A runtime folder that isn't the user's alone isn't taken, and a path that can't be named is told."""
    beside = control_in(desk.state)
    for make in (lambda it: os.chown(it, 65534, 65534), lambda it: os.chmod(it, 0o777), lambda it: os.rmdir(it) or open(it, "w").close()):
        folder = os.path.join(desk.room, "run%d" % len(os.listdir(desk.room)))
        os.mkdir(folder, 0o700)
        make(folder)
        desk.control, desk.authority = beside, os.path.join(desk.state, "smd", "authority")
        desk.login(XDG_RUNTIME_DIR=folder)
        if not desk.has_said("%s isn't a folder of this user alone" % folder) or os.path.isdir(folder + "/smd"):
            raise ValueError("the folder is taken as it is")
        desk.leave()
    for name in ("two\nlines", "a,comma", "a:colon", 110 * "l"):
        folder = os.path.join(desk.room, name)
        os.mkdir(folder, 0o700)
        desk.begin(XDG_RUNTIME_DIR=folder)
        if desk.process.wait(LONG) != 1 or not desk.has_said("SESSION_MANAGER can't name a socket in"):
            raise ValueError("the path %r is taken" % name)
        os.remove(desk.said)
    folder = os.path.join(desk.room, "a blank")
    os.mkdir(folder, 0o700)
    desk.control, desk.authority = control_in(folder), os.path.join(folder, "smd", "authority")
    desk.login(XDG_RUNTIME_DIR=folder)
    desk.leave()
    desk.control, desk.authority = beside, os.path.join(desk.state, "smd", "authority")
    desk.login(XDG_RUNTIME_DIR=None)
    desk.leave()
    desk.keeps()


# ---- dialogs

def dialog(desk, name="zenity", answer="1"):
    """A dialog that notes what it is asked, and the path on which it is found."""
    return stand_in(desk, name, 'for word; do echo "$word"; done >> "%s/asked"' % desk.room, answer) + ":" + os.environ["PATH"]


def asked(desk):
    with contextlib.suppress(FileNotFoundError), open(desk.room + "/asked", encoding="utf-8") as file:
        return file.read()
    return ""


def told_in_a_dialog(desk):
    """A login that can't start tells the user why, and so does a session that ends by itself."""
    path = dialog(desk, answer="exit 0")
    desk.login(PATH=path)
    first, desk.said = desk.process, os.path.join(desk.room, "said.other")
    desk.begin(PATH=path)
    other, desk.process = desk.process, first
    if other.wait(LONG) != 1 or "another manager has the store" not in asked(desk):
        raise ValueError("it isn't told that another manager has the store: " + asked(desk))
    for number in desk.manager_ids():
        os.kill(number, signal.SIGKILL)
    within(LONG, lambda: "The session has ended" in asked(desk), "it isn't told that smd was killed")
    desk.goes(time.monotonic())
    with open(desk.store, "r+b") as store:
        for at in (80, 8388688):
            store.seek(at)
            store.write(b"x")
    os.remove(desk.room + "/asked")
    shutil.rmtree(desk.state + "/kept", ignore_errors=True)
    desk.begin(PATH=path)
    desk.process.wait(LONG)
    if "the store is damaged" not in asked(desk):
        raise ValueError("it isn't told that the store is damaged: " + asked(desk))


def answers_without_a_disk(desk):
    """The answer to who is waited for is heard where no file can be made."""
    path = dialog(desk, answer="echo 3")
    desk.login()
    desk.mute("a")
    left = desk.run("smd-logout", "--now", PATH=path, TMPDIR="/dev/full", TMP="/dev/full")
    if left.returncode or "Waiting for" not in asked(desk):
        raise ValueError("smd-logout ended with %d: %s" % (left.returncode, left.stderr))
    desk.goes(time.monotonic())


def answer_that_cant_be_written(desk):
    """Who couldn't be heard is asked again."""
    once = os.path.join(desk.room, "once")
    bin_folder = stand_in(
        desk, "smd-ask", 'echo "$*" >> "%s/asked"' % desk.room, '[ -e "%s" ] || { : > "%s"; exit 4; }' % (once, once), "echo 3",
    )
    shutil.copy(os.path.join(desk.programs, "smd-logout"), bin_folder)
    for name in ("smctl", "smd"):
        os.symlink(os.path.join(desk.programs, name), os.path.join(bin_folder, name))
    desk.login()
    desk.mute("a")
    left = subprocess.run([bin_folder + "/smd-logout", "--now"], env=desk.settings(), stdin=subprocess.DEVNULL, timeout=LONG)
    if left.returncode or asked(desk).count("Waiting for") != 2:
        raise ValueError("smd-logout ended with %d: %s" % (left.returncode, asked(desk)))
    desk.goes(time.monotonic())
    full = subprocess.run([os.path.join(desk.programs, "smd-ask"), "q", "one"], env=desk.settings(PATH=dialog(desk, answer="echo 1"), DISPLAY=":none"),
                          stdout=open("/dev/full", "w"), stderr=subprocess.DEVNULL, timeout=LONG)
    if full.returncode != 4:
        raise ValueError("an answer that couldn't be written ended with %d" % full.returncode)


def no_markup(desk):
    """kdialog shows a program's name as it is."""
    path = stand_in(desk, "zenity", "echo cannot open display", "exit 1") + ":" + dialog(desk, "kdialog", "echo 1")
    for words in (("a <b>bold</b> & name", "yes"), ("--tell", "a <b>bold</b> & name")):
        desk.run("smd-ask", *words, PATH=path, DISPLAY=":none")
        if "<qt>a &lt;b&gt;bold&lt;/b&gt; &amp; name</qt>" not in asked(desk):
            raise ValueError("kdialog is told " + asked(desk))
        os.remove(desk.room + "/asked")


def main(tests):
    """Runs the one of these tests that the command names, on a desktop of its own."""
    programs, room, name = sys.argv[1:]
    signal.signal(signal.SIGTERM, lambda *_: sys.exit(1))
    # What is started from here begins with the signals of a login.
    for number in (signal.SIGINT, signal.SIGQUIT):
        signal.signal(number, signal.SIG_DFL)
    desk = Desk(programs, room)
    try:
        {it.__name__: it for it in tests}[name](desk)
    finally:
        desk.clear()
        for number in desk.manager_ids():
            os.kill(number, signal.SIGKILL)
        Manager.kill_all()


if __name__ == "__main__":
    main((
        display_ends, display_is_replaced, display_ends_with_the_signal, display_ends_in_an_order, display_ends_in_a_signal, display_ends_in_smd_logout,
        signals, kills, forsaken, starter, nobody_is_left, ordered_anew, told_of_a_kill, log_on_a_full_disk, log_that_nobody_reads,
        log_that_is_full_for_a_while, surroundings, bus, names_that_are_taken, wrapped, runtime_folders, told_in_a_dialog,
        answers_without_a_disk, answer_that_cant_be_written, no_markup,
    ))
