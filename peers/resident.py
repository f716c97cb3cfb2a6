#!/usr/bin/env python3
"""A program of a session that ends with its display, as programs on Xlib do:
    resident.py FOLDER NAME
In the folder it keeps its ID (NAME.id), notes what it is told and how it came (NAME.log), and writes what it found at its
start (NAME.found). While NAME.mute is there it answers no save, while NAME.nul is there each word of its command ends with a NUL,
as those of programs on Xt do, while NAME.talks is there it talks with its user in the save of
a logout, and while NAME.stays is there it stays when it is told to die.
"""
import os
import selectors
import socket
import struct
import sys

import xsmp


class Resident:
    def __init__(self, folder, name):
        self.folder, self.name = folder, name
        self.words = [os.fsencode(it) for it in (sys.executable, os.path.abspath(sys.argv[0]), folder, name)]
        self.client = None
        self.is_talking = False

    def file(self, what):
        return os.path.join(self.folder, "%s.%s" % (self.name, what))

    def note(self, text):
        with open(self.file("log"), "a", encoding="utf-8") as log:
            print(text, file=log)

    def note_found(self):
        """The mask, which of INT (2) and QUIT (4) are ignored, the group, and the variables."""
        mask = os.umask(0)
        os.umask(mask)
        with open("/proc/self/status", encoding="utf-8") as status:
            ignored = [line.split()[1] for line in status if line.startswith("SigIgn:")][0]
        with open(self.file("found.new"), "w", encoding="utf-8") as found:
            print("mask %03o" % mask, "ignored %d" % (int(ignored, 16) & 6), sep="\n", file=found)
            print("group %d" % os.getpgid(0), file=found)
            for name in sorted(os.environ):
                print("%s=%s" % (name, os.environ[name]), file=found)
        os.rename(self.file("found.new"), self.file("found"))

    def command(self):
        end = b"\0" if os.path.exists(self.file("nul")) else b""
        return [word + end for word in self.words]

    def join(self):
        try:
            with open(self.file("id"), "rb") as file:
                before = file.read()
        except FileNotFoundError:
            before = b""
        place = os.environ["SESSION_MANAGER"].split(":", 1)[1]
        self.client, own = xsmp.joined(place, os.environ["ICEAUTHORITY"], before, seconds=60)
        with open(self.file("id"), "wb") as file:
            file.write(own)
        self.note("joined %s" % own.decode())

    def hear(self):
        """Takes the next message; whether the session goes on."""
        try:
            major, minor, _, body = self.client.next()
        except (EOFError, OSError):
            self.note("the manager has gone")
            return False
        if major == 0:
            if minor == xsmp.PING:
                self.client.send(xsmp.message(0, xsmp.PONG))
        elif minor == xsmp.SAVE:
            self.note("asked to save" + (" for a logout" if body[1] else ""))
            if body[1] and os.path.exists(self.file("talks")):
                self.client.say(xsmp.ASK_TALK, second=1)
            elif not os.path.exists(self.file("mute")):
                xsmp.save(self.client, self.command())
        elif minor == xsmp.TALK:
            self.note("talks")
            self.is_talking = True
        elif minor == xsmp.COMPLETE:
            self.note("saved")
        elif minor == xsmp.CANCELLED:
            self.note("cancelled")
        elif minor == xsmp.DIE:
            self.note("told to die")
            if os.path.exists(self.file("stays")):
                return True
            self.client.close()
            return False
        return True

    def end_talk(self):
        """The user has answered where the file that has it talk is gone."""
        if self.is_talking and not os.path.exists(self.file("talks")):
            self.is_talking = False
            self.client.say(xsmp.TALKED)
            xsmp.save(self.client, self.command())

    def run(self):
        waits = selectors.DefaultSelector()
        display = open_display()
        if display:
            waits.register(display, selectors.EVENT_READ)
        self.join()
        waits.register(self.client.socket, selectors.EVENT_READ)
        while True:
            # What came with the message before waits here, and not at the socket.
            while self.client.held:
                if not self.hear():
                    return
            self.end_talk()
            for key, _ in waits.select(0.1 if self.is_talking else None):
                if key.fileobj is display:
                    if not display.recv(4096):
                        self.note("the display has gone")
                        return
                elif not self.hear():
                    return


def open_display():
    """A connection to the display, where there is one."""
    number = os.environ.get("DISPLAY", "").partition(":")[2].partition(".")[0]
    if not number.isdigit():
        return None
    display = socket.socket(socket.AF_UNIX)
    display.connect("/tmp/.X11-unix/X" + number)
    display.sendall(struct.pack("<BBHHHHH", ord("l"), 0, 11, 0, 0, 0, 0))
    if display.recv(1) != b"\1":
        raise OSError("the display refuses the connection")
    return display


def main():
    resident = Resident(*sys.argv[1:])
    resident.note_found()
    resident.run()


if __name__ == "__main__":
    main()
