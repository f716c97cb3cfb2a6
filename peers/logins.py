#!/usr/bin/env python3
"""What a login starts, and what comes behind a logout, by smd-session:
    logins.py BIN FOLDER TEST
BIN is a folder with the scripts and the programs, and each test has a desktop of its own in the folder, as those of endings.py.
"""
import os
import signal
import sys
import time

import endings
from endings import LONG, asked, stand_in
from logouts import within

# Entries of an autostart folder, by what they start and what stands in them beside it.
SHOWN = {
    "plain": "", "by_file %f": "", "by_url %U": "", "half 50%%": "", "here": "OnlyShowIn=GNOME;SMD;", "elsewhere_not": "NotShowIn=GNOME;",
    "there": "TryExec=noted", "on": "X-GNOME-Autostart-enabled=true", '"two words"': "",
}
LEFT_OUT = {
    "hidden": "Hidden=true", "other": "OnlyShowIn=GNOME;", "not_here": "NotShowIn=XFCE;SMD;", "missing": "TryExec=nosuch",
    "off": "X-GNOME-Autostart-enabled=false", "action": "\n[Desktop Action Other]\nExec=noted action", "covered": "",
}
NOTED = ["half 50%", "always", "by_file", "by_url", "elsewhere_not", "here", "on", "plain", "there", "two words"]


def entry(folder, name, command, more="", kind="Application"):
    os.makedirs(folder, exist_ok=True)
    with open(os.path.join(folder, name + ".desktop"), "w", encoding="utf-8") as file:
        file.write("[Desktop Entry]\nType=%s\nName=x\nExec=%s\n%s\n" % (kind, command, more))


def noting(desk):
    """A path with a program that notes how it was called."""
    return stand_in(desk, "noted", 'echo "$*" >> "%s/noted"' % desk.room, folder="noting") + ":" + desk.path


def noted(desk):
    try:
        with open(desk.room + "/noted", encoding="utf-8") as file:
            return sorted(file.read().splitlines())
    except FileNotFoundError:
        return []


def each_login(desk):
    """The list of each login, and the entries that are for this desktop, at each of them; what the session has already isn't
    started a second time."""
    own, others = (os.path.join(folder, "autostart") for folder in (desk.folders["XDG_CONFIG_HOME"], desk.room + "/xdg"))
    for number, (words, more) in enumerate(SHOWN.items()):
        entry(own if number % 2 else others, "shown%d" % number, "noted " + words, more)
    for number, (words, more) in enumerate(LEFT_OUT.items()):
        entry(others, "left%d" % number, "noted " + words if more != LEFT_OUT["action"] else "true", more)
    entry(own, "left%d" % list(LEFT_OUT).index("covered"), "noted cover", "Hidden=true")
    entry(others, "link", "noted link", kind="Link")
    entry(own, "again", "/usr/bin/env python3 never", "")
    with open(os.path.join(desk.folders["XDG_CONFIG_HOME"], "smd", "always"), "w", encoding="utf-8") as file:
        file.write("# of each login\n\nnoted always\n")
    settings = {"PATH": noting(desk), "XDG_CONFIG_DIRS": desk.room + "/xdg", "SMD_AUTOSTART": None}
    wanted = sorted(NOTED)
    for count in (1, 2):
        desk.login(**settings)
        within(LONG, lambda: len(noted(desk)) >= count * len(wanted), "not all was started: %s" % noted(desk))
        time.sleep(1)
        if noted(desk) != sorted(count * wanted):
            raise ValueError("login %d had started %s" % (count, noted(desk)))
        desk.leave()
    desk.keeps()
    os.remove(desk.room + "/noted")
    desk.login(**{**settings, "SMD_AUTOSTART": "0"})
    within(LONG, lambda: noted(desk), "the list isn't started")
    time.sleep(1)
    if noted(desk) != ["always"]:
        raise ValueError("without autostart %s was started" % noted(desk))
    desk.leave()


def already_there(desk):
    """An entry whose program the session has isn't started, neither at the first login nor later."""
    path = stand_in(desk, "resident", 'exec %s %s/resident.py "$@"' % (sys.executable, endings.HERE), folder="noting") + ":" + desk.path
    desk.list_programs(*("resident %s %s" % (desk.house, name) for name in endings.NAMES))
    entry(os.path.join(desk.folders["XDG_CONFIG_HOME"], "autostart"), "one", "/opt/resident %s e" % desk.house)
    desk.login(PATH=path, SMD_AUTOSTART=None, XDG_CONFIG_DIRS="/nowhere")
    time.sleep(2)
    if not desk.stands(len(endings.NAMES)):
        raise ValueError("it was started: " + desk.answers())
    desk.leave()


def first_session(desk):
    """Without a list there are a window manager and a terminal."""
    os.remove(os.path.join(desk.folders["XDG_CONFIG_HOME"], "smd", "session"))
    path = noting(desk)
    for name in ("x-window-manager", "x-terminal-emulator", "xfce4-panel"):
        stand_in(desk, name, "noted %s" % name, "exec sleep 1000", folder="noting")
    desk.login(0, PATH=path)
    within(LONG, lambda: noted(desk) == ["x-terminal-emulator", "x-window-manager", "xfce4-panel"], "there is only %s" % noted(desk))
    desk.leave()


def power(desk, then):
    """A machine that may be restarted, a user who wants that, and whose answer to who is waited for is to stay."""
    path = noting(desk)
    stand_in(desk, "busctl", "echo 's \"yes\"'", folder="noting")
    stand_in(desk, "systemctl", 'noted "$*"', folder="noting")
    stand_in(desk, "zenity", 'for word; do echo "$word"; done >> "%s/asked"' % desk.room, 'case $* in *--question*) echo "%s"; exit 1 ;; esac' % then,
             "echo 2", folder="noting")
    return {"PATH": path, "SMD_THEN": os.path.join(desk.folders["XDG_RUNTIME_DIR"], "smd", "then")}


def restart(desk):
    """The machine is restarted behind the logout, and what was in the session is kept."""
    settings = power(desk, "Restart")
    desk.login(PATH=settings["PATH"])
    left = desk.run("smd-logout", DISPLAY=desk.display.name, **settings)
    if left.returncode or desk.process.wait(LONG):
        raise ValueError("smd-logout ended with %d: %s" % (left.returncode, left.stderr))
    if noted(desk) != ["reboot"] or "--extra-button=Shut down" not in asked(desk):
        raise ValueError("noted is %s, asked was %s" % (noted(desk), asked(desk)))
    desk.keeps()
    if os.path.exists(settings["SMD_THEN"]):
        raise ValueError("the wish stays")


def restart_is_called_off(desk):
    """Whoever stays in the end doesn't want it any more, also at a later logout."""
    settings = power(desk, "Shut down")
    desk.login(PATH=settings["PATH"])
    slow = desk.program_ids("a")[0]
    os.kill(slow, signal.SIGSTOP)
    left = desk.run("smd-logout", DISPLAY=desk.display.name, **settings)
    os.kill(slow, signal.SIGCONT)
    if left.returncode != 1 or "Waiting for" not in asked(desk) or os.path.exists(settings["SMD_THEN"]):
        raise ValueError("smd-logout ended with %d: %s" % (left.returncode, left.stderr))
    within(LONG, lambda: "cancelled" in desk.log("a") and desk.stands(len(endings.NAMES)), "the session doesn't go on")
    desk.leave()
    if noted(desk):
        raise ValueError("noted is %s" % noted(desk))


def nothing_is_offered(desk):
    """Where the machine doesn't let the user, or smd-session isn't there, the question has nothing of it."""
    settings = power(desk, "Stay")
    desk.login(PATH=settings["PATH"])
    stand_in(desk, "busctl", "echo 's \"challenge\"'", folder="noting")
    first = desk.run("smd-logout", DISPLAY=desk.display.name, **settings)
    stand_in(desk, "busctl", "echo 's \"yes\"'", folder="noting")
    second = desk.run("smd-logout", DISPLAY=desk.display.name, **{**settings, "SMD_THEN": None})
    if (first.returncode, second.returncode) != (1, 1) or "Restart" in asked(desk) or asked(desk).count("Log out?") != 2:
        raise ValueError("asked was %s" % asked(desk))
    desk.leave()


if __name__ == "__main__":
    endings.main((each_login, already_there, first_session, restart, restart_is_called_off, nothing_is_offered))
