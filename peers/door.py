"""A door in a folder for a client of a session manager that is on libICE, and has another socket at each login:
    door.py FOLDER
`authority` in the folder has the manager's cookie for `socket` there. Whoever comes to that socket, one client, is led
to the manager's abstract socket, by which xsm tells the clients that it can start again. The manager is the one of
SESSION_MANAGER, and its cookie stands in ICEAUTHORITY, or else in ~/.ICEauthority."""
import os
import select
import socket
import struct
import sys


def entries(data):
    """The entries of an authority file, each as five fields."""
    at = 0
    while at < len(data):
        entry = []
        for _ in range(5):
            (length,) = struct.unpack_from(">H", data, at)
            entry.append(data[at + 2 : at + 2 + length])
            at += 2 + length
        yield entry


def write_authority(folder, name, place):
    path = os.environ.get("ICEAUTHORITY") or os.path.expanduser("~/.ICEauthority")
    with open(path, "rb") as file:
        found = [it for it in entries(file.read()) if it[0] == b"ICE" and it[2] == name.encode()]
    # Of two entries for one name the later is the one that the manager made last.
    entry = found[-1]
    entry[2] = b"local/here:" + place.encode()
    with open(os.path.join(folder, "authority.new"), "wb") as file:
        file.write(b"".join(struct.pack(">H", len(it)) + it for it in entry))
    os.replace(file.name, os.path.join(folder, "authority"))


def relay(one, other):
    """Leads bytes both ways until one of the two ends."""
    while True:
        for ready in select.select([one, other], [], [])[0]:
            data = ready.recv(65536)
            if not data:
                return
            (other if ready is one else one).sendall(data)


def main():
    folder = sys.argv[1]
    (name,) = [it for it in os.environ["SESSION_MANAGER"].split(",") if it.startswith("local/")]
    place = os.path.join(folder, "socket")
    if os.path.exists(place):
        os.remove(place)
    door = socket.socket(socket.AF_UNIX)
    door.bind(place)
    door.listen()
    write_authority(folder, name, place)
    if os.fork():
        return
    nothing = os.open(os.devnull, os.O_RDWR)
    for number in range(3):
        os.dup2(nothing, number)
    client, _ = door.accept()
    door.close()
    manager = socket.socket(socket.AF_UNIX)
    manager.connect(name.split(":", 1)[1].replace("@", "\0", 1))
    relay(client, manager)


main()
