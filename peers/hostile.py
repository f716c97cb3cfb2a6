#!/usr/bin/env python3
"""Many clients, clients that misbehave, and a manager that is killed:
    hostile.py SMD FOLDER TEST
Each test runs a manager of its own in the folder. It ends with 0 where all was as it has to be.
"""
import random
import re
import selectors
import signal
import sys
import threading
import time

import xsmp
from manager import Manager

OUTBOX = 1_048_576
# What the system holds of a socket besides, and one reply more.
KERNEL = 1_048_576


def say(*words):
    print("  ", *words, flush=True)


def answer_held(client, left):
    """Answers what has come to a client that saves again and again."""
    while client.held:
        answer(client, left)


def answer(client, left):
    major, minor, _, body = client.next()
    if major != xsmp.OPCODE:
        raise ValueError("message %d of %d with %r" % (minor, major, body))
    if minor == xsmp.SAVE:
        xsmp.save(client, [b"true"])
    elif minor == xsmp.COMPLETE:
        left[client] -= 1
        if left[client] > 0:
            client.say(xsmp.REQUEST, bytes([1, 0, 0, 0, 0]))
    else:
        raise ValueError("message %d with %r" % (minor, body))


def crowd(manager, count=64, saves=157):
    """64 clients that save ten thousand times among them, each in rounds of its own."""
    manager.start()
    left = {manager.join()[0]: saves for _ in range(count)}
    waits = selectors.DefaultSelector()
    began = time.monotonic()
    for client in left:
        waits.register(client.socket, selectors.EVENT_READ, client)
        answer_held(client, left)
    while any(left.values()):
        ready = waits.select(30)
        if not ready:
            raise TimeoutError("nobody is asked to save")
        for key, _ in ready:
            answer(key.data, left)
            answer_held(key.data, left)
    say("%d rounds of %d clients in %.1f seconds" % (count * saves, count, time.monotonic() - began))
    manager.expect("status", "connections %d, records %d, pending 0, epoch 1, idle" % (count, count))
    for client in left:
        client.close()
    manager.shutdown()


def deaf(manager):
    """A client that never reads is dropped when its outbox is full, and others go on."""
    manager.start()
    other, _ = manager.saved()
    silent, _ = manager.saved()
    silent.set(b"Ballast", b"ARRAY8", [bytes(16000)])
    size = len(xsmp.message(1, xsmp.PROPERTIES)) + 16000
    asked = 0
    try:
        while asked * size < 10 * OUTBOX:
            silent.say(xsmp.GET)
            asked += 1
            other.ping()
    except BrokenPipeError:
        pass
    say("dropped after %d bytes of replies" % (asked * size))
    if not OUTBOX < asked * size < OUTBOX + KERNEL:
        raise ValueError("not dropped when the outbox is full")
    manager.expect("status", "connections 1, records 2, pending 0, epoch 1, idle")
    other.close()
    manager.shutdown()


class Slow(xsmp.Client):
    """A client whose every byte comes by itself."""

    def send(self, data):
        for at in range(len(data)):
            super().send(data[at : at + 1])


def slow(manager):
    """A client that sends one byte at a time is served as any other."""
    manager.start()
    client = Slow(manager.socket)
    client.set_up(xsmp.cookie_at(manager.authority, manager.socket))
    client.register()
    client.expect(xsmp.SAVE)
    xsmp.save(client, [b"true", b"slow"])
    client.expect(xsmp.COMPLETE)
    if client.properties()[b"RestartCommand"] != [b"true", b"slow"]:
        raise ValueError("other properties")
    client.close()
    manager.shutdown()


def drain(client):
    """Reads what is there; the end is an error."""
    client.socket.setblocking(False)
    try:
        while True:
            if not client.socket.recv(65536):
                raise EOFError("the manager closed the connection")
    except BlockingIOError:
        pass
    client.socket.settimeout(30)


def frames(size):
    """Frames of random bytes that state their lengths rightly."""
    made = bytearray()
    while len(made) < size:
        body = random.randbytes(8 * random.randrange(600))
        head = random.randbytes(4)
        made += bytes([random.choice((0, 1, head[0]))]) + head[1:] + (len(body) // 8).to_bytes(4, "little") + body
    return bytes(made)


def stranger(manager):
    client = xsmp.Client(manager.socket)
    client.send(xsmp.message(0, xsmp.BYTE_ORDER))
    return client


def registered(manager):
    return manager.join()[0]


def throw(client, made, most):
    """Throws bytes at the manager until it shuts the connection; how many it took at least."""
    thrown = 0
    try:
        while thrown < most:
            chunk = made(65536)
            client.send(chunk)
            thrown += len(chunk)
            drain(client)
    except (EOFError, ConnectionError):
        pass
    client.socket.close()
    return thrown


def noise(manager, total=100_000_000):
    """A hundred million random bytes, behind a lawful first message or behind a whole login."""
    random.seed(7)
    manager.start()
    watcher, _ = manager.saved()
    kinds = [(stranger, random.randbytes), (registered, random.randbytes), (stranger, frames), (registered, frames)]
    thrown, connections, slowest = 0, 0, 0
    while thrown < total:
        opened, made = kinds[connections % len(kinds)]
        thrown += throw(opened(manager), made, 4_000_000)
        connections += 1
        began = time.monotonic()
        watcher.ping()
        slowest = max(slowest, time.monotonic() - began)
    say("%d bytes on %d connections; a ping took %.3f seconds at most" % (thrown, connections, slowest))
    manager.expect("status", "connections 1, records 1, pending 0, epoch 1, idle")
    watcher.close()
    manager.shutdown()


def told(client):
    """All that comes to a client up to the end, by major and minor opcode."""
    found = []
    try:
        while True:
            found.append(client.next()[:2])
    except EOFError:
        return found


def gentle(manager):
    """A client that is shut while it writes an oversize frame reads why, and takes nobody's place."""
    manager.start()
    others = [manager.saved()[0] for _ in range(63)]
    late = registered(manager)
    late.expect(xsmp.SAVE)
    late.send(xsmp.message(xsmp.OPCODE, xsmp.SET, bytes(70_000))[:8])
    time.sleep(0.1)
    for _ in range(70):
        late.send(bytes(1000))
    others.append(manager.saved()[0])
    for other in others:
        other.ping()
    found = told(late)
    if found[-1:] != [(xsmp.OPCODE, xsmp.ERROR)]:
        raise ValueError("it wasn't told why: %r" % found)
    began = time.monotonic()
    try:
        while time.monotonic() - began < 5:
            late.send(bytes(1000))
            time.sleep(0.01)
    except ConnectionError:
        pass
    say("closed %.1f seconds after the end was read" % (time.monotonic() - began))
    if time.monotonic() - began > 3:
        raise ValueError("it isn't closed")
    for other in others:
        other.close()
    manager.shutdown()


def round_of(clients, number):
    """A round for all, in which each notes its number."""
    clients[0].say(xsmp.REQUEST, bytes([1, 0, 0, 0, 1]))
    for client in clients:
        client.expect(xsmp.SAVE)
        client.set(b"Round", b"ARRAY8", [b"%d" % number])
        xsmp.save(client, [b"true"])
    for client in clients:
        client.expect(xsmp.COMPLETE)


def rounds_until_killed(manager, clients, number, most):
    """Kills the manager within so many seconds. The number of the last round that was complete for all."""
    timer = threading.Timer(random.uniform(0, most), manager.kill)
    timer.start()
    try:
        while True:
            round_of(clients, number + 1)
            number += 1
    except (EOFError, ConnectionError):
        return number
    finally:
        timer.join()


def noted(clients):
    """The round that the checkpoint has of each client: of all the same."""
    numbers = {client.properties()[b"Round"][0] for client in clients}
    if len(numbers) != 1:
        raise ValueError("a checkpoint of several rounds: %r" % numbers)
    return int(numbers.pop())


def opened(manager, epoch):
    """The epoch of a manager that has opened the checkpoint of eight clients, later than the one before."""
    line = manager.order("status")
    found = re.fullmatch("connections 0, records 8, pending 0, epoch ([0-9]+), idle", line)
    if not found or int(found[1]) <= epoch:
        raise ValueError("%s, behind epoch %d" % (line, epoch))
    return int(found[1])


def kill_opening(manager):
    """Kills a manager that is at its start, which may not listen yet."""
    manager.begin()
    time.sleep(random.uniform(0, 0.05))
    manager.kill()


def killed(manager, times=200):
    """A manager that is killed at any moment during rounds opens its store again each time."""
    random.seed(11)
    manager.start()
    clients, owns = zip(*[manager.saved() for _ in range(8)])
    began = time.monotonic()
    round_of(clients, 1)
    # A few rounds long, however fast the machine is.
    most = 5 * (time.monotonic() - began)
    epoch, number = 1, rounds_until_killed(manager, clients, 1, most)
    for turn in range(times):
        if turn % 4 == 0:
            kill_opening(manager)
        manager.start()
        epoch = opened(manager, epoch)
        clients = [manager.join(own)[0] for own in owns]
        found = noted(clients)
        if found not in (number, number + 1):
            raise ValueError("round %d was complete, and the checkpoint is of round %d" % (number, found))
        number = rounds_until_killed(manager, clients, found, most)
    say("killed %d times in %d rounds, and %d times at its start" % (times + 1, number, (times + 3) // 4))
    manager.start()
    manager.shutdown()


# In seconds.
PATIENCE = 2


def shut_after(client, began):
    """Waits for the end of a client's stream, and says how many seconds that took since then."""
    drain_to_end(client)
    return time.monotonic() - began


def drain_to_end(client):
    """Reads until the manager has ended the stream, and expects no message more."""
    try:
        found = client.next()
    except EOFError:
        return
    raise ValueError("a silent client was told %r" % (found,))


def talk(client, seconds):
    """Says something four times a second, and answers nothing."""
    end = time.monotonic() + seconds
    while time.monotonic() < end:
        client.set(b"Mood", b"ARRAY8", [b"busy"])
        time.sleep(0.25)


def silent(manager):
    """A client that stays silent is shut after the patience; one that talks, and one that talks with its user, aren't."""
    manager.options = ["--patience", str(PATIENCE * 1000)]
    manager.start()
    (quiet, _), (talking, _), (asking, _), (swift, _) = [manager.saved() for _ in range(4)]
    began = time.monotonic()
    manager.expect("shutdown", "ok")
    for client in (quiet, talking, asking, swift):
        client.expect(xsmp.SAVE)
    xsmp.save(swift, [b"true"])
    asking.say(xsmp.ASK_TALK, second=0)
    asking.expect(xsmp.TALK)
    talker = threading.Thread(target=talk, args=(talking, 3 * PATIENCE))
    talker.start()
    took = shut_after(quiet, began)
    if not PATIENCE <= took < 2 * PATIENCE:
        raise ValueError("the silent client was shut after %.1f seconds" % took)
    talker.join()
    manager.expect("status", "connections 3, records 4, pending 0, epoch 1, shutdown")
    asking.say(xsmp.TALKED)
    for client in (asking, talking):
        xsmp.save(client, [b"true"])
    for client in (asking, talking, swift):
        client.expect(xsmp.DIE)
        client.close()
    status = manager.process.wait(30)
    if status:
        raise ValueError("smd ended with %d" % status)
    say("the silent client was shut %.1f seconds after it was asked" % took)


def patient(manager):
    """Without a patience a client that stays silent is waited for."""
    manager.start()
    quiet, _ = manager.saved()
    manager.expect("checkpoint", "ok")
    quiet.expect(xsmp.SAVE)
    time.sleep(2 * PATIENCE)
    xsmp.save(quiet, [b"true"])
    quiet.expect(xsmp.COMPLETE)
    quiet.close()
    manager.shutdown()


TESTS = {it.__name__: it for it in (crowd, deaf, slow, noise, gentle, silent, patient, killed)}


def main():
    smd, room, name = sys.argv[1:]
    signal.signal(signal.SIGTERM, lambda *_: sys.exit(1))
    try:
        TESTS[name](Manager(smd, room))
    finally:
        Manager.kill_all()


if __name__ == "__main__":
    main()
