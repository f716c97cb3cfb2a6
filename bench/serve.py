#!/usr/bin/env python3
"""Measures `smd serve`: round trips of a Ping, rounds of saves, idle processor time, and memory.
Usage: bench/serve.py [SMD [FOLDER]]. Without a program, that which `tools/build` builds. The folder lies on the
disk that is measured; without one it is a temporary folder. What a figure is measured against is measured in the
same run: a bare process that gives back what it reads, and bare writes to the same disk.
"""
import os
import subprocess
import sys
import tempfile
import time

TOP = os.path.dirname(os.path.dirname(os.path.abspath(__file__)))
sys.dont_write_bytecode = True
sys.path.insert(0, os.path.join(TOP, "peers"))
from manager import Manager  # noqa: E402

SECONDS = 3


def built(folder):
    driver = os.path.join(folder, "driver")
    source = os.path.join(TOP, "bench", "driver.c")
    subprocess.run(["gcc", "-Wall", "-Wextra", "-Werror", "-O2", "-o", driver, source], check=True)
    return driver


def driven(driver, what, clients):
    numbers = [str(client.socket.fileno()) for client in clients]
    fds = [int(number) for number in numbers]
    return float(subprocess.check_output([driver, what, str(SECONDS), *numbers], pass_fds=fds))


def bare_echo(driver, count):
    return float(subprocess.check_output([driver, "echo", str(SECONDS), str(count)]))


def with_clients(smd, folder, count, measure):
    """What is measured of a manager with so many clients that have saved."""
    with tempfile.TemporaryDirectory(dir=folder) as room:
        manager = Manager(smd, room)
        manager.start()
        try:
            clients = [manager.saved()[0] for _ in range(count)]
            for client in clients:
                client.socket.settimeout(None)
            return measure(manager, clients)
        finally:
            manager.kill()


def bare_commits(folder, size):
    """How many times a second three synced writes are made, of one byte, of so many bytes and of one byte."""
    with tempfile.NamedTemporaryFile(dir=folder) as file:
        os.pwrite(file.fileno(), bytes(2 * size), 0)
        os.fsync(file.fileno())
        begun, count = time.monotonic(), 0
        while time.monotonic() - begun < SECONDS:
            for data in (b"\0", bytes(size), b"\1"):
                os.pwrite(file.fileno(), data, 0)
                os.fdatasync(file.fileno())
            count += 1
        return count / (time.monotonic() - begun)


def processor_time(manager):
    with open("/proc/%d/stat" % manager.process.pid) as file:
        fields = file.read().rsplit(")", 1)[1].split()
    return (int(fields[11]) + int(fields[12])) / os.sysconf("SC_CLK_TCK")


def idle_share(manager, _):
    time.sleep(1)
    before = processor_time(manager)
    time.sleep(10)
    return (processor_time(manager) - before) / 10


def memory(manager, _):
    with open("/proc/%d/status" % manager.process.pid) as file:
        lines = dict(line.split(":", 1) for line in file)
    return int(lines["VmHWM"].split()[0])


def pings(smd, driver):
    for count in (1, 8, 64):
        bare = bare_echo(driver, count)
        rate = with_clients(smd, None, count, lambda _, clients: driven(driver, "ping", clients))
        print("%d clients: %.0f trips a second, %.2g times what a bare echo makes" % (count, rate, rate / bare))


def rounds(smd, driver, folder, name):
    for count in (8, 64):
        bare = bare_commits(folder, 200 * count)
        rate = with_clients(smd, folder, count, lambda _, clients: driven(driver, "round", clients))
        print(
            "%d clients, store on %s: %.0f rounds a second, %.2g times the bare commits there"
            % (count, name, rate, rate / bare)
        )


def main():
    smd = sys.argv[1] if len(sys.argv) > 1 else os.path.join(TOP, "crates", "smd", "out", "smd")
    disk = sys.argv[2] if len(sys.argv) > 2 else None
    print("%d processors, load %.1f" % (os.cpu_count(), os.getloadavg()[0]))
    with tempfile.TemporaryDirectory() as folder:
        driver = built(folder)
        pings(smd, driver)
        rounds(smd, driver, "/dev/shm", "a RAM disk")
        rounds(smd, driver, disk, "a disk")
    print("64 idle clients: %.2f %% of a processor" % (100 * with_clients(smd, None, 64, idle_share)))
    none, full = [with_clients(smd, None, count, memory) for count in (0, 64)]
    print("memory: %d kB without clients, %d kB with 64, %.2f times as much" % (none, full, full / none))
    print("load %.1f at the end" % os.getloadavg()[0])


if __name__ == "__main__":
    main()
