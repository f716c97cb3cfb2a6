#!/bin/sh
# Measures the most memory that `smtrace show` takes for a trace of a million connections, on each of
# which a byte came, and for one of a single connection. It fails where that is more than 16 times the
# trace.
# Usage: bench/memory.sh [PROGRAM]. Without a program, that which `tools/build` builds.
set -eu
top=$(cd "$(dirname "$0")/.." && pwd)
exec python3 - "${1:-$top/crates/smtrace/out/smtrace}" <<'END'
import os
import sys
import tempfile

LIMIT = 16


def crowd():
    return "".join("piece %d 00\n" % n for n in range(1, 1_000_001))


def single():
    return "join 1\n" + "piece 1 0001000000000000\n" + "piece 1 0009000000000000\n" * 600_000


def peak(program, text):
    """The most memory, in bytes, that a run on this trace held at once."""
    with tempfile.TemporaryFile() as file:
        file.write(text.encode())
        file.seek(0)
        child = os.fork()
        if child == 0:
            os.dup2(file.fileno(), 0)
            os.dup2(os.open(os.devnull, os.O_WRONLY), 1)
            os.execv(program, [program, "show"])
        _, status, used = os.wait4(child, 0)
        assert os.waitstatus_to_exitcode(status) == 0, status
        return used.ru_maxrss * 1024


program = sys.argv[1]
worst = 0
for name, text in [("a million connections", crowd()), ("one connection", single())]:
    most = peak(program, text)
    worst = max(worst, most / len(text))
    print("%s: %d bytes of trace, %d MB of memory, %.1f times as much" % (name, len(text), most >> 20, most / len(text)))
sys.exit(worst > LIMIT)
END
