#!/bin/sh
# Times `smd rehearse` or `smtrace show` on texts of at most 1 MiB and 16 MiB, and prints the ratio of
# the two times against that of the two sizes. The texts are scripts, and traces as well.
# Usage: bench/times.sh rehearse|show [PROGRAM]. Without a program, that which `tools/build` builds.
set -eu
top=$(cd "$(dirname "$0")/.." && pwd)
case ${1:?usage: bench/times.sh rehearse or show} in
rehearse) name=smd ;;
show) name=smtrace ;;
*) echo "bench/times.sh: no word $1" >&2; exit 2 ;;
esac
exec python3 - "$1" "${2:-$top/crates/$name/out/$name}" <<'END'
import subprocess
import sys
import tempfile
import time

ORDER = bytes([0, 1, 0, 0, 0, 0, 0, 0])
PING = bytes([0, 9, 0, 0, 0, 0, 0, 0])
SMALL = 1 << 20
LARGE = 16 << 20


def script(size, width):
    """One client that pings: its stream in pieces of `width` bytes, in at most `size` bytes."""
    stream = PING.hex() * max(1, width // 8)
    pieces = ["piece 1 %s\n" % stream[at : at + 2 * width] for at in range(0, len(stream), 2 * width)]
    return fill("join 1\npiece 1 %s\n" % ORDER.hex(), ["".join(pieces)], size)


def crowd(size):
    """64 clients that ping in turn, in at most `size` bytes."""
    head = "".join("join %d\npiece %d %s\n" % (n, n, ORDER.hex()) for n in range(1, 65))
    return fill(head, ["piece %d %s\n" % (n, PING.hex()) for n in range(1, 65)], size)


def fill(head, turns, size):
    """What comes first, and then these turns again and again, as far as they fit."""
    block = "".join(turns)
    text = head + block * ((size - len(head)) // len(block))
    for turn in turns:
        if len(text) + len(turn) > size:
            break
        text += turn
    return text


def seconds(word, program, text):
    with tempfile.TemporaryFile() as file:
        file.write(text.encode())
        best = None
        for _ in range(3):
            file.seek(0)
            begin = time.monotonic()
            run = subprocess.run([program, word], stdin=file, stdout=subprocess.PIPE)
            took = time.monotonic() - begin
            assert run.returncode == 0, run.returncode
            assert run.stdout.endswith(b"\nend\n" if word == "rehearse" else b"Ping\n")
            best = took if best is None else min(best, took)
        return best


word, program = sys.argv[1:]
kinds = [
    ("a byte a piece", lambda size: script(size, 1)),
    ("a ping a piece", lambda size: script(size, 8)),
    ("8192 pings a piece", lambda size: script(size, 65536)),
    ("64 clients, a ping a piece", crowd),
]
for name, made in kinds:
    texts = [made(SMALL), made(LARGE)]
    times = [seconds(word, program, text) for text in texts]
    print(
        "%s: %.3f s for %d bytes, %.3f s for %d bytes: %.1f times as long, for %.1f times as much"
        % (name, times[0], len(texts[0]), times[1], len(texts[1]), times[1] / times[0], len(texts[1]) / len(texts[0]))
    )
END
