#!/bin/sh
# Times many checkpoints of 8 and of 64 clients in `smd rehearse`. Each client says how it is started
# again, so each checkpoint is written with as many entries as there are clients. It prints what one
# round takes in a run of few rounds and in one of five times as many, without what the logins take, and
# fails where a round takes more than twice as long behind many rounds as behind few.
# Usage: bench/rounds.sh [PROGRAM]. Without a program, that which `tools/build` builds.
set -eu
top=$(cd "$(dirname "$0")/.." && pwd)
exec python3 - "${1:-$top/crates/smd/out/smd}" "$top/examples/checkpoint.script" <<'END'
import subprocess
import sys
import tempfile
import time

FEW = 1000
MANY = 5000
REGISTER = "01010000010000000000000000000000"
SAVED = "0108010000000000"


def array8(text):
    padded = len(text).to_bytes(4, "little") + text
    return padded + bytes(-len(padded) % 8)


def restart_command():
    """A SetProperties that says by which command the client is started again."""
    values = (1).to_bytes(4, "little") + bytes(4) + array8(b"editor")
    body = (1).to_bytes(4, "little") + bytes(4) + array8(b"RestartCommand") + array8(b"LISTofARRAY8") + values
    return (bytes([1, 12, 0, 0]) + (len(body) // 8).to_bytes(4, "little") + body).hex()


def script(login, clients, rounds):
    lines = []
    for n in range(1, clients + 1):
        lines += ["join %d" % n, "piece %d %s" % (n, login)]
        lines += ["piece %d %s" % (n, said) for said in (REGISTER, restart_command(), SAVED)]
    for _ in range(rounds):
        lines += ["order checkpoint"] + ["piece %d %s" % (n, SAVED) for n in range(1, clients + 1)]
    return "\n".join(lines + ["order status"]) + "\n"


def seconds(program, text, clients):
    with tempfile.TemporaryFile() as file:
        file.write(text.encode())
        best = None
        for _ in range(3):
            file.seek(0)
            begin = time.monotonic()
            run = subprocess.run([program, "rehearse"], stdin=file, stdout=subprocess.PIPE)
            took = time.monotonic() - begin
            assert run.returncode == 0, run.returncode
            assert b"records %d, pending 0, epoch 1, idle\nend\n" % clients in run.stdout
            best = took if best is None else min(best, took)
        return best


program, example = sys.argv[1:]
with open(example) as file:
    login = next(line.split()[2] for line in file if line.startswith("piece 1 "))
failed = False
for clients in (8, 64):
    none, few, many = [seconds(program, script(login, clients, rounds), clients) for rounds in (0, FEW, MANY)]
    first = (few - none) / FEW
    later = (many - none) / MANY
    print(
        "%d clients: %.0f microseconds a round in %d rounds, %.0f in %d: %.2f times as long"
        % (clients, first * 1e6, FEW, later * 1e6, MANY, later / first)
    )
    failed = failed or later > 2 * first
sys.exit(failed)
END
