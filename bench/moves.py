#!/usr/bin/env python3
"""Measures proofs: moves in stars of 10 to 80 places, and trees of 1,000 to 1,000,000 levels. For each it prints the proof
lines and bytes of the derivation, seconds, megabytes written a second and peak memory; of trees, all of whose rules say the
same and so share few lines, bytes of memory a rule, which are to be at most 300; behind those of a kind how its lines, bytes
and seconds grow with the size, as exponents of it. Each derivation is then judged by `mosel check`.

Run it at the top of the repository, after both programs were built (./mosel builds one, `rt run` in crates/measure the
other), or name them:
    python3 bench/moves.py [MEASURE MOSEL]
It writes the derivations to bench/out, which isn't kept.
"""

import math
import os
import subprocess
import sys
import time

TOP = os.path.dirname(os.path.dirname(os.path.abspath(__file__)))
PROGRAMS = [os.path.join(TOP, "crates", name, "out", name) for name in ("measure", "mosel")]
OUT = os.path.join(TOP, "bench", "out")
KINDS = {
    "bring_front": (10, 20, 40, 80),
    "partition": (10, 20, 40, 80),
    "tree": (1_000, 10_000, 100_000, 1_000_000),
}


def run(command, source, target):
    """Seconds and peak memory of a program that must end well. Memory is that of the child, whose parent is small."""
    start = time.monotonic()
    process = subprocess.Popen(command, stdin=source, stdout=target)
    _, status, usage = os.wait4(process.pid, 0)
    seconds = time.monotonic() - start
    if os.waitstatus_to_exitcode(status) != 0:
        sys.exit(f"{' '.join(command)}: status {os.waitstatus_to_exitcode(status)}")
    return seconds, usage.ru_utime + usage.ru_stime, usage.ru_maxrss * 1024


def rules_of(kind, size):
    """How many rules the proof has, where that is known: of a tree two for each level, and one more."""
    return 2 * size + 1 if kind == "tree" else None


def lines_of(path):
    """How many proof lines the derivation has: all but two of its table and one of its statement."""
    with open(path, "rb") as text:
        return sum(piece.count(b"\n") for piece in iter(lambda: text.read(1 << 20), b"")) - 3


def check(mosel, path):
    answer = os.path.join(OUT, "answer")
    with open(path, "rb") as source, open(answer, "wb") as target:
        seconds, _, _ = run([mosel, "check"], source, target)
    with open(answer, "rb") as target:
        last = target.read().splitlines()[-1].decode()
    if last != "accepted: 1 statements":
        sys.exit(f"{path}: {last}")
    return seconds


def exponent(rows, column):
    """By how much the column's logarithm grows with that of the size, from the first row to the last one."""
    first, last = rows[0], rows[-1]
    return math.log(max(last[column], 1e-3) / max(first[column], 1e-3)) / math.log(last[0] / first[0])


def main(measure, mosel):
    for program in (measure, mosel):
        if not os.path.exists(program):
            sys.exit(f"build {program} first")
    os.makedirs(OUT, exist_ok=True)
    path = os.path.join(OUT, "derivation")
    with open(path, "wb") as target:
        base = run([measure, "tree", "0"], subprocess.DEVNULL, target)[2]
    print(f"{'kind':<12} {'size':>9} {'lines':>9} {'MB':>8} {'seconds':>8} {'of it run':>9} {'MB/s':>7} {'peak MB':>8} {'B a rule':>9} {'check s':>8}")
    for kind, sizes in KINDS.items():
        rows = []
        for size in sizes:
            with open(path, "wb") as target:
                seconds, busy, peak = run([measure, kind, str(size)], subprocess.DEVNULL, target)
            written, lines, rules = os.path.getsize(path), lines_of(path), rules_of(kind, size)
            each = f"{(peak - base) / rules:.0f}" if rules else ""
            judged = check(mosel, path)
            rows.append((size, lines, written, busy))
            print(f"{kind:<12} {size:>9} {lines:>9} {written / 1e6:>8.3f} {seconds:>8.3f} {busy:>9.3f} {written / 1e6 / max(busy, 1e-3):>7.1f} {peak / 1e6:>8.1f} {each:>9} {judged:>8.3f}", flush=True)
        grown = ", ".join(f"{name} {exponent(rows, column):.2f}" for column, name in ((1, "lines"), (2, "bytes"), (3, "seconds")))
        print(f"{kind:<12} grows with the size to the power of: {grown}")


if __name__ == "__main__":
    main(*(sys.argv[1:3] if len(sys.argv) > 2 else PROGRAMS))
