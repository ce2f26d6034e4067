#!/usr/bin/env python3
"""Measures `check`: seconds, megabytes a second and peak memory on generated derivations.

Run it at the top of the repository, after the program was built (./mosel does that), or name a program:
    python3 bench/check.py [PROGRAM]
It writes its inputs to bench/out, which isn't kept, and prints a line for each, with the last line of the answer. The last
input has many statements of one large formula; of it is printed also what it takes beyond the process and what is printed.
"""

import itertools
import os
import string
import subprocess
import sys
import time

TOP = os.path.dirname(os.path.dirname(os.path.abspath(__file__)))
PROGRAM = os.path.join(TOP, "crates", "mosel", "out", "mosel")
OUT = os.path.join(TOP, "bench", "out")
HEADER = b"mosel-derivation 1\narities 1\npred p pure eq v0 0\n"
PREMISES = dict.fromkeys((b"trans", b"and-i", b"or-e", b"sep-mono"), 2) | dict.fromkeys(
    (b"inst", b"imp-i", b"imp-e", b"all-i", b"ex-e", b"wand-i", b"wand-e", b"later-mono", b"pers-mono", b"upd-mono"), 1
)
SIZES = (1_000_000, 4_000_000, 16_000_000, 64_000_000)


def swaps():
    """Proof lines of two points-tos that change places."""
    for n in itertools.count(1):
        yield b"%d sep-comm 0 sep pts %d 720720 2 pts 3 5 -4 sep pts 3 5 -4 pts %d 720720 2\n" % (n, n, n)


def chains():
    """Proof lines that cite the lines before them."""
    yield b"1 refl 0 sep pure T pure T sep pure T pure T\n"
    for n in itertools.count(2):
        yield b"%d trans 0 %d 1 sep pure T pure T sep pure T pure T\n" % (n, n - 1)


def shortest():
    """The shortest proof lines, of which the most fit."""
    for n in itertools.count(1):
        yield b"%d refl 0 pure T pure T\n" % n


def statements():
    """As many statements as fit, each with the shortest name that is left."""
    yield b"1 refl 0 pure T pure T\n"
    first = string.ascii_letters + "_"
    later = first + string.digits + "'"
    for length in itertools.count(1):
        for head in first:
            for tail in itertools.product(later, repeat=length - 1):
                name = head + "".join(tail)
                if name not in ("forall", "exists", "emp", "True", "False"):
                    yield b"qed %s 1\n" % name.encode()


def rules():
    """The proof lines of examples/rules.derivation, by each rule, again and again."""
    with open(os.path.join(TOP, "examples", "rules.derivation"), "rb") as source:
        lines = [line.split(b" ") for line in source if line[:1].isdigit()]
    for before in itertools.count(0, len(lines)):
        for line in lines:
            number, rule, variables, *rest = line
            cites = PREMISES.get(rule, 0)
            numbers = [b"%d" % (before + int(n)) for n in (number, *rest[:cites])]
            yield b" ".join([numbers[0], rule, variables, *numbers[1:], *rest[cites:]])


def copies():
    """A line whose right side has 4,095 signs, by doubling, and a thousand statements of it."""
    formula = b"pure T"
    yield b"1 refl 0 pure T pure T\n"
    for n in range(2, 13):
        formula = b"and %s %s" % (formula, formula)
        yield b"%d and-i 0 %d %d pure T %s\n" % (n, n - 1, n - 1, formula)
    for n in range(1000):
        yield b"qed q%d 12\n" % n


def generate(kind, size, path):
    """Writes the text line by line: a process that is started counts what its parent held as its own peak."""
    left = size - len(HEADER)
    with open(path, "wb") as target:
        target.write(HEADER)
        for line in kind():
            if len(line) > left:
                break
            target.write(line)
            left -= len(line)
    return size - left


def measure(program, path):
    with open(path, "rb") as source:
        start = time.monotonic()
        process = subprocess.Popen([program, "check"], stdin=source, stdout=subprocess.PIPE)
        end, written = b"", 0
        while piece := process.stdout.read(1 << 16):
            end = (end + piece)[-200:]
            written += len(piece)
        _, status, usage = os.wait4(process.pid, 0)
        seconds = time.monotonic() - start
    answer = end.decode(errors="replace").strip().rsplit("\n", 1)[-1]
    return answer, os.waitstatus_to_exitcode(status), seconds, usage.ru_maxrss * 1024, written


def bare(program):
    """The peak of a process that waits for its first byte. (What its end tells counts the memory of its parent, this script,
    which is more than it has itself.)"""
    with subprocess.Popen([program, "check"], stdin=subprocess.PIPE, stdout=subprocess.DEVNULL) as process:
        time.sleep(0.5)
        with open(f"/proc/{process.pid}/status") as status:
            peak = next(line for line in status if line.startswith("VmHWM:"))
    return int(peak.split()[1]) * 1024


def report(program, kind, size, path):
    length = generate(kind, size, path)
    answer, status, seconds, peak, written = measure(program, path)
    mb = length / 1e6
    print(
        f"{kind.__name__:<12} {mb:>6.1f} {seconds:>8.3f} {mb / seconds:>7.1f} {peak / 1e6:>8.1f}"
        f" {peak / length:>6.1f}  {answer} ({status})",
        flush=True,
    )
    return peak, written


def main(program):
    if not os.path.exists(program):
        sys.exit("build the program first: ./mosel check < examples/swap.derivation")
    os.makedirs(OUT, exist_ok=True)
    print(f"{'input':<12} {'MB':>6} {'seconds':>8} {'MB/s':>7} {'peak MB':>8} {'times':>6}  answer")
    for kind in (rules, swaps, chains, shortest, statements):
        for size in SIZES:
            report(program, kind, size, os.path.join(OUT, f"{kind.__name__}-{size}"))
    peak, written = report(program, copies, SIZES[0], os.path.join(OUT, copies.__name__))
    process = bare(program)
    print(
        f"of the last: {(peak - process - written) / 1e6:.1f} MB beyond the process ({process / 1e6:.1f} MB) and what it"
        f" printed ({written / 1e6:.1f} MB); at most 5 are wanted"
    )


if __name__ == "__main__":
    main(sys.argv[1] if sys.argv[1:] else PROGRAM)
