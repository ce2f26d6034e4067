#!/usr/bin/env python3
"""Measures `run`: seconds, megabytes of script a second and peak memory on generated scripts, each in four sizes, of
which the next is twice the one before: where time is linear, so are the seconds.

Then it measures lemmas, with `check` on the derivation of each: stars of 5 to 60 cells that are taken apart and dealt out
again, or framed, up to 40 lemmas of framed stars of 2 to 21 cells, and one of 10,000 directives. Behind those of a kind it
prints how bytes and seconds grow with the size, as exponents of it, and what of the limits isn't kept: how long both run
for the largest size, that the derivation of a star has at most 30 MB, and that bytes grow with the cube of the size at most.

Run it at the top of the repository, after the program was built (./mosel does that), or name a program; --lemmas leaves
out the scripts that are measured first:
    python3 bench/run.py [--lemmas] [PROGRAM]
It writes its inputs to bench/out, which isn't kept, and prints a line for each.
"""

import itertools
import math
import os
import subprocess
import sys
import time

TOP = os.path.dirname(os.path.dirname(os.path.abspath(__file__)))
PROGRAM = os.path.join(TOP, "crates", "mosel", "out", "mosel")
OUT = os.path.join(TOP, "bench", "out")
LIMIT = 16_777_216


def kept(count):
    """Small lemmas, each with its proof."""
    for n in range(count):
        yield b'Lemma keep_%d : %d \xe2\x86\xa6 1 \xe2\x8a\xa2 %d \xe2\x86\xa6 1. iIntros "H". iExact "H". Qed.\n' % (n, n, n)


def filled(size, head, piece, tail=b""):
    """A head, a piece as often as it fits, and a tail."""
    yield head
    count = (size - len(head) - len(tail)) // len(piece)
    while count > 0:
        now = min(count, 4096)
        yield piece * now
        count -= now
    yield tail


def small_lemmas(size):
    """10,000 of them in the largest size, as many as a script may prove."""
    return kept(10_000 * size // LIMIT)


def long_lemmas(size):
    """As many, so long that they fill the script: stars of 59 cells on both sides."""
    for n in range(10_000 * size // LIMIT):
        stars = b" * ".join(b"%d |-> %d" % (n, k) for k in range(59))
        yield b'Lemma long_%d : %s |- %s. iIntros "H". iExact "H". Qed.\n' % (n, stars, stars)


def wide_lemmas(size):
    """1,000 of them in the largest size: 60 left sides, of which the first is the conclusion."""
    for n in range(1_000 * size // LIMIT):
        sides = b" -* ".join(b"%d |-> %d" % (n, k) for k in range(60))
        intros = b"".join(b' iIntros "H%d".' % k for k in range(60))
        yield b'Lemma wide_%d : %s -* %d |-> 0.%s iExact "H0". Qed.\n' % (n, sides, n, intros)


def blanks(size):
    return filled(size, b"".join(kept(100)), b" ")


def comment(size):
    return filled(size, b"".join(kept(100)) + b"(* ", b"x", b" *)")


def sentences(size):
    """The shortest sentences that do something."""
    return filled(size, b"Lemma many : True -* True. ", b"Proof. ", b'iIntros "H". iExact "H". Qed.')


def wands(size):
    """One sentence that is too deep."""
    return filled(size, b"Lemma long : True", b" -* True", b".")


def parentheses(size):
    """One sentence that is too deep, where no parenthesis is closed."""
    return filled(size, b"Lemma deep : ", b"(", b".")


def tree(size):
    """One sentence that is read whole and has too many nodes."""
    stars, used = b"True", len(b"Lemma tree : .")
    while 2 * len(stars) + 3 <= size - used:
        stars = b"(%s*%s)" % (stars, stars)
    yield b"Lemma tree : %s." % stars


def names(size):
    """One sentence with many names between quotes, which is refused at the second one."""
    return filled(size, b'Lemma many : True -* True. iIntros "', b"H ", b'".')


def parameters(size):
    """One predicate with many parameters."""
    left = size - len(b"Predicate p() := True.")
    yield b"Predicate p("
    for n in itertools.count():
        more = (b", " if n else b"") + b"x%d" % n
        if len(more) > left:
            break
        yield more
        left -= len(more)
    yield b") := True."


KINDS = (small_lemmas, long_lemmas, wide_lemmas, blanks, comment, sentences, wands, parentheses, tree, names, parameters)


def dealt(cells):
    """A star of so many cells, of which each is handed to its place in the star that stands the other way round."""
    star = [b"%d |-> %d" % (j, j) for j in range(cells)]
    names = [b"H%d" % j for j in range(cells)]
    yield b"Lemma dealt : %s |- %s.\n" % (b" * ".join(star), b" * ".join(reversed(star)))
    yield b'iIntros "(%s)".\n' % b" & ".join(names)
    for name in reversed(names[1:]):
        yield b'iSplitL "%s". iExact "%s".\n' % (name, name)
    yield b'iExact "%s". Qed.\n' % names[0]


def framed_lemma(first, cells):
    """A star of so many cells, which is framed, cell by cell, in the star that stands the other way round."""
    star = [b"%d |-> %d" % (first + j, j) for j in range(cells)]
    names = [b"H%d" % j for j in range(cells)]
    yield b"Lemma g%d : %s |- %s.\n" % (first, b" * ".join(star), b" * ".join(reversed(star)))
    yield b'iIntros "(%s)". iFrame. Qed.\n' % b" & ".join(names)


def framed(cells):
    """One such star."""
    yield from framed_lemma(0, cells)


def generated(lemmas):
    """So many lemmas of such stars, of 2 to 21 cells by turns."""
    for n in range(lemmas):
        yield from framed_lemma(n, n % 20 + 2)


def reverted(directives):
    """So many directives, an even number: a hypothesis comes and goes."""
    yield b"Lemma reverted : 1 |-> 2 |- 1 |-> 2.\n"
    yield b'iIntros "H".\n'
    for _ in range(directives // 2 - 1):
        yield b'iRevert "H". iIntros "H".\n'
    yield b'iExact "H". Qed.\n'


LEMMAS = {
    dealt: (5, 10, 20, 40, 60),
    framed: (5, 10, 20, 40, 60),
    generated: (10, 20, 40),
    reverted: (1_250, 2_500, 5_000, 10_000),
}

# of the largest size
MOST_SECONDS = {dealt: 0.5, framed: 1, generated: 0.3}
MOST_MB = 30
MOST_GROWTH = 3


def write(kind, size, path):
    """Writes the script in another process: one that is started counts what its parent held as its own peak."""
    command = [sys.executable, os.path.abspath(__file__), "--write", kind.__name__, str(size), path]
    subprocess.run(command, check=True)
    return os.path.getsize(path)


def measure(program, path):
    with open(path, "rb") as source:
        start = time.monotonic()
        process = subprocess.Popen([program, "run"], stdin=source, stdout=subprocess.PIPE)
        first = process.stdout.readline()
        written = len(first)
        while piece := process.stdout.read(1 << 16):
            written += len(piece)
        _, status, usage = os.wait4(process.pid, 0)
        seconds = time.monotonic() - start
    answer = first.decode().strip()
    if os.waitstatus_to_exitcode(status) == 0:
        answer = f"{written / 1e6:.1f} MB of derivation"
    return answer, seconds, usage.ru_utime + usage.ru_stime, usage.ru_maxrss * 1024


def run_to(command, source, target):
    """Seconds, seconds of it run, and peak memory of a command that reads one file and writes another, and must end well.
    Memory is that of the child, whose parent is small."""
    with open(source, "rb") as reads, open(target, "wb") as writes:
        start = time.monotonic()
        process = subprocess.Popen(command, stdin=reads, stdout=writes)
        _, status, usage = os.wait4(process.pid, 0)
        seconds = time.monotonic() - start
    if os.waitstatus_to_exitcode(status) != 0:
        sys.exit(f"{' '.join(command)} < {source}: status {os.waitstatus_to_exitcode(status)}")
    return seconds, usage.ru_utime + usage.ru_stime, usage.ru_maxrss * 1024


def prove(program, kind, size):
    """Runs a lemma and checks its derivation: bytes of that, seconds of both together, seconds that each of them ran, and
    the larger peak."""
    script, derivation, answer = (os.path.join(OUT, name) for name in ("script.mosel", "derivation", "answer"))
    with open(script, "wb") as target:
        target.writelines(kind(size))
    run_seconds, ran, run_peak = run_to([program, "run"], script, derivation)
    check_seconds, checked, check_peak = run_to([program, "check"], derivation, answer)
    with open(answer, "rb") as text:
        last = text.read().splitlines()[-1].decode()
    if last != f"accepted: {size if kind is generated else 1} statements":
        sys.exit(f"{kind.__name__} {size}: {last}")
    return os.path.getsize(derivation), run_seconds + check_seconds, ran, checked, max(run_peak, check_peak)


def exponent(rows, column):
    """By how much the column's logarithm grows with that of the size, from the first row to the last one."""
    first, last = rows[0], rows[-1]
    return math.log(max(last[column], 1e-3) / max(first[column], 1e-3)) / math.log(last[0] / first[0])


def beyond(kind, rows):
    """What of the limits the largest size doesn't keep."""
    _, written, busy = rows[-1]
    growth = exponent(rows, 1)
    if busy >= MOST_SECONDS[kind]:
        yield f"runs for {busy:.3f} seconds, and under {MOST_SECONDS[kind]} are wanted"
    if written > MOST_MB * 1e6:
        yield f"has {written / 1e6:.1f} MB of derivation, and at most {MOST_MB} are wanted"
    if growth > MOST_GROWTH:
        yield f"grows in bytes with the power {growth:.2f}, and at most {MOST_GROWTH} is wanted"


def lemmas(program):
    print(f"{'lemma':<12} {'size':>6} {'MB':>8} {'seconds':>8} {'run ran':>8} {'check ran':>9} {'MB/s':>7} {'peak MB':>8}")
    for kind, sizes in LEMMAS.items():
        rows = []
        for size in sizes:
            written, seconds, ran, checked, peak = prove(program, kind, size)
            busy = ran + checked
            rows.append((size, written, busy))
            print(f"{kind.__name__:<12} {size:>6} {written / 1e6:>8.3f} {seconds:>8.3f} {ran:>8.3f} {checked:>9.3f} {written / 1e6 / max(busy, 1e-3):>7.1f} {peak / 1e6:>8.1f}", flush=True)
        grown = ", ".join(f"{name} {exponent(rows, column):.2f}" for column, name in ((1, "bytes"), (2, "seconds run")))
        print(f"{kind.__name__:<12} grows with the size to the power of: {grown}")
        if kind in MOST_SECONDS:
            for line in beyond(kind, rows):
                print(f"{kind.__name__:<12} {line}")


def scripts(program):
    path = os.path.join(OUT, "script.mosel")
    print(f"{'script':<12} {'MB':>6} {'seconds':>8} {'of it run':>9} {'MB/s':>7} {'peak MB':>8}  answer")
    for kind in KINDS:
        for part in (8, 4, 2, 1):
            mb = write(kind, LIMIT // part, path) / 1e6
            answer, seconds, busy, peak = measure(program, path)
            print(f"{kind.__name__:<12} {mb:>6.2f} {seconds:>8.3f} {busy:>9.3f} {mb / busy:>7.1f} {peak / 1e6:>8.1f}  {answer}", flush=True)


def main(words):
    only_lemmas = words[:1] == ["--lemmas"]
    program = next(iter(words[only_lemmas:]), PROGRAM)
    if not os.path.exists(program):
        sys.exit("build the program first: ./mosel check < examples/swap.derivation")
    os.makedirs(OUT, exist_ok=True)
    if not only_lemmas:
        scripts(program)
    lemmas(program)


if __name__ == "__main__":
    if sys.argv[1:2] == ["--write"]:
        with open(sys.argv[4], "wb") as target:
            for piece in globals()[sys.argv[2]](int(sys.argv[3])):
                target.write(piece)
    else:
        main(sys.argv[1:])
