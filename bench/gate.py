#!/usr/bin/env python3
"""Measures what the gate costs, crate by crate, in processor minutes (user and system).

    python3 bench/gate.py run [--at FOLDER] [--processors N] [--jobs-note]
        Clones HEAD into a folder that is new, FOLDER or a temporary one (which is removed), runs `rt ci --anew` there,
        and prints the table. Nothing that earlier runs kept is used. With --processors it runs on the first N alone;
        with --jobs-note it also prints how many checks had how many jobs.
    python3 bench/gate.py watch [LOG] [--seconds N]
        Measures the `rt` commands that run on this machine, whoever started them, until Ctrl-C or for N seconds.
    python3 bench/gate.py table LOG
        Prints the table of a log.
    python3 bench/gate.py slow [FOLDER] [--table LOG]
        Lists the files of at least 4 MB in FOLDER/crates/*/out (after `rt check` these are the functions that are dear
        to prove), and with a log the longest chain of crates: what the gate takes at least, however many processors
        there are.

Logs are in bench/out, which isn't kept: a line for each process that `rt` started, once it ended.

What a process took is exact to a few hundredths of a second: /proc is looked at each 0.2 s, and once a process is gone, the
time that its `rt` has waited for (cutime and cstime, which the kernel adds up) has grown by the whole of it, its own
children's too. Where several end between two looks, each gets what was last seen of it and a share of the rest by its jobs,
so a part of a second may stand in the wrong crate, and the sum is right. What lives for less than a look is counted among
rt's short calls. Of a process in whose last look `rt` ended too, the time after that look is lost.
"""

import collections
import os
import re
import resource
import shutil
import signal
import subprocess
import sys
import tempfile
import time

TOP = os.path.dirname(os.path.dirname(os.path.abspath(__file__)))
OUT = os.path.join(TOP, "bench", "out")
LOOK = 0.2
SEARCH = 2.0
TICK = os.sysconf("SC_CLK_TCK")
SLOW = 4_000_000
KINDS = ("proof", "tests", "base", "edit", "part", "build", "run", "other", "not seen", "rt")
Times = collections.namedtuple("Times", "born own waited")


def times_of(pid):
    """When a process was born, what it took itself, and what those that it waited for took, in ticks."""
    try:
        with open(f"/proc/{pid}/stat", "rb") as file:
            fields = file.read().rpartition(b")")[2].split()
    except OSError:
        return None
    return Times(int(fields[19]), int(fields[11]) + int(fields[12]), int(fields[13]) + int(fields[14]))


def whole_of(pid, times):
    """What a process took with all below it, those that are still there too, in ticks: at least that, should one end meanwhile."""
    whole = times.own + times.waited
    for child in children_of(pid):
        seen = times_of(child)
        whole += whole_of(child, seen) if seen else 0
    return whole


def age_of(born):
    """How many seconds ago a process was born."""
    with open("/proc/uptime", "rb") as file:
        return float(file.read().split()[0]) - born / TICK


def words_of(pid):
    try:
        with open(f"/proc/{pid}/cmdline", "rb") as file:
            return file.read().decode(errors="replace").split("\0")[:-1]
    except OSError:
        return []


def folder_of(pid):
    try:
        return os.readlink(f"/proc/{pid}/cwd")
    except OSError:
        return "?"


def children_of(pid):
    found = []
    try:
        for thread in os.listdir(f"/proc/{pid}/task"):
            with open(f"/proc/{pid}/task/{thread}/children", "rb") as file:
                found += [int(it) for it in file.read().split()]
    except OSError:
        pass
    return found


def after(words, flag):
    return next((value for word, value in zip(words, words[1:]) if word == flag), "")


def is_rt(words):
    """Whether these words start `rt`, which is a Python script."""
    places = words[:2] if words and os.path.basename(words[0]).startswith("python") else words[:1]
    return any(os.path.basename(it) == "rt" for it in places)


def edit_name(repository, crate, number):
    """The name of an edit by its place, as rt counts them."""
    folder = os.path.join(repository, "crates", crate, "must-fail")
    try:
        names = sorted(it for it in os.listdir(folder) if re.fullmatch(r"[\w-][\w.-]*\.edit", it))
        return names[int(number)]
    except (OSError, ValueError, IndexError):
        return f"edit {number}"


def classify(words, folder, repository):
    """The crate, the kind and the detail of a process that rt started; None while it isn't yet what it will be."""
    program = os.path.basename(words[0]) if words else ""
    if not program or program.startswith("python") and "-ISc" in words[:2] or is_rt(words):
        return None
    runs = re.search(r"/rt-run-[^/]*/bin/(\w+?)(_tests)?(\.\w+)?$", "\n".join(words), re.M)
    if runs:
        return runs[1], "run", "tests" if runs[2] else "program"
    if words[:2] == ["sh", "-c"] and "kill -9 0" in words[2]:
        # (it waits for the end of rt)
        return "-", "guard", ""
    place = re.search(r"/crates/(\w+)(/|$)", folder) or re.search(r"/crates/(\w+)/", words[-1])
    crate = after(words, "--crate-name") or (place[1] if place else "-")
    if program != "rattle" or words[1] not in ("check", "build") or "--crate-name" not in words:
        is_built = program in ("rattle-link", "clang", "llvm-nm") and crate != "-"
        return crate, "build" if is_built else "other", " ".join([program, *words[1:2]])
    if os.path.basename(folder).startswith("rt-edit-"):
        seed = after(words, "--incremental")
        if not seed:
            return crate, "edit", "from nothing"
        number = os.path.basename(seed)
        return (crate, "base", "") if number == "seed" else (crate, "edit", edit_name(repository, crate, number))
    if "--crate-checked" in words:
        return crate, "build", after(words, "--backend")
    if "--test" in words:
        return crate, "tests", ""
    return crate, "part" if "--only" in words else "proof", ""


class Child:
    """A process that rt started: what is known of it, and what was last seen of its time."""

    def __init__(self, pid, seen):
        self.pid, self.seen, self.gone = pid, seen.own + seen.waited, 0
        self.what, self.jobs, self.since, self.until = None, "", time.monotonic() - age_of(seen.born), None

    def weight(self):
        """What it can take of a time that several took between two looks."""
        return 0 if self.what and self.what[1] == "guard" else int(self.jobs) if self.jobs.isdigit() else 1


class Run:
    """One `rt`, whose children are followed."""

    def __init__(self, pid, words, log):
        self.pid, self.log = pid, log
        self.words = words[next(at for at, it in enumerate(words) if os.path.basename(it) == "rt") + 1 :]
        self.repository = folder_of(pid)
        self.born, self.own, self.waited = times_of(pid) or Times(0, 0, 0)
        self.first, self.balance, self.unseen = self.waited, 0, 0
        self.children, self.ended, self.looks = {}, [], 0
        self.say("rt", "begin", " ".join(self.words), self.waited, "", age_of(self.born))

    def say(self, crate, kind, detail, ticks, jobs="", seconds=0.0):
        at = time.strftime("%Y-%m-%dT%H:%M:%S")
        fields = (at, self.pid, self.repository, crate, kind, detail or "-", f"{ticks / TICK:.2f}", f"{seconds:.1f}", jobs or "-")
        print(*fields, sep="\t", file=self.log, flush=True)

    def tell(self, child, ticks, note=""):
        crate, kind, detail = child.what or ("-", "other", "?")
        if kind != "guard":
            self.say(crate, kind, note or detail, ticks, child.jobs, (child.until or time.monotonic()) - child.since)

    def look(self):
        """Looks at all children once, and says whether rt is still there. Its own time is read before theirs are, so what
        it has waited for never counts a child that is then still seen."""
        seen = times_of(self.pid)
        if not seen or seen.born != self.born:
            return False
        self.balance += seen.waited - self.waited
        self.own, self.waited = seen.own, seen.waited
        self.looks += 1
        there = set()
        for pid in children_of(self.pid):
            times = times_of(pid)
            if times:
                key = pid, times.born
                there.add(key)
                if key not in self.children:
                    self.children[key] = Child(pid, times)
                self.look_at(self.children[key], times)
        for key in [it for it in self.children if it not in there]:
            child = self.children.pop(key)
            child.until = time.monotonic()
            self.ended.append(child)
        self.settle()
        return True

    def look_at(self, child, times):
        # (what a child's own children took counts twice nowhere: it is in `waited` once they are gone)
        seen = times.own + times.waited if self.looks % 5 else whole_of(child.pid, times)
        child.seen = max(child.seen, seen)
        if child.what is None:
            words = words_of(child.pid)
            child.what = classify(words, folder_of(child.pid), self.repository)
            child.jobs = after(words, "--jobs")

    def settle(self, is_last=False):
        """Shares what was waited for among those that ended."""
        if not self.ended:
            self.unseen, self.balance = self.unseen + self.balance, 0
            return
        owed = sum(it.seen for it in self.ended)
        # A child may be gone a look before its time is counted; and each count is cut to whole ticks.
        if self.balance + 8 * len(self.ended) < owed and not is_last and all(it.gone < 3 for it in self.ended):
            for child in self.ended:
                child.gone += 1
            return
        share = max(self.balance - owed, 0) / max(sum(it.weight() for it in self.ended), 1)
        for child in self.ended:
            self.tell(child, child.seen + share * child.weight())
        self.ended, self.balance = [], 0

    def end(self, is_there):
        """Says what is left: rt has ended, or nobody looks any more."""
        for child in self.children.values():
            if is_there:
                self.tell(child, child.seen, "still running")
            else:
                self.ended.append(child)
        self.settle(is_last=True)
        living = sum(it.seen for it in self.children.values())
        self.say("-", "not seen", "", self.unseen + self.balance)
        self.say("rt", "rt", "itself", self.own)
        self.say("rt", "still running" if is_there else "end", " ".join(self.words), self.own + self.waited - self.first + living)


def search(known, silent):
    """Finds `rt` commands that are new. `silent` are the processes without words, which belong to the kernel."""
    found = []
    for name in os.listdir("/proc"):
        if name.isdigit() and name not in silent and int(name) not in known:
            words = words_of(name)
            if not words:
                silent.add(name)
            elif is_rt(words):
                found.append((int(name), words))
    # (a child of rt has rt's own words until it becomes what it was started for)
    of_rt = {pid for pid, _ in found} | set(known)
    parents = {child: pid for pid in of_rt for child in children_of(pid)}
    return [(pid, words) for pid, words in found if pid not in parents]


class Watch:
    """Follows each `rt` that it is told of, or that it finds."""

    def __init__(self, log):
        self.log, self.runs, self.silent, self.found = log, {}, set(), 0.0

    def look(self):
        for pid in [pid for pid, run in self.runs.items() if not run.look()]:
            self.runs.pop(pid).end(False)

    def find(self):
        if time.monotonic() - self.found >= SEARCH:
            self.found = time.monotonic()
            for pid, words in search(self.runs, self.silent):
                self.runs[pid] = Run(pid, words, self.log)

    def end(self):
        for run in self.runs.values():
            run.end(True)


def own_share(start):
    used = resource.getrusage(resource.RUSAGE_SELF)
    return 100 * (used.ru_utime + used.ru_stime) / max(time.monotonic() - start, 0.001)


def stop(*_):
    raise KeyboardInterrupt


def watch(path, seconds):
    os.makedirs(os.path.dirname(os.path.abspath(path)), exist_ok=True)
    signal.signal(signal.SIGTERM, stop)
    start = time.monotonic()
    print(f"writing to {path}; Ctrl-C ends it", file=sys.stderr)
    with open(path, "a", encoding="utf-8") as log:
        watching = Watch(log)
        try:
            while time.monotonic() - start < seconds:
                watching.find()
                watching.look()
                time.sleep(LOOK)
        except KeyboardInterrupt:
            pass
        watching.end()
    print(f"watching took {own_share(start):.2f} % of one processor", file=sys.stderr)


def minutes(seconds):
    return f"{seconds / 60:8.2f}" if seconds else f"{'':>8}"


def read_log(path):
    """The lines of a log, for each rt by itself: what was said first of it, and its processes."""
    runs = {}
    with open(path, encoding="utf-8") as file:
        for line in file:
            at, pid, repository, crate, kind, detail, seconds, wall, jobs = line.rstrip("\n").split("\t")
            row = (at, crate, kind, detail, float(seconds), float(wall), jobs)
            if kind == "begin":
                # (a number may come again)
                runs[pid, repository, at] = [row]
            else:
                runs[next(it for it in reversed(runs) if it[:2] == (pid, repository))].append(row)
    return runs


def add_up(rows):
    """The seconds by crate and kind, how many edits were tried, and which of them from nothing."""
    spent, tries = collections.defaultdict(float), collections.Counter()
    for _, crate, kind, detail, seconds, _, _ in rows:
        if kind in KINDS:
            spent[crate, kind] += seconds
        if kind == "edit":
            tries[crate] += detail != "from nothing"
            tries[crate, "from nothing"] += detail == "from nothing"
    return spent, tries


def counted(tries, again):
    """How many edits were tried, and how many tries were over nothing that was proved before."""
    note = f"   {tries}" if tries or again else ""
    return note + (f" and {again} from nothing" if again else "")


def print_table(rows, order=()):
    spent, tries = add_up(rows)
    names = [it for it in dict.fromkeys([*order, *(crate for crate, _ in spent)]) if it not in ("-", "rt")]
    columns = {"proof": ("proof",), "tests": ("tests",), "edits": ("base", "edit"), "rest": ("part", "build", "run", "other")}
    print(f"{'crate':<20}" + "".join(f"{it:>8}" for it in (*columns, "sum")) + "   edits")
    totals = collections.Counter()
    for name in names:
        parts = {it: sum(spent.get((name, kind), 0) for kind in kinds) for it, kinds in columns.items()}
        if any(parts.values()):
            totals.update(parts)
            note = counted(tries[name], tries[name, "from nothing"])
            print(f"{name:<20}" + "".join(map(minutes, (*parts.values(), sum(parts.values())))) + note)
    note = counted(*(sum(tries[it] for it in keys) for keys in (names, [(it, "from nothing") for it in names])))
    print(f"{'crates':<20}" + "".join(minutes(totals[it]) for it in columns) + minutes(sum(totals.values())) + note)
    base = sum(seconds for (_, kind), seconds in spent.items() if kind == "base")
    print(f"of the edits, the checks that they begin from and end with: {base / 60:.2f}")
    loose = sum(spent.get(("-", kind), 0) for kind in KINDS)
    print(f"other than by crate: rt itself {spent.get(('rt', 'rt'), 0) / 60:.2f}, its short calls {loose / 60:.2f}")
    unended = sum(row[3] == "still running" for row in rows)
    if unended:
        print(f"{unended} processes were still running, and count with what they had taken")


def listed_crates(folder):
    """The crates of crates.txt, each with those that it stands on, in their order."""
    with open(os.path.join(folder, "crates.txt"), encoding="utf-8") as file:
        lines = [line.partition("#")[0].partition(":") for line in file if ":" in line]
    below = {name.strip(): words.split() for name, _, words in lines}
    return {name: [it for it in words if it in below] for name, words in below.items()}


def print_log(path, order=()):
    """A table for each rt ci, and one of all other commands together."""
    rest = []
    for (_, repository, at), rows in read_log(path).items():
        begin = rows[0]
        if not begin[3].startswith("ci"):
            rest += rows
            continue
        print(f"rt {begin[3]} in {repository}, seen from {at} to {rows[-1][0]}" + (", begun before that" if begin[5] > 2 * SEARCH else ""))
        print_table(rows, order)
        is_told = rows[-1][2] in ("end", "still running")
        print(f"whole: {rows[-1][4] / 60:.2f} processor minutes, {rows[-1][2]}\n" if is_told else "whole: not told yet\n")
    if rest:
        count = sum(it[2] == "begin" for it in rest)
        print(f"other commands of rt: {count}")
        print_table(rest, order)


def print_jobs(path):
    counts = collections.Counter(
        (row[2], row[6]) for rows in read_log(path).values() for row in rows if row[6] != "-"
    )
    for (kind, jobs), count in sorted(counts.items()):
        print(f"{count} of kind {kind} with {jobs} {'job' if jobs == '1' else 'jobs'}")


def gate(folder, notes_jobs):
    """Clones HEAD into a folder that is empty or not there, and measures the gate there. The answer is the gate's status."""
    os.makedirs(OUT, exist_ok=True)
    copy = os.path.join(folder, "mosel")
    subprocess.run(["git", "clone", "-q", TOP, copy], check=True)
    head = subprocess.run(["git", "-C", copy, "rev-parse", "--short", "HEAD"], check=True, capture_output=True, text=True).stdout.strip()
    name = f"gate-{head}-{time.strftime('%Y%m%d-%H%M%S')}"
    said, path = os.path.join(OUT, f"{name}.txt"), os.path.join(OUT, f"{name}.log")
    print(f"the gate of {head}, from nothing, on {len(os.sched_getaffinity(0))} processors; it says {said}", flush=True)
    before, start = resource.getrusage(resource.RUSAGE_CHILDREN), time.monotonic()
    with open(said, "w", encoding="utf-8") as answer, open(path, "w", encoding="utf-8") as log:
        process = subprocess.Popen(["rt", "ci", "--anew"], cwd=copy, stdin=subprocess.DEVNULL, stdout=answer, stderr=subprocess.STDOUT)
        try:
            run = Run(process.pid, words_when_begun(process), log)
            while process.poll() is None:
                run.look()
                time.sleep(LOOK)
        finally:
            # (where this script is stopped, so is what it started)
            process.terminate()
            process.wait()
        run.end(False)
    wall = time.monotonic() - start
    used = resource.getrusage(resource.RUSAGE_CHILDREN)
    user, system = used.ru_utime - before.ru_utime, used.ru_stime - before.ru_stime
    print_table(next(iter(read_log(path).values())), listed_crates(copy))
    if notes_jobs:
        print_jobs(path)
    with open(said, encoding="utf-8", errors="replace") as answer:
        last = (answer.read().rstrip("\n").rsplit("\n", 1) or [""])[-1]
    print(f"whole: {(user + system) / 60:.2f} processor minutes ({user / 60:.2f} user, {system / 60:.2f} system), {wall / 60:.1f} minutes by the clock")
    print(f"measuring took {own_share(start):.2f} % of one processor; the table's source is {path}")
    print(last)
    return process.returncode


def words_when_begun(process):
    """The words of rt, once its process has become it (`env` starts Python, and Python the script)."""
    while process.poll() is None:
        words = words_of(process.pid)
        if is_rt(words):
            return words
        time.sleep(0.01)
    return ["rt", "ci", "--anew"]


def run(folder, processors, notes_jobs):
    signal.signal(signal.SIGTERM, stop)
    if processors:
        os.sched_setaffinity(0, sorted(os.sched_getaffinity(0))[:processors])
    if folder:
        os.makedirs(folder, exist_ok=True)
        if os.listdir(folder):
            sys.exit(f"{folder} isn't empty")
        return gate(os.path.abspath(folder), notes_jobs)
    room = tempfile.mkdtemp(prefix="mosel-gate-")
    try:
        return gate(room, notes_jobs)
    finally:
        shutil.rmtree(room, ignore_errors=True)


def slow_files(folder):
    for crate in listed_crates(folder):
        out = os.path.join(folder, "crates", crate, "out")
        for at, _, names in os.walk(out):
            for name in names:
                size = os.lstat(os.path.join(at, name)).st_size
                if size >= SLOW:
                    parts = os.path.relpath(os.path.join(at, name), out).split("/")
                    # (the folder of the kept work has a name of a hundred letters)
                    yield size, crate, "/".join(it for it in parts if not it.startswith("antt-checked-"))


def longest_chain(below, weight):
    """The chain of crates, lowest first, whose proofs take longest one behind the other, and that time."""
    best = {}
    for name in below:
        lower = max((best[it] for it in below[name]), default=(0.0, []))
        best[name] = lower[0] + weight(name), [*lower[1], name]
    return max(best.values())


def slow(folder, path):
    for size, crate, name in sorted(slow_files(folder), reverse=True):
        print(f"{size / 1e6:8.1f} MB  {crate:<20} {name}")
    if not path:
        return
    below = listed_crates(folder)
    for (_, repository, at), rows in read_log(path).items():
        if not rows[0][3].startswith("ci"):
            continue
        spent, _ = add_up(rows)
        seconds, chain = longest_chain(below, lambda it: spent.get((it, "proof"), 0.0))
        print(f"rt {rows[0][3]} in {repository}, seen from {at}: the longest chain of proofs takes {seconds / 60:.2f} processor minutes")
        for name in chain:
            print(f"{minutes(spent.get((name, 'proof'), 0.0))}  {name}")
        last = max(below, key=lambda it: spent.get((it, "tests"), 0.0))
        print(f"the dearest tests are those of {last}: {spent.get((last, 'tests'), 0.0) / 60:.2f}")
        edits = [(row[4], row[1], row[3]) for row in rows if row[2] == "edit"]
        for spent_on, crate, name in sorted(edits, reverse=True)[:5]:
            print(f"{minutes(spent_on)}  edit {crate} {name}")


def option(words, flag):
    """Takes a flag and its value out of the words."""
    if flag not in words:
        return None
    at = words.index(flag)
    if at + 1 == len(words):
        sys.exit(__doc__.strip())
    value = words[at + 1]
    del words[at : at + 2]
    return value


def main(words):
    if not words:
        sys.exit(__doc__.strip())
    verb, *words = words
    at, processors, seconds, log = (option(words, it) for it in ("--at", "--processors", "--seconds", "--table"))
    notes_jobs = "--jobs-note" in words
    words = [it for it in words if it != "--jobs-note"]
    if verb == "run" and not words:
        sys.exit(run(at, int(processors or 0), notes_jobs))
    if verb == "watch" and len(words) <= 1:
        path = words[0] if words else os.path.join(OUT, f"watch-{time.strftime('%Y%m%d-%H%M%S')}.log")
        return watch(path, float(seconds or "inf"))
    if verb == "table" and len(words) == 1:
        return print_log(words[0], listed_crates(TOP))
    if verb == "slow" and len(words) <= 1:
        return slow(words[0] if words else TOP, log)
    sys.exit(__doc__.strip())


if __name__ == "__main__":
    try:
        main(sys.argv[1:])
    except KeyboardInterrupt:
        sys.exit(130)
