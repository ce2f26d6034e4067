#!/usr/bin/env python3
"""Tries what README.md, docs/ and examples/ show, against the proved program.

Run it after the program was proved and built (`rt ci` and ./mosel do that), or name a program:
    python3 bench/docs.py [PROGRAM]
It prints a line for each thing that isn't as it is shown, and how many were tried. Its status is 0 where all are as shown.

What is tried is told by plain Markdown:

    ```mosel          A script. `run` ends with status 0, and `check` accepts the derivation that it wrote.
    ```derivation     A derivation. `check` accepts it.
    ```goals          A script. `goals` ends with status 0.
    ```answer N       What is answered to what stands above it: the status N, and the text. For a script with status 0 the text
                      is what `check` writes of the derivation that `run` wrote: which derivation that is, nothing defines.
                      Status 3 is answered to no words, and has nothing above it.
    ```same T         Lines `A  is  B`, where T is `terms` or `formulas`: two spellings of one tree. The capitals P, Q, R, S
                      stand for calls of predicates, the letters x, y for variables.
    | Script | Answer |, | Derivation | Answer |
                      A table whose first two columns these are. The code of the first cell is the input, that of the second
                      the line that is answered. Of a script the pieces of code are put together, one with a number
                      before it so many times. Of a derivation each piece is a line; where the first isn't a header, they
                      stand behind `mosel-derivation 1` and `arities`; "without its line feed" drops the last one; a
                      cell without code is the empty input. A script in a column `Mended` is accepted.
    | Goal | Sentence | After |
                      A table of these columns: behind the sentence the goal has become the goals of the last column, which
                      `;` separates; no code is no goals. Pieces of code are the printed lines of a goal, `□` and `⊢` the
                      lines between contexts. The capitals P, Q, R, S stand for calls of predicates. The script that leads
                      to the goal is made from it.
    | File | Lines |  A table whose first two columns these are: each file has so many lines.
    | Limit | Value |  A table whose first two columns these are: pm_logic's limits.rt has these constants.

In examples/, NAME.mosel and NAME.derivation are tried too. NAME.answer is what is answered: to what is accepted what `check`
writes, else the line, whose first word tells the status. Without it they are accepted.

Besides, each link leads to a file, each path in code to a file or a folder, and of docs/PROVED.md each name in the item of
a crate stands in that crate's code or contracts.
"""

import glob
import os
import re
import subprocess
import sys

TOP = os.path.dirname(os.path.dirname(os.path.abspath(__file__)))
PROGRAM = os.path.join(TOP, "crates", "mosel", "out", "mosel")
SECONDS = 60
STATUSES = {b"refused": 1, b"unreadable": 2, b"usage": 3, b"too": 7}
COMMANDS = {"mosel": "run", "derivation": "check", "goals": "goals"}
HEADER = ["mosel-derivation 1", "arities"]
RULERS = {"□": "-" * 20 + "□", "⊢": "-" * 20 + "∗"}
PREDICATES = "".join(f"Predicate {it}() := True.\n" for it in "PQRS")
PATH = re.compile(r"(?:\./)?(?:crates|docs|bench|examples|\.ci)/[\w./-]*\w|(?:\./)?(?:README\.md|crates\.txt|mosel)")


def limits():
    """The limits by their names, as pm_logic has them."""
    with open(os.path.join(TOP, "crates", "pm_logic", "src", "limits.rt"), encoding="utf-8") as file:
        rows = re.findall(r"pub const (\w+): \w+ = ([\d_]+);", file.read())
    return {name: value.replace("_", "") for name, value in rows}


LIMITS = limits()


class Tries:
    def __init__(self, program):
        self.program, self.count, self.wrong = program, 0, []

    def expect(self, place, holds, said):
        self.count += 1
        if not holds:
            self.wrong.append(f"{place}: {said}")

    def ask(self, words, given):
        ran = subprocess.run([self.program, *words], input=given, capture_output=True, timeout=SECONDS)
        return ran.returncode, ran.stdout

    def answer(self, command, given):
        """The status and the text that are defined: of a script that is accepted, what `check` says of its derivation."""
        status, text = self.ask([command], given)
        if command == "run" and status == 0:
            status, text = self.ask(["check"], text)
        return status, text

    def case(self, place, command, given, status=0, text=None):
        got = self.answer(command, given)
        same = got[0] == status and text in (None, got[1])
        wants = f"status {status}" + ("" if text is None else f" and {text.decode(errors='replace')!r}")
        self.expect(place, same, f"shown is {wants}, answered status {got[0]} and {got[1].decode(errors='replace')[:600]!r}")


def status_of(line):
    return STATUSES.get(re.match(rb"\w*", line)[0], 0)


def codes(cell):
    """The pieces of code in a cell, each with the number before it, if there is one."""
    return [(int(n or 1), code) for n, code in re.findall(r"(?:(\d+) )?`([^`]*)`", cell.replace("\\|", "|"))]


def script_of(cell):
    return "".join(code * times for times, code in codes(cell)).encode()


def derivation_of(cell):
    lines = [code for _, code in codes(cell)]
    if lines and not lines[0].startswith(HEADER[0][:-1]):
        lines = HEADER + lines
    text = "".join(f"{line}\n" for line in lines)
    return (text[:-1] if "without its line feed" in cell else text).encode()


def called(text):
    """The text, its capitals P, Q, R, S being calls."""
    return re.sub(r"\b([PQRS])\b", r"\1()", text)


def goals_of(cell):
    """The goals of a cell, each as its printed lines."""
    goals = [[]]
    for code, sign in re.findall(r"`([^`]*)`|([□⊢;])", cell.replace("\\|", "|")):
        if sign == ";":
            goals.append([])
        else:
            goals[-1].append(RULERS[sign] if sign else called(code))
    return [it for it in goals if it]


def printed(goals):
    """What `goals` writes."""
    numbered = [[f"goal {k}:", *lines] for k, lines in enumerate(goals, 1)]
    return "".join(f"{line}\n" for lines in [[f"goals: {len(goals)}"], *numbered] for line in lines).encode()


def script_to(goal):
    """A script that leads to the goal: what stands before its conclusion is introduced."""
    variables, sides, patterns = "", "", []
    for at, line in enumerate(goal[:-1]):
        name, _, formula = line.partition(" : ")
        if formula == "Z":
            variables += f" {name}"
        elif line not in RULERS.values():
            is_fact, is_boxed = name[0] != '"', RULERS["□"] in goal[at:]
            sides += f"⌜{formula}⌝ -∗ " if is_fact else f"□ ({formula}) -∗ " if is_boxed else f"({formula}) -∗ "
            patterns.append(f"%{name}" if is_fact else ("#" if is_boxed else "") + name.strip('"'))
    binder, names = (f"∀{variables}, ", f" ({variables})") if variables else ("", "")
    quoted = f' "{" ".join(patterns)}"' if patterns else ""
    intro = f"iIntros{names}{quoted}.\n" if names or quoted else ""
    return f"{PREDICATES}Lemma shown : {binder}{sides}({goal[-1]}).\n{intro}"


def same_script(kind, line):
    """A script that is accepted exactly where the line's two spellings are of one tree."""
    spelled = re.split(r"\s+is\s+", line.strip())
    if kind == "terms":
        sides = [f"∀ x y, ⌜{it} = 0⌝" for it in spelled]
    else:
        sides = [f"∀ x y, ({it})" if re.search(r"\b[xy]\b", it) else it for it in map(called, spelled)]
    return f'{PREDICATES}Lemma same : ({sides[0]}) → ({sides[1]}).\niIntros "H". iExact "H". Qed.\n'.encode()


def cells_of(line):
    return [it.strip() for it in re.split(r"(?<!\\)\|", line.strip())[1:-1]]


def try_tables(tries, name, lines):
    """Each table whose header names what it shows."""
    head = []
    for number, line in enumerate(lines, 1):
        if not line.startswith("|"):
            head = []
            continue
        cells = cells_of(line)
        if not head:
            head = cells
            continue
        if set(line) <= set("|-: "):
            continue
        row, place = dict(zip(head, cells)), f"{name}:{number}"
        if head[:2] == ["File", "Lines"]:
            for (_, path), lines_said in zip(codes(row["File"]), re.findall(r"\d+", row["Lines"])):
                path = os.path.join(TOP, path)
                has = len(open(path, "rb").read().splitlines()) if os.path.isfile(path) else -1
                tries.expect(place, has == int(lines_said), f"the file has {has} lines")
        if head[:2] == ["Limit", "Value"]:
            constant = codes(row["Limit"])[0][1]
            tries.expect(place, LIMITS.get(constant) == row["Value"].replace(",", ""), f"{constant} is {LIMITS.get(constant)}")
        if head == ["Goal", "Sentence", "After"]:
            goals = goals_of(row["Goal"])
            for sentence, left in (("", goals), (codes(row["Sentence"])[0][1], goals_of(row["After"]))):
                tries.case(place, "goals", (script_to(goals[0]) + sentence).encode(), 0, printed(left))
        if "Mended" in row:
            tries.case(place, "run", script_of(row["Mended"]))
        for word, command, given in (("Script", "run", script_of), ("Derivation", "check", derivation_of)):
            if head[:2] == [word, "Answer"]:
                text = (codes(row["Answer"])[0][1] + "\n").encode()
                tries.case(place, command, given(row[word]), status_of(text), text)


def blocks_of(lines):
    """The fenced blocks: the line, the words behind the fence, and what stands in them."""
    at, words, inside = 0, None, []
    for number, line in enumerate(lines, 1):
        if not line.startswith("```"):
            inside.append(line)
        elif words is None:
            at, words, inside = number, line[3:].split(), []
        else:
            yield at, words, "".join(f"{it}\n" for it in inside).encode()
            words = None


def try_blocks(tries, name, lines):
    blocks = [it for it in blocks_of(lines) if it[1]]
    for k, (at, words, text) in enumerate(blocks):
        place = f"{name}:{at}"
        if words[0] in COMMANDS:
            below = blocks[k + 1] if k + 1 < len(blocks) and blocks[k + 1][1][0] == "answer" else None
            if below:
                tries.case(f"{name}:{below[0]}", COMMANDS[words[0]], text, int(below[1][1]), below[2])
            else:
                tries.case(place, COMMANDS[words[0]], text)
        elif words == ["answer", "3"]:
            got = tries.ask([], b"")
            tries.expect(place, got == (3, text), f"answered are status {got[0]} and {got[1]!r}")
        elif words[0] == "answer":
            above = blocks[k - 1][1][0] if k else ""
            tries.expect(place, above in COMMANDS, "nothing stands above the answer")
        elif words[0] == "same":
            for line in text.decode().splitlines():
                tries.case(f"{place}: {line.strip()}", "run", same_script(words[1], line))
        elif words[0] not in ("sh", "text"):
            tries.expect(place, False, f"no such mark: {' '.join(words)}")


def try_paths(tries, name, text):
    here = os.path.dirname(os.path.join(TOP, name))
    for path in re.findall(r"\]\(([^)#:]+)\)", text):
        tries.expect(name, os.path.exists(os.path.join(here, path)), f"no file for the link {path}")
    for code in re.findall(r"`([^`\n]+)`", text):
        if PATH.fullmatch(code) and "NAME" not in code:
            tries.expect(name, os.path.exists(os.path.join(TOP, code)), f"no file {code}")


def try_names(tries, name, lines):
    """In a list of crates, the names of an item stand in its crate."""
    for number, line in enumerate(lines, 1):
        item = re.match(r"- \*\*(\w+)\*\*", line)
        if not item:
            continue
        files = [*glob.glob(f"{TOP}/crates/{item[1]}/src/*.rt"), *glob.glob(f"{TOP}/crates/{item[1]}/specs/*.antt")]
        has = set(re.findall(r"\w+", "\n".join(open(it, encoding="utf-8").read() for it in files)))
        for code in re.findall(r"`(\w+)`", line):
            tries.expect(f"{name}:{number}", code in has, f"{item[1]} has no {code}")


def try_examples(tries):
    for path in sorted(glob.glob(f"{TOP}/examples/*")):
        stem, ending = os.path.splitext(path)
        name = os.path.relpath(path, TOP)
        if ending[1:] in COMMANDS:
            given, answer = open(path, "rb").read(), f"{stem}.answer"
            text = open(answer, "rb").read() if os.path.isfile(answer) else None
            tries.case(name, COMMANDS[ending[1:]], given, status_of(text or b""), text)
        else:
            shown = any(os.path.isfile(f"{stem}.{it}") for it in COMMANDS)
            tries.expect(name, ending == ".answer" and shown, "neither a script nor a derivation, nor the answer of one")


def main():
    program = os.path.abspath(sys.argv[1]) if len(sys.argv) > 1 else PROGRAM
    if not os.access(program, os.X_OK):
        sys.exit(f"docs.py: there is no program {program}: rt ci and ./mosel make it")
    tries = Tries(program)
    for path in [f"{TOP}/README.md", *sorted(glob.glob(f"{TOP}/docs/*.md"))]:
        name = os.path.relpath(path, TOP)
        text = open(path, encoding="utf-8").read()
        lines = text.splitlines()
        try_blocks(tries, name, lines)
        try_tables(tries, name, lines)
        try_paths(tries, name, text)
        if name == "docs/PROVED.md":
            try_names(tries, name, lines)
    try_examples(tries)
    for it in tries.wrong:
        print(f"docs.py: {it}")
    print(f"documents: {tries.count - len(tries.wrong)} passed, {len(tries.wrong)} failed")
    return 1 if tries.wrong else 0


if __name__ == "__main__":
    sys.exit(main())
