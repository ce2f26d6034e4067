#!/usr/bin/env python3
"""Compares the public contracts of two revisions: what was added, removed, changed and moved.

    python3 bench/clauses.py [--inner] OLD_REV NEW_REV

Compared are the calls, types, traits and constants of crates/*/src (tests left out): signatures, clauses with their names,
fields, derives, and what traits and their implementations say to contracts. White space, comments, bodies and proof hints
count for nothing. Public is what a crate's lib.rt has or gives again, with the methods of its types; what is `pub` inside a
crate alone is listed apart, by name, and in full with --inner. What has the same text in another file or crate has moved.
Contracts are compared as texts. What their words mean is said by each file's `ghost use` and by specs/, and isn't compared;
which files of specs/ differ is listed last.

The status is 1 where something public was removed or changed.
"""

import collections
import io
import re
import subprocess
import sys
import tarfile

Clause = collections.namedtuple("Clause", "keyword name text")
# `text` is the signature or the head; `place` the file, which isn't compared.
Item = collections.namedtuple("Item", "name text clauses place")
OPENS, CLOSES = "([{", ")]}"
STARTS = re.compile(r"(?:requires|ensures|decreases|invariant|returns)\b")


def fold(text):
    """One line, laid out in one way whether it was broken or not."""
    text = re.sub(r"\s+", " ", text).strip()
    text = re.sub(r"([(\[]) | (?=[)\],])", r"\1", text)
    return re.sub(r",(?=[)\]])", "", text)


def blanked(text):
    """The text without comments, and the same with blanks for what strings and characters hold, so that braces can be counted."""
    literal = r"""//[^\n]*|/\*.*?\*/|b?r(#*)".*?"\1|b?"(?:\\.|[^"\\])*"|b?'(?:\\[^\n]{1,8}?|[^\\'\n])'"""
    code, bare, at = [], [], 0
    for it in re.finditer(literal, text, re.S):
        before, found = text[at : it.start()], it[0]
        hidden = re.sub(r"[^\n]", " ", found)
        code += [before, hidden if found.startswith("/") else found]
        bare += [before, hidden]
        at = it.end()
    return "".join([*code, text[at:]]), "".join([*bare, text[at:]])


class Source:
    """The text of one file, and a place in it."""

    def __init__(self, text, place):
        self.code, self.bare = blanked(text)
        self.place = place

    def skip(self, at):
        while at < len(self.bare) and self.bare[at] in " \n\t\r;,":
            at += 1
        return at

    def closed(self, at):
        """The place behind what the bracket here closes."""
        depth = 0
        for place in range(at, len(self.bare)):
            depth += (self.bare[place] in OPENS) - (self.bare[place] in CLOSES)
            if not depth:
                return place + 1
        return self.fail(at)

    def upto(self, at, ends):
        """The first place from here with one of these signs, outside parentheses and square brackets."""
        while at < len(self.bare) and self.bare[at] not in ends:
            at = self.closed(at) if self.bare[at] in "([" else at + 1
        return at if at < len(self.bare) else self.fail(at)

    def ended(self, at):
        """The place of the semicolon that ends what stands here."""
        while self.bare[at : at + 1] != ";":
            at = self.upto(at, "{;")
            at = self.closed(at) if self.bare[at] == "{" else at
        return at

    def fail(self, at):
        sys.exit(f"{self.place}:{self.bare.count(chr(10), 0, at) + 1}: this can't be read")


def read_fn(source, at):
    """The signature, the clauses, and the place behind the body."""
    end = at
    while source.bare[end : end + 1] not in ("{", ";", ""):
        if source.bare[end] in "([":
            end = source.closed(end)
        elif STARTS.match(source.bare, end) and not source.bare[end - 1].isalnum() and source.bare[end - 1] != "_":
            break
        else:
            end += 1
    text, clauses = fold(source.code[at:end]), []
    while source.bare[end : end + 1] not in ("{", ";", ""):
        head = re.compile(r"\s*(\w+)(?:\s+(\w+))?\s*(?=\{)").match(source.bare, end)
        if not head:
            source.fail(end)
        end = source.closed(head.end())
        clauses.append(Clause(head[1], head[2] or "", fold(source.code[head.end() + 1 : end - 1])))
        while source.bare[end : end + 1].isspace():
            end += 1
    return text, clauses, source.closed(end) if source.bare[end : end + 1] == "{" else end + 1


class Module:
    """What a file has: its items, whether each is `pub`, its uses and its modules."""

    def __init__(self, place):
        self.place, self.items, self.open, self.uses, self.modules, self.impls = place, {}, set(), [], {}, []

    def add(self, name, text, clauses, is_open):
        self.items[name] = Item(name, text, tuple(clauses), self.place)
        if is_open:
            self.open.add(name)


def read_members(source, at, end):
    """The members of a trait or an implementation: calls, and what is said to contracts."""
    calls, said = [], []
    while (at := source.skip(at)) < end:
        at = read_attributes(source, at)[1]
        stop = source.upto(at, "{;=")
        head = fold(source.bare[at:stop])
        if re.search(r"\bfn \w", head):
            text, clauses, at = read_fn(source, at)
            calls.append((re.search(r"\bfn (\w+)", text)[1], text, clauses))
        elif re.match(r"ghost use\b", head):
            at = source.ended(at) + 1
        elif found := re.match(r"(ghost|type|const) (\w+)", head):
            finish = source.ended(at) if found[1] != "ghost" or source.bare[stop] == "=" else source.closed(stop)
            said.append(Clause(found[1], found[2], fold(source.code[at:finish])))
            at = finish
        else:
            source.fail(at)
    return calls, said


def read_attributes(source, at):
    found = []
    while (start := re.compile(r"\s*#!?\s*(?=\[)").match(source.bare, at)) is not None:
        end = source.closed(start.end())
        found.append(fold(source.code[start.end() + 1 : end - 1]))
        at = source.skip(end)
    return found, at


def visible(head):
    """Whether it is `pub`, and the head without that word. What is open to the crate alone isn't."""
    found = re.match(r"pub(\([^)]*\))?\s+", head)
    return bool(found) and not found[1], head[found.end() :] if found else head


def used(tree, path=()):
    """The names that a tree of a `use` brings in: the name here, and its path."""
    tree = tree.strip()
    group = re.fullmatch(r"(.*?)\{(.*)\}", tree, re.S)
    if not group:
        path, _, name = (*path, *tree.split("::"))[:-1], None, tree.split("::")[-1]
        first, _, alias = name.partition(" as ")
        yield (alias or first).strip(), (*path, first.strip())
        return
    path, depth, start, inside = (*path, *filter(None, group[1].split("::"))), 0, 0, group[2] + ","
    for at, sign in enumerate(inside):
        depth += (sign == "{") - (sign == "}")
        if sign == "," and not depth:
            if inside[start:at].strip():
                yield from used(inside[start:at], path)
            start = at + 1


def read_items(source, at, end, module):
    while (at := source.skip(at)) < end:
        attributes, at = read_attributes(source, at)
        if at >= end:
            return
        stop = source.upto(at, "{;=")
        is_open, head = visible(fold(source.bare[at:stop]))
        is_test = any(it.startswith("cfg(test)") for it in attributes)
        word = re.match(r"(?:ghost )?(?:unsafe |const (?=fn)|async )*(\w+)(!?)", head)
        kind = word[1] if word else source.fail(at)
        if kind == "fn":
            text, clauses, at = read_fn(source, at)
            is_open, text = visible(text)
            if not is_test:
                module.add(re.search(r"\bfn (\w+)", text)[1], text, clauses, is_open)
        elif kind == "use":
            finish = source.ended(at)
            _, text = visible(fold(source.code[at:finish]))
            if not text.startswith("ghost"):
                module.uses += [(*it, is_open) for it in used(text.removeprefix("use "))]
            at = finish
        elif kind == "mod":
            name = head.split()[1]
            if source.bare[stop] == "{":
                at = source.closed(stop)
            else:
                module.modules[name] = None if is_test else is_open
                at = stop
        elif kind in ("impl", "trait"):
            finish = source.closed(stop)
            calls, said = read_members(source, stop + 1, finish - 1)
            read_block(module, kind, head, is_open, calls, said)
            at = finish
        elif kind in ("struct", "enum", "union", "type", "const", "static"):
            is_block = source.bare[stop] == "{" and kind in ("struct", "enum", "union")
            finish = source.closed(stop) if is_block else source.ended(at)
            _, text = visible(fold(source.code[at:finish]))
            derived = [it for word in attributes if word.startswith("derive(") for it in re.findall(r"\w+", word)[1:]]
            module.add(re.findall(r"\w+", head)[1], text, [Clause("derive", it, "") for it in derived], is_open)
            at = finish
        elif word[2] or kind == "macro_rules":
            at = source.closed(source.upto(at, "{"))
        else:
            source.fail(at)


def read_block(module, kind, head, is_open, calls, said):
    if kind == "trait":
        name = re.match(r"trait (\w+)", head)[1]
        module.add(name, head, said, is_open)
        for call, text, clauses in calls:
            module.add(f"{name}::{call}", text, clauses, is_open)
        return
    bare = re.sub(r"^impl\s*", "", head)
    while bare.startswith("<"):
        depth = 0
        for at, sign in enumerate(bare):
            depth += (sign == "<") - (sign == ">" and bare[at - 1] != "-")
            if not depth:
                break
        bare = bare[at + 1 :].strip()
    what, _, kind_of = bare.partition(" for ")
    name = re.sub(r"<.*", "", kind_of or what).split("::")[-1].strip()
    if kind_of:
        inside = [Clause("fn", call, " ".join([text, *map(clause_line, clauses)])) for call, text, clauses in calls]
        item = Item(f"{name}: {fold(what)}", head, (*said, *inside), module.place)
        module.impls.append((name, item, True))
    else:
        for call, text, clauses in calls:
            is_open, text = visible(text)
            module.impls.append((name, Item(f"{name}::{call}", text, tuple(clauses), module.place), is_open))


class Crate:
    """The modules of a crate, what of them is public by lib.rt, and what is `pub` inside it alone."""

    def __init__(self, files):
        self.modules = {}
        tests = set()
        for path, text in sorted(files.items(), key=lambda it: it[0].count("/")):
            name = re.sub(r"/mod$|^(lib|main)$", "", path.removesuffix(".rt")).replace("/", "::")
            if any(name == it or name.startswith(f"{it}::") for it in tests):
                continue
            module = self.modules[name] = Module(path)
            source = Source(text, path)
            read_items(source, 0, len(source.bare), module)
            prefix = f"{name}::" if name else ""
            tests |= {prefix + it for it, is_open in module.modules.items() if is_open is None}
        for it in [it for it in self.modules if it in tests]:
            del self.modules[it]
        self.names, self.given, self.public = {}, {}, {}
        self.open_module("", "")
        self.add_members()
        self.inner = self.left_inside()

    def find(self, module, name, looked=()):
        """The module and the name of an item that a module names; None where it is another crate's."""
        found = self.modules.get(module)
        if not found or (module, name) in looked:
            return None
        if name in found.items:
            return module, name
        for here, path, _ in found.uses:
            if here == name:
                return self.follow(module, path, (*looked, (module, name)))
        return None

    def follow(self, module, path, looked=()):
        for prefix in (module, ""):
            parts = [it for it in path[:-1] if it not in ("crate", "self")]
            at = "::".join(([prefix] if prefix and path[0] != "crate" else []) + parts)
            if at in self.modules and (parts or path[0] in ("crate", "self")):
                if found := self.find(at, path[-1], looked):
                    return found
        return None

    def open_module(self, module, prefix):
        """Takes what is public in a module that is."""
        found = self.modules.get(module)
        if not found:
            return
        for name in found.open:
            self.names[module, name] = prefix + name
        for name, path, is_open in found.uses:
            if not is_open:
                continue
            if name == "*":
                at = "::".join(it for it in path[:-1] if it not in ("crate", "self"))
                self.open_module(at, prefix)
            elif place := self.follow(module, path):
                self.names[place] = prefix + name
            else:
                self.given[prefix + name] = "::".join(path)
        for name, is_open in found.modules.items():
            if is_open:
                self.open_module(f"{module}::{name}" if module else name, f"{prefix}{name}::")

    def add_members(self):
        for (module, name), known_as in self.names.items():
            items = self.modules[module].items
            self.public[known_as] = items[name]
            for it in items:
                if it.startswith(f"{name}::"):
                    self.public[known_as + it.removeprefix(name)] = items[it]
        types = {name: known_as for (_, name), known_as in self.names.items()}
        for module in self.modules.values():
            for name, item, is_open in module.impls:
                if name in types and is_open:
                    self.public[self.unlike(types[name] + item.name.removeprefix(name), item)] = item

    def unlike(self, key, item):
        """A name that no other member has: methods of one name may stand in blocks for different parameters."""
        return key if key not in self.public or self.public[key] == item else f"{key} ({item.place})"

    def left_inside(self):
        shown, found = {id(it) for it in self.public.values()}, {}
        for path, module in self.modules.items():
            prefix = f"{path}::" if path else ""
            members = [(item.name, item) for _, item, is_open in module.impls if is_open]
            for name, item in [*((it, module.items[it]) for it in module.open), *members]:
                if id(item) not in shown:
                    found[prefix + name] = item
        return found


def read_revision(revision):
    """The crates of a revision, and the texts of its definitions."""
    ran = subprocess.run(["git", "archive", revision, "crates"], capture_output=True)
    if ran.returncode:
        sys.exit(ran.stderr.decode().strip())
    crates, specs = collections.defaultdict(dict), {}
    with tarfile.open(fileobj=io.BytesIO(ran.stdout)) as archive:
        for it in archive:
            code = re.fullmatch(r"crates/(\w+)/src/(.+\.rt)", it.name)
            if code:
                crates[code[1]][code[2]] = archive.extractfile(it).read().decode()
            elif re.fullmatch(r"crates/\w+/specs/.+\.antt", it.name):
                specs[it.name.removeprefix("crates/")] = archive.extractfile(it).read().decode()
    return {name: Crate(files) for name, files in crates.items()}, specs


def clause_line(clause):
    if clause.keyword in ("requires", "ensures", "decreases", "invariant", "returns"):
        return " ".join(filter(None, [clause.keyword, clause.name, f"{{ {clause.text} }}"]))
    return clause.text if clause.text else f"{clause.keyword} {clause.name}"


def lines_of(item):
    return [item.text, *map(clause_line, item.clauses)]


def say_changed(old, new):
    were, are = lines_of(old), lines_of(new)
    for line in were:
        if line not in are:
            print(f"    - {line}")
    for line in are:
        if line not in were:
            print(f"    + {line}")
    if sorted(were) == sorted(are):
        print("    (the order of clauses alone)")


def compare(old, new):
    """What was added, removed, changed and moved, between two tables by crate and name."""
    same = lambda one, other: lines_of(one) == lines_of(other)
    changed = {it: it for it in old if it in new and not same(old[it], new[it])}
    moved = {it: it for it in old if it in new and same(old[it], new[it]) and old[it].place != new[it].place}
    removed, added = [it for it in old if it not in new], [it for it in new if it not in old]
    by_name = collections.defaultdict(list)
    for key in added:
        by_name[key[1].split(" (")[0]].append(key)
    for key in [*removed]:
        # (the same text before a text that only has the same name)
        matches = sorted(by_name[key[1].split(" (")[0]], key=lambda it: not same(old[key], new[it]))
        if matches:
            to = matches[0]
            by_name[to[1].split(" (")[0]].remove(to)
            (moved if same(old[key], new[to]) else changed)[key] = to
            removed.remove(key)
            added.remove(to)
    return sorted(added), sorted(removed), changed, moved


def place_of(key, item):
    return f"{key[0]}/src/{item.place}"


def report(title, old, new, is_full):
    added, removed, changed, moved = compare(old, new)
    print(f"== {title}: {len(old)} before and {len(new)} now; {len(added)} added, {len(removed)} removed, {len(changed)} changed, {len(moved)} moved")
    for sign, keys, items in (("removed", removed, old), ("added", added, new)):
        for key in keys:
            print(f"{sign} {key[0]} {key[1]}")
            for line in lines_of(items[key]) if is_full else ():
                print(f"    {line}")
    for key, to in sorted(changed.items()):
        print(f"changed {key[0]} {key[1]}" + (f", now {to[0]} {to[1]} in {place_of(to, new[to])}" if to != key else ""))
        if is_full:
            say_changed(old[key], new[to])
    for key, to in sorted(moved.items()):
        print(f"moved {key[0]} {key[1]}: from {place_of(key, old[key])} to {place_of(to, new[to])}")
    print()
    return removed or changed


def report_names(title, old, new):
    """Like report, of what is known by its text alone."""
    removed, added = sorted(old.keys() - new.keys()), sorted(new.keys() - old.keys())
    changed = sorted(it for it in old.keys() & new.keys() if old[it] != new[it])
    for it in [*removed]:
        if to := next((to for to in added if new[to] == old[it]), None):
            removed.remove(it)
            added.remove(to)
            print(f"moved {it} to {to}")
    for word, names in (("removed", removed), ("added", added), ("changed", changed)):
        for it in names:
            print(f"{word} {it}")
    print(f"== {title}: {len(added)} added, {len(removed)} removed, {len(changed)} changed")


def table(crates, kind):
    return {(name, key): item for name, crate in crates.items() for key, item in getattr(crate, kind).items()}


def main(words):
    is_full = "--inner" in words
    revisions = [it for it in words if it != "--inner"]
    if len(revisions) != 2:
        sys.exit(__doc__.strip())
    (old, old_specs), (new, new_specs) = map(read_revision, revisions)
    lost = report("public", table(old, "public"), table(new, "public"), True)
    given = [{f"{name} {key}": path for (name, key), path in table(it, "given").items()} for it in (old, new)]
    report_names("given again from other crates", *given)
    print()
    report("pub inside a crate alone", table(old, "inner"), table(new, "inner"), is_full)
    report_names("files of definitions (specs/)", old_specs, new_specs)
    return 1 if lost else 0


if __name__ == "__main__":
    sys.exit(main(sys.argv[1:]))
