#!/usr/bin/env python3
"""Brings the repository's own names to today's spelling: definitions and lemmas in snake case.

usage: python3 tools/respell.py [FOLDER]      once, after the kit's port.py, at the top of a checkout

A name that begins with a small letter and has a hyphen or a capital inside is turned where it stands: in specs/, in proofs/, in
the clauses and imports of src/, and in the words of must-fail edits. A name that a library has, or that the check makes, stays.
Where a definition (hairSpace) and a law of it (hair-space) would fall together, the law's name ends in _law.
"""
import collections
import os
import re
import sys

ROOT = sys.argv[1] if len(sys.argv) > 1 else "."
TOKEN = re.compile(r"[^\s(){}\[\].,;:«»\"`]+")
USE = re.compile(r"^\s*(?:pub )?use\s+([^\s{]+)\.\{(.*?)\}", re.S | re.M)
CRATES = [line.split(":")[0].split()[0] for line in open(os.path.join(ROOT, "crates.txt")) if line.strip() and line[0] != "#"]
# Laws whose definition's name a library or the port itself took.
TAKEN = {"in_use": "in_use_law", "lies_in": "lies_in_law", "object_calls": "object_calls_law", "one_more": "one_more_law"}


def files(sub, suffix):
    for crate in CRATES:
        for folder, _, names in os.walk(os.path.join(ROOT, "crates", crate, sub)):
            for name in sorted(names):
                if name.endswith(suffix):
                    yield os.path.join(folder, name)


def text(path):
    with open(path, encoding="utf-8") as f:
        return f.read()


def bare(t):
    return re.sub(r"--.*", "", t)


def old(name):
    return re.match(r"[a-zα-ω]", name) and ("-" in name or re.search(r"[a-z0-9][A-Z]", name))


def snake(name):
    return re.sub(r"([a-z0-9])([A-Z])", lambda m: m.group(1) + "_" + m.group(2).lower(), name).replace("-", "_")


def library_names():
    found = set()
    for path in [*files("specs", ".antt"), *files("proofs", ".antt")]:
        for module, names in USE.findall(bare(text(path))):
            m = re.match(r"Rattle\.(\w+)\.", module)
            if not (m and m.group(1) in CRATES):
                found.update(n.split(" as ")[0].strip() for n in names.split(","))
    return found


def mapping():
    library = library_names()
    here = collections.Counter()
    for path in files("specs", ".antt"):
        here.update(TOKEN.findall(bare(text(path))))
    names = {n for n in here if old(n) and n not in library}
    groups = collections.defaultdict(set)
    for n in names:
        groups[snake(n)].add(n)
    to = {}
    for new, olds in groups.items():
        for n in olds:
            clash = len(olds) > 1 or new in library or (new in here and new not in TAKEN)
            to[n] = new + "_law" if clash and "-" in n else new
    to.update({n: m for n, m in TAKEN.items() if n in here})
    for n, m in to.items():
        if m in here and m not in to:
            print("falls together:", n, m)
    return to


def turn_antt(t, to, fields, is_proof):
    """In a function's proof a field of a record that the check makes stays. A comment names things in backquotes alone."""
    modules = set(re.findall(r"^use \S+ as (\S+)", t, re.M)) - {"tie", "goal"}

    def code(part):
        def word(m):
            name = m.group(0)
            before = re.search(r"([\w'-]*)\.$", part[: m.start()])
            made = is_proof and before and name not in fields and before.group(1) not in modules
            hole = "◌" if name.startswith("◌") and name.endswith("◌") else ""
            bare_name = name.strip("◌") if hole else name
            return name if made else hole + to.get(bare_name, bare_name) + hole

        return TOKEN.sub(word, part)

    def comment(part):
        return re.sub(r"`([^`]*)`", lambda m: "`" + TOKEN.sub(lambda k: to.get(k.group(0), k.group(0)), m.group(1)) + "`", part)

    out, at = [], 0
    for m in re.finditer(r"--.*", t):
        out += [code(t[at : m.start()]), comment(m.group(0))]
        at = m.end()
    return "".join([*out, code(t[at:])])


def turn_source(t, to):
    """Code is in snake case, so a word with a capital inside is a name of specs/, and one with a hyphen too where no comment stands before it."""

    def word(m):
        name = m.group(0)
        line = t[: m.start()].rsplit("\n", 1)[-1]
        stays = name in TAKEN or "-" in name and "//" in line
        return name if stays else to.get(name, name)

    return re.sub(r"(?<![\w'-])[a-z][\w'-]*(?![\w'-])", word, t)


def turn_edit(t, to):
    """An edit is of code as often as of specs/, so a name that the port made stays."""
    return re.sub(r"(?<![\w'-])[a-z][\w'-]*(?![\w'-])", lambda m: m.group(0) if m.group(0) in TAKEN else to.get(m.group(0), m.group(0)), t)


def record_fields():
    found = set()
    for path in files("specs", ".antt"):
        inside = False
        for line in bare(text(path)).split("\n"):
            if re.match(r"\s*(pub )?record ", line):
                inside = True
                continue
            if inside and re.match(r"\s+(pub )?\S+ :", line):
                found.add(re.match(r"\s+(?:pub )?(\S+) :", line).group(1))
            elif inside and line.strip() and not line.startswith(" "):
                inside = False
    return found


def main():
    to = mapping()
    fields = record_fields()
    n = 0
    for path in [*files("specs", ".antt"), *files("proofs", ".antt"), *files("src", ".rt"), *files("must-fail", ".edit")]:
        t = text(path)
        if path.endswith(".antt"):
            new = turn_antt(t, to, fields, f"{os.sep}proofs{os.sep}" in path)
        else:
            new = turn_edit(t, to) if path.endswith(".edit") else turn_source(t, to)
        if new != t:
            n += 1
            with open(path, "w", encoding="utf-8") as f:
                f.write(new)
    print(f"respell: {len(to)} names, {n} files")
    for a, b in sorted(to.items()):
        if b.endswith("_law"):
            print("respell:", a, "is", b)


if __name__ == "__main__":
    main()
