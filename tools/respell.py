#!/usr/bin/env python3
"""Brings this repository's own names in specs/ and proofs/ to today's spelling, after the kit's port.py.

usage: python3 tools/respell.py [ROOT]      rewrites ROOT's crates/ in place; run it once, right after port.py

Facts are in upper camel case, all other definitions, fields, constructors and lemmas in snake case. Functions of src/,
names that Rattle makes (goals, steps of a proof) and names of other libraries keep theirs.
"""
import os
import re
import sys

ROOT = sys.argv[1] if len(sys.argv) > 1 else "."
CRATES = os.path.join(ROOT, "crates")

# Two spellings that would fall together, or that port.py gave one name for another: old (after port.py) -> new.
CHOSEN = {
    "field_own": "own_at",  # port.py wrote both for ownAt
    "keyNode": "node_of_key",  # key_node is a field
    "sameBytes": "equal_bytes",  # same_bytes is a lemma
    "same-canon": "canon_is_same",
    "same-leaf": "leaf_is_same",
    "countBy": "count_passing",  # count_by is std's
    "First-wins": "FirstWinsLaw",  # FirstWins is a policy
    "Last-wins": "LastWinsLaw",
    "first_of": "first_record",  # first_of is a tactic
    "place_at": "place_is",
    "same_tag": "tag_is_same",
    "zero-leads": "zero_is_leading",
}
# Where one file's name fell together with another file's, after port.py: file -> old -> new.
THERE = {
    "events/proofs/Tapes.antt": {"first_of": "from_split"},
    "nodes/specs/Alike.antt": {"and_then": "and_more"},  # a constructor beside the function and_then
    "nodes/proofs/Equality.antt": {"and_then": "and_more"},
    "nodes/proofs/Tested.antt": {"and_then": "and_more"},
}
NAME = r"[A-Za-z][\w'\-]*"
DECL = re.compile(rf"^(?P<words>(?:abbrev |unfoldable |mutual |record |data |pub )*)(?P<name>{NAME})\b(?P<rest>.*)$")
FIELD = re.compile(rf"^\s+(?:\|\s*)?(?:pub )?(?P<name>{NAME})(?:\s+{NAME})*\s*:(?!:)")


def files(ending):
    for folder, dirs, names in os.walk(CRATES):
        dirs[:] = sorted(d for d in dirs if d != "out")
        for n in sorted(names):
            if n.endswith(ending):
                yield os.path.join(folder, n)


def read(p):
    with open(p, encoding="utf-8") as f:
        return f.read()


def declared(text):
    """The names that a file declares: (name, what stands behind its colon, whether it is a field or a constructor)."""
    lines = text.split("\n")
    block = None
    mutual = 0  # how far the declarations of a `mutual` or `module _` block are indented
    for i, line in enumerate(lines):
        if not line.strip() or line.lstrip().startswith("--"):
            continue
        depth = len(line) - len(line.lstrip())
        if depth == 0:
            mutual = 0
        if re.match(r"(abbrev )?mutual\b|module _ ", line):
            mutual = len(lines[i + 1]) - len(lines[i + 1].lstrip())
            continue
        if depth == mutual:
            m = DECL.match(line[depth:])
            block = None
            if not m or m["name"] in ("use", "mod", "open", "unfolding", "ruleset", "pub"):
                continue
            if re.search(r"\b(record|data)\b", m["words"]):
                block = m["words"]
                yield m["name"], "Type 0", False
                continue
            sig = m["rest"]
            if not re.match(r"\s*(?:[({][^=]*?[)}]\s*)*:(?!:)", sig):
                continue
            j = i + 1
            while j < len(lines) and lines[j].strip() and len(lines[j]) - len(lines[j].lstrip()) > mutual:
                sig += " " + lines[j].strip()
                j += 1
            yield m["name"], sig.split(":", 1)[1].strip(), False
        elif block is not None:
            m = FIELD.match(line)
            if m:
                yield m["name"], "", True


def snake(name):
    prime = "'" if name.endswith("'") else ""
    name = name.rstrip("'")
    name = re.sub(r"(?<=[a-z0-9])([A-Z])", lambda m: "_" + m[1].lower(), name)
    return name.replace("-", "_") + prime


def camel(name):
    return "".join(w[:1].upper() + w[1:] for w in name.split("-"))


def table():
    new = {}
    for p in files(".antt"):
        in_function = not re.search(r"/(specs|proofs)/[^/]+\.antt$", p)
        for name, sig, part in declared(read(p)):
            if in_function and sig.startswith("goal."):
                continue
            if name[0].isupper():
                to = camel(name) if "-" in name else name
            else:
                to = snake(name)
            if to != name:
                new[name] = to
    new.update(CHOSEN)
    return new


TOKEN = re.compile(rf"(?<![\w'\-]){NAME}")


def respelled(text, new, fields):
    def turn(m):
        name = m[0]
        if name not in new:
            return name
        before = text[m.start() - 1] if m.start() else ""
        if before == "." and name not in fields and not text[m.start() - 2 : m.start() - 1].isupper():
            return name
        return new[name]

    return TOKEN.sub(turn, text)


def main():
    new = table()
    fields = {n for p in files(".antt") for n, _, part in declared(read(p)) if part}
    if os.environ.get("SHOW"):
        every = {n for p in files(".antt") for n, _, _ in declared(read(p))}
        by = {}
        for n in every:
            by.setdefault(new.get(n, n), set()).add(n)
        for n, olds in sorted(by.items()):
            if len(olds) > 1:
                print("TOGETHER", n, sorted((o, sorted(p for p in files(".antt") if any(d[0] == o for d in declared(read(p))))) for o in olds))
        for n in sorted(new):
            print(n, new[n], "field" if n in fields else "")
        return
    count = 0
    for ending in (".antt", ".rt", ".edit"):
        for p in files(ending):
            old = read(p)
            here = THERE.get(os.path.relpath(p, CRATES), {})
            text = respelled(old, {**new, **here}, fields)
            if text != old:
                with open(p, "w", encoding="utf-8") as f:
                    f.write(text)
                count += 1
    print(f"respell: {len(new)} names, {count} files")


main()
