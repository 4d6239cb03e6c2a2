#!/usr/bin/env python3
"""Brings the definitions and lemmas of crates/ to one spelling: words in snake case, types in camel case.

usage: tools/spelling.py [--list] [FOLDER]   rewrites the .antt and .rt files below FOLDER/crates, or lists the new names only

It was run once, right after the newer Rattle's own script had turned the repository to its spelling. A word is what the specs and the
proofs declare at the start of a line, a record's field or a constructor. Names of goals stay as they are: Rattle makes these.
"""

import os
import re
import sys

WORD = re.compile(r"[^\s(){}\[\],;.|`:]+")
DECLARED = re.compile(r"^((?:abbrev |unfoldable |pub |record |data |ruleset )*)([^\s(){}\[\],;.:|]+)")
MEMBER = re.compile(r"^  (?:pub )?([^\s(){}\[\],;.:|]+) :")
# What stands in a module with parameters, or below a where.
INNER = re.compile(r"^ +((?:abbrev |unfoldable |pub |record |data )*)([^\s(){}\[\],;.:|]+)(?: \{ℓ\w*\})? (?::|\()")
HUMP = re.compile(r"(?<=[a-z0-9])([A-Z])")
# Rattle's own names in a proof file
MADE = re.compile(r": *tie\.|: \{M : Type 1\} → statement M")
GOALS = re.compile(r"^use \S+\.(?:Goals|Given) as goal$", re.M)


def files(top):
    for folder, dirs, names in os.walk(os.path.join(top, "crates")):
        dirs[:] = sorted(d for d in dirs if d != "out")
        for name in sorted(names):
            if name.endswith((".antt", ".rt", ".edit")):
                yield os.path.join(folder, name)


def read(path):
    with open(path, encoding="utf-8") as f:
        return f.read()


def declared(text, own):
    """The names that a file declares, each with whether it is a type and whether it is a member; own: of a function's proof."""
    inside = False
    for line in text.split("\n"):
        if line.startswith(("--", "use ", "pub use ", "mod ", "pub mod ", "unfolding ")) or not line.strip():
            continue
        if line.startswith(" "):
            m = MEMBER.match(line) if inside else None
            if m:
                yield m.group(1), False, True
                continue
            m = None if own else INNER.match(line)
            if m and (" :" in line or "record" in m.group(1) or "data" in m.group(1)) and m.group(2) not in ("let", "in", "where", "module"):
                a_type = "record" in m.group(1) or "data" in m.group(1) or bool(re.search(r"(: |→ )Type [01]$", line))
                yield m.group(2), a_type, False
            continue
        m = DECLARED.match(line)
        kinds = m.group(1).split() if m else []
        inside = "record" in kinds or "data" in kinds
        if not m or not (inside or "ruleset" in kinds or re.match(r"(?: \{ℓ\w*\})? *(?::|$)", line[m.end():])):
            continue
        if own and MADE.search(line):
            continue
        yield m.group(2), inside or bool(re.search(r"(: |→ )Type [01]$", line)), False


def spelled(name, is_type):
    if is_type:
        parts = name.split("-")
        return "".join(p[:1].upper() + p[1:] for p in parts)
    if not re.search(r"[a-z]", name):
        return name
    parts = [HUMP.sub(lambda m: "_" + m.group(1).lower(), p) if p[:1].islower() else p for p in name.split("-")]
    if name[:2] == "B-":
        parts[0] = "b"
    return "_".join(parts)


def new_names(top):
    """Old name to new name of what the specs and lemma files declare; and which names are members."""
    turned, members = {}, set()
    for path in files(top):
        if not path.endswith(".antt") or os.path.basename(path) == "Proof.antt" or GOALS.search(read(path)):
            continue
        for name, is_type, is_member in declared(read(path), False):
            if "◌" in name or not name[0].isalpha():
                continue
            if is_member:
                members.add(name)
            new = spelled(name, is_type)
            if new != name and name[0].isupper() >= new[0].isupper():
                turned[name] = new
    return turned, members


# Names that would fall together with others: a lemma named as its function, and what two words say.
OTHERWISE = {
    name: spelled(name, False) + "_lem"
    for name in (
        "bit-and bit-or bit-xor blank-is cut-of file-entry file-head file-row mark-of memory-entry memory-row number-line "
        "route-uses row-numbers text-rings ring-through in-memory light-before over-before plan-moves"
    ).split()
} | {
    "from-relay": "from_relay_jobs",
    "to-relay": "to_relay_jobs",
    "last-size": "last_length",
    "lastNumber": "last_number_of",
    "overLimit": "is_over_limit",
    "rowChecks": "checks_of_row",
}

# Names of one file alone that give way.
LOCAL = {
    "interval/proofs/RowSets.antt": {"on_line": "on_line_set"},
    "slots/proofs/PlainWalk.antt": {"is_open": "is_open_now"},
}


def turn(text, turned, members, path):
    own = {}
    if GOALS.search(text):
        made = set(re.findall(r"^(?:abbrev )?(?:pub )?(\S+) : goal\.", text, re.M))
        turned = {k: v for k, v in turned.items() if k not in made}
    for end, names in LOCAL.items():
        if path.endswith(end):
            turned = turned | names
    if os.path.basename(path) == "Proof.antt":
        made = set(re.findall(r"^(\S+) : *tie\.", text, re.M))
        for name, is_type, _ in declared(text, True):
            new = spelled(name, is_type)
            if new != name and "◌" not in name and not name.endswith("-spec"):
                own[name] = new
        turned = {k: v for k, v in turned.items() if k not in made} | {k: v for k, v in own.items() if k not in made}

    aliases = "|".join(re.findall(r"^(?:ghost )?use \S+ as (\w+);?$", text, re.M)) or "-"

    def one(m):
        word = m.group(0)
        if word not in turned:
            return word
        if m.start() and text[m.start() - 1] == "." and word not in members:
            before = text[max(0, m.start() - 60):m.start()]
            # a name by its path keeps the path's spelling
            if not re.search(rf"(?:^|[\s(])(?:(?:[A-Z]\w*\.)+|(?:{aliases})\.)$", before):
                return word
        return turned[word]

    return WORD.sub(one, text)


def main():
    words = [w for w in sys.argv[1:] if w != "--list"]
    top = words[0] if words else "."
    turned, members = new_names(top)
    turned.update(OTHERWISE)
    for name in ("and-true", "and-false"):  # the library's too
        turned.pop(name, None)
    if "--list" in sys.argv:
        for old in sorted(turned):
            print(old, turned[old])
        return
    for path in files(top):
        before = read(path)
        after = turn(before, turned, members, path)
        if after != before:
            with open(path, "w", encoding="utf-8") as f:
                f.write(after)


main()
