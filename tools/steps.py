#!/usr/bin/env python3
"""Gives the steps, places and goals that proof files cite the names that Rattle gives them today.

usage: tools/steps.py NAMES [FOLDER]   NAMES: a folder in which `rt names` wrote crates/NAME/names.json; FOLDER: the checkout

It was run once, after tools/spelling.py, on every proofs/F/Proof.antt.
"""

import json
import os
import re
import sys

PREFIX = re.compile(r"^(overflow|nonzero|offset-bounds|slice-bounds|bounds)-")


def same(name):
    return name.replace("_", "-")


def answers(text):
    """The names that the last line hands to tie.spec, in order."""
    m = re.search(r"tie\.spec\b(.*)\Z", text, re.S)
    return re.findall(r"[^\s()]+", m.group(1)) if m else []


def turn(text, known, name):
    lost = []
    places = {same(old[0]): new for old, new in zip(known["places"], known["places_by_name"])}
    steps = {same(p[2][0]): p[2][1] for p in known["places"] if p[2][0]}
    for (old, new), _ in known["loops"]:
        steps[same(old)] = new
        steps.setdefault(same(old + "-test"), new + "-test")
    loops = {same(old): new for (old, new), _ in known["loops"]}
    needs = {same(old): new for old, new in known["needs"]}
    given = answers(text)[2 * len(loops):] if known["loops"] else answers(text)
    by_order = {}
    declared = dict(re.findall(r"^(\S+) :\s+tie\.Need-(\S+)", text, re.M))
    if len(given) == len(known["needs"]) and all(it in declared for it in given):
        by_order = {declared[it]: new for it, (_, new) in zip(given, known["needs"])}

    def need(m):
        it = m.group(1)
        if it in by_order:
            return "tie.Need-" + by_order[it]
        for way in (same(it), PREFIX.sub("", same(it))):
            if way in needs:
                return "tie.Need-" + needs[way]
        lost.append("Need-" + it)
        return m.group(0)

    def place(m):
        it = m.group(1)
        for kind in ("invariant-", "decreases-"):
            if it.startswith(kind):
                if same(it[10:]) in loops:
                    return "tie." + kind + loops[same(it[10:])]
                lost.append(it)
                return m.group(0)
        if same(it) in places:
            return "tie." + places[same(it)]
        if it not in ("spec", "close"):
            lost.append(it)
        return m.group(0)

    text = re.sub(r"tie\.Need-([^\s()\[\]{},;.]+)", need, text)
    text = re.sub(r"tie\.(?!Need-)([^\s()\[\]{},;.]+)", place, text)

    def step(m):
        it = same(m.group(1))
        return "." + steps[it] if it in steps else m.group(0)

    text = re.sub(r"\.([^\s()\[\]{},;.]+)(?=\.)", step, text)
    text = re.sub(r"\.((?:if|loop)\d*(?:-test)?)(?![^\s()\[\]{},;.])", step, text)
    text = re.sub(r"\.pre(?=[.\s)},;])", ".requires", text)
    text = re.sub(r"\.inv(?=[.\s)},;])", ".invariant", text)
    text = re.sub(r"\.taken(?=[.\s)},;])", ".true", text)
    last = name.split(".")[-1]
    old = re.escape(same(last)).replace(r"\+", r"\+?") + "-spec"
    text = re.sub(rf"(?<![^\s(]){old}(?=[\s)])", last + "_spec", text)
    return text, lost


def main():
    names = sys.argv[1]
    top = sys.argv[2] if len(sys.argv) > 2 else "."
    for crate in sorted(os.listdir(os.path.join(names, "crates"))):
        at = os.path.join(names, "crates", crate, "names.json")
        if not os.path.isfile(at):
            continue
        with open(at, encoding="utf-8") as f:
            known = json.load(f)
        for key, it in known.items():
            m = re.fullmatch(rf"Rattle-{crate}-proofs\.(.*)\.Lts", key)
            if not m:
                continue
            path = os.path.join(top, "crates", crate, "proofs", *m.group(1).split("."), "Proof.antt")
            if not os.path.isfile(path):
                continue
            with open(path, encoding="utf-8") as f:
                before = f.read()
            after, lost = turn(before, it, m.group(1))
            for name in lost:
                print(f"{os.path.relpath(path, top)}: {name} has no name today")
            if after != before:
                with open(path, "w", encoding="utf-8") as f:
                    f.write(after)


main()
