#!/usr/bin/env python3
"""Mends the paths of proof files that walk from one place of a function back to an earlier one.

usage: tools/places.py NAMES FOLDER CRATE..   NAMES: where `rt names` wrote crates/NAME/names.json

A step's field is read off the place itself, with no way back; a place that a lemma of the file takes is reached by as many steps as
there are today. It was run once, after tools/steps.py.
"""

import json
import os
import re
import sys

NAME = r"[^\s(){}\[\],;.]+"


def declarations(text):
    """The parts of a file that begin at the start of a line and belong together: comments and use lines are parts of their own."""
    parts, now = [], []
    for line in text.split("\n"):
        if line and not line.startswith(" ") and now:
            parts.append("\n".join(now))
            now = []
        now.append(line)
    parts.append("\n".join(now))
    return parts


def split_arrows(sig):
    pieces, depth, at = [], 0, 0
    for i, ch in enumerate(sig):
        if ch in "({[":
            depth += 1
        elif ch in ")}]":
            depth -= 1
        elif ch == "→" and depth == 0:
            pieces.append(sig[at:i])
            at = i + 1
    pieces.append(sig[at:])
    return [p.strip() for p in pieces]


def groups(piece):
    """(x y : T) (z : U) as a list of types, or None where it is no such list."""
    found, i = [], 0
    while i < len(piece):
        if piece[i].isspace():
            i += 1
            continue
        if piece[i] not in "({":
            return None
        depth, j = 0, i
        while j < len(piece):
            depth += piece[j] in "({["
            depth -= piece[j] in ")}]"
            if depth == 0:
                break
            j += 1
        inside = piece[i + 1:j]
        m = re.match(r"((?:[^\s:()]+ )+): (.*)", inside, re.S)
        if not m:
            return None
        if piece[i] == "(":
            found += [m.group(2).strip()] * len(m.group(1).split())
        i = j + 1
    return found


def place_of(kind):
    m = re.match(rf"tie\.({NAME})", kind)
    return m.group(1) if m and not m.group(1).startswith(("Need-", "invariant-", "decreases-")) else None


def signature(sig):
    pieces = split_arrows(sig)
    params = []
    for p in pieces[:-1]:
        got = groups(p) if p[:1] in "({" else None
        params += [place_of(t) for t in got] if got is not None else [place_of(p)]
    return params, place_of(pieces[-1])


class File:
    def __init__(self, known):
        new = dict(zip([p[0] for p in known["places"]], known["places_by_name"]))
        self.up = {new[p[0]]: new.get(p[1]) for p in known["places"]}
        self.old = {p[2][0].replace("_", "-"): p[2][1] for p in known["places"] if p[2][0]}
        self.callee = {p[2][1]: known["params"].get(p[3]) for p in known["places"] if p[3]}
        self.asked = {n[1]: a[1] for n, a in zip(known["needs"], known["asked_at"])}
        self.lost = []
        self.helpers = {}

    def above(self, place, n):
        for _ in range(n):
            place = self.up.get(place)
        return place

    def steps(self, frm, to):
        n = 0
        while frm is not None:
            if frm == to:
                return n
            frm, n = self.up.get(frm), n + 1
        return None

    def atom(self, text, i, env):
        """The atom that begins at i: (start of its way back, its end, place of its base, how many steps back, whether it is a place)."""
        if i >= len(text):
            return None
        if text[i] == "(":
            depth, j = 0, i
            while j < len(text):
                depth += text[j] in "(["
                depth -= text[j] in ")]"
                if depth == 0:
                    break
                j += 1
            base, at = self.type_of(text[i + 1:j], env), j + 1
        else:
            m = re.compile(r"[^\s(){}\[\],;.]+").match(text, i)
            if not m:
                return None
            base, at = env.get(m.group(0)), m.end()
        m = re.compile(r"((?:\.before)*)((?:\.[^\s(){}\[\],;.]+)*)").match(text, at)
        return at, m.end(), base, m.group(1).count(".before"), not m.group(2)

    def type_of(self, text, env):
        text = text.strip()
        m = re.match(NAME, text)
        if not m:
            return None
        if m.group(0) in self.helpers and not text[m.end():].startswith("."):
            params, result = self.helpers[m.group(0)]
            return result if params else None
        got = self.atom(text, 0, env)
        if got and got[1] == len(text) and got[4]:
            return self.above(got[2], got[3])
        return None

    def wants(self, text, i, var):
        """The places for which lemmas take the variable var, from i on."""
        found = set()
        for m in re.compile(NAME).finditer(text, i):
            if m.group(0) not in self.helpers or text[m.start() - 1] == ".":
                continue
            j = m.end()
            for want in self.helpers[m.group(0)][0]:
                g = re.compile(r"\s+").match(text, j)
                got = self.atom(text, g.end(), {}) if g else None
                if not got:
                    break
                if want and text[g.end():got[1]] == var:
                    found.add(want)
                j = got[1]
        return found

    def body(self, text, env):
        # the way back before a field
        text = re.sub(rf"(?:\.before)+\.(?!before)({NAME})", r".\1", text)
        out, i = "", 0
        word = re.compile(NAME)
        while i < len(text):
            m = word.match(text, i)
            if not m:
                out += text[i]
                i += 1
                continue
            it = m.group(0)
            before = text[i - 1] if i else " "
            if it == "let" and before in " \n(":
                n = re.compile(rf"let\s+({NAME}) = ").match(text, i)
                if n:
                    got = self.atom(text, n.end(), env)
                    if got and got[4] and re.compile(r"\s+in\b").match(text, got[1]) and got[2]:
                        if got[3]:
                            # the place that the lemmas take it for, if it is one; else no way back: each use goes as far as it has to
                            wants = self.wants(text, got[1], n.group(1))
                            k = self.steps(got[2], wants.pop()) if len(wants) == 1 else 0
                            text = text[:got[0]] + ".before" * (k or 0) + text[got[1]:]
                            env[n.group(1)] = self.above(got[2], k or 0)
                        else:
                            env[n.group(1)] = got[2]
                    else:
                        k = re.compile(r"\s+in\b").search(text, n.end())
                        kind = self.type_of(text[n.end():k.start()], env) if k else None
                        if kind:
                            env[n.group(1)] = kind
                        else:
                            env.pop(n.group(1), None)
                    out += text[i:n.end()]
                    i = n.end()
                    continue
            if it in self.helpers and before != "." and text[m.end():m.end() + 1] != ".":
                params, _ = self.helpers[it]
                j = m.end()
                for want in params:
                    g = re.compile(r"\s+").match(text, j)
                    if not g:
                        break
                    got = self.atom(text, g.end(), env)
                    if not got:
                        break
                    if want and got[4]:
                        if got[2]:
                            n = self.steps(got[2], want)
                            if n is None:
                                self.lost.append(f"{it}: from {got[2]} to {want}")
                            elif n != got[3]:
                                text = text[:got[0]] + ".before" * n + text[got[1]:]
                                got = (got[0], got[0] + 7 * n) + got[2:]
                    j = got[1]
                out += it
                i = m.end()
                continue
            out += it
            i = m.end()
        return out

    def fields(self, text, env):
        """Steps by today's names, read off a variable that is a place, and the values after a call by the names of parameters."""
        lets = re.findall(rf"let ({NAME}) = (?:{NAME})(?:\.before)+ in", text)
        bases = "|".join(re.escape(v) for v in [*env, *lets])

        def step(m):
            return m.group(1) + "." + self.old.get(m.group(2).replace("_", "-"), m.group(2))

        if bases:
            text = re.sub(rf"((?<![^\s(])(?:{bases})(?:\.before)*)\.(?!before)({NAME})", step, text)

        def after(m):
            of, k = m.group(1), m.group(2).count("1")
            params = self.callee.get(of)
            return f".{of}.new.{params[k]}" if params and k < len(params) else m.group(0)

        text = re.sub(rf"\.({NAME})\.(?:last|new)((?:\.1)*)\.0(?![0-9])", after, text)
        return re.sub(rf"(?<=\.)({'|'.join(map(re.escape, self.callee)) or '-'})\.last(?=[\s.)])", r"\1.new", text)

    def turn(self, text):
        parts = declarations(text)
        sigs = {}
        for p in parts:
            m = re.match(rf"(?:abbrev |unfoldable |pub )*({NAME}) :\s+(.*)", p, re.S)
            if m and not p.startswith(("use ", "--")):
                sigs[m.group(1)] = m.group(2)
                params, result = signature(m.group(2))
                if any(params):
                    self.helpers[m.group(1)] = (params, result)
        done = []
        for p in parts:
            m = re.match(rf"({NAME})((?: [^\s=]+| \([^=]*\)| \{{[^=]*\}})*) =(?=\s)", p)
            if not m or m.group(1) not in sigs or p.startswith(("use ", "--")):
                done.append(p)
                continue
            name, sig = m.group(1), sigs[m.group(1)]
            env, result = {}, None
            need = re.match(r"tie\.Need-(\S+)", sig)
            args = re.findall(r"\{[^}]*\}|\([^)]*\)|\S+", m.group(2))
            args = [a for a in args if not a.startswith("{")]
            if need:
                if args and need.group(1) in self.asked:
                    env[args[0]] = self.asked[need.group(1)]
            elif name in self.helpers:
                params, result = self.helpers[name]
                env = {a: k for a, k in zip(args, params) if k}
            head, rest = p[:m.end()], self.fields(p[m.end():], env)
            if result:
                got = self.atom(rest, len(rest) - len(rest.lstrip()), env)
                if got and got[4] and got[2] and not rest[got[1]:].strip():
                    n = self.steps(got[2], result)
                    if n is None:
                        self.lost.append(f"{name}: from {got[2]} to {result}")
                    else:
                        rest = rest[:got[0]] + ".before" * n + rest[got[1]:]
                        done.append(head + rest)
                        continue
            done.append(head + self.body(rest, env))
        # signatures too have paths
        return "\n".join(self.signed(p) for p in done)

    def signed(self, p):
        m = re.match(rf"(?:abbrev |unfoldable |pub )*({NAME}) :\s", p)
        if not m or p.startswith(("use ", "--")) or "tie.Need-" in p:
            return p
        env = {}
        for names, kind in re.findall(r"\(((?:[^\s:()]+ )+): (tie\.[^\s()]+)", p):
            for n in names.split():
                if place_of(kind):
                    env[n] = place_of(kind)
        return p[:m.end()] + self.body(p[m.end():], env)


def main():
    names, top, *crates = sys.argv[1:]
    for crate in crates:
        with open(os.path.join(names, "crates", crate, "names.json"), encoding="utf-8") as f:
            known = json.load(f)
        for key, it in known.items():
            m = re.fullmatch(rf"Rattle-{crate}-proofs\.(.*)\.Lts", key)
            path = m and os.path.join(top, "crates", crate, "proofs", *m.group(1).split("."), "Proof.antt")
            if not path or not os.path.isfile(path):
                continue
            with open(path, encoding="utf-8") as f:
                before = f.read()
            file = File(it)
            after = file.turn(before)
            for lost in file.lost:
                print(f"{os.path.relpath(path, top)}: {lost}")
            if after != before:
                with open(path, "w", encoding="utf-8") as f:
                    f.write(after)


if __name__ == "__main__":
    main()
