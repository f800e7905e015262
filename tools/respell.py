#!/usr/bin/env python3
"""Brings the repository's own definitions and lemmas to Rattle's spelling: words in snake case; types and modules, which
were in upper camel case, stay. Run once, at the top, on what the kit's port.py left of commit d2f6201.

A dash stays where it joins two names and the snake case is a name already (`bit-and`); a lemma that would get the name
of its function is called `_lem`. Functions of src/, exported names, strings, inputs and outputs keep their names.
"""
import os
import re

TOKEN = re.compile(r"[^\s(){}.,;\[\]`\"]+")
DECLARED = re.compile(r"^\s*(?:unfoldable |abbrev )?(?:pub )?(?:data |record |ruleset |syntax )?([A-Za-z_][^\s(){}:.]*)(?: \{[^}]*\})?(?: \([^)]*\))* :(?: |$)")
KEPT = {"bit-and", "bit-or"}
# lemmas that the kit's script gave a name which a definition gets here
GAVE_WAY = {"in_use": "in_use_lem", "last_line": "last_line_lem", "left_over": "left_over_lem"}
# variables of proofs
LOCAL = ["by-record", "by-passed", "by-walk", "no-13", "no-14", "read-it", "spoken-all", "none-enabled", "none-disabled", "no-signer"]


def snake(n):
    return re.sub(r"(?<=[a-z0-9])([A-Z])", lambda m: "_" + m.group(1).lower(), n).replace("-", "_")


def files(*ends):
    for top in ("crates",):
        for d, ds, fs in os.walk(top):
            ds[:] = sorted(x for x in ds if x not in ("out", ".git"))
            for f in sorted(fs):
                if f.endswith(ends):
                    yield os.path.join(d, f)


def text(p):
    with open(p, encoding="utf-8") as f:
        return f.read()


def put(p, t):
    if text(p) != t:
        with open(p, "w", encoding="utf-8") as f:
            f.write(t)


def own(p):
    """A file of specs/, or a file of lemmas of proofs/: not one of a function's folder."""
    parts = p.split(os.sep)
    return parts[2] == "specs" or (parts[2] == "proofs" and len(parts) == 4)


def library(t):
    """The names that a file imports from elsewhere than this repository's crates."""
    names = set()
    crates = os.listdir("crates")
    for m in re.finditer(r"^use (\S+?)\.\{([^}]*)\}", t, re.M):
        path = m.group(1).split(".")
        if not (path[0] == "Rattle" and path[1] in crates):
            names |= {x.strip().split(" as ")[-1] for x in m.group(2).split(",")}
    return names


def main():
    declared, imported, aliases = {}, set(), set()
    for p in files(".antt"):
        t = text(p)
        imported |= library(t)
        if own(p):
            for l in t.split("\n"):
                m = DECLARED.match(l)
                if m:
                    declared.setdefault(m.group(1), set()).add(p)
            for m in re.finditer(r"^use \S+ as (\S+)$", t, re.M):
                aliases.add(m.group(1))
    new, taken = dict(GAVE_WAY), (set(declared) | imported) - set(GAVE_WAY)
    for n in sorted(declared, key=lambda n: ("-" in n, n)):
        s = snake(n)
        if s == n or n in KEPT or n in imported or n[0].isupper() and "-" not in n:
            continue
        if s in taken:
            if "-" not in n:
                print(f"falls together: {n} and {s}", declared[n], declared.get(s))
                continue
            print(f"_lem: {n}", declared[n], declared.get(s))
            s += "_lem"
        new[n] = s
        taken.add(s)
    new |= {n: snake(n) for n in LOCAL}
    for n in sorted(aliases - set(declared)):
        if "-" in n and snake(n) not in taken:
            new[n] = snake(n)

    def turned(t):
        return TOKEN.sub(lambda m: new.get(m.group(0), m.group(0)), t)

    for p in files(".antt"):
        lines = text(p).split("\n")
        put(p, "\n".join(l if l.lstrip().startswith("--") else turned(l) for l in lines))
        lines = text(p).split("\n")
        put(p, "\n".join(re.sub(r"`([^`]*)`", lambda m: "`" + turned(m.group(1)) + "`", l) if l.lstrip().startswith("--") else l for l in lines))
    for p in files(".rt"):
        put(p, "\n".join(l if l.lstrip().startswith("//") else turned(l) for l in text(p).split("\n")))
    print(len(new), "names")


main()
