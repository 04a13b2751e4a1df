#!/usr/bin/env python3
"""Brings this repository's own definitions and lemmas to snake case: words such as `restLine` become `rest_line`, names joined by
a dash `acquire_runs`, constants `ACQUIRE_STEPS`. Types and facts keep their camel case, names from the Rattle sources their spelling.

usage: python3 tools/respell.py            at the top of the repository, once, right after port.py
       python3 tools/respell.py --names    prints old and new names

Names of a file that it imports from the kit stay. Where a lemma's name would fall together with a definition's, the lemma gets `_lem`.
"""
import collections
import os
import re
import sys

# Lemmas that already had an underscore when the definition of the same name came: the file that states each.
TAKEN = {
    "offset_at": "demand/proofs/Page.antt",
    "or_quiet": "i2c/proofs/Phases.antt",
    "by_default": "demand/proofs/Library.antt",
    "after_read": "transfer/proofs/Laws.antt",
    "asks_at": "bench/proofs/Laws.antt",
}
# Words of std in the spelling that a lemma would get.
STD = {"bit_and", "bit_or"}
WORD = re.compile(r"(?<![\w'·-])([A-Za-z][\w'-]*)(?![\w'-])")
KIT = re.compile(r"^(?:ghost )?use (?!Rattle\.(?:%s)\.)[^\n{]*\.?\{([^}]*)\}")


def files(root, suffixes):
    for folder, dirs, names in os.walk(root):
        dirs[:] = sorted(d for d in dirs if d not in ("out", ".git", "target"))
        for n in sorted(names):
            if n.endswith(suffixes):
                yield os.path.join(folder, n)


def read(p):
    with open(p, encoding="utf-8") as f:
        return f.read()


def of_function(p):
    return os.path.basename(p) in ("Proof.antt", "Answers.antt", "Invariants.antt")


def definitions(paths):
    found = collections.defaultdict(set)
    for p in paths:
        for line in read(p).split("\n"):
            m = re.match(r"\s*(?:abbrev |unfoldable )?(?:pub )?(?:abbrev |unfoldable )?([A-Za-z][\w'-]*) : (.*)", line)
            if m and not re.match(r"\s*let ", line):
                name = m.group(1)
                if of_function(p) and ("tie." in m.group(2) or "statement" in m.group(2)):
                    continue
                found[name].add(p)
            m = re.match(r"\s*(?:pub )?(?:data|record) ([A-Za-z][\w'-]*)", line)
            if m:
                found[m.group(1)].add(p)
    return found


def spelled(name):
    if re.match(r"[a-z]", name):
        name = re.sub(r"(?<=[a-z0-9'])[A-Z]", lambda m: "_" + m.group(0), name).lower()
    return name.replace("-", "_")


def mapping(root="crates"):
    paths = [p for p in files(root, (".antt",))]
    defs = definitions(paths)
    names = {n: spelled(n) for n in defs if not re.match(r"[A-Z]", n) or "-" in n}
    taken = collections.defaultdict(set)
    for n, to in names.items():
        taken[to].add(n)
    for to, group in taken.items():
        if len(group) > 1 or to in STD:
            for n in group:
                if "-" in n or (n == to and n in TAKEN):
                    names[n] = to + "_lem"
    return {n: to for n, to in names.items() if n != to}


def turn(text, names, kept=()):
    def one(m):
        w = m.group(1)
        return names[w] if w in names and w not in kept else w
    return WORD.sub(one, text)


def main():
    names = mapping()
    if "--names" in sys.argv:
        for n in sorted(names):
            print(n, names[n])
        return
    own = sorted(os.listdir("crates"))
    kit = re.compile(KIT.pattern % "|".join(own))
    plain = {n: to for n, to in names.items() if n not in TAKEN}
    changed = 0
    for p in files("crates", (".antt", ".rt")):
        old = read(p)
        kept = set()
        for line in old.split("\n"):
            m = kit.match(line)
            if m:
                kept |= {w.strip().split(" as ")[-1] for w in m.group(1).split(",")}
        here = dict(plain)
        for n, where in TAKEN.items():
            module = "Rattle." + where[:-5].replace("/", ".") + "."
            if p.endswith(where) or re.search(re.escape(module) + r"\{[^}]*\b" + n + r"\b", old):
                here[n] = names[n]
        if p.endswith(".rt"):
            here = {n: to for n, to in here.items() if "-" not in n or any(n in line for line in old.split("\n") if "use Rattle." in line)}
        new = turn(old, here, kept)
        if new != old:
            changed += 1
            with open(p, "w", encoding="utf-8") as f:
                f.write(new)
    print("%d names, %d files" % (len(names), changed))


main()
