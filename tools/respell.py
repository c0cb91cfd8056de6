#!/usr/bin/env python3
"""Brings the repository's own definitions, lemmas and fields to snake case.

usage: tools/respell.py [--list] (at the top of the repository, once, after the kit's port.py)

Names are read off the signatures of crates/*/specs/*.antt and crates/*/proofs/*.antt: a name that begins with a small letter and has a
dash or a capital inside is spelled with underscores everywhere in crates/, but not in a file that takes the same name from a library.
Names of types and modules, names of src/, strings and outputs stay. Two names that would fall together are told, and stop it.
"""
import os, re, sys, collections

SIG = re.compile(r"^\s*(?:(?:pub|abbrev|unfoldable|mutual)\s+)*((?:[a-zα-ω][\w'′-]*\s+)*[a-zα-ω][\w'′-]*)\s+:\s")
INNER = re.compile(r"(?:^\s*record\s[^{]*\{|;|\{)\s*([a-z][\w'-]*)\s+:\s")
TOKEN = re.compile(r"[^\s(){}\[\],;.:\"⟨⟩]+")
LIBRARY = re.compile(r"use\s+((?:Rattle\.(?P<own>\w+)|[a-zA-Z]\w*)[^\s{;]*?)\.\{([^}]*)\}", re.S)

# Names that would fall together with one in snake case: another word. A lemma that would have its function's name gets `_lem`.
OTHER = {
    "fromAt": "source_at",
    "heldBy": "held_by_item",
    "partIn": "part_at_place",
    "resetsStep": "resetting_step",
    "noSteps": "empty_steps",
    "zoneHinted": "ZoneHinted",
    "partHinted": "PartHinted",
}

# Facts that began with a small letter: the module that has them, and how they are spelled there and where they are taken from it.
FACTS = {
    "dbm.specs.Matrix": {"below": "Below", "keeps": "Keeps"},
    "dbm.specs.Size": {"numbered": "Numbered"},
    "timed.specs.Runs": {"compared": "Compared"},
}


def snake(name):
    if not name[0].islower():
        return name
    t = re.sub(r"(?<=[a-z0-9])([A-Z])", lambda m: "_" + m.group(1).lower(), name)
    t = re.sub(r"([A-Z])", lambda m: m.group(1).lower(), t)
    return t.replace("-", "_")

def files(root):
    for folder, dirs, names in os.walk(root):
        dirs[:] = sorted(d for d in dirs if d != "out")
        for n in sorted(names):
            if n.endswith((".antt", ".rt", ".edit")):
                yield os.path.join(folder, n)

def main():
    root = "crates"
    crates = set(os.listdir(root))
    declared = collections.defaultdict(set)
    for p in files(root):
        parts = p.split(os.sep)
        if not p.endswith(".antt") or not (parts[2] in ("specs", "proofs") and len(parts) == 4):
            continue
        for line in open(p, encoding="utf-8"):
            if line.lstrip().startswith("--"):
                continue
            m = SIG.match(line)
            found = m.group(1).split() if m else []
            found += INNER.findall(line)
            for n in found:
                if n in ("pub", "abbrev", "unfoldable", "let", "use"): continue
                declared[n].add(p)
    want = {n: OTHER.get(n, snake(n)) for n in declared if snake(n) != n}
    taken = {t for n, t in want.items() if "-" not in n} | {n for n in declared if n not in want}
    for n, t in want.items():
        if "-" in n and t in taken:
            want[n] = t + "_lem"
    fallen = collections.defaultdict(set)
    for n in declared:
        fallen[want.get(n, n)].add(n)
    bad = {t: s for t, s in fallen.items() if len(s) > 1}
    if "--list" in sys.argv:
        for t, s in sorted(bad.items()):
            print("together:", t, {n: sorted(declared[n])[:4] for n in s})
        print(len(want), "names", len(bad), "together")
        return 0
    if bad:
        print("together:", bad)
        return 1
    changed = 0
    for p in files(root):
        text = open(p, encoding="utf-8").read()
        skip = set()
        for m in LIBRARY.finditer(text):
            if m.group("own") not in crates:
                taken = {x.strip().split(" as ")[-1] for x in m.group(3).replace("\n", " ").split(",")}
                for n, t in want.items():
                    if t in taken and re.search(r"(?<![\w'.-])" + re.escape(n) + r"(?![\w'-])", text):
                        print(p + ": " + n + " would be " + t + " of a library")
                skip |= {x.strip().split(" as ")[0] for x in m.group(3).replace("\n", " ").split(",")}
        def turn(m):
            t = m.group(0)
            return want[t] if t in want and t not in skip else t
        new = TOKEN.sub(turn, text)
        for module, facts in FACTS.items():
            crate, _, name = module.split(".")
            home = p.endswith(os.path.join(crate, "specs", name + ".antt"))
            taken = {x.strip() for m in re.finditer(r"use Rattle\." + re.escape(module) + r"\.\{([^}]*)\}", new) for x in m.group(1).split(",")}
            for n, t in facts.items():
                if home or n in taken:
                    new = re.sub(r"(?<![\w'.-])" + n + r"(?![\w'-])", t, new)
        if new != text:
            open(p, "w", encoding="utf-8").write(new)
            changed += 1
    print(len(want), "names in", changed, "files")
    return 0

if __name__ == "__main__":
    raise SystemExit(main())
