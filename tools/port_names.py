#!/usr/bin/env python3
"""Brings the names of this repository's own definitions and lemmas to snake case, after the kit's port.py.

usage: python3 tools/port_names.py [ROOT] [--dry]

What is renamed: each name that a file of specs/ or a lemma file of proofs/ declares and that has a dash or a capital in its middle.
A lemma whose name would fall together with a definition's gets '_lem'.
What keeps its name: names of the Rust-like source, types and modules, names that some file imports from the library, and the names that the
prover makes. It reads and writes the .antt and .rt files of crates/. Run once.
"""
import collections
import os
import re
import sys

ROOT = next((a for a in sys.argv[1:] if not a.startswith("-")), ".")
DRY = "--dry" in sys.argv
DECLARED = re.compile(r"^\s*(?:pub\s+|abbrev\s+|unfoldable\s+|data\s+|record\s+)*([^\s(){};,.]+) :(?: |$)")
TOKEN = re.compile(r"[^\s(){};,.:«»`\[\]]+")
IMPORT = re.compile(r"^\s*(?:ghost )?use ([^\s;{]+?)(?:\.\{([^}]*)\})?(?: as (\S+?))?;?\s*$", re.M)


def files(ext):
    for folder, dirs, names in os.walk(os.path.join(ROOT, "crates")):
        dirs[:] = sorted(d for d in dirs if d != "out")
        for n in sorted(names):
            if n.endswith(ext):
                yield os.path.join(folder, n)


def snake(name):
    name = re.sub(r"([a-z0-9])([A-Z])", lambda m: m.group(1) + "_" + m.group(2).lower(), name)
    return name.replace("-", "_")


def own(path):
    """Whether a module path is one of this repository's crates."""
    parts = path.split(".")
    return parts[0] == "Rattle" and len(parts) > 1 and os.path.isdir(os.path.join(ROOT, "crates", parts[1]))


def main():
    texts = {p: open(p, encoding="utf-8").read() for p in [*files(".antt"), *files(".rt")]}
    declared, foreign, tokens = collections.defaultdict(set), set(), collections.defaultdict(set)
    for p, t in texts.items():
        for m in IMPORT.finditer(t):
            if not own(m.group(1)):
                for n in (m.group(2) or "").split(","):
                    foreign.add(n.split(" as ")[0].strip())
                    foreign.add(n.split(" as ")[-1].strip())
        for w in TOKEN.findall(t):
            tokens[w].add(p)
        rel = os.path.relpath(p, os.path.join(ROOT, "crates")).split(os.sep)
        if not p.endswith(".antt") or rel[-1] in ("Proof.antt", "Answers.antt", "Invariants.antt") and len(rel) > 3:
            continue
        for line in t.split("\n"):
            m = DECLARED.match(line)
            if m:
                declared[m.group(1)].add(p)
    turn = {}
    for n in sorted(declared):
        if n in foreign or n[0] in "+μ" or not re.match(r"[a-z]", n):
            continue
        if "-" in n or re.search(r"[a-z0-9][A-Z]", n):
            turn[n] = snake(n)
    # Two that the kit's script had brought to the spelling that a definition gets here.
    turn.update({"cut_short": "cut_off", "on_read": "on_read_lem"})
    # A lemma that would have the name of a definition, or of what the same file names so, gets an ending.
    taken = {to for n, to in turn.items() if "-" not in n} | {n for n in declared if n not in turn}
    for n, to in turn.items():
        if "-" in n and (to in taken or any(p.endswith(".antt") for p in tokens.get(to, set()) & tokens[n])):
            turn[n] = to + "_lem"
    together = collections.defaultdict(list)
    for n, to in turn.items():
        together[to].append(n)
    for to, ns in sorted(together.items()):
        at = [(n, tokens[n]) for n in ns] + ([(to, tokens[to])] if to in tokens else [])
        if len(at) > 1:
            both = set()
            for i in range(len(at)):
                for j in range(i + 1, len(at)):
                    both |= at[i][1] & at[j][1]
            print("look:", to, "is", ", ".join(n for n, _ in at), "| both in", ", ".join(sorted(os.path.relpath(b, ROOT) for b in both)) or "no file")
    for p, t in texts.items():
        aliases = {m.group(3) for m in IMPORT.finditer(t) if m.group(3) and own(m.group(1))}

        def one(m):
            w = m.group(0)
            if w not in turn or (p.endswith(".rt") and w in ("cut_short", "on_read")):
                return w
            if m.start() > 0 and t[m.start() - 1] == ".":
                k = m.start() - 1
                while k > 0 and t[k - 1] not in " \t\n(){};,[]":
                    k -= 1
                head = t[k:m.start() - 1]
                walks = os.path.basename(p) == "Proof.antt" or p.endswith(".rt")
                if walks and head.split(".")[0] not in aliases and not head.startswith("Rattle."):
                    if os.environ.get("SAY"):
                        print("kept:", os.path.relpath(p, ROOT), head + "." + w)
                    return w
            return turn[w]

        new = TOKEN.sub(one, t)
        if new != t and not DRY:
            with open(p, "w", encoding="utf-8") as f:
                f.write(new)
    print("renamed:", len(turn))


main()
