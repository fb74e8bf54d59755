#!/usr/bin/env python3
"""Spells the repository's own names as today's Rattle does: words in snake case, types and modules in camel case.

usage: python3 tools/respell.py [--check]     at the top of the repository, once, after the kit's port.py

It goes over crates/*/specs, crates/*/proofs and the clauses and comments of crates/*/src. A name that a file of specs/ or proofs/ declares loses its inner
capitals: `binaryDigits` becomes `binary_digits`. A dash, which joins two names, stays (`and-false`). `getD`, the library's older `get_or`, goes by its new name in
names too. Where port.py took a law's dash away and a definition has that name now, the law gets it back (DASHED). Names of the library, names that Rattle makes
of the source, names of the source and strings stay. It also writes `#![tactic(auto)]` at the head of each crate, which today's check asks for. With --check
nothing is written. It ends with a line for each two names that would fall together, and then exits with 1.
"""

import glob
import os
import re
import sys

WORD = r"[^\s(){}.;,@\"«»\[\]\\`]+"
TOKEN = re.compile(r"\"(?:[^\"\\\n]|\\.)*\"|«[^»]*»|" + WORD)
DECLARED = re.compile(r"^[ ]*(?:(?:abbrev|unfoldable|pub|record|data|ruleset|module)[ ]+)*([^\s:(){}]+)[ ]*(?=[:=(]|$)", re.M)
USE = re.compile(r"^[ ]*(?:pub |ghost )*use ([^\s{;]+?)\.\{([^}]*)\}", re.M)
# what is made of a function, and what its proof file answers under the names that Rattle makes
ANSWERED = re.compile(r"^(?:abbrev )?([^\s:]+) : tie\.", re.M)
DASHED = {w: w.replace("_", "-") for w in "at_rest branch_in branch_row first_off load_row moved_in node_row row_count row_read source_in".split()}
# fields of two records, or a field and a parameter: they stand apart
APART = {"fromNames", "toNames", "nodeNames", "tapNames"}
KEPT = {"where", "use", "let", "in", "open", "unfolding"}


def respelled(name):
    name = name.replace("getD", "get_or").replace("get_d_", "get_or_")
    parts = name.split("-")
    out = []
    for part in parts:
        if re.match(r"^[^A-Z\W]", part) or re.match(r"^[^\w]*[a-z0-9]", part):
            part = re.sub(r"(?<=[a-z0-9])([A-Z])(?=[a-z]|\b|[A-Z0-9_'])", lambda m: "_" + m.group(1).lower(), part)
        out.append(part)
    return "-".join(out)


def read(path):
    with open(path, encoding="utf-8") as f:
        return f.read()


def own_files():
    texts = []
    for crate in sorted(glob.glob("crates/*/")):
        for part, end in (("specs", ".antt"), ("proofs", ".antt"), ("src", ".rt")):
            texts += sorted(glob.glob(f"{crate}{part}/**/*{end}", recursive=True))
    return texts


def main():
    crates = {os.path.basename(c.rstrip("/")) for c in glob.glob("crates/*/")}
    paths = own_files()
    texts = {p: read(p) for p in paths}

    declared, answered = {}, set()
    for p, t in texts.items():
        if not p.endswith(".antt"):
            continue
        bare = re.sub(r"--[^\n]*", "", t)
        for m in DECLARED.finditer(bare):
            declared.setdefault(m.group(1), set()).add(p)
        if p.endswith("/Proof.antt"):
            answered |= set(ANSWERED.findall(bare))
    new = {}
    for name in declared:
        if name in KEPT or "→" in name:
            continue
        to = respelled(name)
        if name in DASHED:
            new[name] = DASHED[name]
        elif to != name:
            new[name] = to

    def from_library(text):
        out = set()
        for where, names in USE.findall(text):
            parts = where.split(".")
            if not (parts[0] == "Rattle" and len(parts) > 1 and parts[1] in crates):
                out |= {n.strip().split(" as ")[0] for n in names.split(",")}
        return out

    # names that fall together: two old names in one new one, or a new one that a file already has
    clashes = []
    back = {}
    for a, b in new.items():
        back.setdefault(b, set()).add(a)
    for b, each in sorted(back.items()):
        if len(each) > 1:
            clashes.append(f"falls together: {', '.join(sorted(each))} -> {b}: {' | '.join(sorted(set().union(*(declared[e] for e in each))))}")
        if b in declared and b not in DASHED and not each <= APART:
            clashes.append(f"falls together: {', '.join(sorted(each))} -> {b}, which is declared: {sorted(set().union(*(declared[e] for e in each)))} | {sorted(declared[b])}")

    changed = 0
    for p, t in texts.items():
        library = from_library(t)
        local_answers = set(ANSWERED.findall(t)) if p.endswith("/Proof.antt") else set()
        out, at = [], 0
        used = set()
        for m in TOKEN.finditer(t):
            w = m.group(0)
            to = new.get(w)
            if to is None or w in library or w in local_answers:
                continue
            before = t[max(0, m.start() - 80):m.start()]
            if re.search(r"(?:^|[^\w.])tie\.$", before):
                continue
            if w in DASHED and (p.endswith(".rt") or (before.endswith(".") and not re.search(r"\b[a-z]\.$", before))):
                continue
            # a field after a dot: only where it is declared as a record's field, or ends a path of a `use` line
            if before.endswith(".") and not before.endswith("..") and p.endswith("/Proof.antt") and w in answered:
                continue
            out.append(t[at:m.start()] + to)
            at = m.end()
            used.add((w, to))
        out.append(t[at:])
        s = "".join(out)
        if p.endswith(".rt"):
            signatures = " ".join(re.findall(r"\bfn \w+[^{]*?\)(?= *(?:->|\n|\{))", t))
            code = set(re.findall(r"\b(\w+):", signatures))
            for w, to in sorted(used):
                if to in code:
                    clashes.append(f"look: {p}: {w} -> {to}, a parameter of a function")
        if p.endswith(("/src/lib.rt", "/src/main.rt")) and "#![tactic(" not in s:
            lines = s.split("\n")
            i = 0
            while i < len(lines) and (lines[i].startswith("//") or not lines[i].strip()):
                i += 1
            if i == 0:
                lines[0:0] = ["#![tactic(auto)]", ""]
            else:
                lines[i:i] = ["#![tactic(auto)]", ""]
            s = "\n".join(lines)
        for b in set(to for _, to in used) & library:
            clashes.append(f"falls together: {p}: a name becomes {b}, which the file imports from the library")
        if s != t:
            changed += 1
            if "--check" not in sys.argv:
                with open(p, "w", encoding="utf-8") as f:
                    f.write(s)
    for c in clashes:
        print(c)
    print(f"{len(new)} names, {changed} files")
    return 1 if any(c.startswith("falls") for c in clashes) else 0


if __name__ == "__main__":
    sys.exit(main())
