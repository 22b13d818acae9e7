#!/usr/bin/env python3
"""Brings the repository's own definitions and lemmas to today's spelling, once, right after port.py.

Words are in snake case, types in camel case, and a dash only joins the names of two definitions in the name of a
lemma, as in get_or-tabulate. Names of src/ keep their spelling, and so do the names that Rattle makes in proofs/F/.

usage: python3 tools/respell.py          in the repository's top folder: rewrites crates/ in place
       python3 tools/respell.py --list   prints the names and writes nothing
"""

import os
import re
import sys

# names in which a dash joins two names, or whose parts are spelled otherwise
GIVEN = {
    "*ℤ-negℤ": "*ℤ-neg_ℤ",
    "negℤ-*ℤ": "neg_ℤ-*ℤ",
    "natAbs-*ℤ": "nat_abs-*ℤ",
    "natAbs-+ℤ": "nat_abs-+ℤ",
    "natAbs--ℤ": "nat_abs--ℤ",
    "pos_nat_abs": "pos-nat_abs",
    "get_d_tabulate": "get_or-tabulate",
    "getD-tabulate-past": "get_or-tabulate_past",
    "tabulate-getD": "tabulate-get_or",
    "getD-added": "get_or-added",
    "length-tabulate": "length-tabulate",
    "length-added": "length-added",
    "map-tabulate": "map-tabulate",
    "set-tabulate": "set-tabulate",
    "floor-divEuclid": "floor-div_euclid",
    "rest-remEuclid": "rest-rem_euclid",
    "tally-sum": "tally-sum",
    "take-taken": "take-take_same",
}

WORD = re.compile(r"[^\s(){}\[\].,;⌜⌝\"|]+")
KIT = re.compile(r"use\s+(?:Rattle\.(?:std|core)|lib|borrow|mathlib|native|Prim)\b[\w.'-]*\.\{([^}]*)\}")
DEFINED = re.compile(r"^\s*(?:(?:abbrev|unfoldable|pub|record|data|ruleset|let|where)\s+)*([^\s(){}.,;=:]+)(?:\s+(?:\([^()]*\)|\{[^{}]*\}))*\s*:\s+(?!goal\.)")
BOUND = re.compile(r"\blet\s+([^\s(){}.,;=:]+)\s*=|[({]([^(){}:]+?)\s:\s|λ\s+([^.]*)\.|^\s*\|\s+([^|↦]*)↦")


def snake(name):
    if name in GIVEN:
        return GIVEN[name]
    if name[0].isupper():
        parts = name.split("-")
        return parts[0] + "".join(p[0].upper() + p[1:] for p in parts[1:])
    return re.sub(r"(?<=[\w'])-(?=[\w'])|(?<=ℤ)-(?=\w)", "_", name)


def files(ends):
    for folder, dirs, names in os.walk("crates"):
        dirs[:] = sorted(d for d in dirs if d != "out")
        for n in sorted(names):
            if n.endswith(ends):
                yield os.path.join(folder, n)


def of_function(path):
    """Whether the file answers the goals of one function, where Rattle makes the names."""
    return os.path.basename(path) in ("Answers.antt", "Invariants.antt", "Proof.antt")


def code_only(line):
    return re.sub(r"(^|\s)--(\s.*)?$", "", line)


def own_names():
    kit, pages, local = set(), set(), {}
    for p in files((".antt", ".rt")):
        with open(p, encoding="utf-8") as f:
            text = f.read()
        for m in KIT.finditer(text):
            kit |= {n.strip().split(" as ")[-1].strip() for n in m.group(1).split(",")}
        if not p.endswith(".antt"):
            continue
        here = set()
        for line in text.splitlines():
            line = code_only(line)
            m = DEFINED.match(line)
            if m:
                here.add(m.group(1))
            for m in BOUND.finditer(line):
                for g in m.groups():
                    if g:
                        here |= set(WORD.findall(g))
        if of_function(p):
            local[p] = here
        else:
            pages |= here
    wanted = lambda n: n not in kit and snake(n) != n and not re.match(r"(then|else|in|in_ok|in_err)-", n)
    return pages - kit, {p: {n for n in h if wanted(n)} for p, h in local.items()}, kit


def respell(path, line, names):
    def one(m):
        w, at = m.group(0), m.start()
        if w not in names:
            return w
        # behind a dot stands a field: in proofs/F/ mostly one that Rattle made
        if at and line[at - 1] == "." and of_function(path) and re.search(r"(?:^|[\s(])[clgw]\.[\w'-]*(?:\.[\w'-]+)*\.$", line[:at]):
            before = line[:at]
            if not re.search(r"\.(ensures|invariant|inv)\.$|\.(ensures|invariant)(\.\w+)*\.$|result\.$", before) and re.search(r"(?:^|[\s(])[clgw]\.$", before):
                return w
        return snake(w)

    return WORD.sub(one, line)


def main():
    every, local, kit = own_names()
    pages = {n for n in every if snake(n) != n}
    if "--list" in sys.argv:
        for n in sorted(pages):
            print(n, snake(n))
        return
    back = {snake(n): {n} for n in every - pages}
    for n in pages:
        back.setdefault(snake(n), set()).add(n)
    for new, old in sorted(back.items()):
        if len(old) > 1 or new in kit:
            print("fall together:", new, sorted(old), "a name of the library" if new in kit else "")
    for p in files((".antt", ".rt", ".edit")):
        with open(p, encoding="utf-8") as f:
            text = f.read()
        names = pages | local.get(p, set())
        out = []
        for line in text.split("\n"):
            if p.endswith(".antt"):
                code = code_only(line)
                out.append(respell(p, code, names) + line[len(code):])
            elif p.endswith(".rt"):
                code = line.split("//")[0]
                parts = re.split(r'("(?:[^"\\]|\\.)*")', code)
                out.append("".join(s if i % 2 else respell(p, s, names) for i, s in enumerate(parts)) + line[len(code):])
            else:
                out.append(respell(p, line, names) if line.startswith(("old: ", "new: ")) else line)
        new = "\n".join(out)
        if new != text:
            with open(p, "w", encoding="utf-8") as f:
                f.write(new)


if __name__ == "__main__":
    main()
