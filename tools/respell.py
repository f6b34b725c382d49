#!/usr/bin/env python3
"""Brings the names of definitions and lemmas to one spelling: snake case, and upper camel case for facts.

usage: python3 tools/respell.py [--dry]     at the top of the repository

A name with dashes that a file of specs/ or proofs/ defines is turned wherever it stands outside comments and strings: `first-faulty` to
`first_faulty`, `Model-nets-step` to `ModelNetsStep`. Names of libraries, goals, steps of a proof (`c.…`) and functions of src/ stay. Names in `code` of README.md and docs/ are turned too.
A library's `AllByRecursion`, brought in under the name of another of its words, is called by its own name.
It says which names would fall together. The crate check, whose name is a library's now, becomes book_check.
"""
import collections
import os
import re
import sys

OWN = re.compile(
    r"\s*(?:(?:pub|abbrev|unfoldable|data|record|ruleset) +)*([^\s:(){};.,\"λ→]+)(?: +(?:\{[^}]*\}|\([^)]*\)))* +:(?: |$)"
)
RULESET = re.compile(r"\s*(?:pub +)?ruleset +([^\s:(){};.,]+)")
TOKEN = re.compile(r"--(?= |$)[^\n]*|//[^\n]*|\"(?:[^\"\\\n]|\\.)*\"|[^\s(){}.;,@\"«»\[\]\\|&]+|.", re.S)
IMPORT = re.compile(r"use\s+(?:pub\s+)?(Rattle\.(?:std|core)\.[^\s{;]+|borrow\.[^\s{;]+|denote\.[^\s{;]+|mathlib\.[^\s{;]+|Prim[^\s{;]*|lib\.[^\s{;]+)\.\{([^}]*)\}")
STEPS = {"c", "goal", "w", "l", "g"}
# Names under an `as`, parameters that are fields too, and what a line of another form declares.
MORE = set("Steps-by Book-right read-order read-path read-paths hearer-port sender-port three-ticks wait-call word-call making-of goes-on-by net-goes-on".split())
# Facts that the toolchain's script had put in snake case.
FACTS = {"Read_from": "ReadFrom", "Goes_on": "GoesOn"}
# Names that would fall together with a module, or with a field, and get a word more.
OTHERWISE = {"One-time": "AreOneTime", "Reads-back": "IsReadBack", "Writes-back": "IsWrittenBack", "low-open": "open_low", "L-some": "one_or_more", "getD-small": "get_or_small"}


def files():
    for folder, dirs, names in os.walk("crates"):
        dirs[:] = sorted(d for d in dirs if d != "out")
        for f in sorted(names):
            if f.endswith((".rt", ".antt")):
                yield os.path.join(folder, f)


def turned(name):
    if name in OTHERWISE:
        return OTHERWISE[name]
    if name[0].isupper():
        return "".join(p[:1].upper() + p[1:] for p in name.split("-"))
    return name.replace("-", "_")


def is_own(name):
    return re.fullmatch(r"[A-Za-z][A-Za-z0-9_]*(-[A-Za-z0-9_]+)+'*", name) is not None


def by_own_name(t):
    """`All` in a file that brings in `AllByRecursion as All` is `AllByRecursion`."""
    if "AllByRecursion as All" not in t:
        return t
    t = t.replace("AllByRecursion as All", "AllByRecursion")
    return "".join("AllByRecursion" if w == "All" else w for w in TOKEN.findall(t))


def by_fact(t):
    return "".join(FACTS.get(w, w) for w in TOKEN.findall(t)) if any(f in t for f in FACTS) else t


def rename_crate(old, new):
    """A crate under another name: its folder, crates.txt, `use` lines and paths of specs and proofs."""
    if not os.path.isdir(f"crates/{old}"):
        return
    os.rename(f"crates/{old}", f"crates/{new}")
    lines = open("crates.txt", encoding="utf-8").read().split("\n")
    word = re.compile(rf"(?<![\w-]){old}(?![\w-])")
    with open("crates.txt", "w", encoding="utf-8") as f:
        f.write("\n".join(l if l.startswith("#") else word.sub(new, l) for l in lines))
    for p in files():
        t = open(p, encoding="utf-8").read()
        s = re.sub(rf"\bRattle\.{old}\.", f"Rattle.{new}.", t)
        s = re.sub(rf"^((?:pub )?use ){old}::", rf"\1{new}::", s, flags=re.M)
        if s != t:
            open(p, "w", encoding="utf-8").write(s)


def main(dry):
    texts = {p: open(p, encoding="utf-8").read() for p in files()}
    functions = {f for p, t in texts.items() if p.endswith(".rt") for f in re.findall(r"\bfn (\w+)", t)}
    own, fields, goals = set(), set(), set()
    for p, t in texts.items():
        if not p.endswith(".antt"):
            continue
        inside = None
        for line in t.split("\n"):
            m = re.match(r"(?:pub +)?(?:abbrev +pub +|abbrev +)?(?:pub +)?(record|data) ", line)
            if m:
                inside = m.group(1)
            elif line and not line[0].isspace():
                inside = None
            m = OWN.match(line) or RULESET.match(line)
            if not m or not is_own(m.group(1)):
                continue
            name = m.group(1)
            if re.search(r": goal\.", line):
                goals.add(name)
                continue
            own.add(name)
            if inside == "record":
                fields.add(name)
    own |= MORE
    own -= {n for n in goals if re.match(r"(returns|overflow|loop|invariant|bounds|slice|nonzero|decreases)", n)}
    own = {n for n in own if not re.match(r"(returns-|overflow[-_])", n)}
    clash = collections.defaultdict(set)
    out = {}
    for p, t in texts.items():
        foreign = set()
        for m in IMPORT.finditer(t):
            for w in m.group(2).split(","):
                foreign.add(w.split(" as ")[-1].strip())
        tokens = TOKEN.findall(t)
        present = set(tokens)
        done = []
        for i, w in enumerate(tokens):
            if w in own and w not in foreign:
                before = tokens[i - 1] if i else ""
                if before == ".":
                    j = i
                    while j >= 2 and tokens[j - 1] == "." and not tokens[j - 2].isspace():
                        j -= 2
                    head = tokens[j]
                    steps = head in STEPS and os.path.basename(p) in ("Answers.antt", "Invariants.antt")
                    if steps and w not in fields and turned(w) not in functions:
                        done.append(w)
                        continue
                new = turned(w)
                if new in present:
                    clash[(w, new)].add(p)
                w = new
            done.append(w)
        out[p] = by_fact(by_own_name("".join(done)))
    for (a, b), ps in sorted(clash.items()):
        print(f"falls together: {a} and {b} in {sorted(ps)[0]} (+{len(ps) - 1})")
    news = collections.defaultdict(set)
    for n in own:
        news[turned(n)].add(n)
    for b, ns in sorted(news.items()):
        if len(ns) > 1:
            print(f"one spelling: {sorted(ns)} to {b}")
    changed = [p for p in texts if out[p] != texts[p]]
    print(f"{len(own)} names, {len(changed)} files")
    if not dry:
        for p in changed:
            open(p, "w", encoding="utf-8").write(out[p])
        for p in ["README.md"] + sorted("docs/" + f for f in os.listdir("docs") if f.endswith(".md")):
            t = open(p, encoding="utf-8").read()
            spans = re.sub(r"`[^`\n]+`", lambda m: "".join(turned(w) if w in own else w for w in re.split(r"([\s`/(){}.;,·]+)", m.group(0))), t)
            if spans != t:
                open(p, "w", encoding="utf-8").write(spans)
        rename_crate("check", "book_check")
    return 0


if __name__ == "__main__":
    raise SystemExit(main("--dry" in sys.argv))
