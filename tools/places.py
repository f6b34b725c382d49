#!/usr/bin/env python3
"""Counts the places that the design pass looks at, in crates/*/src of a commit or of this tree.

    tools/places.py            the counts in this tree
    tools/places.py COMMIT     the counts at a commit
    tools/places.py -l [COMMIT]    with each place

A place that stays for a stated reason has a comment line above it that begins with `Stays:`; it is counted apart.
What a pattern cannot see (functions that are alike, facts said in several contracts) is in docs/DESIGN-PASS.md by hand.
"""
import re
import subprocess
import sys

PATTERNS = [
    ("1 a refusal written out", r"(?<!let )Refusal \{($| fault)"),
    ("1 a match that an Option's or Result's method says", r"^\s*(None => (None|false|true|0|1|[a-z_]+),|Err\(_\) => |Ok\(\(\)\) => Ok|Err\(\w+\) => (Err\(|return Err))"),
    ("1 a value or nothing by an if", r"\{ Some\(.*\) \} else \{ None \}|\{ None \} else \{ Some"),
    ("1 a number for a kind", r"\bkind: u8|match [^{]*\{\n\s*(\d+|'.') =>|\.byte\(\)|from_byte\(|\.letter\(\)|from_letter\(|\.number\(\)"),
    ("1 a number that stands for nothing", r"^pub fn \w+\(\) -> u8$"),
    ("3 a loop over a range, or a while", r"^\s*for .* in (?!.*\.zip\()[^\"\n]*\.\.|^\s*while "),
    ("4 a conversion or a text by hand", r"fn ((byte|letter|number|text|moment)\(self\)|from_byte|from_letter|meaning|fault_from_number|\w+_text)\b"),
    ("5 seven parameters and more", None),
    ("6 a lent or filled list of slots", r"= \[0; (MOST|SLOTS|2000|2001|16)\]|used: usize|\bn: usize|start: usize|: \[(u16|u32|bool|u64|StationState); \w+\]"),
    ("7 a trait of one question", None),
    ("7 a struct for one question", r"^impl.* (Test|Visit|EdgeRule|PhaseRule|Denominators|Hears)(<\w+>)? for "),
    ("7 a switch on what to ask", r"Test::(Busy|Due|Past)"),
]


def files(commit):
    if commit:
        names = subprocess.check_output(["git", "ls-tree", "-r", "--name-only", commit, "crates"], text=True).split("\n")
        for name in names:
            if re.match(r"crates/\w+/src/.*\.rt$", name):
                yield name, subprocess.check_output(["git", "show", f"{commit}:{name}"], text=True)
    else:
        names = subprocess.check_output(["git", "ls-files", "--cached", "--others", "--exclude-standard", "crates"], text=True).split("\n")
        for name in sorted(names):
            if re.match(r"crates/\w+/src/.*\.rt$", name):
                try:
                    yield name, open(name).read()
                except FileNotFoundError:
                    pass


def found(label, pattern, text):
    lines = text.split("\n")
    if label.startswith("5"):
        for match in re.finditer(r"fn (\w+)[^(]*\(([^)]*)\)", text):
            count = len([p for p in match.group(2).split(",\n" if "\n" in match.group(2) else ",") if p.strip()])
            if count >= 7:
                yield text[: match.start()].count("\n") + 1
        return
    if label == "7 a trait of one question":
        for match in re.finditer(r"^pub trait [^{]*\{(.*?)^\}", text, re.M | re.S):
            if len(re.findall(r"\bfn ", match.group(1))) == 1:
                yield text[: match.start()].count("\n") + 1
        return
    block = ""
    for i, line in enumerate(lines):
        if re.match(r"(impl|fn|pub fn|pub struct|pub enum|mod)\b", line):
            block = line
        # the one place where numbers and letters stand, and the one where refusals are made
        if re.match(r"impl (From|TryFrom)<|impl Fault |pub struct Refusal ", block) and label.startswith("1"):
            continue
        if line.strip().startswith("//"):
            continue
        match = re.search(pattern, line + "\n" + "".join(lines[i + 1 : i + 2]), re.M)
        if match and match.start() <= len(line) and (match.end() <= len(line) or "{" in match.group(0)):
            yield i + 1


def main():
    args = [a for a in sys.argv[1:] if a != "-l"]
    long = "-l" in sys.argv
    commit = args[0] if args else None
    texts = list(files(commit))
    for label, pattern in PATTERNS:
        open_places, kept = [], []
        for name, text in texts:
            lines = text.split("\n")
            for n in found(label, pattern, text):
                above = []
                k = n - 2
                while k >= 0 and (lines[k].strip().startswith("//") or (n - k) <= 7):
                    above.append(lines[k])
                    k -= 1
                stays = any(re.search(r"//.*Stays: ", a) for a in above)
                (kept if stays else open_places).append((name, n, lines[n - 1].strip()))
        print(f"{len(open_places) + len(kept):4} found, {len(kept):3} stay with a line  {label}")
        if long:
            for name, n, line in open_places:
                print(f"         {name}:{n}: {line}")
            for name, n, line in kept:
                print(f"   stays {name}:{n}: {line}")


main()
