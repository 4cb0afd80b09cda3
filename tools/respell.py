#!/usr/bin/env python3
"""Brings the repository's own definitions and lemmas to snake case, once, after the toolchain's own script for an older form.

A definition, lemma, field or constructor of specs/ and proofs/ whose name begins with a small letter or a sign is written
with `_` between its words, in place of a capital or a dash; types and modules keep their names. `first_of` is a tactic's
word now, so the first test that refuses is `first_refusal`; SPECIAL has the few that would else fall together. Functions of src/, exported names, strings, inputs and outputs
keep theirs. Names of the library that are spelled alike are left where a file imports them; what falls together is said.

usage: tools/respell.py            at the top of the repository; --list prints the names and changes nothing
"""
import collections
import glob
import os
import re
import sys

TOKEN = re.compile(r"[^\s(){}\[\],;.@\"`!]+")
NAME = r"[^\s(){}\[\],;.@\"]+"
SIGNS = "⊏⊑⊕"


SPECIAL = {
    "first_of": "first_refusal",
    "firstOf": "first_refusal",
    "mapAt": "map_place",
    "firstQuery": "first_query_place",
    "ofLength": "of_fixed_length",
    "atGoal": "goal_number",
    "on-floor": "stays_on_floor",
    "map-in": "map_inside",
    "plan-head": "head_of_plan",
}


def spelled(name):
    if name in SPECIAL:
        return SPECIAL[name]
    if re.match(r"[A-Z]", name) or "◌" in name:
        return name
    name = re.sub(r"(?<=[a-z0-9])([A-Z])", lambda m: "_" + m.group(1).lower(), name)
    keep = re.sub(r"(?<=[%s])-(?=[%s])" % (SIGNS, SIGNS), "\0", name)
    return keep.replace("-", "_").replace("\0", "-")


def antt_files():
    for f in sorted(glob.glob("crates/*/specs/**/*.antt", recursive=True) + glob.glob("crates/*/proofs/**/*.antt", recursive=True)):
        yield f


def is_walk(f):
    return os.path.basename(f) == "Proof.antt"


def defined(text):
    """The names that a file defines at its top, and those of fields and constructors."""
    tops, parts = set(), set()
    for line in text.split("\n"):
        if re.match(r"(use|pub use|mod|pub mod|infix|infixl|infixr)\b|\s*--", line):
            continue
        m = re.match(r"(?:(?:abbrev|unfoldable|pub|data|record) )*(%s)\s*(?=[:({])" % NAME, line)
        if m and not line.startswith(" "):
            tops.add(m.group(1))
            continue
        m = re.match(r"\s+(?:(?:abbrev|unfoldable|pub|data|record) )*(%s(?: %s)*) :(?:\s|$)" % (NAME, NAME), line)
        if m and "let" not in m.group(1).split() and "λ" not in m.group(1):
            parts |= set(m.group(1).split())
    return tops, parts


def imported(text):
    """name -> the module that a `use` line takes it from; the name as the file knows it."""
    got = {}
    for m in re.finditer(r"^(?:pub )?(?:ghost )?use ([^\s{;]+?)\.\{([^}]*)\}", text, re.M):
        for item in m.group(2).split(","):
            words = item.split()
            if words:
                got[words[-1]] = (m.group(1), words[0])
    return got


def main():
    crates = [l.split(":")[0].split()[0] for l in open("crates.txt") if l.strip() and not l.startswith("#")]
    own = re.compile(r"Rattle\.(%s)\.(specs|proofs)\." % "|".join(crates))
    texts = {f: open(f, encoding="utf-8").read() for f in antt_files()}
    names = collections.defaultdict(set)
    for f, t in texts.items():
        if is_walk(f):
            continue
        tops, parts = defined(t)
        for n in tops | parts:
            if spelled(n) != n:
                names[n].add(f)
    # another name that a file gives on import
    for t in [open(f, encoding="utf-8").read() for f in glob.glob("crates/*/src/**/*.rt", recursive=True)]:
        for n in re.findall(r" as ([a-z]+[A-Z]\w*)", t):
            names[n].add("as")
    if "--list" in sys.argv:
        for n in sorted(names):
            print(n, spelled(n), len(names[n]))
    # what falls together: two names of one file, or a new name that a file already has as a word
    others = {}
    for f in sorted(glob.glob("crates/*/src/**/*.rt", recursive=True)):
        others[f] = open(f, encoding="utf-8").read()
    for f in sorted(glob.glob("crates/*/must-fail/*.edit")):
        others[f] = open(f, encoding="utf-8").read()
    said = set()
    for f, t in {**texts, **others}.items():
        words = set(TOKEN.findall(t))
        got = imported(t)
        left = set()
        if is_walk(f):
            # what a walk names for itself goes by the names of goals
            left |= {n for n in defined(t)[0]}
        for n in words & set(names):
            if n in got and not own.match(got[n][0] + "."):
                left.add(n)
                said.add(f"left: {f}: {n} of {got[n][0]}")
        new_names = collections.defaultdict(set)
        for n in words & set(names) - left:
            new_names[spelled(n)].add(n)
            if spelled(n) in words:
                said.add(f"look: {f}: {n} falls together with {spelled(n)}")
        for s, ns in new_names.items():
            if len(ns) > 1:
                said.add(f"look: {f}: {' and '.join(sorted(ns))} fall together")

        def turned(m):
            n = m.group(0)
            if n not in names or n in left or f.endswith(".rt") and not (re.search("[A-Z-]", n) or n in SPECIAL):
                return n
            return spelled(n)
        mark = "//" if f.endswith(".rt") else "--"
        lines = []
        for line in t.split("\n"):
            at = re.search(r"(^|\s)" + mark, line)
            code, rest = (line[: at.start()], line[at.start():]) if at else (line, "")
            lines.append(TOKEN.sub(turned, code) + rest)
        new = "\n".join(lines)
        if new != t and "--list" not in sys.argv:
            with open(f, "w", encoding="utf-8") as out:
                out.write(new)
    for line in sorted(said):
        print(line)


main()
