#!/usr/bin/env python3
"""Spells the repository's own definitions and lemmas in snake case: run once, after the kit's port.py, at the top.

usage: tools/spell.py            rewrites crates/ in place
       tools/spell.py --check    says only what would fall together

A name of specs/ or proofs/ that has a dash or a capital inside gets plain underscores: any-in and anyPair become any_in and any_pair; a type keeps its capitals. What the toolchain makes (goals, their fields) and what a library
declares stays, and so do Rust's names. OTHERWISE has the names that would fall together with another."""
import glob
import re
import sys

NAME = r'[^\s(){}.;,@"«»]+'
TOKEN = re.compile(rf"(?<![^\s(){{}};,.@«»]){NAME}")
DECLARED = re.compile(r"(?m)^ *((?:pattern |unfoldable |abbrev |axiom |pub )*)([^\s(){}.;,@\"«»:]+)((?: \{[^{}\n]*\})*) :(?!:)(.*)")
RULES = re.compile(r"(?m)^ *(?:pub )?ruleset (\S+) =")
USE = re.compile(r"\buse ([^\s;{]+)(?:\{([^;]*?)\})?(?: as ([^\s;]+))?(?=;|[ \t]*$)", re.M)
COMMENT = re.compile(r"(?m)(^|(?<=\s))--(?=\s|-|$).*$")

# Where plain underscores would meet another name; a lemma that would have its function's name gets _lem.
OTHERWISE = {
    "bit-or": "bit_of_or",
    "bit-and": "bit_of_and",
    "in-memory": "all_in_memory",
    "zero-first": "zero_is_first",
    "Goal-at": "GoalAt",
    "Whole-run": "WholeRun",
    "Given-to": "GivenTo",
}


def crates():
    return {p.split("/")[1] for p in glob.glob("crates/*/src")}


def wants(name):
    return "-" in name.strip("-") and re.match(r"[a-zA-Z]", name) or re.match(r"[a-z]\S*[A-Z]", name)


def plain(name):
    if name in OTHERWISE:
        return OTHERWISE[name]
    if name[0].isupper():
        return re.sub(r"-(.)", lambda m: "_" + m[1], name)
    return re.sub(r"(?<=[a-z0-9])[A-Z]", lambda m: "_" + m[0].lower(), name).replace("-", "_")


DEFINED = set()  # what the names in camel case become


def spelled(name):
    new = plain(name)
    return new + "_lem" if new in DEFINED and new == name.replace("-", "_") else new


def own_path(path, own):
    steps = path.strip(".").split(".")
    return len(steps) > 1 and steps[0] == "Rattle" and steps[1] in own


def generated(path):
    return re.search(r"\.(Tie|Statement|Goals|Given)$", path.strip("."))


def quiet(text):
    return COMMENT.sub(lambda m: " " * len(m[0]), text)


def brought(text, own):
    """The names that a file takes from the repository, and those from elsewhere."""
    mine, theirs = set(), set()
    for path, names, alias in USE.findall(text):
        into = mine if own_path(path, own) and not generated(path) else theirs
        for it in (names or "").split(","):
            it = it.strip()
            into.update(re.split(r" as ", it))
    return mine - {""}, theirs - {""}


class File:
    def __init__(self, path, own):
        self.path = path
        self.text = open(path, encoding="utf-8").read()
        self.is_rust = path.endswith(".rt")
        self.quiet = quiet(self.text) if not self.is_rust else re.sub(r"//[^\n]*", lambda m: " " * len(m[0]), self.text)
        self.mine, self.theirs = brought(self.quiet, own)
        self.declared = set()
        if not self.is_rust:
            for marks, name, _, kind in DECLARED.findall(self.quiet):
                if not re.match(r"\s*(tie|goal)\.", kind):
                    self.declared.add(name)
            self.declared |= set(RULES.findall(self.quiet))
        self.walk = bool(re.search(r"/proofs/.+/(Proof|Answers|Invariants)\.antt$", path))

    def tokens(self):
        for m in TOKEN.finditer(self.quiet):
            yield m

    def renamed(self, every):
        """old: new of the names that turn in this file"""
        turn = {}
        goals = set()
        if self.walk:
            goals = {name for _, name, _, kind in DECLARED.findall(self.quiet) if re.match(r"\s*(tie|goal)\.", kind)}
        for m in self.tokens():
            old = m[0]
            if old in self.theirs or old in turn or old in goals:
                continue
            dotted = bool(m.start()) and self.quiet[m.start() - 1] == "."
            if old in DEFINED and not dotted and not self.is_rust and (old in self.declared or old in self.mine):
                turn[old] = spelled(old)
            if not wants(old):
                continue
            if self.is_rust or self.walk:
                if old in self.mine or old in self.declared or dotted and old in every["fields"]:
                    turn[old] = spelled(old)
                continue
            if dotted and old not in every["declared"]:
                continue
            turn[old] = spelled(old)
        return turn

    def turned(self, turn):
        out, last = [], 0
        for m in self.tokens():
            if m[0] in turn:
                out += [self.text[last : m.start()], turn[m[0]]]
                last = m.end()
        return "".join(out + [self.text[last:]])


def main():
    own = crates()
    paths = sorted(glob.glob("crates/*/specs/**/*.antt", recursive=True) + glob.glob("crates/*/proofs/**/*.antt", recursive=True) + glob.glob("crates/*/src/**/*.rt", recursive=True))
    files = [File(p, own) for p in paths]
    every = {"declared": set(), "fields": set()}
    for f in files:
        if not f.is_rust and not f.walk:
            every["declared"] |= {n for n in f.declared if wants(n)}
        if not f.is_rust:
            for m in re.finditer(r"(?m)^ +pub (\S+) :", f.quiet):
                every["fields"].add(m[1])
    DEFINED.update(plain(n) for n in every["declared"] if "-" not in n and re.match("[a-z]", n))
    clashes = 0
    for f in files:
        turn = f.renamed(every)
        present = {m[0] for m in f.tokens()}
        if f.is_rust:  # a clause cannot name a function
            present |= set(re.findall(r"\b\w+\b(?!\(|,|})(?<!fn )", f.quiet))
        new = {}
        for old in present:
            new.setdefault(turn.get(old, old), set()).add(old)
        for name, olds in sorted(new.items()):
            if len(olds) > 1 and any(o in turn for o in olds):
                clashes += 1
                print(f"meet: {f.path}: {name}: {', '.join(sorted(olds))}")
        if "--check" not in sys.argv:
            text = f.turned(turn)
            if text != f.text:
                with open(f.path, "w", encoding="utf-8") as out:
                    out.write(text)
    print(f"spell: {len(files)} files, {clashes} names meet")


if __name__ == "__main__":
    main()
