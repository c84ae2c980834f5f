#!/usr/bin/env python3
"""Respells the repository's own definitions, lemmas and fields: types in upper camel case, everything else in snake case,
a dash only between two names of definitions. Run once at the top, after the toolchain's own script. It prints the names that
fall together, or that stand already in a file where they come in: each is to be two things that nothing confuses, as a field of
two records, a part of a path, or a lemma in one crate and a definition in another. `--list` prints every name that would change,
and writes nothing.
"""

import collections
import glob
import os
import re
import sys

TOKEN = re.compile(r"[A-Za-z_][A-Za-z0-9_'′]*(?:-[A-Za-z0-9_'′]+)*")
SIGNATURE = re.compile(r"^(?:(?:abbrev|unfoldable|pub) )*(record |data )?([A-Za-z_][^\s:(){}\[\]]*)(?= )[^=]*? : (.*)$")
PLAIN = re.compile(r"^(?:(?:abbrev|unfoldable|pub) )*([A-Za-z_][^\s:(){}\[\]]*) : (.*)$")
RECORD = re.compile(r"^(?:pub )?(?:record|data) ([A-Za-z_][^\s:(){}\[\]]*)")
FIELD = re.compile(r"^  (?:pub )?([A-Za-z_][^\s:(){}\[\]]*) : ")
GENERATED = ("Answers.antt", "Invariants.antt", "Proof.antt", "Choices.antt")
# words of the library that lemmas are about
WORDS = set("length take drop append set replicate get_or decimal bytes map sum".split())
# where the plain rule would give a name that stands for something else already
CHOSEN = {
    "addedBy": "added_by_line",
    "as-trade": "as_trade_lem",
    "at-index": "at_index_lem",
    "bytes-by": "bytes_by_lem",
    "comma-free": "comma_free_lem",
    "in-front": "in_front_lem",
    "in_order": "in_order_lem",
    "is-number": "is_number_lem",
    "judged-mass": "judged_mass_lem",
    "judged-trade": "judged_trade_lem",
    "over-lines": "over_lines_lem",
    "printable-by": "printable_by_lem",
    "taken-by": "taken_by_lem",
}


def files(*patterns):
    found = []
    for pattern in patterns:
        found += [p for p in glob.glob(pattern, recursive=True) if "/out/" not in p and os.path.isfile(p)]
    return sorted(set(found))


def snake(word):
    word = re.sub(r"(?<=[a-z0-9])([A-Z])", r"_\1", word)
    return word.lower() if not word[:1].isupper() else word


def camel(word):
    return "".join(w[:1].upper() + w[1:] for w in re.split(r"[-_]", word))


def gather():
    """Each own name, and whether it is a type."""
    kinds = collections.defaultdict(set)
    for p in files("crates/*/specs/**/*.antt", "crates/*/proofs/**/*.antt"):
        generated = os.path.basename(p) in GENERATED
        inside = False
        for line in open(p, encoding="utf-8"):
            m = RECORD.match(line)
            if m:
                kinds[m[1]].add("type")
                inside = True
                continue
            m = FIELD.match(line)
            if m and inside:
                kinds[m[1]].add("field")
                continue
            if line.strip() and not line.startswith(" "):
                inside = False
            m = PLAIN.match(line)
            if m and not line.startswith(("use ", "mod ", "--")):
                if generated and re.match(r"(?:\{[^}]*\} → )*goal\.", m[2]):
                    continue
                ends = re.search(r"(?:^|→ )Type \d+\s*$", m[2])
                kinds[m[1]].add("type" if ends else "word")
    return kinds


def renamed(kinds):
    names = set(kinds) | WORDS
    names |= {snake(n) for n in kinds if "-" not in n}
    new = {}
    for name, kind in kinds.items():
        if name in CHOSEN:
            to = CHOSEN[name]
        elif "type" in kind:
            to = camel(name) if (name[:1].islower() or "-" in name) else name
        else:
            parts = name.replace("′", "'").split("-")
            to = snake(parts[0])
            so_far = parts[0]
            for i, part in enumerate(parts[1:], 1):
                both = (parts[i - 1] in names or so_far in names) and ("-".join(parts[i:]) in names or part in names)
                about = parts[i - 1] in WORDS or snake(parts[i - 1]) != parts[i - 1] or snake(part) != part
                to += ("-" if both and about else "_") + snake(part)
                so_far += "-" + part
        if to != name:
            new[name] = to
    return new


def turn(text, new):
    return TOKEN.sub(lambda m: new.get(m[0], m[0]), text)


def is_value(text, name):
    """Whether a field, a parameter or a local of a source file has the name; a function may share it with what it is proved to give."""
    return re.search(rf"\b{re.escape(name)}: |\.{re.escape(name)}\b(?!\()|let (?:mut )?{re.escape(name)}\b|const {re.escape(name)}\b", text)


def main():
    kinds = gather()
    new = renamed(kinds)
    targets = files("crates/*/specs/**/*.antt", "crates/*/proofs/**/*.antt", "crates/*/src/**/*.rt", "crates/*/must-fail/*.edit")
    together = collections.defaultdict(set)
    for old, to in new.items():
        together[to].add(old)
    for name in kinds:
        if name not in new:
            together[name].add(name)
    bad = [(to, olds) for to, olds in together.items() if len(olds) > 1]
    clashes = []
    for p in targets:
        text = open(p, encoding="utf-8").read()
        tokens = set(TOKEN.findall(text))
        for old in tokens & set(new):
            twin = any(new.get(t, t) == new[old] for t in tokens if t != old)
            if twin and (not p.endswith(".rt") or is_value(text, new[old])):
                clashes.append((p, old, new[old]))
    if "--list" in sys.argv:
        for old in sorted(new):
            print(old, "->", new[old], "/".join(sorted(kinds[old])))
    print(f"{len(new)} names change")
    for to, olds in sorted(bad):
        print("fall together:", to, sorted(olds))
    for c in clashes:
        print("stands already:", *c)
    if "--list" in sys.argv:
        return 0
    for p in targets:
        text = open(p, encoding="utf-8").read()
        turned = turn(text, new)
        if turned != text:
            with open(p, "w", encoding="utf-8") as f:
                f.write(turned)
    return 0


if __name__ == "__main__":
    raise SystemExit(main())
