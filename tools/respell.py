#!/usr/bin/env python3
"""Turns the names of definitions and lemmas that are spelled in camel case with a small first letter to snake case, as fieldAt to field_at.

usage: tools/respell.py [--list]      at the top of the repository; --list shows the names and what they fall together with, and writes nothing

It was run once, after the scripts that brought the repository to the spelling of a newer Rattle. Functions and fields of src/ keep their names.
"""
import glob
import re
import sys

WORD = r"(?<![A-Za-z0-9_'])"
END = r"(?![A-Za-z0-9_'])"
DEFINED = re.compile(r"^\s*(?:abbrev |unfoldable )?(?:pub )?(?:ruleset |record |data )?([^\s:(){}]+)(?: \([^)]*\))* (?::|=) ")
# the constructors of a type, several on one line
CONSTRUCTORS = re.compile(r"^  ([a-z][A-Za-z0-9' ]*) : [A-Z]\w*$")
# lemmas that would fall together with a definition once that is in snake case: they say in their names that they are lemmas
LEMMAS = ("but_last", "goes_on", "group_at", "in_field", "made_told", "number_is", "place_at", "raw_at", "rows_told", "same_keys", "text_at")


def snake(name):
    return re.sub(r"(?<=[a-z0-9])([A-Z]+)", lambda m: "_" + m.group(1).lower(), name)


def files():
    for pattern in ("crates/*/specs/**/*.antt", "crates/*/proofs/**/*.antt", "crates/*/src/**/*.rt", "crates/*/must-fail/*.edit"):
        yield from sorted(glob.glob(pattern, recursive=True))


def camel():
    """Every part between dashes, of every name that a file of specs/ or proofs/ defines, that is in camel case with a small first letter; constructors, too."""
    found = set()
    for path in files():
        if path.endswith(".antt"):
            for line in open(path, encoding="utf-8"):
                m = DEFINED.match(line) or CONSTRUCTORS.match(line)
                if m:
                    found.update(p for p in re.split("[-◌ ]", m.group(1)) if re.match(r"[a-z][A-Za-z0-9']*[A-Z]", p))
    return found


def main():
    names = {n: snake(n) for n in sorted(camel())}
    text = {p: open(p, encoding="utf-8").read() for p in files()}
    if "--list" in sys.argv:
        taken = set(re.findall(r"[A-Za-z0-9_']+", " ".join(text.values())))
        for n, s in names.items():
            at = sorted(p for p, t in text.items() if re.search(WORD + re.escape(s) + END, t)) if s in taken else []
            print(n, s, *at[:4])
        return
    fallen = [n for n in LEMMAS if n in names.values()]
    lemma = re.compile(r"(?<![A-Za-z0-9_'.:/-])(" + ("|".join(fallen) or "(?!)") + r")(?![A-Za-z0-9_'-])")
    turn = re.compile(WORD + "(" + "|".join(sorted(map(re.escape, names), key=len, reverse=True)) + ")" + END)
    for path, old in text.items():
        new = turn.sub(lambda m: names[m.group(1)], lemma.sub(r"\1_lem", old) if path.endswith(".antt") else old)
        if new != old:
            open(path, "w", encoding="utf-8").write(new)


if __name__ == "__main__":
    main()
