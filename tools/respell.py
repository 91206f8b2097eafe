#!/usr/bin/env python3
"""Brings the names that this repository's specs/ and proofs/ declare to the kit's spelling.

usage: tools/respell.py [--list]      at the top of the repository, after the kit's port.py; --list only prints old and new

Types and facts are in upper camel case, everything else is in snake case. In a lemma's name a dash stays where it joins two
names that are declared themselves. Goals, which the check names, and the items of src/ keep their names. Two names that would
become one are refused: they stand in APART with a spelling of their own.
"""

import os
import re
import sys

# Names that would fall together with another one, or with a variable that is in scope where they are used.
APART = {
    # A lemma that would have its function's name.
    "bit-of": "bit_of_lem",
    "by-letter": "by_letter_lem",
    "in-range": "in_range_lem",
    "level-at": "level_at_lem",
    "level_in": "level_in_lem",
    "range-of": "range_of_lem",
    "signed_word": "signed_word_lem",
    "spare-set": "spare_set_lem",
    "step-conflicts": "step_conflicts_lem",
    "step-ranges": "step_ranges_lem",
    # Of a list of marks, beside those of an image.
    "levels-of": "levels_of_marks",
    # Of a kind's bytes, beside what the prescribers say of a pair.
    "In-range": "IsInRange",
    # The bits of faults, by their names in the field.
    "ChgWDT": "chg_wdt",
    "OVP": "ovp",
    "UVP": "uvp",
}

# Functions of the library that the names of lemmas are made of.
LIBRARY = {"length", "append", "drop", "take", "set", "map", "cond", "mod", "div", "mul", "add", "pow", "min"}

NAME = r"[^\s(){}\[\];,.\"`|:=]+"
HEAD = re.compile(r"^(\s*)((?:abbrev |unfoldable |pub |package )*)(record |data )?(" + NAME + r")(?=\s|$)(.*)$")
TOKEN = re.compile(NAME)
WORDS = {"use", "mod", "open", "module", "let", "in", "where", "elim", "unfolding", "|", "--", "λ", "field", "constructor"}


def files(root, endings):
    for folder, dirs, names in os.walk(os.path.join(root, "crates")):
        dirs[:] = sorted(d for d in dirs if d != "out")
        for name in sorted(names):
            if name.endswith(endings):
                yield os.path.join(folder, name)


def read(path):
    with open(path, encoding="utf-8") as f:
        return f.read()


def declared(root):
    """Each name that an .antt file declares, with what it is: 'type', 'function' or 'lemma'."""
    found = {}
    for path in files(root, ".antt"):
        for line in read(path).splitlines():
            m = HEAD.match(line)
            if not m or m.group(4) in WORDS:
                continue
            name, after = m.group(4), m.group(5)
            if m.group(3):
                found.setdefault(name, ("type", path))
                continue
            if not after.startswith(" : ") or after.startswith(" : goal."):
                continue
            rest = after[3:]
            if re.search(r"Type 0$", rest.strip()):
                kind = "type"
            elif "abbrev" in m.group(2) or "unfoldable" in m.group(2):
                kind = "function"
            else:
                kind = "lemma"
            found.setdefault(name, (kind, path))
    return found


def snake(word):
    word = re.sub(r"(?<=[a-z0-9])([A-Z]+)(?=[A-Z][a-z]|$|[_\-])", lambda m: "_" + m.group(1).lower(), word)
    return re.sub(r"(?<=[a-z0-9])([A-Z])", lambda m: "_" + m.group(1).lower(), word)


def camel(name):
    return "".join(p[:1].upper() + p[1:] for p in name.split("-"))


def respelt(found):
    plain = {snake(n).replace("-", "_") for n, (k, _) in found.items() if k == "function"} | LIBRARY
    turned = {}
    for name, (kind, _) in found.items():
        if name in APART:
            turned[name] = APART[name]
        elif kind == "type":
            turned[name] = camel(name)
        elif kind == "function" or "-" not in name:
            turned[name] = snake(name).replace("-", "_") if not re.match(r"^[A-Z]+$", name) else name
        else:
            parts = [snake(p) for p in name.split("-")]
            turned[name] = ("-" if all(p in plain for p in parts) else "_").join(parts)
    return {a: b for a, b in turned.items() if a != b}


def together(found, turned):
    """The names that would become one."""
    by = {}
    for name in found:
        by.setdefault(turned.get(name, name), set()).add(name)
    return {new: olds for new, olds in by.items() if len(olds) > 1}


def parts_of(path, text):
    """The pieces of a file, each with whether it is code: comments and strings are not."""
    if path.endswith(".antt"):
        cut = re.compile(r"(--(?=\s|$)[^\n]*)")
    else:
        cut = re.compile(r"(//[^\n]*|b?\"(?:[^\"\\]|\\.)*\")")
    for k, piece in enumerate(cut.split(text)):
        yield piece, k % 2 == 0


def turn_spans(text, turned):
    return re.sub(r"`[^`\n]+`", lambda m: TOKEN.sub(lambda t: turned.get(t.group(0), t.group(0)), m.group(0)), text)


def main():
    root = "."
    found = declared(root)
    turned = respelt(found)
    if "--list" in sys.argv:
        for old, new in sorted(turned.items()):
            print(old, new, found[old][1])
    fallen = together(found, turned)
    for new, olds in sorted(fallen.items()):
        print(f"respell: {', '.join(sorted(olds))} would all be {new}: {[found[o][1] for o in sorted(olds)]}", file=sys.stderr)
    used = {}
    for path in files(root, (".antt", ".rt")):
        tokens = set()
        for piece, code in parts_of(path, read(path)):
            if code:
                tokens |= set(TOKEN.findall(piece))
        for old, new in turned.items():
            if old in tokens and new in tokens:
                print(f"respell: {path} has both {old} and {new}", file=sys.stderr)
    if "--list" in sys.argv:
        return
    pages = [os.path.join(root, "README.md"), *(os.path.join(root, "docs", f) for f in sorted(os.listdir(os.path.join(root, "docs"))))]
    for path in pages:
        text = read(path)
        new = turn_spans(text, turned)
        if new != text:
            with open(path, "w", encoding="utf-8") as f:
                f.write(new)
    for path in files(root, (".antt", ".rt")):
        text = read(path)
        new = "".join(
            TOKEN.sub(lambda t: turned.get(t.group(0), t.group(0)), piece) if code else turn_spans(piece, turned)
            for piece, code in parts_of(path, text)
        )
        if new != text:
            with open(path, "w", encoding="utf-8") as f:
                f.write(new)


if __name__ == "__main__":
    main()
