#!/usr/bin/env python3
"""Finds the places in crates/*/src that docs/DESIGN-PASS.md counts, point by point.

    tools/design_count.py            in the files as they lie here
    tools/design_count.py COMMIT     in the files of a commit
    tools/design_count.py -v ..      each place, and not the counts alone

It goes by the text, so a place that it prints need not be one that is to change: the page says what became of each.
"""
import collections
import pathlib
import re
import subprocess
import sys

ROOT = pathlib.Path(__file__).resolve().parent.parent
NUMBER = r"(?:u8|u16|u32|u64|i8|i16|i32|usize)"
WORDS = set("fn pub let mut for in if else match return impl ensures requires result self Self true false as while break "
            "Some None Ok Err usize u8 u16 u32 u64 i8 i16 i32 bool".split())


def sources(commit):
    """Each .rt file of the crates: its path below crates/, and its lines without comments."""
    if commit:
        git = ["git", "-C", str(ROOT)]
        names = subprocess.check_output(git + ["ls-tree", "-r", "--name-only", commit, "crates"], text=True).split()
        texts = ((n, subprocess.check_output(git + ["show", f"{commit}:{n}"], text=True)) for n in names if n.endswith(".rt"))
    else:
        texts = ((str(p.relative_to(ROOT)), p.read_text()) for p in sorted(ROOT.glob("crates/*/src/**/*.rt")))
    for name, text in texts:
        yield name.removeprefix("crates/"), [re.sub(r"//.*", "", line) for line in text.split("\n")]


def functions(lines):
    """Each function: its name, the line where it begins, and its lines."""
    i = 0
    while i < len(lines):
        head = re.match(r"^(\s*)(?:pub(?:\(\w+\))? )?(?:const )?fn (\w+)", lines[i])
        if head:
            end = i
            while end < len(lines) and lines[end] != head[1] + "}" and not lines[end].rstrip().endswith(";\n"):
                if lines[end].rstrip().endswith("};") or (end == i and lines[end].rstrip().endswith(";")):
                    break
                end += 1
            yield head[2], i + 1, lines[i:end + 1]
        i += 1


def clauses(body):
    return [re.sub(r"^(requires|ensures)\*?( \w+)? ", r"\1 ", " ".join(l.split())) for l in body if re.match(r"\s*(requires|ensures)", l)]


def code(body):
    for at, line in enumerate(body):
        if line.strip() == "{":
            return body[at:]
    return body[1:]


def shape(body):
    """The body with each name and number of its own blotted out."""
    tokens = re.findall(r"\w+|[^\w\s]", "\n".join(code(body)))
    return " ".join("_" if re.match(r"\w", t) and t not in WORDS else t for t in tokens)


def lines_with(files, pattern):
    return [f"{name}:{at}: {line.strip()}" for name, lines in files for at, line in enumerate(lines, 1) if re.search(pattern, line)]


def alike(files, key, least, skip=lambda k: False):
    """Functions that have the same key."""
    groups = collections.defaultdict(list)
    for name, lines in files:
        for fn, at, body in functions(lines):
            for k in key(body):
                if not skip(k) and (name, fn, at) not in groups[k]:
                    groups[k].append((name, fn, at))
    return [f"{len(g)}: " + ", ".join(f"{n}:{f}" for n, f, _ in g) + (f"   {k}" if least > 2 else "")
            for k, g in groups.items() if len(g) >= least]


def structs(files, wanted):
    """Structs whose fields' types, as a list, are wanted."""
    found = []
    for name, lines in files:
        text = "\n".join(lines)
        for s in re.finditer(r"struct (\w+)[^{;]*\{(.*?)\n\}", text, re.S):
            types = [t.strip() for t in re.findall(r"^\s+(?:pub )?\w+: ([^,]+(?:, \w+\])?),$", s[2], re.M)]
            if wanted(types):
                found.append(f"{name}: {s[1]} {{ {', '.join(types)} }}")
    return found


def written_out(files):
    """Four and more lines, one after the other, that make the same call and differ in a name or a number alone."""
    found = []
    for name, lines in files:
        run = 0
        for at, line in enumerate(lines + [""]):
            blots = [re.sub(r"\w+", "_", l.strip()) for l in (line, lines[at - 1])] if at else ["", ""]
            if blots[0] == blots[1] and "_(" in blots[0].replace("!", "") and "assert" not in line:
                run += 1
            else:
                if run >= 3:
                    found.append(f"{name}:{at - run}: {run + 1} lines as {lines[at - 1].strip()}")
                run = 0
    return found


def pairs(files):
    """Names of parameters that three and more functions take together."""
    groups = collections.defaultdict(list)
    for name, lines in files:
        for fn, _, body in functions(lines):
            head = re.sub(r".*?fn \w+(<.*?>)?\(", "(", " ".join(body), count=1).split(")")[0]
            names = sorted(set(re.findall(r"[(,]\s*(?:mut )?(&self|&mut self|\w+)(?=:|,|$)", head)) - {"rt", "self"})
            for a in range(len(names)):
                for b in range(a + 1, len(names)):
                    groups[names[a] + ", " + names[b]].append(f"{name}:{fn}")
    return [f"{len(g)}: {k}   {', '.join(g)}" for k, g in sorted(groups.items(), key=lambda x: -len(x[1])) if len(g) >= 3]


def main():
    args = [a for a in sys.argv[1:] if a != "-v"]
    verbose = len(args) + 1 < len(sys.argv)
    files = list(sources(args[0] if args else None))
    every = [
        ("1 a flag with a value beside it", structs(files, lambda t: "bool" in t and len(t) > 1)),
        ("1 a number named for a kind or a refusal", lines_with(files, rf"\b(refusal|number|place|region|reached|kind)\b(: |\(&?self\) -> ){NUMBER}\b")),
        ("1 a function that answers a number for what it takes", lines_with(files, r"fn \w+\((&?self|&\w+: .*Result<.*|.*\bbytes: &\[u8\])\) -> (u8|i8)\b")),
        ("1 an error type without Error", [e for e in sorted({m for _, ls in files for l in ls for m in re.findall(r"Result<[^<>]*, (\w+)>", l)} - {"Fail"})
                                           if not any(re.search(rf"impl Error for {e}\b|derive\([^)]*\bError\)\][^{{;]*(enum|struct) {e}\b", "\n".join(ls)) for _, ls in files)]),
        ("2 bodies that differ in names and numbers alone", alike(files, lambda b: [shape(b)], 2, lambda k: len(k) < 13)),
        ("2 functions with the same clauses", alike(files, lambda b: ["; ".join(clauses(b))], 2, lambda k: not k)),
        ("3 a loop over numbers, or with a condition", lines_with(files, r"^\s*(for \w+ in .*\.\.|while |loop\b)")),
        ("3 a loop that counts, adds up or looks for something", lines_with(files, r"^\s*\w+ (\+=|-=) |^\s*(best|word|all) = |^ {12,}return (true|false|Some\(\w+(\.\w+)?\)|found);")),
        ("3 lines written out number by number", written_out(files)),
        ("4 a conversion by a method", lines_with(files, r"fn (of|number|to_\w+|into_\w+|from_\w+)\(")),
        ("4 a value rebuilt as it is", lines_with(files, r"(\w+::\w+(\(\w+\))?) => Ok\(\1\)")),
        ("4 a plain type with no derive but Clone, Copy or Drop", lines_with(files, r"derive\((Clone, Copy|Drop)\)")),
        ("5 a clause in three contracts or more", alike(files, clauses, 3)),
        ("5 parameters that travel together", pairs(files)),
        ("6 a part of a buffer up to a count", lines_with(files, r"&(mut )?\w+\[0?\.\.\w+\]")),
        ("6 arrays of one length, a parameter each", lines_with(files, r"\[\w+; \w+\], \w+: &(mut )?\[\w+; \w+\]")),
        ("6 arrays side by side in a struct", structs(files, lambda t: sum(x.startswith("[") for x in t) > 1)),
        ("7 a trait of this repository", lines_with(files, r"^\s*(pub(\(crate\))? )?trait ")),
        ("7 a choice between functions by an enum", lines_with(files, r"match (switch|kind|step|mode)\b")),
    ]
    for title, found in every:
        print(f"{len(found):3}  {title}")
        if verbose:
            for place in found:
                print(f"       {place}")


if __name__ == "__main__":
    main()
