#!/usr/bin/env python3
"""Plants the bugs of tests/planted_bugs.txt one by one in a copy of the repository, and says what catches each.

    tests/planted_bugs.py [--work DIR] [--missing] [--markdown] [--list] [NAME | CRATE ...]

Without names all bugs are tried. --missing leaves out those that have an outcome already, so that an interrupted run can go
on; --markdown writes the table and the counts in docs/planted-bugs.md from the outcomes (with --missing and nothing left to
try, that is all it does); --list only looks whether each edit fits its file. The copy and the outcomes stand in DIR, by
default planted-bugs in the folder for temporary files: `rt ci` refuses sources outside the crates. What is proved there is kept, so
that a second run is quicker.

A bug is first met by `rt check` in its crate: `proof`, where it is refused. Where the crate is still proved, `rt all test`
proves the crates above it (`proof above`), runs the programs on their stored input and the tests (`tests`).
Then the programs are compared with the second pack minder on random cases and tried by tests/program_cases.py (`cases`).
What none of these notices has `survived`. `does not compile` and `does not fit` mean that the bug is to be written anew.

Status 1: a bug survived, or is to be written anew.
"""
import json
import os
import re
import shutil
import subprocess
import sys
import tempfile
import time

ROOT = os.path.dirname(os.path.dirname(os.path.abspath(__file__)))
LIST = os.path.join(ROOT, "tests", "planted_bugs.txt")
PAGE = os.path.join(ROOT, "docs", "planted-bugs.md")
RANDOM = [["tests/many_cases.py", "crates/packminder/out/packminder", "300", "60", "3"], ["tests/program_cases.py"]]


def read_list():
    """The bugs, each with its edits: (file, old, new), mostly one."""
    bugs, bug, place, old = [], {}, "", ""
    with open(LIST, encoding="utf-8") as lines:
        for line in [*lines, "\n"]:
            line = line.rstrip("\n")
            key, colon, value = line.partition(":")
            value = value[1:] if value.startswith(" ") else value
            if line == "":
                bugs += [bug] if bug else []
                bug = {}
            elif line.startswith("#"):
                pass
            elif key == "file":
                place = value
            elif key == "old":
                old = value
            elif key == "new":
                bug.setdefault("edits", []).append([place, old, value])
            else:
                assert colon and key in ("name", "crate", "what", "note"), line
                bug[key] = value
    names = [bug["name"] for bug in bugs]
    assert len(names) == len(set(names)), "a name stands twice"
    return bugs


def fits(tree, bug):
    try:
        for place, old, _ in bug["edits"]:
            with open(os.path.join(tree, "crates", bug["crate"], place), encoding="utf-8") as text:
                if text.read().count(old) != 1:
                    return False
        return True
    except OSError:
        return False


def prepare(work):
    """A copy of the repository as it is now; what the checks of the copy kept in out/ stays."""
    tree = os.path.join(work, "tree")
    os.makedirs(tree, exist_ok=True)
    for part in ("crates.txt", "tests", "samples", "tools"):
        there, here = os.path.join(tree, part), os.path.join(ROOT, part)
        if os.path.isdir(here):
            shutil.rmtree(there, ignore_errors=True)
            shutil.copytree(here, there)
        else:
            shutil.copy2(here, there)
    for crate in os.listdir(os.path.join(ROOT, "crates")):
        there, here = (os.path.join(top, "crates", crate) for top in (tree, ROOT))
        os.makedirs(there, exist_ok=True)
        for part in os.listdir(there):
            if os.path.isdir(os.path.join(there, part)):
                if part != "out":
                    shutil.rmtree(os.path.join(there, part))
            else:
                os.remove(os.path.join(there, part))
        shutil.copytree(here, there, ignore=shutil.ignore_patterns("out"), dirs_exist_ok=True)
    return tree


def run(tree, words, limit=3600, crate=""):
    done = subprocess.run(words, cwd=os.path.join(tree, "crates", crate) if crate else tree, stdout=subprocess.PIPE, stderr=subprocess.STDOUT, text=True, timeout=limit, errors="replace")
    return done.returncode, done.stdout.replace(tree + "/", "")


def refusal(text):
    """Of a check that did not prove a crate: the function, the first place, what is not proved, and whether values were found."""
    place = re.search(r"^(?:\./)?(?:crates/\w+/)?(\S+?:\d+)(?::\d+)?: error", text, re.M) or re.search(r"^note: (?:crates/\w+/)?(\S+?:\d+):\d+:", text, re.M)
    left = re.search(r"it is not proved that (.*?)(?: \(`|$)", text, re.M)
    named = re.search(r"^(?:fn|impl|struct|enum|trait) (\S+): not proved", text, re.M) or re.search(r"^(?:\w+) (\S+): no proof", text, re.M)
    at = place.group(1) if place else ""
    own = re.match(r"proofs/(?:.*/)?(\w+)/(?:Answers|Invariants|Proof)\.antt", at)
    return {
        "at": at,
        "fn": own.group(1) if own else named.group(1).rpartition("::")[2] if named else "",
        "left": left.group(1) if left else "",
        "values": "allow values at which" in text,
    }


def noticed(tree, bug, text):
    """What a whole check failed at: the proof of a crate above, its tests, or the run of a program."""
    failed = re.search(r"^(\w+): failed", text.partition("== summary")[2], re.M)
    open_in = re.search(r"^\w+ (\w+)::\S+: not proved", text, re.M)
    if open_in and open_in.group(1) != bug["crate"]:
        return {"by": "proof above", "crate": open_in.group(1)} | refusal(text)
    if not failed:
        return {"by": "tests", "left": text.strip().splitlines()[-1]}
    crate = failed.group(1)
    program = os.path.exists(os.path.join(tree, "crates", crate, "src", "main.rt"))
    return {"by": "tests", "left": f"the stored output of `{crate}`" if program else f"the tests of `{crate}`"}


def try_bug(tree, bug):
    code, text = run(tree, ["rt", "check"], crate=bug["crate"])
    outcome = {"said": text[-6000:]}
    if "logic=not-proved" in text:
        return outcome | {"by": "proof", "crate": bug["crate"]} | refusal(text)
    if code != 0:
        error = re.search(r"^.*error.*$", text, re.M)
        return outcome | {"by": "does not compile", "left": error.group(0)[:200] if error else text[-200:]}
    code, text = run(tree, ["rt", "all", "test"])
    outcome["said"] = text[-6000:]
    if code != 0:
        return outcome | noticed(tree, bug, text)
    for words in RANDOM:
        if not os.path.isfile(os.path.join(tree, words[0])):
            continue
        code, text = run(tree, words)
        if code != 0:
            last = (text.strip().splitlines() or [""])[-1]
            return outcome | {"by": "cases", "left": words[0] + ": " + re.split(": (?:line|see) ", last)[0][:120]}
    return outcome | {"by": "survived"}


def plant(tree, bug):
    """Tries one bug, and takes it back whatever happens."""
    if not fits(tree, bug):
        return {"by": "does not fit"}
    paths = [(os.path.join(tree, "crates", bug["crate"], place), old, new) for place, old, new in bug["edits"]]
    before = {}
    for path, _, _ in paths:
        with open(path, encoding="utf-8") as file:
            before[path] = file.read()
    try:
        for path, old, new in paths:
            with open(path, encoding="utf-8") as file:
                text = file.read()
            with open(path, "w", encoding="utf-8") as file:
                file.write(text.replace(old, new))
        return try_bug(tree, bug)
    finally:
        for path, text in before.items():
            with open(path, "w", encoding="utf-8") as file:
                file.write(text)


def told(outcome):
    by = outcome["by"]
    if by in ("proof", "proof above"):
        text = f"proof of `{outcome['fn']}`" if outcome.get("fn") else "proof"
        if by == "proof above":
            text += f" in `{outcome['crate']}`"
        if outcome.get("at"):
            text += f", {outcome['at']}"
        left = outcome.get("left", "")
        if left and not left.startswith("what the function ensures"):
            text += f": not proved that {left}"
        return text + ("; values found" if outcome.get("values") else "")
    return by + (": " + outcome["left"] if outcome.get("left") else "")


def counts(bugs, outcomes):
    rows = {}
    for bug in bugs:
        by = outcomes.get(bug["name"], {"by": "not tried"})["by"]
        rows[by] = rows.get(by, 0) + 1
    return rows


def tables(bugs, outcomes):
    lines = ["| how | bugs |", "| --- | --- |"]
    lines += [f"| {by} | {count} |" for by, count in sorted(counts(bugs, outcomes).items(), key=lambda row: -row[1])]
    lines += [f"| all | {len(bugs)} |", "", "| bug | where | what goes wrong | what catches it |", "| --- | --- | --- | --- |"]
    for bug in bugs:
        outcome = outcomes.get(bug["name"], {"by": "not tried"})
        note = f" ({bug['note']})" if "note" in bug else ""
        cells = (bug["name"], f"{bug['crate']}/{bug['edits'][0][0]}", bug["what"], told(outcome) + note)
        lines.append("| " + " | ".join(cell.replace("|", "\\|") for cell in cells) + " |")
    return "\n".join(lines) + "\n"


def markdown(bugs, outcomes):
    """Each mark in the page is followed by its tables, up to the next heading."""
    with open(PAGE, encoding="utf-8") as file:
        page = file.read()
    for mark, twice in (("<!-- once -->\n", False), ("<!-- twice -->\n", True)):
        head, found, rest = page.partition(mark)
        assert found, "docs/planted-bugs.md has no line " + mark
        chosen = [bug for bug in bugs if bug["name"].startswith("twice-") == twice]
        rest = re.search(r"^#.*\Z|\Z", rest, re.M | re.S).group(0)
        page = head + mark + "\n" + tables(chosen, outcomes) + ("\n" + rest if rest else "")
    with open(PAGE, "w", encoding="utf-8") as file:
        file.write(page)


def main():
    words = sys.argv[1:]
    work = os.path.join(tempfile.gettempdir(), "planted-bugs")
    if "--work" in words:
        at = words.index("--work")
        work = os.path.abspath(words[at + 1])
        del words[at : at + 2]
    names = [word for word in words if not word.startswith("--")]
    bugs = read_list()
    if "--list" in words:
        bad = [bug["name"] for bug in bugs if not fits(ROOT, bug)]
        print(f"{len(bugs)} bugs; {len(bad)} do not fit" + "".join("\n    " + name for name in bad))
        sys.exit(1 if bad else 0)
    store = os.path.join(work, "outcomes.json")
    outcomes = {}
    if os.path.isfile(store):
        with open(store, encoding="utf-8") as file:
            kept = json.load(file)
        edits = {bug["name"]: [bug["crate"], bug["edits"]] for bug in bugs}
        outcomes = {name: outcome for name, outcome in kept.items() if edits.get(name) == outcome["edit"]}
    todo = [bug for bug in bugs if not names or bug["name"] in names or bug["crate"] in names]
    if "--missing" in words:
        todo = [bug for bug in todo if bug["name"] not in outcomes]
    tree = prepare(work) if todo else ""
    proved = set()
    for n, bug in enumerate(todo, 1):
        if bug["crate"] not in proved:
            # a refusal says something only where the crate is proved without the bug
            code, text = run(tree, ["rt", "check"], crate=bug["crate"])
            if code != 0:
                sys.exit(f"{bug['crate']} is not proved as it is:\n{text[-2000:]}")
            proved.add(bug["crate"])
        began = time.time()
        outcome = plant(tree, bug)
        outcome["edit"] = [bug["crate"], bug["edits"]]
        outcomes[bug["name"]] = outcome
        with open(store + ".new", "w", encoding="utf-8") as file:
            json.dump(outcomes, file, indent=1, ensure_ascii=False)
        os.replace(store + ".new", store)
        print(f"{n}/{len(todo)} {bug['crate']}/{bug['name']}: {told(outcome)} ({time.time() - began:.0f} s)", flush=True)
    tried = todo or bugs
    rows = counts(tried, outcomes)
    print(f"{len(tried)} bugs: " + ", ".join(f"{count} {by}" for by, count in sorted(rows.items(), key=lambda row: -row[1])))
    if "--markdown" in words:
        markdown(bugs, outcomes)
    unnoted = [b["name"] for b in tried if outcomes.get(b["name"], {"by": "not tried"})["by"] in ("survived", "does not compile", "does not fit", "not tried") and "note" not in b]
    sys.exit(1 if unnoted else 0)


main()
