#!/usr/bin/env python3
"""Where a name stands, crate by crate in the order of crates.txt:  checks/places.py NAME..
As a check that the recipes of docs/CHANGING.md leave out no file:  checks/places.py --check

A name is a word of the sources. `FileId::Program` is that variant of that enum, which a file of definitions names by what it brings in
(`FileId.TheVariants`). Comments aren't looked at, nor lines that only bring a name in, nor crates of tests. A recipe has the command by which
its places are found, and names each file that it finds, or the folder that the file is in, as `script_machine/proofs`.
"""
import os
import re
import sys

from harness import TOP, Rows

CRATES = os.path.join(TOP, "crates")
KINDS = ("src", "specs", "proofs", "must-fail")


def crates():
    """The names of the crates in the order of crates.txt, those of tests left out."""
    with open(os.path.join(TOP, "crates.txt")) as file:
        names = [line.split(":")[0].split()[0] for line in file if ":" in line and not line.startswith("#")]
    return [name for name in names if not name.endswith("_tests") and name not in ("test_cases", "system_machine", "folder_runs")]


def files_of(crate, kind):
    """The files of a crate that are written by hand, as paths within crates/."""
    found = []
    for folder, _, names in os.walk(os.path.join(CRATES, crate, kind)):
        found += [os.path.relpath(os.path.join(folder, name), CRATES) for name in names if name.endswith((".rt", ".antt", ".edit"))]
    return sorted(found)


def without_uses(path, text):
    """A source without its comments and the lines that only bring names in."""
    text = re.sub(r"//.*" if path.endswith(".rt") else r"--.*", "", text)
    return re.sub(r"(?ms)^\s*(?:pub )?(?:ghost )?use [^;\n{]*(?:\{[^}]*\}[^;\n]*)?;?$", "", text)


def stands(name, text, plain):
    """Whether the name stands in a source; `plain` is that without comments and what it brings in."""
    if re.search(rf"(?<!\w){re.escape(name)}(?!\w)", plain):
        return True
    if "::" not in name:
        return False
    enum, variant = name.split("::")
    for brought in re.findall(rf"\b{enum}\.TheVariants(?:\.\{{([^}}]*)\}}| as (\w+))", text):
        if variant in brought[0].replace(",", " ").split() or brought[1] and re.search(rf"(?<!\w){brought[1]}\.{variant}(?!\w)", plain):
            return True
    return False


def places(names):
    """The files in which one of the names stands, in the order of the crates."""
    for crate in crates():
        for kind in KINDS:
            for path in files_of(crate, kind):
                with open(os.path.join(CRATES, path)) as file:
                    text = file.read()
                plain = without_uses(path, text)
                if any(stands(name, text, plain) for name in names):
                    yield path


def recipes():
    """The recipes of CHANGING.md: each heading, the names that are looked for, and the paths that are named."""
    with open(os.path.join(TOP, "docs", "CHANGING.md")) as file:
        text = file.read()
    for heading, body in re.findall(r"(?ms)^## (.*?)\n(.*?)(?=^## |\Z)", text):
        asked = [command.split() for command in re.findall(r"`checks/places.py ([^`]*)`", body)]
        named = re.findall(r"`([a-z_0-9]+/(?:src|specs|proofs|must-fail)(?:/[\w./-]+)?)`", body)
        yield heading, [name for names in asked for name in names], named


def check():
    rows = Rows("places")
    for heading, names, named in recipes():
        if not names:
            continue
        found = list(places(names))
        rows.row(f"{heading}: something is found by {names}", bool(found), True)
        left = [path for path in found if not any(path == name or path.startswith(name.rstrip("/") + "/") for name in named)]
        rows.row(f"{heading}: files that aren't named", left, [])
        idle = [name for name in named if not os.path.exists(os.path.join(CRATES, name))]
        rows.row(f"{heading}: names without a file", idle, [])
    rows.end()


def show(names):
    found = {}
    for path in places(names):
        crate, kind, rest = path.split("/", 2)
        found.setdefault(crate, {}).setdefault(kind, []).append(rest)
    for crate, kinds in found.items():
        print(crate, *(f"{kind}: {' '.join(rest)}" for kind, rest in kinds.items()), sep="\n  ")
    print(f"{sum(len(rest) for kinds in found.values() for rest in kinds.values())} files in {len(found)} crates")


if __name__ == "__main__":
    if not sys.argv[1:]:
        sys.exit(__doc__)
    check() if sys.argv[1:] == ["--check"] else show(sys.argv[1:])
