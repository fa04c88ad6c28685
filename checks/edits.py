#!/usr/bin/env python3
"""The wrong bodies: each edit in a crate's must-fail/ can be made, its old text standing once in its file, and docs/WRONG-BODIES.md tells how many
there are, of how many crates, beside its own rows; each row names a function of its crate that stands there, with the clause as one reads it,
where `..` stands for what is left out.  checks/edits.py --check. With --write in its place it puts the counts right."""
import glob
import os
import re
import sys

from harness import TOP, Rows

DOCUMENT = os.path.join(TOP, "docs", "WRONG-BODIES.md")
COUNTS = (r"of (\d+) crates: (\d+) of them", r"(\d+) in the folders `must-fail` of (\d+) crates")


def read(path):
    with open(path, encoding="utf-8") as file:
        return file.read()


def edits():
    """The edits of each crate that has some."""
    found = {}
    for path in sorted(glob.glob(os.path.join(TOP, "crates", "*", "must-fail", "*.edit"))):
        found.setdefault(os.path.relpath(path, os.path.join(TOP, "crates")).split(os.sep)[0], []).append(path)
    return found


def lacks(crate, path):
    """Why an edit cannot be made, or None: its lines are `file:`, and then pairs of `old:` and `new:`, each over what the earlier ones made."""
    name, old, texts, made = None, None, {}, 0
    for line in filter(str.strip, read(path).split("\n")):
        kind, _, text = line.partition(":")
        text = text[1:] if text.startswith(" ") else text
        if kind == "file":
            name = os.path.join(TOP, "crates", crate, text.strip())
            if not os.path.isfile(name):
                return f"there is no {text}"
            texts.setdefault(name, read(name))
        elif kind == "old" and name:
            old = text
        elif kind == "new" and old is not None:
            count = texts[name].count(old)
            if count != 1:
                return f"{old!r} stands {count} times"
            texts[name], old, made = texts[name].replace(old, text), None, made + 1
        else:
            return f"a line that isn't read: {line}"
    return None if made else "it changes nothing"


def listed(text):
    """The rows of the document: crate, function, and the clause, as it stands there between its backquotes."""
    return re.findall(r"(?m)^\| `(\w+)`: `([^`]+)`[^|]* \| (?:\\\||[^|])+ \| `((?:\\\||[^`])+)`.* \|$", text)


def squeezed(text):
    """A text without what is between its words: blanks, ends of lines, and commas before a bracket."""
    return re.sub(r",(?=[)}\]])", "", re.sub(r"\s+|///?.*", "", text))


def sources(crate):
    return squeezed("".join(read(path) for path in sorted(glob.glob(os.path.join(TOP, "crates", crate, "src", "**", "*.rt"), recursive=True))))


def main(words):
    if words not in ([], ["--check"], ["--write"]):
        sys.exit(__doc__)
    rows, text, found = Rows("edits"), read(DOCUMENT), edits()
    told = listed(text)
    wanted = [(len({crate for crate, _, _ in told}), len(told)), (sum(map(len, found.values())), len(found))]
    if words == ["--write"]:
        for pattern, numbers in zip(COUNTS, wanted):
            numbers = iter(numbers)
            text = re.sub(pattern, lambda it: re.sub(r"\d+", lambda _: str(next(numbers)), it[0]), text)
        with open(DOCUMENT, "w", encoding="utf-8") as file:
            file.write(text)
        return 0
    rows.row("lines of the table that are read", len(told), len(re.findall(r"(?m)^\| `", text)))
    for pattern, numbers in zip(COUNTS, wanted):
        rows.row(f"the counts of {pattern}", [tuple(map(int, it)) for it in re.findall(pattern, text)], [numbers])
    for crate, paths in found.items():
        for path in paths:
            rows.row(os.path.relpath(path, TOP), lacks(crate, path), None)
    code = {crate: sources(crate) for crate, _, _ in told}
    for crate, function, clause in told:
        name, clause = function.split("::")[-1], squeezed(clause.replace("\\|", "|"))
        rows.row(f"{crate} has {function}", bool(re.search(rf"fn{name}[<(]", code[crate])), True)
        stands = re.search(".*?".join(map(re.escape, clause.split(".."))), code[crate])
        rows.row(f"{crate} says of {function}: {clause}", bool(stands), True)
    rows.end()
    return 0


if __name__ == "__main__":
    sys.exit(main(sys.argv[1:]))
