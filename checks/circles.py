#!/usr/bin/env python3
"""How much a reader of the promise has to believe: for each of its circles how many definitions of specs/, in how many lines.

    checks/circles.py            looks whether the table in docs/DEFINITIONS.md tells as many, but for one in a hundred (checks/run calls it)
    checks/circles.py --write    writes its numbers anew
    checks/circles.py NAME..     prints what is reached from names of promise_spec, as Headline.HasHeadline, file by file

A circle is what is reached from a few definitions by following the names that they have in them, through the lines that bring names
into their files. What is declared in code and what the kit's libraries define isn't followed. Lines that are blank, are comments or
bring names in don't count.
"""
import collections
import glob
import os
import re
import sys

from harness import TOP, Rows

DOCUMENT = os.path.join(TOP, "docs", "DEFINITIONS.md")
# From where each row of the table is counted, and what isn't followed.
CIRCLES = {
    "first, but for which texts are programs": (["Headline.HasHeadline"], ["Programs.IsChecked"]),
    "first": (["Headline.HasHeadline"], []),
    "second": (["Promise.Keeps"], []),
    "third, of a run": (["Promise.Promises"], []),
    "whole": (["Calls.Serves", "Calls.AnswersAs"], []),
}

NAME = r"[^\W\d][\w'-]*"
USE = re.compile(r"(?:pub )?use (Rattle(?:\.[\w'-]+)+?)(?:\.\{([^}]*)\})?(?: as (" + NAME + r"))?$")
BEGINS = re.compile(r"( *)(?:(?:abbrev|opaque|unfoldable) )*(?:pub )?(record |data )?(" + NAME + r")(?= *[:({])")
FIELD = re.compile(r" *pub (" + NAME + r") *:")
WORD = re.compile(r"(?<![\w'.-])(" + NAME + r")((?:\." + NAME + r")*)")


class Module:
    """A file of specs/: its definitions, each with its lines, and where the names come from that it brings in."""

    def __init__(self, path):
        self.lines = {}
        self.parts = {}
        self.brought = {}
        self.aliases = {}
        self.passed_on = []
        open_block, indent, kind = None, 0, None
        with open(path) as file:
            for line in file:
                line = line.split("--")[0].rstrip()
                if not line or line.startswith("pub mod"):
                    continue
                if used := USE.match(line):
                    self.bring(used, line.startswith("pub"))
                    continue
                if re.match(r" *(?:module _|(?:abbrev )?mutual$)", line):
                    # What stands in it are definitions like others.
                    open_block = None
                    continue
                begins = BEGINS.match(line)
                declares = begins and (re.search(r"\b(?:abbrev|opaque|unfoldable|record|data)\b|^ *pub ", line[:begins.end()]) or line[begins.end():].startswith(" :"))
                inner = open_block is not None and len(line) - len(line.lstrip()) > indent
                if declares and not inner:
                    indent, kind, open_block = len(begins[1]), begins[2], begins[3]
                    self.lines.setdefault(open_block, [])
                if open_block is None:
                    continue
                self.lines[open_block].append(line)
                if inner and kind == "data " and (case := re.match(r" *(" + NAME + r") *:", line)):
                    self.parts[case[1]] = open_block

    def bring(self, used, is_passed_on):
        path, names, alias = used.groups()
        if names is None:
            self.aliases[alias or path.rsplit(".", 1)[1]] = path
            return
        for name in names.split(","):
            old, _, new = name.strip().partition(" as ")
            self.brought[new or old] = (path, old)
        if is_passed_on:
            self.passed_on.append(path)


def modules():
    found = {}
    for path in glob.glob(os.path.join(TOP, "crates", "*", "specs", "*.antt")):
        crate = path.split(os.sep)[-3]
        found[f"Rattle.{crate}.specs.{os.path.basename(path)[:-5]}"] = Module(path)
    return found


MODULES = modules()


def definition(path, name):
    """The module and the name of what this name of this module is, where a file of specs/ defines it."""
    module = MODULES.get(path)
    if module is None:
        return None
    if name in module.lines:
        return path, name
    if name in module.parts:
        return path, module.parts[name]
    if name in module.brought:
        return definition(*module.brought[name])
    return None


def names_in(path, name):
    """What a definition has in it."""
    module = MODULES[path]
    for line in module.lines[name]:
        if field := FIELD.match(line):
            line = line[field.end():]
        for word, more in WORD.findall(line):
            if more and word in module.aliases:
                found = definition(module.aliases[word], more[1:].split(".")[0])
            else:
                found = definition(path, word)
            if found and found != (path, name):
                yield found


def definitions(names):
    """What these names of promise_spec are."""
    return [definition(*f"Rattle.promise_spec.specs.{name}".rsplit(".", 1)) for name in names]


def reached(roots, but=()):
    """All that is reached from these names of promise_spec, but for what only the others lead to. Those count, as names do."""
    open_names = definitions(roots)
    seen = set(open_names)
    closed = set(definitions(but))
    while open_names:
        for found in names_in(*open_names.pop()):
            if found not in seen:
                seen.add(found)
                if found not in closed:
                    open_names.append(found)
    return seen


def size(seen):
    """How many definitions, and in how many lines."""
    return len(seen), sum(len(MODULES[path].lines[name]) for path, name in seen)


def tell(roots):
    """Prints what is reached, file by file."""
    files = collections.defaultdict(list)
    for path, name in reached(roots):
        files[path].append((len(MODULES[path].lines[name]), name))
    for path in sorted(files):
        print(sum(lines for lines, _ in files[path]), path, " ".join(f"{name}:{lines}" for lines, name in sorted(files[path], reverse=True)))
    print("%d definitions, %d lines" % size(reached(roots)))


def row_of(circle):
    """A row of the table: what stands before its numbers, and they."""
    return re.compile(r"^(\| " + re.escape(circle) + r" \|.*\|) ([\d,]+) \| ([\d,]+) \|$", re.M)


def is_told(told, counted):
    return abs(told - counted) * 100 <= counted


def look():
    rows = Rows("circles")
    with open(DOCUMENT) as file:
        text = file.read()
    for circle, (roots, but) in CIRCLES.items():
        counted = size(reached(roots, but))
        row = row_of(circle).search(text)
        told = row and tuple(int(count.replace(",", "")) for count in row.groups()[1:])
        rows.row(f"{circle}: DEFINITIONS.md tells {told}, and there are {counted}", bool(told) and all(map(is_told, told, counted)), True)
    rows.end()


def write():
    with open(DOCUMENT) as file:
        text = file.read()
    for circle, (roots, but) in CIRCLES.items():
        many, lines = size(reached(roots, but))
        text = row_of(circle).sub(rf"\g<1> {many:,} | {lines:,} |", text)
    with open(DOCUMENT, "w") as file:
        file.write(text)


if __name__ == "__main__":
    if sys.argv[1:] == ["--write"]:
        write()
    elif sys.argv[1:]:
        tell(sys.argv[1:])
    else:
        look()
